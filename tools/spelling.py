#!/usr/bin/env python3
"""Brings the repository's own definitions and lemmas to today's spelling, once, after the kit's scripts have turned the rest.

usage: python3 tools/spelling.py [--show]     at the top of the repository; --show lists the names and changes nothing

Words are in snake case (`settingsMost` is `settings_most`, `example-in` is `example_in`); a dash stays after a first capital, where it joins
a fact or a row of the table to a word (`T-dec`, `P4-hard`); `′` is `'`. Types, modules, functions of src/, strings, inputs and outputs keep
their names, and so do the names that a check makes, which the files of a function's own proof cite.
"""
import os
import re
import sys

# What a name of antt is made of: all but spaces and these.
TOKEN = re.compile(r"[^\s(){}.;,⌜⌝@\"`:\[\]|]+")
# Names that would fall together: what is defined keeps the name, and the lemma of it gets another.
APART = {
    "first-clause": "first_clause_lem",
    "getD-pad": "get_or_pad",
    "given_out": "given_out_lem",
    "hard-then": "hard_then_is",
    "is_false": "is_false_lem",
    "line-bytes": "line_bytes_lem",
    "long_after": "long_after_lem",
    "no-literal": "no_literal_lem",
    "no-model": "no_model_lem",
    "searched-result": "searched_result_lem",
    "soft-then": "soft_then_is",
    "text-most": "text_most_lem",
}
DECLARED = re.compile(r"^\s*(?:(?:pub|abbrev|unfoldable|private)\s+)*([^\s(){}.;,:\"`|]+)\s*(?:[({][^=]*[)}]\s*)*:(?:\s|$)")
# A variable or an import's other name of several words.
CAMEL = re.compile(r"[a-z][a-z0-9]*(?:[A-Z][a-z0-9]*)+")
LET = re.compile(r"\blet\s+([^\s(){}.;,:\"`]+)\s*[:=]")


def files(ends):
    for folder, dirs, names in os.walk("crates"):
        dirs[:] = sorted(d for d in dirs if d != "out")
        for name in sorted(names):
            if name.endswith(ends):
                yield os.path.join(folder, name)


def read(path):
    with open(path, encoding="utf-8", newline="") as f:
        return f.read()


def write(path, text):
    with open(path, "w", encoding="utf-8", newline="") as f:
        f.write(text)


def own(path):
    """A file of definitions or lemmas, and no function's own proof."""
    return path.endswith(".antt") and not re.search(r"/proofs/.+/(Proof|Answers|Invariants)\.antt$", path)


def uncommented(text):
    return re.sub(r"(?m)^\s*--.*$", "", text)


def spelled(name):
    name = name.replace("′", "'")
    if not re.match(r"[a-z]", name):
        return name
    name = re.sub(r"(?<=[a-z0-9])([A-Z])(?=[a-z])", lambda m: "_" + m.group(1).lower(), name)
    return name.replace("-", "_")


def renamed():
    table = {}
    for path in files(".antt"):
        if not own(path):
            continue
        for name in TOKEN.findall(uncommented(read(path))):
            if CAMEL.fullmatch(name):
                table[name] = spelled(name)
        for line in read(path).split("\n"):
            if line.lstrip().startswith(("--", "use ", "pub mod ", "mod ")):
                continue
            for found in (DECLARED.match(line), *LET.finditer(line)):
                if found and spelled(found.group(1)) != found.group(1):
                    table[found.group(1)] = spelled(found.group(1))
    # those that a `ghost use` gives in code
    for path in files((".rt",)):
        for name in re.findall(r" as ([\w']+)", "".join(re.findall(r"ghost use [^;]*;", read(path)))):
            if CAMEL.fullmatch(name):
                table[name] = spelled(name)
    return table | APART | {"open′": "open'"}


def turned(text, table):
    return TOKEN.sub(lambda m: table.get(m.group(0), m.group(0)), text)


def ghost_lines(text, table):
    """In code the names stand in ghost imports and in clauses; functions, strings and comments stay."""
    out, depth = [], 0
    for line in text.split("\n"):
        if line.lstrip().startswith("//"):
            out.append(line)
            continue
        if depth == 0:
            start = re.match(r"\s*(pub )?ghost use |\s*(requires|ensures|ghost)\b", line)
            if start or re.match(r"\s*ghost ", line):
                depth = line.count("{") - line.count("}")
                out.append(turned(line, table))
                if line.rstrip().endswith(";"):
                    depth = 0
                continue
            out.append(line)
        else:
            depth += line.count("{") - line.count("}")
            out.append(turned(line, table))
    return "\n".join(out)


def main():
    table = renamed()
    if "--show" in sys.argv:
        for old in sorted(table):
            print(old, table[old])
        return
    for path in files((".antt",)):
        text = read(path)
        write(path, turned(text.replace("′", "'"), table))
    for path in files((".rt",)):
        write(path, ghost_lines(read(path), table))
    for path in files((".edit",)):
        if "/must-fail/" in path:
            text = read(path)
            if "specs/" in text.split("\n")[0]:
                text = turned(text.replace("′", "'"), table)
            write(path, text)
    for folder in (".", "docs", "examples", "crates"):
        for name in sorted(os.listdir(folder)):
            path = os.path.join(folder, name)
            if name.endswith(".md") and os.path.isfile(path):
                write(path, re.sub(r"`[^`\n]*`", lambda m: turned(m.group(0), table), read(path)))


main()
