"""Tells what the program waysout answered, in words.

    python3 scripts/explain.py TEXT ANSWER [FILE]

TEXT is the setup, ANSWER what the program put out for it. The settings' names stand beside FILE, where the text came from, in a file of
that name but ending in .names, one a line in their order; a setting that has none is called by its number. Nothing is decided here: the
marks are asked of the job Mark, through the program `calls`.
"""

import signal
import subprocess
import sys
from pathlib import Path

RUN = Path(__file__).resolve().parent / "run"
WAY_OUT, CLASH = "40", "50"
LISTED, UNMET = 0x00, 0x80
MOST_SETTINGS = 32

# Document 01's refusals, as far as the program can give them.
REFUSALS = {
    1: "it has more than 64 variables",
    2: "it is longer than 32,768 bytes",
    4: "a rule or a setting names a variable that it hasn't",
    7: "it has more than 32 settings",
    8: "it has more than 1,024 ways out or more than 1,024 clashes",
    11: "it isn't a setup: a line isn't a frame, or the header or the end is missing",
    12: "its rules take more than 8,192 bytes or its settings more than 2,048",
}

MARKS = {"K": "kept, no way out gives it up", "L": "lost, every way out gives it up", "O": "open, some ways out give it up"}


def named(files: list[str]) -> list[str]:
    """The settings' names, and numbers for those that have none."""
    beside = [Path(each).with_suffix(".names") for each in files]
    names = [name for path in beside if path.is_file() for name in path.read_text(encoding="utf-8").splitlines()]
    return names + [f"setting {number}" for number in range(len(names) + 1, MOST_SETTINGS + 1)]


def sets_of(kind: str, lines: list[str]) -> list[int]:
    return [int(line[2:], 16) for line in lines if line.startswith(kind)]


def told(value: int, names: list[str]) -> str:
    """The settings of a set by name."""
    return ", ".join(names[place] for place in range(MOST_SETTINGS) if value >> place & 1) or "nothing"


def marks_of(settings: int, ways_out: list[int]) -> str:
    """A letter for each setting, as the job Mark gives them."""
    given = "".join(f"{each:08X}" for each in ways_out) or "-"
    call = f"M {settings:08X} {given} {settings:08X}\n"
    answer = subprocess.run([RUN, "calls"], input=call, capture_output=True, text=True, check=True).stdout
    marks = answer.split()[3]
    return "" if marks == "-" else bytes.fromhex(marks).decode("ascii")


def print_sets(title: str, sets: list[int], names: list[str]) -> None:
    print(title)
    for each in sets:
        print(f"  - {told(each, names)}")


def print_listed(settings: int, ways_out: list[int], clashes: list[int], names: list[str]) -> None:
    if ways_out == [0]:
        print("All of it can be had together: nothing has to be given up.")
    else:
        print("Not all of it can be had together.")
        print_sets(f"Ways out ({len(ways_out)}): give up the settings of one line, and the rest can be had.", ways_out, names)
        print_sets(f"Clashes ({len(clashes)}): the settings of one line can't all be had.", clashes, names)
    print(f"Settings ({settings}):")
    for name, mark in zip(names, marks_of(settings, ways_out)):
        print(f"  - {name}: {MARKS[mark]}")


def main() -> None:
    # Whoever reads only the first lines ends this quietly.
    signal.signal(signal.SIGPIPE, signal.SIG_DFL)
    text, answer = (Path(each) for each in sys.argv[1:3])
    lines = answer.read_text(encoding="ascii").splitlines()
    outcome = int(lines[-1][2:4], 16)
    if outcome == LISTED:
        settings = sum(line.startswith(b"30") for line in text.read_bytes().splitlines())
        print_listed(settings, sets_of(WAY_OUT, lines), sets_of(CLASH, lines), named(sys.argv[3:4]))
    elif outcome == UNMET:
        print("The hardware rules contradict themselves: nothing can be had, whatever is given up.")
    else:
        print(f"The setup is refused, number {outcome}: {REFUSALS[outcome]}.")


if __name__ == "__main__":
    main()
