"""Writes the compared batch: `stdin`, lines for calls.py from a fixed seed, and `stdout`, its
answers.

    python3 second/batch.py FOLDER LETTERS      such as crates/calls AL
"""

import argparse
from pathlib import Path
from random import Random

from calls import ALL_JOBS, answers
from limit_calls import limit_lines
from no_calls import good_line, no_calls
from random_calls import random_line
from refused_calls import chains, pairs

SEED = 1
RANDOM_LINES = 1_100


def section(letter: str) -> list[bytes]:
    """The lines of one letter; they are the same whatever other letters the batch has."""
    # The pairs of these two have long lists and buffers; their chains tell the order as well.
    refused = chains(letter) + (pairs(letter) if letter not in "MW" else [])
    random = Random(f"{SEED} {letter}")
    return (limit_lines(letter) + [line for number, line in refused] + no_calls(letter)
            + [random_line(random, letter) for _ in range(RANDOM_LINES)])


def batch(letters: str) -> bytes:
    lines = [line for letter in letters for line in section(letter)]
    # The last piece has no LF, so it is no call, though it would be one with an LF.
    return b"".join(line + b"\n" for line in lines) + good_line(letters[0])


def main() -> None:
    parser = argparse.ArgumentParser(description="writes the files stdin and stdout of a batch")
    parser.add_argument("folder", type=Path)
    parser.add_argument("letters", help=f"some of {ALL_JOBS}")
    arguments = parser.parse_args()
    if not arguments.letters or not set(arguments.letters) <= set(ALL_JOBS):
        parser.error(f"the letters must be some of {ALL_JOBS}")
    lines = batch(arguments.letters)
    (arguments.folder / "stdin").write_bytes(lines)
    (arguments.folder / "stdout").write_bytes(answers(lines, arguments.letters))


if __name__ == "__main__":
    main()
