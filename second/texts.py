"""Writes the compared texts: `stdin`, each ended by a byte 00, from a fixed seed, and `stdout`, the
lines that waysout.py answers them by.

    python3 second/texts.py FOLDER      such as crates/texts
"""

import argparse
from itertools import combinations
from pathlib import Path
from random import Random

from frames import text_of
from limit_calls import (MORE_TEXT, MOST_TEXT, TABLE, both_sides, clause, limit_setups, near_texts,
                         units, wrong_texts)
from random_calls import damaged_lines, one_in, setup_of_call
from waysout import waysout

SEED = 3
RANDOM_TEXTS = 300
EXAMPLES = Path(__file__).resolve().parent.parent / "examples"
# The input of "The program's lines", whole.
SAMPLE = text_of(*TABLE["P4"])
# No frames are written with this byte.
TEXT_END = b"\0"
# What a header's one byte can say.
MOST_COUNT = 255

Setup = tuple[int, bytes, bytes]


# Setups at and beyond the most of what the program can list.

def one_or_pairs(pairs: int) -> Setup:
    """A setting that can't stand beside both of any pair, and the pairs: it alone is a way out,
    and so is one of each pair, 2^pairs + 1 in all."""
    hard = b"".join(clause(-1, -2 * pair, -2 * pair - 1) for pair in range(1, pairs + 1))
    return 2 * pairs + 1, hard, units(1, 2 * pairs + 1)


def equal_pairs(pairs: int, others: bytes = b"") -> Setup:
    """Pairs of equal settings, not all of which can be had: one of each pair is a clash, 2^pairs
    in all. Other settings may follow."""
    soft = b"".join(clause(-each) * 2 for each in range(1, pairs + 1))
    return pairs, clause(*range(1, pairs + 1)), soft + others


def one_at_a_time(settings: int) -> Setup:
    """Each setting needs a variable of its own, and no two of these can be 1: every two settings
    are a clash, and all but one are a way out."""
    needs = [clause(1 - 2 * each, 2 * each) for each in range(1, settings + 1)]
    apart = [clause(-2 * one, -2 * two) for one, two in combinations(range(1, settings + 1), 2)]
    soft = b"".join(clause(2 * each - 1) for each in range(1, settings + 1))
    return 2 * settings, b"".join(needs + apart), soft


def full_setups() -> list[Setup]:
    """1,024 and 1,025 ways out, 1,024 and 1,025 clashes (the empty setting is one by itself), and
    64 variables with 32 settings."""
    return [(10, b"", both_sides(10)), one_or_pairs(10), equal_pairs(10), equal_pairs(10, b"\0"),
            one_at_a_time(32)]


# Texts.

def long_texts() -> list[bytes]:
    """The longest text that the program has room for, 30,728 bytes; good and broken texts of
    32,768 bytes, which are refused by 12 and 11, and of 32,769 bytes."""
    return [text_of(0, bytes(8192), bytes(2048)), MOST_TEXT, MOST_TEXT[:-1] + b"\r",
            MORE_TEXT, MORE_TEXT[:-1] + b"\r"]


def random_text(random: Random) -> bytes:
    """A small setup, its clauses in any mixture; one text in three is damaged."""
    count, hard, soft = setup_of_call(random)
    header, *clauses, end = text_of(min(count, MOST_COUNT), hard, soft).splitlines(keepends=True)
    lines = [header, *random.sample(clauses, len(clauses)), end]
    return damaged_lines(random, lines) if one_in(random, 3) else b"".join(lines)


def texts() -> list[bytes]:
    """The texts in order, document 01's sample first."""
    examples = [path.read_bytes() for path in sorted(EXAMPLES.glob("*.hex"))]
    setups = [*TABLE.values(), *limit_setups(), *full_setups()]
    written = [text_of(min(count, MOST_COUNT), hard, soft) for count, hard, soft in setups]
    random = Random(SEED)
    drawn = [random_text(random) for _ in range(RANDOM_TEXTS)]
    every = [SAMPLE, *examples, *written, *long_texts(), *wrong_texts(), *near_texts(), *drawn]
    return [text for text in every if TEXT_END not in text]


def main() -> None:
    parser = argparse.ArgumentParser(description="writes the files stdin and stdout of the texts")
    parser.add_argument("folder", type=Path)
    folder = parser.parse_args().folder
    given = texts()
    (folder / "stdin").write_bytes(b"".join(text + TEXT_END for text in given))
    (folder / "stdout").write_bytes(b"".join(waysout(text) for text in given))


if __name__ == "__main__":
    main()
