"""The program `waysout` of document 01: ways out and clashes of the frames on standard input."""

import sys

from frames import line_of, read
from resolver import (DONE, MOST_HARD_BYTES, MOST_SETS, MOST_SOFT_BYTES, UNMET, clauses_of,
                      list_ways_out, turn)


def waysout(text: bytes) -> bytes:
    """What the program puts out for this input."""
    outcome, ways_out, clashes = outcome_of(text)
    return (b"".join(set_line(0x40, way_out) for way_out in ways_out)
            + b"".join(set_line(0x50, clash) for clash in clashes)
            + closing_line(outcome, len(ways_out), len(clashes)))


def outcome_of(text: bytes) -> tuple[int, list[int], list[int]]:
    """(outcome, ways out, clashes): "the first refusal number that Read, List or Turn gives"."""
    # "It lends 8,192, 2,048 and twice 1,024 places, and a scratch of 1,025."
    list_places, scratch = [0] * MOST_SETS, [0] * (MOST_SETS + 1)
    number, count, hard_filled, soft_filled, hard, soft = read(
        text, bytes(MOST_HARD_BYTES), bytes(MOST_SOFT_BYTES))
    if number != DONE:
        return number, [], []
    hard, soft = hard[:hard_filled], soft[:soft_filled]
    number, filled, sets, scratch = list_ways_out(count, hard, soft, list_places, scratch)
    if number == UNMET:
        # "Under Unmet the empty set is the only clash."
        return UNMET, [], [0]
    if number != DONE:
        return number, [], []
    ways_out = sets[:filled]
    number, filled, sets, scratch = turn(len(clauses_of(soft)), ways_out, list_places, scratch)
    return (DONE, ways_out, sets[:filled]) if number == DONE else (number, [], [])


def set_line(kind: int, each: int) -> bytes:
    """Such as "40 and a set in four bytes, high byte first"."""
    return line_of(bytes([kind]) + each.to_bytes(4, "big"))


def closing_line(outcome: int, ways_out: int, clashes: int) -> bytes:
    """It is "60, one outcome byte, the two-byte number of ways out, the two-byte number of
    clashes"."""
    counts = ways_out.to_bytes(2, "big") + clashes.to_bytes(2, "big")
    return line_of(bytes([0x60, outcome]) + counts)


if __name__ == "__main__":
    sys.stdout.buffer.write(waysout(sys.stdin.buffer.read()))
