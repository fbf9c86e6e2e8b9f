"""Calls of each letter at and beyond every most of document 01, and the rows of its table."""

from itertools import combinations, product
from typing import Callable

from calls import MOST_BYTES, MOST_SETS, line_of_call
from frames import text_of
from random_calls import NO_END_OF_BUDGET, length_of_text
from refused_calls import TOO_LONG
from resolver import ask

EVERY_BIT = 0xFFFFFFFF
Call = tuple


def clause(*literals: int) -> bytes:
    """A clause with its 0; literals are written 1, -1 as in document 01."""
    return bytes(literal if literal > 0 else 128 - literal for literal in literals) + b"\0"


def units(first: int, last: int, sign: int = 1) -> bytes:
    """A one-literal clause of each variable from first to last."""
    return b"".join(clause(sign * variable) for variable in range(first, last + 1))


FULL = clause(*[1] * 127)
P10_CLAUSES = clause(1, 2) + clause(1, -2) + clause(-1, 2)
IMPLIED = clause(1) + b"".join(clause(-each, each + 1) for each in range(1, 64))


# Ask: count, clauses, assumed, budget, room.

def pigeons(holes: int) -> tuple[int, bytes]:
    """One pigeon more than holes, each in a hole, no two in the same: no model, many visits."""
    def at(pigeon: int, hole: int) -> int:
        return pigeon * holes + hole + 1
    housed = [clause(*(at(pigeon, hole) for hole in range(holes))) for pigeon in range(holes + 1)]
    alone = [clause(-at(first, hole), -at(second, hole)) for hole in range(holes)
             for first, second in combinations(range(holes + 1), 2)]
    return (holes + 1) * holes, b"".join(housed + alone)


def with_budgets(count: int, clauses: bytes, assumed: bytes = b"") -> list[Call]:
    """The ask with the budgets 0, one below its visit count, exactly that, and the most."""
    number, visits, model = ask(count, clauses, assumed, NO_END_OF_BUDGET, bytes(count))
    return [(count, clauses, assumed, budget, count)
            for budget in (0, visits - 1, visits, NO_END_OF_BUDGET)]


def searched_asks() -> list[Call]:
    every_literal_but_one = clause(*range(1, 65), *range(-63, 0))
    given = [(0, b""), (0, b"\0"), (2, b""), (64, b""), (2, P10_CLAUSES),
             (2, P10_CLAUSES + clause(-1, -2)), (64, IMPLIED), (64, IMPLIED, b"\xC0"),
             pigeons(2), pigeons(3), (64, every_literal_but_one), (3, clause(1, 1)),
             (2, clause(1, -1)), (64, units(1, 64, -1)), (64, b"", bytes(range(1, 65)))]
    return [call for arguments in given for call in with_budgets(*arguments)]


def judged_asks() -> list[Call]:
    clauses = [(65, b""), (65, clause(65)), (0x101, b""), (0xFFFFFFFF, b""), (0, clause(1)),
               (0, b"\0\0"), (1, FULL), (1, TOO_LONG), (1, clause(-1) + TOO_LONG),
               (1, TOO_LONG + clause(-1)), (1, TOO_LONG[:-1]), (64, clause(*range(1, 65)) + b"\0"),
               (64, clause(*range(1, 65), *range(-64, 0))), (1, FULL * 64), (1, FULL * 64 + b"\0"),
               (1, bytes(8192)), (2, clause(3)), (2, clause(-3)), (2, clause(1, 2, 3)),
               (2, clause(1) + clause(3)), (2, clause(1, -1, 3)), (2, b"\x80\0"),
               (2, b"\x01\x80\0"), (2, clause(1) + b"\x80"), (2, clause(1) + b"\x03"),
               (64, clause(64) + clause(-64)), (64, b"\x7F\0"), (64, b"\xFF\0"), (2, b"\x01"),
               (2, b"\0\x01"), (2, b"\x01\0\x82")]
    assumed = [(0, b"\x01"), (2, b"\0"), (2, b"\x80"), (2, b"\x03"), (2, b"\x83"), (2, b"\x01\0"),
               (2, b"\x01\x80"), (2, b"\x01\x81"), (2, b"\x02\x82\x01"), (64, b"\x40" * 64),
               (64, b"\x40" * 65), (64, bytes(range(129, 193)))]
    return ([(count, buffer, b"", NO_END_OF_BUDGET, min(count, 99)) for count, buffer in clauses]
            + [(count, b"", literals, NO_END_OF_BUDGET, count) for count, literals in assumed])


def rooms_of_asks() -> list[Call]:
    """Model buffers one short, empty and longer than needed, also under None and Spent."""
    return [(1, b"", b"", 9, 0), (64, b"", b"", 99, 63), (64, b"", b"", 99, 0),
            (2, b"\0", b"", 9, 1), (2, P10_CLAUSES, b"", 2, 1), (2, P10_CLAUSES, b"", 3, 5),
            (2, P10_CLAUSES, b"", 2, 5), (2, b"\0", b"", 9, 5), (0, b"", b"", 1, 4),
            (64, IMPLIED, b"", 1, 66), (2, P10_CLAUSES, b"", 0x80000000, 2),
            (1, clause(-1), b"", 1, MOST_BYTES)]


def limit_asks() -> list[Call]:
    return searched_asks() + judged_asks() + rooms_of_asks()


# List: count, hard, soft, room, scratch.

# The setups of document 01's table, by its names.
TABLE: dict[str, tuple[int, bytes, bytes]] = {
    "P1": (0, b"", b""),
    "P2": (1, clause(-1), clause(1)),
    "P3": (1, clause(1) + clause(-1), clause(1)),
    "P4": (4, clause(-1, -2) + clause(-2, -3) + clause(-3, -4), units(1, 4)),
    "P5": (1, clause(-1), clause(1) + clause(1)),
    "P6": (1, b"", clause(1) + clause(-1)),
    "P7": (1, b"", clause() + clause(1)),
    "P8": (1, b"", clause(1, -1)),
    "P14": (3, clause(-1, -2) + clause(-1, -3), units(1, 3)),
}


def both_sides(variables: int) -> bytes:
    """The settings v and not v of each variable, so that there are 2^variables ways out."""
    return b"".join(clause(each) + clause(-each) for each in range(1, variables + 1))


def limit_setups() -> list[tuple[int, bytes, bytes]]:
    variables = [(64, b"", b""), (64, clause(64), clause(-64)), (65, b"", b""),
                 (65, b"", clause(65)), (0xFFFFFFFF, b"", b""), (0, b"\0", b""), (0, b"", b"\0"),
                 (64, units(1, 64), units(1, 16, -1) + units(17, 32)), (0, b"\0", b"\0"),
                 (64, units(1, 64, -1), units(33, 64)), (0, b"", clause(1))]
    settings = [(32, units(1, 32, -1), units(1, 32)), (1, b"", clause(1) * 32),
                (1, b"", clause(1) * 33), (1, b"\0", clause(1) * 33), (0, b"", b"\0" * 32),
                (0, b"", b"\0" * 33), (1, b"", clause(1, -1) * 33),
                (1, clause(-1), clause(1) * 31 + clause(-1)),
                (1, b"", clause(1) * 16 + clause(-1) * 16)]
    sizes = [(1, FULL, FULL), (1, TOO_LONG, b""), (1, b"", TOO_LONG), (1, TOO_LONG[:-1], b""),
             (1, b"", TOO_LONG[:-1]), (1, FULL * 64, clause(-1)),
             (1, FULL * 64 + b"\0", clause(-1)), (1, b"", FULL * 16), (1, b"", FULL * 16 + b"\0")]
    literals = [(2, clause(3), b""), (2, b"", clause(3)), (2, b"", clause(-3)), (2, b"\x80\0", b""),
                (2, b"", b"\x80\0"), (2, b"\x01", b""), (2, b"", b"\x01"),
                (2, clause(1) + b"\x02", clause(3)), (2, clause(1, -1, 3), b""),
                (2, b"", clause(1) + clause(2) + b"\x03")]
    return variables + settings + sizes + literals


def limit_lists() -> list[Call]:
    calls = [(*setup, 8, 9) for setup in [*TABLE.values(), *limit_setups()]]
    # Rooms empty, one short and exact; scratches empty, one short, exact and longer.
    calls += [(*TABLE[name], room, scratch) for name in ("P1", "P3", "P4") for room in range(5)
              for scratch in (0, room, room + 1, room + 4)]
    calls += [(10, b"", both_sides(10), room, scratch) for room, scratch in
              ((1024, 1025), (1023, 1024), (1024, 1024), (1025, 1026), (1024, 1030))]
    calls += [(*TABLE["P4"], room, scratch) for room, scratch in
              ((1024, 1025), (1025, 1026), (1025, 0), (MOST_SETS, MOST_SETS), (3, MOST_SETS))]
    return calls + [(5, b"", both_sides(5), 32, 33), (5, b"", both_sides(5), 31, 32),
                    (13, b"", both_sides(13), 1024, 1025), (13, units(1, 12), both_sides(13), 2, 3)]


# Turn: settings, list, room, scratch. Mark: settings, list, room.

PAIRS_OF_FOUR = [3, 5, 6, 9, 10, 12]


def disjoint_pairs(many: int) -> list[int]:
    return [3 << 2 * pair for pair in range(many)]


def one_of_each_pair(many: int) -> list[int]:
    return sorted(sum(1 << 2 * pair + side for pair, side in enumerate(sides))
                  for sides in product((0, 1), repeat=many))


def triples(settings: int) -> list[int]:
    return sorted(sum(1 << each for each in three) for three in combinations(range(settings), 3))


def right_lists() -> list[tuple[int, list[int]]]:
    return [(0, []), (0, [0]), (1, []), (1, [0]), (1, [1]), (32, []), (32, [0]), (32, [1]),
            (32, [0x80000000]), (32, [EVERY_BIT]), (31, [0x7FFFFFFF]),
            (32, [1 << place for place in range(32)]), (32, [0x7FFFFFFF, 0x80000000]),
            (32, [0x0000FFFF, 0xFFFF0000]), (32, [0xFFFF, 0x1FFFE, 0x80000001]),
            (4, PAIRS_OF_FOUR), (4, [3, 6, 12]), (4, [5, 6, 10]), (2, [1, 2]), (2, [3]),
            (3, [1, 6]), (6, triples(6)), (32, disjoint_pairs(4)), (8, one_of_each_pair(4)),
            (5, [7, 11, 19, 28])]


def wrong_lists() -> list[tuple[int, list[int]]]:
    """Each way to be List, at the first, a middle and the last place, and at the edges."""
    good, lists = PAIRS_OF_FOUR, []
    for place in (0, 3, 5):
        each, rest = good[place], good[:place] + good[place + 1:]
        swapped = min(place, 4)
        lists += [good[:swapped] + [good[swapped + 1], good[swapped]] + good[swapped + 2:],
                  good[:place] + [each] + good[place:],
                  good[:place] + [each | 16] + good[place + 1:],
                  sorted(rest + [each | 16]),
                  sorted(rest + [each | rest[0]]),
                  sorted(rest + [each | rest[-1]]),
                  sorted(rest + [each & -each]),
                  good[:place] + [0] + good[place:]]
    return [(4, sets) for sets in lists] + [
        (1, [0, 1]), (4, [0, 0]), (4, [0, 3]), (4, [3, 15]), (4, [1, 6, 14]), (4, [16]), (0, [1]),
        (0, [0x80000000]), (31, [0x80000000]), (31, [1, 0x80000000]), (31, [EVERY_BIT]),
        (32, [0x80000000, 0x80000000]), (32, [0x80000000, 0x80000001]), (32, [1, EVERY_BIT]),
        (32, [0, EVERY_BIT]), (32, [0x80000000, 1])]


def too_many_settings() -> list[tuple[int, list[int]]]:
    return [(33, []), (33, [1]), (64, [1]), (0x100, []), (0x80000000, []), (0xFFFFFFFF, [0])]


# 1,024 sets that are a list, 1,024 of which the last is none, and 1,025 that would be one.
FULL_LIST = one_of_each_pair(10)
FULL_WRONG_LIST = FULL_LIST[:-1] + [0xFFFFF]
LONG_LIST = triples(20)[:1025]


def limit_turns() -> list[Call]:
    calls = [(settings, sets, 32, 33)
             for settings, sets in right_lists() + wrong_lists() + too_many_settings()]
    # Rooms empty, one short and exact; scratches empty, one short, exact and longer.
    calls += [(settings, sets, room, scratch)
              for settings, sets in ((0, []), (0, [0]), (4, PAIRS_OF_FOUR), (1, [0, 1]))
              for room in (0, 1, 3, 4, 5) for scratch in (0, room, room + 1, room + 4)]
    calls += [(20, disjoint_pairs(10), room, scratch) for room, scratch in
              ((1024, 1025), (1023, 1024), (1024, 1024), (1025, 1026), (1024, 1030))]
    return calls + [(20, FULL_LIST, 10, 11), (20, FULL_LIST, 9, 10), (20, FULL_WRONG_LIST, 10, 11),
                    (20, LONG_LIST, 10, 11), (32, [EVERY_BIT], 31, 32),
                    (32, disjoint_pairs(16), 1024, 1025), (4, [3, 5], MOST_SETS, MOST_SETS),
                    (4, [3, 5], 4, MOST_SETS), (4, [0] * MOST_SETS, 4, 5)]


def limit_marks() -> list[Call]:
    calls = [(settings, sets, settings) for settings, sets in right_lists() + wrong_lists()]
    calls += [(settings, sets, 40) for settings, sets in too_many_settings()]
    calls += [(settings, sets, room)
              for settings, sets in ((32, [1]), (4, PAIRS_OF_FOUR), (4, [5, 6]), (1, [0, 1]))
              for room in (0, settings - 1, settings, settings + 1, settings + 9)]
    return calls + [(32, FULL_LIST, 32), (20, FULL_WRONG_LIST, 20), (20, LONG_LIST, 20),
                    (0, [], 3), (4, [3, 5], MOST_BYTES)]


# Read: text, hard room, soft room.

GOOD_LINES = [b"1003\n", b"2001\n", b"30\n", b"3082AF03\n", b"20\n", b"30FF80\n", b"FF\n"]
TOO_LONG_LINE = b"20" + b"01" * 128 + b"\n"


def wrong_texts() -> list[bytes]:
    """Each class of Frame, at the first, a middle and the last line."""
    texts = [b"", b"\n", b"FF\n", b"1003\n", b"1003", b"1003\nFF", b"1003\r\nFF\r\n", b"FF\n1003\n",
             b"10\nFF\n", b"1003FF\n", b"1003\n1003\nFF\n", b"1003\n1003\n", b"1003\n00\nFF\n",
             b"2001\n1003\nFF\n", b"1003\n20\n", b"20\nFF\n", b"1003\nFF\n20\nFF\n",
             b"1003\n2001003\nFF\n", b"1003\n2000\nFF\n", b"1003\n300001\nFF\n",
             b"1003\n30010003\nFF\n"]
    for place in (0, 3, 6):
        before, after = b"".join(GOOD_LINES[:place]), b"".join(GOOD_LINES[place + 1:])
        texts += [before + other + after for other in wrong_instead_of(GOOD_LINES[place][:-1])]
    return texts


def wrong_instead_of(line: bytes) -> list[bytes]:
    """What makes any text Frame if it stands there instead of this line and its LF."""
    return ([line[:-1] + b"a\n", line + b"\r\n", line + b"0\n", line[:-1] + b"\n", line + b" \n",
             b" " + line + b"\n", line + b"00\n", b"\n", b"\n" + line + b"\n", line + b"\n\n",
             line + b"\n1003\n", b"1003\n" + line + b"\n", line + b"\nFF\n", b"FF\n" + line + b"\n",
             line + b"\n" + TOO_LONG_LINE, TOO_LONG_LINE + line + b"\n",
             line.ljust(258, b"0") + b"\n", line + b"0" * 258 + b"\n"]
            + [kind + line[2:] + b"\n"
               for kind in (b"00", b"01", b"0F", b"11", b"21", b"2F", b"31", b"40", b"FE")]
            + [line[:1] + byte + line[2:] + b"\n"
               for byte in (b"/", b":", b"@", b"G", b"`", b"g", b"\0", b"\x80", b"\xFF", b"\t")])


def near_texts() -> list[bytes]:
    """Texts with a line gone, joined to the next, or one more: some of them good."""
    texts = []
    for place in range(len(GOOD_LINES)):
        line, before, after = GOOD_LINES[place], GOOD_LINES[:place], GOOD_LINES[place + 1:]
        texts += [b"".join(before + instead + after)
                  for instead in ([], [line[:-1]], [line[:-1], b"01\n"], [b"2001\n", line],
                                  [line, b"30\n"])]
    return texts


# Good texts of 32,768 and 32,769 bytes.
MOST_TEXT = text_of(1, bytes(10919), b"\0")
MORE_TEXT = text_of(1, bytes(10918), b"\x01\x02\0")


def limit_reads() -> list[Call]:
    good, longest = b"".join(GOOD_LINES), b"01" * 127
    calls = [(text, 9, 9) for text in wrong_texts() + near_texts()]
    calls += [(good, hard, soft) for hard in (0, 2, 3, 4) for soft in (0, 7, 8, 9)]
    calls += [(b"1003\nFF\n", 0, 0), (b"10FF\nFF\n", 2, 0), (b"1000\n20\nFF\n", 1, 0),
              (b"1000\n20\nFF\n", 0, 1), (b"1000\n30\nFF\n", 0, 1), (b"1000\n30\nFF\n", 1, 0),
              (good[:-1], 0, 0), (b"", 0, 0), (b"1001\n20" + longest + b"\nFF\n", 128, 0),
              (b"1001\n20" + longest + b"\nFF\n", 127, 0),
              (b"1001\n30" + longest + b"\nFF\n", 0, 129),
              (b"1001\n30" + longest + b"01\nFF\n", 0, 200),
              (b"1001\n20" + longest[:-2] + b"00\nFF\n", 200, 0),
              (b"1003\n208384\nFF\n", 9000, 3000)]
    # The longer text also breaks Frame and has no room: "Read: 2, 11, 12".
    return calls + [(MOST_TEXT, 10919, 1), (MORE_TEXT[:-1] + b"\r", 0, 0)]


# Write: count, hard, soft, room.

def limit_writes() -> list[Call]:
    calls = [(*setup, 600) for setup in [*TABLE.values(), *limit_setups()]]
    calls += [(count, hard, soft, length_of_text(hard, soft) + more)
              for count, hard, soft in [*TABLE.values(), (64, b"\0\0", b"\0"), (1, FULL, FULL)]
              for more in (-1, 0, 1, 7)]
    # The longest text of all: 8,192 empty hard clauses, and 32 settings in 2,048 bytes.
    return calls + [(0, b"", b"", 0), (1, bytes(8192), clause(*[1] * 63) * 32, 28712)]


LIMITS: dict[str, Callable[[], list[Call]]] = {
    "A": limit_asks, "L": limit_lists, "T": limit_turns,
    "M": limit_marks, "R": limit_reads, "W": limit_writes,
}


def limit_lines(letter: str) -> list[bytes]:
    return [line_of_call(letter, *call) for call in LIMITS[letter]()]
