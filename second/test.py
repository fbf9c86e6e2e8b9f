"""The second program's own test: document 01's table and sample, random setups and lists against
the definitions, every refusal and lent place, and what the compared calls and texts hold. Run as
`python3 second/test.py`."""

import sys
from random import Random

from batch import section
from calls import ALL_JOBS, answer, answers, line_of_call, some_bytes
from definitions import (clashes_by_definition, has_model, models, turned_by_definition,
                         ways_out_by_definition)
from frame_classes import all_faults, faults
from frames import read, text_of, write
from limit_calls import (FULL, MORE_TEXT, MOST_TEXT, P10_CLAUSES, TABLE, both_sides, clause,
                         disjoint_pairs, limit_lines, one_of_each_pair, right_lists, units,
                         wrong_lists, wrong_texts)
from no_calls import good_line, no_calls
from random_calls import (NO_END_OF_BUDGET, buffer_of, few_wide_sets, length_of_text,
                          random_line, random_literal, random_setup, random_sets, small_clauses,
                          tight_clauses)
from refused_calls import TOO_LONG, chains, pairs
from resolver import (DONE, FRAME, LIST, LITERAL, LONG, NONE, ROOM, SIZE, SOFTS, SPENT, TAIL,
                      TOO_MANY, UNMET, VARS, WORK, ask, clauses_of, list_ways_out, mark, turn)
from texts import TEXT_END, equal_pairs, one_at_a_time, one_or_pairs, texts
from waysout import outcome_of, waysout

SEED = 2
passed = failed = 0


def same(what: str, got: object, wanted: object) -> None:
    """One check; a failing one is told and the test goes on."""
    global passed, failed
    if got == wanted:
        passed += 1
    else:
        failed += 1
        print(f"second: {what}\n  got    {got}\n  wanted {wanted}")


def listed(job, *arguments, room: int = 1024) -> tuple[int, list[int]]:
    """The number and the list that List or Turn gives."""
    number, filled, places, scratch = job(*arguments, [7] * room, [7] * (room + 1))
    return number, places[:filled]


# Document 01's table and sample.

WAYS_OUT = {"P1": [0], "P2": [1], "P3": [], "P4": [5, 6, 10], "P5": [3], "P6": [1, 2], "P7": [1],
            "P8": [0], "P14": [1, 6]}
CLASHES = {"P1": [], "P2": [1], "P3": [0], "P4": [3, 6, 12], "P5": [1, 2], "P6": [3], "P7": [1],
           "P8": [], "P14": [3, 5]}


def test_table() -> None:
    for name, (count, hard, soft) in TABLE.items():
        ways_out, clashes = WAYS_OUT[name], CLASHES[name]
        setup = count, clauses_of(hard), clauses_of(soft)
        settings = len(setup[2])
        same(name, listed(list_ways_out, count, hard, soft),
             (UNMET if name == "P3" else DONE, ways_out))
        same(f"{name} by definition", ways_out_by_definition(*setup), ways_out)
        same(f"{name} clashes by definition", clashes_by_definition(*setup), clashes)
        same(f"{name} turned", listed(turn, settings, ways_out), (DONE, clashes))
        same(f"{name} turned back", listed(turn, settings, clashes), (DONE, ways_out))


def test_rest_of_table() -> None:
    same("P9, room 2", list_ways_out(*TABLE["P4"], [7] * 2, [7] * 3),
         (TOO_MANY, 0, [7] * 2, [0] * 3))
    same("P9, room 3", list_ways_out(*TABLE["P4"], [7] * 3, [7] * 4),
         (DONE, 3, [5, 6, 10], [0] * 4))
    same("P10, budget 2", ask(2, P10_CLAUSES, b"", 2, b"??"), (SPENT, 0, b"??"))
    same("P10, budget 3", ask(2, P10_CLAUSES, b"", 3, b"???"), (DONE, 3, b"\1\1?"))
    same("P11", ask(2, P10_CLAUSES + clause(-1, -2), b"", 3, b"??"), (NONE, 3, b"??"))
    same("P12", ask(2, b"", b"", 3, b"??"), (DONE, 3, b"\0\0"))
    same("P13", turn(1, [0, 1], [7] * 2, [7] * 3), (LIST, 0, [7] * 2, [7] * 3))


def lines(text: str) -> bytes:
    return b"".join(line.encode("ascii") + b"\n" for line in text.split())


def test_program() -> None:
    sample = lines("1004 208182 208283 208384 3001 3002 3003 3004 FF")
    same("the sample", waysout(sample), lines("4000000005 4000000006 400000000A 5000000003"
                                              " 5000000006 500000000C 600000030003"))
    same("P3 printed", waysout(text_of(*TABLE["P3"])), lines("5000000000 608000000001"))
    same("P1 printed", waysout(text_of(*TABLE["P1"])), lines("4000000000 600000010000"))
    same("no input", waysout(b""), lines("600B00000000"))
    same("a long text", waysout(MORE_TEXT), lines("600200000000"))
    same("8,193 hard bytes", waysout(lines("1041" + " 20" * 8193 + " FF")), lines("600C00000000"))
    same("65 variables", waysout(lines("1041 3042 FF")), lines("600100000000"))
    same("33 settings", waysout(lines("1001" + " 3001" * 33 + " FF")), lines("600700000000"))
    same("ways out too many", waysout(text_of(11, b"", both_sides(11))), lines("600800000000"))
    # Eleven groups of two equal settings, one group to be lost: 11 ways out and 2,048 clashes.
    groups = b"".join(clause(each) * 2 for each in range(1, 12))
    same("clashes too many", waysout(text_of(11, clause(*range(-11, 0)), groups)),
         lines("600800000000"))
    full = waysout(text_of(10, b"", both_sides(10))).split()
    same("1,024 ways out", (len(full), full[-1]), (1024 + 10 + 1, b"60000400000A"))


# Random setups and lists against the definitions.

def test_setups(random: Random) -> None:
    for _ in range(400):
        count, hard, soft = setup = random_setup(random)
        ways_out, clashes = ways_out_by_definition(*setup), clashes_by_definition(*setup)
        number, found = listed(list_ways_out, count, buffer_of(hard), buffer_of(soft))
        same(f"ways out of {setup}", found, ways_out)
        same(f"Unmet of {setup}", number == UNMET, not has_model(count, hard))
        same(f"ways out turned of {setup}", listed(turn, len(soft), ways_out), (DONE, clashes))
        same(f"clashes turned of {setup}", listed(turn, len(soft), clashes), (DONE, ways_out))
        test_marks(len(soft), ways_out, clashes)


def test_marks(settings: int, ways_out: list[int], clashes: list[int]) -> None:
    """A setting is lost that clashes alone, and kept if it is in no clash."""
    if clashes == [0]:
        wanted = b"K" * settings
    else:
        wanted = b"".join(b"L" if 1 << place in clashes
                          else b"O" if any(clash >> place & 1 for clash in clashes) else b"K"
                          for place in range(settings))
    same(f"marks of {ways_out}", mark(settings, ways_out, b"??" + b"?" * settings),
         (DONE, settings, wanted + b"??"))


def test_lists(random: Random) -> None:
    for _ in range(400):
        settings = random.randrange(8)
        sets = random_sets(random, settings)
        found = turned_by_definition(settings, sets)
        same(f"{sets} turned", listed(turn, settings, sets), (DONE, found))
        same(f"{sets} turned twice", listed(turn, settings, found), (DONE, sets))
    for _ in range(200):
        sets = few_wide_sets(random, 32)
        same(f"{sets} turned twice", listed(turn, 32, listed(turn, 32, sets)[1]), (DONE, sets))
    same("ten pairs", listed(turn, 20, disjoint_pairs(10)), (DONE, one_of_each_pair(10)))
    same("ten pairs back", listed(turn, 20, one_of_each_pair(10)), (DONE, disjoint_pairs(10)))
    same("sixteen pairs", listed(turn, 32, disjoint_pairs(16)), (TOO_MANY, []))


def shuffled(random: Random, clauses: list[bytes]) -> list[bytes]:
    """The clauses and their literals in another order, some of them twice."""
    doubled = [each + each[:1] for each in clauses + clauses[:1]]
    return [bytes(random.sample(list(each), len(each)))
            for each in random.sample(doubled, len(doubled))]


def count_of_visits(count: int, clauses: list[bytes], found: list[tuple[int, ...]],
                    values: dict[int, int]) -> int:
    """The visit count, told apart from resolver.py: by the list of all models."""
    values = dict(values)
    while True:
        left = [{literal for literal in each if literal % 128 not in values} for each in clauses
                if not any(values.get(literal % 128) == (literal < 128) for literal in each)]
        if set() in left:
            return 1
        forced = [literal for literals in left if len(literals) == 1 for literal in literals]
        if not forced:
            break
        values[forced[0] % 128] = int(forced[0] < 128)
    free = [variable for variable in range(1, count + 1) if variable not in values]
    if not free:
        return 1
    zero, one = {**values, free[0]: 0}, {**values, free[0]: 1}
    visits = 1 + count_of_visits(count, clauses, found, zero)
    if any(all(model[each - 1] == zero[each] for each in zero) for model in found):
        return visits
    return visits + count_of_visits(count, clauses, found, one)


def test_asks(random: Random) -> None:
    for drawer in [small_clauses] * 600 + [tight_clauses] * 60:
        count, clauses = drawer(random)
        many = random.randrange(3) if count else 0
        assumed = bytes(random_literal(random, count) for _ in range(many))
        every = clauses + [bytes([literal]) for literal in assumed]
        test_ask(count, buffer_of(clauses), assumed, every, buffer_of(shuffled(random, every)))


def test_ask(count: int, clauses: bytes, assumed: bytes, every: list[bytes], other: bytes) -> None:
    """One ask with all its clauses in a list, and again as a buffer in another order."""
    what, places = f"ask {count} {every}", b"?" * (count + 1)
    found = list(models(count, every))
    visits = count_of_visits(count, every, found, {})
    wanted = ((DONE, visits, bytes(found[0]) + b"?") if found else (NONE, visits, places))
    same(what, ask(count, clauses, assumed, NO_END_OF_BUDGET, places), wanted)
    same(f"{what}, exact budget", ask(count, clauses, assumed, visits, places), wanted)
    same(f"{what}, one visit less", ask(count, clauses, assumed, visits - 1, places),
         (SPENT, 0, places))
    same(f"{what}, in another order", ask(count, other, b"", visits, places), wanted)


# Read and Write.

def test_frames(random: Random) -> None:
    for _ in range(400):
        count, hard, soft = random_setup(random)
        hard, soft = buffer_of(hard), buffer_of(soft)
        length = length_of_text(hard, soft)
        number, filled, text = write(count, hard, soft, b"?" * (length + 2))
        what = f"text of {count} {hard} {soft}"
        same(what, (number, filled, text[length:]), (DONE, length, b"??"))
        same(f"{what}, read back", read(text[:filled], hard + b"?", soft + b"??"),
             (DONE, count, len(hard), len(soft), hard + b"?", soft + b"??"))
        same(f"{what}, one place less", write(count, hard, soft, bytes(length - 1))[0], ROOM)
    for text in wrong_texts():
        same(f"read {text}", read(text, b"?" * 9, b"?" * 9), (FRAME, 0, 0, 0, b"?" * 9, b"?" * 9))
    mixed = lines("10FF 3001 20 30 2080FF FF")
    same("a mixture", read(mixed, b"?" * 5, b"?" * 3),
         (DONE, 255, 4, 3, b"\0\x80\xFF\0?", b"\x01\0\0"))
    same("a mixture, hard short", read(mixed, b"???", b"???"), (ROOM, 0, 0, 0, b"???", b"???"))
    same("a mixture, soft short", read(mixed, b"????", b"??"), (ROOM, 0, 0, 0, b"????", b"??"))
    same("the longest line", read(lines("1001 20" + "01" * 127 + " FF"), bytes(128), b"")[0], DONE)
    same("lengths", (len(MOST_TEXT), len(MORE_TEXT)), (32768, 32769))
    same("the longest text", read(MOST_TEXT, bytes(10919), bytes(1))[0], DONE)
    same("a longer text", read(MORE_TEXT, bytes(10918), bytes(3)),
         (SIZE, 0, 0, 0, bytes(10918), bytes(3)))
    same("the longest written", write(1, bytes(8192), clause(*[1] * 63) * 32, bytes(28712))[:2],
         (DONE, 28712))


# Refusals and lent places, through calls.py.

def number_of(letter: str, *fields: object) -> int:
    return int(answer(line_of_call(letter, *fields)).split(b" ")[1], 16)


# A letter, a call at a most or just right, one beyond it, and how that is refused.
BUDGET = NO_END_OF_BUDGET
TWO_SIDES = [
    ("A", (64, b"", b"", BUDGET, 64), (65, b"", b"", BUDGET, 65), VARS),
    ("A", (1, FULL * 64, b"", BUDGET, 1), (1, FULL * 64 + b"\0", b"", BUDGET, 1), SIZE),
    ("A", (9, b"", b"\x01" * 64, BUDGET, 9), (9, b"", b"\x01" * 65, BUDGET, 9), SIZE),
    ("A", (1, FULL, b"", BUDGET, 1), (1, TOO_LONG, b"", BUDGET, 1), LONG),
    ("A", (9, b"", b"", BUDGET, 9), (9, b"", b"", BUDGET, 8), ROOM),
    ("A", (9, clause(9, -9), b"", BUDGET, 9), (9, clause(-10), b"", BUDGET, 9), LITERAL),
    ("A", (9, b"", b"\x89", BUDGET, 9), (9, b"", b"\x80", BUDGET, 9), LITERAL),
    ("A", (9, b"", b"\x09", BUDGET, 9), (9, b"", b"\0", BUDGET, 9), LITERAL),
    ("A", (9, b"\x01\0", b"", BUDGET, 9), (9, b"\0\x01", b"", BUDGET, 9), TAIL),
    ("A", (0, b"", b"", 1, 0), (0, b"", b"", 0, 0), SPENT),
    ("L", (64, b"", b"", 1, 2), (65, b"", b"", 1, 2), VARS),
    ("L", (1, FULL * 64, b"", 1, 2), (1, FULL * 64 + b"\0", b"", 1, 2), SIZE),
    ("L", (1, b"", FULL * 16, 1, 2), (1, b"", FULL * 16 + b"\0", 1, 2), SIZE),
    ("L", (0, b"", b"", 1024, 1025), (0, b"", b"", 1025, 1026), SIZE),
    ("L", (0, b"", b"", 1, 2), (0, b"", b"", 1, 1), WORK),
    ("L", (1, FULL, FULL, 1, 2), (1, b"", TOO_LONG, 1, 2), LONG),
    ("L", (1, b"", clause(1) * 32, 1, 2), (1, b"\0", clause(1) * 33, 1, 2), SOFTS),
    ("L", (0, b"", b"", 1, 2), (0, b"", b"", 0, 1), TOO_MANY),
    ("L", (5, b"", both_sides(5), 32, 33), (5, b"", both_sides(5), 31, 32), TOO_MANY),
    ("T", (32, [1 << 31], 1, 2), (33, [1 << 31], 1, 2), SOFTS),
    ("T", (32, [1 << 31], 1, 2), (31, [1 << 31], 1, 2), LIST),
    ("T", (0, [], 1024, 1025), (0, [], 1025, 1026), SIZE),
    ("T", (20, one_of_each_pair(10), 10, 11), (20, [1] * 1025, 10, 11), SIZE),
    ("T", (0, [], 1, 2), (0, [], 1, 1), WORK),
    ("T", (0, [0], 0, 1), (0, [], 0, 1), TOO_MANY),
    ("M", (32, [1 << 31], 32), (33, [1 << 31], 33), SOFTS),
    ("M", (20, one_of_each_pair(10), 20), (20, [1] * 1025, 20), SIZE),
    ("M", (3, [1, 2, 4], 3), (3, [1, 2, 4], 2), ROOM),
    ("R", (b"1000\nFF\n", 0, 0), (b"1000\nFF", 0, 0), FRAME),
    ("R", (b"1000\n20\nFF\n", 1, 0), (b"1000\n20\nFF\n", 0, 1), ROOM),
    ("W", (64, b"", b"", 8), (65, b"", b"", 8), VARS),
    ("W", (1, bytes(8192), b"", 24584), (1, bytes(8193), b"", 24587), SIZE),
    ("W", (1, b"", FULL * 16, 4120), (1, b"", FULL * 16 + b"\0", 4123), SIZE),
    ("W", (1, FULL, FULL, 522), (1, TOO_LONG, b"", 522), LONG),
    ("W", (0, b"", b"", 8), (0, b"", b"", 7), ROOM),
    ("W", (1, b"", clause(1) * 32, 168), (1, b"", clause(1) * 33, 999), SOFTS),
]


def test_limits() -> None:
    for letter, taken, refused, refusal in TWO_SIDES:
        same(f"{letter} {taken} is taken", number_of(letter, *taken), DONE)
        same(f"{letter} {refused} is refused", number_of(letter, *refused), refusal)
    same("room 0 under Unmet", number_of("L", 0, b"\0", b"", 0, 1), UNMET)
    same("64 variables, no clause", ask(64, b"", b"", 65, bytes(64))[:2], (DONE, 65))
    same("an empty clause", ask(64, b"\0", b"", 65, bytes(64))[:2], (NONE, 1))
    same("all 32 lost", listed(list_ways_out, 32, units(1, 32, -1), units(1, 32)),
         (DONE, [0xFFFFFFFF]))


def test_refusals() -> None:
    for letter in ALL_JOBS:
        for number, line in chains(letter) + pairs(letter):
            # Beside a refusal stand no visits and nothing filled.
            same(f"{line}", answer(line).split(b" ")[1:3], [b"%08X" % number, b"00000000"])
    for settings, sets in right_lists():
        same(f"{settings} {sets} is a list", mark(settings, sets, bytes(32))[0], DONE)
    for settings, sets in wrong_lists():
        same(f"{settings} {sets} marked", mark(settings, sets, bytes(32))[0], LIST)
        same(f"{settings} {sets} turned", turn(settings, sets, [7], [7, 7]), (LIST, 0, [7], [7, 7]))


def untouched(places: bytes, from_digit: int = 0) -> bool:
    """Whether lent places, as they are shown, still hold A5 from this digit on."""
    return places == b"-" or not places[from_digit:].replace(b"A5", b"")


def test_places(random: Random) -> None:
    """What each answer leaves of the places it was lent."""
    for letter in ALL_JOBS:
        for line in limit_lines(letter) + [random_line(random, letter) for _ in range(500)]:
            given = answer(line)
            if given != b"?":
                same(f"places after {line[:300]}", are_right_places(*given.split(b" ")), True)


def are_right_places(letter: bytes, number: bytes, *fields: bytes) -> bool:
    number = int(number, 16)
    if letter in b"LT":
        # Refusals write nothing, "but 8, which sets the scratch to zero. Listed, from List or
        # Turn, and Unmet set the whole scratch to zero too".
        filled, sets, scratch = fields
        zeroed = scratch == b"-" or not scratch.replace(b"0", b"")
        return (untouched(sets, 8 * int(filled, 16))
                and (zeroed if number in (DONE, UNMET, TOO_MANY) else untouched(scratch)))
    if letter == b"R":
        count, hard_filled, soft_filled, hard, soft = fields
        return (untouched(hard, 2 * int(hard_filled, 16))
                and untouched(soft, 2 * int(soft_filled, 16)))
    filled, places = fields
    if letter == b"A":
        # The field before the places tells visits; test_ask looks at models.
        return number == DONE or untouched(places)
    return untouched(places, 2 * int(filled, 16))


# The lines themselves.

def test_lines() -> None:
    same("an ask", answer(b"A 00000002 - - 00000009 00000003"), b"A 00000000 00000003 0000A5")
    same("none", answer(b"A 00000001 00 81 000000FF 00000001"), b"A 00000081 00000001 A5")
    same("a list", answer(b"L 00000001 8100 01000100 00000002 00000003"),
         b"L 00000000 00000001 00000003A5A5A5A5 000000000000000000000000")
    same("a turn", answer(b"T 00000002 00000003 00000002 00000004"),
         b"T 00000000 00000002 0000000100000002 00000000000000000000000000000000")
    same("a mark", answer(b"M 00000003 0000000500000006 00000004"), b"M 00000000 00000003 4F4F4CA5")
    same("a read", answer(b"R 313030330A32300A33303031320A46460A 00000002 00000001"),
         b"R 0000000B 00000000 00000000 00000000 A5A5 A5")
    same("a good read", answer(b"R 313030330A32300A333030310A46460A 00000002 00000002"),
         b"R 00000000 00000003 00000001 00000002 00A5 0100")
    same("a write", answer(b"W 00000003 00 - 0000000C"),
         b"W 00000000 0000000B 313030330A32300A46460AA5")
    for letter in ALL_JOBS:
        line = good_line(letter)
        same(f"{letter} is a call", answer(line)[:2], letter.encode("ascii") + b" ")
        same(f"{letter} not listed", answer(line, ALL_JOBS.replace(letter, "")), b"?")
        same(f"{letter} without LF", answers(line), b"?\n")
        for wrong in no_calls(letter):
            same(f"{wrong[:300]} is no call", answer(wrong), b"?")
    for most, more in [(("A", 0, b"", b"", 1, 40_000), ("A", 0, b"", b"", 1, 40_001)),
                       (("W", 0, bytes(40_000), b"", 8), ("W", 0, bytes(40_001), b"", 8)),
                       (("T", 0, [], 2_048, 0), ("T", 0, [], 2_049, 0)),
                       (("M", 0, [0] * 2_048, 0), ("M", 0, [0] * 2_049, 0))]:
        same(f"{most[0]} at its most", answer(line_of_call(*most))[:2], most[0].encode() + b" ")
        same(f"{more[0]} beyond its most", answer(line_of_call(*more)), b"?")
    same("lines", answers(b"\nX\n" + good_line("M") + b"\n\nM"),
         b"?\n?\n" + answer(good_line("M")) + b"\n?\n?\n")
    same("no line", answers(b""), b"")


# What is compared: no class may get lost.

def test_texts(given: list[bytes]) -> None:
    same("texts with the byte that ends one", [text for text in given if TEXT_END in text], [])
    found = {text: outcome_of(text) for text in given}
    same("the outcomes", {outcome for outcome, ways_out, clashes in found.values()},
         {DONE, UNMET, VARS, SIZE, LITERAL, SOFTS, TOO_MANY, FRAME, ROOM})
    same("TooMany from List, and from Turn after a whole list",
         {number_of_list(text) for text in found if found[text][0] == TOO_MANY}, {TOO_MANY, DONE})
    same("the most ways out", max(len(ways_out) for _, ways_out, _ in found.values()), 1024)
    same("the most clashes", max(len(clashes) for _, _, clashes in found.values()), 1024)
    same("the longest texts", {(len(text), found[text][0]) for text in given if len(text) > 32767},
         {(32768, ROOM), (32768, FRAME), (32769, SIZE)})


def test_full_setups() -> None:
    """The counts of the setups at and beyond 1,024 sets, on smaller ones of their kind."""
    for setup, ways_out, clashes in [(one_or_pairs(3), 2**3 + 1, 3), (equal_pairs(3), 3, 2**3),
                                     (equal_pairs(3, b"\0"), 3, 2**3 + 1),
                                     (one_at_a_time(4), 4, 6)]:
        count, hard, soft = setup[0], clauses_of(setup[1]), clauses_of(setup[2])
        same(f"ways out of {setup}", len(ways_out_by_definition(count, hard, soft)), ways_out)
        same(f"clashes of {setup}", len(clashes_by_definition(count, hard, soft)), clashes)


def number_of_list(text: bytes) -> int:
    """What List says of the setup in a good text."""
    number, count, hard_filled, soft_filled, hard, soft = read(text, bytes(8192), bytes(2048))
    return listed(list_ways_out, count, hard[:hard_filled], soft[:soft_filled])[0]


def test_frame_classes(what: str, given: list[bytes]) -> None:
    """Every class of Frame is there by itself, at the first, a middle and the last line, where it
    can stand there."""
    alone = set()
    for text in given:
        found = faults(text)
        same(f"Frame of {text[:300]}", read(text, bytes(40_000), bytes(40_000))[0],
             SIZE if len(text) > 32768 else FRAME if found else DONE)
        alone |= set(found) if len(found) == 1 else set()
    same(f"classes of Frame that are missing from {what}", sorted(all_faults() - alone), [])


def texts_of_calls() -> list[bytes]:
    """The texts of the compared calls of Read."""
    return [some_bytes(line.split(b" ")[1]) for line in section("R") if answer(line) != b"?"]


def main() -> None:
    random = Random(SEED)
    test_table()
    test_rest_of_table()
    test_program()
    test_setups(random)
    test_lists(random)
    test_asks(random)
    test_frames(random)
    test_limits()
    test_refusals()
    test_places(random)
    test_lines()
    compared = texts()
    test_texts(compared)
    test_full_setups()
    test_frame_classes("the compared texts", compared)
    test_frame_classes("the compared calls", texts_of_calls())
    if failed:
        sys.exit(f"second: {failed} of {passed + failed} checks failed")
    print(f"second: {passed} checks passed")


if __name__ == "__main__":
    main()
