"""Random lines for calls.py, good and damaged, drawn from a given source of random numbers;
batch.py and compare share them, and test.py draws its setups and lists here."""

from random import Random

from calls import line_of_call
from resolver import ask, list_ways_out, turned

NO_END_OF_BUDGET = 0xFFFFFFFF
# Wide asks may need more visits than anyone waits for; this ends them.
WIDE_BUDGET = 200


def one_in(random: Random, many: int) -> bool:
    return random.randrange(many) == 0


# Clauses and setups.

def random_literal(random: Random, count: int) -> int:
    return random.randrange(1, count + 1) + 128 * random.randrange(2)


def random_clause(random: Random, count: int) -> bytes:
    """Mostly 1 to 3 literals, with repeats; now and then empty, always true or longer."""
    if count == 0 or one_in(random, 30):
        return b""
    literals = [random_literal(random, count)
                for _ in range(random.choice((1, 1, 1, 2, 2, 2, 3, 3, 5)))]
    if one_in(random, 12):
        literals.append(literals[0] ^ 128)
    return bytes(literals)


def random_clauses(random: Random, count: int, most: int) -> list[bytes]:
    return [random_clause(random, count) for _ in range(random.randrange(most + 1))]


def clauses_against(random: Random, soft: list[bytes]) -> list[bytes]:
    """Hard clauses that each forbid two or three settings together, for many ways out."""
    return [bytes(random.choice(soft)[0] ^ 128 for _ in range(random.choice((2, 2, 2, 3))))
            for _ in range(random.randrange(9))]


def random_setup(random: Random) -> tuple[int, list[bytes], list[bytes]]:
    """A variable count, hard clauses and at most 7 settings, some of them equal."""
    if one_in(random, 2):
        count = random.randrange(6)
        hard, soft = random_clauses(random, count, 5), random_clauses(random, count, 6)
    else:
        count = random.randrange(3, 7)
        soft = [bytes([variable + 128 * random.randrange(2)]) for variable in range(1, count + 1)]
        hard = clauses_against(random, soft)
    if soft and one_in(random, 3):
        soft.insert(random.randrange(len(soft) + 1), random.choice(soft))
    return count, hard, soft


def crowded_setup(random: Random) -> tuple[int, list[bytes], list[bytes]]:
    """Up to 33 settings, most of them equal to others, over few variables."""
    count = random.randrange(3, 9)
    kinds = [bytes([variable + 128 * random.randrange(2)]) for variable in range(1, count + 1)]
    soft = [random.choice(kinds) for _ in range(random.randrange(8, 34))]
    return count, clauses_against(random, soft), soft


def buffer_of(clauses: list[bytes]) -> bytes:
    return b"".join(clause + b"\0" for clause in clauses)


# Damage.

def damaged(random: Random, given: bytes, likely: bytes = bytes(range(256))) -> bytes:
    """The bytes with one of them replaced, taken out, put in, or the last one gone."""
    place = random.randrange(len(given) + 1)
    other = bytes([random.choice(likely)])
    return random.choice((given[:place] + other + given[place + 1:],
                          given[:place] + given[place + 1:],
                          given[:place] + other + given[place:],
                          given[:-1]))


def sometimes_damaged(random: Random, given: bytes) -> bytes:
    return damaged(random, given) if one_in(random, 10) else given


def sometimes_off(random: Random, count: int) -> int:
    """Mostly the count itself."""
    if not one_in(random, 12):
        return count
    return random.choice((max(count - 1, 0), count + 1, 33, 65, 127, 128, 255, 0x80000000,
                          0xFFFFFFFF))


def room_near(random: Random, needed: int) -> int:
    """Mostly what is needed, at times more, one less or nothing."""
    return random.choice((needed,) * 12 + (needed + 1, needed + 3, max(needed - 1, 0), 0))


def scratch_near(random: Random, room: int) -> int:
    return random.choice((room + 1,) * 12 + (room + 2, room + 5, room, 0))


def spoiled(random: Random, line: bytes) -> bytes:
    """The line with one byte that no call has there, one too few or one too many: no call."""
    place = random.randrange(len(line))
    other = random.choice((b"a", b"f", b"g", b" ", b"-", b"G", b"\r", b"\t", b"\0", b"\xFF", b""))
    if line[place:place + 1] in (other, b"-"):
        return line + b" "
    return line[:place] + other + line[place + 1:]


# One call of each letter.

def small_clauses(random: Random) -> tuple[int, list[bytes]]:
    count = random.randrange(8)
    return count, random_clauses(random, count, 9)


def tight_clauses(random: Random) -> tuple[int, list[bytes]]:
    """Clauses of three literals, about as many as leave a model now and then."""
    count = random.randrange(6, 13)
    return count, [bytes(random_literal(random, count) for _ in range(3))
                   for _ in range(random.randrange(3 * count, 5 * count))]


def wide_clauses(random: Random) -> tuple[int, list[bytes]]:
    count = random.randrange(20, 65)
    return count, [bytes(random_literal(random, count) for _ in range(random.randrange(1, 5)))
                   for _ in range(random.randrange(25))]


def random_budget(random: Random, count: int, clauses: bytes, assumed: bytes, most: int) -> int:
    """The most, a small one, or the visit count of this very ask or one below it."""
    number, visits, model = ask(count, clauses, assumed, most, bytes(min(count, 64)))
    return random.choice((most, most, most, visits, visits, max(visits - 1, 0),
                          random.randrange(9)))


def random_ask(random: Random) -> bytes:
    kind = random.choice((small_clauses,) * 16 + (tight_clauses, wide_clauses))
    count, clauses = kind(random)
    most = WIDE_BUDGET if kind == wide_clauses else NO_END_OF_BUDGET
    assumed = bytes(random_literal(random, count)
                    for _ in range(random.choice((0, 0, 0, 1, 1, 2, 5)) if count else 0))
    buffer = sometimes_damaged(random, buffer_of(clauses))
    assumed = sometimes_damaged(random, assumed)
    count = sometimes_off(random, count)
    budget = random_budget(random, count, buffer, assumed, most)
    return line_of_call("A", count, buffer, assumed, budget, room_near(random, min(count, 70)))


def setup_of_call(random: Random) -> tuple[int, bytes, bytes]:
    """A variable count and two buffers, at times damaged."""
    drawer = random.choice((random_setup,) * 12 + (crowded_setup,))
    count, hard, soft = drawer(random)
    return (sometimes_off(random, count), sometimes_damaged(random, buffer_of(hard)),
            sometimes_damaged(random, buffer_of(soft)))


def random_list(random: Random) -> bytes:
    setup = setup_of_call(random)
    number, filled, *places = list_ways_out(*setup, [0] * 256, [0] * 257)
    room = room_near(random, filled)
    return line_of_call("L", *setup, room, scratch_near(random, room))


def is_apart(drawn: int, sets: list[int]) -> bool:
    """Whether the set is not within one of the sets, and none of them within it."""
    return all(drawn & other not in (drawn, other) for other in sets)


def random_sets(random: Random, settings: int) -> list[int]:
    """A rising list of sets, none within another."""
    # A setting joins a set with one of these chances in 16.
    chance = random.choice((2, 4, 8, 12))
    sets: list[int] = []
    for _ in range(random.randrange(2 * settings + 2)):
        drawn = sum(1 << place for place in range(settings) if random.randrange(16) < chance)
        # The empty set would keep all others out, so it comes seldom.
        if (drawn or one_in(random, 8)) and is_apart(drawn, sets):
            sets.append(drawn)
    return sorted(sets)


def few_wide_sets(random: Random, settings: int) -> list[int]:
    """At most 4 small sets, none within another, over many settings."""
    sets: list[int] = []
    for _ in range(random.randrange(5)):
        drawn = sum({1 << random.randrange(settings) for _ in range(random.randrange(1, 4))})
        if is_apart(drawn, sets):
            sets.append(drawn)
    return sorted(sets)


def broken_list(random: Random, settings: int, sets: list[int]) -> list[int]:
    """The list with something that may be List: an order, a repeat, a subset, a superset, any."""
    place = random.randrange(len(sets) + 1)
    near = random.choice(sets) if sets else 0
    drawn = random.randrange(1 << settings) if settings else 0
    put_in = random.choice((near, near & drawn, near | drawn, near | 1 << min(settings, 31),
                            1 << random.randrange(32), random.randrange(1 << 32)))
    if one_in(random, 3):
        return sets[place:] + sets[:place]
    if one_in(random, 2):
        return sorted(sets + [put_in])
    return sets[:place] + [put_in] + sets[place:]


def random_settings_and_sets(random: Random) -> tuple[int, list[int]]:
    """A settings count and a list, one time in four broken."""
    if one_in(random, 10):
        settings = random.randrange(9, 33)
        sets = few_wide_sets(random, settings)
    else:
        settings = random.randrange(8)
        sets = random_sets(random, settings)
    if one_in(random, 4):
        return settings, broken_list(random, settings, sets)
    return settings, sets


def random_turn(random: Random) -> bytes:
    settings, sets = random_settings_and_sets(random)
    room = room_near(random, len(turned(sets)))
    return line_of_call("T", sometimes_off(random, settings), sets, room,
                        scratch_near(random, room))


def random_mark(random: Random) -> bytes:
    settings, sets = random_settings_and_sets(random)
    room = room_near(random, settings)
    return line_of_call("M", sometimes_off(random, settings), sets, room)


def random_lines(random: Random) -> list[bytes]:
    """The lines of a good text, clauses of both kinds in any mixture, any count, any literals."""
    frames = [bytes([random.choice((0x20, 0x30))])
              + bytes(random.randrange(1, 256) for _ in range(random.choice((0, 1, 1, 2, 3))))
              for _ in range(random.randrange(7))]
    frames = [bytes([0x10, random.randrange(256)])] + frames + [b"\xFF"]
    return [frame.hex().upper().encode("ascii") + b"\n" for frame in frames]


def damaged_lines(random: Random, lines: list[bytes]) -> bytes:
    """A text with a line gone, doubled or moved, or with a byte damaged."""
    place, other = random.randrange(len(lines)), random.randrange(len(lines))
    rest = lines[:place] + lines[place + 1:]
    text = b"".join(lines)
    return random.choice((b"".join(rest),
                          b"".join(lines[:place] + lines[other:other + 1] + lines[place:]),
                          b"".join(rest[:other] + lines[place:place + 1] + rest[other:]),
                          damaged(random, text),
                          damaged(random, text, b"0123456789ABCDEF"),
                          damaged(random, text, b"\n\r afG\0/:@")))


def random_read(random: Random) -> bytes:
    lines = random_lines(random)
    needed = {kind: sum(len(line) // 2 for line in lines if line.startswith(kind))
              for kind in (b"20", b"30")}
    text = damaged_lines(random, lines) if one_in(random, 2) else b"".join(lines)
    return line_of_call("R", text, room_near(random, needed[b"20"]),
                        room_near(random, needed[b"30"]))


def length_of_text(hard: bytes, soft: bytes) -> int:
    """By "2 × literals + 3 × clauses + 8"."""
    clauses = (hard + soft).count(0)
    return 2 * (len(hard + soft) - clauses) + 3 * clauses + 8


def random_write(random: Random) -> bytes:
    count, hard, soft = setup_of_call(random)
    return line_of_call("W", count, hard, soft, room_near(random, length_of_text(hard, soft)))


DRAWERS = {"A": random_ask, "L": random_list, "T": random_turn,
           "M": random_mark, "R": random_read, "W": random_write}


def random_line(random: Random, letter: str) -> bytes:
    """A call of this letter; one line in forty is spoiled, so that it is no call."""
    line = DRAWERS[letter](random)
    return spoiled(random, line) if one_in(random, 40) else line
