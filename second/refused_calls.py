"""Calls of each letter that meet several refusals at once, each with the number that wins."""

from itertools import combinations

from calls import line_of_call
from resolver import (LIST, LITERAL, LONG, ROOM, SIZE, SOFTS, SPENT, TAIL, TOO_MANY, UNMET, VARS,
                      WORK)

# A clause of 128 literals.
TOO_LONG = b"\x01" * 128 + b"\0"

# A good call of each letter, its fields by name and in order.
GOOD_CALLS: dict[str, dict] = {
    "A": {"count": 3, "clauses": b"\x01\x82\0", "assumed": b"\x03", "budget": 9, "room": 3},
    "L": {"count": 3, "hard": b"\x01\x82\0", "soft": b"\x01\0\x02\0", "room": 4, "scratch": 5},
    "T": {"settings": 4, "list": [3, 5], "room": 4, "scratch": 5},
    "M": {"settings": 4, "list": [3, 5], "room": 4},
    "W": {"count": 3, "hard": b"\x01\x82\0", "soft": b"\x01\0\x02\0", "room": 40},
}

# A refusal's number, a field, and what the field becomes: a value, or a function of what it was.
# It may bring on later refusals of its letter too, but never an earlier one.
Refusal = tuple[int, str, object]

# Each number is tested over all arguments before the next, so Literal and Tail stand in
# different buffers; the second list has them the other way about.
OF_CLAUSES: list[Refusal] = [
    (LITERAL, "soft", lambda soft: b"\x80\0" + soft),
    (TAIL, "hard", lambda hard: hard + b"\x01"),
    (LONG, "soft", lambda soft: TOO_LONG + soft),
    (SOFTS, "soft", lambda soft: soft + b"\x01\0" * 33),
]
OF_CLAUSES_CROSSED: list[Refusal] = [
    (LITERAL, "hard", lambda hard: b"\x80\0" + hard),
    (TAIL, "soft", lambda soft: soft + b"\x01"),
    (LONG, "hard", lambda hard: TOO_LONG + hard),
    (SOFTS, "soft", lambda soft: soft + b"\x01\0" * 33),
]


def refusals_of_list(of_clauses: list[Refusal]) -> list[Refusal]:
    """In the order of "List: 1, 2, 3, 4, 5, 6, 7, then Unmet or 8"; Unmet has no set too many."""
    return [(VARS, "count", 65), (SIZE, "room", 1025), (WORK, "scratch", 0), *of_clauses,
            (UNMET, "hard", lambda hard: b"\0" + hard), (TOO_MANY, "room", 0)]


def refusals_of_write(of_clauses: list[Refusal]) -> list[Refusal]:
    """In the order of "Write: 1, 2, 4, 5, 6, 7, 12"."""
    return [(VARS, "count", 65), (SIZE, "soft", lambda soft: soft + TOO_LONG[1:] * 16), *of_clauses,
            (ROOM, "room", 7)]


# Each letter's refusals in order, from "First match wins"; Read's stand with its texts.
REFUSALS: dict[str, list[list[Refusal]]] = {
    "A": [[(VARS, "count", 65), (SIZE, "assumed", lambda assumed: assumed + b"\x01" * 64),
           (ROOM, "room", 0), (LITERAL, "assumed", lambda assumed: assumed + b"\0"),
           (TAIL, "clauses", lambda clauses: clauses + b"\x01"),
           (LONG, "clauses", lambda clauses: TOO_LONG + clauses), (SPENT, "budget", 0)]],
    "L": [refusals_of_list(OF_CLAUSES), refusals_of_list(OF_CLAUSES_CROSSED)],
    "T": [[(SOFTS, "settings", 33), (SIZE, "room", 1025), (WORK, "scratch", 0),
           (LIST, "list", [5, 3]), (TOO_MANY, "room", 1)]],
    "M": [[(SOFTS, "settings", 33), (SIZE, "list", lambda sets: sets + [9] * 1023),
           (ROOM, "room", 3), (LIST, "list", [5, 3])]],
    "W": [refusals_of_write(OF_CLAUSES), refusals_of_write(OF_CLAUSES_CROSSED)],
}


def refused_line(letter: str, refusals: list[Refusal]) -> bytes:
    """The letter's good call with these refusals, the last put in first so that others stand."""
    call = dict(GOOD_CALLS[letter])
    for number, field, new in reversed(refusals):
        call[field] = new(call[field]) if callable(new) else new
    return line_of_call(letter, *call.values())


def chains(letter: str) -> list[tuple[int, bytes]]:
    """For each refusal a call that meets it and all later ones; it wins."""
    return [(refusals[first][0], refused_line(letter, refusals[first:]))
            for refusals in REFUSALS.get(letter, []) for first in range(len(refusals))]


def pairs(letter: str) -> list[tuple[int, bytes]]:
    """For each two refusals a call that meets both; the first wins."""
    return [(first[0], refused_line(letter, [first, second]))
            for refusals in REFUSALS.get(letter, [])
            for first, second in combinations(refusals, 2)]
