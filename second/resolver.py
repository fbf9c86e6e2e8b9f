"""Ask, List, Turn and Mark of document 01, as plain functions over bytes, numbers and lists.

Each job returns its number, what it tells, and every lent place as it stands afterwards.
Quotations in the comments are sentences of document 01, here and in the files beside.
"""

from itertools import combinations, groupby, islice
from typing import Iterator, Optional

MOST_VARIABLES = 64
MOST_HARD_BYTES = 8192
MOST_SOFT_BYTES = 2048
MOST_LITERALS = 127
MOST_SETTINGS = 32
MOST_SETS = 1024
MOST_ASSUMED = 64

# DONE stands for Model, Listed, Marked, Read and Written.
DONE = 0
VARS, SIZE, WORK, LITERAL, TAIL, LONG, SOFTS, TOO_MANY, LIST, SPENT, FRAME, ROOM = range(1, 13)
UNMET, NONE = 0x80, 0x81

NEGATED = 128
FREE = None


# Clause buffers and what refuses them.

def clauses_of(buffer: bytes) -> list[bytes]:
    """The clauses of a buffer that passed Tail: "A byte 0 ends a clause"."""
    return buffer.split(b"\0")[:-1]


def is_wrong_literal(byte: int, count: int) -> bool:
    """Literal: "low seven bits 0 or above the count"."""
    return not 1 <= byte % NEGATED <= count


def refusal_of_buffers(buffers: list[bytes], count: int) -> int:
    """Literal, Tail and Long: each is tested over all buffers before the next."""
    # "a 0 in clauses is the end", so only the other bytes are judged.
    if any(is_wrong_literal(byte, count) for buffer in buffers for byte in buffer if byte != 0):
        return LITERAL
    if any(buffer and buffer[-1] != 0 for buffer in buffers):
        return TAIL
    if any(len(clause) > MOST_LITERALS for buffer in buffers for clause in clauses_of(buffer)):
        return LONG
    return DONE


# Ask.

def refusal_of_ask(count: int, clauses: bytes, assumed: bytes, model_room: int) -> int:
    """All of "Ask: 1, 2, 12, 4, 5, 6, 10" but the last."""
    if count > MOST_VARIABLES:
        return VARS
    if len(clauses) > MOST_HARD_BYTES or len(assumed) > MOST_ASSUMED:
        return SIZE
    if model_room < count:
        return ROOM
    # "in assumed literals it [a 0] is refused"
    if any(is_wrong_literal(byte, count) for byte in assumed):
        return LITERAL
    return refusal_of_buffers([clauses], count)


def ask(count: int, clauses: bytes, assumed: bytes, budget: int,
        model: bytes) -> tuple[int, int, bytes]:
    """Returns (number, visits, model afterwards)."""
    number = refusal_of_ask(count, clauses, assumed, len(model))
    if number != DONE:
        return number, 0, model
    # "Each assumed literal counts as a one-literal clause after the others."
    search = Search(clauses_of(clauses) + [bytes([literal]) for literal in assumed], budget)
    try:
        values = search.visit([FREE] * count)
    except BudgetSpent:
        return SPENT, 0, model
    if values is None:
        return NONE, search.visits, model
    return DONE, search.visits, bytes(values) + model[count:]


class BudgetSpent(Exception):
    """More visits than the budget allows."""


class Search:
    """The search of "One ask": visit and split call each other, and every visit counts one."""

    def __init__(self, clauses: list[bytes], budget: int) -> None:
        self.clauses = clauses
        self.budget = budget
        self.visits = 0

    def visit(self, values: list) -> Optional[list]:
        """The first model that extends the values, or None."""
        self.visits += 1
        # The count only grows, so the whole search's count is above the budget too.
        if self.visits > self.budget:
            raise BudgetSpent
        values = settled(self.clauses, values)
        if values is None or FREE not in values:
            return values
        return self.split(values)

    def split(self, values: list) -> Optional[list]:
        """Opens "one visit with the value 0 and, if that side fails, one with the value 1"."""
        lowest = values.index(FREE)
        for value in (0, 1):
            found = self.visit(values[:lowest] + [value] + values[lowest + 1:])
            if found is not None:
                return found
        return None


def settled(clauses: list[bytes], values: list) -> Optional[list]:
    """The values with all forced ones; None once a clause is wholly false.

    The document leaves the order open. Here it goes from the last clause backwards.
    """
    values = list(values)
    changed = True
    while changed:
        changed = False
        for clause in reversed(clauses):
            if any(values[literal % NEGATED - 1] == wanted(literal) for literal in clause):
                continue
            # A set, since "a repeated literal adds nothing".
            free = {literal for literal in clause if values[literal % NEGATED - 1] is FREE}
            if not free:
                return None
            if len(free) == 1:
                forced = free.pop()
                values[forced % NEGATED - 1] = wanted(forced)
                changed = True
    return values


def wanted(literal: int) -> int:
    """The value that makes the literal true."""
    return 0 if literal >= NEGATED else 1


# List.

def refusal_of_list(count: int, hard: bytes, soft: bytes, room: int, scratch_room: int) -> int:
    """The refusals of "List: 1, 2, 3, 4, 5, 6, 7, then Unmet or 8" before Unmet."""
    if count > MOST_VARIABLES:
        return VARS
    if len(hard) > MOST_HARD_BYTES or len(soft) > MOST_SOFT_BYTES or room > MOST_SETS:
        return SIZE
    if scratch_room < room + 1:
        return WORK
    number = refusal_of_buffers([hard, soft], count)
    if number != DONE:
        return number
    return SOFTS if len(clauses_of(soft)) > MOST_SETTINGS else DONE


def list_ways_out(count: int, hard: bytes, soft: bytes, list_places: list[int],
                  scratch: list[int]) -> tuple[int, int, list[int], list[int]]:
    """Returns (number, filled, list afterwards, scratch afterwards)."""
    number = refusal_of_list(count, hard, soft, len(list_places), len(scratch))
    if number != DONE:
        return number, 0, list_places, scratch
    broken = broken_sets(clauses_of(hard), clauses_of(soft))
    if not broken:
        return UNMET, 0, list_places, [0] * len(scratch)
    # The settings outside a set have a model with the hard clauses exactly when some assignment
    # that meets the hard clauses breaks settings of that set alone. So the ways out are the
    # smallest broken sets. One more than the room is enough to know TooMany.
    found = list(islice(smallest_sets(broken), len(list_places) + 1))
    return listed(found, list_places, scratch)


def listed(found: list[int], list_places: list[int],
           scratch: list[int]) -> tuple[int, int, list[int], list[int]]:
    """The answer of List and Turn: "more sets than room" is TooMany, all else is Listed."""
    zeroed = [0] * len(scratch)
    if len(found) > len(list_places):
        return TOO_MANY, 0, list_places, zeroed
    # "Lists rise strictly by value."
    return DONE, len(found), sorted(found) + list_places[len(found):], zeroed


def truth_masks(clause: bytes) -> tuple[int, int]:
    """The variables whose 1, and those whose 0 makes the clause true, as sums of 2^variable."""
    ones = {literal for literal in clause if literal < NEGATED}
    zeros = {literal - NEGATED for literal in clause if literal >= NEGATED}
    return sum(1 << variable for variable in ones), sum(1 << variable for variable in zeros)


def is_true(masks: tuple[int, int], assignment: int) -> bool:
    """Whether the clause with these masks is true; the assignment is a sum of 2^variable."""
    ones, zeros = masks
    return assignment & ones != 0 or ~assignment & zeros != 0


def last_variable(clause: bytes) -> int:
    """The highest variable of a clause, which is judged once that has a value; 0 if it is empty."""
    return max((literal % NEGATED for literal in clause), default=0)


def broken_sets(hard: list[bytes], soft: list[bytes]) -> set[int]:
    """The sets of settings that the assignments which meet the hard clauses break; at least the
    smallest of them.

    All assignments grow together, variable by variable. Those that agree on every variable of the
    clauses not judged yet go on alike, so they go on as one, with all that they broke so far.
    """
    clauses = hard + soft
    # A variable in no clause makes no clause true or false, so only the others are tried. 0 is no
    # variable; "an empty clause is allowed and is never true", and is judged there.
    variables = sorted({0, *(literal % NEGATED for clause in clauses for literal in clause)})
    broken = {0: {0}}
    for variable in variables:
        rules = [truth_masks(clause) for clause in hard if last_variable(clause) == variable]
        settings = [(1 << place, truth_masks(clause)) for place, clause in enumerate(soft)
                    if last_variable(clause) == variable]
        later = {literal % NEGATED for clause in clauses if last_variable(clause) > variable
                 for literal in clause}
        broken = with_variable(variable, broken, rules, settings, sum(1 << each for each in later))
    # All clauses are judged, so all assignments have become one, if any meets the hard clauses.
    return broken.get(0, set())


def with_variable(variable: int, broken: dict[int, set[int]], rules: list[tuple[int, int]],
                  settings: list[tuple[int, tuple[int, int]]], later: int) -> dict[int, set[int]]:
    """What the assignments break once the variable has a value too; they are told apart by the
    later variables alone. The rules and settings are those whose last variable this is."""
    longer: dict[int, set[int]] = {}
    for before, sets in broken.items():
        # What is broken later is broken beside each of these sets, so one that has another of
        # them within never becomes a way out.
        smallest = list(smallest_sets(sets))
        for assignment in (before, before | 1 << variable):
            if all(is_true(masks, assignment) for masks in rules):
                also = sum(bit for bit, masks in settings if not is_true(masks, assignment))
                alike = longer.setdefault(assignment & later, set())
                alike.update(each | also for each in smallest)
    return longer


def members_count(each: int) -> int:
    return bin(each).count("1")


def smallest_sets(sets: set[int]) -> Iterator[int]:
    """The sets that have no other of them within."""
    smallest: list[int] = []
    # A set within another has fewer members, so those with fewer come first, and of those with
    # equally many none lies within another.
    for _, equally_many in groupby(sorted(sets, key=members_count), key=members_count):
        found = [candidate for candidate in equally_many
                 if not any(smaller & candidate == smaller for smaller in smallest)]
        smallest += found
        yield from found


# Turn and Mark.

def is_wrong_list(settings: int, sets: list[int]) -> bool:
    """List: "not strictly rising, a setting above the count, or one set within another"."""
    return (any(first >= second for first, second in zip(sets, sets[1:]))
            or any(each >> settings != 0 for each in sets)
            or any(first & second in (first, second) for first, second in combinations(sets, 2)))


def refusal_of_turn(settings: int, given: list[int], room: int, scratch_room: int) -> int:
    """All of "Turn: 7, 2, 3, 9, 8" but the last."""
    if settings > MOST_SETTINGS:
        return SOFTS
    if len(given) > MOST_SETS or room > MOST_SETS:
        return SIZE
    if scratch_room < room + 1:
        return WORK
    return LIST if is_wrong_list(settings, given) else DONE


def turn(settings: int, given: list[int], list_places: list[int],
         scratch: list[int]) -> tuple[int, int, list[int], list[int]]:
    """Returns (number, filled, list afterwards, scratch afterwards)."""
    number = refusal_of_turn(settings, given, len(list_places), len(scratch))
    if number != DONE:
        return number, 0, list_places, scratch
    return listed(turned(given), list_places, scratch)


def turned(given: list[int]) -> list[int]:
    """Takes the members one by one, and keeps the sets "that share a setting with each member
    and have no proper subset that does" for the members taken so far."""
    # "Turning the empty list gives the list of the empty set alone."
    crossing = [0]
    for member in given:
        crossing = crossing_also(crossing, member)
    return crossing


def crossing_also(crossing: list[int], member: int) -> list[int]:
    """From the smallest sets crossing some members to those that cross this one too.

    A set that misses the member takes one of its settings. Two that are so extended never lie
    one within the other; only a set that met the member before can lie within an extended one,
    and then it has that one setting of the member and no other.
    """
    meeting = [each for each in crossing if each & member]
    missing = [each for each in crossing if not each & member]
    extended = []
    for setting in settings_in(member):
        rivals = [each for each in meeting if each & member == setting]
        extended += [each | setting for each in missing
                     if not any(rival & ~(each | setting) == 0 for rival in rivals)]
    return meeting + extended


def settings_in(member: int) -> list[int]:
    """The settings of a set, each as a set of its own."""
    return [1 << place for place in range(MOST_SETTINGS) if member >> place & 1]


def refusal_of_mark(settings: int, sets: list[int], mark_room: int) -> int:
    """The refusals of "Mark: 7, 2, 12, 9"."""
    if settings > MOST_SETTINGS:
        return SOFTS
    if len(sets) > MOST_SETS:
        return SIZE
    if mark_room < settings:
        return ROOM
    return LIST if is_wrong_list(settings, sets) else DONE


def mark(settings: int, sets: list[int], marks: bytes) -> tuple[int, int, bytes]:
    """Returns (number, filled, marks afterwards)."""
    number = refusal_of_mark(settings, sets, len(marks))
    if number != DONE:
        return number, 0, marks
    letters = b"".join(letter_of(place, sets) for place in range(settings))
    return DONE, settings, letters + marks[settings:]


def letter_of(place: int, sets: list[int]) -> bytes:
    """One mark: "K (kept) if no set has it, L (lost) if every set has it, O (open) otherwise"."""
    if not any(each >> place & 1 for each in sets):
        return b"K"
    return b"L" if all(each >> place & 1 for each in sets) else b"O"
