"""Ways out, clashes and turned lists straight from the sentences of document 01, over all sets
and all assignments; only for few variables and few settings, to check resolver.py by."""

from itertools import product
from typing import Iterator


def is_literal_true(literal: int, assignment: tuple[int, ...]) -> bool:
    """By "A literal byte is v for variable v, and 128 + v for its negation"."""
    if literal > 128:
        return assignment[literal - 128 - 1] == 0
    return assignment[literal - 1] == 1


def models(count: int, clauses: list[bytes]) -> Iterator[tuple[int, ...]]:
    """All models, "in the order of variable 1, then 2, and so on, with 0 before 1"."""
    return (assignment for assignment in product((0, 1), repeat=count)
            if all(any(is_literal_true(literal, assignment) for literal in clause)
                   for clause in clauses))


def has_model(count: int, clauses: list[bytes]) -> bool:
    return next(models(count, clauses), None) is not None


def sets_with_model(count: int, hard: list[bytes], soft: list[bytes]) -> list[bool]:
    """For each set of settings: have the hard clauses and its settings a common model?"""
    return [has_model(count, hard + [soft[place] for place in members(each)])
            for each in range(1 << len(soft))]


def members(each: int) -> list[int]:
    """The places of a set: "setting i adds 2^(i−1)", and setting i is at place i - 1."""
    return [place for place in range(each.bit_length()) if each >> place & 1]


def proper_subsets(each: int) -> list[int]:
    """All sets within this one but itself."""
    return [smaller for smaller in range(each) if smaller & each == smaller]


def ways_out_by_definition(count: int, hard: list[bytes], soft: list[bytes]) -> list[int]:
    """A way out is "a set of settings such that the hard clauses and all other settings have a
    common model, and putting back any one removed setting leaves no model"."""
    have_model = sets_with_model(count, hard, soft)
    every = (1 << len(soft)) - 1
    return [removed for removed in range(every + 1)
            if have_model[every - removed]
            and not any(have_model[every - removed + (1 << place)] for place in members(removed))]


def clashes_by_definition(count: int, hard: list[bytes], soft: list[bytes]) -> list[int]:
    """A clash is "a set of settings that has no model together with the hard clauses, while each
    of its proper subsets has one"."""
    have_model = sets_with_model(count, hard, soft)
    return [each for each in range(1 << len(soft))
            if not have_model[each]
            and all(have_model[smaller] for smaller in proper_subsets(each))]


def turned_by_definition(settings: int, given: list[int]) -> list[int]:
    """Turn gives "the sets that share a setting with each member and have no proper subset that
    does"."""
    crosses = [all(each & member for member in given) for each in range(1 << settings)]
    return [each for each in range(1 << settings)
            if crosses[each] and not any(crosses[smaller] for smaller in proper_subsets(each))]
