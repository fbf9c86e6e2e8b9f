"""Measures the jobs through the program `calls`: work done and seconds, for the families that docs/PERFORMANCE.md lists.

    python3 benchmarks/measure.py [--jobs LETTERS] [--instructions] [--program WORDS]

Each call, or each run of calls alike, has a process of its own; what an empty one takes is subtracted. With --instructions it counts the
instructions instead, by valgrind on x86-64: the same count whatever else the machine does. Nothing here is part of the tests.
"""

import argparse
import random
import re
import subprocess
import time
from itertools import combinations, product
from pathlib import Path

from scope_setups import Setup, scopes

TOP = Path(__file__).resolve().parent.parent
PROGRAM = f"{TOP / 'scripts' / 'run'} calls"
COUNTED_PROGRAM = f"valgrind --tool=callgrind --callgrind-out-file=/dev/null {TOP / 'crates' / 'calls' / 'out' / 'calls'}"
ALL_BUDGET = 0xFFFFFFFF
ROOM = 1024
REPEATS = 3
# An ask is short: so many alike make one measurement.
ASKS = 50


def literal_byte(literal: int) -> int:
    return literal if literal > 0 else 128 - literal


def clause_bytes(clauses: list[list[int]]) -> str:
    return "".join("".join(f"{literal_byte(each):02X}" for each in clause) + "00" for clause in clauses) or "-"


def set_digits(sets: list[int]) -> str:
    return "".join(f"{each:08X}" for each in sets) or "-"


# The families.

def random_threes(seed: int, count: int, clauses: int) -> list[list[int]]:
    """Clauses of three literals over three variables each."""
    draw = random.Random(seed)
    return [[each * draw.choice((1, -1)) for each in draw.sample(range(1, count + 1), 3)] for _ in range(clauses)]


def grid(rows: int, columns: int) -> tuple[int, list[tuple[int, int]]]:
    """The vertices of a grid, numbered from 1, and its edges."""
    number = {(row, column): row * columns + column + 1 for row, column in product(range(rows), range(columns))}
    edges = [(number[row, column], number[row + down, column + 1 - down])
             for row, column in number for down in (0, 1) if (row + down, column + 1 - down) in number]
    return len(number), edges


def dominating(rows: int, columns: int, first: int = 1) -> Setup:
    """The ways out are the minimal dominating sets: settings "vertex not chosen", hard "each vertex or a neighbour"."""
    count, edges = grid(rows, columns)
    near = {vertex: {vertex} for vertex in range(1, count + 1)}
    for one, other in edges:
        near[one].add(other)
        near[other].add(one)
    shift = first - 1
    return count + shift, [[each + shift for each in sorted(near[vertex])] for vertex in near], [[-vertex - shift] for vertex in near]


def independent(rows: int, columns: int) -> Setup:
    """The ways out are the complements of the maximal independent sets: settings "vertex chosen", hard "no edge inside"."""
    count, edges = grid(rows, columns)
    return count, [[-one, -other] for one, other in edges], [[vertex] for vertex in range(1, count + 1)]


def with_unrelated(setup: Setup) -> Setup:
    """Twenty unrelated low-numbered variables, each pair of them in a rule of its own; the setup's own start at 21."""
    count, hard, soft = setup
    return count, [[first, -second] for first, second in combinations(range(1, 21), 2) if second == first + 1] + hard, soft


def crossing_fours() -> list[int]:
    """The 1,024 sets that cross five disjoint fours."""
    return sorted(sum(1 << (4 * four + each) for four, each in enumerate(choice)) for choice in product(range(4), repeat=5))


def antichain(seed: int) -> tuple[int, list[int]]:
    """A random list in which no set contains another; its shape goes by the seed."""
    draw = random.Random(seed)
    settings = draw.choice((8, 12, 16, 24, 32))
    most = draw.choice((2, 3, 5, settings // 3, settings // 2))
    wanted = draw.choice((4, 10, 30, 100, 300))
    kept: list[int] = []
    for _ in range(4 * wanted):
        drawn = sum(1 << each for each in draw.sample(range(settings), draw.randint(1, max(1, most))))
        if len(kept) < wanted and not any(drawn & each in (drawn, each) for each in kept):
            kept.append(drawn)
    return settings, sorted(kept)


# The calls.

def ask_line(count: int, clauses: list[list[int]]) -> str:
    return f"A {count:08X} {clause_bytes(clauses)} - {ALL_BUDGET:08X} {count:08X}"


def list_line(setup: Setup) -> str:
    count, hard, soft = setup
    return f"L {count:08X} {clause_bytes(hard)} {clause_bytes(soft)} {ROOM:08X} {ROOM + 1:08X}"


def turn_line(settings: int, sets: list[int]) -> str:
    return f"T {settings:08X} {set_digits(sets)} {ROOM:08X} {ROOM + 1:08X}"


class Timer:
    """Seconds, at the best of some runs."""

    unit = "s"
    rate = "a second"

    def __init__(self, words: list[str]) -> None:
        self.words = words
        self.overhead = min(self.once("")[0] for _ in range(5))

    def once(self, text: str) -> tuple[float, list[str]]:
        start = time.perf_counter()
        done = subprocess.run(self.words, input=text.encode(), capture_output=True, check=True)
        return time.perf_counter() - start, done.stdout.decode().split()

    def best(self, line: str, times: int = 1) -> tuple[float, list[str]]:
        """What one call takes, of so many alike in one process, and the fields of its answer."""
        runs = [self.once((line + "\n") * times) for _ in range(REPEATS)]
        return max(0.0, min(run[0] for run in runs) - self.overhead) / times, runs[0][1]


class Counter:
    """Millions of instructions."""

    unit = "million instructions"
    rate = "a million instructions"

    def __init__(self, words: list[str]) -> None:
        self.words = words
        self.overhead = self.once("")[0]

    def once(self, text: str) -> tuple[float, list[str]]:
        done = subprocess.run(self.words, input=text.encode(), capture_output=True, check=True)
        return int(re.search(rb"Collected : (\d+)", done.stderr)[1]) / 1e6, done.stdout.decode().split()

    def best(self, line: str, times: int = 1) -> tuple[float, list[str]]:
        """What one call takes, and the fields of its answer; one is counted, however many are wanted."""
        count, fields = self.once(line + "\n")
        return count - self.overhead, fields


def measure_ask(meter: Timer | Counter) -> None:
    for seed in range(1, 6):
        taken, fields = meter.best(ask_line(64, random_threes(seed, 64, 300)), ASKS)
        visits = int(fields[2], 16)
        answer = {"00000000": "Model", "00000081": "None"}.get(fields[1], fields[1])
        rate = f"{visits / max(taken, 1e-9):,.0f} {meter.rate}"
        print(f"ask, 64 variables, 300 clauses of three, seed {seed}: {answer}, {visits} visits, {taken:.4f} {meter.unit}, {rate}")


def measure_list(meter: Timer | Counter) -> None:
    families = [("dominating sets of 3 x 6", dominating(3, 6)), ("independent sets of 3 x 9", independent(3, 9))]
    families += [(f"scope: {name}", setup) for name, setup in scopes()]
    families += [("dominating sets of 3 x 5, twenty unrelated variables", with_unrelated(dominating(3, 5, 21)))]
    for name, setup in families:
        taken, fields = meter.best(list_line(setup))
        size = f"{setup[0]} variables, {len(setup[1])} rules, {len(setup[2])} settings"
        print(f"list, {name} ({size}): answer {fields[1]}, {int(fields[2], 16)} ways out, {taken:.3f} {meter.unit}")


def measure_turn(meter: Timer | Counter) -> None:
    families = [("FFFFFFFF alone", (32, [0xFFFFFFFF])), ("16 pairs", (32, [3 << (2 * pair) for pair in range(16)])),
                ("1,024 sets across five fours", (20, crossing_fours()))]
    for name, (settings, sets) in families:
        taken, fields = meter.best(turn_line(settings, sets))
        print(f"turn, {name}: answer {fields[1]}, {int(fields[2], 16)} sets, {taken:.3f} {meter.unit}")
    slowest = max((meter.best(turn_line(*antichain(seed)))[0], seed) for seed in range(1, 151))
    print(f"turn, 150 random antichains: the slowest (seed {slowest[1]}) takes {slowest[0]:.3f} {meter.unit}")


def main() -> None:
    parser = argparse.ArgumentParser(description="measures the jobs through the program calls")
    parser.add_argument("--jobs", default="ALT", help="the letters that are measured")
    parser.add_argument("--instructions", action="store_true", help="instructions are counted, and no time is taken")
    parser.add_argument("--program", help="words that run another program instead")
    words = parser.parse_args()
    program = words.program or (COUNTED_PROGRAM if words.instructions else PROGRAM)
    meter = (Counter if words.instructions else Timer)(program.split())
    for letter, measured in (("A", measure_ask), ("L", measure_list), ("T", measure_turn)):
        if letter in words.jobs:
            measured(meter)


if __name__ == "__main__":
    main()
