"""Made-up but realistic oscilloscope setups, for measuring List: channels, ladders of rate and memory, acquisition modes.

A setup is (variable count, hard clauses, soft clauses); a literal is v or -v, as document 01 writes them.
"""

from itertools import combinations

Clause = list[int]
Setup = tuple[int, list[Clause], list[Clause]]


class Names:
    """Numbers variables from 1 in the order in which they are first named."""

    def __init__(self) -> None:
        self.numbers: dict[str, int] = {}

    def __call__(self, name: str) -> int:
        return self.numbers.setdefault(name, len(self.numbers) + 1)


def ladder(names: Names, what: str, steps: int) -> list[int]:
    """Variable k means "at or above step k"."""
    return [names(f"{what} {step}") for step in range(1, steps + 1)]


def ladder_rules(steps: list[int]) -> list[Clause]:
    """The lowest step is always reached, and each step implies the one below."""
    return [[steps[0]]] + [[-above, below] for below, above in zip(steps, steps[1:])]


def scope(channels: int, rate_steps: int, memory_steps: int, wishes: int, wide: bool) -> Setup:
    """One model of oscilloscope and a user who asks for nearly everything."""
    names = Names()
    channel = [names(f"channel {number}") for number in range(1, channels + 1)]
    rate = ladder(names, "rate", rate_steps)
    memory = ladder(names, "memory", memory_steps)
    peak, high_resolution, average = names("peak detect"), names("high resolution"), names("average")
    segments, roll, digital = names("segments"), names("roll"), names("digital")
    generator, decode, spectrum = names("generator"), names("decode"), names("spectrum")
    pairs = [names(f"interleaved {pair}") for pair in range(channels // 2)]
    delayed = [names(f"delayed {number}") for number in range(1, channels + 1)] if wide else []
    # A four-channel model has full bandwidth and a trigger for each channel.
    full = [names(f"full bandwidth {number}") for number in range(1, channels + 1)] if channels == 4 else []
    trigger = [names(f"trigger {number}") for number in range(1, channels + 1)] if channels == 4 else []

    hard = ladder_rules(rate) + ladder_rules(memory)
    # Interleaving joins two channels' converters: only one of a pair may be on.
    for pair, interleaved in enumerate(pairs):
        hard.append([-interleaved, -channel[2 * pair], -channel[2 * pair + 1]])
    # The top two rates want every pair interleaved, the third at least one.
    for interleaved in pairs:
        hard += [[-rate[-1], interleaved], [-rate[-2], interleaved]]
    hard.append([-rate[-3], *pairs])
    # Deep memory is shared: the more channels are on, the less each has.
    for size, step in ((2, -1), (3, -2), (5, -3)):
        for on in combinations(channel, size):
            hard.append([-memory[step], *(-each for each in on)])
    # One acquisition mode at a time, and each mode's price.
    for first, second in combinations((peak, high_resolution, average, roll), 2):
        hard.append([-first, -second])
    hard += [[-peak, -rate[-1]], [-peak, -memory[-1]], [-high_resolution, -rate[-2]], [-average, -segments]]
    hard += [[-segments, -memory[-1]], [-segments, -roll], [-roll, -rate[2]], [-roll, -memory[-2]]]
    # The digital channels take the last pair's converters, decoding and the spectrum take memory.
    hard += [[-digital, -channel[-1]], [-digital, -channel[-2]], [-digital, -rate[-1]]]
    hard += [[-decode, -spectrum], [-decode, -memory[-1]], [-spectrum, -segments], [-spectrum, -memory[-2]]]
    hard += [[-generator, -rate[-1], -peak], [-generator, -digital, -decode]]
    for number, each in enumerate(delayed):
        hard += [[-each, channel[number]], [-each, -rate[-2]], [-each, -roll]]
    for first, second in combinations(delayed, 2):
        hard.append([-first, -second, -memory[-2]])

    for number, each in enumerate(full):
        hard += [[-each, channel[number]], [-each, -high_resolution], [-each, -average], [-each, rate[3]]]
        hard += [[-each, -roll], [-each, -digital, -rate[-2]]]
    for number, each in enumerate(trigger):
        hard += [[-each, channel[number]], [-each, -roll]]
    hard += [[-first, -second] for first, second in combinations(trigger, 2)]
    hard += [[-first, -second, -memory[-1]] for first, second in combinations(full, 2)]

    soft = [[each] for each in channel] + [[rate[-1]], [rate[-2]], [memory[-1]], [memory[-2]]]
    soft += [[each] for each in (peak, high_resolution, segments, digital, generator, decode, spectrum, average)]
    soft += [[each] for each in delayed + full + trigger]
    soft += [[rate[-3]], [memory[-3]], [-roll], [roll, average]]
    return len(names.numbers), hard, soft[:wishes]


def scopes() -> list[tuple[str, Setup]]:
    """The ten that docs/PERFORMANCE.md lists."""
    models = [
        ("four channels", 4, 14, 10, 20, False),
        ("four channels, more wishes", 4, 14, 10, 28, True),
        ("four channels, fine rates", 4, 20, 10, 24, False),
        ("four channels, deep memory", 4, 14, 16, 26, True),
        ("four channels, all wishes", 4, 16, 12, 32, True),
        ("eight channels", 8, 12, 10, 24, False),
        ("eight channels, more wishes", 8, 12, 10, 28, True),
        ("eight channels, fine rates", 8, 16, 10, 26, True),
        ("eight channels, deep memory", 8, 12, 16, 26, False),
        ("eight channels, all wishes", 8, 14, 12, 32, True),
    ]
    return [(name, scope(*model)) for name, *model in models]
