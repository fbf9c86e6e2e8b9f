"""Answers calls of the six jobs, one line of hexadecimal each, from standard input.

    python3 second/calls.py [--jobs LETTERS]

A number has 8 digits, a byte 2 and a set 8; an empty run of bytes or sets is `-`. Lent places hold
A5 before each call. What is no such call, or of a letter not listed, is answered by `?`.
"""

import argparse
import re
import sys
from typing import Callable, Union

import frames
import resolver

MOST_BYTES = 40_000
MOST_SETS = 2_048
ALL_JOBS = "ALTMRW"
NO_CALL = b"?"

Value = Union[int, bytes, list[int]]


class NoCall(Exception):
    """A field that no call has in that place."""


def number(field: bytes) -> int:
    if not re.fullmatch(rb"[0-9A-F]{8}", field):
        raise NoCall
    return int(field, 16)


def some_bytes(field: bytes) -> bytes:
    if field == b"-":
        return b""
    if not re.fullmatch(rb"(?:[0-9A-F]{2})+", field) or len(field) > 2 * MOST_BYTES:
        raise NoCall
    return bytes.fromhex(field.decode("ascii"))


def some_sets(field: bytes) -> list[int]:
    if field == b"-":
        return []
    if not re.fullmatch(rb"(?:[0-9A-F]{8})+", field) or len(field) > 8 * MOST_SETS:
        raise NoCall
    return [int(field[start:start + 8], 16) for start in range(0, len(field), 8)]


def byte_places(field: bytes) -> bytes:
    room = number(field)
    if room > MOST_BYTES:
        raise NoCall
    return b"\xA5" * room


def set_places(field: bytes) -> list[int]:
    room = number(field)
    if room > MOST_SETS:
        raise NoCall
    return [0xA5A5A5A5] * room


# Each letter's job and the readers of its fields; the fields are the job's arguments in order.
JOBS: dict[bytes, tuple[Callable, list[Callable]]] = {
    b"A": (resolver.ask, [number, some_bytes, some_bytes, number, byte_places]),
    b"L": (resolver.list_ways_out, [number, some_bytes, some_bytes, set_places, set_places]),
    b"T": (resolver.turn, [number, some_sets, set_places, set_places]),
    b"M": (resolver.mark, [number, some_sets, byte_places]),
    b"R": (frames.read, [some_bytes, byte_places, byte_places]),
    b"W": (frames.write, [number, some_bytes, some_bytes, byte_places]),
}


def shown(value: Value) -> bytes:
    """A field that stands for the value."""
    if isinstance(value, int):
        return b"%08X" % value
    if isinstance(value, bytes):
        return value.hex().upper().encode("ascii") or b"-"
    return b"".join(b"%08X" % each for each in value) or b"-"


def line_of_call(letter: str, *fields: Value) -> bytes:
    """The line, without its LF, of a letter and its fields; a call's rooms are numbers."""
    return b" ".join([letter.encode("ascii"), *map(shown, fields)])


def answer(line: bytes, jobs: str = ALL_JOBS) -> bytes:
    """The answer, without LF, to one line without its LF."""
    letter, *fields = line.split(b" ")
    if letter not in JOBS or letter not in jobs.encode("ascii"):
        return NO_CALL
    job, readers = JOBS[letter]
    if len(fields) != len(readers):
        return NO_CALL
    try:
        arguments = [reader(field) for reader, field in zip(readers, fields)]
    except NoCall:
        return NO_CALL
    return line_of_call(letter.decode("ascii"), *job(*arguments))


def answers(text: bytes, jobs: str = ALL_JOBS) -> bytes:
    """The answers to all lines; a last piece without LF is no call."""
    *lines, last = text.split(b"\n")
    given = [answer(line, jobs) for line in lines] + [NO_CALL] * (last != b"")
    return b"".join(each + b"\n" for each in given)


def main() -> None:
    parser = argparse.ArgumentParser(description="answers calls of the six jobs")
    parser.add_argument("--jobs", default=ALL_JOBS, help="the letters that are answered")
    jobs = parser.parse_args().jobs
    sys.stdout.buffer.write(answers(sys.stdin.buffer.read(), jobs))


if __name__ == "__main__":
    main()
