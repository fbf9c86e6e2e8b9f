"""The classes of Frame in the words of document 01, told line by line. By them test.py counts the
compared texts, and holds frames.py to a second reading of "any text that breaks this is Frame"."""

import re

FIRST, MIDDLE, LAST = "first", "middle", "last"

# Each class with the lines, without their LF, that are of it unless a class before it has them.
ANYWHERE = [
    ("an empty line", rb""), ("CR", rb".*\r.*"), ("a-f", rb".*[a-f].*"),
    ("any other byte", rb".*[^0-9A-F].*"), ("an odd count of digits", rb"(..)*."),
    ("129 bytes", rb".{258}"), ("more than 129 bytes", rb".{259,}"),
    ("another kind", rb"(?!10|20|30|FF).*"),
]
# The classes of the first line, of the lines between, and of the last line. Only those between have
# literals, and any length up to 128 bytes; an LF missing there joins two lines to one.
CLASSES: dict[str, list[tuple[str, bytes]]] = {
    FIRST: [*ANYWHERE, ("a missing header", rb"(?!10).*"),
            ("a wrong frame length", rb"..(.{3,})?")],
    MIDDLE: [*ANYWHERE, ("a second header", rb"10.*"), ("bytes after FF", rb"FF.*"),
             ("a literal byte 00", rb"..(..)*00(..)*")],
    LAST: [*ANYWHERE, ("a second header", rb"10.*"), ("a missing FF", rb"(?!FF).*"),
           ("a wrong frame length", rb"...+")],
}
MISSING_LF, MISSING_FF = ("a missing LF", LAST), ("a missing FF", LAST)
Fault = tuple[str, str]


def all_faults() -> set[Fault]:
    """Every class at every place where it can stand."""
    return {(name, place) for place in CLASSES for name, pattern in CLASSES[place]} | {MISSING_LF}


def faults_of_line(line: bytes, place: str) -> list[Fault]:
    """The first class that the line is of, if any."""
    return [(name, place) for name, pattern in CLASSES[place]
            if re.fullmatch(pattern, line, re.DOTALL)][:1]


def faults(text: bytes) -> list[Fault]:
    """What breaks the text: none exactly when it is good."""
    if not text.endswith(b"\n"):
        return faults(text + b"\n") + [MISSING_LF]
    lines = text.split(b"\n")[:-1]
    places = [FIRST, *[MIDDLE] * (len(lines) - 2), LAST]
    found = [fault for line, place in zip(lines, places) for fault in faults_of_line(line, place)]
    # The only line of a text is its first one.
    return found + [MISSING_FF] * (len(lines) == 1)
