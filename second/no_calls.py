"""Lines that are near a call of each letter and are none, so that calls.py answers `?`."""

from calls import MOST_BYTES, MOST_SETS

# The fields of a good call of each letter; each has a digit above 9, to be made small.
FIELDS: dict[str, list[bytes]] = {
    "A": [b"0000000A", b"0A8A00", b"0A", b"000000FF", b"0000000A"],
    "L": [b"0000000A", b"0A8A00", b"0A00", b"0000000A", b"0000000B"],
    "T": [b"0000000A", b"0000000A0000000C", b"0000000A", b"0000000B"],
    "M": [b"0000000A", b"0000000A0000000C", b"0000000A"],
    "R": [b"313030410A46460A", b"0000000A", b"0000000A"],
    "W": [b"0000000A", b"0A8A00", b"0A00", b"000000FF"],
}
# For each letter the places of its rooms among the fields, and the most that a room may be.
ROOMS: dict[str, tuple[list[int], int]] = {
    "A": ([4], MOST_BYTES), "L": ([3, 4], MOST_SETS), "T": ([2, 3], MOST_SETS),
    "M": ([2], MOST_BYTES), "R": ([1, 2], MOST_BYTES), "W": ([3], MOST_BYTES),
}


def good_line(letter: str) -> bytes:
    """The good call itself, without its LF."""
    return b" ".join([letter.encode("ascii"), *FIELDS[letter]])


def with_field(letter: str, place: int, field: bytes) -> bytes:
    """The good call with another field in this place."""
    fields = FIELDS[letter]
    return b" ".join([letter.encode("ascii"), *fields[:place], field, *fields[place + 1:]])


def wrong_lines(letter: str) -> list[bytes]:
    """Wrong letters, spaces and counts of fields."""
    line, name = good_line(letter), letter.encode("ascii")
    return [b"", b" ", b"-", b"?", name, name + b" ", line[1:], line[2:], name + line, b" " + line,
            line + b" ", line + b"\r", line + b"\0", line + b" -", line + b" 00000000",
            b"X" + line[1:], line[:1].lower() + line[1:], line.rsplit(b" ", 1)[0],
            line.replace(b" ", b"  ", 1), line.replace(b" ", b"\t"), line.replace(b" ", b","),
            line + b" " + line]


def wrong_fields(letter: str) -> list[bytes]:
    """Each field with small letters, a digit missing, a digit too many, and other bytes."""
    return [with_field(letter, place, other) for place, field in enumerate(FIELDS[letter])
            for other in (field.lower(), field[1:], field + b"0", field[:-1] + b"G", b"", b"--",
                          field + b"-", b"0x" + field[2:], b" " + field, b"\xFF" + field[1:])]


def too_large(letter: str) -> list[bytes]:
    """Rooms, and for two letters an argument, above what a call may have."""
    places, most = ROOMS[letter]
    found = [with_field(letter, place, b"%08X" % room)
             for place in places for room in (most + 1, 0x80000000, 0xFFFFFFFF)]
    if letter == "A":
        found.append(with_field(letter, 1, b"00" * (MOST_BYTES + 1)))
    if letter == "T":
        found.append(with_field(letter, 1, b"00000000" * (MOST_SETS + 1)))
    return found


def no_calls(letter: str) -> list[bytes]:
    return wrong_lines(letter) + wrong_fields(letter) + too_large(letter)
