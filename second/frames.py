"""Read and Write of document 01: a setup as lines of hexadecimal."""

from typing import Optional

from resolver import (DONE, FRAME, MOST_HARD_BYTES, MOST_SETTINGS, MOST_SOFT_BYTES, MOST_VARIABLES,
                      ROOM, SIZE, SOFTS, VARS, clauses_of, refusal_of_buffers)

MOST_TEXT = 32768
MOST_FRAME = 128

HEADER, HARD, SOFT, END = 0x10, 0x20, 0x30, 0xFF


def frame_of(line: bytes) -> Optional[bytes]:
    """The bytes of one line without its LF, or None if no frame is written so."""
    if not line or len(line) % 2 != 0 or len(line) > 2 * MOST_FRAME:
        return None
    if any(digit not in b"0123456789ABCDEF" for digit in line):
        return None
    return bytes.fromhex(line.decode("ascii"))


def frames_of(text: bytes) -> Optional[list[bytes]]:
    """The frames of a text, or None if it is Frame."""
    lines = text.split(b"\n")
    # What follows the last LF; anything there is "a missing LF".
    if lines.pop() != b"":
        return None
    frames = [frame_of(line) for line in lines]
    if None in frames or len(frames) < 2:
        return None
    header, clauses, end = frames[0], frames[1:-1], frames[-1]
    if header[0] != HEADER or len(header) != 2 or end != bytes([END]):
        return None
    if any(frame[0] not in (HARD, SOFT) or 0 in frame[1:] for frame in clauses):
        return None
    return frames


def buffer_of(kind: int, frames: list[bytes]) -> bytes:
    """The clauses of one kind, each ended by 0."""
    return b"".join(frame[1:] + b"\0" for frame in frames if frame[0] == kind)


def read(text: bytes, hard_places: bytes,
         soft_places: bytes) -> tuple[int, int, int, int, bytes, bytes]:
    """Returns (number, count, hard filled, soft filled, hard afterwards, soft afterwards)."""
    # "Read: 2, 11, 12"
    if len(text) > MOST_TEXT:
        return SIZE, 0, 0, 0, hard_places, soft_places
    frames = frames_of(text)
    if frames is None:
        return FRAME, 0, 0, 0, hard_places, soft_places
    hard, soft = buffer_of(HARD, frames), buffer_of(SOFT, frames)
    if len(hard_places) < len(hard) or len(soft_places) < len(soft):
        return ROOM, 0, 0, 0, hard_places, soft_places
    return (DONE, frames[0][1], len(hard), len(soft),
            hard + hard_places[len(hard):], soft + soft_places[len(soft):])


def refusal_of_write(count: int, hard: bytes, soft: bytes, text_room: int) -> int:
    """The refusals of "Write: 1, 2, 4, 5, 6, 7, 12"."""
    if count > MOST_VARIABLES:
        return VARS
    if len(hard) > MOST_HARD_BYTES or len(soft) > MOST_SOFT_BYTES:
        return SIZE
    number = refusal_of_buffers([hard, soft], count)
    if number != DONE:
        return number
    if len(clauses_of(soft)) > MOST_SETTINGS:
        return SOFTS
    # "Its length is 2 × literals + 3 × clauses + 8."
    clauses = clauses_of(hard) + clauses_of(soft)
    needed = 2 * sum(len(clause) for clause in clauses) + 3 * len(clauses) + 8
    return ROOM if text_room < needed else DONE


def write(count: int, hard: bytes, soft: bytes, text_places: bytes) -> tuple[int, int, bytes]:
    """Returns (number, filled, text afterwards)."""
    number = refusal_of_write(count, hard, soft, len(text_places))
    if number != DONE:
        return number, 0, text_places
    text = text_of(count, hard, soft)
    return DONE, len(text), text + text_places[len(text):]


def text_of(count: int, hard: bytes, soft: bytes) -> bytes:
    """By "The writer puts the header, hard clauses, soft clauses and FF"; it judges nothing."""
    frames = [bytes([HEADER, count])]
    frames += [bytes([HARD]) + clause for clause in clauses_of(hard)]
    frames += [bytes([SOFT]) + clause for clause in clauses_of(soft)]
    frames += [bytes([END])]
    return b"".join(line_of(frame) for frame in frames)


def line_of(frame: bytes) -> bytes:
    """A line is "pairs of digits 0-9 and A-F, one LF"."""
    return frame.hex().upper().encode("ascii") + b"\n"
