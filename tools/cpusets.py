#!/usr/bin/env python3
"""Core sets in the List and Mask formats of Linux cpuset(7), as request 2 of document 02 has them.

    python3 tools/cpusets.py FORMAT [LIMIT] < lines

reads each line in FORMAT, `list` or `mask`, and prints it in the other one, as
the program `convert` must; LIMIT is the limit on cores, 1 to 64, and 32 where it
is not given. A text that is refused prints as `refused N at OFFSET`.
"""

import re
import signal
import sys

MOST_LIMIT = 64
USUAL_LIMIT = 32

DONE = 0
UNEXPECTED = 17
BACKWARD = 18
CORE_TOO_LARGE = 19
TOO_SHORT = 20

DIGITS = re.compile(b"[0-9]*")
HEXADECIMAL = b"0123456789abcdefABCDEF"


class Refused(Exception):
    def __init__(self, number, offset):
        super().__init__(number, offset)
        self.number = number
        self.offset = offset


# Reading. A text is judged from the left, so the first fault met is the one given.


def number_at(text, start, limit):
    """The core number whose first digit is at `start`, and where its digits end."""
    end = DIGITS.match(text, start).end()
    if end == start:
        raise Refused(UNEXPECTED, start)
    digits = text[start:end].lstrip(b"0") or b"0"
    # Three digits are above every limit, so that no long number need be worked out.
    if len(digits) > 2 or int(digits) >= limit:
        raise Refused(CORE_TOO_LARGE, start)
    return int(digits), end


def item_at(text, start, limit):
    """The cores of the number or range at `start`, and where it ends."""
    first, end = number_at(text, start, limit)
    if text[end:end + 1] != b"-":
        return 1 << first, end
    last, after = number_at(text, end + 1, limit)
    if last < first:
        raise Refused(BACKWARD, end + 1)
    return (2 << last) - (1 << first), after


def list_cores(text, limit):
    if not text:
        return 0
    cores, end = item_at(text, 0, limit)
    while end < len(text):
        if text[end:end + 1] != b",":
            raise Refused(UNEXPECTED, end)
        more, end = item_at(text, end + 1, limit)
        cores |= more
    return cores


def word_count(limit):
    return (limit + 31) // 32


def mask_cores(text, limit):
    length = 9 * word_count(limit) - 1
    cores = 0
    for at in range(length):
        character = text[at:at + 1]
        if not character or character not in (b"," if at % 9 == 8 else HEXADECIMAL):
            raise Refused(UNEXPECTED, at)
        if character != b",":
            cores = cores << 4 | int(character, 16)
            # The digits still to come lift this one to its place in the mask.
            to_come = length - 1 - at - (length - 1 - at) // 9
            if cores << 4 * to_come >> limit:
                raise Refused(CORE_TOO_LARGE, at)
    if len(text) > length:
        raise Refused(UNEXPECTED, length)
    return cores


def answer(read, text, limit):
    """Number, offset and set: offset 0 where the text is accepted, no core where it is refused."""
    try:
        return DONE, 0, read(text, limit)
    except Refused as refused:
        return refused.number, refused.offset, 0


def read_list(text, limit):
    return answer(list_cores, text, limit)


def read_mask(text, limit):
    return answer(mask_cores, text, limit)


# Writing.


def written(text, cores, limit, room):
    """Number and text; a refused write has no text."""
    if cores >> limit:
        return CORE_TOO_LARGE, b""
    if len(text) > room:
        return TOO_SHORT, b""
    return DONE, text


def runs(cores):
    """The longest runs of neighbouring cores, lowest first, as pairs of first and last core."""
    found = []
    for core in range(cores.bit_length()):
        if cores >> core & 1:
            if found and found[-1][1] == core - 1:
                found[-1] = found[-1][0], core
            else:
                found.append((core, core))
    return found


def write_list(cores, limit, room):
    items = [f"{first}" if first == last else f"{first}-{last}" for first, last in runs(cores)]
    return written(",".join(items).encode(), cores, limit, room)


def write_mask(cores, limit, room):
    words = [f"{cores >> 32 * word & 0xFFFFFFFF:08x}" for word in range(word_count(limit))]
    return written(",".join(reversed(words)).encode(), cores, limit, room)


# The program.

CONVERSIONS = {"list": (read_list, write_mask), "mask": (read_mask, write_list)}


def converted(line, form, limit):
    """What one line in the format `form` gives."""
    read, write = CONVERSIONS[form]
    number, offset, cores = read(line, limit)
    if number != DONE:
        return f"refused {number} at {offset}".encode()
    # No list of 64 cores is longer than 200 bytes, so the writer has room enough.
    return write(cores, limit, 200)[1]


def lines_of(data):
    """The last line may lack its newline; no line follows a newline at the end."""
    lines = data.split(b"\n")
    return lines if lines[-1] else lines[:-1]


def convert(data, form, limit):
    return b"".join(converted(line, form, limit) + b"\n" for line in lines_of(data))


def main(arguments):
    form, limit = (*arguments, str(USUAL_LIMIT))[:2] if arguments else ("", "")
    if (form not in CONVERSIONS or len(arguments) > 2
            or not limit.isdecimal() or not 1 <= int(limit) <= MOST_LIMIT):
        sys.exit(f"usage: cpusets.py list|mask [LIMIT], LIMIT 1 to {MOST_LIMIT}")
    sys.stdout.buffer.write(convert(sys.stdin.buffer.read(), form, int(limit)))


if __name__ == "__main__":
    # A reader such as head may close the pipe early.
    signal.signal(signal.SIGPIPE, signal.SIG_DFL)
    main(sys.argv[1:])
