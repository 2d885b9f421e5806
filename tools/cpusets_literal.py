"""Request 2 of document 02 taken word by word: what a text is, and every fault in it.

Everything here enumerates and nothing scans: whether some text goes on from a
beginning is asked by trying, the faults are all listed, and the first met from
the left is the one with the lowest offset.
"""

import re
from functools import lru_cache
from itertools import product


def is_number(text):
    return text != "" and all(character in "0123456789" for character in text)


def is_item(text):
    """A number, or a range: two numbers with a hyphen between."""
    numbers = text.split("-")
    return len(numbers) in (1, 2) and all(is_number(number) for number in numbers)


@lru_cache(maxsize=None)
def is_list(text, limit):
    return text == "" or all(is_item(item) for item in text.split(","))


def is_mask(text, limit):
    """As many words as the limit needs, each of eight hexadecimal digits."""
    words = text.split(",")
    return (32 * (len(words) - 1) < limit <= 32 * len(words)
            and all(re.fullmatch("[0-9a-fA-F]{8}", word) for word in words))


@lru_cache(maxsize=None)
def begins_list(text, limit):
    """Some list begins so. A beginning lacks a digit at most, so two characters more are enough."""
    ends = ["".join(end) for length in range(3) for end in product("0,-", repeat=length)]
    return any(is_list(text + end, limit) for end in ends)


@lru_cache(maxsize=None)
def zeros(limit):
    (mask,) = [mask for mask in ("00000000", "00000000,00000000") if is_mask(mask, limit)]
    return mask


def zeros_after(text, limit):
    """The text as the beginning of a mask whose other digits are zeros."""
    return text + zeros(limit)[len(text):]


@lru_cache(maxsize=None)
def begins_mask(text, limit):
    """Some mask begins so. The characters of a mask don't depend on one another, so zeros are enough."""
    return is_mask(zeros_after(text, limit), limit)


def unexpected(text, limit, is_text, begins):
    """Where the text is one no more: at a character, or at the end."""
    for offset in range(len(text)):
        if begins(text[:offset], limit) and not begins(text[:offset + 1], limit):
            yield offset
    if begins(text, limit) and not is_text(text, limit):
        yield len(text)


def list_faults(text, limit):
    """All faults as pairs of offset and number."""
    for offset in unexpected(text, limit, is_list, begins_list):
        yield offset, 17
    for found in re.finditer("([0-9]+)-([0-9]+)", text):
        if int(found[2]) < int(found[1]):
            yield found.start(2), 18
    for found in re.finditer("[0-9]+", text):
        if int(found[0]) >= limit:
            yield found.start(), 19


def mask_faults(text, limit):
    for offset in unexpected(text, limit, is_mask, begins_mask):
        yield offset, 17
    # A digit has its place, whatever is wrong to the right of it.
    sound = max((text[:length] for length in range(len(text) + 1) if begins_mask(text[:length], limit)), key=len)
    for offset, bits in digit_bits(zeros_after(sound, limit)):
        if any(bit >= limit for bit in bits):
            yield offset, 19


def digit_bits(mask):
    """Each digit's offset and the bits that it sets; the last digit holds bits 0 to 3."""
    places = [offset for offset in range(len(mask)) if mask[offset] != ","]
    for steps, offset in enumerate(reversed(places)):
        value = int(mask[offset], 16)
        yield offset, [4 * steps + bit for bit in range(4) if value & 1 << bit]


def answer(faults, cores):
    """Number, offset and set of a read: the first fault from the left, or the cores."""
    first = min(faults, default=None)
    if first is None:
        return 0, 0, sum(1 << core for core in set(cores()))
    return first[1], first[0], 0


def list_numbers(text):
    """Every core that the list names, as often as it does."""
    for item in text.split(",") if text else []:
        numbers = [int(number) for number in item.split("-")]
        yield from range(numbers[0], numbers[-1] + 1)


def read_list(text, limit):
    return answer(list_faults(text, limit), lambda: list_numbers(text))


def read_mask(text, limit):
    return answer(mask_faults(text, limit), lambda: [bit for _, bits in digit_bits(text) for bit in bits])


def is_written_list(text, cores, limit):
    """Ascending numbers and ranges of two or more, no two of which could be one range, all the cores."""
    spans = [[int(number) for number in item.split("-")] for item in text.split(",")] if text else []
    return (
        all(len(span) == 1 or span[0] < span[1] for span in spans)
        and all(one[-1] + 1 < other[0] for one, other in zip(spans, spans[1:]))
        and text == ",".join("-".join(str(number) for number in span) for span in spans)
        and read_list(text, limit) == (0, 0, cores)
    )


def is_written_mask(text, cores, limit):
    return text == text.lower() and read_mask(text, limit) == (0, 0, cores)
