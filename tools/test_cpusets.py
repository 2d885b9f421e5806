#!/usr/bin/env python3
"""Hold tools/cpusets.py to request 2 of document 02 by brute force.

    python3 tools/test_cpusets.py

prints what was checked and how often; exit status 1 on the first difference.
"""

import sys
from itertools import product

sys.dont_write_bytecode = True

import cpusets_literal as literal
from cpusets import convert, read_list, read_mask, write_list, write_mask
from dice import Dice
from self_check import counts, expect, run

ROOM = 200
LIMITS = range(1, 65)
# The longest numbers that the tests write have 5,000 digits.
sys.set_int_max_str_digits(10000)


def check_list(text, limit):
    got = read_list(text.encode("latin-1"), limit)
    expect("reading a list", got, literal.read_list(text, limit), repr(text[:80]), "limit", limit)
    counts[f"lists: {'accepted' if got[0] == 0 else f'refused {got[0]}'}"] += 1


def check_mask(text, limit):
    got = read_mask(text.encode("latin-1"), limit)
    expect("reading a mask", got, literal.read_mask(text, limit), repr(text[:80]), "limit", limit)
    counts[f"masks: {'accepted' if got[0] == 0 else f'refused {got[0]}'}"] += 1


def check_set(cores, limit):
    """Both writers: the stated form, the set back, and the least room that is enough."""
    for name, write, read, is_written in (
        ("list", write_list, read_list, literal.is_written_list),
        ("mask", write_mask, read_mask, literal.is_written_mask),
    ):
        context = name, hex(cores), "limit", limit
        number, text = write(cores, limit, ROOM)
        if cores >= 2**limit:
            expect("a core too large", (number, text), (19, b""), *context)
            expect("19 before 20", write(cores, limit, 0), (19, b""), *context)
            counts[f"sets written as a {name}: refused 19"] += 1
            continue
        expect("done", number, 0, *context)
        expect("the stated form", is_written(text.decode(), cores, limit), True, *context, text)
        expect("the set back", read(text, limit), (0, 0, cores), *context, text)
        expect("room enough", write(cores, limit, len(text)), (0, text), *context)
        if text:
            expect("a byte short", write(cores, limit, len(text) - 1), (20, b""), *context)
        counts[f"sets written as a {name}"] += 1


# What the papers show.


def check_examples():
    """The worked examples of the readings of request 2."""
    for text, limit, wanted in (
        ("5", 32, (0, 0, 1 << 5)), ("5-3x", 32, (18, 2, 0)), ("40-", 32, (19, 0, 0)),
        ("40-3", 32, (19, 0, 0)), ("32x", 32, (19, 0, 0)), ("3-40", 32, (19, 2, 0)),
        ("1,", 32, (17, 2, 0)), ("1,,2", 32, (17, 2, 0)), ("1-2-3", 32, (17, 3, 0)),
        ("-1", 32, (17, 0, 0)), ("0,0040", 32, (19, 2, 0)), ("4294967296", 32, (19, 0, 0)),
        ("9" * 5000, 32, (19, 0, 0)), ("0" * 50 + "5", 32, (0, 0, 1 << 5)),
        ("3-3", 32, (0, 0, 1 << 3)), ("", 32, (0, 0, 0)), (" 1", 32, (17, 0, 0)),
        ("1\n", 32, (17, 1, 0)), ("0-31:2/4", 32, (17, 4, 0)), ("0x3", 32, (17, 1, 0)),
        ("0-3,2-5,1", 32, (0, 0, 0x3F)), ("31", 32, (0, 0, 1 << 31)), ("32", 32, (19, 0, 0)),
        ("63", 64, (0, 0, 1 << 63)), ("64", 64, (19, 0, 0)),
    ):
        expect("an example of a list", read_list(text.encode(), limit), wanted, repr(text[:80]))
        check_list(text, limit)
    for text, limit, wanted in (
        ("00000000,00000000", 32, (17, 8, 0)), ("00000000", 64, (17, 8, 0)), ("", 32, (17, 0, 0)),
        ("00000000", 32, (0, 0, 0)), ("DeadBeef", 32, (0, 0, 0xDEADBEEF)), ("0x000003", 32, (17, 1, 0)),
        ("00000010", 4, (19, 6, 0)), ("0000000f", 4, (0, 0, 15)), ("0000000f", 3, (19, 7, 0)),
        ("00000001,00000000", 33, (0, 0, 1 << 32)), ("00000002,0000000x", 33, (19, 7, 0)),
    ):
        expect("an example of a mask", read_mask(text.encode(), limit), wanted, repr(text))
        check_mask(text, limit)


def check_man_page():
    """The examples of cpuset(7); those of more than 64 bits are too long for any limit here."""
    for text, cores, limit in (
        ("00000001", [0], 32),
        ("000000ff,00000000", range(32, 40), 64),
        ("00000000,000e3862", [1, 5, 6, 11, 12, 13, 17, 18, 19], 64),
    ):
        wanted = sum(1 << core for core in cores)
        expect("cpuset(7), Mask", read_mask(text.encode(), limit), (0, 0, wanted), text)
        expect("cpuset(7), Mask", write_mask(wanted, limit, ROOM), (0, text.encode()), text)
    for text, cores in (("0-4,9", [0, 1, 2, 3, 4, 9]), ("0-2,7,12-14", [0, 1, 2, 7, 12, 13, 14])):
        wanted = sum(1 << core for core in cores)
        for limit in (15, 32, 64):
            expect("cpuset(7), List", read_list(text.encode(), limit), (0, 0, wanted), text)
            expect("cpuset(7), List", write_list(wanted, limit, ROOM), (0, text.encode()), text)
    for text in ("40000000,00000000,00000000", "00000001,00000000,00000000", "00000001,00000001,00010117"):
        expect("cpuset(7), three words", read_mask(text.encode(), 64), (17, 17, 0), text)
    counts["examples of cpuset(7)"] += 8


def check_lines():
    """The program's lines: a line for each, the last one with or without its newline."""
    for data, form, limit, wanted in (
        (b"", "list", 32, b""), (b"\n", "list", 32, b"00000000\n"), (b"\n", "mask", 32, b"refused 17 at 0\n"),
        (b"0-4,9\n\n1-", "list", 32, b"0000021f\n00000000\nrefused 17 at 2\n"),
        (b"0-4,9", "list", 64, b"00000000,0000021f\n"), (b"00000000\n", "mask", 32, b"\n"),
        (b"0000021F\r\n0000021f", "mask", 32, b"refused 17 at 8\n0-4,9\n"),
        (b"5-3x\n40-\n", "list", 32, b"refused 18 at 2\nrefused 19 at 0\n"),
    ):
        expect("lines", convert(data, form, limit), wanted, data, form, limit)
        counts["lines of the program"] += wanted.count(b"\n")


# All short texts, and random ones.


def check_all_lists(alphabet, longest, limits):
    for length in range(longest + 1):
        for letters in product(alphabet, repeat=length):
            for limit in limits:
                check_list("".join(letters), limit)


def number(dice, limit):
    """A core number, or one about the limit, or a long one; often with zeros before it."""
    value = dice.pick([dice.below(limit), dice.below(limit), dice.below(limit), dice.between(limit - 1, limit + 1),
                       dice.below(1000), 2**32 + dice.below(limit), 2**64 + dice.below(limit)])
    return "0" * dice.pick([0, 0, 0, 1, 2, 30]) + str(value)


def item(dice, limit):
    if dice.one_in(2):
        return number(dice, limit)
    first = dice.below(limit)
    return f"{first}-{dice.between(first, limit - 1)}" if dice.one_in(2) else f"{first}-{number(dice, limit)}"


def random_list(dice, limit):
    return ",".join(item(dice, limit) for _ in range(dice.between(0, 5)))


def random_mask(dice, limit):
    """A mask in either case; every other one has a bit at or above the limit, where its words have room."""
    words = (limit + 31) // 32
    cores = random_set(dice, limit if dice.one_in(2) else 32 * words)
    digits = f"{cores:0{8 * words}x}"
    digits = "".join(dice.pick([digit, digit.upper()]) for digit in digits)
    return ",".join(digits[8 * word:8 * word + 8] for word in range(words))


def random_set(dice, limit):
    """Sets of few cores, of many, of long runs; none and all among them."""
    if dice.one_in(20):
        return dice.pick([0, 2**limit - 1])
    cores = dice.below(2**32) << 32 | dice.below(2**32)
    for _ in range(dice.below(3)):
        cores &= dice.below(2**32) << 32 | dice.below(2**32)
    if dice.one_in(2):
        first = dice.below(limit)
        cores |= (1 << dice.between(first, limit)) - (1 << first)
    return cores % 2**limit


def mutated(dice, text):
    """The text cut, or with a character put in, changed or left out, or with a piece of it twice."""
    at = dice.below(len(text) + 1)
    character = dice.pick(list("0123456789,--,abfAFgx:/ \t\n\0") + ["\xff"])
    return dice.pick([
        text[:at], text[:at] + character + text[at:], text[:at] + character + text[at + 1:],
        text[:at] + text[at + 1:], text[:at] + text[dice.below(len(text) + 1):],
    ])


def check_random_texts(dice, rounds):
    for _ in range(rounds):
        for limit in (dice.pick(LIMITS), 32, 64):
            for make, check in ((random_list, check_list), (random_mask, check_mask)):
                text = make(dice, limit)
                check(text, limit)
                for _ in range(dice.between(1, 2)):
                    text = mutated(dice, text)
                    check(text, limit)


def check_sets(dice, rounds):
    """All limits, sets with a core too large among them."""
    for limit in LIMITS:
        for cores in (0, 1, 2**limit - 1, 2**limit, 2**63, 2**64 - 1, 3 << limit - 1):
            check_set(cores, limit)
        for _ in range(rounds):
            check_set(random_set(dice, dice.pick([limit, limit, limit, 64])), limit)
    for cores in range(2**10):
        check_set(cores, 10)


def check_everything():
    check_examples()
    check_man_page()
    check_lines()
    check_all_lists("039,-xA", 5, (1, 10, 32, 64))
    check_all_lists("013,-", 6, (2, 14, 31))
    check_random_texts(Dice(21), 3000)
    check_sets(Dice(22), 60)


if __name__ == "__main__":
    run(check_everything, "the reader and the writer agree with the definitions in all of them")
