#!/usr/bin/env python3
"""Tests of the text form: tools/sheet.py, tools/pack and tools/unpack."""

import subprocess
import sys
import unittest
from pathlib import Path

sys.dont_write_bytecode = True

from dice import Dice
from reference import LONGEST_FILE, Day, Event, LayoutFault, Record
from sheet import Sheet, SheetError, encode, mask_text, pack, unpack

TOOLS = Path(__file__).resolve().parent
SMALL = bytes.fromhex("03 02 00 32 03 00 00 00 C8 00 00 00 00 00 03 00 01 00 02 00 03 FF")


def random_day(dice, most_records, most_events):
    """Anything that a well-formed file can hold, refused values among it."""
    masks = [0, 1, 2**31, 2**32 - 1]
    records = [
        Record(dice.below(256), dice.below(256), dice.pick(masks + [dice.below(2**32)] * 4))
        for _ in range(dice.between(0, most_records))
    ]
    events = [Event(dice.between(1, 3), dice.below(256))
              for _ in range(dice.between(0, most_events))]
    return Day(dice.between(1, 32), records, events)


def random_mask_word(dice):
    """A mask as people may write it, and its value."""
    if dice.one_in(3):
        value = dice.below(2**32)
        return dice.pick([f"0x{value:x}", f"0X{value:X}", f"0x{value:08x}"]), value
    parts, value = [], 0
    for _ in range(dice.between(1, 4)):
        first = dice.below(32)
        last = dice.between(first, 31)
        parts.append(str(first) if first == last else f"{first}-{last}")
        value |= sum(1 << core for core in range(first, last + 1))
    return ",".join(parts), value


def random_sheet(dice):
    """A sheet with comments, blank lines and odd spacing, and the day it means."""
    core_count = dice.between(1, 32)
    lines, records, events = [f"cores {core_count}"], [], []
    for _ in range(dice.between(0, 6)):
        word, mask = random_mask_word(dice)
        records.append(Record(dice.below(256), dice.below(256), mask))
        lines.append(f"create {records[-1].slot} {records[-1].priority} {word}")
    for _ in range(dice.between(0, 10)):
        events.append(Event(dice.between(1, 3), dice.below(256)))
        lines.append(f"{['wake', 'block', 'delete'][events[-1].kind - 1]} {events[-1].slot}")
    return "".join(untidy(dice, line) for line in lines), Day(core_count, records, events)


def untidy(dice, line):
    gap = dice.pick([" ", "  ", "\t", " \t "])
    before = dice.pick(["", "", "\n", "# a note\n", "   \n", "  # wake 3\n"])
    after = dice.pick(["", " ", "# end", "  # create 1 2 3", "\r"])
    return before + dice.pick(["", " ", "\t"]) + line.replace(" ", gap) + after + "\n"


class RoundTrips(unittest.TestCase):
    def test_small_file(self):
        text = "cores 3\ncreate 0 50 0-1\ncreate 200 0 0x0\nwake 0\nblock 0\ndelete 255\n"
        self.assertEqual(unpack(SMALL), text)
        self.assertEqual(pack(text), SMALL)

    def test_files_come_back(self):
        dice = Dice(1)
        for _ in range(2000):
            data = encode(random_day(dice, 6, 12))
            self.assertEqual(pack(unpack(data)), data)
            self.assertEqual(pack(unpack(data, hexadecimal=True)), data)

    def test_largest_file_comes_back(self):
        dice = Dice(2)
        records = [Record(dice.below(256), dice.below(256), dice.below(2**32)) for _ in range(255)]
        events = [Event(dice.between(1, 3), dice.below(256)) for _ in range(16000)]
        data = encode(Day(32, records, events))
        self.assertEqual(len(data), LONGEST_FILE)
        self.assertEqual(pack(unpack(data)), data)

    def test_sheets_mean_what_they_say(self):
        dice = Dice(3)
        for _ in range(2000):
            text, day = random_sheet(dice)
            self.assertEqual(Sheet().read(text), day, text)
            self.assertEqual(unpack(pack(text)), unpack(encode(day)), text)

    def test_every_mask_of_eight_cores(self):
        for mask in range(256):
            for hexadecimal in (False, True):
                text = f"cores 8\ncreate 0 1 {mask_text(mask, hexadecimal)}\n"
                self.assertEqual(Sheet().read(text).records[0].mask, mask)


class MaskWords(unittest.TestCase):
    def test_lists(self):
        for mask, text in (
            (0b1, "0"), (0b11, "0-1"), (0b101, "0,2"), (0b1101, "0,2-3"), (0, "0x0"),
            (2**32 - 1, "0-31"), (2**31, "31"), (0b10111, "0-2,4"),
        ):
            self.assertEqual(mask_text(mask, False), text)

    def test_hexadecimal(self):
        for mask, text in ((0, "0x0"), (11, "0xb"), (2**32 - 1, "0xffffffff")):
            self.assertEqual(mask_text(mask, True), text)

    def test_leading_zeros_are_decimal(self):
        self.assertEqual(Sheet().read("cores 08\nwake 0010\n"), Day(8, [], [Event(1, 10)]))

    def test_overlapping_ranges(self):
        self.assertEqual(Sheet().read("cores 8\ncreate 0 1 0-3,2-5,1\n").records[0].mask, 0x3F)


class SheetErrors(unittest.TestCase):
    def fails(self, text, message):
        with self.assertRaises(SheetError) as caught:
            pack(text)
        self.assertEqual(str(caught.exception), message)

    def test_values(self):
        for line, reason in (
            ("wake 300", "slot 300 does not fit in one byte (0 to 255)"),
            ("wake 256", "slot 256 does not fit in one byte (0 to 255)"),
            ("create 256 1 0", "slot 256 does not fit in one byte (0 to 255)"),
            ("create 1 256 0", "priority 256 does not fit in one byte (0 to 255)"),
            ("block x", "slot 'x' is not a plain decimal number"),
            ("block -1", "slot '-1' is not a plain decimal number"),
            ("block 0x1", "slot '0x1' is not a plain decimal number"),
            ("block 1_0", "slot '1_0' is not a plain decimal number"),
            ("block \u0663", "slot '\\u0663' is not a plain decimal number"),
            ("create 1 +5 0", "priority '+5' is not a plain decimal number"),
        ):
            self.fails(f"cores 3\n\n{line}\n", f"line 3: {reason}")

    def test_very_long_number(self):
        digits = "9" * 5000
        self.fails(f"cores 3\nwake {digits}", f"line 2: slot {digits} does not fit in one byte (0 to 255)")

    def test_masks(self):
        neither = "is neither hexadecimal (as 0x3) nor a list of cores (as 0,2-3)"
        for word, reason in (
            ("40", "core 40 in the mask; cores are 0 to 31"),
            ("32", "core 32 in the mask; cores are 0 to 31"),
            ("0,2-40", "core 40 in the mask; cores are 0 to 31"),
            ("3-1", "the range 3-1 runs backward; the smaller core comes first"),
            ("0,5-4", "the range 5-4 runs backward; the smaller core comes first"),
            ("0x100000000", "mask 0x100000000 does not fit in 32 bits (0x0 to 0xffffffff)"),
            ("0x", f"mask '0x' {neither}"),
            ("0xg", f"mask '0xg' {neither}"),
            ("1-", f"mask '1-' {neither}"),
            ("-1", f"mask '-1' {neither}"),
            ("0,", f"mask '0,' {neither}"),
            ("0,,1", f"mask '0,,1' {neither}"),
            ("1-2-3", f"mask '1-2-3' {neither}"),
            ("all", f"mask 'all' {neither}"),
        ):
            self.fails(f"cores 3\n# a note\ncreate 0 1 {word}\n", f"line 3: {reason}")

    def test_words(self):
        known = "known words are cores, create, wake, block, delete"
        for line, reason in (
            ("sleep 3", f"unknown word 'sleep'; {known}"),
            ("Wake 3", f"unknown word 'Wake'; {known}"),
            ("x" * 99, f"unknown word '{'x' * 30}..'; {known}"),
            ("wake", "wake takes slot (1 word), but 0 words given"),
            ("wake 1 2", "wake takes slot (1 word), but 2 words given"),
            ("block", "block takes slot (1 word), but 0 words given"),
            ("delete 1 2", "delete takes slot (1 word), but 2 words given"),
            ("create 1 2", "create takes slot, priority and mask (3 words), but 2 words given"),
            ("create 1 2 3 4", "create takes slot, priority and mask (3 words), but 4 words given"),
            ("create 1 # 2 3", "create takes slot, priority and mask (3 words), but 1 word given"),
        ):
            self.fails(f"cores 3\n{line}\n", f"line 2: {reason}")

    def test_cores(self):
        for count in ("0", "33", "256", "9" * 20):
            self.fails(f"\ncores {count}\n", f"line 2: core count {count} is not 1 to 32")
        self.fails("cores\n", "line 1: cores takes core count (1 word), but 0 words given")
        self.fails("cores 3 4\n", "line 1: cores takes core count (1 word), but 2 words given")
        self.fails("cores many\n", "line 1: core count 'many' is not a plain decimal number")
        self.fails("cores 3\nwake 1\ncores 3\n",
                   "line 3: cores a second time: a sheet has one `cores` line")

    def test_no_cores_line(self):
        self.fails("", "line 1: the sheet ends without a `cores` line")
        self.fails("# only\n# notes", "line 2: the sheet ends without a `cores` line")
        for line, word in (("create 0 1 0", "create"), ("wake 0", "wake"), ("block 0", "block"),
                           ("delete 0", "delete")):
            self.fails(f"# note\n{line}\ncores 3\n", f"line 2: {word} before `cores`: "
                       "a sheet begins with a line such as `cores 3`")

    def test_create_after_event(self):
        for event in ("wake 0", "block 0", "delete 0"):
            self.fails(f"cores 3\ncreate 0 1 0\n{event}\ncreate 1 1 0\n",
                       "line 4: create after an event: in an event file all creates come first")

    def test_most_creates(self):
        text = "cores 3\n" + "create 0 1 0\n" * 255
        self.assertEqual(len(Sheet().read(text).records), 255)
        self.fails(text + "create 0 1 0\n",
                   "line 257: more than 255 creates: an event file holds at most 255")

    def test_most_events(self):
        text = "cores 3\n" + "wake 0\n" * 16000
        self.assertEqual(len(Sheet().read(text).events), 16000)
        self.fails(text + "block 0\n",
                   "line 16002: more than 16,000 events: an event file holds at most 16,000")


class Commands(unittest.TestCase):
    def run_tool(self, name, *arguments, given=b""):
        done = subprocess.run([sys.executable, TOOLS / name, *arguments], input=given,
                              capture_output=True, check=False)
        return done.returncode, done.stdout, done.stderr.decode()

    def test_pack_and_unpack(self):
        status, text, errors = self.run_tool("unpack", given=SMALL)
        self.assertEqual((status, errors), (0, ""))
        self.assertEqual(text.decode(), unpack(SMALL))
        self.assertEqual(self.run_tool("pack", given=text), (0, SMALL, ""))

    def test_hex_option(self):
        status, text, errors = self.run_tool("unpack", "--hex", given=SMALL)
        self.assertEqual((status, errors), (0, ""))
        self.assertIn(b"create 0 50 0x3\n", text)

    def test_named_files(self):
        example = TOOLS.parent / "examples" / "winter-morning.txt"
        self.assertEqual(self.run_tool("pack", example), (0, pack(example.read_text()), ""))
        stored = TOOLS.parent / "crates" / "vectors" / "data" / "listing.day"
        self.assertEqual(self.run_tool("unpack", stored), (0, unpack(stored.read_bytes()).encode(), ""))

    def test_bad_sheet(self):
        self.assertEqual(self.run_tool("pack", given=b"cores 3\nwake 1\nwake 300\n"),
                         (1, b"", "line 3: slot 300 does not fit in one byte (0 to 255)\n"))

    def test_bytes_that_are_no_text(self):
        self.assertEqual(self.run_tool("pack", given=b"cores 3 # \xff\xfe\n"), (0, bytes([3, 0, 0, 0]), ""))
        status, output, errors = self.run_tool("pack", given=SMALL)
        self.assertEqual((status, output), (1, b""))
        self.assertTrue(errors.startswith("line 1: unknown word "), errors)

    def test_malformed_files(self):
        for data, message in (
            (b"", "refused 12 at 0: the file ends too early"),
            (b"\x21", "refused 2 at 0: the core count is not 1 to 32"),
            (SMALL + b"\x00", "refused 13 at 22: there are bytes after the last event"),
            (b"\x01\x00\x01\x00\x07", "refused 14 at 4: "
             "the event kind is not 1 (wake), 2 (block) or 3 (delete)"),
            (b"\x01\x00\x81\x3e", "refused 16 at 2: there are more than 16,000 events"),
        ):
            self.assertEqual(self.run_tool("unpack", given=data), (1, b"", message + "\n"))
            self.assertRaises(LayoutFault, unpack, data)

    def test_missing_file(self):
        for name in ("pack", "unpack"):
            missing = str(TOOLS / "no-such-file")
            self.assertEqual(self.run_tool(name, missing),
                             (1, b"", f"cannot read {missing}: No such file or directory\n"))


if __name__ == "__main__":
    unittest.main()
