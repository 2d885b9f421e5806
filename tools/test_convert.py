#!/usr/bin/env python3
"""Compare the program `convert` with tools/cpusets.py, line by line.

    python3 tools/test_convert.py [COMMAND]

COMMAND is the program under test, crates/convert/out/convert where it is not given
(`rt run` in crates/convert builds it).
"""

import shlex
import shutil
import subprocess
import sys
import unittest
from pathlib import Path

sys.dont_write_bytecode = True

from cpusets import convert
from dice import Dice
from test_cpusets import LIMITS, mutated, random_list, random_mask

PROGRAM = [str(Path(__file__).resolve().parent.parent / "crates" / "convert" / "out" / "convert")]
FORMS = {"list": random_list, "mask": random_mask}


def random_line(dice, form, limit):
    """A text, as often as not with something wrong in it, and no newline."""
    text = FORMS[form](dice, limit)
    if dice.one_in(2):
        text = mutated(dice, text)
    return text.replace("\n", "\r").encode("latin-1")


class Convert(unittest.TestCase):
    def compare(self, data, form, limit):
        """Where the outputs differ, name the first line that does."""
        arguments = [form] if limit is None else [form, str(limit)]
        done = subprocess.run([*PROGRAM, *arguments], input=data, capture_output=True, check=False)
        wanted = convert(data, form, limit or 32)
        if done.stdout != wanted or done.returncode != 0:
            got = done.stdout.split(b"\n")
            for number, (mine, theirs) in enumerate(zip(got, wanted.split(b"\n"))):
                self.assertEqual(mine[:200], theirs[:200], f"{arguments} line {number + 1}")
            self.fail(f"{arguments}: status {done.returncode}, {len(got)} lines, {done.stderr[:200]}")

    def test_every_limit(self):
        dice = Dice(41)
        for limit in LIMITS:
            for form in FORMS:
                lines = [random_line(dice, form, limit) for _ in range(60)]
                self.compare(b"\n".join(lines) + dice.pick([b"", b"\n"]), form, limit)

    def test_usual_limit(self):
        for form in FORMS:
            dice = Dice(42)
            self.compare(b"\n".join(random_line(dice, form, 32) for _ in range(500)), form, None)

    def test_few_bytes(self):
        for data in (b"", b"\n", b"\n\n", b"0", b"0\n", b"0\n\n", b"\n0", b"\r\n", b"\0\n", b"\xff", b"0000000f\n\n5"):
            for form in FORMS:
                for limit in (1, 32, 33, 64):
                    self.compare(data, form, limit)

    def test_long_numbers(self):
        """Thousands of digits, where a number that wraps would look small."""
        numbers = [b"9" * 5000, b"0" * 5000 + b"5", b"0" * 5000, b"1" + b"0" * 5000, b"%d" % (2**32 + 1),
                   b"%d" % (2**64 + 1), b"%d" % (2**128 + 1), b"18446744073709551615", b"0" * 7000 + b"31"]
        forms = [b"%b", b"1-%b", b"%b-31", b"0,%b", b"%b,1", b"3-%b,40", b"%bx", b"5-%bx"]
        self.compare(b"\n".join(form % number for form in forms for number in numbers), "list", 32)

    def test_long_lines(self):
        """Of a line of any length the whole decides: a fault, or a core, may stand at its end."""
        pieces = (b"0,", b"0-31,", b"00000000000000007,")
        ends = (b"31", b"32", b"", b"5-3", b"x", b"1-2-3")
        for piece in pieces:
            lines = [piece * (length // len(piece)) + end for length in (5000, 70000, 300000) for end in ends]
            self.compare(b"\n".join(lines), "list", 32)
        for length in (5000, 70000, 300000):
            self.compare(b"0" * length + b"\n0000000f\n" + b"00000000," * length + b"\n00000001", "mask", 64)

    def test_where_blocks_may_end(self):
        """Lines that end just before, at and after the sizes in which programs read."""
        for size in (4096, 8192, 16384, 32768, 65536, 131072):
            for length in range(size - 3, size + 3):
                for end in (b"5", b"5\n", b"5\n7", b"5,x\n7\n"):
                    self.compare(b"0" * (length - 1) + end, "list", 32)
                self.compare(b"\n" * length + b"0000000f", "mask", 32)


if __name__ == "__main__":
    if len(sys.argv) > 1:
        PROGRAM[:] = shlex.split(sys.argv.pop(1))
    if not shutil.which(PROGRAM[0]):
        sys.exit(f"{PROGRAM[0]} is missing: `rt run` in crates/convert builds it")
    unittest.main()
