#!/usr/bin/env python3
"""The lines that the examples quote after `#>` are those that the replay prints."""

import sys
import unittest
from pathlib import Path

sys.dont_write_bytecode = True

from reference import replay
from sheet import pack, quoted

EXAMPLES = sorted((Path(__file__).resolve().parent.parent / "examples").glob("*.txt"))


class Examples(unittest.TestCase):
    def test_there_are_examples(self):
        self.assertIn("winter-morning.txt", [path.name for path in EXAMPLES])

    def test_quoted_lines(self):
        for path in EXAMPLES:
            text = path.read_text()
            with self.subTest(example=path.name):
                self.assertEqual(quoted(text), replay(pack(text)))


if __name__ == "__main__":
    unittest.main()
