"""Whole units, numbering, the text and the levels for a device: units.cpp, which tests/capture built."""

import unittest

from support import BUILT, run


class Units(unittest.TestCase):
    def test_units(self):
        done = run(BUILT / "units")
        self.assertEqual((done.returncode, done.stdout), (0, ""))


if __name__ == "__main__":
    unittest.main()
