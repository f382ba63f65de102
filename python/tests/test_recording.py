"""Replaying: recordings that agree, that differ, and that cannot be read."""

import doctest
import random
import struct
import unittest

import yoktvarim
import yoktvarim.recording
from yoktvarim import AllAgree, CutEntry, Differs, Isolines, Mesh, NotARecording, Outcome, Quads, Settings, Triangles, UnknownVersion

MARK = b"TSR\x01\x00"


def entry(chance):
    """A record and what is answered to it."""
    levels = [chance.choice((0, 1, 2, 3.5, 64)) if chance.random() < 0.1 else chance.uniform(0.5, 5) for _ in range(6)]
    kind = chance.randrange(4)
    record = struct.pack("<5B6f", kind, 0, 1, 1, 0, *levels)
    if kind == 3:
        return record, Outcome(8, 0, 0)
    patch = (Triangles(levels[:3], levels[4]), Quads(levels[:4], levels[4:]), Isolines(levels[:2]))[kind]
    answer = yoktvarim.mesh(patch, Settings())
    counts = (len(answer.points()), len(answer.indices)) if isinstance(answer, Mesh) else (0, 0)
    return record, Outcome(answer.number, *counts)


def recording(entries):
    return MARK + b"".join(record + struct.pack("<BHH", said.answer, said.points, said.indices) for record, said in entries)


class Recordings(unittest.TestCase):
    def setUp(self):
        chance = random.Random(14)
        self.entries = [entry(chance) for _ in range(400)]

    def test_all_agree(self):
        self.assertEqual({said.answer for _, said in self.entries}, {0, 1, 8})
        self.assertEqual(yoktvarim.replay(recording(self.entries)), AllAgree(400))
        self.assertEqual(yoktvarim.replay(bytearray(MARK)), AllAgree(0))

    def test_the_first_that_differs(self):
        for at in (0, 17, 399):
            record, said = self.entries[at]
            for other in (Outcome(200, 0, 0), Outcome(said.answer, said.points + 1, said.indices), Outcome(said.answer, said.points, 9999)):
                changed = self.entries[:at] + [(record, other)] + self.entries[at + 1 :]
                self.assertEqual(yoktvarim.replay(recording(changed) + b"cut"), Differs(at, other, said))

    def test_what_cannot_be_read(self):
        self.assertEqual(yoktvarim.replay(b"TSR\x01"), NotARecording())
        self.assertEqual(yoktvarim.replay(b"TSJ\x01\x00"), NotARecording())
        self.assertEqual(yoktvarim.replay(b"TSR\x02\x00"), UnknownVersion())
        self.assertEqual(yoktvarim.replay(recording(self.entries)[:-1]), CutEntry())


def load_tests(_loader, tests, _pattern):
    tests.addTests(doctest.DocTestSuite(yoktvarim.recording))
    return tests


if __name__ == "__main__":
    unittest.main()
