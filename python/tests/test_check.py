"""Checking meshes: our own are accepted, and each fault is found, at its place."""

import doctest
import math
import re
import unittest
from array import array
from pathlib import Path

import yoktvarim
import yoktvarim.check
from yoktvarim import Accepted, BadTop, Isolines, Quads, Settings, Spacing, Triangles, VertexOrder, check
from yoktvarim.check import Fault

ONE = 65536
SQUARE = Quads(outer=(1, 1, 1, 1), inner=(1, 1))
CORNERS = (0, ONE, 0, 0, 0, 0, ONE, 0, 0, ONE, ONE, 0)
RUST = Path(__file__).resolve().parents[2] / "rust/src/check.rs"


def said(patch, points, indices, settings=Settings()):
    return yoktvarim.check_mesh(patch, settings, array("I", points), array("H", indices))


class Meshes(unittest.TestCase):
    def test_our_own_are_accepted(self):
        for patch in (Triangles((3, 5.5, 2), 7), Quads((1, 2, 3, 4.5), (5, 6)), SQUARE):
            for spacing in Spacing:
                for order in VertexOrder:
                    settings = Settings(spacing=spacing, vertex_order=order)
                    mesh = yoktvarim.mesh(patch, settings)
                    self.assertEqual(yoktvarim.check_mesh(patch, settings, mesh.vertices, mesh.indices), Accepted())

    def test_a_discarded_patch_has_no_mesh(self):
        away = Triangles((math.nan, 1, 1), 1)
        self.assertEqual(said(away, (), ()), Accepted())
        self.assertEqual(said(away, (0, 0, 0), ()), check.ShouldBeDiscarded())

    def test_each_fault(self):
        cases = (
            (said(Isolines((1, 1)), (), ()), check.IsolinesNotChecked()),
            (said(SQUARE, (), (), Settings(point_mode=True)), check.DotsNotChecked()),
            (said(SQUARE, CORNERS[:-1], ()), check.NotThrees()),
            (said(SQUARE, CORNERS, (0, 1, 2, 0, 2, 4)), check.UnknownIndex(place=5)),
            (said(SQUARE, (*CORNERS[:-1], 1), (0, 1, 2, 0, 2, 3)), check.Outside(point=3)),
            (said(SQUARE, (*CORNERS, 0, 0, 0), (0, 1, 2, 0, 2, 3)), check.EqualPoints(first=1, second=4)),
            (said(SQUARE, CORNERS, (0, 1, 2, 0, 3, 2)), check.Turned(triangle=1)),
            (said(SQUARE, CORNERS, (0, 1, 2, 0, 2, 3, 1, 2, 0)), check.SideTwice(first=0, second=2)),
            (said(SQUARE, CORNERS, (0, 1, 2)), check.OpenSide(triangle=0, corner=2)),
            (said(SQUARE, (), ()), check.MissingPiece(piece=0)),
        )
        for found, wanted in cases:
            self.assertEqual(found, wanted)
            self.assertIsInstance(found, Fault)
            self.assertNotIn("{", str(found))
        self.assertEqual([wanted.number for _, wanted in cases], [20, 21, 23, 24, 25, 26, 27, 28, 29, 30])

    def test_the_words_are_those_of_the_rust_wrapper(self):
        source = RUST.read_text()
        names = dict(re.findall(r"(\d+) => Verdict::(\w+)", source))
        words = dict(re.findall(r'Verdict::(\w+)[^=]*=> \{?\s*write!\(\s*f,\s*"(.*)"', source))
        self.assertEqual({kind.number: kind.words for kind in Fault.__subclasses__()}, {at: words[names[str(at)]] for at in range(20, 31)})

    def test_a_bad_top_is_told_first(self):
        self.assertEqual(said(Isolines((1, 1)), (1,), (), Settings(top=5)), BadTop())

    def test_lists_that_cannot_be_written(self):
        mesh = yoktvarim.mesh(SQUARE)
        vertices, indices = memoryview(bytes(mesh.vertices)).cast("I"), memoryview(bytes(mesh.indices)).cast("H")
        self.assertEqual(yoktvarim.check_mesh(SQUARE, Settings(), vertices, indices), Accepted())


def load_tests(_loader, tests, _pattern):
    tests.addTests(doctest.DocTestSuite(yoktvarim.check))
    return tests


if __name__ == "__main__":
    unittest.main()
