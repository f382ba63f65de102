"""What is said of one patch: the proved meshes, with something changed."""

import unittest
from dataclasses import replace
from fractions import Fraction

from yoktvarim import Isolines, Quads, Record, Settings, Triangles, UnknownSetting

from device_check.finding import Outcome
from device_check.judge import judge
from device_check.text import Discarded, Refused

from support import cut

TRIANGLES = Record.of(Triangles((2, 3, 1), 3))
QUADS = Record.of(Quads((2, 3, 4, 1), (3, 5)))
LINES = Record.of(Isolines((3, 2)))
DOTS = Record.of(Quads((2, 3, 4, 1), (3, 5)), Settings(point_mode=True))


def moved(mesh, point, to):
    """The mesh with one point somewhere else."""
    assert point in mesh.points
    return replace(mesh, points=[to if found == point else found for found in mesh.points])


class Meshes(unittest.TestCase):
    def test_proved_meshes_are_accepted(self):
        for record in TRIANGLES, QUADS:
            found = judge(record, cut(record))
            self.assertIs(found.outcome, Outcome.ACCEPTED)
            self.assertIs(found.area, True)
        self.assertEqual(judge(QUADS, cut(QUADS)).inner_along, "v")

    def test_the_area_is_taken_with_its_turn(self):
        for order in (0, 1):
            for origin in (0, 1):
                settings = Settings(vertex_order=type(Settings().vertex_order)(order), domain_origin=type(Settings().domain_origin)(origin))
                record = Record.of(Quads((2, 3, 4, 1), (3, 5)), settings)
                self.assertIs(judge(record, cut(record)).area, True)
        short = cut(QUADS)
        self.assertIs(judge(QUADS, replace(short, primitives=short.primitives[1:])).area, False)

    def test_an_outline_that_only_lies_elsewhere(self):
        for record, point, to, move in (
            (TRIANGLES, (0, 98304, 98304), (0, 98304 + 7, 98304 - 7), Fraction(7, 3)),
            (QUADS, (0, 32768, 0), (0, 32760, 0), Fraction(8)),
        ):
            found = judge(record, moved(cut(record), point, to))
            self.assertIs(found.outcome, Outcome.MOVED, found.words)
            self.assertEqual(found.farthest, move)

    def test_other_segments_on_an_edge(self):
        finer = Record.of(Quads((2, 3, 4, 2), (3, 5)))
        found = judge(QUADS, cut(finer))
        self.assertEqual(found.fault, "other segments on an outer edge")
        self.assertIn("the edge v = 1 has 2 segments, and 1 by the rules", found.words)
        self.assertIs(found.counts, False)

    def test_triangles_that_are_turned_or_have_no_area(self):
        mesh = cut(QUADS)
        first, *others = mesh.primitives
        found = judge(QUADS, replace(mesh, primitives=[first[::-1], *others]))
        self.assertEqual(found.fault, "triangles turn the wrong way")
        found = judge(QUADS, replace(mesh, primitives=[(first[0], first[0], first[1]), *others]))
        self.assertEqual(found.fault, "triangles have no area")

    def test_a_hole_is_an_open_side(self):
        mesh = cut(QUADS)
        found = judge(QUADS, replace(mesh, primitives=mesh.primitives[:-1]))
        self.assertEqual(found.fault, "a side is open")

    def test_a_turn_that_moving_would_hide_is_a_fault(self):
        """A point on u = 0 is so far from its place that a triangle with two points inside turns."""
        narrow = Record.of(Quads((2, 1, 1, 1), (3, 3)))
        slanted = moved(cut(narrow), (21846, 21846, 0), (1, 21846, 0))
        self.assertIs(judge(narrow, slanted).outcome, Outcome.ACCEPTED)
        found = judge(narrow, moved(slanted, (0, 32768, 0), (0, 1, 0)))
        self.assertEqual(found.fault, "triangles turn the wrong way")
        self.assertIn("with the outline moved by up to 32767.0 units: accepted", found.words)

    def test_quads_whose_inner_levels_are_exchanged(self):
        exchanged = Record.of(Quads((2, 3, 4, 1), (5, 3)))
        found = judge(QUADS, cut(exchanged))
        self.assertIs(found.outcome, Outcome.ACCEPTED)
        self.assertEqual((found.inner_along, found.counts), ("u", True))

    def test_an_index_past_the_points(self):
        for record in QUADS, LINES:
            mesh = cut(record)
            last = (*mesh.primitives[-1][:-1], 999)
            found = judge(record, replace(mesh, primitives=[*mesh.primitives[:-1], last]))
            self.assertEqual(found.fault, "an index is past the points")

    def test_answers_without_a_mesh(self):
        none = Record.of(Quads((0, 1, 1, 1), (1, 1)))
        self.assertIs(judge(none, Discarded()).outcome, Outcome.DISCARDED)
        self.assertEqual(judge(none, cut(QUADS)).fault, "drawn, should be discarded")
        self.assertEqual(judge(QUADS, Discarded()).fault, "discarded, should be drawn")
        self.assertIs(judge(UnknownSetting(0), Refused(8)).outcome, Outcome.REFUSED)
        self.assertEqual(judge(UnknownSetting(0), Refused(7)).fault, "not refused")
        self.assertEqual(judge(QUADS, Refused(8)).fault, "refused")


class IsolinesAndDots(unittest.TestCase):
    def test_proved_ones_are_the_same(self):
        for record in LINES, DOTS, Record.of(Isolines((3, 2)), Settings(point_mode=True)):
            self.assertIs(judge(record, cut(record)).outcome, Outcome.SAME)

    def test_lines_may_be_drawn_in_any_order_and_from_either_end(self):
        mesh = cut(LINES)
        self.assertIs(judge(LINES, replace(mesh, primitives=[line[::-1] for line in mesh.primitives[::-1]])).outcome, Outcome.SAME)

    def test_points_elsewhere(self):
        found = judge(LINES, moved(cut(LINES), (32768, 0, 0), (32771, 0, 0)))
        self.assertEqual((found.outcome, found.farthest), (Outcome.ELSEWHERE, 3))
        found = judge(DOTS, moved(cut(DOTS), (0, 32768, 0), (0, 32760, 0)))
        self.assertEqual((found.outcome, found.farthest), (Outcome.ELSEWHERE, 8))
        inner = judge(DOTS, moved(cut(DOTS), (13108, 21846, 0), (13109, 21846, 0)))
        self.assertEqual((inner.outcome, inner.farthest), (Outcome.ELSEWHERE, 0))

    def test_lines_that_join_other_points(self):
        mesh = cut(LINES)
        other = [(0, 2), *mesh.primitives[1:]]
        self.assertEqual(judge(LINES, replace(mesh, primitives=other)).fault, "lines join other points")

    def test_other_counts(self):
        self.assertEqual(judge(LINES, cut(Record.of(Isolines((3, 3))))).fault, "isolines or dots of other counts")

    def test_a_dot_twice_and_a_point_outside(self):
        mesh = cut(DOTS)
        twice = replace(mesh, primitives=[mesh.primitives[1], *mesh.primitives[1:]])
        self.assertEqual(judge(DOTS, twice).fault, "a dot is drawn twice")
        self.assertEqual(judge(DOTS, moved(mesh, (0, 32768, 0), (0, 32768, 1))).fault, "a point is outside")

    def test_dots_on_another_edge(self):
        """The counts are right, and an inner dot lies on the outline."""
        found = judge(DOTS, moved(cut(DOTS), (13108, 21846, 0), (13108, 0, 0)))
        self.assertEqual(found.fault, "other segments on an outer edge")


if __name__ == "__main__":
    unittest.main()
