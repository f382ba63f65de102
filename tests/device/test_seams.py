"""The places along outer edges that share a level."""

import unittest
from dataclasses import replace

from yoktvarim import Quads, Record, Settings, Spacing, Triangles

from device_check.edges import edges_of, places
from device_check.seams import find_seams

from support import cut

TRIANGLES = Record.of(Triangles((2, 3, 1), 3))
QUADS = Record.of(Quads((2, 3, 4, 1), (3, 5)))


def seams(*meshes, spacing=Spacing.EQUAL):
    return find_seams([(number, *one) for number, one in enumerate(meshes)])[spacing]


def moved(mesh, point, to):
    return replace(mesh, points=[to if found == point else found for found in mesh.points])


class Seams(unittest.TestCase):
    def test_places_are_the_rules(self):
        """Thirds of a unit, in walk order."""
        for record in TRIANGLES, QUADS:
            edge = edges_of(record.kind)[0]
            self.assertEqual(places(edge, cut(record).points), [0, 3 * 32768, 3 * 65536])

    def test_no_gap_between_kinds(self):
        found = seams((TRIANGLES, cut(TRIANGLES)), (QUADS, cut(QUADS)))
        # 2, 3 and 1 are levels of both.
        self.assertEqual((found.levels, found.edges, found.gaps, found.beside), (3, 6, [], []))

    def test_dots_have_no_seams(self):
        dots = Record.of(Quads((2, 3, 4, 1), (3, 5)), Settings(point_mode=True))
        self.assertEqual(seams((TRIANGLES, cut(TRIANGLES)), (dots, cut(dots))).edges, 0)

    def test_another_top_or_spacing_is_another_edge(self):
        lower = Record.of(QUADS.patch, Settings(top=16))
        odd = Record.of(QUADS.patch, Settings(spacing=Spacing.FRACTIONAL_ODD))
        self.assertEqual(seams((QUADS, cut(QUADS)), (lower, cut(lower)), (odd, cut(odd))).levels, 0)

    def test_a_gap(self):
        other = moved(cut(QUADS), (0, 32768, 0), (0, 32763, 0))
        found = seams((TRIANGLES, cut(TRIANGLES)), (TRIANGLES, cut(TRIANGLES)), (QUADS, other))
        self.assertEqual(len(found.gaps), 1)
        self.assertEqual(found.widest, 10)  # 5 beside the others, and twice as much beside its own mirror image
        self.assertIn("patch 2, edge u = 0, level 2", found.gaps[0])

    def test_a_point_that_only_one_edge_has(self):
        coarse = cut(Record.of(Quads((1, 3, 4, 1), (3, 5))))
        found = seams((TRIANGLES, cut(TRIANGLES)), (TRIANGLES, cut(TRIANGLES)), (QUADS, coarse))
        self.assertEqual((len(found.gaps), found.widest), (1, 32768))

    def test_an_edge_without_points(self):
        none = replace(cut(QUADS), primitives=[])
        found = seams((TRIANGLES, cut(TRIANGLES)), (TRIANGLES, cut(TRIANGLES)), (QUADS, none))
        self.assertEqual(found.widest, 65536)

    def test_points_on_an_edge_that_are_not_of_the_outline(self):
        mesh = cut(QUADS)
        extra = replace(mesh, points=[*mesh.points, (0, 1000, 0)])
        found = seams((QUADS, mesh), (QUADS, extra))
        self.assertEqual((found.gaps, len(found.beside)), ([], 1))


if __name__ == "__main__":
    unittest.main()
