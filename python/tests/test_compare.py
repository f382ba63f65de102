"""Comparing meshes: every difference once, in order, and what cannot be compared."""

import doctest
import random
import unittest
from array import array

import yoktvarim
import yoktvarim.compare
from yoktvarim import Compared, Difference, LeftRefused, MeshFault, Quads, RightRefused, Settings, Side, Spacing, Triangles, What


def rotations(triangle):
    a, b, c = triangle
    return min((a, b, c), (b, c, a), (c, a, b))


def parts(mesh):
    """The points and the triangles of a mesh by coordinates, a triangle from its least corner on."""
    points = mesh.points()
    corners = [points[index] for index in mesh.indices]
    return points, [rotations(corners[at : at + 3]) for at in range(0, len(corners), 3)]


def expected(left, right):
    sides = parts(left), parts(right)
    for what in What:
        for side in Side:
            own, other = sides[side.value][what.value], set(sides[1 - side.value][what.value])
            for number, part in enumerate(own):
                if part not in other and own.index(part) == number:
                    yield Difference(what, side, number)


def compared(left, right):
    return yoktvarim.compare_meshes((left.vertices, left.indices), (right.vertices, right.indices))


class Meshes(unittest.TestCase):
    def test_pairs_of_random_patches(self):
        chance = random.Random(12)

        def random_mesh():
            levels = [chance.choice((1, 2, 3, 4.5)) for _ in range(6)]
            patch = Triangles(levels[:3], levels[4]) if chance.random() < 0.5 else Quads(levels[:4], levels[4:])
            return yoktvarim.mesh(patch, Settings(spacing=chance.choice(list(Spacing))))

        for _ in range(100):
            left, right = random_mesh(), random_mesh()
            self.assertEqual(compared(left, right), Compared(tuple(expected(left, right))))
            self.assertEqual(compared(left, left), Compared(()))

    def test_what_cannot_be_compared(self):
        good = array("I", (0, 0, 0, 1, 0, 0, 0, 1, 0)), array("H", (0, 1, 2))
        short = good[0][:-1], good[1]
        past = good[0], array("H", (0, 1, 3))
        equal = array("I", (0, 0, 0, 1, 0, 0, 0, 0, 0)), good[1]
        for mesh, fault in ((short, MeshFault.NOT_THREES), (past, MeshFault.UNKNOWN_INDEX), (equal, MeshFault.EQUAL_POINTS)):
            self.assertEqual(yoktvarim.compare_meshes(mesh, good), LeftRefused(fault))
            self.assertEqual(yoktvarim.compare_meshes(good, mesh), RightRefused(fault))
            self.assertEqual(yoktvarim.compare_meshes(equal, mesh), LeftRefused(MeshFault.EQUAL_POINTS))

    def test_nothing(self):
        nothing = array("I"), array("H")
        self.assertEqual(yoktvarim.compare_meshes(nothing, nothing), Compared(()))


def load_tests(_loader, tests, _pattern):
    tests.addTests(doctest.DocTestSuite(yoktvarim.compare))
    return tests


if __name__ == "__main__":
    unittest.main()
