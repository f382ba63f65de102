"""Two designers on one pair of lists: each gets what a list of its own would, whatever the other does."""

import doctest
import random
import unittest
from array import array

import yoktvarim
import yoktvarim.shared
from yoktvarim import (
    BadState,
    BadTop,
    Cleared,
    Designer,
    Discarded,
    Isolines,
    Mesh,
    NoRoomForIndices,
    NoRoomForVertices,
    PartDrawn,
    Quads,
    Quota,
    QuotasTooLarge,
    Settings,
    Shared,
    Spacing,
    TooManyPoints,
    Triangles,
)

SMALL = Triangles((1, 1, 1), 2)


class Part:
    """What a designer's part of both lists should hold, worked out from meshes."""

    def __init__(self, quota):
        self.quota, self.vertices, self.indices = quota, array("I"), array("H")

    def draw(self, patch, settings):
        mesh = yoktvarim.mesh(patch, settings)
        if not isinstance(mesh, Mesh):
            return mesh
        if len(self.vertices) + len(mesh.vertices) > 3 * 65535:
            return TooManyPoints()
        if len(self.vertices) + len(mesh.vertices) > self.quota.vertices:
            return NoRoomForVertices()
        if len(self.indices) + len(mesh.indices) > self.quota.indices:
            return NoRoomForIndices()
        first = len(self.vertices) // 3
        self.vertices += mesh.vertices
        self.indices += array("H", [first + index for index in mesh.indices])
        return PartDrawn(len(mesh.points()), len(mesh.indices))

    def clear(self):
        del self.vertices[:], self.indices[:]


def random_call(chance):
    levels = [chance.choice((0, 1, 2, 3.5)) if chance.random() < 0.2 else chance.choice((1, 2, 3.5)) for _ in range(6)]
    kinds = Triangles(levels[:3], levels[4]), Quads(levels[:4], levels[4:]), Isolines(levels[:2])
    return chance.choice(kinds), Settings(point_mode=chance.random() < 0.3, top=chance.choice((64, 2, 9)))


class Lists(unittest.TestCase):
    def test_random_calls(self):
        chance = random.Random(11)
        answers = set()
        for _ in range(30):
            quotas = [Quota(chance.randrange(200), chance.randrange(200)) for _ in range(2)]
            vertices, indices = array("I", [7] * 400), array("H", [7] * 400)
            shared, parts = Shared.start(vertices, indices, *quotas), [Part(quota) for quota in quotas]
            for _ in range(20):
                designer = chance.choice(list(Designer))
                if chance.random() < 0.1:
                    self.assertEqual(shared.clear(designer), Cleared())
                    parts[designer.value].clear()
                    continue
                call = random_call(chance)
                answer = shared.draw(designer, *call)
                self.assertEqual(answer, parts[designer.value].draw(*call))
                answers.add(type(answer))
                at = 0, 0
                for whose, part in zip(Designer, parts):
                    self.assertEqual(vertices[at[0] : at[0] + len(part.vertices)], part.vertices)
                    self.assertEqual(indices[at[1] : at[1] + len(part.indices)], part.indices)
                    self.assertEqual(shared.used(whose), Quota(len(part.vertices), len(part.indices)))
                    at = part.quota.vertices, part.quota.indices
                self.assertEqual(set(vertices[sum(quota.vertices for quota in quotas) :]), {7})
        self.assertEqual(answers, {PartDrawn, BadTop, Discarded, NoRoomForVertices, NoRoomForIndices})

    def test_too_many_points(self):
        full = Quads([64] * 4, [64] * 2)
        vertices, indices = array("I", bytes(4 * 3 * 70000)), array("H", bytes(2 * 16 * 4225))
        shared = Shared.start(vertices, indices, Quota(0, 0), Quota(len(vertices), len(indices)))
        for _ in range(15):
            self.assertEqual(shared.draw(Designer.SECOND, full, Settings(point_mode=True)), PartDrawn(4225, 4225))
        self.assertEqual(shared.draw(Designer.SECOND, full, Settings(point_mode=True)), TooManyPoints())

    def test_quotas_past_a_list(self):
        vertices, indices = array("I", bytes(40)), array("H", bytes(20))
        self.assertIsInstance(Shared.start(vertices, indices, Quota(4, 10), Quota(6, 0)), Shared)
        for first, second in ((Quota(5, 5), Quota(6, 5)), (Quota(5, 6), Quota(5, 5)), (Quota(2**64 - 1, 0), Quota(2**64 - 1, 0))):
            self.assertEqual(Shared.start(vertices, indices, first, second), QuotasTooLarge())
        self.assertRaises(ValueError, Shared.start, vertices, indices, Quota(-1, 0), Quota(0, 0))

    def test_quotas_past_the_largest_number(self):
        vertices, indices = array("I", bytes(40)), array("H", bytes(20))
        for large in (2**64 - 1, 2**64, 2**64 + 5, 2**100):
            for at in range(4):
                words = [0, 0, 0, 0]
                words[at] = large
                answer = Shared.start(vertices, indices, Quota(*words[:2]), Quota(*words[2:]))
                self.assertEqual(answer, QuotasTooLarge(), words)
        self.assertEqual((vertices, indices), (array("I", bytes(40)), array("H", bytes(20))))

    def test_what_is_no_quota(self):
        vertices, indices, good = array("I", bytes(40)), array("H", bytes(20)), Quota(1, 1)
        with self.assertRaisesRegex(ValueError, "second.indices has to be a number of words from 0 on, not -1"):
            Shared.start(vertices, indices, good, Quota(0, -1))
        with self.assertRaisesRegex(ValueError, "first.vertices has to be a number of words from 0 on"):
            Shared.start(vertices, indices, Quota(-(2**64), 0), good)
        for wrong in (1.0, "1", None):
            with self.assertRaisesRegex(TypeError, "first.vertices has to be a whole number of words"):
                Shared.start(vertices, indices, Quota(wrong, 0), good)
        for wrong in (3, (1, 1), None):
            with self.assertRaisesRegex(TypeError, "second has to be of type Quota"):
                Shared.start(vertices, indices, good, wrong)

    def test_what_is_no_designer(self):
        shared = Shared.start(array("I", bytes(80)), array("H", bytes(40)), Quota(12, 9), Quota(0, 0))
        for wrong in (0, 1, None, Spacing.EQUAL, True):
            for call in (lambda: shared.draw(wrong, SMALL, Settings()), lambda: shared.clear(wrong), lambda: shared.used(wrong)):
                with self.assertRaisesRegex(TypeError, "designer has to be of type Designer"):
                    call()
        self.assertEqual(shared.used(Designer.FIRST), Quota(0, 0))

    def test_a_list_of_another_length(self):
        vertices, indices = array("I", bytes(80)), array("H", bytes(40))
        shared = Shared.start(vertices, indices, Quota(12, 9), Quota(0, 0))
        vertices.append(0)
        self.assertEqual(shared.draw(Designer.FIRST, SMALL, Settings()), BadState())
        self.assertEqual(shared.draw(Designer.FIRST, SMALL, Settings(top=3)), BadTop())
        self.assertEqual(shared.clear(Designer.FIRST), BadState())
        vertices.pop()
        self.assertEqual(shared.draw(Designer.FIRST, SMALL, Settings()), PartDrawn(4, 9))


def load_tests(_loader, tests, _pattern):
    tests.addTests(doctest.DocTestSuite(yoktvarim.shared))
    return tests


if __name__ == "__main__":
    unittest.main()
