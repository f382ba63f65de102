"""Drawing with floats: the three lists, and the refusals."""

import doctest
import struct
import unittest
from array import array

import yoktvarim
import yoktvarim.floats
from yoktvarim import (
    BadTop,
    Discarded,
    FloatsDrawn,
    Isolines,
    NoRoomForFloats,
    NoRoomForIndices,
    NoRoomForVertices,
    ONE_IN_QUADS,
    ONE_IN_TRIANGLES,
    Quads,
    Settings,
    Spacing,
    Triangles,
)

SMALL = Triangles(outer=(1, 1, 1), inner=2)


def lists(vertex_words, index_words, float_words):
    return array("I", [7] * vertex_words), array("H", [7] * index_words), array("f", [7.0] * float_words)


def quotient(whole, one):
    """The nearest 32-bit float."""
    return struct.unpack("<f", struct.pack("<f", whole / one))[0]


class Floats(unittest.TestCase):
    def test_the_three_lists(self):
        for patch, one in (
            (Triangles((3, 5.5, 2), 7), ONE_IN_TRIANGLES),
            (Quads((1, 2, 3, 4.5), (5, 6)), ONE_IN_QUADS),
            (Isolines((3, 2)), ONE_IN_QUADS),
        ):
            for spacing in Spacing:
                settings = Settings(spacing=spacing)
                mesh = yoktvarim.mesh(patch, settings)
                vertices, indices, floats = lists(len(mesh.vertices) + 2, len(mesh.indices) + 2, len(mesh.vertices) + 2)
                answer = yoktvarim.draw_with_floats(patch, settings, vertices, indices, floats)
                self.assertEqual(answer, FloatsDrawn(len(mesh.points()), len(mesh.indices)))
                self.assertEqual(vertices, mesh.vertices + array("I", [7, 7]))
                self.assertEqual(indices, mesh.indices + array("H", [7, 7]))
                self.assertEqual(list(floats), [quotient(whole, one) for whole in mesh.vertices] + [7.0, 7.0])

    def test_what_stands_against_it(self):
        away = Isolines((0, 1))
        cases = (
            (SMALL, Settings(), (11, 9, 12), NoRoomForVertices()),
            (SMALL, Settings(), (12, 8, 11), NoRoomForIndices()),
            (SMALL, Settings(), (12, 9, 11), NoRoomForFloats()),
            (away, Settings(), (0, 0, 0), Discarded()),
            (away, Settings(top=3), (0, 0, 0), BadTop()),
        )
        for patch, settings, words, wanted in cases:
            lent = lists(*words)
            self.assertEqual(yoktvarim.draw_with_floats(patch, settings, *lent), wanted)
            self.assertEqual(lent, lists(*words))
        self.assertEqual(NoRoomForFloats.number, 9)

    def test_lists_that_share_memory(self):
        memory = bytearray(96)
        whole = memoryview(memory)
        with self.assertRaises(ValueError):
            yoktvarim.draw_with_floats(SMALL, Settings(), whole[:48].cast("I"), array("H", bytes(18)), whole[44:92].cast("f"))
        answer = yoktvarim.draw_with_floats(SMALL, Settings(), whole[:48].cast("I"), array("H", bytes(18)), whole[48:].cast("f"))
        self.assertEqual(answer, FloatsDrawn(4, 9))

    def test_other_words(self):
        vertices, indices, _ = lists(12, 9, 0)
        with self.assertRaises(TypeError):
            yoktvarim.draw_with_floats(SMALL, Settings(), vertices, indices, array("d", bytes(96)))


def load_tests(_loader, tests, _pattern):
    tests.addTests(doctest.DocTestSuite(yoktvarim.floats))
    return tests


if __name__ == "__main__":
    unittest.main()
