"""Which lists can be lent to a call, and that they are written in place."""

import ctypes
import unittest
from array import array

import yoktvarim
from yoktvarim import NoRoomForIndices, NoRoomForVertices, PointsDrawn, Settings, Triangles

SMALL = Triangles(outer=(1, 1, 1), inner=2)
WORDS = [0, 196608, 0, 0, 0, 196608, 196608, 0, 0, 65536, 65536, 65536]


def draw(vertices):
    return yoktvarim.draw_points(SMALL, Settings(), vertices)


class Lent(unittest.TestCase):
    def drawn(self, vertices):
        """Draws into a list of exactly twelve words, which are then those of the patch."""
        self.assertEqual(draw(vertices), PointsDrawn(4))
        self.assertEqual(list(array("I", memoryview(vertices).tobytes())), WORDS)

    def test_arrays(self):
        self.drawn(array("I", bytes(48)))
        self.drawn((ctypes.c_uint32 * 12)())

    def test_views(self):
        self.drawn(memoryview(bytearray(48)).cast("I"))
        self.drawn(memoryview(bytearray(48)).cast("I", shape=[4, 3]))
        longer = array("I", [7] * 20)
        self.drawn(memoryview(longer)[4:16])
        self.assertEqual((list(longer[:4]), list(longer[16:])), ([7] * 4, [7] * 4))

    def test_numpy(self):
        try:
            import numpy
        except ImportError:
            self.skipTest("numpy is not there, and is not needed")
        self.drawn(numpy.zeros(12, numpy.uint32))
        self.drawn(numpy.zeros((4, 3), numpy.uint32))
        for wrong in (numpy.zeros(12, numpy.int32), numpy.zeros(12, ">u4"), numpy.zeros(12)):
            self.assertRaises(TypeError, draw, wrong)
        self.assertRaises(ValueError, draw, numpy.zeros((12, 2), numpy.uint32)[:, 0])

    def test_empty(self):
        for vertices in (array("I"), memoryview(bytearray()).cast("I"), (ctypes.c_uint32 * 0)()):
            self.assertEqual(draw(vertices), NoRoomForVertices())
        self.assertEqual(yoktvarim.draw_indices(SMALL, Settings(), array("H")), NoRoomForIndices())

    def test_the_list_is_given_back(self):
        vertices = array("I", bytes(48))
        draw(vertices)
        vertices.append(1)  # which Python refuses while anything holds the list's memory


class NotLent(unittest.TestCase):
    def test_no_buffer_of_words(self):
        for wrong in (None, 12, [0] * 12, "0" * 12):
            self.assertRaises(TypeError, draw, wrong)

    def test_other_words(self):
        for letter in "bBhHiqQfd":
            self.assertRaises(TypeError, draw, array(letter, bytes(48)))
        self.assertRaises(TypeError, draw, bytearray(48))
        self.assertRaises(TypeError, yoktvarim.draw_indices, SMALL, Settings(), array("I", bytes(48)))
        self.assertRaises(TypeError, draw, (ctypes.c_uint32.__ctype_be__ * 12)())

    def test_not_writable(self):
        self.assertRaises(TypeError, draw, memoryview(bytes(48)).cast("I"))

    def test_gaps(self):
        self.assertRaises(ValueError, draw, memoryview(array("I", bytes(96)))[::2])

    def test_not_aligned(self):
        self.assertRaises(ValueError, draw, memoryview(bytearray(49))[1:].cast("I"))


if __name__ == "__main__":
    unittest.main()
