"""Every answer of the calls, by the rules' own examples."""

import doctest
import math
import unittest
from array import array

import yoktvarim
import yoktvarim.draw
from yoktvarim import (
    BadTop,
    Clamp,
    Clamps,
    Discarded,
    IndicesDrawn,
    Isolines,
    Measured,
    NoRoomForIndices,
    NoRoomForVertices,
    PointsDrawn,
    Quads,
    Settings,
    Spacing,
    Triangles,
)

SMALL = Triangles(outer=(1, 1, 1), inner=2)
AWAY = Isolines(outer=(math.nan, 1))
MARK32, MARK16 = 0xDEADBEEF, 0xBEEF


def marked_vertices(words):
    return array("I", [MARK32] * words)


def marked_indices(words):
    return array("H", [MARK16] * words)


class Drawing(unittest.TestCase):
    def test_the_sample_of_the_rules(self):
        mesh = yoktvarim.mesh(SMALL)
        self.assertEqual(mesh.points(), [(0, 196608, 0), (0, 0, 196608), (196608, 0, 0), (65536, 65536, 65536)])
        self.assertEqual(list(mesh.indices), [0, 1, 3, 1, 2, 3, 2, 0, 3])
        self.assertEqual(repr(mesh), "Mesh(4 points, 9 indices)")

    def test_isolines_and_dots(self):
        self.assertEqual(list(yoktvarim.mesh(Isolines((3, 2))).indices), [0, 1, 1, 2, 3, 4, 4, 5, 6, 7, 7, 8])
        self.assertEqual(list(yoktvarim.mesh(SMALL, Settings(point_mode=True)).indices), [0, 1, 2, 3])

    def test_words_past_the_counted_ones_stay(self):
        vertices, indices = marked_vertices(14), marked_indices(11)
        self.assertEqual(yoktvarim.draw_points(SMALL, Settings(), vertices), PointsDrawn(4))
        self.assertEqual(yoktvarim.draw_indices(SMALL, Settings(), indices), IndicesDrawn(9))
        self.assertEqual(list(vertices[9:]), [65536, 65536, 65536, MARK32, MARK32])
        self.assertEqual(list(indices[6:]), [2, 0, 3, MARK16, MARK16])

    def test_a_word_too_few(self):
        vertices, indices = marked_vertices(11), marked_indices(8)
        self.assertEqual(yoktvarim.draw_points(SMALL, Settings(), vertices), NoRoomForVertices())
        self.assertEqual(yoktvarim.draw_indices(SMALL, Settings(), indices), NoRoomForIndices())
        self.assertEqual((vertices, indices), (marked_vertices(11), marked_indices(8)))

    def test_discarded(self):
        vertices, indices = marked_vertices(3), marked_indices(3)
        for level in (math.nan, 0.0, -0.0, -1.0, -math.inf, 1e-60):
            patch = Quads(outer=(1, 1, level, 1), inner=(1, 1))
            self.assertEqual(yoktvarim.measure(patch), Discarded())
            self.assertEqual(yoktvarim.mesh(patch), Discarded())
            self.assertEqual(yoktvarim.draw_points(patch, Settings(), vertices), Discarded())
            self.assertEqual(yoktvarim.draw_indices(patch, Settings(), indices), Discarded())
        self.assertEqual((vertices, indices), (marked_vertices(3), marked_indices(3)))

    def test_lists_of_full_size_have_room(self):
        full = Quads(outer=[math.inf] * 4, inner=[math.inf] * 2)
        vertices, indices = marked_vertices(yoktvarim.VERTEX_WORDS), marked_indices(yoktvarim.INDEX_WORDS)
        self.assertEqual(yoktvarim.draw_points(full, Settings(), vertices), PointsDrawn(4225))
        self.assertEqual(yoktvarim.draw_indices(full, Settings(), indices), IndicesDrawn(24576))
        self.assertEqual(max(indices), 4224)

    def test_indices_are_kept_while_a_level_moves(self):
        settings = Settings(spacing=Spacing.FRACTIONAL_ODD)
        meshes = [yoktvarim.mesh(Quads([level] * 4, [level] * 2), settings) for level in (3.5, 4, 4.5, 5)]
        self.assertEqual(len({bytes(mesh.indices) for mesh in meshes}), 1)
        self.assertEqual(len({bytes(mesh.vertices) for mesh in meshes}), 4)


class Measuring(unittest.TestCase):
    def test_counts_and_clamps(self):
        patch = Triangles(outer=(0.5, 64, 100), inner=math.nan)
        clamps = Clamps((Clamp.BELOW, Clamp.INSIDE, Clamp.ABOVE), (Clamp.BELOW,))
        answer = yoktvarim.measure(patch)
        self.assertEqual(answer, Measured(answer.points, answer.indices, clamps))
        mesh = yoktvarim.mesh(patch)
        self.assertEqual((len(mesh.points()), len(mesh.indices)), (answer.points, answer.indices))

    def test_a_clamp_for_each_level_that_counts(self):
        quads = yoktvarim.measure(Quads((1, 2, 3, 4), (5, 0))).clamps
        self.assertEqual(quads, Clamps((Clamp.INSIDE,) * 4, (Clamp.INSIDE, Clamp.BELOW)))
        isolines = yoktvarim.measure(Isolines((1, 100))).clamps
        self.assertEqual(isolines, Clamps((Clamp.INSIDE, Clamp.ABOVE), ()))

    def test_tops(self):
        for top in range(-2, 600):
            answer = yoktvarim.measure(SMALL, Settings(top=top))
            good = 2 <= top <= 64 and top % 2 == 0
            self.assertIsInstance(answer, Measured if good else BadTop, f"top {top}")

    def test_a_bad_top_is_told_first(self):
        settings = Settings(top=7)
        self.assertEqual(yoktvarim.measure(AWAY, settings), BadTop())
        self.assertEqual(yoktvarim.mesh(AWAY, settings), BadTop())
        self.assertEqual(yoktvarim.draw_points(AWAY, settings, marked_vertices(0)), BadTop())
        self.assertEqual(yoktvarim.draw_indices(AWAY, settings, marked_indices(0)), BadTop())


class Answers(unittest.TestCase):
    def test_no_answer_is_a_yes_or_a_number(self):
        for answer in (Discarded(), BadTop(), PointsDrawn(4), yoktvarim.measure(SMALL), yoktvarim.mesh(SMALL)):
            with self.assertRaises(TypeError):
                bool(answer)
            with self.assertRaises(TypeError):
                int(answer)

    def test_the_numbers_of_the_rules(self):
        kinds = (Measured, PointsDrawn, IndicesDrawn, Discarded, NoRoomForVertices, NoRoomForIndices, BadTop)
        self.assertEqual([kind.number for kind in kinds], [0, 0, 0, 1, 3, 4, 11])


class Inputs(unittest.TestCase):
    def test_how_many_levels(self):
        for make in (lambda: Triangles((1, 1), 1), lambda: Quads((1,) * 4, (1,)), lambda: Isolines((1, 1, 1))):
            with self.assertRaises(ValueError):
                make()

    def test_no_number_passes_for_a_setting(self):
        for wrong in ({"spacing": 1}, {"vertex_order": 0}, {"domain_origin": None}, {"point_mode": 1}, {"top": 16.0}):
            with self.assertRaises(TypeError):
                Settings(**wrong)
        with self.assertRaises(TypeError):
            yoktvarim.measure(SMALL, Spacing.EQUAL)

    def test_what_is_no_patch(self):
        for wrong in ((1, 1, 1), None, Triangles, Settings()):
            with self.assertRaisesRegex(TypeError, "Triangles, Quads or Isolines"):
                yoktvarim.measure(wrong)

    def test_no_text_passes_for_a_level(self):
        for make in (lambda: Triangles("111", 1), lambda: Triangles((1, 1, 1), "1"), lambda: Isolines(("1", "1")), lambda: Isolines(b"11")):
            with self.assertRaisesRegex(TypeError, "takes numbers"):
                make()

    def test_a_derived_class_is_drawn_as_its_kind(self):
        class Face(Triangles):
            kind = 2

        class Strip(Quads):
            def __init__(self, levels):
                object.__setattr__(self, "outer", levels)
                object.__setattr__(self, "inner", (1, 1))

        self.assertEqual(yoktvarim.mesh(Face((1, 1, 1), 2)), yoktvarim.mesh(SMALL))
        self.assertEqual(yoktvarim.measure(Face((1, 1, 1), 100)).clamps, Clamps((Clamp.INSIDE,) * 3, (Clamp.ABOVE,)))
        self.assertEqual(yoktvarim.mesh(Strip((1, 2, 3, 4))), yoktvarim.mesh(Quads((1, 2, 3, 4), (1, 1))))
        with self.assertRaisesRegex(ValueError, "4 levels here, not 3"):
            yoktvarim.mesh(Strip((1, 2, 3)))


def load_tests(_loader, tests, _pattern):
    """The examples in the texts are tests too."""
    tests.addTests(doctest.DocTestSuite(module) for module in (yoktvarim, yoktvarim.draw))
    return tests


if __name__ == "__main__":
    unittest.main()
