"""The view Compare: known differences, held and given meshes, and meshes that cannot be compared."""

import unittest

from browser import PageTest


class Compare(PageTest):
    def setUp(self):
        super().setUp()
        self.open("view=compare&kind=quads&spacing=equal&outer=3,3,3,3&inner=3,3")

    def test_previous_mesh(self):
        self.assertEqual(self.said("#comparison"), "no other mesh")
        self.fill("outer v = 1", "4")
        # Four segments have three points between them and three have two; their strips against one segment have 4 + 1 and 3 + 1 triangles.
        words = "3 points and 5 triangles only on screen, 2 points and 4 triangles only in the other."
        self.assertEqual(self.text("#differences"), words)
        self.assertEqual(self.said("#comparison"), "14 differences")
        self.assertEqual(len(self.find_all(".differences li")), 14)
        self.assertEqual(len(self.find_all(".differences li.left")), 8)
        # The previous mesh is the one before all keys of this field: 3 of 15 points are in it.
        self.fill("inner rows", "3")
        self.fill("outer v = 1", "16")
        self.assertRegex(self.text("#differences"), r"^12 points and .* only on screen, 0 points and .* only in the other.$")

    def test_held_mesh(self):
        self.press("Hold the mesh on screen")
        self.assertEqual(self.said("#comparison"), "the same")
        self.fill("inner rows", "5")
        self.assertRegex(self.said("#comparison"), r"^\d+ differences$")
        self.choose("Kind", "Triangles")
        self.assertEqual((self.said("#comparison"), self.text("#differences")), ("another kind", "The other mesh is of the kind quads."))
        self.choose("Kind", "Isolines")
        self.assertEqual(self.said("#comparison"), "no triangles")

    def test_given_mesh(self):
        self.give("drawn 2 0\n0 0 0\n0 0 0")
        self.assertEqual((self.said("#comparison"), self.text("#differences")), ("right refused", "The other mesh has two equal points."))
        self.give("drawn 2 3\n0 0 0\n65536 0 0\n0 1 2")
        self.assertEqual(self.text("#differences"), "The other mesh has an index that is no point’s number.")
        self.give("drawn 1 0\n7 7 0")
        self.assertEqual(self.text("#differences"), "16 points and 18 triangles only on screen, 1 point and 0 triangles only in the other.")
        self.fill("outer u = 0", "NaN")
        self.assertEqual(self.said("#comparison"), "nothing on screen")

    def test_large_meshes(self):
        self.open("view=compare&kind=quads&spacing=equal&outer=64,64,64,64&inner=64,64")
        self.fill("inner rows", "63")
        self.assertRegex(self.said("#comparison"), r"^[\d,]+ differences$")
        self.assertRegex(self.find_all(".differences li")[-1].get_attribute("textContent"), r"^and [\d,]+ more$")


if __name__ == "__main__":
    unittest.main()
