"""The view of two patches: the places of the shared edge are equal, whatever else differs."""

import random
import unittest

from browser import PageTest


class Seam(PageTest):
    def turn(self, title, chance):
        """Chooses at random in each group with this title."""
        for group in [each for each in self.find_all("fieldset.choice") if each.find_element("tag name", "legend").text == title]:
            chance.choice(group.find_elements("tag name", "label")).click()

    def test_each_spacing(self):
        chance = random.Random(8)
        self.view("seam")
        for spacing in ("Equal", "Even", "Odd") * 3:
            for title in ("Kind", "Vertex order", "Domain origin"):
                self.turn(title, chance)
            self.choose("Spacing", spacing)
            self.set_top(2 * chance.randint(4, 32))
            self.fill("shared level", f"{chance.uniform(0.5, 20):.3f}")
            self.fill(f"{chance.choice(('left', 'right'))} outer v = 0", f"{chance.uniform(0.5, 9):.3f}")
            self.assertEqual(self.said("#seam"), "places are equal")
            rows = self.rows(".places")
            self.assertGreaterEqual(len(rows), 2)
            for at, row in enumerate(rows):
                self.assertEqual(row, [str(at), row[1], row[1], "equal"])
            places = [int(row[1].replace(",", "")) for row in rows]
            self.assertEqual((places[0], places[-1]), (0, 65536))
            self.assertEqual(places, sorted(places))
            self.assertEqual(self.text("#seam-counts").split()[0], str(len(rows) - 1))

    def test_known_places(self):
        self.open("view=seam&seam.spacing=equal&seam.level=4")
        self.assertEqual([row[1] for row in self.rows(".places")], ["0", "16,384", "32,768", "49,152", "65,536"])

    def test_point_mode_on_one_side(self):
        self.view("seam")
        self.find_all("#controls .toggle input")[1].click()
        self.settle()
        self.assertEqual(self.said("#seam"), "places are equal")

    def test_side_that_is_not_drawn(self):
        self.view("seam")
        self.fill("shared level", "NaN")
        self.assertEqual(self.said("#seam"), "discarded")
        self.fill("shared level", "4")
        self.fill("right outer v = 0", "0")
        self.assertEqual(self.said("#seam"), "discarded")
        self.assertTrue(self.text("#seam-counts").startswith("The right patch is not drawn, so there is no seam."))
        self.fill("right outer v = 0", "2")
        self.set_top(5)
        self.assertEqual(self.said("#seam"), "bad top")


if __name__ == "__main__":
    unittest.main()
