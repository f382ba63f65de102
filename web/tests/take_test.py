"""The view Take away: the files, and the link that carries the state."""

import unittest

from browser import PageTest, native


class Take(PageTest):
    def link(self):
        self.view("take")
        return self.find("#words input[readonly]").get_attribute("value")

    def test_files(self):
        self.view("take")
        text = native(self.saved("Job file", "patch.tsj"))
        points, indices = map(int, text.splitlines()[1].split()[1:])
        obj = self.saved("OBJ", "patch.obj").decode().splitlines()
        self.assertEqual([sum(line.startswith(letter) for line in obj) for letter in ("v ", "f ")], [points, indices // 3])
        self.assertIn("v 0 1 0", obj)
        svg = self.saved("SVG", "patch.svg").decode()
        self.assertTrue(svg.startswith("<svg ") and svg.endswith("</svg>\n"))
        self.assertEqual(svg.count("M"), indices // 3 + 1)
        self.assertEqual(self.saved("Text", "patch.txt").decode(), text)

    def test_link(self):
        self.choose("Kind", "Triangles")
        self.choose("Spacing", "Even")
        self.choose("Vertex order", "Clockwise")
        self.choose("Domain origin", "Upper left")
        for label, text in (("outer w = 0", "6.5"), ("outer u = 0", "inf"), ("outer v = 0", "-0"), ("inner inner", "nan")):
            self.fill(label, text)
        self.set_top(32)
        before = self.text("#words").split("Connections")[0]
        link = self.link()
        text = self.find("textarea.text").get_attribute("value")
        self.wait(lambda: self.browser.current_url == link)
        self.open(link.split("#")[1])
        self.assertEqual(self.find("textarea.text").get_attribute("value"), text)
        self.view("draw")
        self.assertEqual(self.text("#words").split("Connections")[0], before)

    def test_link_with_two_patches_and_a_damage(self):
        self.view("seam")
        self.fill("shared level", "9.25")
        self.fill("left outer v = 1", "6")
        places = self.rows(".places")
        self.view("check")
        self.press("Flip a triangle")
        self.press("Hold the drawn mesh")
        self.fill("outer u = 1", "9")
        self.open(self.link().split("#")[1])
        self.view("seam")
        self.assertEqual((self.rows(".places"), self.value("left outer v = 1")), (places, "6"))
        self.view("check")
        self.assertEqual((self.said("#verdict"), self.text("#which")), ("open side", "The held mesh is checked."))
        self.choose("Mesh to check", "Damaged")
        self.assertEqual(self.said("#verdict"), "turned")

    def test_damaged_link(self):
        self.open("view=nowhere&kind=cube&outer=1,x&top=many&spacing=&colour=red&outer=2")
        self.assertEqual(self.said("#answer"), "drawn")
        notice = self.text("#notice")
        for part in ("view=nowhere", "kind=cube", "outer=1,x", "top=many", "spacing", "colour=red", "outer=2"):
            self.assertIn(f"“{part}”", notice)
        self.open("kind=isolines")
        self.assertEqual(self.find_all("#notice:not([hidden])"), [])

    def test_link_without_a_new_load(self):
        self.browser.execute_script("location.hash = 'view=draw&kind=isolines&spacing=equal&outer=3,4,1,1'")
        self.wait(lambda: self.text("#counts") == "15 points, 12 lines, 24 indices")

    def test_copy(self):
        self.view("take")
        self.press("Copy the link")
        self.wait(lambda: self.text("#words [role=status]").startswith("The link is"))


if __name__ == "__main__":
    unittest.main()
