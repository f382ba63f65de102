"""The view Check: every fault by its button, meshes of others, texts with several meshes, and answers that are not late."""

import re
import unittest

from selenium.webdriver.common.action_chains import ActionChains

from browser import PageTest

DAMAGES = {
    "Leave a triangle out": "open side",
    "Double a triangle": "side twice",
    "Flip a triangle": "turned",
    "Move a point outside": "outside",
    "Move a point along the outline": "open side",
    "Merge two points": "equal points",
    "Put an index out of range": "unknown index",
    "Leave an index out": "not threes",
    "Leave everything out": "missing piece",
}
PATCHES = (
    "kind=quads&outer=3,5,2,7&inner=4,5",
    "kind=triangles&outer=3,4,5,1&inner=5,1",
    "kind=triangles&vertexOrder=clockwise&outer=2,2,2,1&inner=3,1",
    "kind=quads&outer=64,64,64,64&inner=64,64",
)
UNREADABLE = {
    "hello": "Line 1 has to be “drawn” with the counts of points and indices, or “discarded”.",
    "TSJ 1\ndrawn 2 3\n0 0 0": "The text ends before point 1 of 2.",
    "drawn 1 3\n0 0 x\n": "Line 2 has “x” where a whole number has to be.",
    "drawn 1 3\n0 0 4294967296\n": "Line 2 has 4294967296, which is past 4294967295.",
    "drawn 0 3\n0 0 65536\n": "Line 2 has 65536, which is past 65535.",
    "v 0 0 0\nf 1 2 3 4": "Line 2 has a face of 4 corners; only triangles are read.",
    "v 0 0 0\nf 1 2 zero": "Line 2 has “zero”, which is not the number of a point.",
    "v 0 0 -1": "Line 1 has “-1”, which is not a coordinate from 0 to 1.",
    "  ": "There is nothing to read.",
    "TSJ 2": "The text ends before the first answer.",
    "TSJ 2\nrefused 7": "Line 2 is a refusal, not a mesh.",
    "drawn 0 2\n1 2 3": "Line 2 has more indices than the 2 that are announced.",
    "discarded\nwhat": "Line 2 has to be “drawn” with the counts of points and indices, or “discarded”.",
}


class Check(PageTest):
    def ask(self, text):
        self.give(text)
        return self.said("#verdict")

    def test_every_damage(self):
        for link in PATCHES:
            self.open(f"view=check&spacing=equal&{link}")
            self.assertEqual(self.said("#verdict"), "accepted")
            for title, fault in DAMAGES.items():
                self.press(title)
                self.assertEqual(self.said("#verdict"), fault, title)
                self.assertIn(f"“{title.lower()}”", self.text("#which"))
            self.choose("Mesh to check", "Drawn")
            self.assertEqual(self.said("#verdict"), "accepted")

    def test_chosen_triangle(self):
        self.view("check")
        self.find(".surface").send_keys("\ue015" * 6, "\ue007")  # six times down, then enter
        self.settle()
        self.press("Flip a triangle")
        self.assertEqual(self.text("#fault"), "Triangle 5 has no area or turns the wrong way.")

    def test_zoom_to_the_fault(self):
        self.open("view=check&spacing=equal&kind=quads&outer=64,64,64,64&inner=64,64")
        self.assertFalse(self.button("Zoom to the fault").is_enabled())
        self.press("Double a triangle")
        number = int(re.search(r"\d+", self.text("#fault")).group())
        self.press("Zoom to the fault")
        self.assertEqual(self.text(".zoom .amount"), "× 12")
        # The first corner of the triangle is in the middle of the picture now, and the triangle has that point.
        ActionChains(self.browser).move_to_element(self.find(".surface")).perform()
        point = re.match(r"Point (\d+) at", self.text("figcaption")).group(1)
        self.view("take")
        triangles = self.find("textarea.text").get_attribute("value").splitlines()[2 + 4225 :]
        self.assertEqual(triangles[number].split()[0], point)

    def test_held_mesh(self):
        self.view("check")
        self.press("Hold the drawn mesh")
        self.assertEqual(self.said("#verdict"), "accepted")
        self.fill("outer u = 1", "9")
        self.assertEqual(self.said("#verdict"), "open side")
        self.fill("outer u = 0", "0")
        self.assertEqual(self.said("#verdict"), "should be discarded")
        self.choose("Kind", "Isolines")
        self.assertEqual(self.said("#verdict"), "isolines")
        self.choose("Mesh to check", "Damaged")
        self.assertEqual(self.said("#verdict"), "no mesh")
        self.choose("Mesh to check", "Given")
        self.assertEqual((self.said("#verdict"), self.text("#fault")), ("no mesh", "No mesh is given yet: paste or drop one."))

    def test_given_meshes(self):
        self.view("take")
        text, obj = self.saved("Text", "patch.txt").decode(), self.saved("OBJ", "patch.obj").decode()
        self.view("check")
        for given in (text, obj, text.split("\n", 1)[1]):
            self.press("Leave everything out")
            self.assertEqual((self.ask(given), self.text("#which")), ("accepted", "The given mesh is checked."))
        self.choose("Kind", "Triangles")
        self.view("take")
        obj = self.saved("OBJ", "patch.obj").decode()
        self.view("check")
        self.assertEqual(self.ask(obj), "accepted")
        self.assertEqual(self.ask("\n".join(obj.splitlines()[:-1])), "open side")

    def test_unreadable_texts(self):
        self.view("check")
        for text, sentence in UNREADABLE.items():
            self.assertEqual(self.ask("drawn 0 0"), "missing piece")
            self.assertEqual(self.ask(text), "no mesh")
            self.assertEqual(self.text("#words .message:not([hidden])"), sentence)

    def test_several_meshes(self):
        self.view("take")
        text = self.find("textarea.text").get_attribute("value")
        self.view("check")
        self.assertEqual(self.ask(f"{text}refused 8\ndiscarded\n{text.split(chr(10), 1)[1]}"), "accepted")
        options = self.find_all("#words select option")
        counts = text.splitlines()[1].split()
        drawn = f"{counts[1]} points, {counts[2]} indices"
        titles = [f"Record 0: {drawn}", "Record 1: refused 8", "Record 2: discarded", f"Record 3: {drawn}"]
        self.assertEqual([each.text for each in options], titles)
        self.assertEqual([each.is_enabled() for each in options], [True, False, True, True])
        options[2].click()
        self.settle()
        self.assertEqual(self.said("#verdict"), "missing piece")
        options[3].click()
        self.settle()
        self.assertEqual(self.said("#verdict"), "accepted")

    def test_drop(self):
        self.view("check")
        self.browser.execute_script("""
            const transfer = new DataTransfer();
            transfer.items.add(new File(['drawn 0 0\\n'], 'mesh.txt', { type: 'text/plain' }));
            const drop = new DragEvent('drop', { dataTransfer: transfer, bubbles: true, cancelable: true });
            document.querySelector('.surface').dispatchEvent(drop);
        """)
        self.wait(lambda: self.said("#verdict") == "missing piece")

    def test_answer_belongs_to_the_picture(self):
        """A large damaged mesh takes the worker a while. Whenever the page shows an answer, it is that of the mesh in the picture."""
        self.open("view=check&check.mesh=damaged&check.damage=flip&spacing=equal&kind=quads&outer=64,64,64,64&inner=64,64")
        self.assertEqual(self.said("#verdict"), "turned")
        seen = self.browser.execute_async_script("""
            const done = arguments[0];
            const seen = [];
            const look = () => seen.push([
                document.querySelector('#verdict').textContent,
                document.querySelector('#fault').textContent,
                Number(document.querySelector('.surface').getAttribute('aria-label').match(/(\\d+) triangles/)[1]),
            ]);
            new MutationObserver(look).observe(document.querySelector('#words'), { subtree: true, childList: true, characterData: true });
            const slider = document.querySelector('[aria-label="inner rows, slider"]');
            const move = (value) => { slider.value = value; slider.dispatchEvent(new Event('input')); };
            [0, 40, 200, 260].forEach((delay, at) => setTimeout(() => move(5.9 - at), delay));
            setTimeout(() => { look(); done(seen); }, 2500);
        """)
        self.assertEqual(seen[-1][0], "turned")
        self.assertGreater(len({triangles for _, _, triangles in seen}), 1)
        for answer, fault, triangles in seen:
            # The triangle in the middle of the list is the flipped one.
            words = f"Triangle {triangles // 2} has no area or turns the wrong way."
            self.assertIn((answer, fault), {("turned", words), ("checking …", "The answer is not there yet.")})


if __name__ == "__main__":
    unittest.main()
