"""The view Draw: random states against tsj, levels of every sort, drags, zoom, and what is under the pointer."""

import os
import random
import re
import struct
import unittest

from selenium.webdriver.common.action_chains import ActionChains
from selenium.webdriver.common.keys import Keys

from browser import ALL, native, PageTest

STATES = int(os.environ.get("STATES", "100"))
KINDS = ("Triangles", "Quads", "Isolines")
SPACINGS = ("Equal", "Even", "Odd")
ORDERS = ("Clockwise", "Counter-clockwise")
ORIGINS = ("Upper left", "Lower left")
NAMES = {
    "Triangles": (("u = 0", "v = 0", "w = 0"), ("inner",)),
    "Quads": (("u = 0", "v = 0", "u = 1", "v = 1"), ("rows", "columns")),
    "Isolines": (("lines", "segments"), ()),
}
CORNERS = {"Triangles": 3, "Quads": 3, "Isolines": 2}
ODD_LEVELS = ("NaN", "inf", "-inf", "0", "-0", "1e-45", "0.5", "1", "1.0000001", "64", "1e30")


def float32(text):
    return struct.unpack("<f", struct.pack("<f", float(text)))[0] if abs(float(text)) < 3e38 else float(text)


def level(chance):
    """A level as somebody types it: mostly small, so that the pictures are quick."""
    if chance.random() < 0.1:
        return chance.choice(ODD_LEVELS)
    return f"{chance.uniform(0.3, 70 if chance.random() < 0.1 else 9):.3f}"


class State:
    """A random state, set by the controls."""

    def __init__(self, test, chance):
        self.test = test
        self.kind, self.spacing = chance.choice(KINDS), chance.choice(SPACINGS)
        self.order, self.origin = chance.choice(ORDERS), chance.choice(ORIGINS)
        self.dots = chance.random() < 0.2
        self.top = chance.choice((64, 64, 2 * chance.randint(1, 32)))
        self.levels = {f"{group} {name}": level(chance) for group, names in zip(("outer", "inner"), NAMES[self.kind]) for name in names}
        self.slid = {label for label in self.levels if chance.random() < 0.15}

    def set(self):
        test = self.test
        for title, name in (("Kind", self.kind), ("Spacing", self.spacing), ("Vertex order", self.order), ("Domain origin", self.origin)):
            test.click(title, name)
        box = test.find(".toggle input")
        if box.is_selected() != self.dots:
            box.send_keys(Keys.SPACE)
        test.find(".top input").send_keys(ALL, str(self.top))
        for label, text in self.levels.items():
            test.type(label, text)
            if label in self.slid:
                test.find(f'[aria-label="{label}, slider"]').send_keys(Keys.ARROW_RIGHT)
        test.settle()

    def is_in(self, job):
        """Tests that a job holds what was asked for."""
        mark, version, *settings = struct.unpack("<3sH6B6f", job)
        names = (KINDS, self.kind), (SPACINGS, self.spacing), (ORDERS, self.order), (ORIGINS, self.origin)
        asked = [*(known.index(name) for known, name in names), self.dots, self.top]
        self.test.assertEqual((mark, version, settings[:6]), (b"TSJ", 2, asked))
        outer, inner = NAMES[self.kind]
        held = (*settings[6 : 6 + len(outer)], *settings[10 : 10 + len(inner)])
        for (label, text), found in zip(self.levels.items(), held):
            if label not in self.slid:
                self.test.assertEqual(str(found), str(float32(text)), label)

    def counts(self, points, indices):
        """The numbers that the page shows for these counts."""
        return [points, indices // (1 if self.dots else CORNERS[self.kind]), indices]


class Draw(PageTest):
    def test_random_states(self):
        chance = random.Random(1)
        answers = []
        for _ in range(STATES):
            self.view("draw")
            state = State(self, chance)
            state.set()
            answer, counts = self.said("#answer"), self.text("#counts")
            self.view("take")
            job = self.saved("Job file", "patch.tsj")
            state.is_in(job)
            text = native(job)
            self.assertEqual(self.find("textarea.text").get_attribute("value"), text)
            first = text.splitlines()[1].split()
            answers.append(first[0])
            self.assertEqual(answer, first[0])
            if answer == "drawn":
                shown = [int(word.replace(",", "")) for word in re.findall(r"\d[\d,]*(?= )", counts)]
                self.assertEqual(shown, state.counts(*map(int, first[1:])))
        self.assertEqual(set(answers), {"drawn", "discarded"})
        self.assertEqual(self.saved("Text", "patch.txt").decode(), text)

    def test_nan(self):
        self.fill("outer u = 0", "nan")
        self.assertEqual(self.said("#answer"), "discarded")
        self.assertEqual(self.text("#counts"), "The outer level u = 0 is NaN or not above 0.")
        self.assertEqual(self.rows(".level-table")[0], "u = 0 NaN – – –".split())
        self.fill("outer u = 0", "3")
        self.fill("inner rows", "NaN")
        self.assertEqual(self.said("#answer"), "drawn")
        self.assertEqual(self.rows(".level-table")[4], ["rows", "NaN", "below", "3", "65,537"])

    def test_bad_top(self):
        for top in (7, 0, 66, -2):
            self.set_top(top)
            self.assertEqual((self.said("#answer"), self.text("#counts")), ("bad top", "The top is not an even number from 2 to 64."))
        self.view("take")
        self.assertFalse(self.button("Job file").is_enabled())
        self.assertFalse(self.button("Text").is_enabled())
        self.view("check")
        self.assertEqual(self.said("#verdict"), "bad top")
        self.view("draw")
        self.set_top("2.5")
        self.assertEqual(self.text(".top .message"), "The top is a whole number.")

    def test_level_that_is_no_number(self):
        self.fill("outer u = 1", "4x")
        self.assertIn("“4x” is not a number; NaN and inf are allowed.", [each.text for each in self.find_all(".level .message")])
        self.assertEqual(self.rows(".level-table")[2][3], "4")
        self.fill("outer u = 1", "5")
        self.assertEqual([each.text for each in self.find_all(".level .message:not([hidden])")], [])

    def test_clamps_n_and_l(self):
        self.choose("Spacing", "Equal")
        self.set_top(16)
        for name, text in zip(NAMES["Quads"][0], ("0.5", "3.2", "17", "inf")):
            self.fill(f"outer {name}", text)
        self.fill("inner rows", "1")
        rows = [row[-3:] for row in self.rows(".level-table")]
        outer = ["below 1 65,536", "inside 4 262,144", "above 16 1,048,576", "above 16 1,048,576"]
        inner = ["inside 2 131,072", "inside 5 327,680"]
        self.assertEqual(rows, [each.split() for each in outer + inner])
        self.choose("Kind", "Isolines")
        self.choose("Spacing", "Even")
        self.fill("outer lines", "3")
        self.fill("outer segments", "2.5")
        self.assertEqual([row[-3:] for row in self.rows(".level-table")], ["inside 3 196,608".split(), "inside 4 163,840".split()])

    def test_connections(self):
        self.choose("Spacing", "Odd")
        self.fill("outer u = 0", "3")
        self.find('[aria-label="outer u = 0"]').send_keys(Keys.SHIFT + Keys.ARROW_DOWN)
        self.settle()
        self.assertIn("the same", self.text("#connections"))
        self.fill("outer u = 0", "5")
        self.assertIn("changed", self.text("#connections"))

    def test_gestures_are_counted_apart(self):
        slider = self.find('[aria-label="outer u = 0, slider"]')
        for _ in range(2):
            chain = ActionChains(self.browser, duration=20).move_to_element_with_offset(slider, -10, 0)
            chain.click_and_hold().move_by_offset(8, 0).move_by_offset(8, 0).release().perform()
            self.settle()
        self.assertLessEqual(int(re.search(r"(\d+) steps", self.text("#connections")).group(1)), 4)

    def test_redraw_time_is_shown(self):
        self.assertRegex(self.text("#time"), r"^(< )?[\d.]+ ms \(cutting (< )?[\d.]+ ms\)$")


class Jobs(PageTest):
    def test_open_a_job(self):
        self.choose("Kind", "Triangles")
        self.fill("outer w = 0", "6.5")
        self.view("take")
        job, text = self.saved("Job file", "patch.tsj"), self.find("textarea.text").get_attribute("value")
        self.open("")
        second = job[:5] + bytes([9]) + job[6:]
        self.give_file("A job file", "two.tsj", second + job[5:])
        options = [each.text for each in self.find_all("#words select option")]
        self.assertEqual(options, ["Record 0: unknown setting at place 0", "Record 1: triangles, fractional odd"])
        self.assertEqual(self.value("outer w = 0"), "6.5")
        self.view("take")
        self.assertEqual(self.find("textarea.text").get_attribute("value"), text)

    def test_files_that_are_not_jobs(self):
        for content, because in (
            (b"hello", "“other.tsj” has fewer than 5 bytes or does not begin with TSJ, so it is not a job."),
            (b"TSJ\x09\x00", "“other.tsj” is a job of an unknown version."),
            (b"TSJ\x02\x00", "“other.tsj” is a job without records."),
            (b"TSJ\x02\x00\x00", "“other.tsj” has no record that can be read: the file ends within record 0."),
        ):
            self.give_file("A job file", "other.tsj", content)
            self.assertEqual(self.text("#words .message:not([hidden])"), because)
        self.assertEqual(self.said("#answer"), "drawn")


if __name__ == "__main__":
    unittest.main()
