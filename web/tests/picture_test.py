"""The picture: dragging levels by mouse and touch, zooming, and looking at points and triangles."""

import unittest

from selenium.webdriver.common.action_chains import ActionChains
from selenium.webdriver.common.actions.wheel_input import ScrollOrigin
from selenium.webdriver.common.keys import Keys

from browser import PageTest

PADDING = 92  # around the picture, both sides together


class Picture(PageTest):
    def setUp(self):
        super().setUp()
        self.surface = self.find(".surface")
        box = self.surface.rect
        self.side = min(box["width"], box["height"]) - PADDING
        self.middle = {"x": box["x"] + box["width"] / 2, "y": box["y"] + box["height"] / 2}

    def drag(self, right, down, by_right, by_down):
        half = by_right // 2, by_down // 2
        chain = ActionChains(self.browser, duration=20).move_to_element_with_offset(self.surface, int(right), int(down)).click_and_hold()
        chain.move_by_offset(*half).move_by_offset(by_right - half[0], by_down - half[1]).release().perform()
        self.settle()

    def touch(self, kind, *points):
        self.browser.execute_cdp_cmd("Input.dispatchTouchEvent", {"type": kind, "touchPoints": points})

    def fingers(self, apart):
        """Two fingers, as far to the left and to the right of the middle."""
        return [{"x": self.middle["x"] + way * apart, "y": self.middle["y"], "id": at} for at, way in enumerate((-1, 1))]

    def level(self, label):
        return float(self.value(label))

    def amount(self):
        return self.text(".zoom .amount")

    def hover(self, right, down):
        ActionChains(self.browser).move_to_element_with_offset(self.surface, int(right), int(down)).perform()
        self.settle()
        return self.text("figcaption")

    def test_drags(self):
        before = self.level("outer u = 0")
        self.drag(-self.side / 2, 10, -60, 0)
        self.assertAlmostEqual(self.level("outer u = 0"), 2 * before, delta=0.2)
        before = self.level("outer v = 1")
        self.drag(10, -self.side / 2, 0, 60)
        self.assertAlmostEqual(self.level("outer v = 1"), before / 2, delta=0.2)
        rows, columns = self.level("inner rows"), self.level("inner columns")
        self.drag(20, 20, 60, 0)
        self.assertAlmostEqual(self.level("inner columns"), 2 * columns, delta=0.2)
        self.assertEqual(self.level("inner rows"), rows)
        self.assertRegex(self.text("#connections"), r"changed in \d+ of \d+ steps|the same in all|changed by the last step")

    def test_drag_by_touch(self):
        at = {"x": self.middle["x"] - self.side / 2, "y": self.middle["y"]}
        before = self.level("outer u = 0")
        self.touch("touchStart", at)
        for step in range(1, 7):
            self.touch("touchMove", {"x": at["x"] - 10 * step, "y": at["y"]})
        self.touch("touchEnd")
        self.settle()
        self.assertAlmostEqual(self.level("outer u = 0"), 2 * before, delta=0.2)

    def test_looking(self):
        self.assertRegex(self.hover(30, 40), r"^Triangle \d+ with the points \d+, \d+, \d+$")
        self.assertEqual(self.hover(-self.side / 2, self.side / 2), "Point 3 at (0, 0, 0)")

    def test_zoom_by_wheel(self):
        corner = (-int(self.side / 2), int(self.side / 2))
        for pixels, amount in ((-600, "× 4.0"), (6000, "")):
            ActionChains(self.browser).scroll_from_origin(ScrollOrigin.from_element(self.surface, *corner), 0, pixels).perform()
            self.settle()
            self.assertEqual(self.amount(), amount)
            self.assertEqual(self.hover(*corner), "Point 3 at (0, 0, 0)")

    def test_zoom_by_buttons_and_keys(self):
        before = self.text("#counts")
        self.find('[aria-label="Zoom in"]').click()
        self.settle()
        self.assertEqual(self.amount(), "× 1.5")
        self.surface.send_keys("+")
        self.settle()
        self.assertEqual(self.amount(), "× 2.3")
        found = self.hover(0, 0)
        self.surface.send_keys(Keys.SHIFT + Keys.ARROW_RIGHT)
        self.settle()
        self.assertNotEqual(self.hover(1, 0), found)
        self.surface.send_keys("-", "-")
        self.settle()
        self.assertEqual(self.amount(), "")
        self.surface.send_keys("+", "0")
        self.settle()
        self.assertEqual((self.amount(), self.text("#counts")), ("", before))

    def test_zoom_by_pinch(self):
        before = self.value("inner rows"), self.value("inner columns")
        self.touch("touchStart", self.fingers(40)[0])
        self.touch("touchStart", *self.fingers(40))
        for apart in (60, 80, 120):
            self.touch("touchMove", *self.fingers(apart))
        self.touch("touchEnd")
        self.settle()
        self.assertEqual(self.amount(), "× 3.0")
        self.assertEqual((self.value("inner rows"), self.value("inner columns")), before)

    def test_zoom_is_in_the_link(self):
        self.surface.send_keys("+", "+")
        self.settle()
        self.view("take")
        link = self.find("#words input[readonly]").get_attribute("value")
        self.open(link.split("#")[1])
        self.assertEqual(self.amount(), "× 2.3")


if __name__ == "__main__":
    unittest.main()
