"""The page as a whole: its policy, its keyboard, its labels, narrow screens, and what it shows where something fails."""

import base64
import re
import unittest

from selenium.webdriver.common.action_chains import ActionChains
from selenium.webdriver.common.keys import Keys

from browser import console, PAGE, PageTest, requests

VIEWS = ("draw", "seam", "check", "compare", "replay", "take")

# The least contrast of a text with what is behind it, by the formula of WCAG 2, over all texts that are shown.
CONTRAST = """
const part = (byte) => byte <= 10 ? byte / 255 / 12.92 : ((byte / 255 + 0.055) / 1.055) ** 2.4;
const light = (colour) => {
    const [r, g, b] = colour.match(/[\\d.]+/g).slice(0, 3).map(Number).map(part);
    return 0.2126 * r + 0.7152 * g + 0.0722 * b;
};
const behind = (element) => {
    for (let at = element; at; at = at.parentElement) {
        const colour = getComputedStyle(at).backgroundColor;
        if (!/, 0\\)$/.test(colour)) return colour;
    }
    return 'rgb(255, 255, 255)';
};
const faults = [];
for (const element of document.querySelectorAll('body *')) {
    const own = [...element.childNodes].some((node) => node.nodeType === 3 && node.textContent.trim());
    if (!own || !element.checkVisibility() || element.matches('script, style, :disabled, option')) continue;
    const [one, other] = [light(getComputedStyle(element).color), light(behind(element))].sort((a, b) => b - a);
    const contrast = (one + 0.05) / (other + 0.05);
    if (contrast < 4.5) faults.push(`${element.textContent.trim().slice(0, 30)}: ${contrast.toFixed(2)}`);
}
return faults;
"""

UNNAMED = """
return [...document.querySelectorAll('button, input, select, textarea, [role=application]')]
    .filter((each) => each.checkVisibility())
    .filter((each) => !each.getAttribute('aria-label') && !each.labels?.length && !each.textContent.trim())
    .map((each) => each.outerHTML.slice(0, 80));
"""


class Page(PageTest):
    def emulate(self, **how):
        if "width" in how:
            metrics = {"width": how["width"], "height": 800, "deviceScaleFactor": 1, "mobile": True}
            self.browser.execute_cdp_cmd("Emulation.setDeviceMetricsOverride", metrics)
            self.addCleanup(self.browser.execute_cdp_cmd, "Emulation.clearDeviceMetricsOverride", {})
        scheme = [{"name": "prefers-color-scheme", "value": how.get("scheme", "light")}]
        self.browser.execute_cdp_cmd("Emulation.setEmulatedMedia", {"features": scheme})
        self.addCleanup(self.browser.execute_cdp_cmd, "Emulation.setEmulatedMedia", {"features": []})

    def test_policy(self):
        """Nothing but what is in the file may run, and nothing may be fetched."""
        self.browser.execute_script("""
            const script = document.createElement('script');
            script.textContent = 'window.ran = true';
            document.body.append(script);
        """)
        self.assertIsNone(self.browser.execute_script("return window.ran"))
        for address in ("data:,x", "http://127.0.0.1:9/"):
            fetched = "const [address, done] = arguments; fetch(address).then(() => done('yes'), () => done('no'))"
            self.assertEqual(self.browser.execute_async_script(fetched, address), "no")
        self.assertTrue(all("Content Security Policy" in entry for entry in console(self.browser)))
        requests(self.browser)  # the one that was refused is no request of the page

    def test_keyboard_reaches_everything(self):
        seen = set()
        self.find("body").send_keys(Keys.TAB)
        for _ in range(40):
            active = self.browser.switch_to.active_element
            seen.add(active.get_attribute("aria-label") or active.get_attribute("value") or active.text)
            ActionChains(self.browser).send_keys(Keys.TAB).perform()
        controls = {"Draw", "quads", "outer u = 0", "outer u = 0, slider", "inner columns", "fractional odd", "64", "on"}
        self.assertLessEqual(controls | {"Zoom in", "A job file"}, seen)
        self.find("[value=quads]").send_keys(Keys.ARROW_RIGHT)
        self.assertTrue(self.find("[value=isolines]").is_selected())
        self.find("[value=isolines]").send_keys(Keys.ARROW_LEFT)
        self.settle()
        picture = self.find(".surface")
        picture.send_keys(Keys.ARROW_RIGHT, Keys.ARROW_RIGHT)
        self.assertRegex(self.text("figcaption"), r"^Point 1 at ")
        picture.send_keys(Keys.ARROW_UP)
        self.assertRegex(self.text("figcaption"), r"^Triangle \d+ with the points")
        self.find("#tab-draw").send_keys(Keys.ARROW_RIGHT)
        self.wait(lambda: self.find("#tab-seam").get_attribute("aria-selected") == "true")

    def test_labels_and_contrast(self):
        for scheme in ("light", "dark"):
            self.emulate(scheme=scheme)
            for view in VIEWS:
                self.view(view)
                self.assertEqual(self.browser.execute_script(UNNAMED), [], view)
                self.assertEqual(self.browser.execute_script(CONTRAST), [], f"{view}, {scheme}")

    def test_narrow_screens(self):
        for width in (360, 800):
            self.emulate(width=width)
            for view in VIEWS:
                self.view(view)
                over = self.browser.execute_script("return document.documentElement.scrollWidth - innerWidth")
                self.assertLessEqual(over, 0, f"{view} at {width}")
                self.assertGreater(self.find(".surface").size["height"], 200)


class Failures(PageTest):
    """Pages that are broken on purpose: each shows one sentence, and no answer."""

    def broken(self, change):
        """Opens the page with one change; the policy is taken out where it would refuse it."""
        text = re.sub(r'<meta http-equiv="Content-Security-Policy"[^>]*>', "", PAGE.read_text())
        changed = change(text)
        self.assertNotEqual(changed, text, "the page does not have what is to be changed")
        path = self.downloads / "broken.html"
        path.write_text(changed)
        self.browser.get("about:blank")
        self.browser.get(f"{path.as_uri()}#view=check")
        self.wait(lambda: self.find_all("#notice:not([hidden])") or self.find_all("#words[aria-busy=false]"))

    def tearDown(self):
        console(self.browser)
        requests(self.browser)

    def test_module_that_cannot_be_compiled(self):
        damaged = base64.b64encode(b"\0asm\1\0\0\0\x0f").decode()
        self.broken(lambda text: re.sub(r'(id="module">)[^<]+', rf"\1{damaged}", text))
        notice = "The page does not start: this browser cannot run its WebAssembly module, which uses SIMD"
        self.assertTrue(self.text("#notice").startswith(notice))
        self.assertFalse(self.find("main").is_displayed())

    def test_script_that_does_not_run(self):
        self.broken(lambda text: text.replace('<script type="module">', '<script type="module">) '))
        self.assertTrue(self.text("#notice").startswith("The program inside this page has not started."))

    def test_call_that_throws(self):
        self.broken(lambda text: text.replace("calls.yoktvarim_measure(", "calls.unreachable("))
        self.assertTrue(self.text("#notice").startswith("The page does not start: "))
        self.assertFalse(self.find("main").is_displayed())

    def test_call_that_throws_later(self):
        once = "if (patch.outer[0] === 9) throw new Error('unreachable'); const [counts, clamps]"
        self.broken(lambda text: text.replace("const [counts, clamps]", once))
        self.fill("outer u = 0", "9")
        self.assertEqual(self.text("#notice"), "The program inside the page stopped: unreachable. Load the page again.")
        self.assertFalse(self.find("main").is_displayed())

    def test_worker_that_throws(self):
        self.broken(lambda text: text.replace("(await loading)[call](...given)", "(await loading).unreachable()", 1))
        self.assertEqual(self.said("#verdict"), "failed")
        self.assertTrue(self.text("#fault").startswith("The check ended without an answer: "))

    def test_worker_that_does_not_start(self):
        self.broken(lambda text: text.replace('id="worker">', 'id="worker">) '))
        self.assertEqual(self.said("#verdict"), "failed")

    def test_worker_that_is_slow(self):
        """The new mesh is shown without an answer until its own answer is there."""
        slow = "await new Promise((done) => setTimeout(done, 4000)); postMessage({ answer: (await"
        self.broken(lambda text: text.replace("postMessage({ answer: (await", slow))
        self.assertEqual(self.said("#verdict"), "accepted")
        before = self.find(".surface").get_attribute("aria-label")
        self.type("outer u = 0", "9")
        self.wait(lambda: self.said("#verdict") == "checking …", 3.9)
        self.assertNotEqual(self.find(".surface").get_attribute("aria-label"), before)
        self.button("Flip a triangle").send_keys(Keys.ENTER)
        self.wait(lambda: self.said("#verdict") != "checking …")
        self.assertEqual(self.said("#verdict"), "turned")

    def test_no_workers(self):
        self.broken(lambda text: text.replace("new Worker(", "new NoWorker("))
        self.assertEqual(self.said("#verdict"), "failed")
        self.assertEqual(self.text("#fault"), "The check ended without an answer: NoWorker is not defined.")


if __name__ == "__main__":
    unittest.main()
