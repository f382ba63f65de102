"""A headless chromium with the page in it, worked as a person would: by keys, pointer and fingers.

The page is the file that the variable PAGE names; TSJ names the program that its answers are compared with.
"""

import atexit
import json
import os
import shutil
import subprocess
import tempfile
import time
import unittest
from pathlib import Path

from selenium import webdriver
from selenium.webdriver.chrome.options import Options
from selenium.webdriver.chrome.service import Service
from selenium.webdriver.common.keys import Keys

ROOT = Path(__file__).resolve().parents[2]
PAGE = Path(os.environ.get("PAGE", "page.html")).resolve()
TSJ = os.environ.get("TSJ", ROOT / "target/bin/tsj")
WORDS = ("--headless=new", "--no-sandbox", "--disable-gpu", "--hide-scrollbars", "--disable-background-networking", "--disable-lcd-text")
ALL = Keys.CONTROL + "a" + Keys.NULL  # chooses all of a field's text
FRAMES = "const done = arguments[0]; requestAnimationFrame(() => requestAnimationFrame(() => setTimeout(done)));"


def program(name):
    found = shutil.which(name)
    if not found:
        raise SystemExit(f"{name} is missing")
    return found


def open_browser(width=1280, height=800):
    """A browser, and the folder that it saves files to."""
    downloads = tempfile.TemporaryDirectory()
    options = Options()
    options.binary_location = program("chromium")
    for word in (*WORDS, f"--window-size={width},{height}"):
        options.add_argument(word)
    options.set_capability("goog:loggingPrefs", {"browser": "ALL", "performance": "ALL"})
    browser = webdriver.Chrome(options=options, service=Service(program("chromedriver")))
    browser.execute_cdp_cmd("Page.setDownloadBehavior", {"behavior": "allow", "downloadPath": downloads.name})
    atexit.register(downloads.cleanup)
    atexit.register(browser.quit)
    return browser, Path(downloads.name)


def console(browser):
    """Warnings and errors on the console."""
    return [entry["message"] for entry in browser.get_log("browser") if entry["level"] in ("SEVERE", "WARNING")]


def requests(browser):
    """The addresses that were asked for since the last call, without those inside the page."""
    found = []
    for entry in browser.get_log("performance"):
        message = json.loads(entry["message"])["message"]
        if message["method"] == "Network.requestWillBeSent":
            found.append(message["params"]["request"]["url"].split("#")[0])
    return [each for each in found if each != PAGE.as_uri() and not each.startswith(("data:", "blob:", "about:"))]


def native(job):
    """What tsj writes for a job."""
    return subprocess.run([TSJ], input=job, stdout=subprocess.PIPE, check=True).stdout.decode()


class PageTest(unittest.TestCase):
    """A test that starts with the page newly opened from disk. It fails where the console or the network has anything."""

    opened = None

    @classmethod
    def setUpClass(cls):
        PageTest.opened = PageTest.opened or open_browser()
        cls.browser, cls.downloads = PageTest.opened

    def setUp(self):
        self.open("")

    def tearDown(self):
        self.assertEqual(console(self.browser), [])
        self.assertEqual(requests(self.browser), [])

    # What a person does.

    def open(self, link):
        self.browser.get("about:blank")
        self.browser.get(f"{PAGE.as_uri()}#{link}")
        self.wait(lambda: self.find_all("[role=tab][aria-selected=true]"))
        self.settle()

    def view(self, name):
        tab = self.find(f"#tab-{name}")
        tab.send_keys(Keys.ENTER)
        self.settle()
        self.assertEqual(tab.get_attribute("aria-selected"), "true")

    def click(self, title, name):
        """Chooses a name in the group with this title, and goes on at once."""
        self.browser.find_element("xpath", f'//fieldset[legend="{title}"]//label[text()="{name}"]').click()

    def choose(self, title, name):
        self.click(title, name)
        self.settle()

    def type(self, label, text):
        """Types a text over what a field has, and goes on at once."""
        self.find(f'[aria-label="{label}"]').send_keys(ALL, text)

    def fill(self, label, text):
        self.type(label, text)
        self.settle()

    def set_top(self, top):
        self.find(".top input").send_keys(ALL, str(top))
        self.settle()

    def press(self, title):
        self.button(title).send_keys(Keys.ENTER)
        self.settle()

    def saved(self, title, name):
        """The bytes of the file that a button saves."""
        path = self.downloads / name
        path.unlink(missing_ok=True)
        self.button(title).send_keys(Keys.ENTER)
        # The browser first makes an empty file, and puts the whole one in its place.
        self.wait(lambda: path.exists() and path.stat().st_size > 0)
        return path.read_bytes()

    def give(self, text):
        """Puts a text into the box, as a paste does, and reads it."""
        self.browser.execute_script("arguments[0].value = arguments[1]", self.find("#words .paste textarea"), text)
        self.press("Read it")

    def give_file(self, label, name, content):
        """Chooses a file with these bytes."""
        path = self.downloads / name
        path.write_bytes(content)
        self.find(f'[aria-label="{label}"]').send_keys(str(path))
        self.settle()

    # What a person sees.

    def find(self, selector):
        return self.browser.find_element("css selector", selector)

    def find_all(self, selector):
        return self.browser.find_elements("css selector", selector)

    def button(self, title):
        return next(each for each in self.find_all("button") if each.text == title)

    def text(self, selector):
        return self.find(selector).text

    def said(self, selector):
        """An answer as the library names it, without the capital that the page shows."""
        return self.find(selector).get_attribute("textContent")

    def value(self, label):
        return self.find(f'[aria-label="{label}"]').get_attribute("value")

    def rows(self, table):
        return [row.text.split() for row in self.find_all(f"{table} tbody tr")]

    def wait(self, holds, seconds=10):
        end = time.time() + seconds
        while not holds():
            self.assertLess(time.time(), end, "nothing came of it")
            time.sleep(0.01)

    def settle(self):
        """Lets the page draw what was asked for, and answer."""
        self.browser.execute_async_script(FRAMES)
        self.wait(lambda: not self.find_all("#words[aria-busy=true]"))
