"""Takes a picture of each view, and ends with status 1 where a view is blank or the console has a warning.

    pictures.py FOLDER    writes page-VIEW.png into the folder
"""

import base64
import struct
import sys
import zlib
from pathlib import Path

from selenium.webdriver.common.action_chains import ActionChains
from selenium.webdriver.common.keys import Keys

from browser import FRAMES, PAGE, console, open_browser

WIDTH, HEIGHT = 1180, 720
QUADS = "kind=quads&spacing=fractional_odd&outer=3,5,2.5,7&inner=4,5"
TRIANGLES = "kind=triangles&spacing=fractional_even&outer=3,5,6.5,1&inner=5.2,1"
# Each view with its link, and what a person does there.
VIEWS = {
    "draw": (QUADS, lambda browser: slide(browser) or hover(browser, 30, 40)),
    "seam": ("", None),
    "check": (f"{TRIANGLES}&check.mesh=damaged&check.damage=leave-out&check.triangle=45", None),
    "compare": (QUADS, lambda browser: fill(browser, "outer v = 1", "3")),
    "replay": (TRIANGLES, lambda browser: press(browser, "Record it with a point too many")),
    "take": (QUADS, None),
}
# The shares of the picture's, the words' and the controls' pixels that differ from the most frequent colour there, and all pixels.
INK = """
const [png, boxes, done] = arguments;
const image = new Image();
image.onload = () => {
    const canvas = document.createElement('canvas');
    [canvas.width, canvas.height] = [image.width, image.height];
    const context = canvas.getContext('2d', { willReadFrequently: true });
    context.drawImage(image, 0, 0);
    const inks = boxes.map(({ x, y, width, height }) => {
        const pixels = new Uint32Array(context.getImageData(x, y, width, height).data.buffer);
        const counts = new Map();
        for (const pixel of pixels) counts.set(pixel, (counts.get(pixel) ?? 0) + 1);
        return 1 - Math.max(...counts.values()) / pixels.length;
    });
    const { data } = context.getImageData(0, 0, image.width, image.height);
    const reader = new FileReader();
    reader.onload = () => done([inks, reader.result.split(',')[1]]);
    reader.readAsDataURL(new Blob([data]));
};
image.src = `data:image/png;base64,${png}`;
"""
LEAST = {".surface": 0.03, "#words": 0.005, "#controls": 0.005}


def hover(browser, right, down):
    surface = browser.find_element("css selector", ".surface")
    ActionChains(browser).move_to_element_with_offset(surface, right, down).perform()


def slide(browser):
    """Moves a level to and fro, so that the page has something to report on connections and time."""
    slider = browser.find_element("css selector", '[aria-label="outer u = 1, slider"]')
    for key in (Keys.ARROW_RIGHT, Keys.ARROW_LEFT) * 4:
        slider.send_keys(key)
        browser.execute_async_script(FRAMES)
    browser.execute_script("document.activeElement.blur()")


def fill(browser, label, text):
    field = browser.find_element("css selector", f'[aria-label="{label}"]')
    field.click()
    field.send_keys(text)
    # The focus ring is not what the picture is about.
    browser.execute_script("document.activeElement.blur()")


def press(browser, title):
    next(each for each in browser.find_elements("css selector", "button") if each.text == title).click()


def shoot(browser, view):
    """The picture of a view, and where its parts are."""
    link, act = VIEWS[view]
    browser.get("about:blank")
    browser.get(f"{PAGE.as_uri()}#view={view}&{link}")
    browser.execute_async_script(FRAMES)
    if act:
        act(browser)
    for _ in range(3):
        browser.execute_async_script(FRAMES)
    boxes = [browser.find_element("css selector", selector).rect for selector in LEAST]
    inside = [{**box, "height": min(box["height"], HEIGHT - box["y"])} for box in boxes]
    return browser.get_screenshot_as_base64(), inside


def chunk(name, content):
    return struct.pack(">I", len(content)) + name + content + struct.pack(">I", zlib.crc32(name + content))


def png_of(pixels):
    """A picture of few colours in few bytes: rows without a filter compress better than the browser's."""
    rows = [pixels[at : at + 4 * WIDTH] for at in range(0, len(pixels), 4 * WIDTH)]
    colours = b"".join(b"\0" + b"".join((row[at : at + 3] for at in range(0, len(row), 4))) for row in rows)
    header = struct.pack(">IIBBBBB", WIDTH, len(rows), 8, 2, 0, 0, 0)
    return b"\x89PNG\r\n\x1a\n" + chunk(b"IHDR", header) + chunk(b"IDAT", zlib.compress(colours, 9)) + chunk(b"IEND", b"")


def main(folder):
    browser, _ = open_browser()
    metrics = {"width": WIDTH, "height": HEIGHT, "deviceScaleFactor": 1, "mobile": False}
    browser.execute_cdp_cmd("Emulation.setDeviceMetricsOverride", metrics)
    faults = []
    for view in VIEWS:
        png, boxes = shoot(browser, view)
        faults += [f"{view}: {message}" for message in console(browser)]
        browser.get("about:blank")
        inks, pixels = browser.execute_async_script(INK, png, boxes)
        faults += [f"{view}: {part} has only {ink:.2%} ink" for (part, least), ink in zip(LEAST.items(), inks) if ink < least]
        (folder / f"page-{view}.png").write_bytes(png_of(base64.b64decode(pixels)))
    if faults:
        sys.exit("\n".join(faults))


if __name__ == "__main__":
    main(Path(sys.argv[1]))
