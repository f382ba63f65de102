"""Prints how long the page takes to redraw the largest patches: all levels at 64, as the page measures and shows it."""

import re

from browser import FRAMES, PAGE, open_browser

# Sixty frames, each with another level: the times that the page shows, and those from one frame to the next.
MEASURE = """
const done = arguments[0];
const slider = document.querySelector('[aria-label="outer u = 0, slider"], [aria-label="outer segments, slider"]');
const shown = [];
const frames = [];
let last = 0;
function step(now) {
    if (last) frames.push(now - last);
    if (last) shown.push(document.querySelector('#time').textContent);
    last = now;
    if (shown.length === 60) return done([shown, frames]);
    slider.value = shown.length % 2 ? 5.95 : 6;
    slider.dispatchEvent(new Event('input'));
    requestAnimationFrame(step);
}
requestAnimationFrame(step);
"""


def middle(times):
    return sorted(times)[len(times) // 2]


def main():
    browser, _ = open_browser()
    for kind in ("quads", "triangles", "isolines"):
        browser.get("about:blank")
        browser.get(f"{PAGE.as_uri()}#view=draw&kind={kind}&spacing=equal&outer=64,64,64,64&inner=64,64")
        browser.execute_async_script(FRAMES)
        shown, frames = browser.execute_async_script(MEASURE)
        times = [float(re.search(r"[\d.]+", each).group()) for each in shown]
        least, half, most = min(times), middle(times), max(times)
        print(f"page: {kind} at 64 redraw in {half:.1f} ms ({least:.1f} to {most:.1f} ms); a frame takes {middle(frames):.1f} ms")


if __name__ == "__main__":
    main()
