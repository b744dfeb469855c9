#!/usr/bin/env python3
"""Takes the pictures of docs/PAGE.md anew: a refusal, a hyper and priors over three values, lines by what they leak, a fix, a refinement, and a lesson.

    web/tests/screenshots.py [FOLDER]

They are of dist/page, and go to docs/page-NAME.png or to another folder. Look at each before it is committed. It wants python3-pil, too."""

from __future__ import annotations

import io
import sys
import time
from pathlib import Path

from browser import Page, Server, chromium
from PIL import Image

TOP = Path(__file__).resolve().parent.parent.parent
FORECAST = """# Sun, rain or snow (0, 1, 2); a forecast is right in four cases of six.
var day : 0..2 := choose { 0 : 3, 1 : 2, 2 : 1 };
about old day;
observe choose { day : 4, (day + 1) mod 3 : 1, (day + 2) mod 3 : 1 };
"""
TRIES = """# Three tries at two letters of four. The comparison stops at the first wrong letter, and that one is changed.
var a : 0..3 := uniform 0..3;
var b : 0..3 := uniform 0..3;
var try_a : 0..3 := 0;
var try_b : 0..3 := 0;
var tries : 0..3 := 0;
var open : bool := false;
about old a, old b;
while tries < 3 and not open {
  if a = try_a {
    if b = try_b { open := true; } else { try_b := (try_b + 1) mod 4; }
  } else { try_a := (try_a + 1) mod 4; }
  tries := tries + 1;
}
observe open;
"""


def example(name: str) -> str:
    return (TOP / name).read_text()


def refusal(page: Page) -> None:
    page.open()
    page.write(example("examples/guard.kf").replace("h = 2", "h == 2"))


def hyper(page: Page) -> None:
    page.open()
    page.write(FORECAST)


def lines(page: Page) -> None:
    page.open()
    page.write(TRIES)
    page.view("lines")
    page.wait(lambda: page.driver.find_elements("css selector", ".blamed"), "the margin")


def priors(page: Page) -> None:
    page.open()
    page.write(FORECAST)
    page.view("priors")


def fix(page: Page) -> None:
    page.open()
    page.write(example("examples/password/early.kf"))
    page.view("lines")
    page.press("Look for a fix")
    page.wait(lambda: "B is A with" in page.answer(), "a fix")
    page.settle()
    page.script("window.scrollTo(0, 0)")


def refinement(page: Page) -> None:
    page.open()
    page.write(example("examples/pin.kf"))
    page.click("#compare")
    page.write(example("examples/pin_whole.kf"), "b")


def lesson(page: Page) -> None:
    page.open("#lesson/5")
    page.press("Open course/lock.kf", "#reader-text")
    page.wait(lambda: page.text() == example("course/lock.kf"), "the program of the lesson")
    page.view("leak")
    page.script("document.querySelector('.exercise').scrollIntoView()")
    page.press("Check my numbers", ".exercise")
    page.wait(lambda: page.driver.find_elements("css selector", ".exercise input"), "fields")
    for field, number in zip(page.driver.find_elements("css selector", ".exercise input"), ("7/2", "13/6", "13/21", "-4/3")):
        field.send_keys(number)
    page.press("Check", ".exercise")
    page.wait(lambda: "Right" in page.find(".exercise").text, "numbers that are right")
    page.script("window.scrollTo(0, 0)")


def main() -> None:
    folder = Path(sys.argv[1]) if len(sys.argv) > 1 else TOP / "docs"
    server, driver = Server(TOP / "dist" / "page"), chromium(1240, 900)
    page = Page(driver, server.address)
    for take, height in ((refusal, 420), (hyper, 760), (priors, 860), (lines, 760), (fix, 900), (refinement, 900), (lesson, 900)):
        driver.execute_cdp_cmd("Emulation.setDeviceMetricsOverride", {"width": 1240, "height": height, "deviceScaleFactor": 1, "mobile": False})
        take(page)
        time.sleep(1)
        with Image.open(io.BytesIO(driver.get_screenshot_as_png())) as taken:
            # Few colours, so that a picture is small.
            taken.convert("RGB").quantize(256).save(folder / f"page-{take.__name__}.png", optimize=True)
    driver.quit()
    server.close()


main()
