#!/usr/bin/env python3
"""Looks at docs/crash.html in a browser, and clicks, at a wide and a narrow window, in light and dark.

usage: /usr/bin/python3 tests/picture/browser.py [--shots FOLDER]     with --shots it leaves a picture of each window in FOLDER

It needs Debian's chromium, chromium-driver and python3-selenium, and is run by hand, outside the gate. If all is well it prints one
line, else the first difference.
"""
import argparse
import base64
import pathlib

from selenium import webdriver
from selenium.webdriver.common.by import By
from selenium.webdriver.common.keys import Keys
from selenium.webdriver.chrome.options import Options
from selenium.webdriver.chrome.service import Service
from selenium.webdriver.support.ui import WebDriverWait

PAGE = pathlib.Path(__file__).resolve().parent.parent.parent / "docs/crash.html"
WINDOWS = {"wide": (1280, 860), "middle": (820, 1100), "narrow": (360, 740)}
OLD, NEW = "Tue 6:00 cloudy 14 C north", "Wed 6:00 sunny 21 C south"

# How many words may be old or new after each operation: the update stores eight words of a version that differ from those of the
# slot before, with its begin stored twice and the end of the older version, then two words of a record, and then its number.
CHOICES = [0, 1, 1, 0, 1, 1, 2, 3, 4, 5, 6, 7, 8, 8, 8, 0, 1, *[2] * 34, 0, 1, 1, 0]


def started(size, is_dark):
    """Returns a browser with the page, in a window of this size."""
    options = Options()
    for word in ("--headless=new", "--no-sandbox", "--disable-gpu", "--hide-scrollbars"):
        options.add_argument(word)
    options.set_capability("goog:loggingPrefs", {"browser": "ALL"})
    browser = webdriver.Chrome(options=options, service=Service("/usr/bin/chromedriver"))
    width, height = size
    browser.execute_cdp_cmd("Emulation.setDeviceMetricsOverride", {"width": width, "height": height, "deviceScaleFactor": 1, "mobile": False})
    scheme = {"name": "prefers-color-scheme", "value": "dark" if is_dark else "light"}
    browser.execute_cdp_cmd("Emulation.setEmulatedMedia", {"features": [scheme]})
    browser.get(PAGE.as_uri())
    return browser


def same(found, expected, said):
    if found != expected:
        raise SystemExit(f"{said}: {found!r}, and not {expected!r}")


def text(browser, name):
    return browser.find_element(By.ID, name).text


def finds(browser, row, said):
    """Stops unless the page says that this row is found."""
    same(text(browser, "verdict"), f"the {'old' if row == OLD else 'new'} row, whole", said)
    same(" ".join(text(browser, "row").split()), row, said)


def words(browser):
    """Returns the words that may be old or new."""
    return browser.find_elements(By.CSS_SELECTOR, "button.word")


def click(browser, element):
    # A click at the middle of the element, as a reader clicks: anything that covers it would get the click.
    browser.execute_script("arguments[0].scrollIntoView({block: 'center'})", element)
    element.click()


def press(browser, name):
    click(browser, browser.find_element(By.ID, name))


def named(browser, label):
    return next(it for it in browser.find_elements(By.CSS_SELECTOR, "#tries button") if it.text == label)


def word(browser, number):
    return browser.find_element(By.CSS_SELECTOR, f'button.word[data-word="{number}"]')


def check_first_look(browser, said):
    """The page opens with a row that is torn and not found."""
    finds(browser, OLD, said)
    same("torn" in text(browser, "device"), True, f"{said}: the row is shown torn")
    same(browser.execute_script("return performance.getEntriesByType('resource').length"), 0, f"{said}: nothing comes from outside")
    wide = browser.execute_script("return document.documentElement.scrollWidth - innerWidth")
    same(wide <= 0, True, f"{said}: nothing is wider than the window")


def check_each_instant(browser, said):
    """By the keyboard to each instant: how many words there are to choose, and what is found with all old and all new."""
    slider = browser.find_element(By.ID, "instant")
    slider.send_keys(Keys.HOME)
    for at, many in enumerate(CHOICES):
        where = f"{said}, after {at} operations"
        same(int(slider.get_attribute("value")), at, where)
        same(len(words(browser)), many, where)
        if many:
            press(browser, "all-old")
        finds(browser, NEW if at == 54 else OLD, f"{where}, all old")
        if many:
            press(browser, "all-new")
        finds(browser, NEW if at >= 52 else OLD, f"{where}, all new")
        same("had been acknowledged" in browser.find_element(By.ID, "ack").get_attribute("textContent"), at == 54, where)
        slider.send_keys(Keys.ARROW_RIGHT)
    same(int(slider.get_attribute("value")), 54, said)


def check_words(browser, said):
    """A click chooses one word, and a second one takes it back: in a torn row, a torn record, and the number that decides."""
    for label, found in (("Tear the row", OLD), ("Tear the record", OLD), ("The word that decides", NEW)):
        click(browser, named(browser, label))
        press(browser, "all-old")
        for number in [it.get_attribute("data-word") for it in words(browser)]:
            click(browser, word(browser, number))
            same(word(browser, number).get_attribute("aria-pressed"), "true", f"{said}, word {number}")
            finds(browser, found, f"{said}, {label}, word {number} alone")
            word(browser, number).send_keys(Keys.SPACE)
            same(word(browser, number).get_attribute("aria-pressed"), "false", f"{said}, word {number} by the keyboard")
            same(browser.switch_to.active_element.get_attribute("data-word"), number, f"{said}: the word keeps the focus")
            finds(browser, OLD, f"{said}, {label}, none")
    for _ in range(20):
        click(browser, named(browser, "Tear the row"))
        press(browser, "random")
        finds(browser, OLD, f"{said}, at random")


def check_every_choice(browser, said):
    """Every choice of every instant: the new row is found if the number of its record was kept, and else the old one."""
    draws = """
        const said = [];
        for (let choice = 0; choice < 2 ** instant().either.length; choice++) {
          go(at, instant().either.filter((_, bit) => choice >> bit & 1).map((it) => it[0]));
          said.push(document.getElementById("verdict").textContent);
        }
        return said;"""
    for at, many in enumerate(CHOICES):
        browser.execute_script(f"go({at}, [])")
        news = {52: [False, True], 53: [False, True], 54: [True]}.get(at, [False] * 2 ** many)
        expected = [f"the {'new' if it else 'old'} row, whole" for it in news]
        same(browser.execute_script(draws), expected, f"{said}, every choice after {at} operations")


def check_links(browser, said):
    """The address has the instant and the choice, and a page that is opened with it shows them."""
    click(browser, named(browser, "The same word, kept"))
    WebDriverWait(browser, 5).until(lambda it: it.current_url.endswith("#53.1"))
    there = browser.current_url
    click(browser, named(browser, "Tear the row"))
    WebDriverWait(browser, 5).until(lambda it: it.current_url != there)
    browser.get(there)
    finds(browser, NEW, f"{said}, by its address")
    same("gate 7 p 3 d 12" in browser.find_element(By.ID, "texts").get_attribute("textContent"), True, f"{said}: what the program printed")


def check_colours(browser, is_dark, said):
    """The background is dark where the reader asks for it."""
    found = browser.execute_script("return getComputedStyle(document.body).backgroundColor")
    light = sum(int(it) for it in found.strip("rgb() ").split(",")) / 3
    same(light < 100, is_dark, f"{said}: {found}")


def shoot(browser, path):
    """Leaves a picture of the whole page."""
    width, height = browser.execute_script("return [innerWidth, document.documentElement.scrollHeight]")
    clip = {"x": 0, "y": 0, "width": width, "height": height, "scale": 1}
    shot = browser.execute_cdp_cmd("Page.captureScreenshot", {"captureBeyondViewport": True, "clip": clip})
    path.write_bytes(base64.b64decode(shot["data"]))


def look(name, is_dark, shots):
    said = f"{name}{', dark' if is_dark else ''}"
    browser = started(WINDOWS[name], is_dark)
    try:
        check_first_look(browser, said)
        if shots:
            shoot(browser, shots / f"{name}{'-dark' if is_dark else ''}.png")
        check_colours(browser, is_dark, said)
        check_each_instant(browser, said)
        check_words(browser, said)
        check_every_choice(browser, said)
        check_links(browser, said)
        same([it["message"] for it in browser.get_log("browser")], [], f"{said}: the browser's complaints")
    finally:
        browser.quit()


def main():
    parser = argparse.ArgumentParser(description=__doc__, formatter_class=argparse.RawDescriptionHelpFormatter)
    parser.add_argument("--shots", metavar="FOLDER", type=pathlib.Path)
    shots = parser.parse_args().shots
    looks = [(name, is_dark) for name in WINDOWS for is_dark in (False, True)]
    for name, is_dark in looks:
        look(name, is_dark, shots)
    print(f"{len(looks)} windows: each instant, each word of three of them by a click and by a key, and every choice: all as it should be")


if __name__ == "__main__":
    main()
