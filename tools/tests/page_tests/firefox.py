"""The same pages in Firefox: a round by clicks, drags and keys, a reload, and what is kept; and a new round by staff.
`play` is for any engine."""
import os
import time

import pytest
from harness.checks import holds
from page_tests import drawn
from page_tests.chromium import NEXT, SPOT, UNDO
from page_tests.marionette import FIREFOX, Firefox
from page_tests.place import Place, none, solved, until
from page_tests.staff_hands import FILL, PRESS

LINES, WALLS = ".board .line", ".board .wall"
TAPS = 20
# How often a finger went down, and a button heard a click of it.
CLICKS = """window.heard = {};
for (const name of ['pointerdown', 'click']) document.addEventListener(name, (event) => {
  if (event.pointerType === 'touch') window.heard[name] = (window.heard[name] ?? 0) + 1;
}, true);"""
MIDDLE = """const { left, top, width, height } = document.querySelector(arguments[0]).getBoundingClientRect();
return [left + width / 2, top + height / 2]"""
SHIFT, RIGHT, DOWN, LEFT, ENTER = "\ue008", "\ue014", "\ue015", "\ue012", "\ue007"
# What the page tells of its own faults.
HEAR = """window.faults = [];
addEventListener('error', (event) => window.faults.push(event.message));
addEventListener('unhandledrejection', (event) => window.faults.push(String(event.reason)));"""


def trial(program, pictures):
    if not os.path.exists(FIREFOX):
        pytest.skip("not installed: firefox-esr")
    with Place(program) as place, Firefox(pictures) as browser:
        play(program, place, browser)
        fingers(place, browser)


def fingers(place, browser):
    """Of Firefox's own touch: a tap on a button right after a finger's fast drag is a click, each time."""
    browser.js("sessionStorage.clear()")
    browser.load(place.url)
    browser.js(HEAR)
    until(lambda: browser.js("return document.activeElement.id") == "key")
    browser.keys(*"fay-key-1", ENTER)
    until(lambda: browser.count("body.in"))
    open_puzzle(browser, 1, "Slitherlink")
    browser.js(CLICKS)
    path, button = spots(browser, [(0, y / 2) for y in range(8)]), browser.js(MIDDLE, UNDO)
    for _ in range(TAPS):
        browser.drags([path, [button]], "touch")
    all_heard = until(lambda: browser.js("return window.heard") == {"pointerdown": 2 * TAPS, "click": TAPS})
    holds(f"{browser.name}: each of {TAPS} taps right after a drag is a click", all_heard,
          browser.js("return window.heard"))
    holds(f"{browser.name}: and takes the drag back", until(lambda: browser.count(LINES) == 0), browser.count(LINES))
    none(f"{browser.name}: nor by touch", browser.js("return window.faults"))


def play(program, place, browser):
    """A round from the door to the last verdict."""
    want = lambda name, *found: holds(f"{browser.name}: {name}", *found)
    puzzles = {label: solved(program, name) for label, name in
               {"sl": "slither.txt", "nu": "nurikabe.txt", "su": "real/sudoku9.txt"}.items()}
    for label, (text, _) in puzzles.items():
        place.put_puzzle(label, text)
    place.put_round("f", browser.name, time.time() + 12, list(puzzles))
    browser.load(place.url)
    browser.js(HEAR)
    until(lambda: browser.js("return document.activeElement.id") == "key")
    browser.keys(*"eve-key-1", ENTER)
    want("the rounds are listed", browser.shows(browser.name))
    browser.js("location.hash = '#/r/f'")
    want("the puzzles come by themselves", browser.shows("Slitherlink"))
    browser.picture(f"{browser.name.lower()}-round")
    slitherlink(place, browser, want, puzzles["sl"])
    nurikabe(browser, want, puzzles["nu"])
    sudoku(browser, want, puzzles["su"])
    none(f"{browser.name}: the page's code had no fault", browser.js("return window.faults"))
    staff(place, browser, want)
    none(f"{browser.name}: nor had that of staff's", browser.js("return window.faults"))


def staff(place, browser, want):
    """A director builds a round, and an author sees what is pasted."""
    browser.js("sessionStorage.clear()")
    browser.load(f"{place.url}staff.html#/director/NEW")
    browser.js(HEAR)
    until(lambda: browser.js("return document.activeElement.id") == "key")
    browser.keys(*"dora-key-1", ENTER)
    until(lambda: browser.js("return document.querySelectorAll('.card.pick').length") == 3)
    browser.js("document.querySelector('.card.pick').scrollIntoView()")
    pictures = until(lambda: browser.js("return document.querySelectorAll('.card.pick svg.sheet').length") == 3)
    want("a director sees the puzzles to choose from", pictures)
    for label, value in (("Id", "late"), ("Title", "Late"), ("Start", "2027-07-01T11:00")):
        browser.js(FILL, label, value)
    browser.js("document.querySelector('.card.pick').click()")
    browser.js(PRESS, "Put the draft")
    want("and puts a round", browser.shows("The hall keeps this draft"))
    browser.picture(f"{browser.name.lower()}-draft")
    browser.js("location.hash = '#/author'")
    until(lambda: browser.js("return document.querySelector('textarea')"))
    browser.js(FILL, "An address of puzz.link, a puzzle's text, or the signs of a Sudoku", "slither/2/2/2222")
    seen = until(lambda: browser.js("return document.querySelectorAll('.preview svg.sheet').length") == 1)
    want("what an author pastes is drawn", seen)


def open_puzzle(browser, number, name):
    browser.js("location.hash = arguments[0]", f"#/r/f/{number}")
    ready(browser, f"{number}. {name}")


def ready(browser, title):
    is_open = until(lambda: title in browser.text(".bar")
                    and browser.js("return document.activeElement.tagName") == "svg")
    holds(f"{browser.name}: {title} is open, and the board has the keys", is_open, browser.text(".bar"))


def spots(browser, points):
    return browser.js(f"return arguments[0].map((point) => (function () {{ {SPOT} }}).apply(null, point))", points)


def hand_in(browser):
    until(lambda: browser.js("return !document.querySelector('button.hand').disabled"))
    browser.js("document.querySelector(arguments[0]).click()", NEXT)


def slitherlink(place, browser, want, puzzle):
    """By clicks, a line by its key, and the last one after a question."""
    open_puzzle(browser, 1, "Slitherlink")
    lines = drawn.sides(*puzzle)
    for side in lines[:-1]:
        browser.drag(spots(browser, [side]))
    want("clicks draw lines", browser.count(LINES) == len(lines) - 1, browser.count(LINES))
    hand_in(browser)
    want("an unfinished board asks first", browser.shows("loose end", "dialog"))
    browser.picture(f"{browser.name.lower()}-asks")
    browser.keys(ENTER)
    want("Enter goes back", until(lambda: not browser.count("dialog")) and not place.answers("f", "eve"))
    browser.drag(spots(browser, [lines[-1]]))
    browser.js("document.querySelector(arguments[0]).click()", UNDO)
    want("undo", browser.count(LINES) == len(lines) - 1)
    browser.drag(spots(browser, [lines[-1]]))
    hand_in(browser)
    want("Slitherlink is right", browser.shows("Right.", ".said"), browser.text(".said"))
    browser.picture(f"{browser.name.lower()}-slitherlink")
    browser.keys(RIGHT)
    browser.chord(SHIFT, RIGHT)
    want("keys draw", browser.count(LINES) in (len(lines) - 1, len(lines) + 1), browser.count(LINES))


def nurikabe(browser, want, puzzle):
    open_puzzle(browser, 2, "Nurikabe")
    for run in drawn.runs(drawn.walls(*puzzle)):
        browser.drag(spots(browser, run))
    before = browser.count(WALLS)
    browser.reload()
    browser.js(HEAR)
    ready(browser, "2. Nurikabe")
    want("drags draw walls, and a reload keeps them", browser.count(WALLS) == before == puzzle[1].count("#"),
         before)
    hand_in(browser)
    want("Nurikabe is right", browser.shows("Right.", ".said"), browser.text(".said"))
    browser.picture(f"{browser.name.lower()}-nurikabe")


def sudoku(browser, want, puzzle):
    open_puzzle(browser, 3, "Sudoku")
    for row in range(9):
        for number in puzzle[1][9 * row:9 * row + 9]:
            browser.keys(number, RIGHT)
        browser.keys(DOWN, *[LEFT] * 8)
    hand_in(browser)
    want("Sudoku by keys is right", browser.shows("Right.", ".said"), browser.text(".said"))
    browser.picture(f"{browser.name.lower()}-sudoku")
