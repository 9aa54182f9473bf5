"""What the eye must tell apart, by computed colours in the light and in the dark; notes that are typed in a row; and on
a phone crosses and dots by a finger, and boards of 50 columns as a whole."""
import re

from selenium.webdriver.common.keys import Keys

from harness.checks import holds
from page_tests.chromium import UNDO, Browser
from page_tests.contrasts import told_apart
from page_tests.place import Place, none, solved, until

FILES = {"sl": "slither.txt", "nu": "nurikabe.txt", "u25": "real/sudoku25.txt", "s50": "real/slither50.txt"}
NAMES = ["Slitherlink", "Nurikabe", "Sudoku", "Slitherlink"]
CROSS, SPOT = ".cross", ".spot"
PAPER, CELL = (".board", "background-color"), (".frame", "fill")
# On each kind of board, by its number: what lies on what.
APART = {1: [(".line", "stroke", PAPER), (CROSS, "stroke", PAPER), (".dots", "stroke", PAPER),
             (".cursor", "stroke", PAPER)],
         2: [(".wall", "fill", CELL), (".grid", "stroke", CELL), (".clue", "fill", CELL), (SPOT, "fill", CELL),
             (".cursor", "stroke", CELL)],
         3: [(".grid", "stroke", PAPER), (".same rect", "stroke", PAPER), (".notes text", "fill", PAPER),
             (".number", "fill", (".same rect", "fill"))]}
LEAST = 3  # the contrast of what isn't text, by the guidelines for content that everybody can see
COLOUR = """const [css, property] = arguments, board = document.querySelector('.board');
return getComputedStyle(css === '.board' ? board : board.querySelector(css)).getPropertyValue(property)"""
VARIABLES = """const place = document.body.appendChild(document.createElement('span'));
const found = arguments[0].map((name) => {
  place.style.color = `var(--${name})`;
  return getComputedStyle(place).color;
});
place.remove();
return found"""
LOOK = "return getComputedStyle(document.querySelector('.board svg'))[arguments[0]]"


def trial(program, pictures):
    with Place(program) as place:
        for label, name in FILES.items():
            place.put_puzzle(label, solved(program, name)[0])
        place.put_begun_round("k", "By eye", list(FILES), bonus=0)
        with Browser(place, pictures) as browser:
            browser.enter("eve")
            lines(browser)
            walls(browser)
            notes(browser)
            contrasts(browser)
            views(browser)
            none("the page's code had no fault", browser.faults())
        with Browser(place, pictures, phone=True) as browser:
            browser.enter("fay")
            fingers(browser)
            tap_after_drag(browser)
            whole(browser)
            none("on a phone neither", browser.faults())


def lines(browser):
    browser.open("k", 1, NAMES[0])
    browser.click(0.5, 0)
    outline = browser.js(LOOK, "outlineStyle")
    holds("the browser draws no frame of its own round a board that was clicked", outline == "none", outline)
    browser.keys(Keys.ARROW_DOWN, Keys.ARROW_RIGHT, "d")


def walls(browser):
    browser.open("k", 2, NAMES[1])
    for _ in range(12):
        browser.keys("w", Keys.ARROW_RIGHT, "d", Keys.ARROW_DOWN)
    holds("walls and dots are drawn", browser.count(".wall") and browser.count(SPOT))


def notes(browser):
    """On a board with numbers above 9; beside them a number that stands twice, and is shaded."""
    browser.open("k", 3, NAMES[2])
    browser.keys(Keys.ARROW_RIGHT, Keys.ARROW_LEFT)
    to_free(browser)
    browser.keys(" ", "1", "2", "3", " ")
    told = browser.text(".board .unseen")
    holds("notes that are typed in a row stay apart", told.endswith("empty, notes 1 2 3"), told)
    browser.push(".check input")
    browser.keys(Keys.ARROW_RIGHT)
    to_free(browser)
    browser.keys("7")
    holds("equal numbers are shaded", browser.count(".same rect") > 1, browser.count(".same rect"))


def to_free(browser):
    """Moves on to a cell without a given."""
    for _ in range(25):
        if "given" not in browser.text(".board .unseen"):
            return
        browser.keys(Keys.ARROW_RIGHT)


def brightness(colour):
    """How bright `rgb(r, g, b)` is, from 0 to 1, as contrast is reckoned."""
    parts = [int(part) / 255 for part in re.findall(r"\d+", colour)[:3]]
    red, green, blue = (part / 12.92 if part <= 0.03928 else ((part + 0.055) / 1.055) ** 2.4 for part in parts)
    return 0.2126 * red + 0.7152 * green + 0.0722 * blue


def contrast(one, other):
    bright, dark = sorted((brightness(one) + 0.05, brightness(other) + 0.05), reverse=True)
    return bright / dark


def contrasts(browser):
    for look in ("dark", "light"):
        browser.media(prefers_color_scheme=look)
        for number, pairs in APART.items():
            browser.open("k", number, NAMES[number - 1])
            if number == 3:
                to_shaded(browser)
            for css, property_, under in pairs:
                found = contrast(browser.js(COLOUR, css, property_), browser.js(COLOUR, *under))
                holds(f"{look}, {css} on {under[0]}: {LEAST} : 1", found >= LEAST, round(found, 2))
            browser.picture(f"eye-{look}-{number}")
        lines_of_colour(browser, look)


def views(browser):
    """Texts, controls and boards of each view."""
    browser.open("k", 1, NAMES[0])
    browser.keys("t")
    told_apart(browser, "a puzzle with a try")
    browser.hand_in()
    until(lambda: browser.count("dialog[open]"))
    told_apart(browser, "a question")
    browser.choose(2)
    browser.shows("Wrong.", ".said")
    told_apart(browser, "a wrong answer")
    for address, css in (("#/", "a.card"), ("#/r/k", ".card svg.sheet"), ("#/r/k/answers", "figure svg"),
                         ("#/r/k/protests", ".tabs"), ("#/r/k/table", ".note"), ("#/about", "h2"),
                         ("#/rules", "figure svg")):
        browser.go(address)
        until(lambda: browser.count(css))
        told_apart(browser, address)
    browser.leave()
    told_apart(browser, "the door")


def lines_of_colour(browser, look):
    """The colours of chains, and of a try, on the board and on shaded cells; a finished island beside an open one."""
    names = ["board", "inside", "outside", "island", "cell", "wall", "try", *(f"c{i}" for i in range(8))]
    found = dict(zip(names, browser.js(VARIABLES, names)))
    for name in names[6:]:
        least = min(contrast(found[name], found[under]) for under in names[:3])
        holds(f"{look}, colour {name} on the board and its shades: {LEAST} : 1", least >= LEAST, round(least, 2))
    holds(f"{look}, walls beside finished islands: {LEAST} : 1", contrast(found["wall"], found["island"]) >= LEAST)
    beside = contrast(found["island"], found["cell"])
    holds(f"{look}, a finished island is told from an open one without colours", beside > 1.25, beside)


def to_shaded(browser):
    """Moves to the number that was written."""
    for _ in range(25):
        if browser.count(".same rect") > 1:
            return
        browser.keys(Keys.ARROW_RIGHT)


# --- a phone


def fingers(browser):
    """While the pencil is on, a finger draws crosses and dots, also by a drag; and no tap flashes over the board."""
    for number, name, css, path in ((1, "Crosses", CROSS, [(0, 0), (0.5, 0), (1, 0), (1.5, 0), (2, 0)]),
                                    (2, "Dots", SPOT, [(x + 0.5, y + 0.5) for y in (0, 1) for x in range(5)])):
        browser.open("k", number, NAMES[number - 1])
        browser.push(f"button[aria-label={name}]")
        browser.touch("Start", browser.spot(*path[0]))
        for point in path[1:]:
            browser.touch("Move", browser.spot(*point))
        browser.touch("End")
        holds(f"a finger's drag draws {name.lower()}", browser.count(css) >= 2, browser.count(css))
        browser.picture(f"finger-{name.lower()}")
    flash = browser.js(LOOK, "webkitTapHighlightColor")
    holds("no tap flashes", flash == "rgba(0, 0, 0, 0)", flash)


def tap_after_drag(browser):
    """A tap on a button right after a finger's fast drag is a click: here on Undo, which takes back each drag."""
    browser.open("k", 1, NAMES[0])
    before, left = browser.count(CROSS), []
    path = [browser.spot(0, y / 2) for y in range(8)]
    button = browser.js("""const { left, top, width, height } = document.querySelector(arguments[0])
.getBoundingClientRect();
return [left + width / 2, top + height / 2]""", UNDO)
    for _ in range(8):
        browser.touch("Start", path[0])
        for spot in path[1:]:
            browser.touch("Move", spot)
        browser.touch("End")
        browser.touch("Start", button)
        browser.touch("End")
        left.append(until(lambda: browser.count(".board .line") == 0 and browser.count(CROSS) == before, 2))
    holds("a tap right after a drag is a click", all(left), left)


def whole(browser):
    browser.open("k", 4, NAMES[3])
    browser.push("button[aria-label='The whole board']")
    sizes = "const e = document.querySelector('.board'); return [e.scrollWidth, e.clientWidth]"
    fits = until(lambda: len(set(browser.js(sizes))) == 1, 10)
    holds("a board of 50 columns is seen as a whole where it is asked for", fits, browser.js(sizes))
    browser.picture("phone-whole")
