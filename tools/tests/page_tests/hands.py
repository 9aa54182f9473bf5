"""Keys alone, fingers, large boards, what a screen reader is told, paper, dark and high contrast."""
import re
import statistics
import time

from selenium.webdriver.common.keys import Keys

from harness.checks import holds, tell
from page_tests import drawn
from page_tests.chromium import NEXT, UNDO, Browser
from page_tests.place import Place, none, solved, until

FILES = {"sl": "slither.txt", "nu": "nurikabe.txt", "s31": "real/slither31.txt", "n50": "real/nurikabe50.txt",
         "u25": "real/sudoku25.txt", "s50": "real/slither50.txt"}
NAMES = ["Slitherlink", "Nurikabe", "Slitherlink", "Nurikabe", "Sudoku", "Slitherlink"]
LINES, WALLS = ".board .line", ".board .wall"
# Keeps solutions as drawings of a person, as if they had been drawn.
KEEP = """const [list, who, end] = arguments, done = arguments[arguments.length - 1];
Promise.all([import('/page/texts.js'), import('/page/store.js')]).then(([texts, store]) => {
  for (const [number, text, answer] of list) {
    const marks = texts.readAnswer(texts.readPuzzle(text), answer);
    new store.Drawing(store.personOf(who), 'k', number, text, end).keep({ marks, past: [], future: [] });
  }
  done(1);
});"""

# Measures from a pointer's event to the end of all that it made the page do.
TIMES = """window.took = [];
window.unheard = new AbortController();
let begun = 0;
const { signal } = window.unheard;
for (const name of ['pointerdown', 'pointerup']) {
  addEventListener(name, () => { begun = performance.now(); }, { capture: true, signal });
  addEventListener(name, () => {
    document.querySelector('.board').getBoundingClientRect();
    window.took.push(performance.now() - begun);
  }, { signal });
}"""


def trial(program, pictures):
    with Place(program) as place:
        solutions = {label: solved(program, name) for label, name in FILES.items()}
        puzzles = {label: (place.put_puzzle(label, text), answer) for label, (text, answer) in solutions.items()}
        place.put_begun_round("k", "By keys", list(puzzles), bonus=0)
        with Browser(place, pictures) as browser:
            browser.enter("eve")
            slitherlink_by_keys(place, browser, holds, puzzles["sl"])
            nurikabe_by_keys(browser, holds, puzzles["nu"])
            told(browser, holds)
            large(browser, holds, puzzles)
            quick(browser)
            paper(browser, holds)
            looks(browser)
            none("the page's code had no fault", browser.faults())
        with Browser(place, pictures, phone=True) as browser:
            browser.enter("fay")
            fingers(browser, holds, puzzles["nu"])
            one_finger(browser, holds, puzzles["sl"])
            phone(browser, holds)
            none("on a phone neither", browser.faults())


def slitherlink_by_keys(place, browser, want, puzzle):
    """Row by row over the dots, and then column by column: a step draws where there is a line, else it only moves."""
    browser.open("k", 1, "Slitherlink")
    cols, rows = drawn.size(puzzle[0])
    across, upright = puzzle[1].split("/")
    for y in range(rows + 1):
        for x in range(cols):
            step(browser, Keys.ARROW_RIGHT, across[y * cols + x] == "1")
        browser.keys(*[Keys.ARROW_LEFT] * cols, Keys.ARROW_DOWN)
    browser.keys(*[Keys.ARROW_UP] * (rows + 1))
    for x in range(cols + 1):
        for y in range(rows):
            step(browser, Keys.ARROW_DOWN, upright[y * (cols + 1) + x] == "1")
        browser.keys(*[Keys.ARROW_UP] * rows, Keys.ARROW_RIGHT)
    want("Slitherlink by keys alone", browser.count(LINES) == puzzle[1].count("1"), browser.count(LINES))
    browser.picture("keys-slitherlink")
    for _ in range(30):
        if browser.js("return document.activeElement.matches(arguments[0])", NEXT):
            break
        browser.keys(Keys.TAB)
    browser.keys(Keys.ENTER)
    want("handed in by Tab and Enter, it is right", browser.shows("Right.", ".said"))
    want("the hall has it", [answer["verdict"] for answer in place.answers("k", "eve")] == ["right"])


def step(browser, arrow, draws):
    browser.chord(Keys.SHIFT, arrow) if draws else browser.keys(arrow)


def nurikabe_by_keys(browser, want, puzzle):
    browser.open("k", 2, "Nurikabe")
    cols, rows = drawn.size(puzzle[0])
    for y in range(rows):
        for x in range(cols):
            wall = puzzle[1][y * cols + x] == "#"
            browser.keys(*(["w"] if wall else ["d"] if x % 2 else []), *([Keys.ARROW_RIGHT] if x < cols - 1 else []))
        browser.keys(Keys.ARROW_DOWN, *[Keys.ARROW_LEFT] * (cols - 1))
    browser.hand_in()
    want("Nurikabe by keys alone is right", browser.shows("Right.", ".said"))
    browser.picture("keys-nurikabe")


def told(browser, want):
    """What a screen reader is told: the board's name, each cell's and dot's, and what is drawn there."""
    said = lambda: browser.text(".board .unseen")
    browser.keys(*[Keys.ARROW_UP] * 10, *[Keys.ARROW_LEFT] * 10, Keys.ARROW_RIGHT, "w")
    cell = re.fullmatch(r"row 1, column 2: (wall|number \d+)", said())
    want("a cell of Nurikabe is told in words", cell, said())
    browser.open("k", 1, "Slitherlink")
    browser.keys(Keys.ARROW_DOWN, Keys.ARROW_RIGHT, "w")
    dot = re.fullmatch(r"dot row 2, column 2; (line [a-z ]+|no line)(; cross up)?; numbers [\w, ]+", said())
    want("a dot, its sides and the numbers round it are told in words", dot, said())
    browser.keys("w")
    tree = browser.tool("Accessibility.getFullAXTree", {})["nodes"]
    names = [(node["role"]["value"], node["name"]["value"]) for node in tree if node.get("name") and node.get("role")]
    want("the board has a name", any(role == "application" and name.startswith("Slitherlink, 7 by 7")
                                     for role, name in names), [name for name in names if name[0] == "application"])
    nameless = [role for role, name in names if role in ("button", "link", "checkbox") and not name.strip()]
    want("every button and link has a name", not nameless, nameless)


def large(browser, want, puzzles):
    """Large boards, with what is drawn taken over from the browser's store."""
    labels = list(puzzles)
    entries = [[i + 1, *puzzles[label]] for i, label in enumerate(labels) if i > 1]
    browser.driver.execute_async_script(KEEP, entries, "eve-key-1", int(time.time()) + 3600)
    for number, text, answer in entries:
        browser.open("k", number, NAMES[number - 1])
        kind = text.split("/")[0]
        drawings = {"slither": (LINES, answer.count("1")), "nurikabe": (WALLS, answer.count("#"))}.get(kind)
        if drawings:
            want(f"{text[:16]} is drawn", browser.count(drawings[0]) == drawings[1], browser.count(drawings[0]))
        wide = browser.js("return document.querySelector('.board svg').getBoundingClientRect().width")
        want(f"{text[:16]}: cells of 18 pixels or more", wide / (drawn.size(text)[0] + 0.7) >= 17.9, wide)
        browser.picture(f"large-{number}")


def quick(browser):
    """With all helps on: how long the page's own work for a click takes on the largest boards, layout and all."""
    for number in (4, 5, 6):
        browser.open("k", number, NAMES[number - 1])
        browser.js("for (const it of document.querySelectorAll('.check input')) if (!it.checked) it.click()")
        browser.js(TIMES)
        left, top, width, height = browser.js("""const { left, top, width, height } =
document.querySelector('.board').getBoundingClientRect();
return [left, top, width, height]""")
        for k in range(60):
            spot = left + width * (0.05 + k * 0.618 % 0.9), top + height * (0.05 + k * 0.414 % 0.9)
            browser.mouse("Pressed", spot)
            browser.mouse("Released", spot, buttons=0)
        took = browser.js("return window.took")
        middle = statistics.median(took)
        name = NAMES[number - 1]
        holds(f"{name}: clicks take less than 12 ms", len(took) == 120 and middle < 12, [len(took), middle])
        tell(f"page: a click on the largest {name} takes {middle:.1f} ms, at most {max(took):.1f}")
        browser.js("window.unheard.abort()")


def paper(browser, want):
    """A round on paper has one puzzle a page."""
    browser.go("#/r/k")
    browser.shows("Print the puzzles")
    browser.js("window.print = () => { window.asked = true; }")
    browser.chord(Keys.CONTROL, "p")
    until(lambda: browser.js("return window.asked"))
    printed = browser.paper("paper")
    pages = len(re.findall(rb"/Type\s*/Page\b", printed))
    want("a round's puzzles are printed one a page", pages == len(FILES), pages)


def looks(browser):
    browser.media(prefers_color_scheme="dark")
    for number, name in enumerate(NAMES[:5], 1):
        browser.open("k", number, name)
        browser.picture(f"dark-{number}")
    browser.go("#/r/k")
    browser.shows("Print the puzzles")
    browser.picture("dark-round")
    browser.paper("paper-dark")
    browser.media(prefers_contrast="more", prefers_color_scheme="light")
    browser.open("k", 4, "Nurikabe")
    browser.picture("contrast")
    browser.media()


# --- a phone


def fingers(browser, want, puzzle):
    browser.open("k", 2, "Nurikabe")
    width = lambda: browser.js("return document.querySelector('.board svg').getBoundingClientRect().width")
    for cell in drawn.walls(*puzzle)[:4]:
        browser.touch("Start", browser.spot(*cell))
        browser.touch("End")
    want("taps draw walls", browser.count(WALLS) == 4, browser.count(WALLS))
    before = width()
    browser.touch("Start", (150, 300))
    browser.touch("Start", (150, 300), (250, 300))
    for k in range(1, 9):
        browser.touch("Move", (150 - 6 * k, 300), (250 + 6 * k, 300))
    browser.touch("End")
    want("two fingers zoom", until(lambda: width() > before * 1.5), f"{before} to {width()}")
    want("and draw nothing", browser.count(WALLS) == 4, browser.count(WALLS))
    browser.picture("touch-nurikabe")


def one_finger(browser, want, puzzle):
    """The whole loop from dot to dot; the same once more erases it."""
    browser.open("k", 1, "Slitherlink")
    path, lines = drawn.loop(*puzzle), puzzle[1].count("1")
    for name, drawn_then in (("a loop by one finger, from dot to dot", lines), ("the same again erases it", 0)):
        browser.touch("Start", browser.spot(*path[0]))
        for (x, y), to in zip(path, path[1:]):
            browser.touch("Move", browser.spot((x + to[0]) / 2, (y + to[1]) / 2))
            browser.touch("Move", browser.spot(*to))
        browser.touch("End")
        want(name, browser.count(LINES) == drawn_then, browser.count(LINES))
        browser.picture(f"touch-loop-{drawn_then}")
    browser.push(UNDO)
    browser.hand_in()
    want("undone and handed in, it is right", browser.shows("Right.", ".said"), browser.text(".said"))


def sideways(browser, want, page):
    wide = browser.js("return [document.documentElement.scrollWidth, screen.width]")
    want(f"{page} doesn't scroll sideways on a phone", wide[0] <= wide[1], wide)


def phone(browser, want):
    browser.open("k", 3, "Slitherlink")
    browser.picture("phone-slitherlink31")
    sideways(browser, want, "a puzzle")
    browser.open("k", 5, "Sudoku")
    browser.picture("phone-sudoku25")
    browser.push("button[aria-label='The whole board']")
    sizes = "const e = document.querySelector('.board'); return [e.scrollWidth, e.clientWidth]"
    whole = until(lambda: len(set(browser.js(sizes))) == 1, 10)
    want("the whole board is seen where it is asked for", whole, browser.js(sizes))
    browser.go("#/r/k")
    browser.shows("Print the puzzles")
    sideways(browser, want, "a round")
    browser.picture("phone-round")
