"""What solvers use beside lines and numbers: several cells at once, notes and colours, helps on wish, tries, the list
of puzzles, keys to other puzzles, and a finger that moves the board while another draws."""
import time

from selenium.webdriver.common.keys import Keys

from harness.checks import holds
from page_tests import drawn
from page_tests.chromium import NEXT, REDO, UNDO, Browser
from page_tests.contrasts import told_apart
from page_tests.place import Place, none, solved, until

FILES = {"su": "real/sudoku9.txt", "sl": "real/slither15.txt", "nu": "nurikabe.txt", "s50": "real/slither50.txt"}
NAMES = ["Sudoku", "Slitherlink", "Nurikabe", "Slitherlink"]
LINES, NUMBERS, CHOSEN, CLASHES = ".board .line", ".board .number", ".board .chosen", ".board .clash"
TRY, BACK, KEEP = "button[aria-label^='From here']", "button[aria-label^='Take back']", "button[aria-label^='What was']"
# A drawing as it was kept before there were layers and tries.
OLD = """const [name, text, end] = arguments;
const marks = Array(81).fill(0), kept = JSON.parse(localStorage[name]);
kept.marks.slice(0, 81).forEach((mark, i) => { marks[i] = mark; });
const place = marks.indexOf(0);
marks[place] = 7;
localStorage[name] = JSON.stringify({ end: kept.end, text: kept.text, marks, past: [[place, 0, 7]], future: [] });"""
COLOURS = """return [...new Set([...document.querySelectorAll('.board .line')].map((line) =>
getComputedStyle(line).stroke))].length"""


def trial(program, pictures):
    with Place(program) as place:
        puzzles = {label: solved(program, name) for label, name in FILES.items()}
        for label, (text, _) in puzzles.items():
            place.put_puzzle(label, text)
        place.put_begun_round("k", "Helps", list(puzzles), bonus=0)
        with Browser(place, pictures) as browser:
            browser.enter("eve")
            several_cells(browser, puzzles["su"])
            notes_and_colours(browser)
            clashes(browser, puzzles["su"])
            tries(browser)
            old_drawing(browser)
            chains(browser, puzzles["sl"])
            islands(browser, puzzles["nu"])
            listed(place, browser)
            none("the page's code had no fault", browser.faults())
        with Browser(place, pictures, phone=True) as browser:
            browser.enter("fay")
            two_fingers(browser)
            none("on a phone neither", browser.faults())


def free_cells(text):
    """The cells of a Sudoku without givens, as (x, y)."""
    body, cells = text.split("/")[3], []
    for sign in body:
        cells += [None] * (ord(sign) - ord("f")) if sign >= "g" else [sign]
    cells += [None] * (81 - len(cells))
    return [(i % 9, i // 9) for i, clue in enumerate(cells) if clue is None]


def middle(cell):
    return cell[0] + 0.5, cell[1] + 0.5


def several_cells(browser, puzzle):
    browser.open("k", 1, "Sudoku")
    browser.drag([(0.5, 0.5), (1.5, 0.5), (2.5, 0.5), (2.5, 1.5)])
    holds("a drag chooses cells", browser.count(CHOSEN) == 4, browser.count(CHOSEN))
    browser.picture("helps-chosen")
    browser.click(7.5, 7.5)
    holds("a click chooses one", browser.count(CHOSEN) == 0, browser.count(CHOSEN))
    browser.chord(Keys.SHIFT, Keys.ARROW_LEFT)
    browser.chord(Keys.CONTROL, Keys.ARROW_UP)
    holds("Shift and Ctrl with arrows choose more", browser.count(CHOSEN) == 3, browser.count(CHOSEN))
    browser.chord(Keys.CONTROL, "a")
    holds("Ctrl+A chooses all", browser.count(CHOSEN) == 81, browser.count(CHOSEN))
    said = browser.text(".board .unseen")
    holds("how many are chosen is told in words", said.endswith("81 cells chosen"), said)
    browser.keys(Keys.ESCAPE)
    holds("Escape leaves one", browser.count(CHOSEN) == 0, browser.count(CHOSEN))
    one, two, three = free_cells(puzzle[0])[:3]
    browser.click(*middle(one))
    browser.tool("Input.dispatchKeyEvent", {"type": "keyDown", "key": "Control", "modifiers": 2})
    for cell in (two, three):
        for kind, buttons in (("Pressed", 1), ("Released", 0)):
            spot = browser.spot(*middle(cell))
            browser.tool("Input.dispatchMouseEvent", {"type": f"mouse{kind}", "x": spot[0], "y": spot[1],
                         "button": "left", "buttons": buttons, "clickCount": 1, "modifiers": 2})
    browser.tool("Input.dispatchKeyEvent", {"type": "keyUp", "key": "Control"})
    holds("Ctrl and a click choose cells apart", browser.count(CHOSEN) == 3, browser.count(CHOSEN))
    browser.keys("5")
    holds("a number goes to all of them", browser.count(NUMBERS) == 3, browser.count(NUMBERS))
    browser.push(UNDO)
    holds("and is one stroke", browser.count(NUMBERS) == 0, browser.count(NUMBERS))
    browser.chord(Keys.SHIFT, "1")
    holds("so do notes", browser.count(".board .notes") == 3, browser.count(".board .notes"))
    browser.keys(Keys.BACKSPACE)
    holds("and erasing", browser.count(".board .notes") == 0, browser.count(".board .notes"))


def notes_and_colours(browser):
    said = lambda: browser.text(".board .unseen")
    browser.keys(Keys.ESCAPE, "s", "1", "9", "w", "4", "6", "x", "3", "q")
    told = said()
    holds("corner notes, centre notes and colours", told.endswith("empty, notes 1 9, centre notes 4 6, Colour 3"), told)
    holds("are drawn", browser.count(".board .tint") == 1 and browser.count(".board .notes") == 2)
    browser.picture("helps-notes")
    browser.chord(Keys.CONTROL, "4")
    told = said()
    holds("Ctrl and a number is a centre note", told.endswith("notes 1 9, centre notes 6, Colour 3"), told)
    browser.keys("8")
    holds("a number covers the notes", browser.count(".board .notes") == 0, browser.count(".board .notes"))
    browser.keys(Keys.BACKSPACE)
    holds("and gives them back", browser.count(".board .notes") == 2, browser.count(".board .notes"))
    browser.keys(Keys.BACKSPACE, Keys.BACKSPACE)
    holds("erasing goes on to notes and colours", browser.count(".board .notes, .board .tint") == 0)
    browser.push("button[aria-label=Colours]")
    browser.push(".pad button[aria-label='Colour 2']")
    holds("the pad has colours", browser.count(".board .tint") == 1)
    browser.keys(Keys.BACKSPACE)
    browser.push("button[aria-label=Colours]")


def wish(browser, words):
    browser.js("""[...document.querySelectorAll('.check')].find((it) => it.innerText.includes(arguments[0]))
.querySelector('input').click()""", words)
    browser.js("document.querySelector('.board svg').focus()")


def clashes(browser, puzzle):
    """Marked on wish alone: as soon as a number stands twice, whether it is right or not."""
    text, answer = puzzle
    x, y = free_cells(text)[0]
    row = [cell for cell in free_cells(text) if cell[1] == y]
    other = next(cell for cell in row if cell != (x, y))
    for cell in ((x, y), other):
        browser.click(*middle(cell))
        browser.keys(answer[9 * y + x])
    holds("numbers that stand twice aren't marked by itself", browser.count(CLASHES) == 0)
    wish(browser, "stand twice")
    holds("they are on wish", browser.count(CLASHES) >= 2, browser.count(CLASHES))
    browser.picture("helps-clashes")
    browser.keys(Keys.BACKSPACE)
    spent = browser.count(".pad .spent")
    rest = [cell for cell in free_cells(text) if answer[9 * cell[1] + cell[0]] == answer[9 * y + x]]
    for cell in rest:
        if cell != (x, y):
            browser.click(*middle(cell))
            browser.keys(answer[9 * y + x])
    holds("a number that stands nine times is told", browser.count(".pad .spent") == spent + 1)
    told_apart(browser, "a Sudoku with clashes marked")
    holds("and nothing clashes", browser.count(CLASHES) == 0, browser.count(CLASHES))


def tries(browser):
    before = browser.count(NUMBERS)
    browser.keys("t")
    holds("a try begins by its key", browser.count(".board.trying") == 1)
    for cell in (0.5, 0.5), (1.5, 1.5), (2.5, 2.5), (4.5, 4.5), (7.5, 8.5):
        browser.click(*cell)
        browser.keys("1")
    drew = browser.count(NUMBERS) - before
    holds("what is tried is marked", browser.count(".board .tried") == drew > 0, [browser.count(".board .tried"), drew])
    browser.picture("helps-try")
    browser.reload()
    browser.ready("1. Sudoku")
    holds("a reload keeps the try", browser.count(".board .tried") == drew and browser.count(".board.trying") == 1)
    browser.push(BACK)
    holds("it is taken back as a whole", browser.count(NUMBERS) == before and browser.count(".board.trying") == 0,
          [browser.count(NUMBERS), before])
    browser.push(REDO)
    holds("and redo goes on from there", browser.count(NUMBERS) == before + 1 and browser.count(".board .tried") == 0)
    browser.push(UNDO)
    browser.push(TRY)
    browser.keys("1")
    browser.push(KEEP)
    holds("a try may be kept", browser.count(".board .tried") == 0 and browser.count(".board.trying") == 0)


def old_drawing(browser):
    name = next(it for it in browser.kept("hall.drawing.") if it.endswith(".k.1"))
    browser.open("k", 3, "Nurikabe")
    browser.js(OLD, name)
    browser.open("k", 1, "Sudoku")
    holds("a drawing of before is read", browser.count(NUMBERS) >= 1, browser.count(NUMBERS))
    before = browser.count(NUMBERS)
    browser.push(UNDO)
    holds("with its undo", browser.count(NUMBERS) == before - 1, browser.count(NUMBERS))
    browser.keys("x", "1", "q")
    holds("and drawn on in layers", browser.count(".board .tint") == 1)


def chains(browser, puzzle):
    browser.open("k", 2, "Slitherlink")
    path = drawn.loop(*puzzle)
    browser.drag(path[:4])
    browser.drag(path[6:9])
    browser.drag(path[12:16])
    holds("chains have one colour", browser.js(COLOURS) == 1, browser.js(COLOURS))
    wish(browser, "each chain")
    holds("on wish each has its own", browser.js(COLOURS) == 3, browser.js(COLOURS))
    browser.picture("helps-chains")
    browser.drag(path[3:7])
    holds("joined ones have one", browser.js(COLOURS) == 2, browser.js(COLOURS))
    browser.push("button[aria-label^='Shade cells']")
    browser.drag([(0.5, 0.5), (1.5, 0.5), (2.5, 0.5)])
    holds("cells are shaded as inside", browser.count(".board .inside") == 3, browser.count(".board .inside"))
    browser.click(0.5, 0.5)
    holds("and outside", browser.count(".board .outside") == 1, browser.count(".board .outside"))
    browser.push("button[aria-label^='Shade cells']")
    browser.click(*drawn.sides(*puzzle)[-1])
    browser.keys("i")
    told = browser.text(".board .unseen")
    holds("by keys too, and told in words", browser.count(".board .inside, .board .outside") in (2, 3, 4)
          and ("inside" in told or browser.count(".board .inside") == 1), told)
    browser.picture("helps-sides")


def islands(browser, puzzle):
    browser.open("k", 3, "Nurikabe")
    for run in drawn.runs(drawn.walls(*puzzle)):
        browser.drag(run) if len(run) > 1 else browser.click(*run[0])
    length = lambda: len(browser.js("return document.querySelector('.board .island').getAttribute('d') ?? ''"))
    holds("finished islands aren't shaded by themselves", length() == 0)
    wish(browser, "finished islands")
    fill = browser.js("return getComputedStyle(document.querySelector('.board .island')).fill")
    holds("they are on wish", length() > 0 and fill != "none", [length(), fill])
    wish(browser, "Count the cells")
    holds("and their cells counted", browser.count(".board .count") == browser.count(".board .clue"))
    browser.picture("helps-islands")
    before = length()
    browser.click(*drawn.walls(*puzzle)[0])
    browser.click(*drawn.walls(*puzzle)[0])
    holds("an open island is no finished one", length() < before, [length(), before])


def listed(place, browser):
    """The list beside a puzzle, keys to others, handing in by a key, and what it comes to."""
    browser.push(UNDO)
    browser.push(UNDO)
    browser.js("document.querySelector('.board svg').focus()")
    browser.chord(Keys.CONTROL, Keys.ENTER)
    holds("Ctrl+Enter hands in", browser.shows("Right.", ".said"), browser.text(".said"))
    holds("the list tells what is done", until(lambda: "1 of 4 right · 60 of 220 points · 160 points left" in
          browser.text(".tools")), browser.text(".tools"))
    lines = browser.js("return [...document.querySelectorAll('.list li')].map((it) => it.innerText.trim())")
    holds("and what is drawn", len(lines) == 4 and "begun" in lines[0] and "right" in lines[2], lines)
    browser.picture("helps-list")
    browser.keys(Keys.PAGE_DOWN)
    holds("Page Down goes to the next puzzle", browser.shows("4. Slitherlink", ".bar"))
    until(lambda: browser.js("return document.activeElement.tagName") == "svg")
    browser.keys(Keys.PAGE_UP)
    holds("Page Up to the one before", browser.shows("3. Nurikabe", ".bar"))
    browser.go("#/r/k")
    holds("the round's page tells the same", browser.shows("1 of 4 right · 60 of 220 points"), browser.text())
    browser.picture("helps-round")
    holds("the hall has one answer", len(place.answers("k", "eve")) == 1)


def two_fingers(browser):
    """One finger draws on, while another moves the board under it."""
    browser.open("k", 4, "Slitherlink")
    first = browser.spot(1, 4)
    browser.touch("Start", first)
    for k in range(2, 6):
        browser.touch("Move", browser.spot(k, 4))
    time.sleep(0.4)
    before, held = browser.count(LINES), browser.spot(5, 4)
    left = lambda: browser.js("return document.querySelector('.board').scrollLeft")
    begun = left()
    browser.touch("Start", held, (300, 500))
    for k in range(1, 9):
        browser.touch("Move", held, (300 - 12 * k, 500))
    holds("a second finger moves the board", left() > begun + 60, [begun, left()])
    holds("and the first one draws on", browser.count(LINES) > before, [before, browser.count(LINES)])
    browser.touch("End")
    holds("and what it drew stays", browser.count(LINES) > before and browser.js(
        f"return document.querySelector('{UNDO}').disabled") is False)
    browser.picture("helps-fingers")
    browser.open("k", 1, "Sudoku")
    browser.picture("helps-phone")
    holds("the hand-in's button is there", browser.count(NEXT) == 1)
