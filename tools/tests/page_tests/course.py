"""The course of an instant and a sealed round, from the door to the table, drawn by clicks and keys."""
import json
import os
import re
import signal
import time

from selenium.webdriver.common.keys import Keys

from harness.checks import holds
from page_tests import drawn
from page_tests.chromium import REDO, Browser
from page_tests.place import MINUTES, Place, none, solved, until

FILES = {"sl": "slither.txt", "nu": "nurikabe.txt", "su": "real/sudoku9.txt", "s2": "real/slither15.txt",
         "n2": "real/nurikabe10.txt", "u2": "real/sudoku16.txt"}
# A computer whose clock is two hours ahead.
WRONG_CLOCK = "const now = Date.now; Date.now = () => now() + 7200000;"
LINES, WALLS, NUMBERS = ".board .line", ".board .wall", ".board .number"


def trial(program, pictures):
    with Place(program) as place, Browser(place, pictures) as browser:
        puzzles = {label: solved(program, name) for label, name in FILES.items()}
        for label, (text, _) in puzzles.items():
            place.put_puzzle(label, text)
        browser.before_load(WRONG_CLOCK)
        want = holds
        door(place, browser, want)
        slitherlink(place, browser, want, puzzles["sl"])
        nurikabe(place, browser, want, puzzles["nu"])
        sudoku(browser, want, puzzles["su"])
        cut(place, browser, want, puzzles["s2"])
        reloaded(place, browser, want, puzzles["n2"])
        large_sudoku(browser, want)
        cards(browser, want)
        after(place, browser, want)
        protest(place, browser, want)
        table(place, browser, want)
        none("the page's code had no fault", browser.faults())


def door(place, browser, want):
    begun = time.monotonic()
    browser.driver.get(place.url)
    browser.give_key("wrong-key-1")
    want("a wrong key is told", browser.shows("doesn't know this key"))
    browser.picture("door")
    start = place.soon(begun)
    place.put_round("m", "Morning round", start, ["sl", "nu", "su"])
    place.put_round("s", "Sealed round", start, ["s2", "n2", "u2"], mode="sealed", penalty=0, bonus=0)
    browser.give_key("eve-key-1")
    want("the rounds are listed", browser.shows("Morning round") and "To come" in browser.text())
    near = until(lambda: abs(told_seconds(browser.text("a.card .countdown")) - (start - time.time())) < 1.6)
    want("the countdown goes by the hall's clock, two hours off the computer's", near, browser.text("a.card"))
    want("no key is in the address", "eve" not in browser.driver.current_url)
    browser.go("#/r/m")
    want("before the start there is the wait", browser.shows("come by themselves"))
    browser.picture("wait")
    want("the puzzles come by themselves", browser.shows("Slitherlink"))
    browser.picture("round")


def told_seconds(countdown):
    """The seconds of a countdown, as 1:02:03."""
    seconds = 0
    for part in re.findall(r"\d+", countdown):
        seconds = 60 * seconds + int(part)
    return seconds


def slitherlink(place, browser, want, puzzle):
    """By clicks: first unfinished and wrong, then right."""
    browser.open("m", 1, "Slitherlink")
    lines = drawn.sides(*puzzle)
    for side in lines[:-1]:
        browser.click(*side)
    browser.hand_in()
    want("an unfinished board asks first", browser.shows("loose end", "dialog"))
    browser.picture("asks")
    browser.choose(2)
    want("wrong, in sentences", browser.shows("Wrong.", ".said") and "loose end" in browser.text(".said"))
    browser.picture("slitherlink-wrong")
    browser.click(*lines[-1])
    want("the worth fell by the penalty", browser.shows("35 points", "button.hand"), browser.text("button.hand"))
    browser.chord(Keys.CONTROL, "z")
    want("Ctrl+Z takes the last line back", browser.count(LINES) == len(lines) - 1)
    browser.push(REDO)
    want("redo draws it again", browser.count(LINES) == len(lines))
    browser.hand_in()
    want("Slitherlink by clicks is right", browser.shows("Right.", ".said"))
    browser.picture("slitherlink-right")
    verdicts = [answer["verdict"].split()[0] for answer in place.answers("m", "eve")]
    want("the hall holds a wrong and a right answer", verdicts == ["wrong", "right"], verdicts)


def nurikabe(place, browser, want, puzzle):
    browser.open("m", 2, "Nurikabe")
    cells = drawn.walls(*puzzle)
    for cell in cells[1:]:
        browser.click(*cell)
    browser.hand_in()
    want("too few walls ask first", browser.shows("cells are wall", "dialog"))
    browser.choose(1)
    want("going back hands nothing in", len(place.answers("m", "eve")) == 2)
    browser.click(*cells[0])
    browser.hand_in()
    want("Nurikabe by clicks is right", browser.shows("Right.", ".said"))
    browser.picture("nurikabe")


def sudoku(browser, want, puzzle):
    """By keys, with a reload in the midst."""
    browser.open("m", 3, "Sudoku")
    browser.click(0.5, 0.5)
    for row in range(9):
        for col, number in enumerate(puzzle[1][9 * row:9 * row + 9]):
            browser.keys(number, *([Keys.ARROW_RIGHT] if col < 8 else []))
        if row == 3:
            before = browser.count(NUMBERS)
            browser.reload()
            browser.ready("3. Sudoku")
            want("a reload keeps what is drawn", browser.count(NUMBERS) == before > 10, before)
            undo = browser.js("return !document.querySelector('button[aria-label^=Undo]').disabled")
            want("a reload keeps undo", undo)
            browser.click(8.5, 3.5)
        browser.keys(Keys.ARROW_DOWN, *[Keys.ARROW_LEFT] * 8)
    browser.hand_in()
    want("Sudoku by keys is right", browser.shows("Right.", ".said"))
    browser.picture("sudoku")


def cut(place, browser, want, puzzle):
    """A connection cut between request and reply: the hall holds still, the proxy dies, the hall goes on."""
    browser.open("s", 1, "Slitherlink")
    for side in drawn.sides(*puzzle):
        browser.click(*side)
    os.kill(place.hall.pid, signal.SIGSTOP)
    browser.hand_in()
    letters = until(lambda: browser.kept("hall.letter.")) or {}
    tokens = [letter["id"] for letter in letters.values()]
    want("the answer and its token are kept before a reply comes", [len(token) for token in tokens] == [24], letters)
    until(place.holds_requests)
    time.sleep(0.5)
    place.kill_proxy()
    os.kill(place.hall.pid, signal.SIGCONT)
    want("the cut is told", browser.shows("No connection", "#trouble"))
    browser.picture("cut")
    want("the answer has come to the hall", until(lambda: place.answers("s", "eve")))
    time.sleep(0.5)
    place.start_proxy()
    want("in the end it is received", browser.shows("Received", ".said"))
    stands = [[answer["token"], answer["n"]] for answer in place.answers("s", "eve")]
    want("it stands once, under that token", stands == [[token, 1] for token in tokens], stands)
    over = not browser.text("#trouble") and not browser.kept("hall.letter.")
    want("the banner is gone, and nothing is on its way", over)
    want("a sealed round tells no verdict", "Right" not in browser.text(".said") and "verdict" not in
         json.dumps(place.answers("s", "eve")))
    want("what was handed in is told to be what is drawn", "what is drawn here" in browser.text(".said"))
    browser.click(0.5, 0.02)
    want("and then not to be", browser.shows("something else since", ".said"))
    browser.picture("received")


def reloaded(place, browser, want, puzzle):
    """A reload while an answer is on its way."""
    browser.open("s", 2, "Nurikabe")
    cells = drawn.walls(*puzzle)
    for run in drawn.runs(cells):
        browser.drag(run) if len(run) > 1 else browser.click(*run[0])
    want("drags draw the walls", browser.count(WALLS) == len(cells))
    os.kill(place.hall.pid, signal.SIGSTOP)
    browser.hand_in()
    until(lambda: browser.kept("hall.letter."))
    browser.reload()
    time.sleep(0.5)
    os.kill(place.hall.pid, signal.SIGCONT)
    want("after the reload it is received", browser.shows("Received", ".said"))
    numbers = [answer["n"] for answer in place.answers("s", "eve") if answer["number"] == 2]
    want("it is handed in once", numbers == [1], numbers)


def large_sudoku(browser, want):
    """Numbers above 9 by two digits, by a letter and by the pad; notes."""
    browser.open("s", 3, "Sudoku")
    free = browser.js("""return [...Array(256).keys()].filter(
        (cell) => !document.querySelector(`.board .clue[data-cell='${cell}']`))""")
    (x, y), (x1, y1) = [(cell % 16 + 0.5, cell // 16 + 0.5) for cell in free[:2]]
    browser.click(x, y)
    browser.keys("1", "4")
    want("two digits are one number", browser.text(NUMBERS) == "14", browser.text(NUMBERS))
    browser.keys(Keys.BACKSPACE, "c")
    want("letters are numbers too", browser.text(NUMBERS) == "12", browser.text(NUMBERS))
    browser.keys(Keys.BACKSPACE)
    browser.push(".pad button:nth-child(16)")
    want("the pad writes", browser.text(NUMBERS) == "16", browser.text(NUMBERS))
    browser.click(x1, y1)
    browser.keys(" ", "3", "5", "a", " ")
    notes = browser.js("""return [...document.querySelectorAll('.board .notes text')]
.map((note) => note.textContent).join()""")
    want("notes are written", notes == "3,5,10", notes)
    said = browser.text(".board .unseen")
    want("a cell is told in words", said.endswith("empty, notes 3 5 10"), said)
    browser.hand_in()
    want("an unfinished Sudoku isn't sent", browser.shows("still empty", ".said"))
    browser.picture("sudoku16")


def cards(browser, want):
    browser.go("#/r/s")
    want("the cards tell how each puzzle stands", browser.shows("handed in") and browser.shows("begun"))
    browser.picture("sealed")


def after(place, browser, want):
    """After the end: verdicts and solutions."""
    place.begin_at(time.time() - 60 * MINUTES - 5)
    browser.reload()
    browser.go("#/r/s/answers")
    want("after the end there are solutions", browser.shows("the solution"))
    want("and a sealed round's verdicts", browser.shows("right"))
    told = browser.js("return document.querySelector('figure svg').getAttribute('aria-label')")
    want("a solution is told in words", told and "Lines across, row by row" in told, told)
    browser.picture("answers")


def protest(place, browser, want):
    browser.go("#/r/m/protests")
    field = until(lambda: browser.driver.find_element("id", "words"))
    field.send_keys("The 3 in row three is hard to read.")
    browser.push("form.form button.main")
    want("a protest stands", browser.shows("open", ".protest"))
    token = place.ask("GET", "/rounds/m/protests", "rex")["protests"][0]["token"]
    place.ask("PUT", f"/rounds/m/rulings/eve/{token}", "rex", {"points": 3, "upheld": True})
    browser.reload()
    want("its ruling is told", browser.shows("upheld, +3 points"))
    browser.picture("protest")


def table(place, browser, want):
    browser.go("#/r/m/table")
    want("that there is no table yet is told in words", browser.shows("isn't published yet"))
    place.begin_at(time.time() - 2 * 60 * MINUTES - 5)
    place.ask("POST", "/rounds/m/publish", "dora")
    browser.reload()
    want("the table is shown", browser.shows("eve", "table"))
    cells = browser.text("tbody").split()
    points = place.ask("GET", "/rounds/m/table", "dora").split()
    want("as the hall tells it", cells == points, cells)
    browser.picture("table")
    browser.go("#/about")
    want("the page says that it isn't proved", browser.shows("This page isn't proved"))
    browser.picture("about")
    browser.go("#/")
    browser.leave()
    want("leaving forgets the key", browser.js("return sessionStorage.length") == 0)
    browser.go("#/r/m/table")
    want("the table needs no key", browser.shows("eve", "table"))
