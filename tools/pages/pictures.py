#!/usr/bin/python3
"""Makes the pictures of README.md, docs/ENTRANTS.md and docs/STAFF.md anew, into docs/pictures.

    tools/pages/pictures.py [PROGRAM]

They show the real pages in Chromium, behind HAProxy, over a program, by default the one that ./hall builds without
proofs. Run this by hand where the page looks otherwise, and look at what it made: the gate sees only that each
picture that a page shows is there, and that they are small. It needs Debian's python3-selenium, chromium-driver and
haproxy. Times and countdowns are those of the run.
"""
import os
import sys
import time

from sources import ROOT

sys.path.append(f"{ROOT}/tools/tests")
from page_tests import drawn  # noqa: E402
from page_tests.chromium import Browser  # noqa: E402
from page_tests.place import MINUTES, Place, until  # noqa: E402
from page_tests.staff_author import TEXT  # noqa: E402
from page_tests.staff_hands import Staff  # noqa: E402

FOLDER, PROGRAM = f"{ROOT}/docs/pictures", f"{ROOT}/crates/hall/out/unproved/hall"
# The window's width and height, and so many pixels of a picture for one of the page.
WIDTH, HEIGHT, SCALE = 920, 600, 1.5
# The puzzles of the round: a file of bench/, where each line is a puzzle and its solution, and which line.
PUZZLES = {"loop": ("slither.txt", 18), "islands": ("real/nurikabe10.txt", 2), "digits": ("real/sudoku9.txt", 0)}
ROUND = "morning"
# Sides beside the zeros of the Slitherlink.
CROSSES = [(3.5, 1), (3.5, 2), (2.5, 2), (2.5, 3), (9.5, 5), (9.5, 6)]


def board(name, line):
    """The puzzle of a line of a file of bench/, and its solution."""
    with open(f"{ROOT}/bench/{name}", encoding="ascii") as file:
        text, solution = file.read().splitlines()[line].split()
    return text, solution


def taken(browser, name, height=HEIGHT, top="body"):
    """A picture of what the window shows below that element's upper edge, once it stands still."""
    browser.tool("Emulation.setDeviceMetricsOverride",
                 {"width": WIDTH, "height": height, "deviceScaleFactor": SCALE, "mobile": False})
    browser.tool("Emulation.setScrollbarsHidden", {"hidden": True})
    browser.js("document.querySelector(arguments[0]).scrollIntoView(); document.activeElement.blur()", top)
    time.sleep(0.5)
    browser.picture(name)


def before(place, browser):
    browser.driver.get(place.url)
    until(lambda: browser.driver.find_element("id", "key")).send_keys("eve-key-1")
    taken(browser, "door", 420)
    browser.enter("eve")
    browser.go(f"#/r/{ROUND}")
    browser.shows("come by themselves")
    taken(browser, "wait", 480)


def half_solved(browser, puzzle, solution):
    """Half of the loop, and crosses, which a second click on a side draws."""
    browser.open(ROUND, 1, "Slitherlink")
    path = drawn.loop(puzzle, solution)
    browser.drag(path[:len(path) * 5 // 9])
    for side in CROSSES * 2:
        browser.click(*side)
    taken(browser, "slitherlink")


def wrong(browser, puzzle, solution):
    """A Nurikabe with one wall too few, and one too many elsewhere."""
    browser.open(ROUND, 2, "Nurikabe")
    walls = drawn.walls(puzzle, solution)
    cols = drawn.size(puzzle)[0]
    free = next((it % cols + 0.5, it // cols + 0.5) for it, byte in enumerate(solution) if byte == "."
                and (it % cols + 0.5, it // cols - 0.5) in walls)
    for run in drawn.runs(walls[1:]):
        browser.drag(run) if len(run) > 1 else browser.click(*run[0])
    browser.click(*free)
    browser.hand_in()
    browser.shows("Wrong.", ".said")
    taken(browser, "wrong")
    browser.click(*free)
    browser.click(*free)
    browser.click(*walls[0])
    browser.hand_in()
    browser.shows("Right.", ".said")


def others(place, solutions):
    """What other entrants hand in."""
    for who, numbers in (("fay", (1, 2, 3)), ("gus", (1, 3)), ("hal", (2, 1)), ("ida", (3,))):
        for number in numbers:
            place.ask("PUT", f"/rounds/{ROUND}/answers/{number}/{who}-{number}", who,
                      {"answer": list(solutions)[number - 1]})


def author(staff):
    """An address is pasted, and drawn before it is put."""
    staff.tool("Emulation.setTimezoneOverride", {"timezoneId": "Europe/Berlin"})
    staff.tool("Emulation.setScrollbarsHidden", {"hidden": True})
    staff.enter_staff("bob", "author")
    until(lambda: staff.count(".card.puzzle svg.sheet") == len(PUZZLES))
    staff.fill(TEXT, f"https://puzz.link/p?slitherlink/{board('slither.txt', 30)[0].partition('/')[2]}")
    staff.fill("Label", "loop-2")
    taken(staff, "author", 620)
    staff.fill(TEXT, "")
    staff.leave()


def director(staff):
    """A draft beside what entrants will see, and the answers of the round that runs."""
    staff.go("#/director/NEW")
    staff.give_key("dora-key-1")
    until(lambda: staff.count(".card.pick") == len(PUZZLES))
    start = time.strftime("%Y-%m-%dT10:00", time.gmtime(time.time() + 3 * 86_400))
    for label, value in (("Id", "spring-1"), ("Title", "Spring, first round"), ("Start", start)):
        staff.fill(label, value)
    for label in PUZZLES:
        staff.push(f".card.pick[data-name='bob/{label}']")
    staff.press("Put the draft")
    staff.shows("The hall keeps this draft")
    taken(staff, "draft", 700)
    staff.go(f"#/director/{ROUND}")
    staff.shows("Ask for the answers")
    staff.press("Ask for the answers")
    staff.shows("answers of")
    taken(staff, "watched", 560, "main section h2")


def after(place, browser):
    place.begin_at(time.time() - 60 * MINUTES - 5)
    browser.reload()
    browser.go(f"#/r/{ROUND}/answers")
    browser.shows("the solution")
    taken(browser, "answers", 560, "article.outcome:nth-of-type(2)")
    browser.go(f"#/r/{ROUND}/protests")
    until(lambda: browser.driver.find_element("id", "words")).send_keys("The 3 in row three is hard to read.")
    browser.push("form.form button.main")
    browser.shows("open", ".protest")
    token = place.ask("GET", f"/rounds/{ROUND}/protests", "rex")["protests"][0]["token"]
    place.ask("PUT", f"/rounds/{ROUND}/rulings/eve/{token}", "rex", {"points": 3, "upheld": True})
    browser.reload()
    browser.shows("upheld, +3 points")
    taken(browser, "protest", 250, ".protest")


def referee(place, staff):
    """A protest beside the wrong answer and the solution."""
    place.ask("PUT", f"/rounds/{ROUND}/protests/walls", "eve", {"number": 2, "text": "I saw the block too late."})
    staff.leave()
    staff.enter_staff("rex", f"referee/{ROUND}")
    until(lambda: staff.count("#answer option") == 2)
    staff.js("const of = document.querySelector('#answer'); of.selectedIndex = 0;"
             "of.dispatchEvent(new Event('change', { bubbles: true }))")
    until(lambda: staff.count(".boards [data-rule]"))
    taken(staff, "referee", 660, ".protest-view")
    place.ask("PUT", f"/rounds/{ROUND}/rulings/eve/walls", "rex", {"points": 0, "upheld": False})


def published(place, browser):
    place.begin_at(time.time() - 2 * 60 * MINUTES - 5)
    place.ask("POST", f"/rounds/{ROUND}/publish", "dora")
    browser.reload()
    browser.go(f"#/r/{ROUND}/table")
    browser.shows("fay", "table")
    taken(browser, "table", 520)


def main():
    os.makedirs(FOLDER, exist_ok=True)
    boards = {label: board(*of) for label, of in PUZZLES.items()}
    program = os.path.abspath((sys.argv[1:] or [PROGRAM])[0])
    with Place(program) as place, Browser(place, FOLDER) as browser, Staff(place, FOLDER) as staff:
        texts = {label: place.put_puzzle(label, text) for label, (text, _) in boards.items()}
        place.put_round(ROUND, "Morning", time.time() + 600, list(boards), bonus=0)
        before(place, browser)
        place.begin_at(time.time() - 500)
        browser.reload()
        half_solved(browser, texts["loop"], boards["loop"][1])
        wrong(browser, texts["islands"], boards["islands"][1])
        others(place, [solution for _, solution in boards.values()])
        browser.go(f"#/r/{ROUND}")
        browser.shows("Print the puzzles")
        taken(browser, "round")
        author(staff)
        director(staff)
        after(place, browser)
        referee(place, staff)
        published(place, browser)


if __name__ == "__main__":
    main()
