"""A screen reader's way, by the tree of names that Chromium hands to one: a whole puzzle of each kind, found by its
names, read, drawn by keys, heard, and handed in; a protest; and a referee's ruling."""
import re
import time

from selenium.webdriver.common.keys import Keys

from harness.checks import holds
from page_tests import drawn
from page_tests.chromium import Browser
from page_tests.place import MINUTES, Place, none, solved, until
from page_tests.staff_hands import Staff

FILES = {"sl": "slither.txt", "nu": "nurikabe.txt", "su": "real/sudoku9.txt"}
SPOKEN = ("status", "alert")  # a timer speaks to nobody by itself
NAMED = ("button", "link", "checkbox", "combobox", "textbox", "spinbutton", "application", "heading", "img")
ARROWS = {(1, 0): Keys.ARROW_RIGHT, (-1, 0): Keys.ARROW_LEFT, (0, 1): Keys.ARROW_DOWN, (0, -1): Keys.ARROW_UP}
BACK = {(1, 0): "left", (-1, 0): "right", (0, 1): "up", (0, -1): "down"}
CLUES = """return [...document.querySelectorAll('.board text.clue')]
  .map((e) => [Number(e.dataset.cell), e.textContent])"""


def trial(program, pictures):
    with Place(program) as place:
        puzzles = {label: solved(program, name) for label, name in FILES.items()}
        for label, (text, _) in puzzles.items():
            place.put_puzzle(label, text)
        place.put_begun_round("k", "By names", list(FILES), bonus=0)
        with Browser(place, pictures) as browser:
            reader = Reader(browser)
            enters(browser, reader)
            clues = reads(browser, reader, puzzles["nu"])
            draws(browser, reader, puzzles["nu"], clues)
            hands_in(place, browser, reader, 50, 1)
            slitherlink(browser, reader, puzzles["sl"])
            hands_in(place, browser, reader, 40, 2)
            sudoku(browser, reader, puzzles["su"])
            hands_in(place, browser, reader, 60, 3)
            protests(place, browser, reader)
            none("the page's code had no fault", browser.faults())
        with Staff(place, pictures) as browser:
            rules(place, browser, Reader(browser))
            none("nor had that of staff's", browser.faults())


class Reader:
    """What a screen reader knows: roles and names, where the focus is, and what is spoken by itself."""

    def __init__(self, browser):
        self.browser = browser

    def nodes(self):
        tree = self.browser.tool("Accessibility.getFullAXTree", {})["nodes"]
        return [(node["role"]["value"], node.get("name", {}).get("value", ""), node) for node in tree
                if node.get("role") and not node.get("ignored")]

    def names(self, role):
        return [name for of, name, _ in self.nodes() if of == role]

    def focused(self):
        """The role and name of what has the focus."""
        for role, name, node in self.nodes():
            if role != "RootWebArea" and any(it["name"] == "focused" and it["value"].get("value")
                                             for it in node.get("properties", ())):
                return role, name
        return None, ""

    def spoken(self):
        """What the live places of the tree hold."""
        tree = {node["nodeId"]: node for node in self.browser.tool("Accessibility.getFullAXTree", {})["nodes"]}
        found = []
        for node in tree.values():
            live = {it["name"]: it["value"].get("value") for it in node.get("properties", ())}.get("live")
            if live == "polite" or node.get("role", {}).get("value") in SPOKEN:
                found += self.below(tree, node)
        return " ".join(found)

    def below(self, tree, node):
        if node.get("role", {}).get("value") == "StaticText":
            return [node["name"]["value"]]
        return [text for it in node.get("childIds", ()) if it in tree for text in self.below(tree, tree[it])]

    def tab_to(self, role, begin):
        """Goes on by Tab to what has this role, and a name that begins so."""
        for _ in range(60):
            of, name = self.focused()
            if of == role and name.startswith(begin):
                return True
            self.browser.keys(Keys.TAB)
        return False


def enters(browser, reader):
    browser.driver.get(browser.place.url)
    until(lambda: reader.focused()[0] == "textbox")
    holds("the door's field has its label for a name", reader.focused() == ("textbox", "Your key"), reader.focused())
    browser.keys(*"eve-key-1", Keys.ENTER)
    until(lambda: browser.count("a.card"))
    holds("the round is found by Tab", reader.tab_to("link", "By names"), reader.focused())
    browser.keys(Keys.ENTER)
    until(lambda: browser.count(".cards.puzzles"))
    holds("what is done is told", any("0 of 3 right" in name for name in reader.names("StaticText")))
    holds("and the puzzle", reader.tab_to("link", "2. Nurikabe"), reader.focused())
    browser.keys(Keys.ENTER)
    browser.ready("2. Nurikabe")
    named(reader)


def named(reader):
    nameless = [role for role, name, _ in reader.nodes() if role in NAMED and not name.strip()]
    none("all that is shown has a name", nameless)


def reads(browser, reader, puzzle):
    """The board is where the focus is; each cell is told as the arrows come to it."""
    cols, rows = drawn.size(puzzle[0])
    until(lambda: reader.focused()[0] == "application")
    told = reader.focused()
    holds("the focus is on the board, which tells its kind and size", told[0] == "application"
          and told[1].startswith(f"Nurikabe, {cols} by {rows}"), told)
    clues = {}
    for y in range(rows):
        for x in range(cols):
            browser.keys(*([Keys.ARROW_RIGHT] if x else [Keys.ARROW_RIGHT, Keys.ARROW_LEFT]))
            found = re.search(rf"row {y + 1}, column {x + 1}: (.*?)(?=$| row )", reader.spoken())
            clues[x, y] = found[1].strip() if found else None
        browser.keys(*[Keys.ARROW_LEFT] * cols, *([Keys.ARROW_DOWN] if y < rows - 1 else []))
    holds("each cell is heard", all(clues.values()), clues)
    numbers = [words for words in clues.values() if words and words.startswith("number")]
    holds("numbers and empty cells alone", len(numbers) >= 2 and set(clues.values()) - set(numbers) == {"empty"}, clues)
    return clues


def draws(browser, reader, puzzle, clues):
    """By keys, hearing each wall; where the numbers were heard, none is drawn."""
    cols, rows = drawn.size(puzzle[0])
    walls = {(int(x), int(y)) for x, y in drawn.walls(*puzzle)}
    holds("no wall belongs on a number that was heard", not any(clues[it].startswith("number") for it in walls))
    browser.keys(*[Keys.ARROW_UP] * rows, *[Keys.ARROW_LEFT] * cols)
    heard = []
    for y in range(rows):
        for x in range(cols):
            if (x, y) in walls:
                browser.keys("w")
                heard.append(f"row {y + 1}, column {x + 1}: wall" in reader.spoken())
            browser.keys(*([Keys.ARROW_RIGHT] if x < cols - 1 else []))
        browser.keys(Keys.ARROW_DOWN, *[Keys.ARROW_LEFT] * (cols - 1))
    holds("each wall is heard as it is drawn", all(heard) and len(heard) == len(walls), heard)


def hands_in(place, browser, reader, points, count):
    there = reader.tab_to("button", f"Hand in · {points} points")
    holds("the way to hand in is found by Tab", there, reader.focused())
    browser.keys(Keys.ENTER)
    holds("the verdict is heard", until(lambda: "Right." in reader.spoken()), reader.spoken())
    holds("the hall has it", [it["verdict"] for it in place.answers("k", "eve")] == ["right"] * count)
    told = until(lambda: any(f"{count} of 3 right" in it for it in reader.names("StaticText")))
    holds("and the list tells it", told)


def slitherlink(browser, reader, puzzle):
    """Along the loop, from dot to dot: the line, and the numbers round each dot, are heard."""
    browser.keys(Keys.PAGE_UP)
    there = until(lambda: reader.focused()[1].startswith("Slitherlink"))
    holds("Page Up leads to another puzzle, and its board", there, reader.focused())
    cols, _ = drawn.size(puzzle[0])
    clues = {(cell % cols, cell // cols): number for cell, number in browser.js(CLUES)}
    path = drawn.loop(*puzzle)
    browser.keys(*[Keys.ARROW_RIGHT] * path[0][0], *[Keys.ARROW_DOWN] * path[0][1])
    unheard = []
    for before, (x, y) in zip(path, path[1:]):
        way = x - before[0], y - before[1]
        browser.chord(Keys.SHIFT, ARROWS[way])
        spoken = reader.spoken()
        line = re.search(rf"dot row {y + 1}, column {x + 1}; line ([a-z ]+)", spoken)
        round_it = [clues[it] for it in ((x - 1, y - 1), (x, y - 1), (x - 1, y), (x, y)) if it in clues]
        numbers = re.search(r"numbers ([\w, ]+)", spoken)
        heard = [it.split()[0] for it in numbers[1].split(", ")] if numbers else []
        if not line or BACK[way] not in line[1].split() or heard != round_it:
            unheard.append((x, y, spoken))
    none("each line is heard, and the numbers round its end", unheard)


def sudoku(browser, reader, puzzle):
    """Each cell is heard, and the number that is written into it."""
    browser.keys(Keys.PAGE_DOWN)
    until(lambda: reader.focused()[1].startswith("Nurikabe"))
    browser.keys(Keys.PAGE_DOWN)
    until(lambda: reader.focused()[1].startswith("Sudoku"))
    browser.keys(Keys.ARROW_RIGHT, Keys.ARROW_LEFT)
    heard = []
    for y in range(9):
        for x in range(9):
            at, number = f"row {y + 1}, column {x + 1}: ", puzzle[1][9 * y + x]
            if f"{at}empty" in reader.spoken():
                browser.keys(number)
                heard.append("written" if f"{at}{number}" in reader.spoken() else reader.spoken())
            else:
                heard.append("given" if f"{at}given {number}" in reader.spoken() else reader.spoken())
            browser.keys(Keys.ARROW_RIGHT)
        browser.keys(Keys.ARROW_DOWN, *[Keys.ARROW_LEFT] * 8)
    holds("givens are heard, and each number as it is written", set(heard) == {"given", "written"}, heard)


def protests(place, browser, reader):
    """Once the round is over."""
    place.begin_at(time.time() - 60 * MINUTES - 5, "k")
    browser.go("#/r/k")
    browser.reload()
    holds("protests are found by Tab", reader.tab_to("link", "Protests"), reader.focused())
    browser.keys(Keys.ENTER)
    until(lambda: browser.count("#words"))
    named(reader)
    holds("so is the puzzle", reader.tab_to("combobox", "Puzzle"), reader.focused())
    browser.keys(Keys.TAB, *"The corner is unclear.")
    holds("the text has its label for a name", reader.focused()[1].startswith("What is wrong"), reader.focused())
    holds("and its button", reader.tab_to("button", "Make the protest"), reader.focused())
    browser.keys(Keys.ENTER)
    holds("that it stands is heard", until(lambda: "The corner is unclear." in reader.spoken()), reader.spoken())


def rules(place, browser, reader):
    """From the door of staff's page to the ruling, which is heard."""
    browser.driver.get(f"{place.url}staff.html")
    until(lambda: reader.focused()[0] == "textbox")
    browser.keys(*"rex-key-1", Keys.ENTER)
    until(lambda: browser.count("body.in"))
    holds("the referee's view is found by Tab", reader.tab_to("link", "Referee"), reader.focused())
    browser.keys(Keys.ENTER)
    until(lambda: browser.count("#answer"))
    named(reader)
    holds("and the protest", reader.tab_to("button", "eve · By names · puzzle 1 not ruled"), reader.focused())
    browser.keys(Keys.ENTER)
    holds("which has the focus then", until(lambda: reader.focused() == ("heading", "eve on puzzle 1")),
          reader.focused())
    until(lambda: browser.count("#answer"))
    boards = [it.partition(".")[0] for it in reader.names("image") + reader.names("img")]
    holds("answer and solution are told", boards == ["The answer", "The solution"], boards)
    holds("the points are found by Tab", reader.tab_to("spinbutton", "Points"), reader.focused())
    browser.keys("3", Keys.TAB)
    holds("and what rules", reader.focused() == ("button", "Uphold with +3 points …"), reader.focused())
    browser.keys(Keys.ENTER)
    until(lambda: browser.count("dialog[open]"))
    holds("what is asked has a name", reader.names("dialog") == ["Uphold it with +3 points?"], reader.names("dialog"))
    holds("the way back has the focus", reader.focused() == ("button", "Go back"), reader.focused())
    browser.keys(Keys.TAB, Keys.ENTER)
    holds("the ruling is heard", until(lambda: "upheld, +3 points" in reader.spoken()), reader.spoken())
    holds("the focus is on the protest still", reader.focused() == ("heading", "eve on puzzle 1"), reader.focused())
    ruled = [[it["ruling"], it["points"]] for it in place.ask("GET", "/rounds/k/protests", "rex")["protests"]]
    holds("the hall has it", ruled == [["upheld", 3]], ruled)
