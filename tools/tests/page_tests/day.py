"""A whole day by the pages alone: an author, a director, a referee, four entrants and a spectator, in real windows of
one engine, with a round whose start and end come by the clock while pages are open. So that neither is waited for long,
nor comes too soon for a slow machine, the round is moved nearer to them in the hall's file. The hall is killed in its
midst, and so is an entrant's browser.
"""
import contextlib
import os
import subprocess
import sys
import time
from concurrent.futures import ThreadPoolExecutor
from typing import NamedTuple

from harness.checks import check, holds, tell
from harness.running import ROOT
from page_tests import drawn
from page_tests.firefox import DOWN, ENTER, HEAR, LEFT, RIGHT, hand_in, ready, spots
from page_tests.place import MINUTES, Place, none, solved, until
from page_tests.staff_hands import FILL, IS_OFF, PRESS, earlier, kill
from page_tests.windows import windows

FILES = {"sl": "real/slither15.txt", "nu": "real/nurikabe10.txt", "su": "real/sudoku9.txt"}
NAMES = {1: "Slitherlink", 2: "Nurikabe", 3: "Sudoku"}
PLAYERS = ("eve", "fay", "gus", "dan")
TEXT = "An address of puzz.link, a puzzle's text, or the signs of a Sudoku"
FIELDS = {"Id": "day", "Title": "The day", "by the clocks of": "UTC", "Minutes": str(MINUTES),
          "Minutes for protests": str(MINUTES), "Penalty": "5", "Bonus": "2"}
LINES = """return [...document.querySelectorAll(arguments[0])].map((e) => e.innerText.trim())"""
SOON = 8  # so many seconds are left to what is moved nearer
CHOSEN = """return [...document.querySelectorAll('.chosen li')].map((e) => e.dataset.name)"""


class Told(NamedTuple):
    """What a page told of an answer that was handed in."""
    entrant: str
    number: int
    right: bool
    answer: str = None


class Day:
    """The hall, the windows by whose they are, and what pages told."""

    def __init__(self, program, place, engine, pictures, stack):
        self.program, self.place, self.engine, self.pictures, self.stack = program, place, engine, pictures, stack
        self.puzzles = [solved(program, name) for name in FILES.values()]
        self.told, self.rulings = [], {}
        people = ["bob", "dora", "rex", *PLAYERS[:3], "anyone"]
        with ThreadPoolExecutor() as pool:  # to start takes the longest
            of_all, of_dan, self.spare = pool.map(self.browser, ("all", "dan", "spare"))
        self.at = dict(zip(people, windows(of_all, len(people))))
        self.at["dan"] = windows(of_dan, 1)[0]

    def browser(self, name):
        """One more browser of the engine, with its own folder."""
        folder = f"{self.pictures}/{self.engine.__name__.lower()}-{name}"
        os.makedirs(folder, exist_ok=True)
        return self.stack.enter_context(self.engine(folder))

    def enter(self, who, page=""):
        """Somebody enters with the own key, by its keys on the keyboard."""
        at = self.at[who]
        at.load(f"{self.place.url}{page}")
        at.js(HEAR)
        until(lambda: at.js("return document.activeElement.id") == "key")
        at.keys(*f"{who}-key-1", ENTER)
        holds(f"{who} is in", until(lambda: at.count("body.in")))
        return at

    def move(self, seconds, *who):
        """Moves the round so much nearer. Who turns to the own window again has the page ask for the rounds."""
        earlier(self.place, int(seconds))
        for name in who:
            self.at[name].js("document.dispatchEvent(new Event('visibilitychange'))")

    def faults(self, *who):
        """That the code of the pages in these windows had no fault since they were loaded."""
        for name in who:
            none(f"{name}: the page's code had no fault", self.at[name].js("return window.faults ?? []"))


def play(program, engine, pictures):
    begun = time.monotonic()
    with contextlib.ExitStack() as stack:
        place = stack.enter_context(Place(program))
        day = Day(program, place, engine, pictures, stack)
        author(day)
        director(day)
        booklet(day)
        arrive(day)
        solve(day)
        hall_killed(day)
        browser_killed(day)
        ended(day)
        protest(day)
        rule(day)
        publish(day)
        spectator(day)
        nothing_lost(day)
    return time.monotonic() - begun


# --- staff


def fill(at, fields):
    for label, value in fields.items():
        at.js(FILL, label, value)


def press(at, words):
    until(lambda: at.js(IS_OFF, words) is False)
    at.js(PRESS, words)


def agree(at):
    """Says yes to what is asked: what was asked."""
    until(lambda: at.count("dialog[open]"))
    asked = at.text("dialog")
    at.js("document.querySelector('dialog button:nth-of-type(2)').click()")
    until(lambda: not at.count("dialog"))
    return asked


def author(day):
    """Three boards are pasted, seen, put, and have their solutions counted."""
    at = day.enter("bob", "staff.html#/author")
    until(lambda: at.count("textarea"))
    for label, (text, _) in zip(FILES, day.puzzles):
        fill(at, {TEXT: text, "Author": "bob", "Label": label})
        holds(f"{label} is drawn before it is put", until(lambda: at.count(".preview svg.sheet") == 1))
        press(at, "Put the puzzle")
        holds(f"{label} is kept", at.shows(f"bob/{label} is kept", ".paste"), at.text(".paste"))
        at.js("document.querySelector('.paste .certify').click()")
    chips = until(lambda: at.js(LINES, ".stand .chip") == ["one solution"] * len(FILES))
    holds("each has one solution", chips, at.js(LINES, ".stand"))
    at.picture("author")
    day.faults("bob")


def director(day):
    """A round is built from pictures, put and released."""
    at = day.enter("dora", "staff.html#/director/NEW")
    until(lambda: at.count(".card.pick") == len(FILES))
    start = time.strftime("%Y-%m-%dT%H:%M", time.gmtime(time.time() + 3600))
    fill(at, {**FIELDS, "Start": start})
    for label in FILES:
        at.js("document.querySelector(arguments[0]).click()", f".card.pick[data-name='bob/{label}']")
    check("the puzzles are chosen by their pictures", at.js(CHOSEN), [f"bob/{it}" for it in FILES])
    press(at, "Put the draft")
    holds("the draft is kept", at.shows("The hall keeps this draft"), at.text())
    at.picture("draft")
    press(at, "Release")
    asked = agree(at)
    holds("what can't be taken back is asked", "can't be moved, stopped or taken back" in asked, asked)
    holds("the round is released", at.shows("to come;"), at.text())
    day.faults("dora")


# --- entrants


def arrive(day):
    """Four wait for the start, and the puzzles come by themselves."""
    for who in PLAYERS:
        at = day.enter(who)
        at.js("location.hash = '#/r/day'")
        holds(f"{who} waits", at.shows("come by themselves"), at.text())
    day.move(start(day) - time.time() - SOON, *PLAYERS)
    for who in PLAYERS:
        there = until(lambda: day.at[who].count(".cards.puzzles .card svg.sheet") == len(FILES))
        holds(f"the puzzles come to {who} by themselves", there, day.at[who].text())
    check("not before the hall's own start", time.time() >= start(day) - 1, True)
    day.at["eve"].picture("round")


def open_puzzle(day, who, number):
    at = day.at[who]
    at.js("location.hash = arguments[0]", f"#/r/day/{number}")
    ready(at, f"{number}. {NAMES[number]}")
    return at


def draw(day, at, number, but=0):
    """Draws the solution: a loop by clicks, walls by drags, numbers by keys; and leaves so many places out. What was
    missed is told here, and not drawn again: the page had shown something else than it took."""
    text, answer = day.puzzles[number - 1]
    if number == 3:
        for row in range(9):
            at.keys(*(key for sign in answer[9 * row:9 * row + 9] for key in (sign, RIGHT)), DOWN, *[LEFT] * 8)
        return
    ink, places = (".line", drawn.sides(text, answer)) if number == 1 else (".wall", drawn.walls(text, answer))
    runs = [[it] for it in places[but:]] if number == 1 else drawn.runs(places[but:])
    at.drags([spots(at, run) for run in runs])
    wanted = len(places) - but
    there = until(lambda: at.count(f".board {ink}") == wanted, 10)
    holds(f"{NAMES[number]}: {wanted} places were clicked, and so many are drawn", there, at.count(f".board {ink}"))


def told(day, at, who, number, right):
    """Waits until the page tells a verdict, and notes it."""
    word = "Right." if right else "Wrong."
    holds(f"{who}'s {NAMES[number]}: {word}", at.shows(word, ".said"), at.text(".said"))
    day.told.append(Told(who, number, right, day.puzzles[number - 1][1] if right else None))


def answer(day, who, number):
    at = open_puzzle(day, who, number)
    draw(day, at, number)
    hand_in(at)
    told(day, at, who, number, True)


def solve(day):
    """Eve's first answer is wrong, after a question; then a board of each kind is right."""
    at = open_puzzle(day, "eve", 1)
    draw(day, at, 1, but=1)
    hand_in(at)
    asked = agree(at)
    holds("an unfinished board asks first", "loose end" in asked, asked)
    told(day, at, "eve", 1, False)
    at.drags([spots(at, drawn.sides(*day.puzzles[0])[:1])])
    hand_in(at)
    told(day, at, "eve", 1, True)
    at.picture("right")
    answer(day, "dan", 3)
    answer(day, "fay", 2)


def hall_killed(day):
    """Gus hands in while the hall is dead. What he draws meanwhile stays, and his answer comes once the hall is back,
    whoever looks at it."""
    at = open_puzzle(day, "gus", 2)
    draw(day, at, 2)
    kill(day.place)
    hand_in(at)
    holds("that no hall is there is told", until(lambda: at.text("#trouble")))
    holds("nothing is told of the answer", "Right." not in at.text(".said"), at.text(".said"))
    other = open_puzzle(day, "eve", 2)
    draw(day, other, 2)
    day.place.start_hall()
    for one in (at, other):
        one.js("document.querySelector('#trouble button')?.click()")
    told(day, at, "gus", 2, True)
    hand_in(other)
    told(day, other, "eve", 2, True)


def browser_killed(day):
    """Dan's browser is lost with half a board. In another one all that he handed in is there, and he goes on."""
    at = open_puzzle(day, "dan", 2)
    draw(day, at, 2, but=2)
    at.browser.kill()
    day.at["dan"] = windows(day.spare, 1)[0]
    at = day.enter("dan")
    at.js("location.hash = '#/r/day/3'")
    solved_before = until(lambda: at.text("button.hand") == "Solved")
    holds("in another browser dan's answer is there", solved_before, at.text())
    answer(day, "dan", 2)


def ended(day):
    """The end comes by the clock, and the pages say so by themselves."""
    at = open_puzzle(day, "gus", 3)
    check("a board is open", at.text("button.hand").startswith("Hand in"), True)
    day.move(start(day) + 60 * MINUTES - time.time() - SOON, "gus")
    holds("the end is told where it is open", until(lambda: at.text("button.hand") == "The round is over"),
          at.text("button.hand"))
    late = time.time() - start(day) - 60 * MINUTES
    holds("not before the hall's own end", late >= -1, late)
    check("and nothing can be handed in", at.js("return document.querySelector('button.hand').disabled"), True)


def start(day):
    """When the round begins, by the hall."""
    return day.place.ask("GET", "/rounds", "dora")["rounds"][0]["start"]


# --- after the round


def protest(day):
    for who, number, words in (("eve", 1, "The corner can be read twice."), ("fay", 2, "My mouse slipped.")):
        at = day.at[who]
        at.js("location.hash = '#/r/day/protests'")
        until(lambda: at.count("#words"))
        at.js("document.querySelector('#which').value = arguments[0]", number)
        at.js("document.querySelector('#words').focus()")
        at.keys(*words)
        at.js("document.querySelector('form.form button.main').click()")
        holds(f"{who}'s protest stands", at.shows("open", ".protest"), at.text())


def rule(day):
    """Each in two clicks: eve's is upheld, and fay's rejected."""
    at = day.enter("rex", "staff.html#/referee/day")
    for who, number, button, word in (("eve", 1, ".uphold", "upheld, +3 points"), ("fay", 2, ".reject", "rejected")):
        shown = at.shows(f"{who} on puzzle {number}", ".protest-view h2")
        holds(f"{who}'s protest is shown beside the answer", shown and until(lambda: at.count("#answer")), at.text())
        if button == ".uphold":
            at.js("const e = document.querySelector('#points'); e.value = '3';"
                  "e.dispatchEvent(new Event('input', { bubbles: true }));")
        at.js("document.querySelector(arguments[0]).click()", button)
        agree(at)
        holds(f"{who}'s protest is ruled", at.shows(word, ".protest-view"), at.text(".protest-view"))
        day.rulings[who] = word
        at.picture(f"ruled-{who}")
        if who == "eve":
            at.js("document.querySelector('.next button').click()")
    day.faults("rex")


def publish(day):
    """Once the time for protests is over."""
    day.move(60 * MINUTES + 1)
    at = day.at["dora"]
    at.reload()
    at.js(HEAR)
    holds("the round is closed", at.shows("it may be published"), at.text())
    press(at, "Publish the table")
    agree(at)
    holds("the table is published", at.shows("For spectators"), at.text())
    day.table = [line.split() for line in day.place.ask("GET", "/rounds/day/table", "eve").splitlines()]
    rows = until(lambda: [it.split() for it in at.js(LINES, ".wide tbody tr")])
    check("the director sees the hall's table", rows, day.table)
    day.faults("dora")


# --- the spectator, who reads what `hallctl site` wrote


def written(day):
    """Has the director's hallctl write the site: its address."""
    key, folder = f"{day.place.room}/dora.key", f"{day.place.room}/site"
    with open(os.open(key, os.O_WRONLY | os.O_CREAT, 0o600), "w", encoding="ascii") as file:
        file.write("dora-key-1\n")
    words = [sys.executable, f"{ROOT}/clients/hallctl/hallctl", "--url", f"http://127.0.0.1:{day.place.back}",
             "--key-file", key, "site", folder, "--title", "Spring Open"]
    ran = subprocess.run(words, capture_output=True, text=True, timeout=60, check=False)
    check("hallctl site", (ran.returncode, ran.stderr if ran.returncode else ""), (0, ""))
    return f"file://{folder}/index.html"


def follow(at, words):
    """Follows the link with these words, and waits for where it leads."""
    before = at.js("return location.href")
    at.js("[...document.querySelectorAll('a')].find((e) => e.innerText.trim() === arguments[0]).click()", words)
    until(lambda: at.js("return location.href") != before and at.js("return document.readyState") == "complete")


def booklet(day):
    at = day.at["anyone"]
    at.load(written(day))
    holds("a spectator reads of the round", at.shows("The day", "body"), at.text("body"))
    follow(at, "The day")
    holds("and of its puzzles' kinds", until(lambda: all(it in at.text("body") for it in NAMES.values())),
          at.text("body"))
    check("with no pictures but those of their rules", at.count("svg"), 2 * len(NAMES))
    at.picture("booklet")


def spectator(day):
    at = day.at["anyone"]
    at.load(written(day))
    follow(at, "The day")
    rows = [it.split() for it in at.js(LINES, "table tbody tr")]
    holds("a spectator sees the hall's table", [it for it in rows if it in day.table] == day.table, rows)
    holds("and each puzzle with its solution", at.count("svg") == 2 * len(FILES), at.count("svg"))
    at.picture("spectator")


# --- what the hall tells of it all


def nothing_lost(day):
    """Whatever a page told as handed in stands with the hall, once; so do the rulings, and the points follow."""
    stands = day.place.ask("GET", "/rounds/day/answers", "dora")["answers"]
    got = [Told(it["entrant"], it["number"], it["verdict"] == "right") for it in stands]
    check("the answers that the hall has", sorted(got), sorted(it._replace(answer=None) for it in day.told))
    texts = {(it["entrant"], it["number"]): it["answer"] for it in stands if it["verdict"] == "right"}
    wanted = {(it.entrant, it.number): it.answer for it in day.told if it.right}
    check("right ones are what was drawn", texts, wanted)
    check("each token stands once", len({(it["entrant"], it["token"]) for it in stands}), len(stands))
    ruled = {it["entrant"]: it["ruling"] for it in day.place.ask("GET", "/rounds/day/protests", "rex")["protests"]}
    check("the rulings", ruled, {who: words.split(",")[0] for who, words in day.rulings.items()})
    totals = {name: int(points) for _, name, points in day.table}
    check("the table's totals", totals, {who: points(day, who) for who in PLAYERS})
    tell(f"{day.engine.__name__}: {len(stands)} answers told and kept")
    for who in PLAYERS:
        own_answers(day, who)


def points(day, who):
    """What the rules of points give: 40 for each right one, less 5 for each wrong one before, and 3 by the ruling."""
    own = [it for it in day.told if it.entrant == who]
    right, wrong = sum(it.right for it in own), sum(not it.right for it in own)
    return 40 * right - 5 * wrong + (3 if who == "eve" else 0)


def own_answers(day, who):
    """The entrant's own page lists them too, and shows the table."""
    at = day.at[who]
    at.js("location.hash = '#/r/day/answers'")
    count = sum(it.entrant == who for it in day.told)
    seen = until(lambda: at.count(".outcome") == len(FILES) and at.count(".past li") == count)
    holds(f"{who}'s page lists {count} answers", seen, at.text())
    at.js("location.hash = '#/r/day/table'")
    rows = until(lambda: [it.split() for it in at.js(LINES, "tbody tr")])
    check(f"{who} sees the table", rows, day.table)
    day.faults(who)
