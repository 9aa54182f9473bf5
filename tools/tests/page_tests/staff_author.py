"""An author at the staff's page: pastes, sees, puts, and has solutions counted, also while the hall is killed."""
from selenium.webdriver.common.keys import Keys

from harness.checks import check, holds
from page_tests.place import Place, none, solved, until
from page_tests.staff_hands import HEAR, Staff, kill, standing_still

ADDRESS = "https://puzz.link/p?slitherlink/v:/{}"
MANY = 60  # puzzles, of which few are in view
TEXT = "An address of puzz.link, a puzzle's text, or the signs of a Sudoku"
OPEN = "sudoku/9/9/zzzzz"  # an empty Sudoku, which has many solutions
WRONG = "1" * 16  # and one that has none
# A machine that goes away in the midst: two requests for a certificate have no reply.
GONE = """const there = fetch; let left = 2;
window.fetch = (path, how) => (path.endsWith('/certificate') && left-- > 0
  ? new Promise((_, fail) => how.signal.addEventListener('abort', fail)) : there(path, how));"""
CARD = ".card.puzzle[data-name='bob/{}']"


def trial(program, pictures):
    with Place(program) as place:
        loop = solved(program, "slither.txt")[0]
        with Staff(place, pictures) as browser:
            browser.before_load(HEAR)
            strangers(browser)
            browser.enter_staff("bob", "author")
            holds("an author without puzzles is told so", browser.shows("There is none yet"))
            no_puzzle(browser)
            put(place, browser, loop)
            certify(place, browser)
            machine_gone(place, browser)
            outcomes(place, browser)
            refused(place, browser, loop)
            as_far_as_told(browser)
            few_at_a_time(place, browser)
            browser.looks("author")
            none("every control has a name", browser.nameless())
            kept_apart(browser)
            none("the page's code had no fault", browser.faults())
        with Staff(place, pictures, phone=True) as browser:
            browser.enter_staff("dora", "author")
            standing(browser)
            browser.looks("author-phone")
            of_an_entrant(place, browser)
            none("on a phone neither", browser.faults())


def strangers(browser):
    browser.enter_staff("eve", "author")
    holds("an entrant is told that the roles don't allow it", browser.shows("Your roles don't allow this"))
    browser.looks("author-refused")
    browser.go("#/")
    holds("what there is to do is offered to all", browser.shows("What do you want to do?"))
    browser.looks("staff-home")
    browser.leave()
    holds("who left is asked for a key", browser.shows("Your key"))


def svg(browser):
    return browser.count(".preview svg.sheet")


def no_puzzle(browser):
    """What is wrong is told, all at once, and nothing is sent."""
    browser.press("Put the puzzle")
    told = browser.text(".paste")
    lacks = [it for it in ("Paste a puzzle", "Write your name", "Write a label") if it not in told]
    none("each empty field is told", lacks)
    browser.fill(TEXT, "https://puzz.link/p?slither/2/2/22f2")
    holds("a text that is no puzzle is told", browser.shows("This sign begins no clue"), browser.text())
    check("and where", browser.text(".paste mark"), "f")
    check("and isn't drawn", svg(browser), 0)
    browser.fill("Author", "Bob")
    browser.fill("Label", "a b")
    browser.press("Put the puzzle")
    check("wrong names are told beside it", browser.text(".paste").count("1 to 24 of a to z"), 2)
    none("nothing was sent", browser.asked("PUT"))


def put(place, browser, loop):
    """A puzzle is put while the hall is killed: it comes once the hall is back."""
    _, cols, rows, body = loop.split("/")
    browser.fill(TEXT, f"  {ADDRESS.format('/'.join((cols, rows, body)))}\n")
    holds("what is pasted is drawn", until(lambda: svg(browser) == 1))
    told = browser.text(".paste")
    holds("what was mended is told", "slitherlink was read as slither" in told and "flag v: was taken" in told, told)
    holds("and before it is put nothing goes anywhere", not browser.asked("PUT"))
    browser.fill("Author", "bob")
    browser.fill("Label", "loop")
    browser.picture("author-pasted")
    kill(place)
    browser.press("Put the puzzle")
    holds("a hall that is away is told", browser.shows("Trying again", "#trouble"))
    browser.go("#/director")
    place.start_hall()
    browser.try_now()
    kept = until(lambda: place.ask("GET", "/puzzles/bob/loop", "bob").get("text") == loop)
    holds("a put that a walk to another view left goes on", kept)
    browser.go("#/author")
    holds("and the puzzle stands in the list", until(lambda: browser.count(f"{CARD.format('loop')} svg.sheet")))
    check("the author is known by then", browser.js("return document.querySelector('.paste input').value"), "bob")


def chip(browser, label):
    return browser.text(f"{CARD.format(label)} .stand .chip")


def certify(place, browser):
    """A certificate waits, with a sign; a walk, a reload and a kill of the hall change nothing."""
    holds("a new puzzle says so", chip(browser, "loop") == "not searched yet", chip(browser, "loop"))
    with standing_still(place):
        browser.press("Count its solutions")
        holds("a search under way has a sign", until(lambda: "being searched 0:0" in chip(browser, "loop")),
              chip(browser, "loop"))
        holds("and that leaving doesn't stop it is told", "The hall searches on" in browser.text(CARD.format("loop")))
        browser.picture("author-searched")
        browser.go("#/director")
        browser.go("#/author")
        holds("it stays after a walk", until(lambda: "being searched" in chip(browser, "loop")), chip(browser, "loop"))
        kill(place)
    browser.reload()
    place.start_hall()
    browser.try_now()
    holds("after a reload and a kill of the hall it is asked again",
          until(lambda: chip(browser, "loop") == "one solution"), chip(browser, "loop"))
    check("and the hall says the same", place.ask("GET", "/puzzles/bob/loop", "bob")["state"], "one")
    none("nothing of it is kept", browser.js("return JSON.parse(sessionStorage['hall.searches'])"))


def machine_gone(place, browser):
    for label in ("gone", "second"):
        place.ask("PUT", f"/puzzles/bob/{label}", "bob", {"text": "sudoku/4/4/123434122143432g"})
    browser.reload()
    until(lambda: chip(browser, "gone"))
    browser.js(GONE)
    browser.push(f"{CARD.format('gone')} .certify")
    until(lambda: "being searched" in chip(browser, "gone"))
    browser.push(f"{CARD.format('second')} .certify")
    second = until(lambda: "waits for your other search" in chip(browser, "second"))
    kill(place)
    holds("that the hall is away is seen by what else is asked", browser.shows("Trying again", "#trouble"))
    place.start_hall()
    browser.try_now()
    holds("meanwhile a second search waits for the first", second, chip(browser, "second"))
    holds("and once it is back, a certificate without a reply is asked for again",
          until(lambda: chip(browser, "gone") == chip(browser, "second") == "one solution"), chip(browser, "gone"))


def outcomes(place, browser):
    for label, text, words in (("open", OPEN, "There is more than one"), ("wrong", WRONG, "A clue contradicts")):
        browser.fill(TEXT, text)
        browser.fill("Author", "bob")
        browser.fill("Label", label)
        browser.press("Put the puzzle")
        holds(f"{label} is kept", browser.shows(f"bob/{label} is kept", ".paste"))
        browser.press("Count its solutions")
        holds(f"{label}: what its outcome means is told", until(lambda: words in browser.text(CARD.format(label))),
              browser.text(CARD.format(label)))
    place.ask("PUT", "/puzzles/bob/hard", "bob", {"text": "slither/20/20/z3"})
    place.ask("POST", "/puzzles/bob/hard/certificate", "bob", {"budget": 1})
    browser.reload()
    holds("a search that gave up is told", until(lambda: chip(browser, "hard") == "undecided"))
    browser.js("document.querySelector(arguments[0]).open = true", f"{CARD.format('hard')} details")
    home = "echo 'slither/20/20/"
    holds("with the command to try at home", until(lambda: home in browser.text(f"{CARD.format('hard')} code")))
    told = browser.text(f"{CARD.format('hard')} code")
    holds("and its budget", told.endswith("| hall solve --budget 200000"), told)


def refused(place, browser, loop):
    """Another's name, a puzzle of a released round, and a label that is there already."""
    place.put_begun_round("r", "Begun", ["loop"])
    for author, label, text, words in (("rex", "mine", OPEN, "This author isn't you"),
                                       ("bob", "loop", OPEN, "stands in a released round")):
        browser.fill(TEXT, text)
        browser.fill("Author", author)
        browser.fill("Label", label)
        browser.press("Put the puzzle")
        if label == "loop":
            until(lambda: browser.count("dialog[open]"))
            holds("a label that is there is asked for", "takes its place" in browser.text("dialog"))
            browser.choose(2)
        holds(f"{author}/{label} is refused in words", browser.shows(words, ".paste"), browser.text(".paste"))
    check("and the puzzle stays", place.ask("GET", "/puzzles/bob/loop", "bob")["text"], loop)


def as_far_as_told(browser):
    """Who is an author alone is told which rounds are released, and that no more is told."""
    browser.keys(Keys.TAB)
    browser.reload()
    words = "Released: Begun (r). Which puzzles stand there, the hall doesn't tell who is an author alone"
    holds("an author alone reads what is released, and that no more is told", browser.shows(words), browser.text())


def of_an_entrant(place, browser):
    """An author who is an entrant too is told of rounds with an own puzzle, and sees others from their start on."""
    place.ask("POST", "/people", "dora", "name,key,roles\namy,amy-key-1,author+entrant\n")
    place.put_puzzle("own", "sudoku/4/4/123434122143432g", "amy")
    place.put_begun_round("o", "Own", ["own"], author="amy")
    browser.leave()
    browser.enter_staff("amy", "author")
    words = "One of your own puzzles stands in Own (o); which one, the hall doesn't tell."
    holds("an author who is an entrant too reads of the own round", browser.shows(words), browser.text())
    holds("and nothing of the others, which are told", "(r)" not in browser.text(), browser.text())


def few_at_a_time(place, browser):
    for number in range(MANY):
        place.ask("PUT", f"/puzzles/bob/many-{number:02}", "bob", {"text": f"slither/30/{number % 9 + 1}/2"})
    browser.keys(Keys.TAB)  # a browser asks whether to reload only whom it has seen to do something
    browser.reload()
    until(lambda: browser.count(".card.puzzle") > MANY and browser.count(".card.puzzle svg.sheet") > 3)
    asked = [it for it in browser.asked("GET /puzzles/bob/")]
    holds("only texts of pictures in view are asked for", 0 < len(asked) < MANY / 2, len(asked))
    last = CARD.format(f"many-{MANY - 1:02}")
    browser.js("document.querySelector(arguments[0]).scrollIntoView()", last)
    holds("the others once they come into view", until(lambda: browser.count(f"{last} svg.sheet") == 1))
    browser.push(".choices input")
    hidden = browser.js("return document.querySelector(arguments[0]).offsetParent === null", CARD.format("loop"))
    holds("what is ready can be left out", hidden)
    browser.push(".choices input")
    browser.js("scrollTo(0, 0)")


def kept_apart(browser):
    kept = browser.js("return Object.values(localStorage)")
    none("the key is in the tab alone", [it for it in kept if "key-1" in it])
    holds("and in no address", "key-1" not in browser.driver.current_url)


def standing(browser):
    """A director sees in which rounds puzzles stand."""
    told = until(lambda: "in r" in browser.text(CARD.format("loop")))
    holds("a director sees in which round a puzzle stands", told, browser.text(CARD.format("loop")))
    wide = browser.js("return document.documentElement.scrollWidth - innerWidth")
    holds("nothing is wider than a phone", wide <= 0, wide)
