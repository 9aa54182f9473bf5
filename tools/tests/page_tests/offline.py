"""A reload while the hall is away, or the network: the page comes from its worker, the puzzle and what was drawn from
the browser's own store, and drawing goes on."""
from selenium.webdriver.common.keys import Keys

from harness.checks import holds
from page_tests.chromium import Browser
from page_tests.place import Place, none, solved, until

WALLS = ".board .wall"
# A computer whose clock is two hours behind: as if the round hadn't begun.
BEHIND = "const now = Date.now; Date.now = () => now() - 7200000;"
# The paths of the files that the worker keeps, and what a request to the hall comes to.
KEPT = """const cache = await caches.open('page');
return (await cache.keys()).map(({ url }) => new URL(url).pathname);"""
ASKED = """const done = arguments[arguments.length - 1];
fetch('/rounds').then((reply) => done(reply.status), () => done('no reply'));"""
# As if the rounds of which something is kept had ended long ago.
LATER = """location.hash = '#/';
for (const name of Object.keys(localStorage).filter((name) => name.startsWith('hall.sheet.'))) {
  localStorage[name] = localStorage[name].replace(/^{"end":\\d+/, '{"end":1700000000');
}"""
SOON = 15  # seconds in which what is kept is shown


def trial(program, pictures):
    with Place(program) as place:
        for label, name in (("sl", "slither.txt"), ("nu", "nurikabe.txt")):
            place.put_puzzle(label, solved(program, name)[0])
        place.put_begun_round("r", "Walls", ["nu", "sl"])
        with Browser(place, pictures) as browser:
            browser.before_load(BEHIND)
            browser.enter("eve")
            without_hall(place, browser)
            back(place, browser)
            without_network(place, browser)
            swept(browser)
            none("the page's code had no fault", browser.faults())


def draw(browser, count):
    """So many walls more, by keys, in cells without a number."""
    wanted = browser.count(WALLS) + count
    for _ in range(20):
        if browser.count(WALLS) < wanted:
            browser.keys(Keys.ARROW_RIGHT, "w")


def without_hall(place, browser):
    browser.open("r", 1, "Nurikabe")
    draw(browser, 2)
    place.stop_hall()
    browser.reload()
    holds("a puzzle is shown from the browser's store", browser.shows("1. Nurikabe", ".bar", SOON), browser.text())
    holds("a banner says so", browser.shows("This is what this browser kept", "#trouble"), browser.text("#trouble"))
    holds("with what was drawn", browser.count(WALLS) == 2, browser.count(WALLS))
    draw(browser, 1)
    holds("and drawing goes on", browser.count(WALLS) == 3, browser.count(WALLS))
    browser.picture("offline-puzzle")
    browser.go("#/r/r/2")
    holds("so are the round's other puzzles", browser.shows("2. Slitherlink", ".bar", SOON), browser.text())
    browser.go("#/r/r")
    holds("and its list", browser.shows("begun", ".cards", SOON), browser.text())
    browser.picture("offline-round")
    browser.open("r", 1, "Nurikabe")
    browser.hand_in()
    browser.choose(2)
    holds("an answer is kept meanwhile", until(lambda: browser.kept("hall.letter.")))


def back(place, browser):
    place.start_hall()
    browser.try_now()
    holds("once the hall is back the answer is received", until(lambda: len(place.answers("r", "eve")) == 1))
    holds("and told", browser.shows("Wrong.", ".said"), browser.text(".said"))
    holds("and the banner is gone", until(lambda: not browser.text("#trouble")), browser.text("#trouble"))
    holds("what was drawn meanwhile stands", browser.count(WALLS) == 3, browser.count(WALLS))

def swept(browser):
    """What is kept of a round whose end is more than a day ago goes."""
    browser.js(LATER)
    browser.reload()
    kept = until(lambda: not browser.kept("hall.sheet."))
    holds("what is kept of a round goes a day after its end", kept, browser.kept("hall.sheet."))


def without_network(place, browser):
    """Nothing answers at all: the page comes from its worker, and the puzzle from the browser's store."""
    browser.open("r", 1, "Nurikabe")
    before = browser.count(WALLS)
    paths = until(lambda: (found := browser.js(KEPT)) and "/" in found and "/page/words/en.js" in found and found)
    holds("the worker keeps the page's files", paths, paths)
    place.stop_hall()
    place.kill_proxy()
    browser.reload()
    holds("a reload without a network shows the puzzle", browser.shows("1. Nurikabe", ".bar", SOON), browser.text())
    holds("and what was drawn", browser.count(WALLS) == before, browser.count(WALLS))
    holds("that there is no connection is told", browser.shows("No connection", "#trouble"), browser.text("#trouble"))
    draw(browser, 1)
    browser.picture("offline-network")
    told = browser.driver.execute_async_script(ASKED)
    holds("the worker never answers for the hall", told == "no reply", told)
    browser.hand_in()
    browser.choose(2)
    place.start_hall()
    place.start_proxy()
    browser.try_now()
    holds("once the network is back the answer is received", until(lambda: len(place.answers("r", "eve")) == 2))
    paths = browser.js(KEPT)
    none("nothing of the hall's is kept as a file", [it for it in paths if it != "/" and not it.startswith("/page/")])
