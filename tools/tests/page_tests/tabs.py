"""Two tabs of one person, two people of one browser, and what is thrown away."""
import time

from harness.checks import holds
from page_tests.chromium import Browser
from page_tests.place import Place, none, solved, until

WALLS = ".board .wall"
# A computer whose clock is a year ahead: nothing may be thrown away by it.
WRONG_CLOCK = "const now = Date.now; Date.now = () => now() + 366 * 86400000;"


def trial(program, pictures):
    want = holds
    with Place(program) as place:
        for label, name in (("sl", "slither.txt"), ("nu", "nurikabe.txt")):
            place.put_puzzle(label, solved(program, name)[0])
        place.put_begun_round("r", "Walls", ["nu"])
        place.put_begun_round("e", "Lines", ["sl"], mode="sealed", penalty=0)
        with Browser(place, pictures) as browser:
            browser.before_load(WRONG_CLOCK)
            browser.enter("eve")
            two_people(browser, want)
            two_tabs(browser, want)
            other_tab_unheard(browser, want)
            letters_of_two_tabs(place, browser, want)
            swept(browser, want)
            none("the page's code had no fault", browser.faults())


def two_people(browser, want):
    browser.open("r", 1, "Nurikabe")
    browser.wall()
    want("eve's wall is drawn", browser.count(WALLS) == 1)
    for who, walls in (("fay", 0), ("eve", 1)):
        browser.leave()
        want("no key's end is told any more", browser.text("#whose") == "", browser.text("#whose"))
        browser.go("#/")
        browser.give_key(f"{who}-key-1")
        until(lambda: browser.count("body.in"))
        browser.open("r", 1, "Nurikabe")
        want(f"{who} of the same browser sees {walls} walls", browser.count(WALLS) == walls, browser.count(WALLS))
        want("and how the key ends", browser.text("#whose") == "Key …y-1", browser.text("#whose"))


class Tabs:
    """Two tabs of one person."""

    def __init__(self, browser, url):
        self.browser, self.first = browser, browser.driver.current_window_handle
        browser.driver.switch_to.new_window("tab")
        self.second = browser.driver.current_window_handle
        browser.enter("eve", url)

    def to(self, tab):
        self.browser.driver.switch_to.window(tab)

    def end(self):
        self.to(self.second)
        self.browser.driver.close()
        self.to(self.first)


def two_tabs(browser, want):
    """Each tab sees what the other draws, and neither overwrites it."""
    tabs = Tabs(browser, browser.place.url)
    browser.open("r", 1, "Nurikabe")
    want("a second tab has what the first drew", browser.count(WALLS) == 1)
    browser.wall(3)
    tabs.to(tabs.first)
    want("the first tab sees what the second drew", until(lambda: browser.count(WALLS) == 2), browser.count(WALLS))
    browser.wall(5)
    browser.push("button[aria-label^=Undo]")
    browser.push("button[aria-label^=Undo]")
    want("undo in one tab takes back strokes of both", browser.count(WALLS) == 1, browser.count(WALLS))
    browser.push("button[aria-label^=Redo]")
    tabs.to(tabs.second)
    want("and the other tab sees it", until(lambda: browser.count(WALLS) == 2), browser.count(WALLS))
    tabs.end()


def other_tab_unheard(browser, want):
    """Another tab's stroke that the browser never told of is taken over before this tab draws."""
    browser.js("""const name = Object.keys(localStorage).find((name) => /^hall.drawing.*[.]r[.]1$/.test(name));
const kept = JSON.parse(localStorage[name]);
const place = kept.marks.findLastIndex((mark, i) => mark === 0 && i !== arguments[0]);
kept.marks[place] = 2;
kept.past.push([place, 0, 2]);
localStorage[name] = JSON.stringify(kept);""", 0)
    browser.wall(2)
    drawn = next(value for name, value in browser.kept("hall.drawing.").items() if name.endswith(".r.1"))
    want("a stroke of another tab that wasn't heard of stays", browser.count(".board .spot") == 1
         and 2 in drawn["marks"] and drawn["marks"].count(1) == browser.count(WALLS) >= 2, drawn)


def letters_of_two_tabs(place, browser, want):
    """Answers on their way in two tabs are both kept, and each is handed in once."""
    tabs = Tabs(browser, place.url)
    browser.open("e", 1, "Slitherlink")
    browser.keys("d")
    tabs.to(tabs.first)
    browser.open("r", 1, "Nurikabe")
    place.stop_hall()
    for tab in (tabs.first, tabs.second):
        tabs.to(tab)
        browser.hand_in()
        browser.choose(2)
    want("both are kept", until(lambda: len(browser.kept("hall.letter.")) == 2), browser.kept("hall.letter."))
    tabs.end()
    place.start_hall()
    browser.try_now()
    want("both come to the hall once, also that of the closed tab", until(lambda: [len(place.answers(one, "eve"))
         for one in "er"] == [1, 1]), [place.answers(one, "eve") for one in "er"])
    want("and none is kept any more", until(lambda: not browser.kept("hall.letter.")), browser.kept("hall.letter."))


def swept(browser, want):
    """What is of past rounds goes, and nothing else."""
    browser.js("""const [now] = arguments, keep = (name, end) =>
  localStorage.setItem(`hall.drawing.${name}`, JSON.stringify({ end, text: 't', marks: [], past: [], future: [] }));
keep('0.old.1', now - 90000);
keep('0.young.1', now - 80000);""", int(time.time()))
    browser.reload()
    want("drawings of past rounds are thrown away", until(lambda: not browser.kept("hall.drawing.0.old")))
    want("those of a day ago aren't, nor those of rounds that run", browser.kept("hall.drawing.0.young")
         and any(name.endswith(".r.1") for name in browser.kept("hall.drawing.")))
