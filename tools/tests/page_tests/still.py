"""A board stands still and keeps its scale, whatever comes and goes by itself while one draws: the banners, and what is
said of an answer. So the hand of one who saw the board before draws what it means. In a wide window, in a narrow one in
which scroll bars may come, and on a phone."""
from harness.checks import check, holds
from page_tests import drawn
from page_tests.chromium import Browser
from page_tests.contrasts import told_apart
from page_tests.place import Place, none, solved, until

PUZZLE = "real/nurikabe10.txt"
# Notes each place and size that the board has from now on, by frames.
WATCH = """window.boxes = new Set();
const look = () => {
  const { left, top, width, height } = document.querySelector('.board svg').getBoundingClientRect();
  window.boxes.add([left, top, width, height].join(' '));
  requestAnimationFrame(look);
};
look();"""
TURN = "document.dispatchEvent(new Event('visibilitychange'))"  # to a page again, which then asks the hall
FULL = "Storage.prototype.setItem = () => { throw new Error('full'); };"
WALLS = """const { cols } = arguments[0];
return [...document.querySelectorAll('.board .wall')].map((e) => [e.x.baseVal.value, e.y.baseVal.value])
  .map(([x, y]) => Math.floor(y / 40) * cols + Math.floor(x / 40)).sort((a, b) => a - b)"""
# What of this isn't seen where one has scrolled so far: it lies elsewhere, or something over it. All in one frame, in
# which WATCH doesn't look.
COVERED = """scrollTo(0, arguments[1]);
const found = arguments[0].filter((css) => {
  const e = document.querySelector(css), { left, top, width, height } = e.getBoundingClientRect();
  return !e.contains(document.elementFromPoint(left + width / 2, top + height / 2));
});
scrollTo(0, 0);
return found"""
LEAVES = "return document.querySelector('#leave').checkVisibility()"
CUT = """return [...document.querySelectorAll('.banner span')].filter((e) => e.scrollHeight > e.clientHeight + 1)
  .map((e) => e.textContent)"""
# How high the window is to be, so that a few pixels are left below the page as it is.
JUST = """const whole = document.documentElement.scrollHeight, board = document.querySelector('.board').clientHeight;
return Math.ceil((whole - board) / (1 - board / innerHeight)) + 12 + outerHeight - innerHeight"""
IS_WIDE = """const board = document.querySelector('.board'), { width } = board.firstChild.getBoundingClientRect();
return Math.abs(board.clientWidth - 4 - width) < 1"""
IS_LONG = "return document.documentElement.scrollHeight > innerHeight"


def trial(program, pictures):
    puzzle = solved(program, PUZZLE)
    with Place(program) as place:
        place.put_puzzle("nu", puzzle[0])
        place.put_begun_round("r", "Walls", ["nu"])
        for who, name, how in (("eve", "a wide window", {}), ("fay", "a narrow window", {"size": (640, 900)}),
                               ("gus", "a phone", {"phone": True})):
            with Browser(place, pictures, **how) as browser:
                browser.enter(who)
                browser.open("r", 1, "Nurikabe")
                if name == "a narrow window":
                    browser.driver.set_window_size(640, browser.js(JUST))
                    holds(f"{name}: the board is laid out anew", until(lambda: browser.js(IS_WIDE)))
                Hand(place, browser, name, puzzle).draw()
                if name == "a narrow window":
                    check(f"{name}: what was said made the page longer than it", browser.js(IS_LONG), True)
                none(f"{name}: the page's code had no fault", browser.faults())


class Hand:
    """Who saw the board once, and goes by that."""

    def __init__(self, place, browser, name, puzzle):
        self.place, self.browser, self.name = place, browser, name
        self.cols, self.cells = drawn.size(puzzle[0])[0], drawn.walls(*puzzle)
        self.spots, self.done, self.missed = [browser.spot(*it) for it in self.cells], 0, False

    def draw(self):
        browser, place, name = self.browser, self.place, self.name
        browser.js(WATCH)
        self.tap(10, "while the hall is there")
        place.stop_hall()
        browser.js(TURN)
        holds(f"{name}: that the hall is away is told", until(lambda: browser.text("#trouble")))
        self.tap(20, "once that is told")
        browser.js(FULL)
        self.tap(30, "as the browser is full")
        holds(f"{name}: that it is full is told", until(lambda: browser.text("#store")))
        self.tap(len(self.cells), "beside both banners")
        none(f"{name}: the board stands still", self.moves())
        if self.missed:
            place.start_hall()  # for the next one
            return
        self.banners()
        browser.hand_in()
        holds(f"{name}: an answer is on its way", browser.shows("goes again", ".said"), browser.text())
        place.start_hall()
        browser.try_now()
        holds(f"{name}: what was tapped is right", browser.shows("Right.", ".said"), browser.text(".said"))
        holds(f"{name}: the banner goes", until(lambda: not browser.text("#trouble")), browser.text("#trouble"))
        none(f"{name}: the board stands still when it is over", self.moves())

    def moves(self):
        """Where the board stood, if not always at one place; a move may take some frames."""
        return until(lambda: len(found := self.browser.js("return [...window.boxes]")) > 1 and found, 2)

    def tap(self, until_then, when):
        """Taps on further cells, where they were at first."""
        browser = self.browser
        for spot in self.spots[self.done:until_then]:
            if self.name == "a phone":
                browser.touch("Start", spot)
                browser.touch("End")
            else:
                browser.mouse("Pressed", spot)
                browser.mouse("Released", spot, buttons=0)
        self.done = until_then
        wanted = sorted(int(y) * self.cols + int(x) for x, y in self.cells[:until_then])
        got = browser.js(WALLS, {"cols": self.cols})
        self.missed |= got != wanted
        check(f"{self.name}: {when} what is tapped is drawn", got, wanted)

    def banners(self):
        """Both at once hide nothing that one draws by, can be read, and one of them can be pushed."""
        browser, name = self.browser, self.name
        browser.picture(f"still-{name.replace(' ', '-')}")
        seen = [".countdown", ".bar h1", "#trouble span", "#store span", "#trouble button"]
        wide = ["button.hand", "#leave", ".home"] if name == "a wide window" else []
        none(f"{name}: covered by a banner", browser.js(COVERED, seen + wide, 0))
        if wide:
            none(f"{name}: of the banners' words is cut", browser.js(CUT))
        else:
            none(f"{name}: covered, where one has scrolled", browser.js(COVERED, seen[2:], 99))
            check(f"{name}: no finger that draws comes on Leave", browser.js(LEAVES), False)
        told_apart(browser, f"{name} with both banners")
