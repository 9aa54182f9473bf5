"""A phone that is 390 points wide, in each language: nothing is wider, what a card says lies within it, and points
stand beside the time that is left. And a round of forty large boards, each drawn once, and not all in one go."""
from harness.checks import check, holds
from page_tests.chromium import Browser
from page_tests.languages import WORDS
from page_tests.place import Place, none, solved, until

FILES = {"sl": "real/slither15.txt", "nu": "nurikabe.txt", "su": "real/sudoku9.txt"}
LARGE, MANY = "real/slither50.txt", 40
# What lies beyond its card, or beyond the window.
BEYOND = """const edge = (e) => e.getBoundingClientRect().right, seen = (e) => e.checkVisibility();
const cards = [...document.querySelectorAll('.card *')].filter((e) => !e.closest('svg') && seen(e)
  && edge(e) > edge(e.closest('.card')) - parseFloat(getComputedStyle(e.closest('.card')).paddingRight) + 0.5);
const others = [...document.querySelectorAll('.top > *, .head *, .bar *, .tools *')].filter((e) => seen(e)
  && (edge(e) > innerWidth + 0.5 || e.getBoundingClientRect().left < 0));
return [...cards, ...others].map((e) => `${e.className}: ${e.textContent}`)"""
# The points and the countdown of a place, as far as they are seen.
POINTS = """return [...document.querySelector(arguments[0]).children].filter((e) => e.checkVisibility())
  .map((e) => e.textContent)"""
# How many boards were drawn on cards, in each go.
GOES = """window.goes = [];
new MutationObserver((all) => {
  const drawn = all.flatMap((one) => [...one.addedNodes]).filter((e) => e.matches?.('.card svg.sheet'));
  if (drawn.length) window.goes.push(drawn.length);
}).observe(document, { childList: true, subtree: true });"""


def trial(program, pictures):
    with Place(program) as place:
        answers = a_day(program, place)
        with Browser(place, pictures, phone=True) as browser:
            browser.before_load(GOES)
            browser.enter("eve")
            many(browser)
            for language in WORDS:
                browser.js("localStorage.setItem('hall.option.language', JSON.stringify(arguments[0]))", language)
                narrow(browser, language, answers)
            none("the page's code had no fault", browser.faults())


def a_day(program, place):
    """A sealed round, an instant one and a large one, and eve's answers: one of each is handed in, right and wrong."""
    solutions = {}
    for label, name in FILES.items():
        text, solutions[label] = solved(program, name)
        for other in (label, f"{label}-s"):
            place.put_puzzle(other, text)
    large = solved(program, LARGE)[0]
    for at in range(MANY):
        place.put_puzzle(f"large-{at}", large)
    place.put_begun_round("s", "Sealed", [f"{it}-s" for it in FILES], mode="sealed", penalty=0, bonus=0)
    place.put_begun_round("m", "Morning", list(FILES))
    place.put_begun_round("l", "Large", [f"large-{at}" for at in range(MANY)])
    for round_id, number, answer in (("s", 1, solutions["sl"]), ("s", 2, "x"), ("m", 1, solutions["sl"]), ("m", 2, "x"),
                                     ("m", 2, "y")):
        place.ask("PUT", f"/rounds/{round_id}/answers/{number}/t{answer[:8]}", "eve", {"answer": answer})
    return len(place.answers("m", "eve"))


def many(browser):
    browser.js("window.goes.length = 0")
    browser.go("#/r/l")
    holds("the large boards are drawn", until(lambda: browser.count(".card svg.sheet") == MANY))
    told = until(lambda: "0 of 40 right" in browser.text(".sums"))
    goes = browser.js("return window.goes")
    holds("each once, and others have their turn meanwhile", told and sum(goes) == MANY and max(goes) < MANY, goes)


def narrow(browser, language, answers):
    browser.go("#/r/s")
    browser.reload()
    holds(f"{language}: chips tell how puzzles stand", until(lambda: browser.count(".card .chip.wait") == 2))
    fits(browser, f"{language}: a sealed round")
    browser.picture(f"narrow-{language}-sealed")
    browser.go("#/r/m")
    holds(f"{language}: chips of an instant round", until(lambda: browser.count(".card .chip") == 2))
    fits(browser, f"{language}: an instant round")
    beside(browser, language, ".head .big")
    browser.go("#/r/m/2")
    until(lambda: browser.count(".past li") == answers - 1)
    fits(browser, f"{language}: a puzzle")
    beside(browser, language, ".bar .left")
    browser.picture(f"narrow-{language}-puzzle")


def fits(browser, name):
    wide = browser.js("return document.documentElement.scrollWidth - innerWidth")
    check(f"{name}: so much is wider than the phone", wide, 0)
    none(f"{name}: beyond its place", browser.js(BEYOND))


def beside(browser, language, css):
    """The points of the round, of which 40 are got, stand beside the time that is left."""
    points = until(lambda: [it for it in browser.js(POINTS, css) if "40" in it and "150" in it])
    left = browser.js(POINTS, f"{css}")[-1]
    holds(f"{language}: points and the time left, in {css}", points and ":" in left, browser.js(POINTS, css))
