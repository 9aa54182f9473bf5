"""A referee at the staff's page: protests in their order, boards with marks, rulings in two clicks, refusals, and a
kill of the hall in the midst."""
import time

from harness.checks import check, holds
from page_tests.eyes import LEAST, contrast
from page_tests.place import MINUTES, Place, none, solved, until
from page_tests.staff_hands import Staff, kill

FILES = {"nu": "nurikabe.txt", "sl": "slither.txt", "su": "sudoku.txt"}
PROTESTS = (("m", "dan", "d1", 3, "Cell <b>row 1</b> is unclear."),
            ("m", "eve", "e1", 1, "The corner can be read twice."),
            ("m", "fay", "f1", 2, "My mouse slipped."), ("e", "gus", "g1", 1, "The start was late."))
LINES = """return [...document.querySelectorAll('.protest-list button')]
  .map((e) => [...e.querySelectorAll('strong, .chip')].map((it) => it.textContent).join(' '))"""
MARKS = """return Object.fromEntries(['.differs', '.broken'].map((css) => [css,
  [...document.querySelectorAll(`.boards figure:nth-of-type(${arguments[0]}) ${css}`)].map((e) => css === '.differs'
    ? e.childElementCount : [...new Set([...e.children].map((it) => it.dataset.rule))])[0]]))"""
STROKE = "return getComputedStyle(document.querySelector(arguments[0])).stroke"
OF_LIST = ".protest-list li:nth-child({}) button"
CHOOSE = """const field = document.querySelector(`select[name=${arguments[0]}]`);
field.value = arguments[1];
field.dispatchEvent(new Event('change', { bubbles: true }));"""


def trial(program, pictures):
    with Place(program) as place:
        texts = {label: solved(program, name) for label, name in FILES.items()}
        a_day(place, texts)
        with Staff(place, pictures) as browser:
            not_yet(place, browser)
            in_order(browser)
            boards(place, browser, texts)
            ruled(place, browser)
            killed(place, browser)
            refused(place, browser)
            filters(browser)
            at_the_end(place, browser)
            none("the page's code had no fault", browser.faults())
        with Staff(place, pictures, phone=True) as browser:
            on_a_phone(browser)
            others(place, browser)
            as_it_was_told(place)
            none("on a phone neither", browser.faults())


def slipped(answer, *others):
    """The answer with its first signs of these changed into each other."""
    at = next(i for i, sign in enumerate(answer) if sign in others)
    return answer[:at] + others[1 - others.index(answer[at])] + answer[at + 1:]


def a_day(place, texts):
    """Two rounds that are over, and one that runs: answers and protests."""
    place.ask("POST", "/people", "dora", "name,key,roles\nrae,rae-key-1,referee+entrant\ntom,tom-key-1,referee\n")
    for label, (text, _) in texts.items():
        place.put_puzzle(label, text)
    place.put_puzzle("e1", texts["su"][0])
    place.put_puzzle("n1", texts["nu"][0])
    place.put_begun_round("m", "Morning", ["nu", "sl", "su"])
    right = {label: answer for label, (_, answer) in texts.items()}
    sent = (("eve", 1, slipped(right["nu"], "#", ".")), ("eve", 1, right["nu"]), ("eve", 2, right["sl"]),
            ("fay", 2, slipped(right["sl"], "1", "0")), ("dan", 3, right["su"][:-1]), ("rae", 1, right["nu"]))
    for at, (who, number, answer) in enumerate(sent):
        place.ask("PUT", f"/rounds/m/answers/{number}/a{at}", who, {"answer": answer})
    place.begin_at(time.time() - 60 * MINUTES - 5)
    for _, who, token, number, text in PROTESTS[:3]:
        place.ask("PUT", f"/rounds/m/protests/{token}", who, {"number": number, "text": text})


def not_yet(place, browser):
    """A round that is about to end: no listing of answers is asked for until then."""
    browser.enter_staff("rex", "referee")
    holds("protests are listed", until(lambda: len(browser.js(LINES)) == 3), browser.text())


def in_order(browser):
    check("the protests, as the hall orders them", browser.js(LINES),
          ["dan not ruled", "eve not ruled", "fay not ruled"])
    holds("it is told how many are open", browser.shows("3 of 3 protests aren't ruled"))
    holds("the first one is shown", browser.shows("dan on puzzle 3", ".protest-view"))
    holds("what people wrote is text", browser.shows(PROTESTS[0][4], "blockquote"))
    holds("an answer that is no filling is told", browser.shows("this answer is no filling", ".boards"),
          browser.text(".boards"))


def choose(browser, place, name):
    browser.push(OF_LIST.format(place))
    holds(f"{name} is shown", browser.shows(f"{name} on puzzle", ".protest-view h2"))
    until(lambda: browser.count("#answer"))


def boards(place, browser, texts):
    """The answer beside the solution: what differs is tinted, what is broken outlined; the verdict is the hall's."""
    choose(browser, 2, "eve")
    check("a right answer: two boards without marks", [browser.count(".boards svg.sheet"), browser.js(MARKS, 1)],
          [2, {".differs": 0, ".broken": []}])
    browser.js("const e = document.querySelector('#answer'); e.selectedIndex = 0;"
               "e.dispatchEvent(new Event('change', { bubbles: true }));")
    told = place.answers("m", "rex")
    wrong = next(it["verdict"].split()[1:] for it in told if (it["entrant"], it["n"]) == ("eve", 1))
    holds("the answer before it", until(lambda: browser.js(MARKS, 1)[".differs"] == 1), browser.js(MARKS, 1))
    check("is outlined where the hall's rules are broken", browser.js(MARKS, 1)[".broken"], wrong)
    check("the solution is tinted at the same place", browser.js(MARKS, 2), {".differs": 1, ".broken": []})
    eye, verdict = browser.text(".eye"), browser.text(".protest-view .answer")
    holds("what is seen is no verdict", "What the eye sees" in eye and "The verdict is the hall's" in eye, eye)
    holds("and the verdict stands beside the answer", "The verdict:" in verdict, verdict)
    seen_and_told(browser)
    browser.looks("referee")
    choose(browser, 3, "fay")
    places = browser.text(".boards")
    holds("a side that differs is told", "It differs from the solution in 1 side" in places, places)
    outlined = until(lambda: browser.count("[data-rule=S2] circle:not(.ground)") == 2)
    holds("loose ends are outlined", outlined, browser.js(MARKS, 1))
    browser.looks("referee-lines")


def seen_and_told(browser):
    """Outlines are seen on what lies beneath, in the light and in the dark; controls and boards are told in words."""
    for look in ("dark", "light"):
        browser.media(prefers_color_scheme=look)
        pair = [browser.js(STROKE, css) for css in (".broken rect:not(.ground)", ".broken .ground")]
        holds(f"{look}, an outline: {LEAST} : 1", contrast(*pair) >= LEAST, contrast(*pair))
    none("every control has a name", browser.nameless())
    told = browser.js("return [...document.querySelectorAll('.boards svg')].map((e) => e.getAttribute('aria-label'))")
    check("boards are told in words", [it.partition(".")[0] for it in told], ["The answer", "The solution"])
    holds("and so is where they differ", "row 1, column" in browser.text(".boards"), browser.text(".boards"))


def give(browser, points):
    browser.js("const e = document.querySelector('#points'); e.value = arguments[0];"
               "e.dispatchEvent(new Event('input', { bubbles: true }));", str(points))


def ruling_of(place, who):
    return next([it["ruling"], it["points"]] for it in place.ask("GET", "/rounds/m/protests", "rex")["protests"]
                if it["entrant"] == who)


def ruled(place, browser):
    """Two clicks, and what the first one tells."""
    choose(browser, 2, "eve")
    for wrong in ("1.5", "1001", ""):
        give(browser, wrong)
        holds(f"no ruling with {wrong or 'no'} points", browser.js("return document.querySelector('.uphold').disabled"))
    give(browser, 3)
    browser.push(".uphold")
    until(lambda: browser.count("dialog[open]"))
    told = browser.text("dialog")
    # Of the instant round: 40 less 5, and 50.
    for words in ("Uphold it with +3 points?", "eve has 85 points and gets 88; rank 1 as before",
                  "given once, and stays", "Until the close", "may protest once more"):
        holds(f"the first click tells: {words}", words in told, told)
    browser.looks("referee-ruling")
    browser.choose(1)
    check("going back rules nothing", ruling_of(place, "eve"), ["open", 0])
    browser.push(".uphold")
    browser.choose(2)
    holds("the second click rules", until(lambda: ruling_of(place, "eve") == ["upheld", 3]), ruling_of(place, "eve"))
    holds("and it is shown", browser.shows("upheld, +3 points", ".protest-view"))
    check("what is ruled stands last", until(lambda: browser.js(LINES)[-1].startswith("eve") and browser.js(LINES)),
          ["dan not ruled", "fay not ruled", "eve upheld, +3 points"])
    check("and can't be ruled again", browser.count(".ruling"), 0)
    browser.push(".next button")
    holds("the way to the next one", browser.shows("dan on puzzle 3", ".protest-view"))


def killed(place, browser):
    """The hall is killed before the ruling reaches it."""
    choose(browser, 2, "fay")
    browser.push(".reject")
    until(lambda: browser.count("dialog[open]"))
    holds("a rejection changes nothing", "It changes nothing in the table" in browser.text("dialog"))
    kill(place)
    browser.choose(2)
    holds("it is told that it is on its way", browser.shows("On its way", ".ruling"))
    holds("and that the hall is away", until(lambda: "Trying again" in browser.text("#trouble")),
          browser.text("#trouble"))
    browser.looks("referee-away")
    browser.push(OF_LIST.format(1))
    place.start_hall()
    browser.try_now()
    holds("it comes, also where another protest is looked at",
          until(lambda: ruling_of(place, "fay") == ["rejected", 0]), ruling_of(place, "fay"))
    holds("and is shown", until(lambda: "fay rejected" in browser.js(LINES)), browser.js(LINES))
    holds("nothing is left to be sent", until(lambda: browser.text("#trouble") == ""))


def refused(place, browser):
    """Another referee ruled meanwhile, and in another way."""
    choose(browser, 1, "dan")
    place.ask("PUT", "/rounds/m/rulings/dan/d1", "tom", {"points": 7, "upheld": True})
    browser.push(".reject")
    browser.choose(2)
    holds("the refusal is told", browser.shows("This protest was ruled before", ".protest-view"),
          browser.text(".protest-view"))
    holds("and the ruling that stands", browser.shows("upheld, +7 points", ".protest-view"))
    holds("all is ruled", browser.shows("All protests are ruled"))


def filters(browser):
    for name, value, count in (("number", "1", 1), ("number", "", 3), ("entrant", "fay", 1), ("entrant", "", 3)):
        browser.js(CHOOSE, name, value)
        check(f"protests by {name} {value or 'all'}", len(browser.js(LINES)), count)
    browser.js("document.querySelector('select[name=entrant]').focus()")
    browser.js(CHOOSE, "entrant", "eve")
    check("the focus stays", browser.js("return document.activeElement.name"), "entrant")
    holds("the one that is left is shown", browser.shows("eve on puzzle 1", ".protest-view"))
    browser.js(CHOOSE, "entrant", "")


def at_the_end(place, browser):
    """A round that is about to end: answers aren't asked for until then. Then its protest is the first one."""
    place.put_begun_round("e", "Late", ["e1"], mode="sealed")
    place.ask("PUT", "/rounds/e/answers/1/g", "gus", {"answer": "1" * 81})
    place.put_begun_round("n", "Night", ["n1"])
    place.begin_at(time.time() - 60 * MINUTES - 5, "e")
    place.begin_at(time.time() - 60 * MINUTES + 12, "n")
    _, who, token, number, text = PROTESTS[3]
    place.ask("PUT", f"/rounds/e/protests/{token}", who, {"number": number, "text": text})
    browser.reload()
    holds("answers wait for the end of the other round", browser.shows("Night ends in", ".protest-view"),
          browser.text())
    check("the open one is the first", browser.js(LINES)[0], "gus not ruled")
    holds("then they are asked for", until(lambda: browser.count(".boards [data-rule=U1] rect")), browser.text())
    browser.go("#/referee/m")
    holds("a round by its address", until(lambda: len(browser.js(LINES)) == 3), browser.js(LINES))


def on_a_phone(browser):
    browser.enter_staff("rae", "referee/m")
    holds("a phone shows the list and a protest", until(lambda: browser.count(".protest-view")))
    until(lambda: browser.count("#answer"))
    wide = browser.js("return [document.documentElement.scrollWidth, innerWidth]")
    holds("nothing is wider than the phone", wide[0] <= wide[1], wide)
    browser.looks("referee-phone")


def others(place, browser):
    """Who has an answer in the round, who is no referee."""
    place.ask("PUT", "/rounds/m/protests/e2", "eve", {"number": 2, "text": "Once more."})
    browser.reload()
    holds("a protest that is new is the first", until(lambda: browser.js(LINES)[0] == "eve not ruled"))
    browser.push(OF_LIST.format(1))
    until(lambda: browser.count(".reject"))
    browser.push(".reject")
    browser.choose(2)
    holds("who answered in the round doesn't rule", browser.shows("You have an answer in this round", ".ruling"),
          browser.text())
    for who, words in (("dora", "Your roles don't allow this"), ("bob", "Your roles don't allow this")):
        browser.leave()
        browser.enter_staff(who, "referee/m")
        if who == "dora":
            until(lambda: browser.count(".reject"))
            browser.push(".reject")
            browser.choose(2)
        holds(f"{who} is told", browser.shows(words), browser.text())


def as_it_was_told(place):
    """The published table has the totals that the first clicks told."""
    place.ask("PUT", "/rounds/m/rulings/eve/e2", "tom", {"points": 0, "upheld": False})
    place.begin_at(time.time() - 2 * 60 * MINUTES - 5, "m")
    check("it is published", place.ask("POST", "/rounds/m/publish", "dora"), {"published": "m"})
    lines = [line.split() for line in place.ask("GET", "/rounds/m/table", "eve").splitlines()]
    check("its table", lines, [["1", "eve", "88"], ["2", "rae", "40"], ["3", "dan", "7"], ["4", "fay", "0"]])
