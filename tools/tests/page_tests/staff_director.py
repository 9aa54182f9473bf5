"""A director at the staff's page: builds a round from pictures, puts it, releases it, watches it, and publishes it;
also while the hall is killed."""
import os
import re
import time
import tomllib

from harness.checks import check, holds
from page_tests.place import Place, none, solved, until
from page_tests.staff_hands import HEAR, Staff, earlier, kill, standing_still

FILES = {"sl": "slither.txt", "nu": "nurikabe.txt", "su": "real/sudoku9.txt", "s2": "real/slither15.txt"}
PICK, CHOSEN = ".card.pick[data-name='bob/{}']", ".chosen li"
START, ZONE, MINUTE = "2027-07-01T11:00", "Europe/Berlin", 60
WRONG = {"Id": "Morning!", "Title": "", "Minutes": "0", "Minutes for protests": "x", "Penalty": "1001", "Bonus": "-1",
         "Testers": "fay, fay"}
RIGHT = {"Id": "morning", "Title": "Morning \"round\"", "Start": START, "Minutes": "60", "Minutes for protests": "30",
         "Penalty": "5", "Bonus": "2", "Testers": "hal, rex"}
LINES = """return [...document.querySelectorAll('.wide table tbody tr')]
  .map((row) => row.innerText.split(/\\s+/).join(' '))"""
# What the page's modules give for these arguments: of a module a call, its arguments each time.
ASK = """const [name, call, all] = arguments, done = arguments[arguments.length - 1];
import(`/page/staff/${name}`).then((it) => done(all.map((given) => it[call](...given))));"""


def trial(program, pictures):
    with Place(program) as place:
        solutions = {}
        for label, name in FILES.items():
            text, solutions[label] = solved(program, name)
            place.put_puzzle(label, text)
        place.ask("PUT", "/puzzles/bob/new", "bob", {"text": "sudoku/4/4/v"})
        with Staff(place, pictures) as browser:
            browser.tool("Emulation.setTimezoneOverride", {"timezoneId": ZONE})
            browser.tool("Browser.setDownloadBehavior", {"behavior": "allow", "downloadPath": pictures})
            browser.before_load(HEAR)
            zones(browser)
            built(browser)
            put(place, browser, pictures)
            opened_again(place, browser)
            released(place, browser, program)
            watched(place, browser, solutions)
            not_near_the_end(place, browser)
            published(place, browser)
            sealed(place, browser, solutions)
            none("the page's code had no fault", browser.faults())
        with Staff(place, pictures, phone=True) as browser:
            on_a_phone(browser)


def told(browser, label):
    """What is said below the field with this label."""
    return browser.js("""const labels = [...document.querySelectorAll('label')];
const of = labels.find((e) => e.textContent === arguments[0]);
return document.getElementById(`${of.htmlFor}-said`).textContent""", label)


def zones(browser):
    """What clocks of a zone show, and the offsets of sheets, as Python's own tables of zones have them."""
    import datetime
    import zoneinfo
    browser.enter_staff("dora", "director")
    names = ("Europe/Berlin", "America/New_York", "Asia/Kolkata", "Australia/Lord_Howe", "UTC", "America/St_Johns")
    locals_ = [f"2027-{month:02}-{day:02}T{hour:02}:30" for month in (1, 3, 4, 7, 10, 11) for day in (1, 7, 14, 28, 31)
               for hour in (0, 1, 2, 3, 23) if not (day == 31 and month in (4, 11))]
    asked = [[local, name] for name in names for local in locals_]
    got = browser.driver.execute_async_script(ASK, "zones.js", "momentOf", asked)
    wanted = [datetime.datetime.fromisoformat(local).replace(tzinfo=zoneinfo.ZoneInfo(name)).timestamp()
              for local, name in asked]
    none(f"{len(asked)} local times are the moments that Python tells",
         [(it, a, b) for it, a, b in zip(asked, got, wanted) if a != b][:5])
    rules = browser.driver.execute_async_script(ASK, "zones.js", "ruleOf", [[120], [-300], [330], [0], [-150]])
    check("the rules of offsets", rules,
          ["<+0200>-02:00", "<-0500>+05:00", "<+0530>-05:30", "<+0000>-00:00", "<-0230>+02:30"])


def built(browser):
    """What is wrong is told at all fields at once, and nothing is sent."""
    holds("a hall without rounds says so", browser.shows("There is no round yet"))
    browser.push("a.button")
    holds("the puzzles are offered", until(lambda: browser.count(".card.pick") == len(FILES)))
    browser.js("document.querySelector('.card.pick').scrollIntoView()")
    holds("their pictures come once they are looked at", until(lambda: browser.count(".pick svg.sheet") == len(FILES)))
    check("only what is ready is offered", browser.count(PICK.format("new")), 0)
    for label, value in WRONG.items():
        browser.fill(label, value)
    browser.press("Put the draft")
    none("each wrong field is told at once", [label for label in (*WRONG, "Start") if not told(browser, label)])
    holds("and that there are no puzzles", "Choose puzzles below" in browser.text(".draft"))
    none("nothing was sent", browser.asked("PUT"))
    for label, value in RIGHT.items():
        browser.fill(label, value)
    none("once it is right nothing is told", [label for label in RIGHT if told(browser, label)])
    holds("the browser's zone is chosen", browser.js("return document.querySelector('.draft select').value") == ZONE)
    words = "Thursday, 1 July 2027, 11:00 in Europe/Berlin (UTC+02:00), that is 2027-07-01 09:00 UTC"
    holds("when it begins is told by both clocks", words in browser.text(".draft"), browser.text(".draft"))
    for label in ("nu", "sl", "s2", "su"):
        browser.push(PICK.format(label))
    browser.push(PICK.format("s2"))
    browser.push(f"{CHOSEN}:nth-of-type(2) button[title=Earlier]")
    names = browser.js("return [...document.querySelectorAll('.chosen li')].map((e) => e.dataset.name)")
    check("puzzles are taken in, out and up", names, ["bob/sl", "bob/nu", "bob/su"])
    browser.js("""const field = document.querySelectorAll('.chosen input')[1];
field.value = '1001'; field.dispatchEvent(new Event('input', { bubbles: true }))""")
    holds("points out of their limits are told", "from 1 to 1,000" in browser.text(".chosen"), browser.text(".chosen"))
    browser.js("""const field = document.querySelectorAll('.chosen input')[1];
field.value = '55'; field.dispatchEvent(new Event('input', { bubbles: true }))""")
    none("every control has a name", browser.nameless())
    browser.looks("director-built")


def put(place, browser, pictures):
    """The sheet is downloaded, and put while the hall is killed."""
    browser.press("Download the sheet")
    path = f"{pictures}/morning.toml"
    until(lambda: os.path.exists(path))
    with open(path, "rb") as file:
        sheet = tomllib.load(file)
    names = ("version", "title", "minutes", "testers", "zone")
    check("the sheet has the fields of the form", [sheet[it] for it in names],
          [3, RIGHT["Title"], 60, ["hal", "rex"], "<+0200>-02:00"])
    check("and the puzzles with their points", [(it["label"], it["points"]) for it in sheet["puzzle"]],
          [("sl", 40), ("nu", 55), ("su", 40)])
    holds("a draft that isn't put can't be released", browser.is_off("Release"))
    browser.fill("Testers", "bob")
    browser.press("Put the draft")
    holds("a tester who isn't one is named", browser.shows("Not all testers are there"), browser.text(".draft"))
    browser.fill("Testers", "hal, rex")
    kill(place)
    browser.press("Put the draft")
    holds("a hall that is away is told", browser.shows("Trying again", "#trouble"))
    place.start_hall()
    browser.try_now()
    holds("once it is back it keeps the draft", browser.shows("The hall keeps this draft"))
    kept = place.ask("GET", "/rounds/morning", "dora")
    names = ("title", "start", "minutes", "protest_minutes", "mode", "penalty", "bonus")
    check("as it was meant", [kept[it] for it in names],
          [RIGHT["Title"], 1814432400, 60, 30, "instant", 5, 2])
    holds("what entrants will see stands beside it", browser.count(".seen .cards .card svg.sheet") == 3)
    browser.looks("director-draft")


def opened_again(place, browser):
    """A draft of elsewhere: whose puzzles they are is found by their texts."""
    browser.fill("Bonus", "3")
    browser.go("#/author")
    browser.go("#/director/morning")
    holds("a change that isn't put stays over a walk", browser.shows("You changed something since"))
    browser.press("Put the draft")
    holds("and is put", until(lambda: place.ask("GET", "/rounds/morning", "dora")["bonus"] == 3))
    browser.reload()
    holds("after a reload the testers are lost, and that is told", browser.shows("doesn't tell who tests it"))
    names = browser.js("return [...document.querySelectorAll('.chosen li')].map((e) => e.dataset.name)")
    check("whose puzzles they are is found", names, ["bob/sl", "bob/nu", "bob/su"])
    check("and the start is told by the browser's clocks",
          browser.js("return document.querySelector('input[type=datetime-local]').value"), START)


def released(place, browser, program):
    browser.fill("Start", "2026-01-02T03:04")
    browser.press("Put the draft")
    browser.shows("The hall keeps this draft")
    browser.press("Release")
    holds("a start that has come is told", browser.shows("Its start has come already"), browser.text(".draft"))
    browser.fill("Start", START)
    holds("what isn't put can't be released", browser.is_off("Release"))
    browser.press("Put the draft")
    browser.shows("It was put at")
    browser.press("Release")
    until(lambda: browser.count("dialog[open]"))
    warning = browser.text("dialog")
    holds("what can't be taken back is told, and the start", "can't be moved, stopped or taken back" in warning
          and "1 July 2027, 11:00" in warning and "3 puzzles of 135 points" in warning, warning)
    browser.picture("director-release")
    browser.choose(1)
    holds("who goes back releases nothing", not place.ask("GET", "/rounds", "dora")["rounds"][0]["released"])
    with standing_still(place):
        browser.press("Release")
        browser.choose(2)
        until(lambda: browser.asked("POST /rounds/morning/release"))
        kill(place)
    place.start_hall()
    browser.try_now()
    holds("a release while the hall is killed is made", browser.shows("to come;"), browser.text())
    check("once", place.ask("GET", "/rounds", "dora")["rounds"][0]["released"], True)
    holds("what entrants see is shown", browser.text(".seen").count(RIGHT["Title"]) == 2, browser.text(".seen"))
    as_entrants_see_it(place, browser)
    refusals(place, browser)


def as_entrants_see_it(place, browser):
    """The entrants' own page says the same of the round."""
    before, director = browser.text(".seen .card.before"), browser.driver.current_window_handle
    browser.driver.switch_to.new_window("tab")
    browser.tool("Emulation.setTimezoneOverride", {"timezoneId": ZONE})
    browser.enter("eve")
    browser.shows(RIGHT["Title"])
    seen = browser.text("a.card")
    holds("the entrants' page says the same of it", seen.startswith(before), before, seen)
    browser.driver.close()
    browser.driver.switch_to.window(director)


def refusals(place, browser):
    """A puzzle of a released round, and one without a certificate."""
    browser.go("#/director/NEW")
    for label, value in {**RIGHT, "Id": "late", "Title": "Late", "Testers": ""}.items():
        browser.fill(label, value)
    browser.push(".choices input[type=checkbox]")
    until(lambda: browser.count(PICK.format("new")))
    for label in ("nu", "new"):
        browser.push(PICK.format(label))
    browser.press("Put the draft")
    browser.shows("The hall keeps this draft")
    browser.press("Release")
    holds("what has no certificate is named", browser.shows("No certificate of one solution: bob/new"))
    browser.push(f"{CHOSEN}:nth-of-type(2) button[title='Take it out']")
    browser.press("Put the draft")
    browser.shows("It was put at")
    browser.press("Release")
    browser.choose(2)
    holds("a puzzle of another released round is named", browser.shows("bob/nu stands in morning"))


def rounds_begin(place):
    """Moves the start of the round to ten minutes ago."""
    start = place.ask("GET", "/rounds/morning", "dora")["start"]
    earlier(place, start - int(time.time()) + 10 * MINUTE)


def watched(place, browser, solutions):
    rounds_begin(place)
    browser.go("#/director/morning")
    browser.reload()
    browser.shows("Ask for the answers")
    none("the answers aren't asked for by themselves", browser.asked("GET /rounds/morning/answers"))
    played = [("eve", 1, "sl", 2), ("eve", 2, "nu", 0), ("eve", 3, "su", 1), ("gus", 1, "sl", 0), ("gus", 2, None, 3),
              ("ida", 3, None, 1), ("dan", 1, "sl", 0), ("dan", 2, "nu", 0), ("dan", 3, "su", 0)]
    for who, number, label, wrong in played:
        for at, answer in enumerate(["x" * (it + 1) for it in range(wrong)] + ([solutions[label]] if label else [])):
            place.ask("PUT", f"/rounds/morning/answers/{number}/{who}-{at}", who, {"answer": answer})
    browser.press("Ask for the answers")
    holds("the answers are told", browser.shows("14 answers of 4 entrants"), browser.text())
    rows = browser.js("return [...document.querySelectorAll('.grid-table tbody tr')].map((row) => "
                      "[...row.children].map((cell) => cell.firstChild?.textContent.trim() ?? ''))")
    check("who did what", rows, [["dan", "✓1", "✓1", "✓1"], ["eve", "✓1 ✗2", "✓1", "✓1 ✗1"],
                                 ["gus", "✓1", "✗3", ""], ["ida", "", "", "✗1"]])
    minute = browser.text(".grid-table tbody td small")
    holds("and in which minute", re.fullmatch(r"1[01]′", minute), minute)
    check("and how many solved each", browser.text(".grid-table tfoot").split()[-3:], ["3", "2", "2"])
    age = r"as of [\d:]+.*, 0:\d\d ago; again in 0:\d\d"
    holds("how old that is is told", until(lambda: re.search(age, browser.text())), browser.text())
    holds("and they can't be asked for again before a minute", browser.is_off("Ask for the answers"))
    browser.looks("director-watch")
    browser.go("#/director")
    browser.go("#/director/morning")
    holds("a walk doesn't ask again", browser.shows("14 answers") and
          len(browser.asked("GET /rounds/morning/answers")) == 1)
    holds("the table before the publication is marked as reckoned here", browser.shows("isn't the hall's table"))


def not_near_the_end(place, browser):
    earlier(place, 49 * MINUTE - 30)
    browser.reload()
    holds("near the end of a round none are asked for", browser.shows("not before Morning"), browser.text())
    holds("also not by hand", browser.is_off("Ask for the answers"))


def published(place, browser):
    """After the close, with a protest: the table that was reckoned is the one that the hall publishes."""
    earlier(place, 5 * MINUTE)
    place.ask("PUT", "/rounds/morning/protests/why", "gus", {"number": 2, "text": "The 2 is unclear."})
    place.ask("PUT", "/rounds/morning/protests/too", "ida", {"number": 3, "text": "Mine was right."})
    earlier(place, 40 * MINUTE)
    browser.reload()
    holds("open protests are told", browser.shows("2 protests, of these 2 open"), browser.text())
    holds("and keep the table from being published", browser.is_off("Publish the table"))
    place.ask("PUT", "/rounds/morning/rulings/gus/why", "rex", {"points": 7, "upheld": True})
    place.ask("PUT", "/rounds/morning/rulings/ida/too", "rex", {"points": 0, "upheld": False})
    browser.press("Ask for the answers")
    holds("once they are ruled it may be published", until(lambda: browser.is_off("Publish the table") is False))
    until(lambda: "gus 47" in browser.js(LINES)[-2])
    reckoned = browser.js(LINES)[-4:]
    browser.looks("director-closed")
    browser.press("Publish the table")
    until(lambda: browser.count("dialog[open]"))
    holds("that nothing can be mended is told", "Nothing can be mended after" in browser.text("dialog"))
    kill(place)
    browser.choose(2)
    place.start_hall()
    browser.try_now()
    holds("a publication while the hall is killed is made", browser.shows("For spectators"), browser.text())
    lines = [" ".join(line.split()) for line in place.ask("GET", "/rounds/morning/table", "eve").splitlines()]
    check("what was reckoned is what the hall publishes", reckoned, lines)
    check("and that is shown", until(lambda: browser.js(LINES)[:4]), lines)
    browser.looks("director-published")


def sealed(place, browser, solutions):
    """The table of a sealed round: there the last answer counts."""
    place.put_begun_round("s", "Sealed", ["s2"], mode="sealed", penalty=9)
    right = solutions["s2"]
    for who, answers in (("eve", ("x", right)), ("gus", (right, "x")), ("ida", (right,)), ("dan", ("x", "y"))):
        for at, answer in enumerate(answers):
            place.ask("PUT", f"/rounds/s/answers/1/{who}-{at}", who, {"answer": answer})
    earlier(place, 61 * MINUTE)
    sheet, answers = place.ask("GET", "/rounds/s", "dora"), place.answers("s", "dora")
    got = browser.driver.execute_async_script(ASK, "reckon.js", "tableOf", [[sheet, answers, []]])[0]
    place.ask("POST", "/rounds/s/publish", "dora")
    table = place.ask("GET", "/rounds/s/table", "dora")
    check("the table of a sealed round is reckoned as by the hall", [" ".join(map(str, it)) for it in got],
          [" ".join(line.split()) for line in table.splitlines()])


def on_a_phone(browser):
    browser.enter_staff("dora", "director")
    for at, address in enumerate(("#/director", "#/director/late", "#/director/morning", "#/director/NEW")):
        browser.go(address)
        time.sleep(1)
        wide = browser.js("return document.documentElement.scrollWidth - innerWidth")
        holds(f"{address} isn't wider than a phone", wide <= 0, wide)
        browser.looks(f"director-phone-{at}")
    none("on a phone the page's code had no fault", browser.faults())
