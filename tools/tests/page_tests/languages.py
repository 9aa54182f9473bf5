"""The page's languages: their tables are whole, the browser's languages and a choice decide, and what a browser loads
in one of them is small. And what is told before the start, the rules, and a round on paper."""
import json
import os
import re
import shutil
import subprocess
import time

from harness.checks import holds
from page_tests.chromium import Browser
from page_tests.contrasts import told_apart
from page_tests.files import PAGE, as_modules
from page_tests.place import MINUTES, ROOT, Place, none, solved, until

FILES = {"sl": "slither.txt", "nu": "nurikabe.txt", "su": "real/sudoku9.txt", "s15": "real/slither15.txt",
         "n10": "real/nurikabe10.txt", "u16": "real/sudoku16.txt"}
# What the door's button, and the first puzzle's hand-in begin with.
WORDS = {"de": ("Die Halle betreten", "Abgeben"), "es": ("Entrar en la sala", "Entregar"),
         "fr": ("Entrer dans la salle", "Remettre"), "hi": ("हॉल में जाएँ", "दें"), "ja": ("入場", "提出"),
         "zh": ("进入大厅", "提交"), "en": ("Enter the hall", "Hand in")}
MOST = 150_000  # bytes that a browser loads of the page, in one language, to the end of a round
LOADED = """return [...performance.getEntriesByType('navigation'), ...performance.getEntriesByType('resource')]
.filter(({ name }) => /^\\/$|^\\/page\\//.test(new URL(name).pathname))
.map(({ name, decodedBodySize }) => [new URL(name).pathname, decodedBodySize])"""


def trial(program, pictures):
    tables(pictures)
    with Place(program) as place:
        for label, name in FILES.items():
            place.put_puzzle(label, solved(program, name)[0])
        place.put_begun_round("k", "Languages", list(FILES))
        with Browser(place, pictures) as browser:
            for language in WORDS:
                of_browser(place, browser, language)
            chosen(browser)
            booklet(place, browser)
            rules(browser)
            paper(place, browser)
            none("the page's code had no fault", browser.faults())


def tables(pictures):
    copy = as_modules(pictures)
    shutil.copy(f"{PAGE}/index.html", copy)
    words = ["node", f"{ROOT}/tools/tests/page_tests/words.mjs", copy]
    ran = subprocess.run(words, capture_output=True, text=True, check=False)
    told = json.loads(ran.stdout) if ran.stdout else {"languages": [], "wrong": [ran.stderr]}
    holds("there are seven languages", sorted(told["languages"]) == sorted(WORDS), told["languages"])
    none("no sentence is missing or left over, and no place in one is lost", told["wrong"])


def of_browser(place, browser, language):
    """A browser of this language, from the door to a puzzle of each kind."""
    agent = browser.js("return navigator.userAgent")
    browser.tool("Emulation.setUserAgentOverride", {"userAgent": agent, "acceptLanguage": f"xx,{language}"})
    browser.driver.get(place.url)
    enter, hand = WORDS[language]
    holds(f"{language}: the door speaks it", browser.shows(enter), browser.text())
    holds(f"{language}: the page says so", browser.js("return document.documentElement.lang") == language)
    browser.give_key("eve-key-1")
    until(lambda: browser.count("body.in"))
    browser.go("#/r/k")
    until(lambda: browser.count(".card") == len(FILES))
    for number in (1, 2, 3):
        browser.go(f"#/r/k/{number}")
        told = until(lambda: browser.text("button.hand").startswith(hand) and browser.count(".board"))
        holds(f"{language}: so does puzzle {number}", told, browser.text("button.hand"))
    browser.picture(f"language-{language}")
    shown = browser.js("return document.body.innerText")
    none(f"{language}: no place and no name is left", re.findall(r"\{\w+\}|undefined", shown))
    loaded = dict(browser.js(LOADED))
    others = [path for path in loaded if re.search(r"/words/(?!" + language + r"\.js)", path)]
    none(f"{language}: no other language is loaded", others)
    whole = sum(loaded.values()) + os.path.getsize(f"{PAGE}/worker.js")
    holds(f"{language}: all that is loaded is small", 100_000 < whole < MOST, whole)
    browser.push("button.quiet#leave")
    until(lambda: browser.count("#key"))


def chosen(browser):
    """A choice in the page stands above the browser's languages, also the next time."""
    browser.driver.get(browser.place.url)
    until(lambda: browser.count("#language option"))
    browser.js("""const field = document.querySelector('#language');
field.value = 'ja';
field.dispatchEvent(new Event('change'));""")
    holds("a language may be chosen", browser.shows(WORDS["ja"][0]), browser.text())
    browser.reload()
    holds("and stays so", browser.shows(WORDS["ja"][0]), browser.text())
    browser.go("#/about")
    holds("later pages speak it too", browser.shows("証明されたもの"), browser.text())
    browser.js("localStorage.setItem('hall.option.language', '\"en\"')")
    browser.reload()
    holds("and English again", browser.shows("What is proved"), browser.text())


def booklet(place, browser):
    """What the hall tells an entrant of a round before its start."""
    place.put_puzzle("own", solved(place.program, "slither.txt")[0])
    place.put_round("b", "Tomorrow", time.time() + 86_400, ["own"], mode="sealed", penalty=0, bonus=0)
    browser.driver.get(place.url)
    browser.give_key("eve-key-1")
    until(lambda: browser.count("body.in"))
    browser.go("#/r/b")
    holds("before the start times and mode are told", browser.shows("30 minutes.", ".booklet")
          and "Verdicts are told after the end" in browser.text(".booklet"), browser.text())
    told_apart(browser, "before the start")
    browser.picture("booklet")
    browser.push(".booklet a")
    holds("and the rules are a click away", browser.shows("one single loop"))


def rules(browser):
    pictures = browser.js("""return [...document.querySelectorAll('figure svg')].map((it) =>
[it.getBoundingClientRect().width > 50, it.getAttribute('aria-label')])""")
    told = [bool(words) for _, words in pictures]
    holds("each kind has a small picture, and one of the solution that is told in words", told == [False, True] * 3
          and all(wide for wide, _ in pictures), pictures)
    browser.picture("rules")
    browser.media(prefers_color_scheme="dark")
    browser.picture("rules-dark")
    browser.media()
    browser.leave()
    browser.go("#/rules")
    holds("the rules need no key", browser.shows("one single loop"), browser.text())


def pages(browser, name):
    return len(re.findall(rb"/Type\s*/Page\b", browser.paper(name)))


def push_named(browser, words):
    browser.js("""[...document.querySelectorAll('button')]
.find((it) => it.innerText === arguments[0]).click()""", words)


def paper(place, browser):
    """One puzzle a page, or few pages with rules and a field for the name; solutions after the end."""
    browser.js("window.print = () => { window.asked = true; }")
    browser.go("#/")
    browser.give_key("eve-key-1")
    until(lambda: browser.count("body.in"))
    for words, name, least, most in (("Print the puzzles", "paper-each", 6, 6),
                                     ("Print on few pages", "paper-few", 1, 3)):
        browser.go("#/r/k")
        browser.shows(words)
        browser.js("window.asked = false")
        push_named(browser, words)
        until(lambda: browser.js("return window.asked"))
        count = pages(browser, name)
        holds(f"{words}: {least} to {most} pages", least <= count <= most, count)
    browser.js("dispatchEvent(new Event('beforeprint'))")
    told = browser.js("return document.querySelector('#paper').textContent")
    holds("with the rules and a field for the name", "Name:" in told and "one single loop" in told
          and "no two by two" in told and browser.count("#paper svg") == len(FILES), told)
    browser.js("dispatchEvent(new Event('afterprint'))")
    holds("solutions can't be printed before the end", "Print the solutions" not in browser.text())
    place.begin_at(time.time() - 2 * 60 * MINUTES - 5, "k")
    place.ask("POST", "/rounds/k/publish", "dora")
    browser.driver.get(place.url)
    browser.js("window.print = () => { window.asked = true; }")
    browser.go("#/r/k")
    browser.shows("Print the solutions")
    push_named(browser, "Print the solutions")
    until(lambda: browser.js("return window.asked"))
    count = pages(browser, "paper-solutions")
    browser.js("dispatchEvent(new Event('beforeprint'))")
    drawn = browser.js("""return ['.line', '.wall', '.number'].map((css) =>
document.querySelectorAll(`#paper ${css}`).length)""")
    holds("a booklet of solutions after publication", 1 <= count <= 3 and all(drawn), [count, drawn])
