"""What entrants do that isn't foreseen: a whole slip in the place of the key, a puzzle's address before the start, a
reload while the hall is away, a walk to another page while an answer is on its way, and a protest from elsewhere."""
import subprocess
import time

from selenium.webdriver.common.keys import Keys

from harness.checks import holds
from page_tests.chromium import Browser
from page_tests.place import MINUTES, Place, none, solved, until

SLIP = "Name:  eve    (entrant)\nKey:   eve-key-1\nHall:  https://hall.example.org\nWhoever shows this key ..\n"
# What is pasted as the key; a telephone's keyboard hands it to the field without the event of a paste.
PASTED = {"a whole slip": SLIP, "a key with spaces": " eve-key-1 \n", "a key with other dashes": "eve–key—1"}
PASTE = """const [text] = arguments, field = document.querySelector('#key'), clipboardData = new DataTransfer();
field.value = '';
field.focus();
clipboardData.setData('text/plain', text);
field.dispatchEvent(new ClipboardEvent('paste', { clipboardData, bubbles: true, cancelable: true }));
return field.value"""
TYPE = """const [css, text] = arguments, field = document.querySelector(css);
field.value = '';
field.focus();
document.execCommand('insertText', false, text);
return [field.value, field.validationMessage]"""
# Answers of eve's that a closed tab left on their way, to rounds that began at these moments.
LEFT = """const [key, starts] = arguments, done = arguments[arguments.length - 1];
import('/page/store.js').then(({ keepLetter, personOf }) => {
  starts.forEach((start, i) => keepLetter(personOf(key), { id: `left-${i}`, path: `/rounds/m/answers/1/left-${i}`,
    made: start, kind: 'answer', round: 'm', start, number: 1, body: { answer: `00${i}` } }));
  done(1);
});"""
LONG, FOREIGN, CURLY = "It is unclear. " * 20, "La troisième ligne", "The “3” isn’t clear –\nsee row 3 …"


def trial(program, pictures):
    with Place(program) as place, Browser(place, pictures) as browser:
        for label, name in (("sl", "slither.txt"), ("nu", "nurikabe.txt")):
            place.put_puzzle(label, solved(program, name)[0])
        with open(f"{place.room}/nobody.csv", "w", encoding="ascii") as file:
            file.write("name,key,roles\n")
        pasted(place, browser, holds)
        begun = time.monotonic()
        browser.give_key("eve-key-1")
        until(lambda: browser.count("body.in"))
        early(place, browser, holds, begun)
        rehearsed(place, browser, holds)
        away(place, browser, holds)
        elsewhere(place, browser, holds)
        other_file(place, browser, holds)
        protest(place, browser, holds)
        none("the page's code had no fault", browser.faults())


def pasted(place, browser, want):
    browser.driver.get(place.url)
    until(lambda: browser.count("#key"))
    for name, text in PASTED.items():
        found = browser.js(PASTE, text), browser.js(TYPE, "#key", text)[0]
        want(f"{name} is taken for the key", set(found) == {"eve-key-1"}, found)
    found = browser.js(PASTE, "käse-12345"), browser.js(TYPE, "#key", "käse-12345")
    want("what is no key stays, and is told", found[0] == "käse-12345" and found[1][1], found)


def early(place, browser, want, begun):
    """The address of a puzzle, as of a reload, before its round's start."""
    place.put_round("m", "Morning", place.soon(begun), ["sl", "nu"], penalty=0)
    browser.reload()
    browser.go("#/r/m/1")
    want("a puzzle's address waits for the start", browser.shows("come by themselves"), browser.text())
    browser.ready("1. Slitherlink")
    want("and the puzzle comes by itself", browser.count(".board svg") == 1, browser.text())


def rehearsed(place, browser, want):
    """An answer that was left on its way to another hall's round of the same name, as in a rehearsal."""
    start = place.ask("GET", "/rounds/m", "dora")["start"]
    browser.driver.execute_async_script(LEFT, "eve-key-1", [start - 86_400, start])
    browser.reload()
    want("what was left on its way is sent", until(lambda: place.answers("m", "eve")))
    want("and nothing is kept", until(lambda: not browser.kept("hall.letter.")), browser.kept("hall.letter."))
    tokens = [answer["token"] for answer in place.answers("m", "eve")]
    want("but not to another round of that name", tokens == ["left-1"], tokens)


def away(place, browser, want):
    place.stop_hall()
    browser.go("#/")
    browser.reload()
    want("a page that the hall hasn't told of rounds says so", browser.shows("Asking the hall"))
    want("and not that there are none", "No round" not in browser.text(), browser.text())
    place.start_hall()
    browser.try_now()
    want("the rounds come once the hall is back", browser.shows("Morning"))


def elsewhere(place, browser, want):
    """An answer that comes too late, while its reader is on the round's page."""
    browser.open("m", 2, "Nurikabe")
    browser.wall()
    place.stop_hall()
    browser.hand_in()
    browser.choose(2)
    browser.go("#/r/m")
    want("the round's page tells that it is on its way", browser.shows("on its way"))
    place.begin_at(time.time() - 60 * MINUTES - 2)
    browser.try_now()
    want("the round's page tells that it wasn't taken", browser.shows("Puzzle 2: your last answer wasn't taken")
         and until(lambda: "not taken" in browser.text(".cards")), browser.text())
    browser.picture("not-taken")
    browser.go("#/r/m/answers")
    want("and so do the own answers", browser.shows("The round had ended when this came"), browser.text())
    browser.push("button[data-letter]")
    gone = until(lambda: not browser.kept("hall.letter.") and "wasn't taken" not in browser.text())
    want("until it is seen", gone, browser.text())
    browser.go("#/r/m")
    want("after the end what was only drawn is told", browser.shows("not handed in", ".cards"), browser.text(".cards"))


def other_file(place, browser, want):
    """A hall that was started over another file, and doesn't know anybody: nobody is sent away, and nothing is lost."""
    place.begin_at(time.time() - 60)
    browser.reload()
    browser.open("m", 2, "Nurikabe")
    stood, right = len(place.answers("m", "eve")), place.database
    place.stop_hall()
    place.database = f"{place.room}/empty.db"
    words = ["init", "--db", place.database, "--people", f"{place.room}/nobody.csv"]
    subprocess.run([place.program, *words], check=True, stdout=subprocess.DEVNULL)
    place.start_hall()
    browser.hand_in()
    browser.choose(2)
    want("a hall that knows nobody is told", browser.shows("doesn't know your key just now", "#trouble"))
    browser.keys(Keys.ARROW_DOWN)  # a browser asks whether to reload only whom it has seen to do something
    browser.reload()
    time.sleep(1)
    want("and the key stays in the tab", browser.count("body.in") and browser.count("#key") == 0, browser.text())
    place.stop_hall()
    place.database = right
    place.start_hall()
    browser.try_now()
    want("once it has its file again, the answer is received",
         until(lambda: len(place.answers("m", "eve")) == stood + 1), place.answers("m", "eve"))
    place.begin_at(time.time() - 60 * MINUTES - 2)
    browser.reload()


def protest(place, browser, want):
    browser.go("#/r/m/protests")
    until(lambda: browser.count("#words"))
    text, told = browser.js(TYPE, "#words", LONG)
    want("a long text isn't cut, and its length is told", text == LONG and "299 signs" in told, [text, told])
    want("and it isn't sent", not browser.js("return document.querySelector('.form').reportValidity()"))
    told = browser.js(TYPE, "#words", FOREIGN)[1]
    want("a sign that can't be sent is named", "“è” can't be sent" in told, told)
    browser.js(TYPE, "#words", CURLY)
    browser.push(".form button")
    stands = until(lambda: place.ask("GET", "/rounds/m/protests", "eve")["protests"])
    want("signs of keyboards are sent as plain ones", stands and stands[0]["text"] ==
         "The \"3\" isn't clear - see row 3 ...", stands)
