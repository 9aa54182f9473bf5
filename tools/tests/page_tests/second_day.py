"""A day on two machines while they die: author, director and referee by hallctl, three entrants by the page in
Chromium, and four who ask as hallctl does, through one HAProxy before both. The file is on a volume of GlusterFS, of
three machines that are namespaces of this one. Neither a machine's own kernel, disk and power is tried here, nor DRBD,
nor systemd, in whose place a loop of the shell begins the hall again.

The machine that serves dies in the midst of the round, then the other one, then the first is cut off while it lives on,
and then the other one dies as answers are under way. Whatever was told stands in the file of the one that is left,
once.
"""
import contextlib
import os
import random
import statistics
import threading
import time
from typing import NamedTuple

from harness.checks import check, holds, must_be, tell
from harness.pair import written
from harness.staff_day import reckoned, slip
from harness.volume import Volume, waited
from page_tests import day as by_pages
from page_tests.day import FILES, NAMES, draw, open_puzzle, own_answers, protest
from page_tests.firefox import HEAR, hand_in
from page_tests.place import solved, until
from page_tests.second_place import OTHER, Place, Steady, rows_of
from page_tests.windows import Chromium, windows

PLAYERS, STEADY, INNER = ("eve", "fay", "dan"), ("hal", "ida", "jon", "kim"), "gus"
DIRECTOR = "name,key,roles\ndora,dora-key-1,director\n"
PEOPLE = "name,key,roles\nbob,bob-key-1,author\nrex,rex-key-1,referee\n" + "".join(
    f"{name},{name}-key-1,entrant\n" for name in (*PLAYERS, *STEADY, INNER))
MINUTES, BEFORE = 60, 50  # of the round and of protests; seconds until its start, for people to come
# Notes the moments of trouble and of a verdict, since whoever looks turns from window to window.
NOTE = """window.toldAt = window.noticedAt = 0;
const has = (css, words) => document.querySelector(css)?.textContent.includes(words);
new MutationObserver(() => {
  if (!window.toldAt && has('.said', 'Right.')) window.toldAt = Date.now() / 1000;
  if (!window.noticedAt && has('#trouble', ' ')) window.noticedAt = Date.now() / 1000;
}).observe(document.body, { childList: true, subtree: true, characterData: true });"""
# Hands in at a moment, so that several do at once.
AT = """setTimeout(() => document.querySelector('button.hand').click(), 1000 * arguments[0] - Date.now())"""
# So many seconds a client may take until it notices that a machine is gone, and the page until it tells its next
# answer, where the processors aren't wanted by others.
NOTICED, SOON = 10, 15


class Loss(NamedTuple):
    """How the machine that serves is lost, who hands in by the page meanwhile, and what hallctl is asked."""
    what: str
    is_cut: bool
    is_under_way: bool
    by: dict
    words: tuple


LOSSES = (
    Loss("a death", False, False, {"fay": 1}, ("dora", "people", "add", "late.csv")),
    Loss("the other one's death", False, False, {"eve": 1}, ("bob", "puzzle", "put", "bob/late")),
    Loss("a cut", True, False, {"dan": 2}, ("dora", "round", "list")),
    Loss("a death as answers are under way", False, True, {"eve": 3, "fay": 2, "dan": 1}, ("dora", "answers", "day")),
)


class Day(by_pages.Day):
    """That of day.py, in another place: the windows, and all that was told."""

    def __init__(self, program, place, pictures, stack):
        self.program, self.place, self.engine, self.pictures, self.stack = program, place, Chromium, pictures, stack
        self.puzzles = [solved(program, name) for name in FILES.values()]
        self.told, self.waits, self.minutes = [], [], MINUTES
        self.at = dict(zip(PLAYERS, windows(self.browser("all"), len(PLAYERS))))
        self.going, self.over = threading.Event(), threading.Event()
        wrong = {k: slip(answer, random.Random(k)) for k, (_, answer) in enumerate(self.puzzles, 1)}
        self.wrong = wrong
        self.steady = [Steady(place.url.rstrip("/"), name, wrong, self.going, self.over) for name in STEADY]


def play(program, room, pictures):
    with contextlib.ExitStack() as stack:
        volume = stack.enter_context(Volume(room))
        day = Day(program, stack.enter_context(Place(volume, program, room, DIRECTOR)), pictures, stack)
        stack.callback(day.over.set)
        staff(day)
        arrive(day)
        for loss in LOSSES:
            lose(day, loss)
        ended(day)
        numbers(day)


def staff(day):
    """People come, puzzles are put and counted, and a round is put and released."""
    place, room = day.place, day.place.room
    written(f"{room}/people.csv", PEOPLE)
    written(f"{room}/late.csv", "name,key,roles\nlate,late-key-1,entrant\n")
    place.hallctl("dora", "people", "add", "people.csv")
    for label, (text, _) in zip(FILES, day.puzzles):
        place.hallctl("bob", "puzzle", "put", f"bob/{label}", text)
    states = place.data("bob", "puzzle", "certify", *[f"bob/{it}" for it in FILES])
    check("certificates", states, {f"bob/{it}": "one" for it in FILES})
    day.start = int(time.time()) + BEFORE
    stands = time.strftime("%Y-%m-%dT%H:%M:%SZ", time.gmtime(day.start))
    listed = "".join(f'[[puzzle]]\nauthor = "bob"\nlabel = "{it}"\npoints = 40\n' for it in FILES)
    written(f"{room}/day.toml", f'version = 1\ntitle = "The day"\nstart = "{stands}"\nminutes = {MINUTES}\n'
            f'protest_minutes = {MINUTES}\nmode = "instant"\npenalty = 5\nbonus = 2\n{listed}')
    place.hallctl("dora", "round", "put", "day", "day.toml")
    place.hallctl("dora", "round", "release", "day")


def arrive(day):
    """Three wait for the start, and the puzzles come by themselves; one of them hands in before anything befalls."""
    for who in PLAYERS:
        day.enter(who).js("location.hash = '#/r/day'")
    for who in PLAYERS:
        there = until(lambda: day.at[who].count(".cards.puzzles .card svg.sheet") == len(FILES), BEFORE + 60)
        holds(f"the puzzles come to {who} by themselves", there, day.at[who].text())
    drawn_by(day, "eve", 2)
    hand_in(day.at["eve"])
    told(day, "eve", 2)


# --- a machine is lost


def drawn_by(day, who, number):
    at = open_puzzle(day, who, number)
    draw(day, at, number)
    at.js(NOTE)
    return at


def told(day, who, number):
    """The moment at which the page told that the answer is right."""
    at = day.at[who]
    holds(f"{who}'s {NAMES[number]} is told right", at.shows("Right.", ".said", 120), at.text(".said"))
    day.told.append(by_pages.Told(who, number, True, day.puzzles[number - 1][1]))
    return at.js("return window.toldAt")


def lose(day, loss):
    """The machine that serves is lost while everybody hands in, and all are answered by the other one."""
    place, name = day.place, day.place.serves
    for who, number in loss.by.items():
        drawn_by(day, who, number)
    day.going.set()
    time.sleep(random.uniform(3, 6))
    served_by, moment = place.hall_of(name), befalls(day, loss)
    asked = place.begun(*loss.words, *([day.puzzles[0][0]] if "put" in loss.words else []))
    if not loss.is_under_way:
        for who in loss.by:
            hand_in(day.at[who])
    begun = time.time()
    place.serves = OTHER[name]
    pages = {who: told(day, who, number) - moment for who, number in loss.by.items()}
    place.ended(asked, " ".join(loss.words))
    by_hallctl = time.time() - begun
    answered(day, moment)
    waits(day, loss.what, moment, max(pages.values()), by_hallctl)
    stands(day, loss.what)
    shown(day, loss.by)
    if loss.is_cut:
        mended(day, name, served_by)
    elif not loss.is_under_way:
        tell(f"{loss.what}: the machine was started, and whole, in {place.pair.back(name)}")


def befalls(day, loss):
    """The machine's death, or its cut; as answers are under way, where that is to be: its moment."""
    machine = day.place.volume[day.place.serves]
    if loss.is_under_way:
        moment = time.time() + 4
        for who in loss.by:
            day.at[who].js(AT, moment)
        time.sleep(max(0, moment - 1 - time.time()))
        for one in day.steady:
            one.pause = 0
        # An answer takes the hall some hundredths of a second, and the cable's end this process a few.
        time.sleep(max(0, moment + random.uniform(-0.02, 0.03) - time.time()))
    moment = time.time()
    (machine.cut if loss.is_cut else machine.die)()
    return moment


def answered(day, moment):
    """Waits until all who hand in all the time were told since, and then stand still."""
    def are_told():
        return all(any(it.moment > moment + 0.3 for it in one.told) for one in day.steady)
    for one in day.steady:
        one.pause = 1
    waited("all are told again", lambda: are_told() or any(it.fault for it in day.steady))
    day.going.clear()
    waited("they stand still", lambda: not any(it.waits for it in day.steady if not it.fault))
    check("entrants who weren't answered", [it.fault for it in day.steady if it.fault], [])


def waits(day, what, moment, by_page, by_hallctl):
    """How long people waited, from the moment on."""
    since = [it for one in day.steady for it in one.told if it.moment > moment + 0.3]
    first = min(it.moment for it in since) - moment
    under_way = sum(it.moment - it.took < moment for it in since)
    noticed = [min(later) - moment for one in day.steady if (later := [it for it in one.said if it > moment])]
    noticed += [it - moment for who in PLAYERS if (it := day.at[who].js("return window.noticedAt ?? 0")) > moment]
    day.waits.append((what, by_page, max(noticed)))
    tell(f"{what}: clients noticed it within {max(noticed):.1f} s, the other machine told its first answer after "
         f"{first:.1f} and the page its next after {by_page:.1f}; hallctl ended {by_hallctl:.1f} s after it began; "
         f"{under_way} answers of others were under way")


def stands(day, what):
    """All that was told stands in the file of the machine that serves, once; it is sane; and nothing else stands."""
    copy = day.place.copied()
    sane = day.place.volume[day.place.serves].run(day.program, "check", "--db", copy)
    check(f"after {what}, hall check", (sane.returncode, "sane" in sane.stdout + sane.stderr), (0, True))
    rows = rows_of(copy)
    check(f"after {what}, answers that stand twice", len(rows) - len({it[:3] for it in rows}), 0)
    wanted = {(it.name, it.number, it.token, it.n, one.wrong[it.number]) for one in day.steady for it in one.told}
    check(f"after {what}, answers that were told and are lost", sorted(wanted - set(rows)), [])
    check(f"after {what}, others that stand", sorted(it for it in set(rows) - wanted if it[0] in STEADY), [])
    pages = sorted((it.entrant, it.number, it.answer) for it in day.told)
    check(f"after {what}, answers by pages", sorted((it[0], it[1], it[4]) for it in rows if it[0] in PLAYERS), pages)
    check(f"after {what}, answers on the machine that was cut off", [it for it in rows if it[0] == INNER], [])


def shown(day, by):
    """A page that is loaded anew shows what its entrant had."""
    for who in by:
        at = day.at[who]
        at.reload()
        at.js(HEAR)
        for it in (it for it in day.told if it.entrant == who):
            open_puzzle(day, who, it.number)
            holds(f"{who}'s {NAMES[it.number]} is shown as solved",
                  until(lambda: at.text("button.hand") == "Solved"), at.text("button.hand"))


def mended(day, name, served_by):
    """On the machine that was cut off nobody is told that an answer was taken, nor once its cable is back. Its hall is
    ended then, as docs/SECOND.md says, before anybody asks it."""
    place, number = day.place, 1

    def tries():
        words = ("-X", "PUT", "-H", f"Hall-Key: {INNER}-key-1", "--data-binary",
                 f'{{"answer":"{day.wrong[number]}"}}')
        return [place.asked(name, f"/rounds/day/answers/{number}/inner{k}", *words) for k in range(3)]
    check("answers taken while it is cut off", [it for it in tries() if it == 200], [])
    place.volume[name].mend()
    time.sleep(3)
    lives = place.lives(name, served_by)
    if lives:
        check("answers taken once its cable is back", [it for it in tries() if it == 200], [])
        reads = place.asked(name, "/rounds", "-H", f"Hall-Key: {INNER}-key-1")
        place.volume[name].run("kill", "-9", str(served_by))
    tell(f"the hall that was cut off {f'lived on, and told {reads} to who reads,' if lives else 'had ended by itself'} "
         "once its cable was back")
    waited("its mount speaks to all copies", lambda: place.volume.is_linked(name))
    tell(f"a cut: whole again after {place.volume.healed()}")
    stands(day, "its mend")


# --- the end


def ended(day):
    """All that was told is told once more in the same words; then come protests, rulings, publication and table."""
    place = day.place
    check("answers that are told otherwise once more", [it.again() for it in day.steady], [0] * len(STEADY))
    day.over.set()
    place.earlier(60 * MINUTES + int(time.time()) - day.start)
    for who in PLAYERS:
        day.at[who].reload()
        day.at[who].js(HEAR)
    protest(day)
    for it in place.data("rex", "protests", "day", "--open"):
        words = ("upheld", "--points", "3") if it["entrant"] == "eve" else ("rejected",)
        place.hallctl("rex", "rule", "day", it["entrant"], it["token"], *words)
    place.earlier(60 * MINUTES)
    place.hallctl("dora", "publish", "day")
    protests = place.data("dora", "protests", "day")
    check("the rulings", {it["entrant"]: it["ruling"] for it in protests}, {"eve": "upheld", "fay": "rejected"})
    rows = place.data("dora", "answers", "day", "--texts")
    table = place.data("dora", "table", "day")
    check("the table", table, reckoned(place.data("dora", "round", "show", "day"), rows, protests))
    check("who is in it", sorted(it["name"] for it in table), sorted((*PLAYERS, *STEADY)))
    day.table = [it.split() for it in place.hallctl("dora", "table", "day").splitlines()]
    for who in PLAYERS:
        day.at[who].reload()
        day.at[who].js(HEAR)
        own_answers(day, who)
    stands(day, "the end")


def numbers(day):
    """What is told of the whole day."""
    steady = [it for one in day.steady for it in one.told]
    must_be("whether answers were sent again", any(it.tries > 1 for it in steady), True)
    again = [it.took for it in steady if it.tries > 1]
    tell(f"a day on two machines: 3 deaths, 1 cut, {len(day.told)} answers told by pages and {len(steady)} others, "
         f"0 lost where this test passed; {len(again)} were sent again, and told after "
         f"{statistics.median(again):.1f} s, at most {max(again):.1f}")
    slow = max(1, os.getloadavg()[0] / os.cpu_count())
    check(f"whether all noticed within {NOTICED * slow:.0f} s, and the page told its next answer within "
          f"{SOON * slow:.0f}", [it for it in day.waits if it[1] > SOON * slow or it[2] > NOTICED * slow], [])
