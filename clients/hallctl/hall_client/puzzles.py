"""Puzzles: putting them, having their solutions counted, and seeing how they stand."""
import re
import sys

from . import told
from .drawing import drawn
from .mend import mended
from .printing import note
from .printing import text_of as text_of_file
from .wire import Refused, as_json

MEANING = {
    "new": "no search was made yet: `hallctl puzzle certify` makes one",
    "one": "there is exactly one solution: the puzzle may stand in a round",
    "none": "there is no solution: a clue contradicts another, so mend the puzzle and put it again",
    "more": "there is more than one solution: add a clue, put the puzzle again under this label, and certify it anew",
    "gave up": "the search came to no end within its budget: this says nothing of the puzzle",
}
TRY = {
    "none": ["`hall solve` on your own machine says the same, and takes nobody's time."],
    "more": ["The hall doesn't show the two solutions. Look for a place where a loop, a wall or a pair of numbers can"
             " be turned round."],
    "gave up": ["Try with `hall solve --budget 1000000` on your own machine first, which takes nobody's time.",
                "If that says `one`, certify with `--budget 1000000`; it may take long where the board is large and"
                " nearly empty.",
                "If it gives up too, add clues: how many visits were needed isn't told."],
}


def of(place):
    """The path of a puzzle that is written as AUTHOR/LABEL."""
    if place.count("/") != 1:
        raise ValueError(f"{place} is no puzzle's place: write AUTHOR/LABEL, as bob/p1")
    return f"/puzzles/{place}"


def text_of(word):
    """The text that a word names: itself, that of @FILE, or of the input, without the end of its last line."""
    if word != "-" and not word.startswith("@"):
        return word
    text = sys.stdin.read() if word == "-" else text_of_file(word[1:])
    return re.sub(r"\r?\n\Z", "", text)


def put(args, hall, out):
    """Puts a puzzle."""
    given = text_of(args.text)
    text, notes = mended(given)
    note(*[f"mended: {it}" for it in notes], *([f"asked for: {text}"] if notes else []))
    try:
        data = hall.put(of(args.puzzle), {"text": text})
    except Refused as refused:
        if (refused.reply.data() or {}).get("denied") == 4:
            note(f"{args.puzzle.partition('/')[0]} is no person with the role author: see the spelling, and the list")
        raise
    out.say(f"{args.puzzle} is {data['state']}: {data['text']}")
    if data["text"] != text and not notes:
        out.say("This is how the hall writes it; it is the same puzzle.")
    out.value({**data, "mended": notes})
    return told.DONE


def certify(args, hall, out):
    """Has the solutions of puzzles counted, one after another."""
    found = {}
    paths = {place: of(place) for place in args.puzzle}
    for place, path in paths.items():
        try:
            reply = hall.done("POST", f"{path}/certificate", as_json({"budget": args.budget}))
        except Refused:
            note(f"{place} wasn't certified:")
            raise
        found[place] = reply.data()["state"]
        out.say(f"{place}: {found[place]} - {MEANING[found[place]]}")
    for state, lines in TRY.items():
        if state in found.values():
            out.say(*lines)
    out.value(found)
    return told.DONE if set(found.values()) <= {"one"} else told.OTHERWISE


def listed(args, hall, out):
    """Lists puzzles."""
    lines = [it for it in hall.get("/puzzles")["puzzles"] if not args.lacking or it["state"] != "one"]
    out.table(["author", "label", "state"], [[it["author"], it["label"], it["state"]] for it in lines], lines, args.csv)
    return told.DONE


def show(args, hall, out):
    """Shows a puzzle, and draws it here."""
    data = hall.get(of(args.puzzle))
    out.say(f"{args.puzzle}: {data['text']}", f"state {data['state']}: {MEANING[data['state']]}", *drawn(data["text"]))
    out.value(data)
    return told.DONE


def texts_of(hall, lines):
    """The text of each of these puzzles of a listing, by author and label; those that may not be read are left out."""
    found = {}
    for it in lines:
        try:
            found[it["author"], it["label"]] = hall.get(f"/puzzles/{it['author']}/{it['label']}")["text"]
        except Refused:
            continue
    return found
