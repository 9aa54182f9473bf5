"""Rounds: drafts, their release, and how they stand."""
import tomllib

from . import told
from .printing import agreed, columns, counted, here, note, told_in, utc, when
from .puzzles import MEANING, texts_of
from .wire import Refused

# So many puzzles are read to find the labels of a draft's texts; of more only those that aren't in the state `one`.
MANY = 200


def sheet_of(content):
    """What a sheet's TOML says; nothing where it is none: the hall says what is wrong with it."""
    try:
        return tomllib.loads(content.decode("utf-8-sig"))
    except (UnicodeDecodeError, tomllib.TOMLDecodeError):
        return {}


def places_of(sheet):
    """The puzzles of a sheet: author and label of each, in their order."""
    puzzles = sheet.get("puzzle", [])
    listed = puzzles if isinstance(puzzles, list) else []
    return [(it.get("author"), it.get("label")) for it in listed if isinstance(it, dict)]


def states_of(hall):
    """The state of each puzzle that is there."""
    return {(it["author"], it["label"]): it["state"] for it in hall.get("/puzzles")["puzzles"]}


def times(data):
    """The start, the end and the close of a round."""
    end = data["start"] + 60 * data["minutes"]
    return data["start"], end, end + 60 * data["protest_minutes"]


def say_times(data, hall, out):
    for name, moment in zip(("start", "end", "close"), times(data)):
        out.say(f"{name:6} {when(moment, hall.now())}")


def put(args, hall, out):
    """Puts a draft, and says when it starts and what its puzzles lack."""
    with open(args.sheet, "rb") as file:
        content = file.read()
    try:
        hall.done("PUT", f"/rounds/{args.round}", content)
    except Refused as refused:
        explain_put(hall, content, refused, args)
        raise
    data = hall.get(f"/rounds/{args.round}")
    out.say(f"{args.round} is a draft: {data['title']}, {data['mode']}")
    say_times(data, hall, out)
    out.say(f"testers {', '.join(sheet_of(content).get('testers', [])) or 'none'}")
    if data["start"] <= hall.now():
        out.say("Its start has come already, so it can't be released: put it again with a later one.")
    states = states_of(hall)
    found = [[number, f"{author}/{label}", states.get((author, label), "?")]
             for number, (author, label) in enumerate(places_of(sheet_of(content)), 1)]
    say_lacking(found, out)
    out.value({**data, "states": [{"number": n, "puzzle": name, "state": state} for n, name, state in found]})
    return told.DONE


def explain_put(hall, content, refused, args):
    """Says which puzzle or tester of a sheet isn't there, or where its fault is to be looked for."""
    data = refused.reply.data() or {}
    if data.get("form", "F6") != "F6":
        note(f"`hallctl check {args.sheet}` says on which line, and what to do")
    if data.get("denied") == 4:
        sheet, states = sheet_of(content), states_of(hall)
        missing = [f"{author}/{label}" for author, label in places_of(sheet) if (author, label) not in states]
        note(*([f"there is no puzzle {', '.join(missing)}"] if missing else
               [f"not all testers are entrants or referees: {', '.join(map(str, sheet.get('testers', [])))}"]))


def say_lacking(rows, out):
    """Says of each puzzle of a round in which state it is."""
    out.say(*columns(["number", "puzzle", "state"], rows))
    for number, name, state in rows:
        if state != "one":
            out.say(f"number {number}, {name}, isn't ready: {MEANING.get(state, 'its state is not known here')}")


def by_texts(hall, data):
    """The puzzles that have the texts of the round: of each number those of its text, with their states."""
    lines = hall.get("/puzzles")["puzzles"]
    states = {(it["author"], it["label"]): it["state"] for it in lines}
    texts = texts_of(hall, [it for it in lines if len(lines) <= MANY or it["state"] != "one"])
    for it in data["puzzles"]:
        found = [key for key, text in texts.items() if text == it["text"]]
        names = " or ".join("/".join(key) for key in found) or "?"
        among = {states[key] for key in found} or {"one" if len(lines) > MANY else "?"}
        yield [it["number"], names, "one" if "one" in among else ", ".join(sorted(among))]


def rows_to_release(args, hall, data):
    """Number, name and state of each puzzle of a draft: by its sheet, or else by the texts."""
    if not args.sheet:
        return list(by_texts(hall, data))
    with open(args.sheet, "rb") as file:
        places, states = places_of(sheet_of(file.read())), states_of(hall)
    if len(places) != len(data["puzzles"]):
        counts = f"{counted(len(places), 'puzzle')} and the draft {len(data['puzzles'])}"
        raise ValueError(f"{args.sheet} has {counts}: put the sheet first")
    return [[number, "/".join(it), states.get(it, "?")] for number, it in enumerate(places, 1)]


def release(args, hall, out):
    """Releases a draft, once each puzzle is seen to be ready and it is agreed to."""
    data = hall.get(f"/rounds/{args.round}")
    rows = rows_to_release(args, hall, data)
    out.say(f"{args.round}: {data['title']}, {data['mode']}, {data['minutes']} min,"
            f" protests {data['protest_minutes']} min, penalty {data['penalty']}, bonus {data['bonus']}")
    say_times(data, hall, out)
    say_lacking(rows, out)
    if any(state not in ("one", "?") for _, _, state in rows):
        note("Nothing was asked of the hall: see to these puzzles first.")
        return told.OTHERWISE
    if not agreed(args, "A released round stays as it is: it can't be moved, stopped or taken back. Release it?"):
        return told.OTHERWISE
    try:
        reply = hall.ask("POST", f"/rounds/{args.round}/release")
        if reply.status != 200 and not (reply.tries > 1 and is_so(hall, args.round, "released")):
            raise Refused(reply)
    except Refused as refused:
        explain_release(hall, args.round, data, refused)
        raise
    out.say(f"{args.round} is released, and begins in {told_in(data['start'] - hall.now())}")
    out.value({"released": args.round, "start": data["start"]})
    return told.DONE


def is_so(hall, name, what):
    """Whether a round is released or published, as the listing tells it: asked where the first reply was lost."""
    return any(it["id"] == name and it[what] for it in hall.get("/rounds")["rounds"])


def explain_release(hall, name, data, refused):
    """Says in which released round a text of this draft stands."""
    if (refused.reply.data() or {}).get("denied") != 11:
        return
    texts = {it["text"]: it["number"] for it in data["puzzles"]}
    for other in hall.get("/rounds")["rounds"]:
        if other["released"] and other["id"] != name:
            there = hall.get(f"/rounds/{other['id']}")["puzzles"]
            numbers = [str(texts[it["text"]]) for it in there if it["text"] in texts]
            if numbers:
                note(f"the texts of number {', '.join(numbers)} stand in the released round {other['id']}")


def stands(it, now):
    """How a round of the listing stands."""
    if it["published"] or not it["released"]:
        return "published" if it["published"] else "draft"
    end = it["start"] + 60 * it["minutes"]
    return "to come" if now < it["start"] else "runs" if now < end else "over"


def listed(args, hall, out):
    """Lists rounds."""
    lines = hall.get("/rounds")["rounds"]
    rows = [[it["id"], it["title"], it["mode"], it["minutes"], utc(it["start"]), here(it["start"]),
             stands(it, hall.now())] for it in lines]
    out.table(["round", "title", "mode", "minutes", "start", "start here", "state"], rows, lines, args.csv)
    return told.DONE


def names_of(args, hall, data):
    """The puzzle of each number, as AUTHOR/LABEL; none where the caller may not list puzzles."""
    try:
        found = {number: name for number, name, _ in rows_to_release(args, hall, data)}
    except Refused:
        return None
    if "?" in found.values():
        note(f"A ? is a puzzle of another author, or one of more than {MANY}: then name the sheet by --sheet.")
    return found


def show(args, hall, out):
    """Shows a round with its puzzles, and to whom may list them with their authors and labels."""
    data = hall.get(f"/rounds/{args.round}")
    out.say(f"{data['id']}: {data['title']}, {data['mode']}, penalty {data['penalty']}, bonus {data['bonus']}")
    say_times(data, hall, out)
    names = names_of(args, hall, data)
    if names is not None:
        data["puzzles"] = [{**it, "puzzle": names[it["number"]]} for it in data["puzzles"]]
    head = ["number", "points", *(["puzzle"] if names is not None else []), "text"]
    out.say(*columns(head, [[it[name] for name in head] for it in data["puzzles"]]))
    out.value(data)
    return told.DONE
