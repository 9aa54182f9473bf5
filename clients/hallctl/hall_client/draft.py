"""The sheet of a draft, written anew of what the hall tells of it."""
import json

from . import told
from .printing import note, sheet_moment
from .rounds import by_texts, is_so

AS_TOLD = ("minutes", "protest_minutes", "mode", "penalty", "bonus")
UNTOLD = ["who tests the round: add `testers` (version 3)",
          "the zone in which the start was written: it stands here in UTC, as in version 1"]


def puzzle_lines(puzzle, names):
    """The lines of a puzzle, which has the text of these ones."""
    first, *others = names.split(" or ")
    author, _, label = first.partition("/")
    if first == "?":
        yield f"# Whose puzzle this is isn't known: {puzzle['text']}"
    elif others:
        yield f"# or {', '.join(others)}, which has the same text"
    yield from ["[[puzzle]]", f'author = "{author}"', f'label = "{label or "?"}"', f"points = {puzzle['points']}", ""]


def sheet_text(data, names):
    """The sheet of a round; the names of each puzzle are those that have its text."""
    lines = [f"# Written of what the hall tells of {data['id']}. It doesn't tell", *[f"#  - {it}" for it in UNTOLD], "",
             "version = 1", f"title = {json.dumps(data['title'])}", f'start = "{sheet_moment(data["start"])}"',
             *[f"{name} = {json.dumps(data[name])}" for name in AS_TOLD], ""]
    for puzzle, of in zip(data["puzzles"], names):
        lines += puzzle_lines(puzzle, of)
    return "\n".join(lines)


def edit(args, hall, out):
    """Writes the sheet of a draft into a file, as far as the hall tells it."""
    data, path = hall.get(f"/rounds/{args.round}"), args.sheet or f"{args.round}.toml"
    names = [of for _, of, _ in by_texts(hall, data)]
    try:
        with open(path, "x", encoding="ascii") as file:
            file.write(sheet_text(data, names))
    except FileExistsError:
        raise ValueError(f"{path} is there already: name another file") from None
    out.say(f"{path} is the sheet of {args.round}: edit it, and put it again")
    unknown = [str(it["number"]) for it, of in zip(data["puzzles"], names) if of == "?"]
    note(*[f"The hall doesn't tell {it}" for it in UNTOLD])
    note(*[f"Whose puzzles these are isn't known, so name them: number {', '.join(unknown)}"] * bool(unknown))
    if is_so(hall, args.round, "released"):
        note(f"{args.round} is released, and stays as it is: the sheet is for a round of another id")
    out.value({"sheet": path, "unknown": [int(it) for it in unknown]})
    return told.DONE
