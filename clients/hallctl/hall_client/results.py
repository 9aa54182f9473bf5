"""What comes of a round: answers, protests and rulings, its publication, tables, and sums of tables."""
import csv
import io

from . import told
from .printing import agreed, columns, counted, csv_text, note, text_of, utc
from .rounds import is_so, times
from .wire import Refused

ANSWERS = ["entrant", "number", "n", "moment", "token", "verdict", "answer"]
TALLY = ["entrant", "number", "right", "wrong", "untold", "first", "last"]
SIGNS = {"right": "r", "wrong": "w", "untold": "?"}
PROTESTS = ["entrant", "token", "number", "ruling", "points", "text"]


def rows_of(lines, names):
    return [[it.get(name, "") for name in names] for it in lines]


def tallies(lines):
    """How often each entrant answered each puzzle, and when first and last; a verdict that isn't told is `untold`."""
    found = {}
    for it in lines:
        of = found.setdefault((it["entrant"], it["number"]), {
            "entrant": it["entrant"], "number": it["number"], "right": 0, "wrong": 0, "untold": 0,
            "first": it["moment"], "last": it["moment"]})
        of[it.get("verdict", "untold").split()[0]] += 1
        of["first"], of["last"] = min(of["first"], it["moment"]), max(of["last"], it["moment"])
    return [found[key] for key in sorted(found)]


def cell(of, start):
    """A tally in a few letters, with the minutes since the start."""
    counts = " ".join(f"{of[name]}{sign}" for name, sign in SIGNS.items() if of[name])
    first, last = ((of[name] - start) // 60 for name in ("first", "last"))
    return f"{counts} {first}" + (f"-{last}" if last != first else "")


def answers(args, hall, out):
    """Shows how often and when each entrant answered each puzzle of a round; by --texts each answer whole."""
    lines = hall.get(f"/rounds/{args.round}/answers")["answers"]
    if args.texts:
        rows = rows_of(lines, ANSWERS)
        if not args.csv:
            rows = [[*row[:3], utc(row[3]), *row[4:]] for row in rows]
        out.table(ANSWERS, rows, lines, args.csv)
        return told.DONE
    found = tallies(lines)
    if args.csv or args.json:
        out.table(TALLY, rows_of(found, TALLY), found, args.csv)
        return told.DONE
    data = hall.get(f"/rounds/{args.round}")
    numbers, cells = [it["number"] for it in data["puzzles"]], {}
    for it in found:
        cells.setdefault(it["entrant"], {})[it["number"]] = cell(it, data["start"])
    note(f"{counted(len(lines), 'answer')} of {counted(len(cells), 'entrant')}: r right, w wrong, ? untold; then the"
         " minutes from the start to the first and the last")
    out.say(*columns(["entrant", *map(str, numbers)],
                     [[who, *[of.get(number, "") for number in numbers]] for who, of in cells.items()]))
    return told.DONE


def protests_of(hall, name):
    return hall.get(f"/rounds/{name}/protests")["protests"]


def protests(args, hall, out):
    """Lists the protests of a round."""
    lines = [it for it in protests_of(hall, args.round) if not args.open or it["ruling"] == "open"]
    out.table(PROTESTS, rows_of(lines, PROTESTS), lines, args.csv)
    return told.DONE


def rule(args, hall, out):
    """Rules on a protest, which is shown before."""
    points = args.points if args.ruling == "upheld" else 0
    if args.ruling == "rejected" and args.points:
        raise ValueError("a protest that is rejected has no points")
    found = [it for it in protests_of(hall, args.round) if (it["entrant"], it["token"]) == (args.entrant, args.token)]
    for it in found:
        out.say(f"{it['entrant']} on number {it['number']} of {args.round}: {it['text']}")
    if not found:
        note(f"{args.entrant} has no protest {args.token} in {args.round}: `hallctl protests {args.round}` lists them")
    given = f" with {counted(points, 'point')}" if args.ruling == "upheld" else ""
    if not agreed(args, f"Rule it {args.ruling}{given}? It is ruled once."):
        return told.OTHERWISE
    path = f"/rounds/{args.round}/rulings/{args.entrant}/{args.token}"
    data = hall.put(path, {"points": points, "upheld": args.ruling == "upheld"})
    out.say(f"ruled {data['ruled']}, {counted(data['points'], 'point')}")
    out.value(data)
    return told.DONE


def publish(args, hall, out):
    """Publishes a round, once no protest is open and it is agreed to."""
    data, listed = hall.get(f"/rounds/{args.round}"), protests_of(hall, args.round)
    close, open_ones = times(data)[2], [it for it in listed if it["ruling"] == "open"]
    counts = f"protests {len(listed)}, of these open {len(open_ones)}"
    out.say(f"{args.round}: {data['title']}, close {utc(close)}; {counts}")
    out.say(*(columns(PROTESTS, rows_of(open_ones, PROTESTS)) if open_ones else []))
    if not agreed(args, "A published table stays as it is, and anyone may read it. Publish it?"):
        return told.OTHERWISE
    reply = hall.ask("POST", f"/rounds/{args.round}/publish")
    if reply.status != 200 and not (reply.tries > 1 and is_so(hall, args.round, "published")):
        raise Refused(reply)
    out.say(f"{args.round} is published: `hallctl table {args.round}`, or {hall.url}/rounds/{args.round}/table")
    out.value({"published": args.round})
    return told.DONE


def table_text(hall, name):
    return hall.done("GET", f"/rounds/{name}/table").body.decode()


def lines_of_table(text):
    """Rank, name and total of each line of a table."""
    found = [line.split() for line in text.splitlines()]
    return [(int(rank), name, int(total)) for rank, name, total in found]


def table(args, hall, out):
    """Writes the table of a round, as the hall does."""
    text = table_text(hall, args.round)
    lines = [{"rank": rank, "name": name, "total": total} for rank, name, total in lines_of_table(text)]
    if args.csv:
        text = csv_text(["rank", "name", "total"], [list(it.values()) for it in lines])
    out.say(*text.splitlines())
    out.value(lines)
    return told.DONE


def spoken(path):
    """The spoken name and the country of each login name: CSV with the first line name,spoken,country."""
    reader = csv.DictReader(io.StringIO(text_of(path), newline=""))
    if not {"name", "spoken"} <= set(reader.fieldnames or []):
        first = ",".join(reader.fieldnames or [])
        raise ValueError(f"the first line of {path} is to be name,spoken,country, with commas, and is {first}")
    return {row["name"]: (row.get("spoken") or "", row.get("country") or "") for row in reader}


def tables_of(hall, rounds):
    """The totals of each of these rounds, by name."""
    twice = next((name for name in rounds if rounds.count(name) > 1), None)
    if twice:
        raise ValueError(f"{twice} is named twice: a table is added once")
    found = {}
    for name in rounds:
        try:
            found[name] = {who: total for _, who, total in lines_of_table(table_text(hall, name))}
        except Refused:
            note(f"there is no table of {name}")
            raise
    return found


def ranked(totals):
    """Names by their totals, with their ranks: equal totals have equal ranks, 1, 1, 3."""
    ordered = sorted(totals, key=lambda name: (-totals[name], name))
    first = {}
    for place, name in enumerate(ordered, 1):
        first.setdefault(totals[name], place)
    return [(first[totals[name]], name) for name in ordered]


def sums_of(tables):
    """The sum of each name's totals in these tables."""
    everybody = {who for of in tables.values() for who in of}
    return {who: sum(of.get(who, 0) for of in tables.values()) for who in everybody}


def names_for(path, everybody):
    """The spoken names and countries of the file, where one is named; who has no line in it is told."""
    names = spoken(path) if path else None
    nameless = sorted(set(everybody) - set(names)) if path else []
    note(*[f"{path} has no line for {', '.join(nameless)}"] * bool(nameless))
    return names


def ranking(args, hall, out):
    """Adds the tables of rounds up."""
    tables = tables_of(hall, args.round)
    totals = sums_of(tables)
    names = names_for(args.names, totals)
    head = ["rank", "name", *(["spoken", "country"] if names is not None else []), *args.round, "total"]
    rows = [[rank, who, *(names.get(who, ("", "")) if names is not None else []),
             *[tables[it].get(who, "") for it in args.round], totals[who]] for rank, who in ranked(totals)]
    out.table(head, rows, [dict(zip(head, row)) for row in rows], args.csv)
    return told.DONE
