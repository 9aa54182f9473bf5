"""What is published, as a static site: what is told of each round, and the folder of pages that shows it."""
import json
import os
import shutil
import tempfile
from pathlib import Path

from . import site_pages, told
from .printing import note, text_of
from .results import lines_of_table, names_for, ranked, sums_of, table_text
from .rounds import times
from .wire import Refused

# What a listing tells of a round, and what its sheet tells beside that.
LISTED = ("id", "title", "start", "minutes", "mode", "published")
OF_SHEET = ("protest_minutes", "penalty", "bonus")
# By this file a folder is known as a site that may be written anew.
DATA = "results.json"
STYLE = Path(__file__).with_name("site.css")
# Denials that say that this key may not read it, or not yet.
UNTOLD = (2, 5, 7, 9)


def asked(hall, path, left_out):
    """The JSON at the path; none where the hall doesn't tell it to this key."""
    try:
        return hall.get(path)
    except Refused as refused:
        data = refused.reply.data() or {}
        if data.get("denied") not in UNTOLD:
            raise
        left_out.append(f"{path} is left out: {next(told.lines_of(data, refused.reply.status))}")
        return None


def puzzle_told(puzzle, solution, is_published):
    """What is told of a puzzle: before the publication not its text."""
    kind, cols, rows, *_ = puzzle["text"].split("/")
    shape = {"number": puzzle["number"], "points": puzzle["points"], "kind": kind, "cols": int(cols), "rows": int(rows)}
    return {**shape, "text": puzzle["text"], "solution": solution} if is_published else shape


def round_told(hall, listed, left_out):
    """What is told of a released round."""
    of, path = {name: listed[name] for name in LISTED}, f"/rounds/{listed['id']}"
    of["end"] = of["start"] + 60 * of["minutes"]
    sheet, solutions = asked(hall, path, left_out), []
    if of["published"]:
        of["table"] = [{"rank": rank, "name": name, "total": total}
                       for rank, name, total in lines_of_table(table_text(hall, of["id"]))]
        solutions = (asked(hall, f"{path}/solutions", left_out) or {"solutions": []})["solutions"] if sheet else []
    if sheet:
        of |= {name: sheet[name] for name in OF_SHEET} | {"close": times(sheet)[2]}
        of["puzzles"] = [puzzle_told(it, solutions[at] if at < len(solutions) else None, of["published"])
                         for at, it in enumerate(sheet["puzzles"])]
    return of


def ranking_told(rounds):
    """The sums of the tables: rank, name, total, and the total in each round of those that have one for the name."""
    tables = {of["id"]: {it["name"]: it["total"] for it in of["table"]} for of in rounds if of["published"]}
    sums = sums_of(tables)
    return [{"rank": rank, "name": name, "total": sums[name],
             "rounds": {id_: table[name] for id_, table in tables.items() if name in table}}
            for rank, name in ranked(sums)]


def names_told(path, ranking):
    """The spoken name and the country of those in the tables, and of nobody else."""
    here = [it["name"] for it in ranking]
    names = names_for(path, here) or {}
    return {it: dict(zip(("spoken", "country"), names[it])) for it in here if it in names}


def all_told(args, hall, left_out):
    """All that the site shows. The pages are made of it alone."""
    listed = [it for it in hall.get("/rounds")["rounds"] if it["released"]]
    missing = sorted(set(args.round) - {it["id"] for it in listed})
    if missing:
        raise ValueError(f"there is no released round {', '.join(missing)}")
    shown = sorted((it for it in listed if not args.round or it["id"] in args.round), key=lambda it: it["start"])
    rounds = [round_told(hall, it, left_out) for it in shown]
    ranking = ranking_told(rounds)
    return {"title": args.title, "address": address_of(args, hall), "rounds": rounds, "ranking": ranking,
            "names": names_told(args.names, ranking)}


def address_of(args, hall):
    """Where the folder will be served, with a slash at its end."""
    return (args.address or f"{hall.url.rstrip('/')}/results").rstrip("/") + "/"


def check_place(folder):
    """Only a site, or what is empty, is written over."""
    if folder.exists() and not (folder / DATA).is_file() and any(folder.iterdir()):
        raise ValueError(f"{folder} is there already, and is no site that hallctl wrote: name another folder")


def write_whole(folder, files):
    """Writes the files into a new folder beside this one, and moves it into its place."""
    parent = folder.parent
    os.makedirs(parent, exist_ok=True)
    made = Path(tempfile.mkdtemp(prefix=f".{folder.name}-", dir=parent))
    try:
        for name, text in files.items():
            (made / name).parent.mkdir(exist_ok=True)
            (made / name).write_text(text, encoding="utf-8")
        for it in (made, *made.rglob("*")):
            it.chmod(0o755 if it.is_dir() else 0o644)
        put_in_place(parent, made, folder)
    finally:
        shutil.rmtree(made, ignore_errors=True)


def put_in_place(parent, made, folder):
    """Gives the new folder its name; the one before is removed after that."""
    before = Path(tempfile.mkdtemp(prefix=f".{folder.name}-", dir=parent)) if folder.exists() else None
    if before:
        os.rename(folder, before)
    os.rename(made, folder)
    if before:
        shutil.rmtree(before)


def site(args, hall, out):
    """Writes a static site of what is published, and of the rounds that are announced."""
    folder, left_out = Path(args.folder).resolve(), []
    check_place(folder)
    data = all_told(args, hall, left_out)
    files = {**site_pages.pages(data), DATA: json.dumps(data, indent=1, ensure_ascii=False) + "\n",
             "style.css": text_of(STYLE)}
    write_whole(folder, files)
    note(*left_out)
    published = sum(of["published"] for of in data["rounds"])
    out.say(f"{args.folder}: rounds announced {len(data['rounds']) - published}, published {published}, files"
            f" {len(files)}; it belongs at {data['address']}")
    out.value({"files": sorted(files), "left_out": left_out})
    return told.DONE
