"""All that a director may read, in a folder: as JSON and CSV, with the checksums of its files."""
import hashlib
import json
import os
from pathlib import Path

from . import told
from .printing import csv_text, note
from .puzzles import texts_of
from .results import ANSWERS, PROTESTS, rows_of
from .wire import Refused

ROUND = ["id", "title", "start", "minutes", "mode", "released", "published"]
SUMS = "SHA256SUMS"


class Folder:
    """A folder in the making: it gets its name once it is whole."""

    def __init__(self, path):
        self.path, self.making, self.names = Path(path), Path(f"{path}.part"), []
        if self.path.exists() and any(self.path.iterdir()):
            raise ValueError(f"{path} is there already, and isn't empty: name another folder")
        if self.making.exists():
            raise ValueError(f"{self.making} is left of an archive that was broken off: look at it, and remove it")
        os.makedirs(self.making, mode=0o700)

    def write(self, name, text):
        place = self.making / name
        place.parent.mkdir(exist_ok=True)
        place.write_text(text, encoding="utf-8")
        self.names.append(name)

    def write_json(self, name, value):
        self.write(name, json.dumps(value, indent=1, ensure_ascii=False) + "\n")

    def write_listing(self, name, lines, head):
        self.write_json(f"{name}.json", lines)
        self.write(f"{name}.csv", csv_text(head, rows_of(lines, head)))

    def finish(self):
        """Writes the checksums, which `sha256sum --check` reads, and gives the folder its name."""
        sums = [f"{hashlib.sha256((self.making / it).read_bytes()).hexdigest()}  {it}\n" for it in sorted(self.names)]
        (self.making / SUMS).write_text("".join(sums), encoding="ascii")
        if self.path.exists():
            self.path.rmdir()
        self.making.rename(self.path)


def of_round(hall, folder, name):
    """Writes a released round; what is left out, a sentence each."""
    folder.write_json(f"{name}/round.json", hall.get(f"/rounds/{name}"))
    folder.write_listing(f"{name}/answers", hall.get(f"/rounds/{name}/answers")["answers"], ANSWERS)
    folder.write_listing(f"{name}/protests", hall.get(f"/rounds/{name}/protests")["protests"], PROTESTS)
    for what, ending in (("solutions", "json"), ("table", "txt")):
        try:
            reply = hall.done("GET", f"/rounds/{name}/{what}")
            folder.write(f"{name}/{what}.{ending}", reply.body.decode())
        except Refused as refused:
            yield f"{name} has no {what} yet: {next(told.lines_of(refused.reply.data(), refused.reply.status))}"


def archive(args, hall, out):
    """Writes the archive."""
    folder = Folder(args.dir)
    rounds, puzzles = hall.get("/rounds")["rounds"], hall.get("/puzzles")["puzzles"]
    texts = texts_of(hall, puzzles)
    puzzles = [{**it, "text": texts.get((it["author"], it["label"]), "")} for it in puzzles]
    folder.write_listing("rounds", rounds, ROUND)
    folder.write_listing("puzzles", puzzles, ["author", "label", "state", "text"])
    left_out = []
    for it in rounds:
        if it["released"]:
            left_out += of_round(hall, folder, it["id"])
        else:
            folder.write_json(f"{it['id']}/round.json", hall.get(f"/rounds/{it['id']}"))
    folder.finish()
    note(*left_out)
    counts = f"rounds {len(rounds)}, puzzles {len(puzzles)}, files {len(folder.names)}"
    out.say(f"{args.dir}: {counts}; keys are nowhere in it",
            f"to see that it is whole: cd {args.dir} && sha256sum --check {SUMS}")
    out.value({"files": sorted(folder.names), "left_out": left_out})
    return told.DONE
