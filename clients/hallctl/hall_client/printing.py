"""What is written for people and for programs: columns, CSV, JSON, moments."""
import csv
import datetime
import io
import json
import re
import sys
from pathlib import Path


def columns(head, rows):
    """Rows under their heads, in columns that are as wide as need be; numbers stand right."""
    cells = [[str(cell) for cell in row] for row in rows]
    widths = [max(len(row[at]) for row in [head, *cells]) for at in range(len(head))]
    is_right = [all(isinstance(row[at], int) for row in rows) and bool(rows) for at in range(len(head))]
    for row in [head, *cells]:
        yield "  ".join(cell.rjust(width) if right else cell.ljust(width)
                        for cell, width, right in zip(row, widths, is_right)).rstrip()


# What a spreadsheet would take for a formula; a name may begin with a dash.
FORMULA = re.compile(r"[=+@]|-.*[^a-z0-9-]", re.DOTALL)


def csv_text(head, rows):
    """The same as CSV. What an entrant wrote as a formula has a mark before it, by which a spreadsheet shows it."""
    text = io.StringIO()
    told = [[f"'{it}" if isinstance(it, str) and FORMULA.match(it) else it for it in row] for row in rows]
    csv.writer(text, lineterminator="\n").writerows([head, *told])
    return text.getvalue()


def counted(number, name, names=None):
    """A number with the word for one, or for several."""
    return f"{number} {name if number == 1 else names or f'{name}s'}"


def told_in(seconds):
    """A length of time in words."""
    seconds = int(abs(seconds))
    days, hours, minutes = seconds // 86_400, seconds // 3600 % 24, seconds // 60 % 60
    if days:
        return f"{days} d {hours} h"
    if hours:
        return f"{hours} h {minutes} min"
    return f"{minutes} min {seconds % 60} s" if minutes else f"{seconds} s"


def utc(moment):
    return datetime.datetime.fromtimestamp(moment, datetime.timezone.utc).strftime("%Y-%m-%d %H:%M:%S UTC")


def sheet_moment(moment):
    """The moment as a sheet of version 1 has it."""
    return datetime.datetime.fromtimestamp(moment, datetime.timezone.utc).strftime("%Y-%m-%dT%H:%M:%SZ")


def here(moment):
    """The moment in the zone of this machine."""
    at = datetime.datetime.fromtimestamp(moment, datetime.timezone.utc).astimezone()
    return at.strftime("%a %Y-%m-%d %H:%M:%S %Z")


def when(moment, now):
    """The moment in UTC, in the zone of this machine, and how far away it is."""
    far = f"in {told_in(moment - now)}" if moment > now else f"{told_in(now - moment)} ago"
    return f"{utc(moment)}, here {here(moment)}, {far}"


def text_of(path):
    """The text of a file, as editors and spreadsheets save it."""
    content = Path(path).read_bytes()
    try:
        return content.decode("utf-8-sig")
    except UnicodeDecodeError:
        raise ValueError(f"{path} is no text in UTF-8: save it as that; in a spreadsheet as `CSV UTF-8`") from None


class Out:
    """Where a command writes: sentences for people, or one JSON value for programs."""

    def __init__(self, is_json):
        self.is_json = is_json

    def say(self, *lines):
        if not self.is_json:
            for line in lines:
                print(line, flush=True)

    def value(self, value):
        if self.is_json:
            json.dump(value, sys.stdout, ensure_ascii=False)
            print()

    def table(self, head, rows, value, is_csv=False):
        """A listing: as columns, as CSV, or as the value in JSON."""
        self.value(value)
        if not self.is_json:
            print(csv_text(head, rows), end="") if is_csv else self.say(*columns(head, rows))


def note(*lines):
    """Says something beside what is written."""
    for line in lines:
        print(line, file=sys.stderr, flush=True)


def agreed(args, question):
    """Whether whoever runs the command agrees to what can't be taken back."""
    if args.yes:
        return True
    print(f"{question} [y/N] ", end="", file=sys.stderr, flush=True)
    is_agreed = sys.stdin.readline().strip().lower() in ("y", "yes")
    if not is_agreed:
        note("Nothing was done.")
    return is_agreed
