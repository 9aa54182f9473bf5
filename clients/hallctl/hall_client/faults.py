"""A fault of a list or a sheet: how it is told."""
from . import told

# What a field is to be, beside what the hall's own reader says of it.
FORMS = {
    "name": "a name is 1 to 24 of a-z, 0-9 and the dash", "author": "the name of a person, 1 to 24 of a-z, 0-9 and -",
    "label": "1 to 24 of a-z, 0-9 and the dash", "key": "a key is 8 to 64 letters, digits and dashes",
    "roles": "roles are director, author, referee and entrant, joined by +, as author+entrant",
    "title": "a title is 1 to 60 plain signs, without accents", "mode": 'a mode is "instant" or "sealed"',
    "minutes": "a whole number without quotes, 1 to 1440",
    "protest_minutes": "a whole number without quotes, 0 to 10080",
    "penalty": "a whole number without quotes, 0 to 1000", "bonus": "a whole number without quotes, 0 to 1000",
    "points": "a whole number without quotes, 1 to 1000", "testers": 'names, as ["rex", "tom"], or [] for none',
    "start": 'a start is written as "2026-05-02T11:00:00", and in version 1 as "2026-05-02T09:00:00Z"',
    "list": "a list has at most 5,000 people",
    "zone": 'a zone is a rule, as "CET-1CEST,M3.5.0,M10.5.0/3" for most of Central Europe: docs/STAFF.md has others',
}


class Found:
    """A fault, the line that it is on where that is known, what is told besides, and what in the place of the code's
    sentence."""

    def __init__(self, code, field=None, line=None, more="", instead=""):
        self.code, self.field, self.line, self.more, self.instead = code, field, line, more, instead

    def place(self):
        return self.code, self.field, self.line

    def sentence(self):
        codes = told.codes()
        if self.instead:
            return self.instead
        if self.code == "20":
            return codes["denials"]["20"]["sentence"]
        of = codes["forms"][self.code]
        return of.get("in_a_list_or_sheet", of["sentence"])

    def value(self):
        return {"code": self.code, "field": self.field, "line": self.line, "sentence": self.sentence(),
                "more": self.more}

    def lines(self, path, lines):
        place = f"{path}:{self.line}" if self.line else path
        code = "denied 20" if self.code == "20" else f"{self.code}{f' {self.field}' if self.field else ''}"
        yield f"{place}: {code}: {self.sentence()}"
        if self.more:
            yield self.more
        if self.line and self.line <= len(lines):
            yield f"    {shown(lines[self.line - 1])}"


def shown(line):
    """A line as it is shown: strange bytes by their numbers."""
    return line.rstrip(b"\r\n").decode("utf-8", errors="backslashreplace")
