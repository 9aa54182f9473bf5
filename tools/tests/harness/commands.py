"""Commands over database files of which one call is changed: what each writes, and what its file may hold then."""
from pathlib import Path

from .database import ROWS, TABLE, TABLES, kept, written
from .running import PEOPLE, bytes_of, content_of, copied, removed

KILLED = -9


class Command:
    """A command, with the database that it begins with; PATH in its words is the one that it may change. Given again it
    writes `again`, or the same."""

    def __init__(self, program, room, words, usual, before=None, again=None):
        self.program, self.before, self.path = program, before, f"{room}/asked.db"
        self.words = [word.replace("PATH", self.path) for word in words]
        self.usual, self.again = usual, again or usual
        self.first = content_of(self.begin())
        self.is_usual = self.run() == usual
        self.after = content_of(self.path)
        # tables are made by a commit of their own
        self.between = [self.first] if self.first else [self.first, dict.fromkeys(self.after, [])]

    def begin(self):
        return copied(self.before, self.path) if self.before else removed(self.path)

    def run(self, number=0):
        self.bytes = bytes_of(self.begin())
        return self.program.run(self.words, b"", number)

    def is_untouched(self):
        return bytes_of(self.path) == self.bytes

    def way(self, got):
        """How the run ended: as with no call changed, or by a fault or killed. What was told is kept then, and the
        command given again does what is left."""
        output, status = got
        how = {3: "faults", KILLED: "killed"}.get(status)
        if how and output == b"" and self.is_untouched():
            return f"{how} before any write"
        left = content_of(self.path)
        if got == self.usual:
            return "as usual" if left == self.after else None
        if not how or not self.usual[0].startswith(output) or left not in [*self.between, self.after]:
            return None
        if output and left != self.after:
            return None
        given = self.program.run(self.words)
        if given != (self.again if left == self.after else self.usual) or content_of(self.path) != self.after:
            return None
        return f"{how} {'before' if left != self.after else 'after'} the change"

    def change_each(self, numbers, ways):
        """Changes these calls in turn, to the first that isn't made."""
        if not self.is_usual:
            ways.add(None, self.words, "with no call changed")
        for number in numbers:
            got = self.run(number)
            if not self.program.was_met():
                break
            ways.add(self.way(got), self.words, number, got)


def commands(program, room):
    """The commands that open files, each in the ways that it may end."""
    def listed(name, text):
        Path(room, name).write_text(f"name,key,roles\n{text}", encoding="ascii")
        return ["init", "--db", "PATH", "--people", f"{room}/{name}"]

    people, old = f"{room}/people.db", kept(room, "round")
    init = ["init", "--db", "PATH", "--people", PEOPLE]
    migrate = ["migrate", "--to", "PATH", "--from"]
    program.run(["init", "--db", people, "--people", PEOPLE])
    filled = written(f"{room}/filled.db", TABLES, ROWS)
    more = listed("more.csv", "hal,hal-key-1,entrant\nivy,ivy-key-1,referee\n")
    changed = listed("changed.csv", "eve,eve-key-2,entrant\n")
    strange = listed("strange.csv", "eve,eve-key-1,judge\n")
    table = ["table", "--db", "PATH", "--round"]
    return [
        Command(program, room, init, (b"added 6\n", 0), None, (b"added 0\n", 0)),
        Command(program, room, init, (b"added 0\n", 0), people),
        Command(program, room, more, (b"added 2\n", 0), people, (b"added 0\n", 0)),
        Command(program, room, changed, (b"denied 20\n", 2), people),
        Command(program, room, strange, (b"refused F3 roles\n", 2), people),
        Command(program, room, [*table, "r1"], (TABLE, 0), filled),
        Command(program, room, [*table, "r2"], (b"denied 15\n", 2), filled),
        Command(program, room, [*table, "r9"], (b"denied 4\n", 2), people),
        Command(program, room, [*migrate, old], (b"migrated 19\n", 0), None, (b"migrated 0\n", 0)),
        Command(program, room, [*migrate, old], (b"refused target\n", 2), people),
        Command(program, room, [*migrate, people], (b"refused source\n", 2), filled),
    ]


def bytes_beside(room):
    """The bytes of the files in the folder, but of the one that is asked."""
    return {it.name: it.read_bytes() for it in Path(room).iterdir() if not it.name.startswith(("asked.db", "mark"))}


def ask_commands(asked, program, room, numbers_of, ways):
    """Changes calls of each command: those that `numbers_of` gives for its place. Files that are only read stay."""
    before = bytes_beside(room)
    for place, command in enumerate(asked):
        command.program = program
        command.change_each(numbers_of(place), ways)
    after = bytes_beside(room)
    ways.add("files that are only read" if after == before else None, "files were changed that are only read")
