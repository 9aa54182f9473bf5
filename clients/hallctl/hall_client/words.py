"""The command line of hallctl."""
import argparse
import os
import re
import sys

from . import archive, check, draft, people, puzzles, rehearse, results, rounds, site, told
from .local_hall import NoProgram
from .printing import Out, note, text_of
from .wire import Hall, NoReply, Refused

ABOUT = """Holds rounds in a contest hall from a terminal. It asks the hall over HTTP, as docs/HTTP.md tells, and sends
each request again until it is answered. It is a client beside the hall: nothing of it is proved."""
STATUSES = """exit status:
  0   done
  1   done, but not as wished: a puzzle isn't in the state one, a list or sheet has a fault or lacks keys, or it
      wasn't agreed to
  2   refused or denied, by the hall or before it was asked
  3   no reply for as long as --patience says, or no program `hall`
  64  a wrong command line

examples:
  hallctl --url https://your.name --key-file dora.key round list
  HALL_URL=https://your.name HALL_KEY_FILE=dora.key hallctl round release noon
  hallctl check people.csv

A key is never a word of the command line, where other users of the machine would see it. docs/STAFF.md tells how a
day is held."""


# Another one is nobody's; of a slip the key alone is meant.
KEY = re.compile(r"[A-Za-z0-9-]{8,64}")


class WrongWords(Exception):
    """Words are missing that say which hall is asked, and as whom."""


class Parser(argparse.ArgumentParser):
    """A parser that ends with the status of a wrong command line."""

    def error(self, message):
        self.print_usage(sys.stderr)
        print(f"hallctl: {message}", file=sys.stderr)
        sys.exit(told.WRONG_WORDS)


def common(is_main):
    """The options of every command, which may stand in front of it or behind it."""
    unset = {} if is_main else {"default": argparse.SUPPRESS}
    it = argparse.ArgumentParser(add_help=False)
    it.add_argument("--url", **(unset or {"default": os.environ.get("HALL_URL")}), help="the hall's address [HALL_URL]")
    it.add_argument("--key-file", **(unset or {"default": os.environ.get("HALL_KEY_FILE")}),
                    help="a file with your key on its first line [HALL_KEY_FILE]")
    it.add_argument("--json", action="store_true", **unset, help="write one JSON value in place of sentences")
    it.add_argument("--yes", action="store_true", **unset, help="don't ask before what can't be taken back")
    it.add_argument("--patience", type=int, **(unset or {"default": 300}), metavar="SECONDS",
                    help="how long a request is sent again [300]")
    return it


class Commands:
    """The commands as they are added: each with its function, and whether it needs a hall and a key."""

    def __init__(self, parser):
        self.into = parser.add_subparsers(title="commands", metavar="COMMAND", required=True, parser_class=Parser)

    def add(self, name, does, words=(), needs="key", about=None):
        told_of = about or does.__doc__
        it = self.into.add_parser(name, help=told_of, description=told_of, parents=[common(False)])
        for word, options in words:
            it.add_argument(word, **options)
        it.set_defaults(does=does, needs=needs)

    def group(self, name, about):
        it = self.into.add_parser(name, help=about, description=about, parents=[common(False)])
        return Commands(it)


def word(name, about, **options):
    return name, {"help": about, **options}


CSV = word("--csv", "write CSV", action="store_true")
ROUND = word("round", "the round's id")
PUZZLE = word("puzzle", "AUTHOR/LABEL")
PROGRAM = word("--program", "the program hall [HALL, or hall on the path]")


def add_puzzles(commands):
    of = commands.group("puzzle", "put, certify, list and show puzzles")
    of.add("put", puzzles.put, [
        PUZZLE, word("text", "a text or an address as a browser shows it, @FILE, or - for the input")])
    of.add("certify", puzzles.certify, [
        word("puzzle", "AUTHOR/LABEL", nargs="+"),
        word("--budget", "the most visits of the search, to 1000000 [200000]", type=int, default=200_000)])
    of.add("list", puzzles.listed, [CSV, word("--lacking", "those that aren't in the state one", action="store_true")])
    of.add("show", puzzles.show, [PUZZLE])


def add_rounds(commands):
    of = commands.group("round", "put, release, list, show and edit rounds")
    of.add("put", rounds.put, [ROUND, word("sheet", "the round sheet, a file")])
    of.add("release", rounds.release, [ROUND, word("--sheet", "the sheet that was put, which names the puzzles")])
    of.add("list", rounds.listed, [CSV])
    of.add("show", rounds.show, [ROUND, word("--sheet", "the sheet that was put, which names the puzzles")])
    of.add("edit", draft.edit, [ROUND, word("sheet", "the file that is written [ROUND.toml]", nargs="?")])


def add_results(commands):
    commands.add("answers", results.answers, [ROUND, CSV, word("--texts", "each answer whole", action="store_true")])
    commands.add("protests", results.protests, [
        ROUND, CSV, word("--open", "those that aren't ruled", action="store_true")])
    commands.add("rule", results.rule, [
        ROUND, word("entrant", "who protested"), word("token", "the protest's token"),
        word("ruling", "upheld or rejected", choices=["upheld", "rejected"]),
        word("--points", "the points of an upheld protest, -1000 to 1000 [0]", type=int, default=0)])
    commands.add("publish", results.publish, [ROUND])
    commands.add("table", results.table, [ROUND, CSV], needs="hall")
    commands.add("ranking", results.ranking, [
        word("round", "the rounds whose tables are added", nargs="+"), CSV,
        word("--names", "CSV with the first line name,spoken,country")], needs="hall")
    commands.add("archive", archive.archive, [word("dir", "the folder that is made")])
    commands.add("site", site.site, [
        word("folder", "the folder that is written, or written anew"),
        word("round", "the rounds that are shown [all that are released]", nargs="*"),
        word("--title", "what stands on top of its pages [Contest hall]", default="Contest hall"),
        word("--address", "where the folder is served [the hall's address and /results]"),
        word("--names", "CSV with the first line name,spoken,country")])


def parser():
    it = Parser(prog="hallctl", description=ABOUT, epilog=STATUSES, parents=[common(True)],
                formatter_class=argparse.RawDescriptionHelpFormatter)
    commands = Commands(it)
    of = commands.group("people", "add people")
    of.add("add", people.add, [word("list", "the entry list, a file")])
    commands.add("keys", people.keys, [
        word("list", "the entry list, a file, which gets the new keys"),
        word("--all", "slips for those too who had a key", action="store_true"), PROGRAM], needs="nothing")
    add_puzzles(commands)
    add_rounds(commands)
    add_results(commands)
    commands.add("check", check.check, [
        word("file", "an entry list (.csv) or a round sheet (.toml)"), PROGRAM], needs="nothing")
    commands.add("rehearse", lambda args, hall, out: rehearse.rehearse(args, hall, out, main),
                 [PROGRAM, word("--port", "the port of its hall", type=int)], needs="nothing",
                 about="Plays a small round against a hall of its own, in two minutes.")
    return it


def key_of(args):
    """The key in the key file."""
    if args.needs != "key":
        return None
    if not args.key_file:
        raise WrongWords("whose key? Name a file that holds it by --key-file, or in the variable HALL_KEY_FILE")
    if os.stat(args.key_file).st_mode & 0o077:
        note(f"others of this machine may read {args.key_file}: chmod 600 {args.key_file}")
    first, *_ = text_of(args.key_file).splitlines() or [""]
    if not KEY.fullmatch(first.strip()):
        raise ValueError(f"the first line of {args.key_file} is no key: 8 to 64 letters, digits and dashes alone")
    return first.strip()


def hall_of(args):
    if args.needs == "nothing":
        return Hall("http://127.0.0.1", None)
    if not args.url:
        raise WrongWords("which hall? Name its address by --url, or in the variable HALL_URL")
    return Hall(args.url, key_of(args), args.patience, note)


def refused(args, reply):
    """Tells of a reply that isn't 200."""
    data = reply.data()
    note(*told.lines_of(data, reply.status, reply.of_file))
    Out(args.json).value(data if data is not None else {"status": reply.status})
    return told.REFUSED


def main(words):
    """Runs a command; its exit status."""
    args = parser().parse_args(words)
    try:
        return args.does(args, hall_of(args), Out(args.json))
    except Refused as fault:
        return refused(args, fault.reply)
    except (NoReply, NoProgram) as fault:
        note(str(fault))
        return told.FAULT
    except WrongWords as fault:
        note(f"hallctl: {fault}")
        return told.WRONG_WORDS
    except BrokenPipeError:
        sys.stdout = open(os.devnull, "w", encoding="ascii")
        return told.DONE
    except (OSError, ValueError) as fault:
        file = getattr(fault, "filename", None)
        note(f"hallctl: {file}: {fault.strerror}" if file else f"hallctl: {fault}")
        return told.REFUSED
    except KeyboardInterrupt:
        note("broken off: what was asked may have been done, and may be asked again")
        return told.FAULT
