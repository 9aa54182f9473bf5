#!/usr/bin/env python3
"""All places of a rule, a code, an action, a function, a definition, a wrong body, a column, or a part of a client:
where it is said, looked up, checked, promised, proved, tested and broken.

    python3 tools/pages/map.py NAME ..

A NAME is the number of a rule or its name (16, OpenProtest), another code (U3, F2, E5, 503), a code as it is told
({"denied":16}, {"form":"F2"}), an action (Submit), a function or law, also with its type or its crate (step,
Desk::step, hall_desk::Desk::step, law_sanity), a definition (IsInvolved), a wrong body (tester_may_submit), a column
of a table (answers.verdict), a module of the page or a view of it (view-puzzle, puzzleView), or a command of hallctl
("round put"). Each place is a path and a line. What is broken is an edit that the prover must refuse; those with a
star are tried by `python3 tools/build/wrong_bodies.py --further` alone.

An action is sought by its name and by the names made of it (`IsSubmitStep`, `submit_at`), and by its route: `named` are
the code and the definitions, `proved` the proofs, `told` pages and clients, `tested` examples and tests. A column is
sought by its name. `named` are the files that name it with all others of its table, as they would one more;
`statements` those of SQL that insert into the table, or that name both; `told` the pages, clients and examples where a
member of JSON is named so. So a few places of both mean another thing of that name.
"""
import re
import signal
import sys

import beside
import codes
import places
from promises import found_tree, functions, libraries, shown
from beside import lines_with
from sources import all_definitions, paths, read, sentence, variants
from tree import BROKEN, FORMS, asked, proofs_of, tested

# So many lines of a file are named.
MOST = 8
TABLES = "crates/hall_sql/src/tables.rt"
JUDGES = {
    "any": ("hall_grid", "parse_answer"),
    "Sudoku": ("hall_sudoku", "broken"),
    "Slitherlink": ("hall_slither", "broken"),
    "Nurikabe": ("hall_nurikabe", "broken"),
}
REQUESTS, REPLIES = "crates/hall_http/src/request.rt", "crates/hall_http/src/reply.rt"
TESTS = ("tools/tests/**/*.py",)
CLIENTS = ("clients/**/*.py", "clients/**/*.js")
TOLD = ("docs/*.md", "docs/*.json", "docs/promises/*.md", *CLIENTS, "tools/pages/description.py",
        "tools/pages/sending.py")
# The crates that know actions.
ACTING = ("hall_policy", "hall_desk", "hall_http", "hall_tool", "hall_tests", "probe")
# Where a column may be named. Of so many columns of a table a file that spells its rows may lack one; where a table
# has fewer, the file has all of them and its name.
NAMING = ("crates/*/src/*.rt", "crates/*/specs/**/*.antt", *TESTS, "bench/*.py", "examples/databases/*.toml",
          "docs/RUNNING.md")
MANY = 6
KNOWN = "rule, code, action, function, definition, wrong body, column, module of the page, command of hallctl"
# Where it may be told.
TELLING = ("docs/HTTP.md", "docs/openapi.json", "tools/pages/description.py", *CLIENTS, "examples/*/*.rows",
           "examples/*/*.out")


def line_of(path, text):
    """The line of a file that has the text, or the first."""
    return next((number for number, line in enumerate(read(path).split("\n"), 1) if text in line), 1)


def row(what, *told):
    return f"  {what:10} {' '.join(map(str, told))}"


def rows(what, found):
    """The places of one sort: what they are stands before the first."""
    yield from (row("" if at else what, it) for at, it in enumerate(dict.fromkeys(found)))


def edit(change):
    """Where a wrong body is written, and what it changes."""
    at = line_of(change.path(), f"## {change.name}") if change.is_further else 1
    changed = [f"{it.full_name()} ({it.file}:{it.line})" for it in change.functions]
    changed += [f"{name} ({crate} {module})" for crate, module, name in sorted(change.definitions)]
    what = ", ".join(changed or sorted(f"crates/{change.crate}/{it}" for it in change.files))
    return f"{change.path()}:{at} {change.name}{'*' if change.is_further else ''} changes {what}"


def defined(name, crate=None, module=None):
    """The definitions of that name, or of that place: where each stands, and its sentence."""
    for of, inside, own, told, path, line in all_definitions():
        if own == name and crate in (None, of) and module in (None, inside):
            yield f"{path}:{line} {own}: {sentence(told)}"


def place(path, lines):
    """The path with the first of these lines, and how many more there are."""
    return f"{path}:{', '.join(map(str, lines[:MOST]))}" + (f" and {len(lines) - MOST} more" if lines[MOST:] else "")


def in_files(patterns, pattern):
    """The lines of these files that have it, file by file."""
    for path in (it for of in patterns for it in paths(of)):
        if found := lines_with(pattern, read(path)):
            yield place(path, found)


def shown_by(pattern):
    """The lines of examples/ and of the tests that have it, file by file."""
    found = {}
    for path, number in codes.examples_of(pattern):
        found.setdefault(path, []).append(number)
    yield from (place(path, lines) for path, lines in found.items())
    yield from in_files(TESTS, pattern)


def probed(number):
    """The rows of the probe that are denied by a rule, or by it alone up to some rule: line by line as the answers."""
    wanted = read("crates/probe/stdout").split("\n")
    found = [at for at, line in enumerate(wanted, 1) if re.search(rf"\bdeny {number}\b", line)]
    return [f"crates/probe/stdin:{found[0]}" + (f" and {len(found) - 1} more" if found[1:] else "")] if found else []


def looked_up(name):
    """The lines that look up what a rule reads, each with the function of the desk that it calls."""
    helpers = {it.name: it for it in found_tree().items["hall_desk"] if it.block is None}
    for path, line, text in places.look_ups(name):
        called = [helpers[it] for it in re.findall(r"\b(\w+)\(", text) if it in helpers]
        yield f"{path}:{line} {text}" + "".join(f" ({it.file}:{it.line})" for it in called)


def codes_in(told):
    """The codes that a text tells, as `F1` to `F5`, `F8`."""
    for letter, least, most in re.findall(r"`([A-Z]?)(\d+)`(?: to `[A-Z](\d+)`)?", told):
        yield from (f"{letter}{it}" for it in range(int(least), int(most or least) + 1))


def rule(name, number):
    """A rule: each place in turn."""
    told = dict(variants(places.RULE, "Rule"))[name]
    tree = found_tree()
    yield f"rule {number}, {name}: {sentence(told)}"
    yield from rows("said", [it for cited in places.said(name) for it in defined(cited, "hall_policy")]
                    + [f"{places.FIRST}:{line_of(places.FIRST, f'Sentence {name} ')} the sentence of the rule"])
    asking = [action for action, those in codes.asked().items() if name in those]
    yield row("asked of", ", ".join(asking), f"({codes.ACTIONS}:{line_of(codes.ACTIONS, 'rules_asked :')})")
    yield from rows("looked up", looked_up(name))
    check = places.check_of(name)
    checked = {"check_rule": f"Rule::{name} =>"} | ({check: f"fn {check}("} if check != "check_rule" else {})
    yield from rows("checked", (f"{places.CHECKS}:{line_of(places.CHECKS, text)} {it}" for it, text in checked.items()))
    decide = next(it for it in shown("hall_policy") if it.full_name() == "decide")
    yield row("promised", f"{decide.file}:{decide.line} decide")
    yield from rows("tested", [*shown_by(codes.of_denial(number)), *probed(number)])
    yield from rows("told", in_files(CLIENTS, rf"denied\W+{number}\b"))
    yield from rows("broken", map(edit, places.broken(name, tree)))


def code(name):
    """A name of a broken rule, or a code of a fault."""
    for cell, kind, told, of in codes.names():
        if cell == f"`{name}`":
            yield f"{name}, of {kind}: {told}"
            judge = functions(JUDGES[kind][0])[JUDGES[kind][1]]
            yield from rows("said", defined(of.strip("`"), "hall_grid"))
            yield row("checked", f"{judge.file}:{judge.line} {judge.name}")
            yield from rows("tested", shown_by(codes.of_name(name)))
            yield from rows("broken", map(edit, found_tree().changes_of(judge)))
    if name in (*codes.FAULTS, "503"):
        yield f"{name}, a fault"
        for of in (of for told, of in FORMS.items() if name in codes_in(told)):
            crate, module, defining = of["defined"]
            yield from rows("said", defined(defining, crate, module))
            yield row("promised", of["promised"])
        yield from rows("tested", shown_by(codes.of_fault(name)))


def function(item):
    """A function of a library: its contract, its definitions, its tests and wrong bodies."""
    tree, key = found_tree(), (item.crate, item.full_name())
    yield f"{item.crate}::{item.full_name()}, {item.file}:{item.line}"
    yield from (f"  {paragraph}" for paragraph in item.doc)
    yield from (f"      {line}" for line in item.text.split("\n"))
    yield from rows("said", (it for crate, module, name in tree.definitions(item)
                             for it in defined(name, crate, module)))
    if item.block and item.block.kind == "trait":
        of_types = [it for these in tree.items.values() for it in these
                    if it.name == item.name and it.block and it.block.trait == item.block.name]
        yield from rows("made by", (f"{it.file}:{it.line} {it.full_name()}" for it in of_types))
    names = item.calls()
    yield from rows("calls", sorted(f"{it.file}:{it.line} {it.full_name()}" for it in tree.items[item.crate]
                                    if it.name in names and it.is_called_by(item.called())))
    yield from rows("proved", proofs_of(item))
    yield from rows("tested", [*asked().get(key, []),
                               *(f"{it.file}:{it.line} {it.name}" for it in tested(tree).get(key, []))])
    yield from rows("broken", map(edit, tree.changes_of(item)))


def definition(name):
    """A definition: where it stands, the contracts that cite it, and the wrong bodies that they refuse."""
    found = list(defined(name))
    if found:
        yield f"definition {name}"
        yield from rows("said", found)
        citing = [it for crate in libraries() for it in shown(crate) if name in it.words()]
        yield from rows("promised", (f"{it.file}:{it.line} {it.full_name()}" for it in citing))
        yield from rows("broken", (edit(it) for it in found_tree().changes if name in it.words()))


def names_of(own):
    """A pattern of the names made of an action's: Submit, IsSubmitStep, submit_at, tell_submit."""
    low = re.sub(r"(?<!^)(?=[A-Z])", "_", own).lower()
    return rf"\b(?:Is)?{own}(?![a-z])|\b(?:(?:tell|says)_{low}|{low}_(?:action|at|data|handler|reply|step|told))\b"


def handled(own):
    """Where an action is handled, what is asked of it, and where it is read and written."""
    yield from rows("looked up", (f"{path}:{line_of(path, text)}" for path, text in (
        (places.module_of(own), f"Handler for {own}"), ("crates/hall_desk/src/planning.rt", f"Action::{own}"))))
    yield from rows("checked", (f"{path}:{line_of(path, f'Action::{own}')}" for path in (
        "crates/hall_policy/src/asked.rt", "crates/hall_policy/src/rule_checks.rt") if f"Action::{own}" in read(path)))
    yield row("read", f"{REQUESTS}:{line_of(REQUESTS, own)}")
    yield row("written", f"{REPLIES}:{line_of(REPLIES, own)}")


def action(name):
    """An action: its route and rules, where it is decided, answered, read and written, and all that names it."""
    for cell, own, may, numbers in codes.routes():
        if own == name:
            route, pattern = cell.strip("`"), names_of(own)
            yield f"action {own}, {route}: {may}"
            yield from rows("said", [*defined(f"Is{own}Step", "hall_desk"), *defined("rules_asked", "hall_policy"),
                                     *defined("may", "hall_policy")])
            yield row("rules", numbers)
            yield from handled(own)
            yield from rows("named", in_files((f"crates/{it}/s*/**/*.*t" for it in ACTING), pattern))
            yield from rows("proved", in_files((f"crates/{it}/proofs/**/*.antt" for it in ACTING), pattern))
            yield from rows("told", in_files(TOLD, rf"{beside.asking(route)}|[`\"]{own}[`\"]"))
            yield from rows("tested", in_files(("examples/**/*.*", *TESTS), beside.asking_by_method(route)))
            yield from rows("broken", (edit(it) for it in found_tree().changes if it.is_of(places.module_of(own), own)))


def columns():
    """The columns of each table, from its CREATE TABLE."""
    for table, text in re.findall(r'"CREATE TABLE (\w+) \((.*?)STRICT"', read(TABLES), re.S):
        yield table, re.findall(r"\b([a-z]\w*) (?:TEXT|INTEGER)\b", text)


def naming(table, own, of_table):
    """The files that name a column with all others of its table, one of them perhaps with a line before it."""
    for path in (it for pattern in NAMING for it in paths(pattern)):
        text = read(path)
        words = {it: lines_with(rf"\b_?{it}\b", text) for it in of_table}
        is_named = len(of_table) >= MANY or re.search(rf"\b{table}\b", text)
        if words[own] and is_named and sum(not it for it in words.values()) <= len(of_table) // MANY:
            yield place(path, words[own])


def stating(table, own):
    """The statements of SQL that insert into the table, also by a name that is put in, or that name both."""
    asking = rf"\bINTO {table}\b|\b(FROM|UPDATE) {table}\b.*\b{own}\b|\b{own}\b.*\bFROM {table}\b"
    for path in (it for pattern in NAMING for it in paths(pattern)):
        text = read(path)
        if found := lines_with(rf"{asking}|\bINTO \{{" if f'"{table}"' in text else asking, text):
            yield place(path, found)


def column(name):
    """A column: what would name one more of its table, what writes its rows, and what is told of it."""
    table, _, own = name.partition(".")
    of_table = dict(columns()).get(table, ())
    if own in of_table:
        yield f"column {own} of {table}"
        yield row("made", f"{TABLES}:{line_of(TABLES, f'CREATE TABLE {table} ')}")
        yield from rows("named", naming(table, own, of_table))
        yield from rows("statements", stating(table, own))
        yield from rows("told", in_files(TELLING, rf"\"{own}\"|\w\.{own}\b"))


def part_of_a_client(name):
    """A module or view of the page, or a command of hallctl."""
    for found in filter(None, (beside.page_module(name), beside.command(name))):
        yield found[0]
        for what, of in found[1].items():
            yield from rows(what, (it if isinstance(it, str) else place(*it) for it in of if it[1]))


def meant(name):
    """The name of a code that is written as it is told: `{"denied":16}`, `denied 16`, `refused F2 key`."""
    found = re.fullmatch(r'\{?"?(?:denied|form|refused)"?[: ] ?"?([A-Z]?\d+)\b.*', name)
    return found[1] if found else name


def places_of(name):
    """All that the name stands for."""
    for own, number in codes.numbers().items():
        if name in (own, str(number)):
            yield from rule(own, number)
    yield from code(name)
    yield from action(name)
    for crate, items in found_tree().items.items():
        for item in items:
            if name in (item.name, item.full_name(), f"{crate}::{item.full_name()}"):
                yield from function(item)
    yield from definition(name)
    yield from column(name)
    yield from part_of_a_client(name)
    for change in found_tree().changes:
        if name in (change.name, change.full_name()):
            yield f"wrong body {change.name}"
            yield row("stands in", edit(change))
            yield from rows("breaks", (f"rule {codes.numbers()[own]}, {own}" for own, names in BROKEN.items()
                                       if change.full_name() in names))


def main():
    # Whoever reads may have read enough.
    signal.signal(signal.SIGPIPE, signal.SIG_DFL)
    if not sys.argv[1:]:
        print(__doc__, file=sys.stderr)
        return 2
    unknown = False
    for name in sys.argv[1:]:
        told = list(places_of(meant(name)))
        print("\n".join(told or [f"{name} is none of these: {KNOWN}"]))
        unknown = unknown or not told
    return 1 if unknown else 0


if __name__ == "__main__":
    sys.exit(main())
