"""docs/RULES.md: where each of the twenty rules, and each code that an answer or a text is told, is said, looked up,
checked, tested and broken.

A module for tools/pages/promises.py.
"""
import os
import re

import codes
from sources import all_definitions, read, sentence, variants
from tree import BROKEN, DATA, FORMS

FACTS = "crates/hall_policy/specs/Facts.antt"
FIRST = "crates/hall_policy/specs/First.antt"
RULE = "crates/hall_policy/src/rule.rt"
CHECKS = "crates/hall_policy/src/rule_checks.rt"
DESK = "crates/hall_desk/src"
# More modules than these are told as all of their kind.
FEW = 4

HEAD = """\
# The rules, from their sentence to the tests

This page is written by `tools/pages/promises.py`. For each of the twenty rules by which a request is denied it tells
where the rule stands:

- **said**: its definition, in [hall_policy](../crates/hall_policy/specs/Rules.antt);
- **looked up**: the modules of [hall_desk](../crates/hall_desk/src) that ask the store for what the rule reads;
- **checked**: the function of [rule_checks.rt](../crates/hall_policy/src/rule_checks.rt) that tests it;
- **tested**: the first row that is denied by it. [crates/probe/stdin](../crates/probe/stdin) asks each too (`decide`);
- **broken**: edits of the code, called wrong bodies, that the prover must refuse. `./check --prove` tries each, but
  those with a star, which `python3 tools/build/wrong_bodies.py --further` tries.

`python3 tools/pages/map.py 11` prints all places of rule 11, each with its line: all rows that are denied by it, too.
So it does for a code, an action, a function, a definition, a wrong body or a column of a table: `map.py U3`,
`map.py Submit`, `map.py decide`, `map.py IsInvolved`, `map.py answers.verdict`. What a new one touches is told in
[ARCHITECTURE.md](ARCHITECTURE.md#where-a-change-goes).
"""


def link(path, name=None):
    return f"[{name or path.removeprefix('examples/')}](../{path})"


def row(*cells):
    return "|" + "|".join(f" {it} " if it else " " for it in cells) + "|"


def first_example(pattern):
    """The first line of examples/ that has it, and how many files more do."""
    found = list(codes.examples_of(pattern))
    path, number = found[0]
    more = len({it for it, _ in found}) - 1
    others = f", {more} files more" if more > 1 else ", a file more" if more else ""
    return f"[{os.path.basename(path)}:{number}](../{path}#L{number}){others}"


def fields_read(rule):
    """The fields of the facts that a rule reads: of its clause of `Tells`, and of the definitions that it names."""
    blocks = dict(re.findall(r"^abbrev pub (\w+) : (.*?)(?:\n\n|\Z)", read(FACTS), re.M | re.S))
    told = dict(codes.clauses("Tells", FACTS))[rule]
    told = " ".join([told, *(blocks[it] for it in re.findall(r"\w+", told) if it in blocks)])
    return [it for it in dict.fromkeys(re.findall(r"facts\.(\w+)", told)) if it != "caller"]


def module_of(action):
    """The module of hall_desk that handles an action."""
    name = re.sub(r"(?<!^)(?=[A-Z])", "_", action).lower()
    return f"{DESK}/{'certify_puzzle' if name == 'certify' else name}.rt"


def look_ups(rule):
    """Where the desk looks up what a rule reads: module, line number and line. The caller is looked up by the plan, and
    the rest by the actions that ask the rule, where the field is set."""
    fields = fields_read(rule)
    asking = sorted(module_of(action) for action, asked_of in codes.asked().items() if rule in asked_of)
    for file in asking if fields else [f"{DESK}/planning.rt"]:
        for number, line in enumerate(read(file).split("\n"), 1):
            if any(f"facts.{it} = " in line for it in fields or ["caller"]):
                yield file, number, line.strip()


def looked_up(rule):
    """The cell of the modules: those that set a field which few rules read come first, and stand for the others."""
    fields = fields_read(rule)
    own = [it for it in look_ups(rule) if "facts.round = " not in it[2]]
    files = list(dict.fromkeys(it[0] for it in own or look_ups(rule)))
    told = ", ".join(link(it, os.path.basename(it)) for it in files)
    if len(files) > FEW and not own:
        return "the module of each action on a round, as " + link(files[0], os.path.basename(files[0]))
    return told + (", and the round by each action on one" if own and "round" in fields else "")


def check_of(rule):
    """The function that checks a rule: the one that its arm of `check_rule` calls, or that itself."""
    called = re.search(rf"Rule::{rule} => (?:finding_of\()?(\w+)\(", read(CHECKS))
    return called[1] if called and called[1] != "finding_of" else "check_rule"


def said(rule):
    """The names of the definitions that its sentence cites."""
    return re.findall(r"\b[A-Z]\w+", dict(codes.clauses("Sentence", FIRST))[rule])


def broken(rule, tree):
    """The wrong bodies that turn a rule, or what it reads."""
    found = {it.full_name(): it for it in tree.changes}
    return [found[it] for it in BROKEN.get(rule, []) if it in found]


def edit(change):
    return link(change.path(), f"`{change.name}`") + ("*" if change.is_further else "")


def edits(changes):
    """The cell of some wrong bodies, those of the gate first."""
    return ", ".join(edit(it) for it in sorted(changes, key=lambda it: it.is_further))


def rules(tree):
    """The rows of the twenty rules."""
    told = dict(variants(RULE, "Rule"))
    yield from (row("Rule", "Said", "Looked up", "Checked", "Tested", "Broken"), "|---|---|---|---|---|---|")
    for name, number in codes.numbers().items():
        yield row(
            f"`{number}` {name}: {sentence(told[name])}", ", ".join(f"`{it}`" for it in said(name)), looked_up(name),
            f"`{check_of(name)}`", first_example(codes.of_denial(number)), edits(broken(name, tree)),
        )


def names_of_rules():
    """The rows of the names that an answer breaks."""
    yield from (row("Name", "Kind", "Said", "Tested"), "|---|---|---|---|")
    for name, kind, told, defined in codes.names():
        yield row(f"{name} {told}", kind, defined, first_example(codes.of_name(name.strip("`"))))


def judges(tree, functions):
    """The rows of the judges of the kinds, with the wrong bodies that stand nearest to them."""
    yield from (row("Judge", "Broken"), "|---|---|")
    for crate in ("hall_sudoku", "hall_slither", "hall_nurikabe"):
        item = functions(crate)["broken"]
        yield row(f"[`broken`](../{item.file}) of {crate}", edits(tree.changes_of(item)))


def forms(contract):
    """The rows of the faults: what defines each, and the contract that says so."""
    yield from (row("Code", "Said", "Promised by"), "|---|---|---|")
    for code, of in FORMS.items():
        crate, module, name = of["defined"]
        yield row(code, f"`{name}` ({link(f'crates/{crate}/specs/{module}.antt', f'{module}.antt')})",
                  contract(*of["promised"].split("::", 1)))


def wrong_rules(tree):
    """What the page lacks of a rule: a definition, a look-up, a check, a wrong body; and those that aren't there."""
    known, defined = {it.full_name() for it in tree.changes}, {it[2] for it in all_definitions()}
    for name, number in codes.numbers().items():
        yield from (f"rule {number} is said by {it}, which is no definition" for it in said(name) if it not in defined)
        yield from [] if any(look_ups(name)) else [f"no module looks up what rule {number} reads"]
        yield from [] if f"fn {check_of(name)}(" in read(CHECKS) else [f"{CHECKS} doesn't check rule {number}"]
        yield from [] if BROKEN.get(name) else [f"{DATA} names no wrong body of rule {number}, {name}"]
    for rule, names in BROKEN.items():
        yield from [] if rule in codes.numbers() else [f"{DATA} names the rule {rule}, which isn't there"]
        yield from (f"{DATA} names the wrong body {it}, which isn't there" for it in names if it not in known)


def page(tree, contract, functions):
    """The page. `contract` gives the link to a function's contract, `functions` those that a crate hands on."""
    of_kinds = ",\n".join(link(f"crates/hall_grid/specs/{it}.antt", it) for it in ("Sudoku", "Slither", "Nurikabe"))
    of_gate, further = (sum(it.is_further == other for it in tree.changes) for other in (False, True))
    parts = [
        HEAD, f"There are {of_gate} wrong bodies of the libraries in the gate, and {further} outside it.", "",
        "## The twenty rules", "",
        f"{contract('hall_policy', 'decide')} of hall_policy decides by them: the first that forbids.", "",
        *rules(tree), "",
        "## The names of broken rules", "",
        f"{contract('hall_desk', 'judge')} of hall_desk tells them. The definitions stand in", f"{of_kinds},",
        f"`SaysNothing` in {link('crates/hall_grid/specs/Answer.antt', 'Answer')}.", "",
        *names_of_rules(), "", *judges(tree, functions), "",
        "## Faults of form and of puzzle texts", "",
        "Where each code stands in the examples is told by their [index](../examples/README.md#index-by-code).", "",
        *forms(contract),
    ]
    return "\n".join(parts) + "\n"
