"""What belongs together: the public functions, what they call, the tests that call them, and the wrong bodies of each.

A module for tools/pages/places.py and tools/pages/map.py.
"""
import functools
import os
import re
import sys
import tomllib

from sources import DEFINITION, PLAIN, ROOT, crate_items, exported, paths, read

sys.path.append(f"{ROOT}/tools/build")
import wrong_bodies  # noqa: E402

# The sources stay as they are while pages are made of them.
wrong_bodies.read = functools.cache(wrong_bodies.read)
wrong_bodies.sources_of = functools.cache(wrong_bodies.sources_of)
wrong_bodies.block_of = functools.cache(wrong_bodies.block_of)

DATA = "tools/pages/places.toml"
TOLD = tomllib.loads(read(DATA))
ASKED, FORMS, BROKEN = TOLD["asked"], TOLD["forms"], TOLD["broken"]
TESTS = ("puzzle_tests", "hall_tests", "store_tests")


class Tree:
    """The functions of the libraries, what they call, and the public ones among them."""

    def __init__(self, libraries):
        self.items = {crate: [it for it in crate_items(crate) if it.kind == "fn"] for crate in libraries}
        self.public = {crate: [it for it in these if is_public(it)] for crate, these in self.items.items()}
        of_traits = [it for these in self.items.values() for it in these if it.block and it.block.kind == "trait"]
        self.traits = {(it.block.name, it.name): it for it in of_traits}
        self.changes = list(changes(libraries, self))

    def at(self, crate, file, block, name):
        """The function of that place."""
        for item in self.items[crate]:
            own = item.block and wrong_bodies.block_of(item.block.head)[0]
            if item.file == file and item.name == name and own == block:
                return item
        return None

    def callers(self, items):
        """What calls one of these in their crate: by its name, or as what a trait asks of a type that it names."""
        types = {it.block.name for it in items if it.block and it.block.trait}
        found = []
        for it in self.items[items[0].crate]:
            names_type = it.name != "new" and any(re.search(rf"\b{name}\b", it.body) for name in types)
            if names_type or any(of.is_called_by(it.called()) for of in items):
                found.append(it)
        return found

    def nearest_public(self, items):
        """The public functions of the crate that the fewest calls lead from to one of these."""
        seen, now = set(), list(items)
        while now:
            found = [it for it in now if is_public(it)]
            if found:
                return found
            seen |= {id(it) for it in now}
            now = [it for it in self.callers(now) if id(it) not in seen]
        return []

    def definitions(self, item):
        """The definitions and constants that its contract cites, and those of the trait that it has it of: crate,
        module and name."""
        trait = item.block and item.block.trait and self.traits.get((item.block.trait, item.name))
        return [it for of in (item, trait) if of for it in dict.fromkeys([*of.definitions(), *of.constants()])]

    def changes_of(self, item):
        """The wrong bodies nearest to a public function: it leads to what they change by the fewest calls."""
        for change in self.changes:
            if change.functions and any(it is item for it in self.nearest_public(change.functions)):
                yield change


def is_public(item):
    """Whether it is called from outside: by its name, or as a method of a type or trait that is handed on."""
    names = exported(item.crate)
    if item.block is None:
        return item.is_public and item.name in names
    return item.is_public and item.block.name in names and item.block.trait not in PLAIN


@functools.cache
def functions_in(crate, file):
    """The functions of a file that have bodies."""
    return list(wrong_bodies.functions_of(file, read(f"crates/{crate}/{file}"), {}))


class Change:
    """A wrong body: its name, whether the gate tries it, and what it changes."""

    def __init__(self, crate, name, text, is_further, tree):
        self.crate, self.name, self.is_further = crate, name, is_further
        edit = wrong_bodies.Edit(name, text, f"{ROOT}/crates/{crate}")
        self.old = "\n".join(old for _, old, _ in edit.pairs)
        self.files = {file for file, _, _ in edit.pairs}
        self.functions, self.definitions = [], set()
        for file, old, _ in [] if edit.fault else edit.pairs:
            self.add(crate, file, old, tree)
        # It is refused in the functions that it names.
        named = {tuple(it.split("::")) for it in edit.own - edit.bodies}
        here = [it for it in tree.items[crate] if (os.path.basename(it.file)[:-3], it.name) in named]
        self.functions = here or self.functions

    def add(self, crate, file, old, tree):
        text, path = read(f"crates/{crate}/{file}"), f"crates/{crate}/{file}"
        if file.startswith("specs/"):
            before = text[: text.index(old) + len(old.split("=")[0])]
            found = [it for it in map(DEFINITION.match, before.split("\n")) if it]
            self.definitions |= {(crate, file[6:-5].replace("/", "."), it[1] or it[2]) for it in found[-1:]}
            return
        line = text[: text.index(old)].count("\n")
        place = next((it for it in functions_in(crate, file) if it.first <= line <= it.last), None)
        item = place and tree.at(crate, path, place.block, place.name)
        if item:
            self.functions.append(item)
            return
        # A constant: the functions of the module that read it.
        names = re.findall(r"\b([A-Z][A-Z_]+)\b(?=: )", text[: text.index(old) + len(old)])
        for it in tree.items[crate] if names else []:
            if it.file == path and re.search(rf"\b{names[-1]}\b", it.body):
                self.functions.append(it)

    def path(self):
        return f"crates/{self.crate}/must-fail/{'further.md' if self.is_further else f'{self.name}.edit'}"

    def full_name(self):
        return f"{self.crate}/{self.name}"

    def is_of(self, module, action):
        """Whether it changes the module of an action, or a line that names that."""
        is_named = re.search(rf"\b(?:Is)?{action}(?![a-z])", self.old)
        return bool(is_named) or any(it.file == module for it in self.functions)

    def words(self):
        """What it is about: the line that it changes, and the clauses that refuse it."""
        of_clauses = {it for item in self.functions for it in re.findall(r"\w+", item.text)}
        return set(re.findall(r"\w+", self.old)) | of_clauses | {it[2] for it in self.definitions}


def changes(libraries, tree):
    for crate in libraries:
        for is_further in (False, True):
            for name, text in wrong_bodies.texts_of(crate, is_further):
                yield Change(crate, name, text, is_further, tree)


def proofs_of(item):
    """Where a function's proof stands: the file of its answers, and the files of its crate that this names."""
    module = os.path.basename(item.file).removesuffix(".rt")
    found = paths(f"crates/{item.crate}/proofs/{module}/**/{item.name}/Answers.antt")
    of_block = [it for it in found if item.block and f"/{item.block.name}" in it]
    for path in of_block or found:
        yield path
        named = re.findall(rf"^use Rattle\.{item.crate}\.proofs\.([\w.]+)\.\{{", read(path), re.M)
        yield from (it for name in named for it in paths(f"crates/{item.crate}/proofs/{name.replace('.', '/')}.antt"))


def imported(crate):
    """The functions and types of the libraries that a crate of tests names."""
    for file in paths(f"crates/{crate}/src/*.rt"):
        for library, names in re.findall(r"^use (hall_\w+)::(\{[^}]*\}|\w+);", read(file), re.M):
            yield from ((library, name) for name in re.findall(r"\w+", names))


def calls_of(test, items):
    """The names of what a test calls, directly or by helpers of its crate."""
    names, now, seen = set(), [test], {id(test)}
    while now:
        names |= set().union(*[it.calls() for it in now])
        now = [it for it in items if it.name in names and id(it) not in seen and not it.is_test]
        seen |= {id(it) for it in now}
    return names


def tested(tree):
    """For each public function the tests that call it."""
    found, methods = {}, {}
    everything = [it for these in tree.public.values() for it in these]
    for item in everything:
        if item.block and item.block.trait is None:
            methods.setdefault(item.name, []).append(item)
    for crate in TESTS:
        items, known = [it for it in crate_items(crate) if it.kind == "fn"], set(imported(crate))
        for test in (it for it in items if it.is_test):
            names = calls_of(test, items)
            for item in (it for it in everything if it.name in names):
                is_one = item.block is None or len(methods.get(item.name, [])) == 1
                if is_one and (item.crate, item.block.name if item.block else item.name) in known:
                    found.setdefault((item.crate, item.full_name()), []).append(test)
    return found


def asked():
    """For each public function the tables and scripts that ask it."""
    found = {}
    for path, names in ASKED.items():
        for name in names:
            crate, _, function = name.partition("::")
            found.setdefault((crate, function), []).append(path)
    return found


def wrong_data(libraries, shown):
    """The tables of examples/ of which the data say nothing, and what the data name that isn't there."""
    known = {f"{it.crate}::{it.full_name()}" for crate in libraries for it in shown(crate) if it.kind == "fn"}
    for path in paths("examples/*/*.rows") + paths("examples/*/*.toml"):
        if path not in ASKED and not path.startswith(("examples/sheets/", "examples/requests/")):
            yield f"{DATA} doesn't say what {path} is about"
    yield from (f"{it} stands in no folder of examples/, so ./check doesn't run it" for it in paths("examples/*.txt"))
    for path, names in ASKED.items():
        yield from ([] if paths(path) else [f"{DATA} names {path}, which isn't there"])
        yield from (f"{DATA} names {it}, which no crate hands on" for it in names if it not in known)
