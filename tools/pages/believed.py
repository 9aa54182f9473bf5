"""What a reader must believe: the definitions that contracts reach, over the specs of all crates, and those of the kit.

A module for tools/pages/promises.py. A definition is believed with all that it names. What Rust declares (structs and
enums) is read in the code, and isn't counted; nor are the members of traits.
"""
import functools
import os
import re
import shutil
from collections import defaultdict

from sources import ROOT

# A definition begins at the margin, or in a module with parameters: two spaces, and a word that no member has.
BEGIN = re.compile(
    r"abbrev |unfoldable |pub (?!mod |use )|record |data |  (?:abbrev |unfoldable |(?:pub )?(?:record|data) )"
)
HEAD = re.compile(r"(?:(?:abbrev|unfoldable|pub|record|data) )*([^\s:(){}]+)(?= |$)")
USE = re.compile(r"^(?:pub )?use ([\w.]+?)(?:\.\{(.*)\})?(?: as (\w+))?$")
# A word, or a sign of operation; what stands right behind a dot is a member.
WORD = re.compile(r"\.?[^\s(){}\[\],;.]+")


def kit():
    """The folder of the kit's crates."""
    return os.path.join(os.path.dirname(os.path.dirname(os.path.realpath(shutil.which("rt") or ""))), "rattle")


def file_of(module):
    """The file of a module of specs or proofs: of the hall's crates, or of the kit's; none for what Rust declares."""
    parts = module.split(".")
    if parts[0] != "Rattle" or "declared" in parts:
        return None
    inside = f"{'/'.join(parts[2:])}.antt"
    own = f"{ROOT}/crates/{parts[1]}/{inside}"
    return own if os.path.isdir(f"{ROOT}/crates/{parts[1]}") else f"{kit()}/{parts[1]}/{inside}"


class Module:
    """A file of definitions: the text of each, and the names that it sees."""

    def __init__(self, name):
        self.name, self.blocks, self.scope, self.aliases = name, {}, {}, {}
        path = file_of(name)
        self.is_there = path is not None and os.path.isfile(path)
        if self.is_there:
            with open(path, encoding="utf-8", errors="replace") as file:
                self.read(file.read().split("\n"))

    def read(self, lines):
        block = None
        for line in lines:
            line = line.split(" -- ")[0]
            if not line.strip() or line.lstrip().startswith(("--", "infix", "module ")):
                continue
            if found := USE.match(line.strip()):
                self.see(*found.groups())
            elif BEGIN.match(line):
                block = self.blocks.setdefault(HEAD.match(line.strip())[1], [])
                block.append(line)
            elif block is not None and not line.startswith("pub mod"):
                block.append(line)

    def see(self, module, names, alias):
        if names is None:
            self.aliases[alias or module.rpartition(".")[2]] = module
        for name in map(str.strip, (names or "").split(",")):
            known, _, seen = name.partition(" as ")
            self.scope[seen or known] = module, known

    def lines(self, name):
        return len(self.blocks[name])

    def words(self, name):
        """The definitions that one names: module and name of each."""
        signs = [own for own in (*self.scope, *self.blocks) if "◌" in own]
        of_signs = {part: own for own in signs for part in own.split("◌") if part}
        before = ""
        for word in WORD.findall("\n".join(self.blocks[name])):
            if word.startswith(".") and len(word) > 1:
                if before in self.aliases:
                    yield self.aliases[before], word[1:]
                continue
            before = word
            own = word if word in self.scope or word in self.blocks else of_signs.get(word)
            if own in self.scope:
                yield self.scope[own]
            elif own in self.blocks and own != name:
                yield self.name, own


module = functools.cache(Module)


def home(of, name):
    """The module that defines the name which that one hands on; none where Rust or the logic itself declares it."""
    seen = set()
    while of not in seen:
        seen.add(of)
        known = module(of)
        if not known.is_there or name in known.blocks:
            return (of, name) if known.is_there else None
        if name not in known.scope:
            return None
        of, name = known.scope[name]
    return None


def reached(start):
    """The definitions that these lead to, and they: module and name of each."""
    found, now = set(), [home(*it) for it in start]
    while now:
        one = now.pop()
        if one and one not in found:
            found.add(one)
            now += [home(*it) for it in module(one[0]).words(one[1])]
    return found


def is_own(of):
    return of.split(".")[1].startswith("hall_")


def counts(start):
    """Definitions and their lines that these lead to: of the hall, and of the kit."""
    found = reached(start)
    told = ()
    for own in (True, False):
        these = [it for it in found if is_own(it[0]) == own]
        told += len(these), sum(module(of).lines(name) for of, name in these)
    return told


def cited(items):
    """The words of the contracts of these items: module and name of each."""
    return {(path, name) for item in items for name, path in item.words().items()}


def twice(found):
    """The names that stand for more than one of the hall's definitions among these, each with its modules."""
    homes = defaultdict(set)
    for of, name in found:
        if is_own(of):
            homes[name].add(of)
    return {name: sorted(of) for name, of in sorted(homes.items()) if len(of) > 1}


def place(of):
    """A module as it is told: its crate, and its name."""
    return re.sub(r"^Rattle\.(\w+)\.(?:specs\.)?", r"\1 ", of)


def to_read(found):
    """The files of the hall that hold these: how many definitions and lines of each, crate by crate."""
    files = defaultdict(list)
    for of, name in found:
        if is_own(of):
            files[of].append(name)
    yield from ("", "files of definitions, with the number of those that are to be read, and their lines:")
    for of in sorted(files):
        lines = sum(module(of).lines(name) for name in files[of])
        yield f"  {os.path.relpath(file_of(of), ROOT):48}{len(files[of]):5}{lines:6}"


def is_same(homes, name):
    """Whether the modules define the name in the same words."""
    return len({" ".join(" ".join(module(it).blocks[name]).split()) for it in homes}) == 1


def on_proofs(found):
    """The hall's definitions among these that name what stands in proofs/: each with that."""
    for of, name in sorted(it for it in found if is_own(it[0]) and ".proofs." not in it[0]):
        for other, used in sorted({home(*it) or ("", "") for it in module(of).words(name)}):
            if ".proofs." in other:
                yield of, name, other, used
