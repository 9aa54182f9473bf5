#!/usr/bin/env python3
"""Tries the wrong bodies of the crates: the prover must refuse each must-fail edit, in the function that it changes.

    python3 tools/build/wrong_bodies.py [--further] [--over FOLDER [--after LOG]] [CRATE[/NAME] ..]

An edit is crates/CRATE/must-fail/NAME.edit, in the form of `rt must-fail`; with --further those of must-fail/further.md
are tried, which the gate has no time for. The function that must be refused is the one whose body it changes, or those
that its lines `in: PATH` name, by their path below the crate.

A function's proof rests on the contracts of what it calls, and on no body but its own. So the edits are tried in a copy
of the crate that holds only the functions which they are of: any other has `unreachable!()` for a body and a hole for a
proof. A first check sees that nothing is refused in it as it stands. Then edits of different functions are tried in one
check, which says of each function whether it is proved. Of a function that calls a refused one it says no more than
that: it is tried again in the next check, over what the checks before proved. An edit of specs/, or of a constant, has
a check for itself. What is not refused so, and what the first check refuses, is tried over the whole crate. The
libraries below must be built, in this checkout (`python3 tools/build/build.py`) or in FOLDER, a copy of it, where `rt
ci` may still be building them: LOG is what it says. The last line is 'N passed, M failed'.
"""
import argparse
import contextlib
import copy
import glob
import importlib.machinery
import importlib.util
import os
import re
import shutil
import sys
import tempfile
import threading
import time
from concurrent.futures import ThreadPoolExecutor

from build import Made

ROOT = os.path.realpath(f"{__file__}/../../..")
VISIBLE = r"(?:pub(?:\([^)]*\))? )?(?:unsafe )?"
FUNCTION = re.compile(rf"^( *){VISIBLE}(?:const )?fn (\w+)")
BLOCK = re.compile(rf"^{VISIBLE}(?:impl|trait)\b")
TYPE = re.compile(rf"^{VISIBLE}(?:struct|enum|trait) (\w+)", re.M)
SAID = "proved|not proved|no proof: it calls|no proof|could not tell|no holes|depends on a hole"
VERDICT = re.compile(rf"^fn (\S+): ({SAID})")
REFUSED = ("not proved", "no proof", "could not tell")
# A proof file that names what the edit took away says little of the contract.
NAMES = re.compile(r"(has no field|is not in scope|has no `|was not admitted)")


def kit():
    """The kit's command rt as a module."""
    path = os.path.realpath(shutil.which("rt"))
    sys.dont_write_bytecode = True
    sys.path.insert(0, os.path.dirname(path))
    loader = importlib.machinery.SourceFileLoader("rt", path)
    made = importlib.util.module_from_spec(importlib.util.spec_from_loader("rt", loader))
    sys.modules["rt"] = made
    loader.exec_module(made)
    return made


def read(path):
    with open(path, encoding="utf-8") as it:
        return it.read()


def without_arguments(text):
    """The text of a type without what stands between < and >."""
    while re.search(r"<[^<>]*>", text):
        text = re.sub(r"<[^<>]*>", "", text)
    return text


def without_parameters(text):
    """The text of an `impl` without that word, and what stands between the < and the > behind it."""
    text = re.sub(r"^.*?\bimpl\b", "", text)
    depth = 0
    for at, letter in enumerate(text):
        depth += (letter == "<") - (letter == ">")
        if depth == 0:
            return text[at + 1 :] if letter == ">" else text
    return text


def block_of(head):
    """How the prover names the type or trait that an `impl` or `trait` is of, by its first lines, and whether it is the
    impl of a trait: the type's name, after a word for each reference to it, and then the trait's and those of its
    arguments. It leaves out the parameters of the impl, which have one letter."""
    head = re.split(r"\{|\bwhere\b", head)[0]
    trait, _, of = re.sub(r"\w+::", "", head).rpartition(" for ")
    of = re.sub(r"&(?:'\w+ )?(mut )?", lambda it: "RefMut " if it[1] else "Ref ", without_arguments(of))
    words = [it for it in re.findall(r"\w\w+", of) if it not in ("impl", "trait", "pub", "mut", "dyn", "unsafe")]
    references = sum(it in ("Ref", "RefMut") for it in words)
    of_trait = re.findall(r"\w\w+", without_parameters(trait))
    return "".join(it[0].upper() + it[1:] for it in words[: references + 1] + of_trait), bool(trait)


def module_of(file):
    """The names of the module that a file of src/ is."""
    return [it for it in file.removesuffix(".rt").split("/")[1:] if it not in ("lib", "main", "mod")]


class Function:
    """A function of a text: the lines from `fn` to the `}` of its body, and its path below the crate as the prover
    names it."""

    def __init__(self, above, block, name, lines):
        self.path, self.block, self.name = "::".join([*above, *[block] * bool(block), name]), block, name
        self.first, self.body, self.last = lines


def body_of(lines, first, margin):
    """The line of the `{` that opens the body of the function which begins there, if it has one. Its clauses stand
    between them, further in."""
    has_clauses = False
    for number in range(first, len(lines)):
        line = lines[number]
        has_clauses = has_clauses or re.match(r" *(requires|ensures|ghost)\b", line)
        if line in (f"{margin}{{", f"{margin}{{}}") or not has_clauses and line.endswith(("{", "{}")):
            return number
        inside = not line or line.startswith((f"{margin} ", f"{margin})", f"{margin}>", f"{margin}where"))
        if number > first and not inside:
            return None
    return None


def functions_of(file, text, homes):
    """The functions of a file that have bodies. The prover names a method by the module of its type, which is in homes,
    and one of a trait by that of the impl."""
    module = module_of(file)
    lines, number = text.split("\n"), 0
    while number < len(lines):
        found = FUNCTION.match(lines[number])
        body = found and body_of(lines, number, found[1])
        if body is None:
            number += 1
            continue
        last = body if lines[body].endswith("{}") else body + lines[body:].index(f"{found[1]}}}")
        above, block = module, None
        if found[1]:
            head = max(at for at in range(number) if BLOCK.match(lines[at]))
            block, is_of_trait = block_of(" ".join(lines[head:number]))
            above = module if is_of_trait else homes.get(block, module)
        yield Function(above, block, found[2], (number, body, last))
        number = last + 1


def sources_of(folder):
    """The texts of src/, by their path in the crate, and the module of each type."""
    texts, homes = {}, {}
    for path in sorted(glob.glob("src/**/*.rt", root_dir=folder, recursive=True)):
        texts[path] = read(f"{folder}/{path}")
        module = module_of(path)
        homes.update((name, module) for name in TYPE.findall(texts[path]))
    return texts, homes


class Edit:
    """A wrong body: texts in files of the crate, what stands there in their place, and the functions of which one must
    be refused."""

    def __init__(self, name, text, folder):
        self.name, self.pairs, self.own = name, [], set()
        file, was = "", {}
        for line in text.split("\n"):
            if line.startswith("file: "):
                file = line[6:].strip()
                was[file] = read(f"{folder}/{file}")
            elif line.startswith("in: "):
                self.own.add(line[4:].strip())
            elif line.startswith("old: "):
                old = line[5:]
            elif line.startswith("new:"):
                self.pairs.append((file, old, line[4:].removeprefix(" ")))
        stands = [was[file].count(old) for file, old, _ in self.pairs]
        fits = self.pairs and set(stands) == {1}
        self.fault = None if fits else f"BAD EDIT: its `old:` texts stand {stands} times, and not once each"
        homes = sources_of(folder)[1]
        # The files that it changes, and those in which it changes what is of no body; the functions whose bodies it
        # changes.
        self.files, self.loose, self.bodies = set(was), set(), set()
        for file, old, _ in () if self.fault else self.pairs:
            at = was[file][: was[file].index(old)].count("\n")
            found = functions_of(file, was[file], homes) if file.startswith("src/") else ()
            within = [it.path for it in found if it.body < at < it.last]
            self.bodies.update(within)
            self.loose.update([] if within else [file])
        self.own |= self.bodies
        self.is_of_code = all(it.startswith("src/") for it in self.files) and bool(self.bodies or not self.loose)

    def clashes(self, other):
        """Whether a check that has both could refuse a function of one for the other."""
        return bool(self.bodies & other.bodies or self.loose & other.files or self.files & other.loose)

    def over(self, texts, folder):
        """The texts with this edit too, of files in the folder, or None where it doesn't fit any more."""
        made = dict(texts)
        for file, old, new in self.pairs:
            text = made.get(file) or read(f"{folder}/{file}")
            if text.count(old) != 1:
                return None
            made[file] = text.replace(old, new)
        return made


def texts_of(crate, further):
    """The edits of a crate as they are written, by name."""
    folder = f"{ROOT}/crates/{crate}/must-fail"
    if further:
        with contextlib.suppress(FileNotFoundError), open(f"{folder}/further.md", encoding="utf-8") as file:
            yield from re.findall(r"^## (\w+)\n+```\n(.*?)```\n", file.read(), re.M | re.S)
        return
    for path in sorted(glob.glob(f"{folder}/*.edit")):
        with open(path, encoding="utf-8") as file:
            yield os.path.basename(path).removesuffix(".edit"), file.read()


def next_round(edits, folder):
    """The first edits of code of which no two clash, with the texts that have them all; or one that is of something
    else."""
    if not edits[0].is_of_code:
        return edits[:1], edits[0].over({}, folder)
    taken, texts = [], {}
    for edit in edits:
        with_it = edit.over(texts, folder) if edit.is_of_code and not any(map(edit.clashes, taken)) else None
        if with_it:
            taken.append(edit)
            texts = with_it
    return taken, texts


def held(crate, own, folder):
    """Makes a copy of the crate that has the bodies and the proofs of these functions alone."""
    shutil.copytree(crate.folder, folder, ignore=shutil.ignore_patterns("out", "must-fail"))
    texts, homes = sources_of(folder)
    for file, text in texts.items():
        lines = text.split("\n")
        for it in reversed([it for it in functions_of(file, text, homes) if it.path not in own]):
            if it.body < it.last:
                lines[it.body + 1 : it.last] = ["unreachable!()"]
            put_hole(crate.name, it.path.split("::"), folder)
        with open(f"{folder}/{file}", "w", encoding="utf-8") as source:
            source.write("\n".join(lines))
    made = copy.copy(crate)
    made.folder = folder
    return made


def put_hole(crate, path, folder):
    """Has the function's proof be a hole, which `--allow-holes` takes by what it is the proof of."""
    at, name = "/".join([folder, "proofs", *path]), path[-1]
    shutil.rmtree(at, ignore_errors=True)
    os.makedirs(at)
    with open(f"{at}/Proof.antt", "w", encoding="utf-8") as proof:
        proof.write(f"use Rattle.{crate}.proofs.{'.'.join(path)}.Statement.{{statement}}\n\n")
        proof.write(f"pub {name}_spec : {{M : Type 1}} → statement M\n{name}_spec = ?\n")


class Crate:
    """The tries of one crate's edits, each over what the tries before it proved."""

    def __init__(self, rt, crate, edits):
        self.rt, self.crate, self.edits = rt, crate, edits
        self.passed = self.failed = 0

    def tell(self, edit, verdict, is_well):
        self.passed, self.failed = self.passed + is_well, self.failed + (not is_well)
        print(f"must-fail {self.crate.name}/{edit.name}: {verdict}", flush=True)

    def check(self, crate, texts, kept, *words):
        """What a check of the crate with these texts says, and the verdicts of its functions."""
        ran = self.rt.checked(crate, texts, ["--jobs", "1", *words], kept)
        return ran, dict(it.groups() for it in map(VERDICT.match, ran.stdout.split("\n")) if it)

    def note(self, ran, verdict, path):
        """What to say of a refusal that says less of the contract."""
        # An error goes on in the lines after it that stand further in.
        file = rf"(?:note: )?(?:\./)?(?:proofs/{re.escape(path.replace('::', '/'))}/|src/)"
        own = re.findall(rf"^{file}.*: error.*(?:\n  .*)*", ran.stdout, re.M)
        if own and all(NAMES.search(it) for it in own):
            return " (only because a proof file names what the edit took away: change a value and keep the names)"
        return " (only by a limit of the prover)" if verdict == "could not tell" else ""

    def try_held(self, edits, texts):
        """What a check of the functions that the edits are of says, over the copy that holds them, and the verdicts of
        these functions by their paths."""
        own = sorted(set().union(*[it.own for it in edits]))
        only = [word for it in own for word in ("--only", it)]
        ran, said = self.check(self.held, texts, self.kept, "--allow-holes", *only)
        return ran, {it: said.get(f"{self.crate.name}::{it}") for it in own}

    def together(self, edits, texts):
        """Tries edits in one check, and returns those that it doesn't settle: functions that call a refused one, and
        functions that are not refused."""
        ran, verdicts = self.try_held(edits, texts)
        masked, passed = [], []
        for edit in edits:
            refused = [it for it in sorted(edit.own) if verdicts[it] in REFUSED]
            if refused:
                path = refused[0]
                note = self.note(ran, verdicts[path], path)
                self.tell(edit, f"refused, as it must be, in {self.crate.name}::{path}{note}", True)
            else:
                (masked if "no proof: it calls" in [verdicts[it] for it in edit.own] else passed).append(edit)
        return masked, passed

    def alone(self, edit):
        """Tries an edit over the whole crate."""
        texts = edit.over({}, self.crate.folder)
        own, kept = f"{self.crate.folder}/out/incremental", f"{self.room}/whole"
        if not os.path.isdir(kept):
            # What a check kept here says of the crate what a check from nothing would.
            self.rt.linked(own, kept) if os.path.isdir(own) else os.mkdir(kept)
        ran, verdicts = self.check(self.crate, texts, kept)
        lines = ran.stdout.rstrip("\n").split("\n")
        refused = [name for name, verdict in verdicts.items() if verdict != "proved"]
        unread = any(self.rt.unread(it, texts) for it in lines)
        if ran.returncode == 1 and lines[-1].startswith("logic=not-proved") and not unread:
            where = f", in {refused[0]}" if refused else ""
            self.tell(edit, f"refused, as it must be{where}, over the whole crate", True)
        else:
            said = "\n  ".join(lines[-6:])
            how = "NOT REFUSED" if ran.returncode == 0 else "NOT TRIED"
            self.tell(edit, f"{how}: its check ended with status {ran.returncode}\n  {said}", False)

    def run(self):
        begun = time.time()
        with tempfile.TemporaryDirectory(prefix="hall-edits-") as self.room:
            for edit in self.edits:
                if edit.fault:
                    self.tell(edit, edit.fault, False)
            sound = [it for it in self.edits if not it.fault]
            left = sorted((it for it in sound if it.own), key=lambda it: not it.is_of_code)
            self.kept = f"{self.room}/kept"
            os.mkdir(self.kept)
            self.held = held(self.crate, set().union(*[it.own for it in left]), f"{self.room}/held")
            # What the copy refuses as it stands shows nothing of an edit.
            as_it_stands = self.try_held(left, {})[1] if left else {}
            settled = {"no holes", "depends on a hole", "proved"}
            refused = [of for of, verdict in as_it_stands.items() if verdict not in settled]
            if refused:
                told = f"refused as they stand, so their edits are tried over the whole crate: {', '.join(refused)}"
                print(f"{self.crate.name}: {told}", flush=True)
            alone = [it for it in sound if not it.own or it.own & set(refused)]
            left = [it for it in left if it not in alone]
            while left:
                edits, texts = next_round(left, self.held.folder)
                masked, passed = self.together(edits, texts)
                # One that is masked by no other says nothing more in a round of its own.
                alone += passed + (masked if len(masked) == len(edits) else [])
                left = [it for it in left if it not in edits or it in masked and it not in alone]
            for edit in alone:
                self.alone(edit)
        counts = f"{self.passed} of its wrong bodies refused, {self.failed} not"
        print(f"{self.crate.name}: {counts}, in {(time.time() - begun) / 60:.1f} minutes", flush=True)
        return self.passed, self.failed


class Beside:
    """The run of `rt ci` beside this one, by its log: a crate is tried once those below it are proved, and half of the
    lanes are left to it until it ends."""

    def __init__(self, log, lanes):
        self.log, self.free, self.alone = log, max(1, lanes // 2), threading.Lock()

    def said(self):
        with open(self.log, encoding="utf-8", errors="replace") as file:
            return file.read()

    def has_ended(self):
        return re.search(r"^\d+ passed, \d+ failed$", self.said(), re.M) is not None

    def has_proved(self, names):
        """Waits until these crates are proved, and returns whether they are."""
        while True:
            ended, said = self.has_ended(), self.said()
            if all(re.search(rf"^rt: {it} (proved$|is kept: )", said, re.M) for it in names):
                return True
            if ended:
                return False
            time.sleep(2)

    def __enter__(self):
        while True:
            with self.alone:
                if self.free > 0 or self.has_ended():
                    self.free -= 1
                    return
            time.sleep(2)

    def __exit__(self, *_):
        with self.alone:
            self.free += 1


def main():
    words = argparse.ArgumentParser()
    words.add_argument("--further", action="store_true")
    words.add_argument("--over", default=ROOT)
    words.add_argument("--after")
    words.add_argument("names", nargs="*")
    words = words.parse_args()
    rt = kit()
    os.chdir(words.over)
    rt.rtlib.guarded()
    tries = []
    crates = rt.rtlib.crates_below(os.getcwd())
    made = {it: Made(it) for it in crates} if words.over == ROOT else {}
    for crate in crates:
        wanted = [it.partition("/")[2] for it in words.names if it.partition("/")[0] == crate.name]
        if words.names and not wanted:
            continue
        texts = texts_of(crate.name, words.further)
        edits = [Edit(*it, crate.folder) for it in texts if not wanted or "" in wanted or it[0] in wanted]
        if edits:
            tries.append(Crate(rt, crate, edits))

    lanes = int(os.environ.get("RT_JOBS") or os.cpu_count() or 1)
    beside = Beside(words.after, lanes) if words.after else None

    def is_made(dep):
        return made[dep].is_made() if made else os.path.isdir(dep.rlib)

    def done(it):
        below = it.crate.below()
        # Beside a run of `rt ci` they are there once it has proved them.
        if beside and not beside.has_proved([dep.name for dep in below]) or not all(map(is_made, below)):
            told = "a library below it isn't built (python3 tools/build/build.py builds it)"
            print(f"{it.crate.name}: {told}", flush=True)
            return 0, len(it.edits)
        with beside or contextlib.nullcontext():
            return it.run()

    # Those that stand on others come after them.
    tries.sort(key=lambda it: len(it.crate.below()))
    with ThreadPoolExecutor(lanes) as pool:
        counts = list(pool.map(done, tries))
    passed, failed = sum(it for it, _ in counts), sum(it for _, it in counts)
    print(f"{passed} passed, {failed} failed")
    return 1 if failed else 0


if __name__ == "__main__":
    sys.exit(main())
