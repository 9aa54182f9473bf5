"""What the pages are made of: the sentences, contracts and definitions of the crates, as they stand in the sources.

A module for tools/pages/codes.py and tools/pages/promises.py.
"""
import functools
import glob
import itertools
import os
import re

ROOT = os.path.realpath(f"{__file__}/../../..")


def read(path):
    with open(f"{ROOT}/{path}", encoding="utf-8", errors="replace") as file:
        return file.read()


def paths(pattern):
    """The paths below the root that fit the pattern, in order."""
    return sorted(os.path.relpath(it, ROOT) for it in glob.glob(f"{ROOT}/{pattern}", recursive=True))


def write_or_compare(path, text, is_check):
    """Writes the text, or only says whether it stands there already."""
    stands = os.path.isfile(f"{ROOT}/{path}") and read(path) == text
    if stands:
        return []
    if is_check:
        return [f"{path} isn't what the sources say: run python3 tools/pages/promises.py"]
    os.makedirs(os.path.dirname(f"{ROOT}/{path}"), exist_ok=True)
    with open(f"{ROOT}/{path}", "w", encoding="utf-8") as file:
        file.write(text)
    print(f"{path} is written anew")
    return []


def comment_above(lines, at, mark):
    """The lines of the comment that ends above that line, attributes passed over."""
    found = []
    for line in map(str.strip, reversed(lines[:at])):
        if line.startswith(mark):
            found.insert(0, line[len(mark) :].strip())
        elif not line.startswith(("#[", "infix")):
            break
    return found


def paragraphs(comment):
    """The comment as paragraphs, each on a line."""
    return [" ".join(it.split("\n")).strip() for it in re.split(r"\n\n+", "\n".join(comment)) if it.strip()]


def sentence(text):
    """The text with a great first letter and a full stop."""
    text = text.strip()
    return text and text[0].upper() + text[1:] + ("" if text[-1] in ".!?" else ".")


def variants(path, enum):
    """The variants of an enum, in order, each with the sentence beside it."""
    lines = re.search(rf"^pub(?:\(crate\))? enum {enum} \{{\n(.*?)^\}}", read(path), re.M | re.S)[1].split("\n")
    for at, line in enumerate(lines):
        if found := re.match(r" {4}([A-Z]\w*)\b", line):
            yield found[1], " ".join(comment_above(lines, at, "///"))


# A definition, also one inside a module with parameters.
DEFINITION = re.compile(
    r"(?:abbrev |unfoldable )*pub (?!mod )(?:record |data )?([^\s:(){}]+)"
    r"|  (?:(?:abbrev |unfoldable )+pub |pub record |pub data )([^\s:(){}]+)"
)


def defined(path):
    """The definitions of a file of specs/, in order: name, the sentence above it, and its line."""
    lines = read(path).split("\n")
    for at, line in enumerate(lines):
        if found := DEFINITION.match(line):
            yield found[1] or found[2], " ".join(comment_above(lines, at, "--")), at + 1


def definitions(path):
    """The definitions of a file of specs/, in order: name, and the sentence above it."""
    return ((name, told) for name, told, _ in defined(path))


def all_definitions():
    """The definitions of all crates: crate, module, name, the sentence above it, path and line."""
    for path in paths("crates/*/specs/**/*.antt"):
        _, crate, _, file = path.split("/", 3)
        for name, told, line in defined(path):
            yield crate, file.removesuffix(".antt").replace("/", "."), name, told, path, line


TEST_CRATES = ("test_harness", "probe", "puzzle_tests", "hall_tests", "store_tests")
PUBLIC = r"(pub(?:\([^)]*\))? )?"
# What an impl of these says of a type is that two values are equal, ordered or copied as their views are.
PLAIN = {"Clone", "Copy", "PartialEq", "Eq", "PartialOrd", "Ord", "Debug", "Drop"}


def crates():
    """The names of the crates, each after those that it stands on."""
    return [line.split(":")[0] for line in read("crates.txt").split("\n") if line and not line.startswith("#")]


@functools.cache
def exported(crate):
    """The names that a library hands on."""
    lib = f"crates/{crate}/src/lib.rt"
    if not os.path.isfile(f"{ROOT}/{lib}"):
        return set()
    found = re.findall(r"^pub use [\w:]+::(\{[^}]*\}|\w+);", read(lib), re.M)
    names = {name for it in found for name in re.findall(r"\w+", it)}
    # A public module hands on what is public in it.
    for module in re.findall(r"^pub mod (\w+);", read(lib), re.M):
        text = read(f"crates/{crate}/src/{module}.rt")
        names |= set(re.findall(r"^pub (?:const )?(?:fn|struct|enum|trait) (\w+)", text, re.M))
    return names


def introduction(crate):
    """What the crate says of itself."""
    return " ".join(it[3:].strip() for it in read(f"crates/{crate}/src/lib.rt").split("\n") if it.startswith("//!"))


def uses(text):
    """The names that `ghost use` lines bring in: name, and the path of its module."""
    for path, names in re.findall(r"ghost use (Rattle\.[\w.]+)\.\{([^}]*)\}", text):
        for name in map(str.strip, names.split(",")):
            yield name.split(" as ")[-1], path


class Item:
    """A function, a type, a trait, or the ghost lines of a block, as a source file has it."""

    def __init__(self, file, kind, name, block, doc, text):
        self.file, self.kind, self.name, self.block, self.text = file, kind, name, block, text
        # A link by a path of Rust leads nowhere on a page.
        self.doc = [re.sub(r"\[(`[^`]+`)\]\((?:\w+::)+\w+\)", r"\1", it) for it in doc]
        self.crate = file.split("/")[1]
        self.line = 0
        self.is_public, self.body, self.scope, self.known_calls = False, "", {}, None

    def full_name(self):
        return f"{self.block.name}::{self.name}" if self.block else self.name

    def words(self):
        """The words of its contract: for each, the module of the definition."""
        without = re.sub(r"//.*", "", self.text)
        return {name: self.scope[name] for name in re.findall(r"[^\W\d]\w*", without) if name in self.scope}

    def definitions(self):
        """The definitions of the hall that its contract cites: crate, module and name."""
        for name, path in self.words().items():
            found = re.fullmatch(r"Rattle\.(hall_\w+)\.specs\.((?!declared)[\w.]+)", path)
            if found:
                yield found[1], found[2], name

    def constants(self):
        """The constants of the hall's code that its contract cites: crate, module and name."""
        for name, path in self.words().items():
            found = re.fullmatch(r"Rattle\.(hall_\w+)\.specs\.declared\.([\w.]+)\.TheConstants", path)
            if found:
                yield found[1], found[2], name

    def calls(self):
        """The names of what its body calls."""
        return {name for _, name in self.called()}

    def called(self):
        """What its body calls: names of functions, methods behind a dot, and functions of a type behind its name."""
        if self.known_calls is None:
            found = re.findall(r"(\.|\w+(?:::<[^(;:]*?>)?::|)\b([a-z_]\w+)(?:::<[^(;]*?>)?\(", self.body)
            self.known_calls = {(re.sub(r"::.*", "", before), name) for before, name in found}
        return self.known_calls

    def is_called_by(self, called):
        """Whether one of these calls may be of this function."""
        if self.block is None:
            return ("", self.name) in called
        return (".", self.name) in called or (self.block.name, self.name) in called or ("Self", self.name) in called


class Block:
    """An impl or a trait: the type or trait that it is of, and the trait that it implements."""

    def __init__(self, head):
        flat = re.sub(r"<(?:[^<>]|<(?:[^<>]|<[^<>]*>)*>)*>", "", head.split("{")[0])
        words = re.findall(r"\w+", re.sub(r"\bpub\b(\([^)]*\))?|\bwhere\b.*", "", flat))
        self.kind = words[0]
        self.trait = words[1] if self.kind == "impl" and "for" in words else None
        self.name = words[words.index("for") + 1] if self.trait else words[1]
        self.head = re.sub(r"\s+", " ", head.split("{")[0]).strip()

    def implemented(self):
        """The trait with its arguments, of an impl that has one."""
        before = self.head.partition(" where ")[0].rpartition(" for ")[0]
        depths = itertools.accumulate((it == "<") - (it == ">") for it in before)
        behind = next(at for at, (depth, it) in enumerate(zip(depths, before)) if it == " " and depth == 0)
        return re.sub(r"\w+::", "", before[behind:].strip())


def end_of_head(lines, at):
    """The line behind a function's signature and clauses, and whether a body follows."""
    depth = 0
    for now in range(at, len(lines)):
        line = lines[now].strip()
        is_clause = line.startswith(("requires", "ensures")) or depth > 0
        if not is_clause and line in ("{", "{}"):
            return now, line == "{"
        if not is_clause and line.endswith("{") and "{" not in line[:-1]:
            return now + 1, True
        depth += line.count("{") - line.count("}")
        if depth == 0 and line.endswith(";"):
            return now + 1, False
    return len(lines), False


def function_at(file, lines, at, block):
    """The function that begins there, and the line behind it."""
    indent, visible, name = re.match(rf"( *){PUBLIC}(?:const )?fn (\w+)", lines[at]).groups()
    end, has_body = end_of_head(lines, at)
    head = [line.removeprefix(indent).rstrip() for line in lines[at:end]]
    if head[-1].endswith("{"):
        head[-1] = head[-1][:-1].rstrip()
    item = Item(file, "fn", name, block, paragraphs(comment_above(lines, at, "///")), "\n".join(head))
    item.line = at + 1
    item.is_public = visible == "pub " or (block is not None and (block.trait is not None or block.kind == "trait"))
    item.is_test = "#[test]" in [it.strip() for it in lines[max(0, at - 3) : at]]
    if has_body:
        stop = next((it for it in range(end, len(lines)) if lines[it] == f"{indent}}}"), len(lines) - 1)
        item.body = "\n".join(lines[end:stop])
        end = stop + 1
    return item, max(end, at + 1)


def ghosts_of(lines, at):
    """The ghost line that begins there, with its comment, and the line behind it."""
    end = next(it for it in range(at, len(lines)) if lines[it].rstrip().endswith(";")) + 1
    indent = len(lines[at]) - len(lines[at].lstrip())
    above = []
    for line in reversed(lines[:at]):
        if not line.strip().startswith("//"):
            break
        above.insert(0, line[indent:])
    return [*above, *[line[indent:].rstrip() for line in lines[at:end]]], end


def block_items(file, lines, at, scope):
    """The items of an impl or trait that begins there, and the line behind it."""
    head = next(it for it in range(at, len(lines)) if lines[it].rstrip().endswith(("{", "{}")))
    block = Block(" ".join(lines[at : head + 1]))
    end = head + 1 if lines[head].endswith("{}") else next(it for it in range(head, len(lines)) if lines[it] == "}") + 1
    inner = {**scope, **dict(uses("\n".join(lines[head:end])))}
    doc = paragraphs(comment_above(lines, at, "///"))
    ghosts, items, now = [], [], head + 1
    while now < end - 1:
        if re.match(r" {4}ghost (?!use )", lines[now]):
            found, now = ghosts_of(lines, now)
            ghosts += ghosts and [""] * (len(found) > 1) + found or found
        elif re.match(rf" {{4}}{PUBLIC}(?:const )?fn \w", lines[now]):
            item, now = function_at(file, lines, now, block)
            items.append(item)
        else:
            now += 1
    made = Item(file, block.kind, block.name, None, doc, "\n".join(ghosts))
    made.line = at + 1
    made.of_block = block
    made.is_public = lines[at].startswith("pub ") or block.kind == "impl"
    items.insert(0, made)
    for item in items:
        item.scope = inner
    return items, end


def items_of(file):
    """The items of a source file, in order."""
    lines = read(file).split("\n")
    scope = dict(uses("\n".join(line for line in lines if line.startswith("ghost use"))))
    at = 0
    while at < len(lines):
        line = lines[at]
        if re.match(rf"{PUBLIC}(trait|impl)\b", line):
            items, at = block_items(file, lines, at, scope)
            yield from items
        elif re.match(rf"{PUBLIC}(?:const )?fn \w", line):
            item, at = function_at(file, lines, at, None)
            item.scope = scope
            yield item
        else:
            if found := re.match(rf"{PUBLIC}(struct|enum|type|const|static) (\w+)", line):
                item = Item(file, found[2], found[3], None, paragraphs(comment_above(lines, at, "///")), line)
                item.is_public, item.line = found[1] == "pub ", at + 1
                yield item
            at += 1


@functools.cache
def crate_items(crate):
    """The items of a crate, file by file."""
    return [item for file in paths(f"crates/{crate}/src/*.rt") for item in items_of(file)]
