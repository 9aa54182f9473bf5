#!/usr/bin/env python3
"""What the crates promise, from their contracts and definitions.

    python3 tools/pages/promises.py                        writes the pages that are made of the sources
    python3 tools/pages/promises.py --check                writes nothing, and says what is wrong
    python3 tools/pages/promises.py CRATE ..               prints each contract of a crate, and the words of it
    python3 tools/pages/promises.py --believe [NAME ..]    counts the definitions that a reader must believe

Written are docs/RULES.md, docs/promises/README.md (the laws and their proofs), and by tools/pages/codes.py the tables
of docs/HTTP.md, docs/RUNNING.md and examples/README.md. With --check a line each tells of a page that isn't what the
sources say, of a link, a name or a path on a page that leads nowhere, of a line of prose over 120 columns, and of a
number of README.md that is no more the one of --believe; then the end is 1. A word of a public contract that has no
sentence above its definition is noted. `--believe hall_http::serve_all` counts for that contract, `--believe hall_sql`
for all of a crate, and tells the files that are to be read; without a name it counts for each promise of README.md,
each law and each crate. It lists too the names that two of the definitions have, the definitions without a sentence,
and those that name something of a proof.
"""
import os
import re
import signal
import sys

import believed
import codes
import places
import tree
from sources import PLAIN, ROOT, TEST_CRATES
from sources import all_definitions, crate_items, crates, exported, introduction, items_of, paths, read, sentence
from sources import write_or_compare

PAGES = ("*.md", "docs/**/*.md", "examples/**/*.md", "bench/**/*.md", "clients/**/*.md", "tools/**/*.md")
RULES, INDEX, WORDS = "docs/RULES.md", "docs/promises/README.md", "docs/WORDS.md"
# The promises of README.md, by the functions whose contracts they are.
PROMISES = {
    "the headline": ["hall_http::serve_all"],
    "1. verdicts": ["hall_desk::judge"],
    "2. unique solutions": ["hall_desk::law_sanity"],
    "3. accepted answers": ["hall_desk::law_accepted_answers"],
    "4. the first rule": ["hall_policy::decide"],
    "5. totals": ["hall_score::law_totals"],
    "secrecy": [f"hall_desk::law_{it}" for it in ("others", "before_start", "sealed")] + ["hall_http::law_bytes"],
    "the program": ["hall_tool::run_words"],
}
# How README.md tells the first and the last of these, in this order.
TOLD = re.compile(r"([\d,]+)\s+definitions\s+of\s+([\d,]+)\s+lines,\s+and\s+([\d,]+)\s+of\s+the\s+kit")
IN_README = ("the headline", "the program")
# A number that is told may be wrong by so much of itself.
ROUNDED = 0.05


def libraries():
    return [crate for crate in crates() if crate not in TEST_CRATES and exported(crate)]


def is_shown(item, names):
    """Whether the item is a part of what its crate promises: it, or the type or trait of its block, is handed on."""
    of = getattr(item, "of_block", None) or item.block
    if of is None:
        return item.is_public and item.name in names
    if of.name not in names or of.trait in PLAIN:
        return False
    if item.kind == "fn":
        return item.is_public and (of.trait is None or "ensures" in item.text or "requires" in item.text)
    return item.kind == "trait" or bool(item.text)


def shown(crate):
    """The items of the crate that its promises are made of."""
    names = exported(crate)
    return [item for item in crate_items(crate) if is_shown(item, names)]


def functions(crate):
    """The functions that a crate hands on, by their names."""
    return {item.full_name(): item for item in shown(crate) if item.kind == "fn"}


def title(item):
    if item.kind == "impl":
        return f"{item.of_block.implemented()} of {item.name}" if item.of_block.trait else f"of {item.name}"
    return item.full_name()


def told(item):
    """An item as it is printed: its sentence, and its clauses."""
    yield f"#### {title(item)}"
    yield from (line for paragraph in item.doc for line in ("", paragraph))
    if item.kind in ("fn", "impl", "trait") and item.text:
        yield from ("", item.text)
    yield ""


def contracts(crate):
    """The contracts of a crate, file by file."""
    last = None
    for item in shown(crate):
        if item.file != last:
            last = item.file
            yield from (f"### {last}", "")
        yield from told(item)


def words(crate):
    """The definitions and constants that a crate's contracts cite: each with its place and its sentence."""
    known = {it[:3]: it for it in all_definitions()}
    for key in sorted({it for item in shown(crate) for it in item.definitions()}, key=lambda it: (it[2], it)):
        *_, text, path, line = known.get(key, ("", f"crates/{key[0]}/specs", 0))
        yield f"- {key[2]} ({path}:{line}): {sentence(text)}"
    constants = {it for item in shown(crate) for it in item.constants()}
    for of, module, name in sorted(constants, key=lambda it: (it[2], it)):
        path = f"crates/{of}/src/{module.replace('.', '/')}.rt"
        item = next(it for it in items_of(path) if it.name == name)
        yield f"- {name} ({path}:{item.line}): {' '.join(item.doc)}"


def words_of_the_kit(crate):
    """The words of its contracts that the kit's crates give, crate by crate."""
    found = {}
    for item in shown(crate):
        for name, path in item.words().items():
            if not path.startswith("Rattle.hall_") and ".declared." not in path:
                found.setdefault(path.split(".")[1], set()).add(name)
    for of, names in sorted(found.items()):
        yield f"- {of}: {', '.join(sorted(names))}"


def files_of_specs(crate):
    for path in paths(f"crates/{crate}/specs/*.antt"):
        first = read(path).split("\n", 1)[0]
        if first.startswith("-- "):
            yield f"- {path}: {first[3:]}"


def printed(crate):
    """What a crate promises: its page, and then what the sources say."""
    kit = list(words_of_the_kit(crate))
    yield from (read(f"docs/promises/{crate}.md"), "## The contracts", "", *contracts(crate))
    yield from ("## The words of these contracts", "", *words(crate), "")
    yield from ("Words of the kit:", "", *kit, "") if kit else ()
    yield from ("## The files of its definitions", "", *files_of_specs(crate))


def contract(crate, name):
    """A link of a page of docs/ to the file of a function's contract."""
    return f"[`{name}`](../{functions(crate)[name].file})"


def introduced(crate):
    """The first paragraph of what a crate says of itself; a link by a path of Rust leads nowhere on a page."""
    return re.sub(r"\[(`[^`]+`)\]", r"\1", re.split(r"  +", introduction(crate))[0])


def theorem(item):
    """A row of the table of laws: its name and file, its sentence, and the files of its proof."""
    def at(path, name):
        return f"[{name}](../../{path})"

    found = [at(it, os.path.basename(it).removesuffix(".antt")) for it in dict.fromkeys(tree.proofs_of(item))]
    proof = ", by ".join([*found[:1], *([", ".join(found[1:])] if found[1:] else [])]) or "by search alone"
    said = re.split(r"(?<=[.:]) (?=[A-Z`])", " ".join(item.doc))[0].rstrip(":")
    return f"| {at(item.file, f'`{item.name}`')} | {sentence(said)} | {proof} |"


def index():
    """docs/promises/README.md: the crates, and the laws with their proofs."""
    yield from (
        "# The promises of the crates, and the laws", "",
        "This page is written by `tools/pages/promises.py`. `python3 tools/pages/promises.py hall_desk` prints the",
        "contracts of a crate, with the sentence of each definition that they cite, and "
        "`python3 tools/pages/map.py judge`",
        "what belongs to one function or law: its contract and definitions, its proof, its tests and wrong bodies.", "",
        "| Crate | |", "|---|---|", *(f"| [{crate}]({crate}.md) | {introduced(crate)} |" for crate in libraries()), "",
        "## The laws and their proofs", "",
        "A law is a function that does nothing, whose contract is a theorem. Beside the laws stand here the calls "
        "whose",
        "contracts [README.md](../../README.md#what-it-promises) tells. A proof is an answer to each clause, and the "
        "files",
        "of `proofs/` that this names.", "",
        "| Law or call | Says | Proof |", "|---|---|---|",
    )
    told_there = {name for of in PROMISES.values() for name in of}
    for crate in libraries():
        for name, item in functions(crate).items():
            if name.startswith("law_") or f"{crate}::{name}" in told_there:
                yield theorem(item)
    yield ""


def without_sentence():
    known = {it[:3]: it[3] for it in all_definitions()}
    for crate in libraries():
        for of, module, name in sorted({it for item in shown(crate) for it in item.definitions()}):
            if not known.get((of, module, name)):
                yield f"note: {of}/specs/{module}.antt: {name}, which {crate} promises by, has no sentence above it"


def anchors(text):
    """The anchors of a page's headings."""
    for head in re.findall(r"^#+ (.*)$", text, re.M):
        yield re.sub(r"[^\w\- ]", "", head.lower()).replace(" ", "-")


def wrong_links(page_path, text):
    """The links of a page that lead nowhere: those in the text, and those that stand below it by a name."""
    prose = re.sub(r"^```.*?^```", "", text, flags=re.M | re.S)
    named = dict(re.findall(r"^\[([^\]]+)\]: (\S+)$", prose, re.M))
    for target in [*re.findall(r"\]\(([^)\s]+)\)", prose), *named.values()]:
        path, _, anchor = target.partition("#")
        if re.match(r"\w+:", path):
            continue
        full = os.path.normpath(os.path.join(os.path.dirname(page_path), path)) if path else page_path
        if not os.path.exists(f"{ROOT}/{full}"):
            yield f"{page_path} leads to {target}, which isn't there"
        elif re.fullmatch(r"L\d+", anchor) and not full.endswith(".md"):
            if int(anchor[1:]) > read(full).count("\n"):
                yield f"{page_path} leads to {target}, where no line is"
        elif anchor and anchor not in anchors(read(full)):
            yield f"{page_path} leads to {target}, where no heading has this name"
    plain = re.sub(r"`[^`\n]*`|^    .*$", "", prose, flags=re.M)
    cited = [*re.findall(r"(?<!\])\[([A-Za-z]\w+)\](?![\[(:])", plain), *re.findall(r"\]\[([^\]]+)\]", plain)]
    for name in sorted(set(cited)):
        if name not in named:
            yield f"{page_path} has [{name}], which leads nowhere"


def wrong_names(page_path, text, known):
    """The paths and names in backticks that aren't there."""
    for name in sorted(set(re.findall(r"`([^`\n]+)`", re.sub(r"^```.*?^```", "", text, flags=re.M | re.S)))):
        if re.fullmatch(r"(crates|docs|examples|tools|bench|clients)/[\w./-]*\w", name):
            if not os.path.exists(f"{ROOT}/{name}") and "/out/" not in name:
                yield f"{page_path} names {name}, which isn't there"
        elif re.fullmatch(r"[A-Z][a-z]+(?:[A-Z]\w*)+|[a-z]+(?:_[a-z]+)+", name) and name not in known:
            yield f"{page_path} names {name}, which stands in no source"


def long_lines(page_path, text):
    """The lines of prose that are too long; tables, lists of names, examples and links may be."""
    without = re.sub(r"^```.*?^```", "", text, flags=re.M | re.S)
    for line in without.split("\n"):
        if len(line) > 120 and not line.lstrip().startswith(("|", "<!--")) and not line.startswith("    "):
            yield f"{page_path} has a line of {len(line)} columns: {line[:60]}.."


def known_names():
    """The words of the sources, and the names of crates, edits and examples."""
    sources = ("crates/*/src/*.rt", "crates/*/specs/**/*.antt", "crates/*/proofs/**/*.antt", "tools/**/*.py")
    sources += ("crates.txt", "examples/**/*.toml", "examples/running/*.*", "clients/**/*.*", "bench/*.*")
    found = {name for of in sources for path in paths(of) for name in re.findall(r"\w+", read(path))}
    found |= {os.path.basename(it).split(".")[0] for it in paths("crates/*") + paths("examples/**/*")}
    return found | {it.name for it in found_tree().changes}


def wrong_pages():
    known = known_names()
    for it in sorted({path for page in PAGES for path in paths(page) if os.path.isfile(f"{ROOT}/{path}")}):
        text = read(it)
        yield from wrong_links(it, text)
        if it != INDEX:
            yield from wrong_names(it, text, known)
            yield from long_lines(it, text)


def wrong_words():
    """The verbs of docs/WORDS.md that no definition has for a name."""
    known = {it[2] for it in all_definitions()}
    verbs = read(WORDS).partition("\n| Verb |")[2]
    for name in re.findall(r"`(\w+)`", " ".join(re.findall(r"^\| ([^|]+) \|", verbs, re.M))):
        if name not in known:
            yield f"{WORDS} has the verb {name}, which no definition has for a name"


def found_tree():
    if not hasattr(found_tree, "tree"):
        found_tree.tree = tree.Tree(libraries())
    return found_tree.tree


def items_at(name):
    """The functions that crates hand on by this name, as `serve_all` or `hall_http::serve_all`."""
    for crate in libraries():
        found = functions(crate)
        yield from (found[it] for it in found if name in (it, f"{crate}::{it}"))


def counted(name, items):
    own, lines, of_kit, lines_of_kit = believed.counts(believed.cited(items))
    return f"{name:32}{own:8,}{lines:8,}{of_kit:12,}{lines_of_kit:8,}"


def believe(names):
    """What must be believed, by promise; and the names that two of the definitions have."""
    yield f"{'promise':32}{'hall':>8}{'lines':>8}{'the kit':>12}{'lines':>8}"
    if names:
        rows = {name: shown(name) if name in libraries() else list(items_at(name)) for name in names}
    else:
        rows = {name: [it for one in of for it in items_at(one)] for name, of in PROMISES.items()}
        rows |= {f"{crate}::{name}": [item] for crate in libraries()
                 for name, item in functions(crate).items() if name.startswith("law_")}
        rows |= {crate: shown(crate) for crate in libraries()}
        rows["all crates"] = [item for crate in libraries() for item in shown(crate)]
    yield from (counted(*row) if row[1] else f"{row[0]}: no crate hands this on" for row in rows.items())
    found = believed.reached(believed.cited([item for items in rows.values() for item in items]))
    yield from believed.to_read(found) if names else ()
    twice = believed.twice(found)
    yield from ("", f"{len(twice)} names are defined more than once among these:")
    for name, homes in twice.items():
        note = ", in the same words" if believed.is_same(homes, name) else ""
        yield f"  {name}: {', '.join(map(believed.place, homes))}{note}"
    said = {(f"Rattle.{crate}.specs.{inside}", name) for crate, inside, name, told, *_ in all_definitions() if told}
    bare = sorted(it for it in found - said if believed.is_own(it[0]) and ".specs." in it[0])
    yield from ("", f"{len(bare)} of these have no sentence above them:")
    yield from (f"  {believed.place(of)}: {name}" for of, name in bare)
    leaning = list(believed.on_proofs(found))
    yield from ("", f"{len(leaning)} of these name what stands in proofs/, which has to be read too:")
    for of, name, other, used in leaning:
        yield f"  {believed.place(of)}: {name} names {used} ({believed.place(other)})"


def wrong_numbers():
    """README.md tells the numbers of the headline and of the program, rounded."""
    found = TOLD.findall(read("README.md"))
    if len(found) != len(IN_README):
        yield f"README.md doesn't tell how many definitions must be believed for {' and '.join(IN_README)}"
    for name, told_numbers in zip(IN_README, found):
        for number, is_so in zip(told_numbers, believed.counts(believed.cited(items_at(PROMISES[name][0])))):
            if abs(int(number.replace(",", "")) - is_so) > ROUNDED * is_so:
                yield f"README.md tells {number} of what must be believed for {name}, where there are {is_so:,}"


def check(is_check):
    wrong = write_or_compare(INDEX, "\n".join(index()), is_check)
    wrong += write_or_compare(RULES, places.page(found_tree(), contract, functions), is_check)
    wrong += codes.check(is_check)
    wrong += [*tree.wrong_data(libraries(), shown), *places.wrong_rules(found_tree())]
    wrong += [*wrong_pages(), *wrong_words(), *wrong_numbers()]
    print("\n".join([*without_sentence(), *(wrong or ["the pages say what the sources say, and name what is there"])]))
    return 1 if wrong else 0


def main():
    # Whoever reads may have read enough.
    signal.signal(signal.SIGPIPE, signal.SIG_DFL)
    words_given = sys.argv[1:]
    if words_given in ([], ["--check"]):
        return check(bool(words_given))
    if words_given[0] == "--believe":
        print("\n".join(believe(words_given[1:])))
        return 0
    if set(words_given) - set(libraries()):
        print(__doc__, file=sys.stderr)
        return 2
    print("\n".join(line for crate in words_given for line in printed(crate)))
    return 0


if __name__ == "__main__":
    sys.exit(main())
