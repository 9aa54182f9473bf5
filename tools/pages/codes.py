#!/usr/bin/env python3
"""Writes the tables of docs/HTTP.md, the routes and all codes, each with the sentence that stands beside it in the
sources; that of docs/RUNNING.md, what is told of a fault; the index by code of examples/README.md; docs/codes.json,
the codes for programs; and docs/openapi.json, the description of the routes, bodies and replies.

    python3 tools/pages/codes.py [--check]

With --check it writes nothing, and ends with 1 where a table isn't what the sources say, where HTTP.md shows a reply
that stands in no example, or where no example shows a code.
"""
import re
import sys

import description
import sending
from sources import definitions, paths, read, sentence, variants, write_or_compare

HTTP = "docs/HTTP.md"
CODES, DESCRIPTION = "docs/codes.json", "docs/openapi.json"
RUNNING = "docs/RUNNING.md"
EXAMPLES = "examples/README.md"
ACTIONS = "crates/hall_policy/specs/Actions.antt"
RULES = "crates/hall_policy/specs/Rules.antt"
REQUEST = "crates/hall_http/specs/Request.antt"

FAULTS = [f"F{it}" for it in range(1, 9)] + [f"E{it}" for it in range(2, 9)]
# A sentence that is so many bytes longer than another one says more.
MORE = 5


def table(head, rows):
    """A table of cells."""
    lines = ["|" + "|".join(f" {cell} " if cell else " " for cell in line) + "|" for line in [head, *rows]]
    return "\n".join([lines[0], "|---" * len(head) + "|", *lines[1:]])


def clauses(name, path=ACTIONS):
    """What a definition by cases says of each case: the case's name, and the text behind the sign `=`."""
    block = read(path).split(f"abbrev pub {name} : ", 1)[1].split("\n\n")[0]
    flat = re.sub(r"\n +", " ", block)
    for line in flat.split("\n")[1:]:
        left, _, right = line.partition(" = ")
        yield re.findall(r"[A-Z]\w*", left.removeprefix(name))[0], right


def numbers():
    """The number of each rule, by its name."""
    return {name: int(right) for name, right in clauses("number_of")}


def asked():
    """The names of the rules that are asked of each action, in their order."""
    return {name: [it for it in re.findall(r"\w+", right)] for name, right in clauses("rules_asked")}


def roles():
    """The roles that may take each action, in words."""
    for name, right in clauses("may"):
        found = re.findall(r"roles\.(\w+)", right)
        yield name, ", ".join(found) or ("anyone, with or without a key" if name == "Table" else "every role")


def right_sides(module):
    """What stands behind the sign `=` in the cases of each definition of a module, on one line."""
    for name, block in re.findall(r"^abbrev pub (\w+) : (.*?)(?:\n\n|\Z)", read(module), re.M | re.S):
        yield name, " ".join(line.partition(" = ")[2] for line in re.sub(r"\n +", " ", block).split("\n")[1:])


def asked_at():
    """The methods that are served at each resource, each with the action that it asks for, as the definition of that
    says. What a word stands for is put behind its arguments, so that a method stands before its action."""
    of = dict(right_sides(REQUEST))
    for resource, right in clauses("ActionAt", REQUEST):
        while words := [it for it in re.findall(r"\w+", right) if it in of]:
            given = r"((?: [\w.]+| \((?:[^()]|\([^()]*\))*\))*)"
            right = re.sub(rf"\b{words[0]}\b{given}", lambda it: f"{it[1]} {of[words[0]]}", right)
        yield resource, re.findall(r'codes "([A-Z]+)".*?action\.(\w+)', right)


def routes():
    may, rules, number = dict(roles()), asked(), numbers()
    found = re.findall(r'"(/.*?)",\s+Resource::(\w+)', read("crates/hall_http/src/routes.rt"))
    path_of = {resource: path for path, resource in found}
    route = {action: f"{method} {path_of[resource]}" for resource, served in asked_at() for method, action in served}
    for name, _ in variants("crates/hall_policy/src/request.rt", "Action"):
        yield [f"`{route[name]}`", name, may[name], ", ".join(str(number[it]) for it in rules[name])]


def denials():
    number, rules = numbers(), asked()
    for name, told in variants("crates/hall_policy/src/rule.rt", "Rule"):
        of = [action for action, those in rules.items() if name in those]
        every = "every action but Table" if len(of) == len(rules) - 1 and "Table" not in of else ", ".join(of)
        every = "every action but ListRounds and Table" if set(rules) - set(of) == {"ListRounds", "Table"} else every
        yield [f"`{number[name]}`", sentence(told), every]


def definitions_of_rules():
    """Where the sentence beside the definition of a rule says more than the one beside its number."""
    rules = variants("crates/hall_policy/src/rule.rt", "Rule")
    short = {number: sentence(told) for (_, told), number in zip(rules, numbers().values())}
    for name, told in definitions(RULES):
        # What repeats is no denial.
        if (found := re.match(r"(\d+)\. (.*)", told)) and not name.startswith("Same"):
            if len(sentence(found[2])) > len(short[int(found[1])]) + MORE:
                yield [f"`{found[1]}`", sentence(found[2]), f"`{name}`"]


def codes_of(path, enum, pattern):
    """The code of each variant, by a pattern over the match that writes it."""
    return dict(re.findall(rf"{enum}::(\w+)(?:\(\w+\))? => {pattern}", read(path)))


def without_code(told):
    return sentence(re.sub(r": F\d\.$", ".", told))


def forms():
    """The codes F1 to F8: what each says of a list or sheet, and of a request."""
    lists = codes_of("crates/hall_sheet/src/fault.rt", "Refusal", r'write!\(f, "(F\d)')
    requests = codes_of("crates/hall_http/src/reply.rt", "FormFault", r'\w+\(told, (?:[^"\n]*, )?"(F\d)"')
    of_lists = {lists[name]: without_code(told) for name, told in variants("crates/hall_sheet/src/fault.rt", "Refusal")}
    forms = variants("crates/hall_http/src/form.rt", "FormFault")
    of_requests = {requests[name]: sentence(told) for name, told in forms if name in requests}
    for code in sorted({*of_lists, *of_requests}):
        yield [f"`{code}`", of_lists.get(code, ""), of_requests.get(code, "")]


def texts():
    path = "crates/hall_grid/src/fault.rt"
    code = codes_of(path, "TextFault", r'write!\(f, "(E\d)')
    placed = codes_of(path, "TextFault", r'write!\(f, "(E\d) \{place\}')
    for name, told in variants(path, "TextFault"):
        if name != "Memory":
            yield [f"`{code[name]}`", sentence(told), "yes" if name in placed else "no"]


def names():
    for kind, file in (("any", "Answer"), ("Sudoku", "Sudoku"), ("Slitherlink", "Slither"), ("Nurikabe", "Nurikabe")):
        for name, told in definitions(f"crates/hall_grid/specs/{file}.antt"):
            found = re.match(r"([USN]\d): (.*)", told)
            if name == "SaysNothing":
                found = found or re.match(r"(A0)?(.*)", f"A0{told}")
            if found:
                yield [f"`{found[1]}`", kind, sentence(found[2]), f"`{name}`"]


def unavailable():
    text = read("crates/hall_http/src/reply.rt")
    found = re.search(r'/// (.*)\npub\(crate\) const UNAVAILABLE: &str = "\\\n.*\\r\\n\\r\\n\\\n(.*)";', text)
    yield ["`503`", f"`{found[2]}`".replace('\\"', '"'), found[1]]


def advice():
    """The lines that tell what to do about a fault."""
    text = read("crates/hall_tool/src/advice.rt")
    yield from ([told] for told in re.findall(r'= told!\(\s*"(.*?)"\s*\);', text))


def of_denial(number):
    return rf'denied\\?"?:? ?{number}\b'


def of_name(code):
    return rf"wrong (?:\w\d )*{code}\b"


def of_fault(code):
    return rf"\b{code}\b"


def patterns():
    """Each code of a denial, of a fault and of a broken rule, and what an example that shows it has in a line."""
    yield from ((f"denied {it}", of_denial(it)) for it in numbers().values())
    yield from ((it, of_fault(it)) for it in FAULTS)
    yield from ((code, of_name(code)) for code in (it[0].strip("`") for it in names()))


def examples_of(pattern):
    """The lines of examples/ that have it: path and number. The tables of codes come first, and then the others; pages
    of help and comments are none."""
    files = [it for it in paths("examples/*/*.*") if it.endswith((".out", ".rows", ".sh", ".toml"))]
    files = [it for it in files if not it.startswith("examples/help/")]
    of_codes = ("codes.rows", "denials.rows")
    for path in sorted(files, key=lambda it: (not it.endswith(of_codes), not it.endswith(".rows"), it)):
        for number, line in enumerate(read(path).split("\n"), 1):
            if not line.startswith("#") and re.search(pattern, line):
                yield path, number


def index():
    """Each code, and the first line that shows it."""
    for code, pattern in patterns():
        for path, number in examples_of(pattern):
            name = path.removeprefix("examples/")
            yield [f"`{code}`", f"[{name}:{number}]({name}#L{number})"]
            break


def tables():
    """The generated tables of each page, by the names of their markers."""
    return {
        HTTP: {
            "routes": table(["Method and path", "Action", "Roles", "Rules asked"], routes()),
            "denials": table(["Code", "Sentence", "Asked of"], denials()),
            "definitions": table(["Code", "The definition's sentence", "Definition"], definitions_of_rules()),
            "forms": table(
                ["Code", "In an entry list or a round sheet", "In a JSON body, or in the request itself"], forms()
            ),
            "texts": table(["Code", "Sentence", "With its place"], texts()),
            "names": table(["Name", "Kind", "Sentence", "Definition"], names()),
            "unavailable": table(["Status", "Body", "Sentence"], unavailable()),
            "again": table(["Status", "By", "What it says", "Send it again"], sending.status_rows()),
        },
        RUNNING: {"advice": table(["Line"], advice())},
        EXAMPLES: {"index": table(["Code", "Shown in"], index())},
    }


def for_programs():
    """The texts of the files that programs read, by their paths."""
    rows = {"denials": denials(), "forms": forms(), "texts": texts(), "names": names(), "unavailable": unavailable()}
    told = sending.codes({name: list(of) for name, of in rows.items()}, sending.asked_of(asked(), numbers()))
    return {CODES: sending.text_of(told), DESCRIPTION: sending.text_of(description.description(routes(), told))}


def page(path, tables_of):
    """The page with its tables as the sources have them."""
    text = read(path)
    for name, told in tables_of.items():
        begin, end = f"<!-- {name}: by tools/pages/codes.py -->", f"<!-- end of {name} -->"
        before, _, rest = text.partition(begin)
        _, found, after = rest.partition(end)
        if not found:
            raise SystemExit(f"{path} has no lines {begin} and {end}")
        text = f"{before}{begin}\n\n{told}\n\n{end}{after}"
    return text


def unknown_replies():
    """The replies that HTTP.md shows and that stand in no example."""
    known = "\n".join(read(it) for it in paths("examples/**/*.*") if it.endswith((".txt", ".out", ".rows", ".sh")))
    for reply in re.findall(r'^(\{".*\})$', "\n".join(re.findall(r"^```\n(.*?)^```", read(HTTP), re.M | re.S)), re.M):
        if reply not in known and reply.replace('"', '\\"') not in known:
            yield f"{HTTP} shows a reply that stands in no example: {reply}"


def check(is_check):
    """Writes the pages, or compares them; what is wrong, a line each."""
    written = [line for path, of in tables().items() for line in write_or_compare(path, page(path, of), is_check)]
    written += [line for path, text in for_programs().items() for line in write_or_compare(path, text, is_check)]
    unshown = [f"{code} stands in no example" for code, pattern in patterns() if not any(examples_of(pattern))]
    return [*written, *unknown_replies(), *unshown]


if __name__ == "__main__":
    wrong = check("--check" in sys.argv)
    right = f"{HTTP}, {RUNNING}, {EXAMPLES}, {CODES}, {DESCRIPTION}"
    print("\n".join(wrong) or f"{right}: each code has the sentence of the sources, and an example")
    sys.exit(1 if wrong else 0)
