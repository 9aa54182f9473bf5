"""The clients in clients/: a module of the pages with the views that it makes, and a command of hallctl.

A module for tools/pages/map.py.
"""
import itertools
import os
import re

from sources import paths, read, sentence

PAGE, MAIN = "clients/page/page", "clients/page/page/main.js"
PAGES, TRIALS = ("clients/page/README.md", "docs/ENTRANTS.md"), "tools/tests/page_tests/*.*"
STAFF, WORDS = "clients/hallctl/hall_client", "clients/hallctl/hall_client/words.py"
MANUAL = "docs/STAFF.md"
# What a parameter of a path is written as: {round}, ${id}, {args.round}, r1.
PARAMETER = r"(?:\$?\{[^}]*\}|[\w-]+)"
END = r"(?=[\s\"'`,)?]|$)"


def lines_with(pattern, text):
    return [number for number, line in enumerate(text.split("\n"), 1) if re.search(pattern, line)]


def body_of(path, line):
    """The lines of the function of Python that begins there, with their numbers."""
    lines = read(path).split("\n")
    end = next((at for at in range(line, len(lines)) if re.match(r"\S", lines[at])), len(lines))
    return [(number, lines[number - 1]) for number in range(line, end + 1) if lines[number - 1].strip()]


# --- the page


def modules():
    """The names of the pages' modules, those of staff as staff/watch."""
    found = paths(f"{PAGE}/*.js") + paths(f"{PAGE}/staff/*.js")
    return [os.path.relpath(it, PAGE).removesuffix(".js") for it in found]


def module_named(name):
    """The module of this name, or of a view; one of staff also without its folder, where entrants have none such."""
    known = {os.path.basename(it): it for it in sorted(modules(), key=lambda it: -it.count("/"))}
    known |= {view: of for of in modules() for _, view in exports(f"{PAGE}/{of}.js") if view.endswith("View")}
    name = name.removesuffix(".js")
    return name if name in modules() else known.get(name)


def head_of(path):
    """The first sentence of the comment at the head of a module."""
    said = " ".join(it[3:] for it in itertools.takewhile(lambda it: it.startswith("// "), read(path).split("\n")))
    return sentence(said.split(". ")[0])


def exports(path):
    """What a module hands on: line and name."""
    for number, line in enumerate(read(path).split("\n"), 1):
        if found := re.match(r"export (?:async )?(?:function|const|class) (\w+)", line):
            yield number, found[1]


def addresses():
    """The view of each address of the page: the function's name, and a pattern of the address as tests write it."""
    for address, view in re.findall(r"\[/\^(.*?)\$?/, (\w+)\]", read(MAIN)):
        of_round = address.replace("\\/", "/").replace("([a-z0-9-]+)", PARAMETER)
        yield view, of_round.replace(r"(\d+)", r"(?:\d+|\{number\})")


def going(address):
    """What leads a trial to an address of the page: that itself, or a function that goes there."""
    own = rf"[\"']{address}[\"']"
    for path in paths("tools/tests/page_tests/*.py"):
        text = read(path)
        for number in lines_with(own, text):
            before = re.findall(r"^    def (\w+)\(", "\n".join(text.split("\n")[:number]), re.M)
            if path.endswith("chromium.py") and before:
                own += rf"|\.{before[-1]}\("
    return own


def views(name):
    """The addresses at which the module's views are shown, each with the pattern of what leads there."""
    own = {it for _, it in exports(f"{PAGE}/{name}.js")}
    return [(view, address, going(address)) for view, address in addresses() if view in own and address]


def page_module(name):
    """A module of the page, or the one of a view: its sentence, and for each sort of place path and lines."""
    name = module_named(name)
    if name is None:
        return None
    path, text = f"{PAGE}/{name}.js", read(f"{PAGE}/{name}.js")
    shown = [(MAIN, lines_with(rf"\b{view}\]", read(MAIN))) for view, *_ in views(name)]
    stem = os.path.basename(name)
    importing = rf"from [\"'][./\w]*\b{re.escape(name)}\.js[\"']|import\([\"'][./\w]*\b{re.escape(name)}\.js"
    trials = "|".join([importing, *(pattern for *_, pattern in views(name))])
    told = rf"`{re.escape(stem)}\.js`" + ("|`view-\\*\\.js`" if name.startswith("view-") else "")
    return f"module {name} of the page: {head_of(path)}", {
        "made": [f"{path}:{number} {it}" for number, it in exports(path)],
        "shown": shown,
        "used by": [(it, list(importing_lines(it, path))) for it in paths(f"{PAGE}/**/*.js")],
        "asks": [(path, lines_with(r"\bask\(", text))],
        "tested": [(it, lines_with(trials, read(it))) for it in paths(TRIALS)],
        "told": [(it, lines_with(told, read(it))) for it in PAGES],
    }


def importing_lines(of, path):
    """The lines of a module on which it imports that one."""
    for number, line in enumerate(read(of).split("\n"), 1):
        found = re.search(r" from \"(\S+)\";$", line)
        if found and os.path.normpath(f"{os.path.dirname(of)}/{found[1]}") == path:
            yield number


# --- hallctl


def commands():
    """The commands of hallctl: the words, the function, and the line of words.py that adds it."""
    group = ""
    for number, line in enumerate(read(WORDS).split("\n"), 1):
        if found := re.search(r'of = commands\.group\("(\w+)"', line):
            group = found[1]
        elif found := re.search(r'\b(of|commands)\.add\("(\w+)", (?:lambda[^:]*: )?(\w+)\.(\w+)', line):
            of, own, module, function = found.groups()
            yield f"{group} {own}" if of == "of" else own, module, function, number


def command(name):
    """A command of hallctl: its sentence, and for each sort of place path and lines."""
    for words, module, function, at in commands():
        if name.removeprefix("hallctl ") == words:
            path = f"{STAFF}/{module}.py"
            line = lines_with(rf"^def {function}\(", read(path))[0]
            doc = re.search(r'"""(.*?)"""', "\n".join(it for _, it in body_of(path, line)), re.S)
            asks = [number for number, it in body_of(path, line)[1:] if re.search(r"\bhall\.\w+\(|\(hall\b", it)]
            called = r"\W+".join(words.split())
            tests = ("tools/tests/**/*.py", "clients/hallctl/hall_client/rehearse.py")
            return f"command {words} of hallctl: {sentence(' '.join(doc[1].split()))}", {
                "words": [f"{WORDS}:{at}"],
                "made": [f"{path}:{line} {function}"],
                "asks": [(path, asks)],
                "tested": [(it, lines_with(rf"[\"'(]{called}[\"']", read(it))) for of in tests for it in paths(of)],
                "told": [(it, lines_with(rf"hallctl {words}\b" + rf"|^\| `([^`]*`, `)?{words}\b" * (it == MANUAL),
                                         read(it))) for it in paths("docs/*.md")],
            }
    return None


# --- what asks for a route


def asking(route):
    """A pattern of what asks for a route, as `PUT /rounds/{round}`: its path by whatever method, or the end of it that
    a letter of the page has."""
    whole = re.sub(r"\{\w+\}", lambda _: PARAMETER, route.partition(" ")[2])
    end = whole.removeprefix(f"/rounds/{PARAMETER}/")
    return rf"(?:[\s\"'`}}(]|localhost:\d+){whole}{END}|`{end}{END}"


def asking_by_method(route):
    """The same with its method before it, as examples and tests have it."""
    method, _, path = route.partition(" ")
    whole = re.sub(r"\{\w+\}", lambda _: PARAMETER, path)
    return rf"\b{method}\b\W+(?:f\W)?{whole.lstrip('/')}{END}"
