"""The pages' files, the lines of the proxies that serve them, and their codes, compared with the hall's pages."""
import glob
import json
import os
import re
import shutil
import subprocess

from harness.checks import holds
from page_tests.place import ROOT, none, proxies

PAGE = os.environ.get("PAGE", f"{ROOT}/clients/page")
GREATEST = 90_000  # bytes of a file: what HAProxy's buffers take, and some room
WIDE, LONG, HIGH = 120, 40, 400  # columns of a line, and lines of a function and of a file: less than these
# The routes that the pages ask: the entrants', by page/words.js, and the staff's, by page/staff/words.js.
ASKED = {"words.js": (
    "GET /rounds", "GET /rounds/{round}", "PUT /rounds/{round}/answers/{number}/{token}", "GET /rounds/{round}/answers",
    "GET /rounds/{round}/solutions", "PUT /rounds/{round}/protests/{token}", "GET /rounds/{round}/protests",
    "GET /rounds/{round}/table"), "staff/words.js": (
    "PUT /puzzles/{author}/{label}", "GET /puzzles/{author}/{label}", "GET /puzzles",
    "POST /puzzles/{author}/{label}/certificate", "PUT /rounds/{round}", "POST /rounds/{round}/release", "GET /rounds",
    "GET /rounds/{round}", "GET /rounds/{round}/answers", "GET /rounds/{round}/solutions",
    "GET /rounds/{round}/protests", "PUT /rounds/{round}/rulings/{entrant}/{token}", "POST /rounds/{round}/publish")}
# Which page loads which folder's modules, and its first one.
LOADED = {"index.html": ("page/", "page/main.js"), "staff.html": ("page/staff/", "page/staff/main.js")}


def read(path):
    with open(path, encoding="utf-8") as file:
        return file.read()


def trial(_, pictures):
    texts = {os.path.relpath(path, PAGE): read(path) for path in glob.glob(f"{PAGE}/**/*.*", recursive=True)
             if not path.endswith(".md")}
    layout(texts)
    for name, of in LOADED.items():
        loading(texts, name, *of)
    none("nothing that entrants load names a file of staff's, but the worker that leaves them out",
         [path for path, text in texts.items() if not path.startswith(("page/staff/", "staff", "worker"))
          and re.search(r"staff/|staff\.", text)])
    holds("their README says that neither is proved", "Neither is proved" in read(f"{ROOT}/clients/page/README.md"))
    served(texts)
    for path, routes in ASKED.items():
        codes(pictures, path, routes)


def layout(texts):
    none("files are below 90 kB", [path for path, text in texts.items() if len(text.encode()) >= GREATEST])
    none("files are below 400 lines", [path for path, text in texts.items() if text.count("\n") >= HIGH])
    none("lines are below 120 columns", [f"{path}: {line[:60]}" for path, text in texts.items()
                                                for line in text.split("\n") if len(line) >= WIDE])
    none("functions are below 40 lines", [f"{path}: {name}" for path, text in texts.items()
                                                 if path.endswith(".js") for name in long_functions(text)])
    elsewhere = [f"{path}: {found}" for path, text in texts.items()
                 for found in re.findall(r"https?://[^\s\"'`]+", text) if "www.w3.org/2000/svg" not in found]
    none("nothing is loaded from elsewhere", elsewhere)


def long_functions(text):
    """The first lines of functions and methods that have too many lines: from a `{` to a `}` as far in."""
    lines = text.split("\n")
    for i, line in enumerate(lines):
        indent = re.match(r"( *)(?!const KIND|export const \w+ = \{|class |export class )\S.*\{$", line)
        if indent and "(" in line:
            end = next((k for k in range(i + 1, len(lines)) if lines[k].startswith(indent[1] + "}")), i)
            if end - i >= LONG:
                yield line.strip()


def loading(texts, name, folder, first):
    page = texts[name]
    preloaded = re.findall(r'<link rel="modulepreload" href="(\S+\.js)">', page)
    modules = {path for path in texts if path.endswith(".js") and os.path.dirname(path) + "/" == folder}
    later = {folder + it for path in modules for it in re.findall(r'(?:import|later)\("\./([\w-]+\.js)"', texts[path])}
    of_folder = modules & set(preloaded)
    # and what only these import
    later |= {folder + it for path in later for it in re.findall(r'from "\./([\w-]+\.js)"', texts[path])} - of_folder
    holds(f"{name}: every module but the first is preloaded, or loaded where it is wanted",
          of_folder and of_folder | later | {first} == modules, modules ^ (of_folder | later | {first}))
    none(f"{name}: none is both", later & of_folder)
    imported = {os.path.normpath(f"{os.path.dirname(path)}/{it}") for path in [*preloaded, first]
                for it in re.findall(r'^import .* from "(\S+)";$', texts[path], re.M)}
    none(f"{name}: it loads what its modules import, and nothing else", imported ^ set(preloaded))
    holds(f"{name} brings its icon", '<link rel="icon" href="data:image/svg+xml,' in page)
    holds(f"{name} says that it isn't proved", "isn't proved" in page)


def served(texts):
    """haproxy.cfg has a line for each file, and none more; nginx.conf serves the folder."""
    text = read(f"{proxies.HERE}/haproxy.cfg")
    lines = re.findall(r'http-request return content-type \S+ file "\$\{PAGE\}/page/(\S+)" '
                       r'if \{ path /page/(\S+) \}', text)
    of_pages = sorted(path.removeprefix("page/") for path in texts if path.startswith("page/"))
    holds("haproxy.cfg serves each file by its name", all(file == path for file, path in lines)
          and sorted(file for file, _ in lines) == of_pages, set(of_pages) ^ {file for file, _ in lines})
    for name, path in (("index.html", "/"), ("staff.html", "/staff.html")):
        holds(f"haproxy.cfg serves {name}", f'file "${{PAGE}}/{name}" if {{ path {path} }}' in text)
        holds(f"nginx.conf serves {name}", f"location = {path} {{" in read(f"{proxies.HERE}/nginx.conf"))
    for path in ("location /page/ {", "location = /worker.js {"):
        holds(f"nginx.conf has {path}", path in read(f"{proxies.HERE}/nginx.conf"))
    holds("haproxy.cfg serves their worker", 'file "${PAGE}/worker.js" if { path /worker.js }' in text)


def as_modules(room):
    """A copy of the pages' modules that node takes as modules."""
    copy = f"{room}/modules"
    shutil.copytree(f"{PAGE}/page", copy, dirs_exist_ok=True)
    with open(f"{copy}/package.json", "w", encoding="ascii") as file:
        file.write('{"type": "module"}')
    return copy


def codes(pictures, path, routes):
    """The codes of a module of words are those that the hall may tell its page, by docs/HTTP.md and docs/codes.json."""
    script = f"import * as words from '{as_modules(pictures)}/{path}'; " \
        "console.log(JSON.stringify([words.DENIED, words.BROKEN ?? null]))"
    told = subprocess.run(["node", "--input-type=module", "-e", script], check=True, capture_output=True, text=True)
    denied, broken = json.loads(told.stdout)
    page = read(f"{ROOT}/docs/HTTP.md")
    rows = re.findall(r"^\| `(\w+ /\S*)` \| (\w+) \| [^|]* \| ([\d, ]+) \|$", page, re.M)
    rules = {route: {int(number) for number in numbers.split(",")} for route, _, numbers in rows}
    none(f"docs/HTTP.md tells each route of {path}", set(routes) - set(rules))
    asked = set().union(*(rules.get(route, set()) for route in routes))
    none(f"{path} has each denial that its page may get, and no other", asked ^ {int(code) for code in denied})
    if broken is not None:
        names = re.findall(r"^\| `([AUSN]\d)` \|", page, re.M)
        none(f"{path} has each broken rule, and no other", set(broken) ^ set(names))
    if os.path.exists(known := f"{ROOT}/docs/codes.json"):
        actions = {action for route, action, _ in rows if route in routes}
        described(json.loads(read(known)), path, actions, denied, broken)


def described(known, path, actions, denied, broken):
    """docs/codes.json says the same as docs/HTTP.md, and which statuses the pages ask again after."""
    asked = {code for code, it in known["denials"].items() if actions & set(it["asked_of"])}
    holds(f"docs/codes.json has the denials of {path}", asked == set(denied), asked ^ set(denied))
    holds("and the same broken rules", broken is None or set(known["names"]) == set(broken))
    told = re.search(r"FOR_GOOD = \[([\d, ]+)\]", read(f"{PAGE}/page/requests.js"))[1].split(", ")
    again = [status for status, it in known["statuses"].items() if it["again"]]
    none("no status after which to send again is for good", set(again) & set(told))
