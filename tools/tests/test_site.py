"""hallctl site: what it writes of a day that is half over, what must not be in it, and who serves it."""
import contextlib
import html.parser
import http.client
import json
import re
import subprocess
import sys
import time
import urllib.parse
import xml.etree.ElementTree as xml
from pathlib import Path

import pytest
from harness import proxies, staff, staff_day
from harness.checks import check
from harness.running import ROOT, connected, free_port
from harness.staff import Day
from harness.wire import compact

sys.path.append(f"{ROOT}/clients/hallctl")
from hall_client.kinds import KINDS  # noqa: E402
from hall_client.svg import board  # noqa: E402

ADDRESS = "https://hall.example.org/results/"
TITLE = "A <b> & 'c'"
NAMES = "name,spoken,country\nentrant-1,Žofie <Nováková>,CZ\nrex,Rex Secret,DE\n"
# Elements of HTML that have no end tag.
ALONE = {"meta", "link"}
# Of these rounds the first is published, the second has an open protest, the third is to come, and the last a draft.
PUBLISHED, OVER, TO_COME, DRAFT = range(4)


class Page(html.parser.HTMLParser):
    """A page as it is read: its links, its words, and where its elements don't fit into each other."""

    def __init__(self, text):
        super().__init__()
        self.open, self.faults, self.links, self.words, self.tags = [], [], [], [], []
        self.feed(text)
        self.close()
        self.faults += [f"{it} isn't closed" for it in self.open]

    def handle_starttag(self, tag, attrs):
        self.tags.append((tag, dict(attrs)))
        self.links += [value for name, value in attrs if name in ("href", "src")]
        twice = len(attrs) != len(dict(attrs))
        self.faults += [f"{tag} has an attribute twice"] * twice
        if tag not in ALONE:
            self.open.append(tag)

    def handle_endtag(self, tag):
        if not self.open or self.open.pop() != tag:
            self.faults.append(f"</{tag}> closes something else")

    def handle_data(self, data):
        self.words.append(data)

    def text(self):
        return " ".join(" ".join(self.words).split())

    def count(self, name, **wanted):
        return sum(tag == name and wanted.items() <= attrs.items() for tag, attrs in self.tags)


@pytest.fixture(scope="module")
def day(program, tmp_path_factory):
    made = Day(str(tmp_path_factory.mktemp("site")), program, 4)
    half_a_day(made)
    yield made
    made.room.close()


def half_a_day(day):
    staff.people(day)
    staff.puzzles(day)
    for of in day.rounds:
        sheet = of.sheet().replace('"Round 3"', f'"{TITLE}"')
        Path(f"{day.room.room}/{of.id}.toml").write_text(sheet, encoding="ascii")
        day.run("dora", "round", "put", of.id, f"{of.id}.toml")
    for of in day.rounds[:DRAFT]:
        day.run("dora", "--yes", "round", "release", of.id, "--sheet", f"{of.id}.toml")
    for of in day.rounds[:TO_COME]:
        staff.play(day, of)
        staff.protest(day, of) if of.number == PUBLISHED else protest_alone(day, of)
    staff.publish(day, day.rounds[PUBLISHED])
    day.room.at(day.rounds[TO_COME].start - 60)
    Path(f"{day.room.room}/names.csv").write_text(NAMES, encoding="utf-8")
    write(day)


def protest_alone(day, of):
    """Protests on which nobody rules."""
    day.room.at(of.end)
    for entrant, token, number, text, *_ in staff_day.protests(of, day.chance):
        day.room.ask(day.keys[entrant], "PUT", f"/rounds/{of.id}/protests/{token}",
                     compact({"number": number, "text": text}))


def write(day, who="dora", folder="results", **how):
    words = ["--title", "Spring Open", "--address", ADDRESS, "--names", "names.csv"]
    return day.run(who, "site", folder, *words, **how)


def files_of(day, folder="results"):
    at = Path(f"{day.room.room}/{folder}")
    return {str(it.relative_to(at)): it.read_text(encoding="utf-8") for it in at.rglob("*") if it.is_file()}


def pages_of(day):
    return {name: Page(text) for name, text in files_of(day).items() if name.endswith(".html")}


def test_the_files(day):
    files = files_of(day)
    wanted = ["feed.xml", "index.html", "r1/index.html", "r2/index.html", "r3/index.html", "ranking.html",
              "results.json", "rules.html", "style.css"]
    check("the files", sorted(files), wanted)
    beside = sorted(it.name for it in Path(day.room.room).iterdir() if "results" in it.name)
    check("nothing is left beside", beside, ["results"])
    modes = {oct(it.stat().st_mode & 0o777) for it in Path(f"{day.room.room}/results").rglob("*")}
    check("anyone may read them", modes, {"0o644", "0o755"})
    check("no script", [name for name, text in files.items() if re.search(r"<script|javascript:| on\w+=", text)], [])


def test_pages_are_html_without_a_fault(day):
    for name, page in pages_of(day).items():
        check(f"{name}, its faults", page.faults, [])
        check(f"{name}, what each page has once", [page.count(it) for it in ("html", "head", "body", "main", "title",
                                                                             "h1")], [1] * 6)
        check(f"{name}, its policy", page.count("meta", **{"http-equiv": "Content-Security-Policy"}), 1)
        unnamed = [attrs for tag, attrs in page.tags if tag == "svg" and not attrs.get("aria-label")]
        check(f"{name}, boards without words", unnamed, [])


def test_links_lead_somewhere(day):
    files = files_of(day)
    for name, page in pages_of(day).items():
        links = [it for it in page.links if not it.startswith("data:")]
        found = [urllib.parse.urldefrag(urllib.parse.urljoin(name, it)) for it in links]
        lost = [it for it in found if it.url not in files or it.fragment and f'id="{it.fragment}"' not in files[it.url]]
        check(f"{name} leads nowhere by", lost, [])
        check(f"{name} leads to others", len(set(found)) > 4, True)


def test_a_published_round(day):
    of, page = day.rounds[PUBLISHED], pages_of(day)["r1/index.html"]
    told = day.data(None, "table", of.id)
    data = json.loads(files_of(day)["results.json"])
    check("the table as JSON", data["rounds"][PUBLISHED]["table"], told)
    rows = re.findall(r"<tr>(.*?)</tr>", files_of(day)["r1/index.html"])[1:]
    cells = [[Page(it).text() for it in re.findall("<td.*?</td>", row)] for row in rows]
    spoken = {"entrant-1": ["Žofie <Nováková> entrant-1", "CZ"]}
    check("the table", cells, [[str(it["rank"]), *spoken.get(it["name"], [it["name"], ""]), str(it["total"])]
                               for it in told])
    check("two boards of each puzzle", page.count("svg"), 2 * of.count)
    for at, (_, _, text, solution, points) in enumerate(of.puzzles):
        it = data["rounds"][PUBLISHED]["puzzles"][at]
        check(f"puzzle {at + 1}", [it["text"], it["solution"], it["points"]], [text, solution, points])
        holds_board(files_of(day)["r1/index.html"], text, solution)


def holds_board(page, text, solution):
    """The page has the board of the solution, with so many marks as it has."""
    kind = text.split("/")[0]
    drawn = next(it for it in re.findall("<svg.*?</svg>", page, re.S)
                 if it == board(text, re.search('aria-label="(.*?)"', it)[1], solution))
    counts = {"nurikabe": (drawn.count('class="wall"'), solution.count("#")),
              "slither": (len(re.findall(r"[hv]40", drawn)), solution.count("1")),
              "sudoku": (len(re.findall("<text", drawn)), len(solution))}
    check(f"what is drawn of {text}", *counts[kind])


def test_the_booklet(day):
    """A round that is to come: its kinds, sizes and points, what is reckoned, and the rules of its kinds."""
    of, page = day.rounds[TO_COME], pages_of(day)["r3/index.html"]
    text = page.text()
    check("its title", TITLE in text, True)
    for at, (_, _, body, _, points) in enumerate(of.puzzles):
        kind, cols, rows = body.split("/")[:3]
        check(f"puzzle {at + 1}", f"{at + 1} {KINDS[kind].name} {cols} × {rows} {points}" in text, True)
    for words in ("Start Sat 02 May 2026, 15:00 CEST (13:00 UTC)", "Protests until", "Penalty 10 points"):
        check(words, words in text, True)
    check("a bonus of nothing", "Bonus" in text, False)
    kinds = {it[2].split("/")[0] for it in of.puzzles}
    check("the rules of its kinds", page.count("svg"), 2 * len(kinds))


def test_nothing_is_told_too_early(day):
    """No text, solution, answer, protest, key or name of what isn't published is in any file."""
    everything = "\n".join(files_of(day).values())
    read = urllib.parse.unquote(everything)
    secret = {"text": [it[2] for of in day.rounds[OVER:] for it in of.puzzles],
              "body": [it[2].split("/", 3)[3] for of in day.rounds[OVER:] for it in of.puzzles],
              "solution": [it[3] for of in day.rounds[OVER:] for it in of.puzzles]}
    right = {it[3] for it in day.rounds[PUBLISHED].puzzles}
    for of in day.rounds[:TO_COME]:
        secret[f"answer of {of.id}"] = [it["answer"] for it in day.data("dora", "answers", of.id, "--texts")
                                        if it["answer"] not in right]
        secret[f"protest of {of.id}"] = [it["text"] for it in day.data("dora", "protests", of.id)]
    secret["key"] = list(day.keys.values())
    for name, texts in secret.items():
        check(f"there is some {name}", bool(texts), True)
        check(f"each {name}", [it for it in texts if it in read], [])
    shown = {it["name"] for it in day.data(None, "table", "r1")}
    names = [*(set(day.keys) - shown), "Rex Secret", "crowd-1", "r4", "Round 4", "protest-0",
             *[it[1] for of in day.rounds for it in of.puzzles]]
    check("each name", [it for it in names if re.search(rf"(?<![\w-]){re.escape(it)}(?![\w-])", read)], [])
    check("boards of what isn't published", pages_of(day)["r2/index.html"].text().count("Solution"), 0)


def test_a_board_of_what_is_secret_is_nowhere(day):
    everything = "\n".join(files_of(day).values())
    for of in day.rounds[OVER:]:
        for it in of.puzzles:
            inside = re.sub("<svg.*?>", "", board(it[2], "x"), count=1)
            check(f"the board of {it[1]}", inside in everything, False)


def test_the_ranking(day):
    data = json.loads(files_of(day)["results.json"])
    told = day.data(None, "ranking", "r1")
    check("the ranking", [[it[name] for name in ("rank", "name", "total")] for it in data["ranking"]],
          [[it[name] for name in ("rank", "name", "total")] for it in told])
    text = pages_of(day)["ranking.html"].text()
    check("it is shown", f"{told[0]['rank']} {told[0]['name']}" in text, True)


def test_the_feed(day):
    channel = xml.fromstring(files_of(day)["feed.xml"].encode()).find("channel")
    check("its version", xml.fromstring(files_of(day)["feed.xml"].encode()).get("version"), "2.0")
    check("what a channel must have", [bool(channel.findtext(it)) for it in ("title", "link", "description")],
          [True] * 3)
    items = channel.findall("item")
    check("its entries", [it.findtext("title") for it in items],
          [f"{TITLE} is announced", "Round 2 is announced", "Round 1 is published"])
    links = [it.findtext("link") for it in items]
    check("each leads to a page", [it.removeprefix(ADDRESS) in files_of(day) for it in links], [True] * 3)
    check("each is told once", len({it.findtext("guid") for it in items}), 3)
    check("the winner", items[2].findtext("description").startswith("1 entrant-"), True)


def test_it_is_written_anew_and_whole(day):
    before = files_of(day)
    inode = Path(f"{day.room.room}/results").stat().st_ino
    write(day, has=["results: rounds announced 2, published 1, files 9"])
    check("the same again", files_of(day), before)
    check("in a new folder", Path(f"{day.room.room}/results").stat().st_ino != inode, True)
    write(day, folder="with-other-files", has=["files 9"])
    Path(f"{day.room.room}/mine").mkdir()
    Path(f"{day.room.room}/mine/letter").write_text("dear", encoding="ascii")
    write(day, folder="mine", status=2, has=["is no site that hallctl wrote"])
    check("a folder of others stays", files_of(day, "mine"), {"letter": "dear"})
    day.run("dora", "site", "results", "r9", status=2, has=["there is no released round r9"])
    day.run("dora", "site", "results", "r4", status=2, has=["there is no released round r4"])


def test_where_the_hall_is_away(day):
    """The site stays as it was, and nothing of the new one is left."""
    before = files_of(day)
    day.room.between.plan = ["pass", "pass"] + [day.room.between.DOWN[0] + day.room.between.DOWN[1]] * 20
    day.run("dora", "--patience", "1", "site", "results", status=3)
    day.room.between.plan = []
    check("the site before", files_of(day), before)
    check("nothing is left beside", [it.name for it in Path(day.room.room).glob(".results*")], [])


def test_what_a_key_may_not_read(day):
    """An author's key reads no round: what is left is what a listing and the tables tell."""
    got = write(day, "author-1", "of-an-author")
    day.holds("what is left out", got[2], "/rounds/r1 is left out: denied 2", "/rounds/r3 is left out: denied 2")
    rounds = json.loads(files_of(day, "of-an-author")["results.json"])["rounds"]
    check("rounds with puzzles", [it["id"] for it in rounds if "puzzles" in it], [])
    check("tables", [it["id"] for it in rounds if "table" in it], ["r1"])
    got = write(day, "entrant-1", "of-an-entrant")
    day.holds("what is left out", got[2], "/rounds/r3 is left out: denied 7")
    rounds = json.loads(files_of(day, "of-an-entrant")["results.json"])["rounds"]
    check("rounds with puzzles", [it["id"] for it in rounds if "puzzles" in it], ["r1", "r2"])


def test_the_examples_are_right(program):
    """Each example of the rules has the one solution that is drawn beside it."""
    for name, of in KINDS.items():
        told = subprocess.run([program, "solve"], input=of.text, capture_output=True, text=True, check=False).stdout
        check(f"the example of {name}", told.split(), ["one", of.solution])


# --- who serves it


@contextlib.contextmanager
def file_server(room):
    """What hall-results.service runs, over this folder."""
    unit = Path(f"{proxies.HERE}/hall-results.service").read_text(encoding="ascii")
    words = re.search(r"^ExecStart=(.*)$", unit, re.M)[1].split()
    port = free_port()
    placed = {"8079": str(port), "/var/www/hall": room, "/usr/bin/python3": sys.executable}
    with subprocess.Popen([placed.get(it, it) for it in words], stderr=subprocess.DEVNULL) as server:
        try:
            connected(server, port).close()
            yield port
        finally:
            server.kill()


def asked(port, path, method="GET"):
    """The status of a request, its reply's kind and body."""
    words = ["curl", "-s", "-X", method, "-w", "\n%{http_code}|%{content_type}|%{redirect_url}"]
    told = subprocess.run([*words, f"http://127.0.0.1:{port}{path}"], capture_output=True, text=True, check=False)
    body, _, rest = told.stdout.rpartition("\n")
    return [*rest.split("|"), body]


def often(port, path):
    """The statuses of more requests than a proxy lets an address without a key make."""
    line, found = http.client.HTTPConnection("127.0.0.1", port, timeout=60), set()
    for _ in range(400):
        line.request("GET", path)
        reply = line.getresponse()
        reply.read()
        found.add(reply.status)
    line.close()
    return found


@pytest.mark.parametrize("path", [proxies.HAPROXY, proxies.NGINX])
def test_the_proxies_serve_it(day, path):
    if not Path(path).exists():
        pytest.skip(f"{path} isn't there")
    room, front, files = day.room.room, free_port(), files_of(day)
    Path(room).chmod(0o755)
    with file_server(room) as port:
        def change(text):
            return text.replace("127.0.0.1:8079", f"127.0.0.1:{port}").replace("/var/www/hall;", f"{room};")
        with proxies.KINDS[path].start(front, day.room.port, room, change=change) as proxy:
            try:
                connected(proxy, front).close()
                for name, kind in (("", "text/html"), ("index.html", "text/html"), ("r1/", "text/html"),
                                   ("style.css", "text/css"), ("results.json", "application/json")):
                    status, told, _, body = asked(front, f"/results/{name}")
                    wanted = files[f"{name}index.html" if name in ("", "r1/") else name]
                    check(f"/results/{name}", [status, told.split(";")[0], body], ["200", kind, wanted])
                check("spectators aren't counted", often(front, "/results/style.css"), {200})
                check("/results", asked(front, "/results")[::2], ["301", f"http://127.0.0.1:{front}/results/"])
                check("a page that isn't there", asked(front, "/results/r9/index.html")[0], "404")
                check("the hall beside it", asked(front, "/rounds")[3], '{"denied":1}')
                check("nothing but the folder", asked(front, "/results/../people.csv", "GET")[0] == "200", False)
            finally:
                proxy.terminate()
                time.sleep(0.2)
                proxy.kill()
