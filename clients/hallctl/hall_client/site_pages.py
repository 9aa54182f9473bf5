"""The pages of the static site, made of what site.py says is told and of nothing else."""
import datetime

from .kinds import KINDS
from .markup import joined, tag
from .printing import counted
from .svg import board

ICON = ("data:image/svg+xml,%3Csvg xmlns='http://www.w3.org/2000/svg' viewBox='0 0 3 3'%3E%3Cpath fill='%23357'"
        " d='M0 0h1v1H0zM2 0h1v1H2zM1 1h1v1H1zM0 2h1v1H0zM2 2h1v1H2z'/%3E%3C/svg%3E")
# Nothing is loaded but the stylesheet, and no script runs.
POLICY = "default-src 'none'; style-src 'self'; img-src data:; base-uri 'none'; form-action 'none'"
MODES = {"instant": "Each verdict is told at once.", "sealed": "Verdicts are told after the end."}
# So many lines of a table stand on the first page.
FIRST = 3


def moment(seconds):
    """A moment in the zone of this machine, and in UTC."""
    utc = datetime.datetime.fromtimestamp(seconds, datetime.timezone.utc)
    here = utc.astimezone()
    day = "%a %H:%M UTC" if here.date() != utc.date() else "%H:%M UTC"
    beside = f" ({utc.strftime(day)})" if here.utcoffset() else ""
    text = here.strftime("%a %d %b %Y, %H:%M ") + (here.tzname() if beside else "UTC") + beside
    return tag("time", text, datetime=utc.strftime("%Y-%m-%dT%H:%M:%SZ"))


def table(label, head, rows, **attributes):
    """A table, which scrolls where it is too wide. Columns of numbers stand right; some of a ranking's are empty."""
    kinds = ["n" if any(isinstance(row[at], int) for row in rows) else None for at in range(len(head))]
    lines = [tag("tr", [tag("td", it, class_=kind) for it, kind in zip(row, kinds)]) for row in rows]
    titles = tag("tr", [tag("th", it, scope="col", class_=kind) for it, kind in zip(head, kinds)])
    return tag("div", tag("table", tag("thead", titles), tag("tbody", lines), **attributes), class_="wide",
               tabindex=0, role="region", aria_label=label)


class Site:
    """The pages; `up` is the way from a page to the folder."""

    def __init__(self, data):
        self.data, self.rounds, self.names = data, data["rounds"], data["names"]
        self.announced = [of for of in self.rounds if not of["published"]]
        self.published = [of for of in self.rounds if of["published"]]

    def page(self, title, up, *inside):
        whole = title if title == self.data["title"] else f"{title} · {self.data['title']}"
        links = [("index.html", "Rounds"), ("ranking.html", "Ranking"), ("rules.html", "Rules")]
        head = tag("head", tag("meta", charset="utf-8"),
                   tag("meta", name="viewport", content="width=device-width, initial-scale=1"),
                   tag("meta", name="color-scheme", content="light dark"),
                   tag("meta", name="referrer", content="no-referrer"),
                   tag("meta", http_equiv="Content-Security-Policy", content=POLICY),
                   tag("title", whole), tag("link", rel="icon", href=ICON),
                   tag("link", rel="stylesheet", href=f"{up}style.css"),
                   tag("link", rel="alternate", type="application/rss+xml", title=self.data["title"],
                       href=f"{up}feed.xml"))
        top = tag("header", tag("a", self.data["title"], class_="home", href=f"{up}index.html"),
                  tag("nav", [tag("a", name, href=up + place) for place, name in links]), class_="top")
        foot = tag("footer", "Written by hallctl of what the hall tells. ",
                   tag("a", "Results as JSON", href=f"{up}results.json"), " · ",
                   tag("a", "RSS", href=f"{up}feed.xml"))
        body = tag("body", top, tag("main", tag("h1", title), inside), foot)
        return f"<!doctype html>\n{tag('html', head, body, lang='en')}\n"

    # --- people

    def person(self, name):
        """What a table shows of a person: the spoken name where it is known, and the one of the hall."""
        told = self.names.get(name, {})
        if not told.get("spoken"):
            return tag("span", name)
        return joined([told["spoken"], " ", tag("small", name)])

    def columns_of(self, name):
        """The same in columns: with the country, where names are known."""
        return [self.person(name), *([self.names.get(name, {}).get("country", "")] if self.names else [])]

    def head(self):
        return ["Name", *(["Country"] if self.names else [])]

    # --- rounds

    def card(self, of):
        link = tag("a", of["title"], href=f"{of['id']}/index.html")
        top = [tag("li", self.person(it["name"]), " ", tag("b", it["total"]), value=it["rank"])
               for it in of.get("table", [])[:FIRST]]
        return tag("article", tag("h3", link), tag("p", moment(of["start"]), " · ", counted(of["minutes"], "minute")),
                   tag("p", sizes(of), class_="small") if "puzzles" in of else None,
                   tag("ol", top) if top else None, class_="card")

    def index(self):
        groups = [("Announced", self.announced), ("Results", self.published[::-1])]
        parts = [[tag("h2", name), tag("div", [self.card(of) for of in rounds], class_="cards")]
                 for name, rounds in groups if rounds]
        return self.page(self.data["title"], "", parts or tag("p", "No round is announced yet.", class_="lead"))

    def round(self, of):
        inside = self.results(of) if of["published"] else booklet(of)
        return self.page(of["title"], "../", terms(of), inside)

    def results(self, of):
        """The table of a published round, and its puzzles with their solutions."""
        rows = [[it["rank"], *self.columns_of(it["name"]), it["total"]] for it in of["table"]]
        yield [tag("h2", "Table"), table("Table", ["Rank", *self.head(), "Points"], rows) if rows else
               tag("p", "Nobody handed in an answer.")]
        if "puzzles" in of:
            yield [tag("h2", "Puzzles and solutions"), [shown(it) for it in of["puzzles"]]]

    # --- the ranking, the rules

    def ranking(self):
        if not self.published:
            return self.page("Ranking", "", tag("p", "No table is published yet.", class_="lead"))
        head = ["Rank", *self.head(), "Sum", *[of["title"] for of in self.published]]
        rows = [[it["rank"], *self.columns_of(it["name"]), it["total"],
                 *[it["rounds"].get(of["id"], "") for of in self.published]] for it in self.data["ranking"]]
        words = f"The sum of {counted(len(self.published), 'published table')}. Equal sums have equal ranks."
        return self.page("Ranking", "", tag("p", words, class_="small"), table("Ranking", head, rows, class_="many"))

    def rules(self):
        return self.page("Rules", "", [rules_of(kind) for kind in KINDS], tag("h2", "Points", id="points"),
                         [tag("p", line) for line in POINTS])


POINTS = (
    "Where verdicts are told at once, the first right answer to a puzzle gives its points, and each wrong one before it"
    " costs the penalty. No puzzle gives less than 0.",
    "Where verdicts are told after the end, the last answer to a puzzle counts, and there is no penalty.",
    "Whoever has a right answer to every puzzle gets the bonus for each whole minute from the last of these answers to"
    " the end.",
    "Points of upheld protests are added. They may be below 0.",
)


def name_of(puzzle):
    kind = KINDS.get(puzzle["kind"])
    return kind.name if kind else puzzle["kind"]


def sizes(of):
    """What a round is made of, in a line."""
    counts = {}
    for it in of["puzzles"]:
        counts[name_of(it)] = counts.get(name_of(it), 0) + 1
    return ", ".join(f"{count} {name}" for name, count in counts.items())


def terms(of):
    """When a round is held, and what is reckoned in it."""
    lines = [("Start", moment(of["start"])), ("End", moment(of["end"]))]
    if "close" in of:
        lines += [("Protests until", moment(of["close"]))] if of["close"] > of["end"] else []
        if of["penalty"] and of["mode"] == "instant":
            lines.append(("Penalty", f"{counted(of['penalty'], 'point')} for each wrong answer"))
        if of["bonus"]:
            lines.append(("Bonus", f"{counted(of['bonus'], 'point')} for each whole minute left when all is right"))
    lines += [("Verdicts", MODES.get(of["mode"], of["mode"]))]
    return tag("dl", [[tag("dt", name), tag("dd", what)] for name, what in lines], class_="terms")


def booklet(of):
    """What is told of a round that isn't published: what its puzzles are, and not the puzzles."""
    if "puzzles" not in of:
        return
    rows = [[it["number"], name_of(it), f"{it['cols']} × {it['rows']}", it["points"]] for it in of["puzzles"]]
    total = f"{counted(len(rows), 'puzzle')}, {sum(it['points'] for it in of['puzzles'])} points in all."
    then = "The puzzles, their solutions and the table are shown here once the round is published."
    yield [tag("h2", "Puzzles"), table("Puzzles", ["No.", "Kind", "Size", "Points"], rows), tag("p", f"{total} {then}")]
    yield [tag("h2", "Rules"), [rules_of(kind) for kind in dict.fromkeys(it["kind"] for it in of["puzzles"])]]
    yield tag("p", tag("a", "How points are reckoned", href="../rules.html#points"))


def figure(text, words, caption, solution=None):
    return tag("figure", board(text, f"{caption}: {words}", solution), tag("figcaption", caption))


def shown(puzzle):
    """A published puzzle with its solution."""
    words = f"{name_of(puzzle)}, {puzzle['cols']} by {puzzle['rows']}"
    head = f"{puzzle['number']}. {name_of(puzzle)} · {puzzle['cols']} × {puzzle['rows']} · {puzzle['points']} points"
    pair = [figure(puzzle["text"], words, "Puzzle")]
    if puzzle["solution"]:
        pair.append(figure(puzzle["text"], words, "Solution", puzzle["solution"]))
    text = tag("details", tag("summary", "Its text"), tag("code", puzzle["text"]))
    size = next((name for least, name in ((30, " vast"), (20, " large")) if puzzle["cols"] > least), "")
    return tag("article", tag("h3", head), tag("div", pair, class_="pair"), text, class_=f"puzzle{size}")


def rules_of(kind):
    """The rules of a kind, with its example."""
    if kind not in KINDS:
        return None
    of = KINDS[kind]
    pair = [figure(of.text, of.name, "Example"), figure(of.text, of.name, "Its solution", of.solution)]
    return tag("article", tag("h3", of.name), [tag("p", line) for line in of.rules], tag("div", pair, class_="pair"),
               class_="rules")


def item(data, of):
    """An entry of the feed: a round that is announced, or that is published. The hall doesn't tell since when."""
    what = "is published" if of["published"] else "is announced"
    first = [f"{it['rank']} {it['name']} {it['total']}" for it in of.get("table", [])[:FIRST]]
    begins = datetime.datetime.fromtimestamp(of["start"], datetime.timezone.utc).strftime("%Y-%m-%d %H:%M UTC")
    to_come = f"It begins at {begins}, and takes {counted(of['minutes'], 'minute')}."
    words = "; ".join(first) if of["published"] else to_come
    return tag("item", tag("title", f"{of['title']} {what}"), tag("link", f"{data['address']}{of['id']}/index.html"),
               tag("guid", f"{data['address']}{of['id']} {what}", isPermaLink="false"), tag("description", words))


def feed(data):
    """The feed in RSS 2.0, the latest round first."""
    head = [tag("title", data["title"]), tag("link", f"{data['address']}index.html"),
            tag("description", f"Rounds of {data['title']}, as they are announced and published")]
    channel = tag("channel", head, [item(data, of) for of in data["rounds"][::-1]])
    return f'<?xml version="1.0" encoding="utf-8"?>\n{tag("rss", channel, version="2.0")}\n'


def pages(data):
    """Each page by its name."""
    of = Site(data)
    return {"index.html": of.index(), "ranking.html": of.ranking(), "rules.html": of.rules(), "feed.xml": feed(data),
            **{f"{it['id']}/index.html": of.round(it) for it in of.rounds}}
