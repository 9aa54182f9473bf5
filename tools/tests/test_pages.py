"""What tools/pages/map.py prints of rules, codes, actions, columns and clients: each place is there, and what it should
be. And the pictures of the pages."""
import os
import re
import sys

import pytest
from harness.running import ROOT

sys.path.append(f"{ROOT}/tools/pages")
import beside  # noqa: E402
import codes  # noqa: E402
import map as named  # noqa: E402
from promises import PAGES  # noqa: E402
from sources import paths, read  # noqa: E402

NAMES = {
    "rules": [str(it) for it in codes.numbers().values()],
    "codes": [*codes.FAULTS, *(it[0].strip("`") for it in codes.names())],
    "actions": list(codes.asked()),
    "columns": [f"{table}.{it}" for table, of in named.columns() for it in of],
    "modules": [f"{it}.js" for it in beside.modules()],
    "commands": [it[0] for it in beside.commands()],
}
# What is printed of each of a sort, at the least.
ROWS = {
    "rules": {"said", "asked of", "looked up", "checked", "promised", "tested", "broken"},
    "codes": {"said", "tested"},
    "actions": {"said", "rules", "looked up", "checked", "read", "written", "named", "proved", "told", "tested"},
    "columns": {"made", "named", "statements"},
    "modules": {"told"},
    "commands": {"words", "made", "tested", "told"},
}
# All pictures together are smaller than this.
MOST_BYTES = 1_000_000


def wrong_places(lines):
    """The places that aren't there; a definition's line has its name, and so has a function's."""
    for line in lines:
        found = re.match(r"\s+(?:[a-z]+(?: [a-z]+)?\s+)?([\w./]+\.\w+):([\d, ]+)(.*)", line)
        for number in map(int, re.findall(r"\d+", found[2])) if found else ():
            with open(f"{ROOT}/{found[1]}", encoding="utf-8", errors="replace") as file:
                text = file.read().split("\n")
            name = re.match(r" ([\w']+): ", found[3])
            if number > len(text) or name and not re.search(rf"\b{name[1]}\b", text[number - 1]):
                yield line


@pytest.mark.parametrize("sort", NAMES)
def test_places(sort):
    assert len(NAMES[sort]) > 15
    for name in NAMES[sort]:
        lines = list(named.places_of(name))
        rows = {found[1] for it in lines if (found := re.match(r"  ([a-z]+(?: [a-z]+)?) ", it))}
        assert ROWS[sort] <= rows, (name, rows)
        assert not list(wrong_places(lines)), name


def test_files_of_a_column():
    """Also those that read a column and keep nothing, that write rows without its name, and that show it."""
    told = "\n".join(named.places_of("answers.moment"))
    for path in ("crates/hall_sql/src/counts.rt", "crates/hall_sql/src/bad_rows.rt", "crates/store_tests/src/rows.rt",
                 "tools/tests/harness/filled.py", "tools/tests/test_crowd.py", "bench/crowd.py", "bench/waits.py",
                 "examples/databases/breaches.toml", "docs/HTTP.md", "docs/openapi.json"):
        assert f" {path}:" in told, path


def test_places_of_an_action():
    """Code, definitions, proofs, examples, tests and clients, by its name and by its route."""
    told = "\n".join(named.places_of("Submit"))
    for path in ("crates/hall_desk/src/submit.rt", "crates/hall_http/src/request.rt", "crates/hall_policy/src/asked.rt",
                 "crates/hall_desk/specs/Step.antt", "crates/hall_desk/proofs/Authored.antt",
                 "crates/probe/src/policy.rt", "examples/rounds/round.sh", "tools/tests/test_stops.py",
                 "docs/HTTP.md", "docs/openapi.json",
                 "clients/page/page/letters.js", "crates/hall_desk/must-fail/sealed_reply_tells_verdict.edit"):
        assert f" {path}:" in told, path
    assert " clients/hallctl/hall_client/results.py:" in "\n".join(named.places_of("Publish"))


def test_places_of_a_view():
    """Its module, the address, the trials that go there, also by a function that does."""
    told = "\n".join(named.places_of("puzzleView"))
    assert told == "\n".join(named.places_of("view-puzzle"))
    for path in ("clients/page/page/view-puzzle.js", "clients/page/page/main.js", "tools/tests/page_tests/chromium.py",
                 "tools/tests/page_tests/slips.py", "clients/page/README.md"):
        assert f" {path}:" in told, path
    staff = list(named.places_of("authorView"))
    assert staff and staff == list(named.places_of("view-author")) == list(named.places_of("staff/view-author"))
    assert "module words of the page" in next(iter(named.places_of("words.js")))


def test_commands():
    """Those that hallctl has, and no others."""
    with open(f"{ROOT}/{beside.MANUAL}", encoding="utf-8") as file:
        table = file.read().partition("## Every command")[2]
    listed = re.findall(r"^\| (`.*?`) \|", table.partition("\n## ")[0].replace("\\|", "/"), re.M)
    told = {re.match(r"[a-z]+( [a-z]+)?", it)[0] for line in listed for it in re.findall(r"`(.*?)`", line)}
    assert told == {it[0] for it in beside.commands()}


def test_pictures():
    """Each is shown on a page, and all together are small. That those which are shown are there, the check of links
    sees."""
    pictures = paths("docs/pictures/*.png")
    pages = {read(path) for of in PAGES for path in paths(of) if os.path.isfile(f"{ROOT}/{path}")}
    shown = {name for text in pages for name in re.findall(r"pictures/(\w+\.png)", text)}
    assert {os.path.basename(it) for it in pictures} == shown
    assert sum(os.path.getsize(f"{ROOT}/{it}") for it in pictures) < MOST_BYTES


def test_codes_as_they_are_told():
    for told, name in (('{"denied":16}', "16"), ("denied 16", "16"), ('{"form":"F2","field":"key"}', "F2"),
                       ("refused F2 key", "F2"), ("refused E7 at place 0", "E7"), ("16", "16")):
        assert named.meant(told) == name
    assert named.meant("round_denied_at_start") == "round_denied_at_start"


def test_unknown_name():
    assert not list(named.places_of("no_such_name"))
