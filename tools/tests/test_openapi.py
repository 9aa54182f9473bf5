"""docs/openapi.json: the description is whole, its schemas are schemas, and each reply of examples/rounds, of
examples/requests and of a day that hallctl holds is one that it describes.

What is sent and accepted must be a body that the description allows.
"""
import importlib
import importlib.util
import json
import re
from pathlib import Path

import pytest
from harness.checks import holds, tell
from harness.rows import Table
from harness.running import ROOT
from harness.staff import Day, the_day
from harness.wire import records, replies

jsonschema = pytest.importorskip("jsonschema", reason="python3-jsonschema isn't there")

EXAMPLES = Path(ROOT, "examples")
# The folders whose replays are looked at.
REPLAYED = ("rounds", "requests", "answers", "puzzles")
METHODS = ("get", "put", "post")


class Description:
    """The description."""

    def __init__(self, told):
        self.told, self.validators = told, {}
        self.routes = [(re.compile("^" + re.sub(r"\{(\w+)\}", r"(?P<\1>[^/]+)", path) + "$"), of)
                       for path, of in told["paths"].items()]

    def check(self, is_right, *what):
        holds(" ".join(map(str, what)), is_right)

    def resolved(self, of):
        """What is meant by a reference; what is none is itself."""
        found = self.told
        for name in of.get("$ref", "").split("/")[1:]:
            found = found[name]
        return found if "$ref" in of else of

    def written_out(self, of):
        """A schema with what it refers to in the place of the references. None refers to itself."""
        if isinstance(of, list):
            return [self.written_out(it) for it in of]
        if not isinstance(of, dict):
            return of
        return {name: self.written_out(it) for name, it in self.resolved(of).items()}

    def fits(self, schema, value):
        """Why the value isn't of the schema; nothing where it is."""
        key = json.dumps(schema)
        if key not in self.validators:
            self.validators[key] = jsonschema.Draft202012Validator(self.written_out(schema))
        return next((fault.message for fault in self.validators[key].iter_errors(value)), None)

    def operation(self, method, path):
        """The operation that serves the method and path, where their parameters are of their forms."""
        for pattern, served in self.routes:
            found = pattern.match(path)
            if found and method.lower() in served:
                return served[method.lower()] if self.are_of_form(found.groupdict()) else None
        return None

    def are_of_form(self, given):
        """Whether the parameters of a path are of their forms."""
        for name, text in given.items():
            schema = self.resolved(self.told["components"]["parameters"][name])["schema"]
            is_number = name == "number" and re.fullmatch("[1-9][0-9]*", text)
            if self.fits(schema, int(text) if is_number else text):
                return False
        return True

    def told_by(self, operation, status, text):
        """Why the description doesn't tell of such a reply; nothing where it does."""
        response = operation["responses"].get(str(status))
        if response is None:
            return f"status {status} isn't described"
        content = self.resolved(response)["content"]
        if status == 200 and "text/plain" in content:
            return self.fits(content["text/plain"]["schema"], text)
        return self.fits(content["application/json"]["schema"], json.loads(text))

    def exchange(self, where, method, path, body, status, text):
        """Checks a request and its reply. `body` is none where it isn't known."""
        operation = self.operation(method, path)
        if operation is None:
            is_told = (status, text) == (404, '{"form":"F6"}') or '"form":"F7"' in text
            self.check(is_told, where, method, path, "is no route, and got", status, text)
            return
        why = self.told_by(operation, status, text)
        self.check(why is None, where, method, path, status, text[:200], why)
        schema = operation.get("requestBody", {}).get("content", {}).get("application/json")
        if schema and status == 200 and body is not None:
            why = self.fits(schema["schema"], json.loads(body))
            self.check(why is None, where, method, path, "took a body that isn't described:", body[:200], why)


def found_under(key, value):
    """All that stands under the key in a value, at any depth."""
    if isinstance(value, dict):
        yield from ([value[key]] if key in value else [])
        for of in value.values():
            yield from found_under(key, of)
    elif isinstance(value, list):
        for of in value:
            yield from found_under(key, of)


def test_it_is_whole(description):
    """What OpenAPI asks of a description, as far as this one uses it."""
    told = description.told
    has_head = re.fullmatch(r"3\.1\.\d", told["openapi"]) and {"title", "version"} <= set(told["info"])
    description.check(has_head, "the head of the description")
    for it in sorted({it for it in found_under("$ref", told) if isinstance(it, str)}):
        try:
            description.resolved({"$ref": it})
            description.check(True)
        except KeyError as fault:
            description.check(False, f"{it} leads nowhere: {fault}")
    for schema in [*told["components"]["schemas"].values(), *found_under("schema", told)]:
        try:
            jsonschema.Draft202012Validator.check_schema(schema)
            description.check(True)
        except jsonschema.SchemaError as fault:
            description.check(False, f"{schema} is no schema: {fault.message}")
    operations = [(path, of[method]) for path, of in told["paths"].items() for method in METHODS if method in of]
    names = [of["operationId"] for _, of in operations]
    description.check(len(set(names)) == len(names) == 17, "the names of the operations", names)
    for path, of in operations:
        given = [description.resolved(it) for it in of.get("parameters", [])]
        names = [it["name"] for it in given if it["required"]]
        description.check(names == re.findall(r"\{(\w+)\}", path), path, given)


def parts_of(request):
    """Method, path and body of a request as it is sent; nothing where it is no whole one."""
    head, end, body = request.partition(b"\r\n\r\n")
    first = head.lstrip(b"\r\n").split(b"\r\n")[0].split(b" ")
    length = re.search(rb"^content-length: *(\d+)", head, re.M | re.I)
    if len(first) != 3 or not end or (int(length[1]) if length else 0) != len(body):
        return None
    return first[0].decode("latin-1"), first[1].decode("latin-1"), body.decode("utf-8", "replace")


def replayed(folder):
    """The requests and replies of the replays of a folder."""
    for asked in sorted(folder.glob("*.txt")):
        if asked.with_suffix(".args").read_text(encoding="ascii").startswith("replay"):
            told = replies(asked.with_suffix(".out").read_bytes())
            try:
                given = records(asked.read_bytes())
            except (TypeError, ValueError):
                continue
            for number, (record, reply) in enumerate(zip(given, told), 1):
                parts = parts_of(record.split(b"\n", 1)[1])
                head, _, body = reply.partition(b"\r\n\r\n")
                if parts:
                    yield f"{asked.name}, request {number}:", *parts, int(head.split()[1]), body.decode()


def tabled(folder):
    """The requests and replies of the tables of a folder."""
    for path in sorted(folder.glob("*.rows")):
        for row in Table(path).rows:
            _, *asked, status, text = row.cells
            if len(asked) == 1:
                parts = parts_of(asked[0])
            else:
                parts = *asked[1].decode("latin-1").split(" ", 1), asked[2].decode("utf-8", "replace")
            if parts:
                yield f"{row.place}:", *parts, int(status), text.decode()


def looked_at(description, name, exchanges):
    """Looks at requests and replies, of which there are to be some."""
    count = 0
    for count, exchange in enumerate(exchanges, 1):
        description.exchange(*exchange)
    tell(f"schemas: {count} replies of {name}")
    description.check(count > 20, f"only {count} replies of {name} were looked at")


@pytest.fixture
def description():
    return Description(json.loads(Path(ROOT, "docs/openapi.json").read_text(encoding="utf-8")))


# Another reader of such descriptions, where there is one; no Debian package has it.
if importlib.util.find_spec("openapi_spec_validator"):
    def test_another_reader_takes_it(description):
        importlib.import_module("openapi_spec_validator").validate(description.told)


@pytest.mark.parametrize("folder", REPLAYED)
def test_replays(description, folder):
    looked_at(description, folder, replayed(EXAMPLES / folder))


def test_tables(description):
    looked_at(description, "tables", tabled(EXAMPLES / "requests"))


def test_a_day_of_hallctl(description, program, room):
    """What the hall replies to hallctl on two rounds of its day."""
    day = Day(room, program, 2)
    try:
        the_day(day)
    finally:
        day.room.close()
    asked = enumerate(day.room.between.replies, 1)
    told = ((f"hallctl's day, request {n}:", *of[:2], None, *of[2:]) for n, of in asked)
    looked_at(description, "day", told)
