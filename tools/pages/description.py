"""The description of the hall's requests and replies as OpenAPI 3.1 has it: docs/openapi.json.

A module for tools/pages/codes.py. Routes, rules and sentences are handed over by it. Which members a body or a reply
has is read from the code that reads or writes it, and their types and limits from the types of that code.
"""
import re

from sources import comment_above, read, sentence, variants

REPLY, ROW, BODY = (f"crates/hall_http/src/{name}.rt" for name in ("reply", "row", "body"))
REQUEST, TOLD = "crates/hall_http/src/request.rt", "crates/hall_desk/src/reply.rt"
# The rows of a listing of answers, which are told one at a time.
LINES = "crates/hall_desk/src/lines.rt"
TEXTS, NUMBERS, ACTIONS = (f"crates/hall_policy/src/{name}.rt" for name in ("text", "number", "request"))
BYTES = {"Word": "[a-z0-9-]", "Letters": "[A-Za-z0-9-]", "Printable": "[ -~]"}
PARAMETERS = {"author": "Name", "entrant": "Name", "label": "Label", "round": "RoundId", "token": "Token",
              "number": "PuzzleNumber"}
# What an entry list and a round sheet are: their type, page and codes of form.
TEXTUAL = {
    "people": ("text/csv", "An entry list: docs/USING.md tells its form.", ("F1", "F2", "F3", "F4")),
    "round": ("application/toml", "A round sheet: docs/USING.md tells its form.", ("F1", "F2", "F3", "F4", "F5", "F8")),
}


def ref(name):
    return {"$ref": f"#/components/schemas/{name}"}


def exact(properties, required=None):
    """The schema of an object with these members and no others, all of them required or some."""
    return {"type": "object", "properties": properties,
            "required": list(properties) if required is None else required, "additionalProperties": False}


def commented(path, pattern):
    """What a pattern finds in the lines of a source, each with the sentence above it."""
    lines = read(path).split("\n")
    for at, line in enumerate(lines):
        if found := re.match(pattern, line):
            yield found, sentence(" ".join(comment_above(lines, at, "///")))


def limited():
    """The schemas of the checked texts and numbers."""
    for found, told in commented(TEXTS, r"pub type (\w+) = Checked<TextOf<\w+, (\w+), (\d+), (\d+)>>;"):
        name, kind, least, most = found.groups()
        yield name, {"type": "string", "pattern": f"^{BYTES[kind]}{{{least},{most}}}$", "description": told}
    constants = dict(re.findall(r"^(?:pub )?const (\w+): u64 = ([\d_]+);", read(NUMBERS), re.M))
    for found, told in commented(NUMBERS, r"pub type (\w+) = Within<(\w+), (\w+)>;"):
        name, *ends = found.groups()
        least, most = (int(constants.get(end, end)) for end in ends)
        yield name, {"type": "integer", "minimum": least, "maximum": most, "description": told}
    for found, told in commented(NUMBERS, r"pub struct (RulingPoints)\b"):
        least, most = (int(it.replace(",", "")) for it in re.findall(r"-?[\d,]*\d", told))
        yield found[1], {"type": "integer", "minimum": least, "maximum": most, "description": told}


def block(path, head):
    """The lines of the item that begins so, to its closing brace."""
    return re.search(rf"^{head}.*?^\}}", read(path), re.M | re.S)[0]


def words(function):
    """The texts that a function gives, one for each case."""
    return re.findall(r'=> "(.*?)"', block(ROW, rf"fn {function}\("))


def enums(names):
    """The schemas of what is one of a few texts; `names` are those of the broken rules."""
    state = {"type": "string", "enum": words("state_text")}
    yield "StateName", {**state, "description": "What is known of a puzzle's solutions."}
    yield "Mode", {"type": "string", "enum": words("mode_text"), "description": "Whether verdicts are told at once."}
    yield "Ruling", {"type": "string", "enum": words("ruling_text"), "description": "How a protest stands."}
    pattern = f"^(right|wrong( ({'|'.join(names)}))+)$"
    yield "Broken", {"type": "string", "pattern": pattern, "description": "A verdict: the names of the broken rules."}


def fields(text):
    """The fields of a struct or of a variant, each with its type."""
    found = dict(re.findall(r"^\s+(?:pub )?(\w+): ([\w<>]+),", text, re.M))
    if found.pop("key", None):
        found |= {"author": "Name", "label": "Label"}
    return found


def typed(kind):
    """The schema of a type of the code."""
    if found := re.fullmatch(r"(Rows|Option)<(\w+)>", kind):
        return {"type": "array", "items": ref(found[2])} if found[1] == "Rows" else ref(found[2])
    return {"u64": {"type": "integer", "minimum": 0}, "bool": {"type": "boolean"}}.get(kind) or ref(kind)


def members(text):
    """The members of each JSON object that the code tells, each with the expression of its value."""
    told = {}
    for call, rest in re.findall(r"(\w+)_at\((?:alloc, )?(?:told, )?(.*?)\)\?;", text, re.S):
        found = re.fullmatch(r'"(\w+)", (.*)', rest, re.S)
        name, value = found.groups() if found else (call, rest)
        told[name] = "ruling_points" if call == "points" else value
    if told:
        yield told
        if "end_with_verdict(" in text:
            yield {**told, "verdict": "verdict"}


def type_of(name, value, types):
    """The type of a member: that of the field of its name, or of what its value is made of."""
    if "ruling_points" in value:
        return "RulingPoints"
    return types.get(name) or types[re.search(r"\w+", value)[0]]


def object_of(objects, types):
    """The schema of the JSON objects: what stands in all of them is required."""
    every = {name: value for one in objects for name, value in one.items()}
    schema = {name: typed(type_of(name, value, types)) for name, value in every.items()}
    return exact(schema, [it for it in every if all(it in one for one in objects)])


def rows():
    """The schemas of the rows of listings."""
    told = {name: block(ROW, f"impl Row for {name} ") for name in re.findall(r"^impl Row for (\w+)", read(ROW), re.M)}
    for name, text in {**told, "AnswerLine": block(LINES, r"fn tell_answer\(")}.items():
        if objects := list(members(text)):
            yield name, object_of(objects, fields(block(TOLD, f"pub struct {name} ")))


class Every:
    """The one type of all members."""

    def __init__(self, kind):
        self.kind = kind

    def get(self, _):
        return self.kind


def replies():
    """The schema of the JSON reply to each action."""
    told, written = block(TOLD, "pub enum Reply "), read(REPLY)
    for action, function in re.findall(r"Reply::(\w+)(?:\(\w+\)| \{[^}]*\}) => (tell_\w+)\(", written):
        if action == "Denied":
            continue
        kind = re.search(rf"^    {action}(?:\(([^\n]*)\),| \{{(.*?)^    \}},)", told, re.M | re.S)
        types = Every(kind[1]) if kind[1] else fields(kind[2])
        if kind[1] and f"pub struct {kind[1]} " in read(TOLD):
            types = fields(block(TOLD, f"pub struct {kind[1]} "))
        yield action, object_of(list(members(block(REPLY, rf"fn {function}\("))), types)
    answers = re.search(r'told\.name\("(\w+)"\)', block(LINES, r"fn open_answers\("))[1]
    yield "Answers", exact({answers: typed("Rows<AnswerLine>")})


def body_types(name):
    """The types of a body's members, in the order in which they are read."""
    function = block(BODY, rf"fn {name}_among\(")
    given = re.search(r"-> Result<\(?(.*?)\)?, RequestFault>", function)[1].split(", ")
    asked = re.findall(r'(text|integer|flag)_at\(members, "(\w+)"', function)
    given = ["RulingPoints", "bool"] if given == ["Ruling"] else given
    return {member: kind for (_, member), kind in zip(asked, given, strict=True)}


def bodies():
    """The schema of each JSON body, by what it is."""
    for name in re.findall(r"fn read_(\w+)\(\s*alloc: Global,\s*body", read(BODY)):
        if name != "object":
            types = body_types(name)
            yield name, exact({it: typed(kind) for it, kind in types.items()})


def bodies_asked():
    """What the body of each action is, where it is looked at."""
    functions = dict(re.findall(r"^(?:pub\(crate\) )?fn (\w+)\((.*?^\})", read(REQUEST), re.M | re.S))
    for text in functions.values():
        for name, behind in re.findall(r"read_(\w+)\(alloc, body\)\?;(.*?)(?=read_|\Z)", text, re.S):
            called = next((functions[it] for it in re.findall(r"\b(\w+_of)\(", behind) if it in functions), "")
            action = re.search(r"Action::(\w+)", behind + called)
            yield action[1], name


def denied(codes):
    return exact({"denied": {"type": "integer", "enum": codes}})


def fault(by, *forms):
    """A fault that isn't the request's; a proxy may add the code of a request that is none."""
    told = {"form": {"type": "string", "enum": list(forms)}} if forms else {}
    return exact({"fault": {"type": "string", "enum": [by]}, **told}, ["fault"])


def form(codes, **others):
    return exact({"form": {"type": "string", "enum": codes}, **others})


def field_names(name):
    """The fields that a fault of this body may name."""
    if name in TEXTUAL:
        found = read("crates/hall_sheet/src/fault.rt")
        return sorted(set(re.findall(r'=> "(\w+)"', found)))
    return list(body_types(name))


def faults_of_form(name, texts):
    """The schemas of the replies to a body that is none; `name` says what the body is, `texts` has the codes of puzzle
    texts."""
    codes = TEXTUAL[name][2] if name in TEXTUAL else ("F1", "F2", "F3") if name else ()
    plain = [it for it in codes if it not in ("F2", "F3", "F8")]
    yield form([*plain, "F7"])
    if name:
        yield form([it for it in codes if it not in plain], field={"type": "string", "enum": field_names(name)})
    if name == "text":
        yield form([it for it, told in texts.items() if not told["placed"]])
        yield form([it for it, told in texts.items() if told["placed"]], place={"type": "integer", "minimum": 0})


def json_reply(told, *schemas):
    schema = schemas[0] if len(schemas) == 1 else {"oneOf": list(schemas)}
    return {"description": told, "content": {"application/json": {"schema": schema}}}


def responses(action, rules, name, codes):
    """The replies to an action, by their statuses."""
    others = [it for it in rules if it != 4]
    gone = [form(["F6"]), *([denied([4])] if 4 in rules else [])]
    table = {"description": "The table.", "content": {"text/plain": {"schema": ref("TableText")}}}
    proxy = ref("ProxyFault")
    return {
        "200": table if action == "Table" else json_reply("Done, or done before.", ref(f"{action}Reply")),
        "400": json_reply("The bytes are no request.", *faults_of_form(name, codes["texts"]), proxy),
        "403": json_reply("A rule forbids it, or the proxy.", *([denied(others)] if others else []), proxy),
        "404": json_reply("What is named isn't there.", *gone),
        "503": json_reply(codes["faults"]["hall"]["sentence"], ref("Fault"), proxy),
        **{status: {"$ref": "#/components/responses/Proxy"} for status, told in codes["statuses"].items()
           if told["by"].endswith(" proxy") and told["by"] != "the hall, or the proxy"},
    }


def request_body(name):
    if name in TEXTUAL:
        media, told, _ = TEXTUAL[name]
        return {"description": told, "required": True, "content": {media: {"schema": {"type": "string"}}}}
    return {"required": True, "content": {"application/json": {"schema": ref(f"{name.capitalize()}Body")}}}


def operation(route, told, name, codes):
    """An action at its route; `name` says what its body is."""
    place, action, of, rules = route
    asked = [int(it) for it in rules.split(", ")]
    given = [{"$ref": f"#/components/parameters/{it}"} for it in re.findall(r"\{(\w+)\}", place)]
    return {
        "operationId": action[0].lower() + action[1:], "summary": told,
        "description": f"For: {of}. The rules asked, in their order: {rules}.",
        **({"parameters": given} if given else {}),
        **({"requestBody": request_body(name)} if name else {}),
        **({"security": [{}, {"key": []}]} if action == "Table" else {}),
        "responses": responses(action, asked, name, codes),
    }


def paths(routes, codes):
    told, bodies_of, found = dict(variants(ACTIONS, "Action")), dict(bodies_asked()), {}
    for route in routes:
        method, path = route[0].strip("`").split(" ")
        name = bodies_of.get(route[1])
        found.setdefault(path, {})[method.lower()] = operation(route, sentence(told[route[1]]), name, codes)
    return found


def schemas(codes):
    table = r"^( *\d+ [a-z0-9-]+ *-?\d+\n)*$"
    return {
        **dict(limited()), **dict(enums(codes["names"])), **dict(rows()),
        **{f"{name}Reply": schema for name, schema in replies()},
        **{f"{name.capitalize()}Body": schema for name, schema in bodies()},
        "TableText": {"type": "string", "pattern": table,
                      "description": "Rank, name and total of each entrant, a line each."},
        **{name: fault(*told) for name, told in {"Fault": ("hall",), "ProxyFault": ("proxy", "F7")}.items()},
    }


def description(routes, codes):
    """The description: the routes as the page has them, and the codes as codes.json has them."""
    return {
        "openapi": "3.1.0",
        "info": {"title": "The contest hall", "version": "2",
                 "description": "Timed rounds of Sudoku, Slitherlink and Nurikabe. docs/HTTP.md tells the same in"
                                " words; codes.json has the codes."},
        "servers": [{"url": "http://127.0.0.1:8080"}],
        "security": [{"key": []}],
        "paths": paths(routes, codes),
        "components": {
            "securitySchemes": {"key": {"type": "apiKey", "in": "header", "name": "Hall-Key"}},
            "parameters": {name: {"name": name, "in": "path", "required": True, "schema": ref(kind)}
                           for name, kind in PARAMETERS.items()},
            "responses": {"Proxy": {"description": codes["faults"]["proxy"]["sentence"],
                                    "content": {"application/json": {"schema": ref("ProxyFault")},
                                                "text/html": {"schema": {"type": "string"}}}}},
            "schemas": schemas(codes),
        },
    }
