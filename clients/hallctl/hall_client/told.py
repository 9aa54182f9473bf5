"""The codes of the hall's replies in sentences, and what to do at each."""
import functools
import json
from pathlib import Path

DONE, OTHERWISE, REFUSED, FAULT, WRONG_WORDS = 0, 1, 2, 3, 64

STRANGER = "the answer isn't a hall's: see --url, and what stands between, as the login of a network"
DENIAL_ADVICE = {
    1: "See that the key file holds the key of the entry list, and that --url is the right hall.",
    2: "Ask with the key of a person who has the role: docs/HTTP.md says which role each route wants.",
    3: "An author asks for their own puzzles alone; a director for all.",
    4: "See the spelling: `hallctl round list` and `hallctl puzzle list` show what is there.",
    7: "Ask again from the start on.",
    9: "Ask again from the end on; a publication from the close on.",
    11: "Put the text under a new label, certify it, and name that label in the sheet.",
    12: "`hallctl puzzle list --lacking` shows which; `hallctl puzzle certify AUTHOR/LABEL` searches them.",
    13: "A released round stays as it is: make another one, under another id.",
    14: "Put the draft again with a start that is still to come.",
    15: "A table is there once the round is published; after that nothing is taken any more.",
    16: "`hallctl protests ROUND --open` shows them; a referee rules on each.",
    17: "Another referee must rule: one who has no answer in the round.",
    18: "A ruling is given once, and stands.",
    19: "Use a label that stands there already, or another author.",
    20: "A name keeps its key and roles for good. `hallctl check LIST` looks within the list alone.",
}


@functools.cache
def codes():
    """The codes as docs/codes.json has them."""
    return json.loads(Path(__file__).with_name("codes.json").read_text(encoding="utf-8"))


FORM_ADVICE = {
    "F6": "A name, a label or an id has 1 to 24 of a-z, 0-9 and the dash; see the words after the command.",
    "E2": "The hall knows sudoku, slither and nurikabe. Take the address that puzz.link shows, or KIND/COLS/ROWS/BODY.",
    "E3": "Behind the kind come columns and rows, as in slither/10/10/BODY.",
    "E4": "A Sudoku has side 4, 6, 9, 16 or 25; the others at most 50 columns, 50 rows and 1,000 cells.",
}
FORM_ADVICE.update(dict.fromkeys(
    ["E5", "E6", "E7", "E8"], "Take the address from puzz.link once more: docs/USING.md says what each byte means."))
# What each says of whom a 503 comes from.
BUSY = {
    "hall": "status 503: the hall couldn't do it just now: its disk or its memory is full, which whoever runs it sees",
    "proxy": "status 503: the hall is down, or too many wait for it",
}


def sentence_of_form(data, of_file):
    """What a fault of form says, of a list or a sheet or of another request."""
    code = data["form"]
    told = codes()["forms"].get(code) or codes()["texts"].get(code) or {"sentence": ""}
    where = f" {data['field']}" if "field" in data else ""
    place = f" at place {data['place']} of the text's body, counted from 0" if "place" in data else ""
    inside = told.get("in_a_list_or_sheet") if of_file else None
    return f"{code}{where}{place}: {inside or told['sentence']}"


def is_of_hall(data):
    """Whether these are words of the hall, or of the proxy that comes with it."""
    return isinstance(data, dict) and bool({"denied", "form", "fault"} & set(data))


def lines_of(data, status, of_file=False):
    """What a reply says that isn't 200, in lines: the code and its sentence, and then what to do."""
    if is_of_hall(data) and data.get("fault") == "proxy" and status == 403:
        yield "status 403: the proxy doesn't let this address ask for it"
        yield "Ask whoever runs the hall to name your address in the proxy's file, or to ask in your place."
    elif is_of_hall(data) and "denied" in data:
        number = data["denied"]
        yield f"denied {number}: {codes()['denials'].get(str(number), {'sentence': ''})['sentence']}"
        if number in DENIAL_ADVICE:
            yield DENIAL_ADVICE[number]
    elif is_of_hall(data) and "form" in data:
        yield f"refused {sentence_of_form(data, of_file)}"
        yield from [FORM_ADVICE[data["form"]]] if data["form"] in FORM_ADVICE else []
    elif status == 503 and is_of_hall(data):
        yield BUSY.get(data["fault"], "status 503")
    elif str(status) in codes()["statuses"] and status not in (400, 403, 404):
        yield f"status {status}: {codes()['statuses'][str(status)]['sentence']}"
    else:
        yield f"status {status}: {STRANGER}"


def waits_of(status):
    """Whether the same request is sent again after a reply of this status, and after how many seconds at first."""
    told = codes()["statuses"].get(str(status), {"again": False})
    return told["again"], told.get("after_seconds", 1)


def longest_wait():
    return codes()["longest_wait_seconds"]
