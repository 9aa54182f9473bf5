"""Which replies a client sends again for, and after how long; and docs/codes.json, every code with its sentence.

A module for tools/pages/codes.py: the sentences are handed over by it, as the sources have them.
"""
import json
import re

# Status, who answers so, what it says, whether the same request is sent again, and after how many seconds at first.
STATUSES = [
    (200, "the hall", "The request is allowed, or repeats what was done before.", False, None),
    (400, "the hall, or the proxy", "The bytes are no request: as they are, they never will be one.", False, None),
    (403, "the hall, or the proxy", "A rule but 4 forbids it; or the proxy lets it in from other addresses alone.",
     False, None),
    (404, "the hall", "What is named isn't there.", False, None),
    (408, "the proxy", "The request didn't come whole in 10 seconds.", True, 1),
    (413, "another proxy", "The body is longer than that proxy takes; the hall takes 65,536 bytes.", False, None),
    (429, "the proxy", "Too many requests came of this key, or from this address.", True, 10),
    (500, "the proxy", "The proxy failed.", True, 1),
    (502, "the proxy", "The hall ended the connection without a whole reply.", True, 1),
    (503, "the hall, or the proxy", "It couldn't be done just now; or the hall is down, or too many wait.", True, 5),
    (504, "the proxy", "The hall didn't reply in 3 minutes (to a certificate in an hour). What was asked may still be "
     "made.", True, 10),
]
# A wait is twice the last one, to at most so many seconds.
LONGEST_WAIT = 15
# What a sentence of the sources calls by the name of an action, for readers who don't know these names.
IN_WORDS = {
    "For PutPuzzle the": "Where a puzzle is put, the", "for PutRound a": "where a round is put, a",
    "for Publish,": "for a publication,", "for Release,": "for a release,", "for Table,": "for a table,",
}
PROXY = "A proxy before the hall answered in its place: the status says why."


def status_rows():
    """The rows of the table of statuses."""
    for status, who, told, again, wait in STATUSES:
        yield [f"`{status}`", who, told, f"yes, after {wait} s" if again else "no"]


def form(code, of_lists, of_requests):
    """A fault of form: where it can come of a request alone, or of a list or sheet alone, that is its sentence."""
    told = {"in_a_list_or_sheet": of_lists, "in_a_request": of_requests}
    return {"status": 404 if code == "F6" else 400, "sentence": of_requests or of_lists, "again": False,
            **{name: text for name, text in told.items() if text}}


def bare(row):
    """The cells of a row of a page's table, without the marks of code."""
    return [cell.strip("`") for cell in row]


def asked_of(rules, numbers):
    """For each rule's number, the actions that it is asked of."""
    return {str(number): [action for action, those in rules.items() if name in those]
            for name, number in numbers.items()}


def in_words(told, actions):
    """A sentence without the names of actions."""
    for name, words in IN_WORDS.items():
        told = told.replace(name, words)
    named = [it for it in actions if re.search(rf"\b(?:f|F)or {it}\b", told)]
    if named:
        raise SystemExit(f"tools/pages/sending.py has no words for {named} in: {told}")
    return told


def codes(rows, asked):
    """All codes: rows of the pages' tables by their names, and the actions that each rule is asked of."""
    actions = {it for those in asked.values() for it in those}
    denials = {code: {"status": 404 if code == "4" else 403, "sentence": in_words(told, actions), "again": False,
                      "asked_of": asked[code]}
               for code, told, _ in map(bare, rows["denials"])}
    texts = {code: {"status": 400, "sentence": told, "again": False, "placed": placed == "yes"}
             for code, told, placed in map(bare, rows["texts"])}
    names = {code: {"kind": kind, "sentence": told} for code, kind, told, _ in map(bare, rows["names"])}
    faults = {"hall": {"status": 503, "sentence": bare(rows["unavailable"][0])[2], "again": True},
              "proxy": {"sentence": PROXY, "again": True}}
    statuses = {str(status): {"sentence": told, "by": who, "again": again, **({"after_seconds": wait} if again else {})}
                for status, who, told, again, wait in STATUSES}
    return {
        "denials": denials,
        "forms": {code: form(code, *told) for code, *told in map(bare, rows["forms"])},
        "texts": texts, "names": names, "faults": faults, "statuses": statuses,
        "longest_wait_seconds": LONGEST_WAIT,
    }


def text_of(value):
    """The value as a file of JSON."""
    return json.dumps(value, indent=1, ensure_ascii=False) + "\n"
