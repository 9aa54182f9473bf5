"""What the staff's page mends of a pasted address, as hallctl does, and where it sees that a text is no puzzle, as the
hall does."""
import glob
import json
import os
import random
import re
import subprocess
import sys

from harness.checks import check, holds, tell
from page_tests.place import ROOT

PAGE = os.environ.get("PAGE", f"{ROOT}/clients/page")
PASTED = (
    "https://puzz.link/p?slitherlink/v:/2/2/222c", " <https://puzz.link/p?nurikabe/2/2/1i/> ", "sudoku/4/4/v",
    "http://pzv.jp/p.html?sudoku/4/4/v//", "puzz.link/p?nuri/2/2/1i", "https://puzz.link/p?sudoku_edit/4/4/v#x&y=1",
    "https%3A%2F%2Fpuzz.link%2Fp%3Fsudoku%2F4%2F4%2Fv", "1234341221434321", "12..\n..34\n0000\n4321",
    "'slither/2/2/2222'", "\"numberplace/9/9/g\"", "slither/2/2/2222 / ", "SLITHERLINKS_PLAY/d:/2/2/2222",
    "kakuro/4/4/1", "", "100%/2", "5" * 16)
COUNT, MOST = 600, 7  # texts by chance, and so many changes of a good one
SIGNS = "0123456789abcdefghizAZ-+./ ?"


def of_rows():
    """The texts of the examples' lines, with the first fault that the hall tells of each."""
    for path in sorted(glob.glob(f"{ROOT}/examples/lines/*.rows")):
        with open(path, encoding="ascii") as file:
            for line in file:
                found = re.match(r"judge \| ([!-~]*)\\n\S*\\n \| \d \| (?:refused (E\d)( \d+)?)?", line)
                if found and "\\" not in found[1]:
                    yield found[1]


def by_chance():
    """Good texts of which some signs are others."""
    chance = random.Random(20261129)
    for _ in range(COUNT):
        side, size = chance.choice((4, 9, 16, 25)), [str(chance.choice((1, 4, 12, 49, 51))) for _ in range(2)]
        head = chance.choice((f"sudoku/{side}/{side}/", f"slither/{'/'.join(size)}/", f"nurikabe/{'/'.join(size)}/"))
        body = [chance.choice(SIGNS[:21]) for _ in range(chance.randrange(12))]
        text = list(head + "".join(body))
        for _ in range(chance.randrange(MOST)):
            text[chance.randrange(len(head) // 2, len(text))] = chance.choice(SIGNS)
        yield "".join(text)


def hall_says(program, text):
    """The first fault of a text, by the hall: its code, and its place in the text where it has one."""
    told = subprocess.run([program, "judge"], input=f"{text}\nx\n", text=True, capture_output=True, check=False).stdout
    found = re.fullmatch(r"refused (E\d)(?: (\d+))?\n", told)
    if not found:
        return None
    begin = text.index("?") + 1 if re.match("https?://", text) and "?" in text else 0
    body = begin + len("/".join(text[begin:].split("/")[:3])) + 1
    return [found[1], body + int(found[2]) if found[2] else None]


def trial(program, _):
    sys.path.append(f"{ROOT}/clients/hallctl")
    from hall_client.mend import mended
    texts = [*PASTED, *of_rows(), *by_chance()]
    script = f"{ROOT}/tools/tests/page_tests/mends.mjs"
    ran = subprocess.run(["node", script, f"{PAGE}/page/staff/mend.js"], input=json.dumps(texts), text=True,
                         capture_output=True, check=True)
    faults = 0
    for text, (mend, notes, fault) in zip(texts, json.loads(ran.stdout)):
        want = mended(text)
        check(f"what {text!r} is mended to", [mend, notes], [want[0], want[1]])
        if not re.search(r"[\n]", text):
            check(f"the fault of {text!r}", fault, hall_says(program, text))
            faults += fault is not None
    holds("many texts have a fault, and many have none", 100 < faults < len(texts) - 100, faults, len(texts))
    tell(f"page: {len(texts)} texts mended as by hallctl, {faults} of them with the fault that the hall tells")
