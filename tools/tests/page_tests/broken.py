"""What the referee's view marks on a board as seen broken, beside what the hall's judge says of the same answers."""
import json
import os
import random
import shutil
import subprocess

from harness.checks import check, holds, tell
from page_tests.place import ROOT

PAGE = os.environ.get("PAGE", f"{ROOT}/clients/page")
FILES = ("sudoku.txt", "slither.txt", "nurikabe.txt")
# Numbers that aren't told, in a solved Slitherlink and a solved Nurikabe.
UNTOLD = (("slither/2/2/..h", "110011/101101"), ("nurikabe/3/3/.n", "..#.#####"), ("nurikabe/2/2/.i", ".###"))
COUNT = 12  # answers of each puzzle


def slips(text, solution, chance):
    """The answer with none, some and many of its places changed, as far as it stays a filling."""
    signs = {"sudoku": "123456789abcdefghijklmnop"[:int(text.split("/")[1])], "slither": "01", "nurikabe": "#."}
    for count in range(COUNT):
        found = list(solution)
        places = [at for at, sign in enumerate(found) if sign != "/"]
        for at in chance.sample(places, min(len(places), count * count)):
            found[at] = chance.choice(signs[text.split("/")[0]])
        yield text, "".join(found)
    yield text, "".join(sign if sign == "/" else signs[text.split("/")[0]][0] for sign in solution)


def trial(program, pictures):
    # An older node takes them for modules where a file beside them says so.
    shutil.copytree(f"{PAGE}/page", f"{pictures}/modules/page", dirs_exist_ok=True)
    with open(f"{pictures}/modules/package.json", "w", encoding="ascii") as file:
        file.write('{"type":"module"}')
    chance, pairs = random.Random(17), list(UNTOLD)
    for name in FILES:
        with open(f"{ROOT}/bench/{name}", encoding="ascii") as file:
            for line in list(file)[:12]:
                pairs += slips(*line.split(), chance)
    words = ["node", f"{ROOT}/tools/tests/page_tests/broken.mjs", f"{pictures}/modules"]
    ran = subprocess.run(words, input=json.dumps(pairs), text=True, capture_output=True, check=True)
    names = set()
    for (text, answer), seen in zip(pairs, json.loads(ran.stdout)):
        told = subprocess.run([program, "judge"], input=f"{text}\n{answer}\n", text=True, capture_output=True,
                              check=False).stdout.split()
        check(f"what is seen of {answer} of {text}", [rule for rule, _ in seen], told[1:])
        check("each has a place", [rule for rule, places in seen if places < 1], [])
        names |= set(told[1:])
    holds("each rule was broken", names == {f"{kind}{n}" for kind, most in (("U", 4), ("S", 5), ("N", 6))
                                           for n in range(1, most + 1)}, names)
    tell(f"page: {len(pairs)} answers whose broken rules are seen as the hall says them")
