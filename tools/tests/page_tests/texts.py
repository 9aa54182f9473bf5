"""The page's reader and writer of texts against the hall's: texts.mjs beside this file does it."""
import os
import re
import shutil
import subprocess

from harness.checks import holds, tell
from page_tests.place import PEOPLE, ROOT

COUNT = 667  # puzzles of each of the three kinds: 2,001 in all


def trial(program, pictures):
    page = os.environ.get("PAGE", f"{ROOT}/clients/page")
    copy = shutil.copyfile(f"{page}/page/texts.js", f"{pictures}/texts.mjs")
    with open(f"{pictures}/people.csv", "w", encoding="ascii") as file:
        file.write(PEOPLE)
    words = ["node", f"{ROOT}/tools/tests/page_tests/texts.mjs", copy, program, str(COUNT), file.name, f"{ROOT}/bench"]
    told = subprocess.run(words, capture_output=True, text=True, check=False)
    if found := re.search(r"(\d+) as wanted, (\d+) not\n$", told.stdout):
        tell(f"page: texts.mjs: {found[1]} as wanted")
    holds("texts.mjs came to its end, and all went as wanted", found and found[2] == "0",
                told.stdout + told.stderr[-800:])
