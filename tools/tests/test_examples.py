"""Each example FILE.txt in a folder of examples/: `hall` is run with the words in FILE.args and the input, and writes
FILE.out with the exit status in FILE.status. And README.md's round, by examples/rounds/round.sh."""
import os
import subprocess
from pathlib import Path

import pytest
from harness.checks import check
from harness.running import PATIENCE, ROOT, played_round

EXAMPLES = sorted(Path(ROOT, "examples").glob("*/*.txt"))


@pytest.mark.parametrize("example", EXAMPLES, ids=lambda it: f"{it.parent.name}/{it.stem}")
def test_example(example):
    words = [os.environ["HALL_COMMAND"], *example.with_suffix(".args").read_text(encoding="utf-8").split()]
    how = {"cwd": ROOT, "capture_output": True, "timeout": PATIENCE, "check": False}
    ran = subprocess.run(words, input=example.read_bytes(), **how)
    check("the status", ran.returncode, int(example.with_suffix(".status").read_text(encoding="ascii")))
    check("the output", ran.stdout, example.with_suffix(".out").read_bytes())


def test_the_round_of_the_readme():
    """It takes two minutes."""
    ran = played_round(os.environ["HALL_COMMAND"])
    check("what round.sh tells", (ran.returncode, ran.stdout.splitlines()),
          (0, ["a round from init to table: all replies as README.md tells"]))


# In this order: one is given what those before it made.
PASTED = "hall", "judge", "solve", "init", "check", "replay"


def test_the_examples_of_help(tmp_path):
    """Pasted into a shell in an empty folder, they write what the pages say."""
    commands = tmp_path / "commands"
    commands.mkdir()
    (commands / "hall").symlink_to(os.path.realpath(os.environ["HALL_COMMAND"]))
    env = {**os.environ, "PATH": f"{commands}:{os.environ['PATH']}"}
    for name in PASTED:
        page = Path(ROOT, "examples", "help", f"{name}.out").read_text(encoding="utf-8")
        lines = [it.removeprefix("  ") for it in page.split("Example:\n")[1].splitlines()]
        typed = "\n".join(it.removeprefix("$ ") for it in lines if it.startswith("$ "))
        wanted = "".join(f"{it}\n" for it in lines if not it.startswith("$ "))
        ran = subprocess.run(["bash", "-c", typed], cwd=tmp_path, env=env, capture_output=True, check=False, text=True)
        check(f"what is pasted of {name}", ran.stdout if wanted else ran.stdout[:12], wanted or "HTTP/1.1 200")
