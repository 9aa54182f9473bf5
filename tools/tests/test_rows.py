"""The tables of examples/, a test each: each row tells its input, and what is told of it (examples/README.md)."""
import pytest
from harness.rows import EXAMPLES, ask

TABLES = sorted(EXAMPLES.glob("*/*.rows"))


@pytest.mark.parametrize("table", TABLES, ids=lambda it: f"{it.parent.name}/{it.stem}")
def test_table(table, program, room):
    assert ask(table, program, room)
