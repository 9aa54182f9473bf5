"""A day on two machines, which die three times and are cut off once in its midst, by the page and hallctl:
page_tests/second_day.py tells it, and what it doesn't try. It makes machines, and takes minutes, so it is run by --all
alone."""
import os
import time

import pytest
from harness import proxies
from harness.checks import tell
from harness.pair import need_parts


def test_a_day_on_two_machines(program, pytestconfig, room):
    if not pytestconfig.option.all:
        pytest.skip("daemons of the system, and seconds that count: --all runs it")
    pytest.importorskip("selenium", reason="python3-selenium isn't there")
    from page_tests import second_day, windows
    need_parts()
    lacking = windows.lacking(windows.Chromium) + ([] if os.path.exists(proxies.HAPROXY) else ["haproxy"])
    if lacking:
        pytest.skip(f"not installed: {', '.join(lacking)}")
    begun = time.monotonic()
    second_day.play(program, room, pytestconfig.option.pictures or room)
    tell(f"a day on two machines took {time.monotonic() - begun:.0f} seconds")
