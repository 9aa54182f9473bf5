"""A whole day by the pages alone, in each of three engines: page_tests/day.py tells it. It takes some 40 seconds for
each, and on a busy machine up to four minutes: each step waits for what is to be seen, and for no time of its own."""
import contextlib
import os

import pytest
from harness import proxies
from harness.checks import tell

ENGINES = ("Chromium", "Firefox", "WebKit")


@pytest.mark.parametrize("name", ENGINES)
def test_a_day_by_pages_alone(name, program, pytestconfig, room):
    pytest.importorskip("selenium", reason="python3-selenium isn't there")
    from page_tests import day, webkit, windows
    engine = getattr(windows, name)
    lacking = windows.lacking(engine) + ([] if os.path.exists(proxies.HAPROXY) else ["haproxy"])
    if lacking:
        pytest.skip(f"not installed: {', '.join(lacking)}")
    pictures = pytestconfig.option.pictures or room
    took = webkit.twice_at_most(day.play, program, engine, pictures)
    tell(f"a day by pages in {name}: {took:.0f} seconds")


@pytest.mark.parametrize("failures, plays", [([], 1), ([""], 2), (["", ""], 2), (["move target out of bounds"], 1)])
def test_a_day_whose_driver_fails_without_a_word_is_played_once_more(failures, plays):
    """And no other: neither one whose driver says why it failed, nor for a third time."""
    exceptions = pytest.importorskip("selenium.common.exceptions", reason="python3-selenium isn't there")
    from page_tests import webkit
    begun = []

    def play():
        begun.append(None)
        if len(begun) <= len(failures):
            raise exceptions.WebDriverException(failures[len(begun) - 1])

    to_its_end = len(failures) < plays
    with contextlib.nullcontext() if to_its_end else pytest.raises(exceptions.WebDriverException):
        webkit.twice_at_most(play)
    assert len(begun) == plays
