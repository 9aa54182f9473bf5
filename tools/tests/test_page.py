"""The entrants' page in real browsers, against a real hall behind a real HAProxy with examples/running/haproxy.cfg.

Firefox and WebKit are tried too where they are installed, and nginx. PAGE of the environment names another copy of the
page, such as one with a fault; --pictures FOLDER keeps pictures of it.
"""
import importlib
import os
import shutil

import pytest

NEEDED = {"chromium": "/usr/bin/chromium", "chromium-driver": "/usr/bin/chromedriver", "haproxy": "/usr/sbin/haproxy"}
# Each is a module of page_tests with trial(program, pictures); the longest first.
TRIALS = ("course", "hands", "troubles", "slips", "firefox", "webkit", "eyes", "helps", "languages", "reader",
          "offline", "narrow", "still", "texts", "tabs", "files", "mends", "staff_author", "staff_director",
          "staff_referee", "broken")


@pytest.fixture
def pictures(pytestconfig, room):
    folder = pytestconfig.option.pictures or room
    os.makedirs(folder, exist_ok=True)
    return folder


@pytest.mark.parametrize("trial", TRIALS)
def test_page(trial, program, pictures):
    pytest.importorskip("selenium", reason="python3-selenium isn't there")
    lacking = [name for name, path in NEEDED.items() if not os.path.exists(path)]
    lacking += [] if shutil.which("node") else ["nodejs"]
    if lacking:
        pytest.skip(f"not installed: {', '.join(lacking)}")
    importlib.import_module(f"page_tests.{trial}").trial(program, pictures)
