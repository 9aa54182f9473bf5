"""The same page in WebKit, Safari's engine, as Debian has it: the driver, a bare browser, and a screen in memory."""
import contextlib
import glob
import os
import shutil
import socket
import subprocess

import pytest
from harness.checks import tell
from selenium import webdriver
from selenium.common.exceptions import WebDriverException
from selenium.webdriver.common.action_chains import ActionChains
from selenium.webdriver.common.actions import interaction
from selenium.webdriver.common.actions.action_builder import ActionBuilder
from selenium.webdriver.common.actions.pointer_input import PointerInput
from selenium.webdriver.webkitgtk.options import Options

from page_tests.firefox import play
from page_tests.place import Place, free_port, until

DRIVER, SCREEN = "/usr/bin/WebKitWebDriver", "/usr/bin/Xvfb"
BROWSERS = "/usr/lib/*/webkit2gtk-4.*/MiniBrowser"


def trial(program, pictures):
    if lacking():
        pytest.skip(f"not installed: {', '.join(lacking())}")
    twice_at_most(play_page, program, pictures)


def play_page(program, pictures):
    with Place(program) as place, WebKit(pictures) as browser:
        play(program, place, browser)


def twice_at_most(play_all, *words):
    """Plays it, and from its start once more where a browser's driver fails and can't say why, as WebKit's did once in
    the midst of a day: that tells nothing of the page. What a page does wrong has a reason."""
    try:
        return play_all(*words)
    except WebDriverException as error:
        if type(error) is not WebDriverException or error.msg:
            raise
        tell("a browser's driver failed and didn't say why: all is played once more")
        return play_all(*words)


def lacking():
    """What isn't installed that it needs."""
    needed = {"webkit2gtk-driver": os.path.exists(DRIVER), "libwebkit2gtk": glob.glob(BROWSERS),
              "xvfb": os.path.exists(SCREEN)}
    return [name for name, is_there in needed.items() if not is_there]


@contextlib.contextmanager
def screen():
    """A screen in memory: the name by which programs find it."""
    heard, told = os.pipe()
    words = [SCREEN, "-displayfd", str(told), "-screen", "0", "1400x1000x24", "-nolisten", "tcp"]
    server = subprocess.Popen(words, pass_fds=[told], stdout=subprocess.DEVNULL, stderr=subprocess.DEVNULL)
    os.close(told)
    try:
        with os.fdopen(heard) as line:
            yield f":{line.readline().strip()}"
    finally:
        server.terminate()
        server.wait()


class WebKit:
    """As marionette.py has Firefox."""
    name = "WebKit"

    def __init__(self, pictures):
        self.pictures, self.open, self.home = pictures, contextlib.ExitStack(), f"{pictures}/webkit-home"
        os.makedirs(self.home, exist_ok=True)
        self.open.callback(shutil.rmtree, self.home, ignore_errors=True)
        places = {"DISPLAY": self.open.enter_context(screen()), "XDG_DATA_HOME": self.home,
                  "XDG_CACHE_HOME": self.home}
        port = free_port()
        self.process = self.open.enter_context(subprocess.Popen(
            [DRIVER, f"--port={port}"], env={**os.environ, **places}, stdout=subprocess.DEVNULL,
            stderr=subprocess.DEVNULL))
        self.open.callback(self.process.terminate)
        until(lambda: socket.create_connection(("127.0.0.1", port), 5).close() or True)
        options = Options()
        options.binary_location = sorted(glob.glob(BROWSERS))[-1]
        for word in ("--automation", "--geometry=1280x900"):
            options.add_argument(word)
        self.driver = webdriver.Remote(f"http://127.0.0.1:{port}", options=options, keep_alive=False)
        self.js = self.driver.execute_script

    def __enter__(self):
        return self

    def __exit__(self, *_):
        with self.open:
            self.driver.quit()

    def load(self, url):
        self.driver.get(url)

    def reload(self):
        self.driver.refresh()

    def text(self, css="main"):
        return self.js("return document.querySelector(arguments[0])?.innerText ?? ''", css)

    def shows(self, words, css="main", seconds=60):
        return until(lambda: words in self.text(css), seconds)

    def count(self, css):
        return self.js("return document.querySelectorAll(arguments[0]).length", css)

    def picture(self, name):
        self.driver.save_screenshot(f"{self.pictures}/{name}.png")

    def keys(self, *keys):
        ActionChains(self.driver, duration=0).send_keys(*keys).perform()

    def chord(self, holder, key):
        ActionChains(self.driver, duration=0).key_down(holder).send_keys(key).key_up(holder).perform()

    def drag(self, spots):
        self.drags([spots])

    def drags(self, drags):
        actions = ActionBuilder(self.driver, mouse=PointerInput(interaction.POINTER_MOUSE, "mouse"), duration=0)
        hand = actions.pointer_action
        for spots in drags:
            for i, (x, y) in enumerate(spots):
                hand.move_to_location(round(x), round(y))
                if not i:
                    hand.pointer_down()
            hand.pointer_up()
        actions.perform()
