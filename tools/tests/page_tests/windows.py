"""The three engines as one kind of thing: a browser with windows, each of them somebody's, that may be killed."""
import contextlib
import os
import signal

from page_tests import chromium, marionette, webkit


def descendants(pid):
    """The processes that this one started, and those that these started."""
    with contextlib.suppress(OSError):
        for task in os.listdir(f"/proc/{pid}/task"):
            with open(f"/proc/{pid}/task/{task}/children", encoding="ascii") as file:
                for child in map(int, file.read().split()):
                    yield from (child, *descendants(child))


def kill_all(pid):
    """Ends a process and all below it, as a loss of power does."""
    for one in (pid, *list(descendants(pid))):
        with contextlib.suppress(ProcessLookupError):
            os.kill(one, signal.SIGKILL)


class OfSelenium:
    """What a browser that selenium moves does with windows."""
    kind = "tab"

    def first(self):
        return self.driver.current_window_handle

    def another(self):
        self.driver.switch_to.new_window(self.kind)
        return self.driver.current_window_handle

    def turn_to(self, window):
        self.driver.switch_to.window(window)

    def kill(self):
        kill_all(self.driver.service.process.pid)
        self.driver.service.process.wait()

    def __exit__(self, *others):
        with contextlib.suppress(Exception):  # one that was killed
            super().__exit__(*others)


class Chromium(OfSelenium, chromium.Browser):
    name = "Chromium"

    def __init__(self, pictures):
        super().__init__(None, pictures)

    def load(self, url):
        self.driver.get(url)

    def drags(self, drags):
        for spots in drags:
            self.mouse("Pressed", spots[0])
            for spot in spots[1:]:
                self.mouse("Moved", spot)
            self.mouse("Released", spots[-1], buttons=0)


class WebKit(OfSelenium, webkit.WebKit):
    kind = "window"

    def kill(self):
        kill_all(self.process.pid)
        self.process.wait()


class Firefox(marionette.Firefox):
    def first(self):
        return self.ask("WebDriver:GetWindowHandle")["value"]

    def another(self):
        made = self.ask("WebDriver:NewWindow", type="tab", focus=True)["handle"]
        self.turn_to(made)
        return made

    def turn_to(self, window):
        self.ask("WebDriver:SwitchToWindow", handle=window, focus=True)

    def kill(self):
        kill_all(self.process.pid)
        self.process.wait()


def lacking(engine):
    """What isn't installed that this engine needs."""
    needed = {Chromium: {"chromium": chromium.CHROMIUM, "chromium-driver": chromium.DRIVER},
              Firefox: {"firefox-esr": marionette.FIREFOX}}
    if engine is WebKit:
        return webkit.lacking()
    return [name for name, path in needed[engine].items() if not os.path.exists(path)]


class Window:
    """Somebody's window in a browser. What is done in it is done once the browser has turned to it."""

    def __init__(self, browser, window):
        self.browser, self.window = browser, window

    def __getattr__(self, name):
        if self.browser.turned_to != self.window:
            self.browser.turn_to(self.window)
            self.browser.turned_to = self.window
        return getattr(self.browser, name)


def windows(browser, count):
    """So many windows of a browser."""
    first, browser.turned_to = browser.first(), None
    return [Window(browser, it) for it in (first, *(browser.another() for _ in range(count - 1)))]
