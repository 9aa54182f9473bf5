"""A browser with the staff's page in it, and what the trials of staff do to their hall."""
import contextlib
import signal
import sqlite3
import time

from page_tests.chromium import Browser
from page_tests.contrasts import told_apart
from page_tests.place import until

CONTROLS = ("button", "link", "checkbox", "textbox", "combobox", "searchbox", "Date", "InputTime")
# The field that has this label, with another value.
FILL = """const [label, value] = arguments, visible = (e) => e.offsetParent;
const of = [...document.querySelectorAll('label')].find((e) => visible(e) && e.textContent === label);
const field = document.getElementById(of.htmlFor);
field.value = value;
field.dispatchEvent(new Event('input', { bubbles: true }));"""
PRESS = """const found = [...document.querySelectorAll('button')].filter((e) => e.offsetParent
  && e.textContent.trim().startsWith(arguments[0]));
found.at(-1).click()"""
IS_OFF = """return [...document.querySelectorAll('button')].find((e) => e.offsetParent
  && e.textContent.trim().startsWith(arguments[0]))?.disabled"""
# The requests that the page made, by method and path, from now on.
HEAR = """window.asked = []; const real = fetch;
window.fetch = (path, how) => { window.asked.push(`${how.method} ${path}`); return real(path, how); };"""


class Staff(Browser):
    def enter_staff(self, who, view=""):
        self.driver.get(f"{self.place.url}staff.html#/{view}")
        self.give_key(f"{who}-key-1")
        until(lambda: self.count("body.in"))

    def fill(self, label, value):
        self.js(FILL, label, value)

    def press(self, words):
        until(lambda: self.js(IS_OFF, words) is False)
        self.js(PRESS, words)

    def is_off(self, words):
        return self.js(IS_OFF, words)

    def asked(self, begin):
        return [it for it in self.js("return window.asked") if it.startswith(begin)]

    def nameless(self):
        """The controls that a screen reader has no name for."""
        tree = self.tool("Accessibility.getFullAXTree", {})["nodes"]
        named = [(it["role"]["value"], it["name"]["value"]) for it in tree if it.get("name") and it.get("role")]
        return [role for role, name in named if role in CONTROLS and not name.strip()]

    def looks(self, name):
        """All can be told apart; and pictures in the light and in the dark, where somebody wants to look at them."""
        told_apart(self, name)
        for look in ("light", "dark"):
            self.media(prefers_color_scheme=look)
            time.sleep(0.2)
            self.picture(f"{name}-{look}")


def kill(place):
    """Ends the hall as a fault of the machine would."""
    place.hall.send_signal(signal.SIGKILL)
    place.hall.wait()


@contextlib.contextmanager
def standing_still(place):
    """A hall that doesn't go on, so that what is asked of it waits."""
    place.hall.send_signal(signal.SIGSTOP)
    try:
        yield
    finally:
        place.hall.send_signal(signal.SIGCONT)


def earlier(place, seconds):
    """Rewrites the file while nothing serves it, as if rounds had begun and answers come so much earlier."""
    place.stop_hall()
    with contextlib.closing(sqlite3.connect(place.database)) as rows, rows:
        rows.execute("update rounds set start = start - ?", (seconds,))
        rows.execute("update answers set moment = moment - ?", (seconds,))
    place.start_hall()
