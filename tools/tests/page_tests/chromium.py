"""A browser with the page in it, as a person sees and moves it: Chromium by its driver."""
import base64
import contextlib
import json

from selenium import webdriver
from selenium.common.exceptions import WebDriverException
from selenium.webdriver.chrome.service import Service
from selenium.webdriver.common.action_chains import ActionChains
from selenium.webdriver.common.keys import Keys

from page_tests.place import until

CHROMIUM, DRIVER = "/usr/bin/chromium", "/usr/bin/chromedriver"
PHONE = {"deviceMetrics": {"width": 390, "height": 780, "pixelRatio": 2.0, "touch": True}}
WORDS = ("--headless=new", "--no-sandbox", "--disable-gpu", "--disable-dev-shm-usage", "--no-first-run",
         "--disable-background-networking", "--disable-component-update")
# Where a point of the board, in cells, lies in the window.
SPOT = """const s = document.querySelector('.board svg'), r = s.getBoundingClientRect(), v = s.viewBox.baseVal;
return [r.left + (arguments[0] * 40 - v.x) / v.width * r.width,
  r.top + (arguments[1] * 40 - v.y) / v.height * r.height]"""
TEXT = """const e = document.querySelector(arguments[0]);
return e ? (e.innerText ?? e.textContent) : ''"""
# How often a browser is started at the most, where its driver gives it up, as on a busy machine.
STARTS = 3
NEXT, UNDO, REDO = "button.hand", "button[aria-label^=Undo]", "button[aria-label^=Redo]"


def started(options):
    """The driver of a browser that has started."""
    for left in reversed(range(STARTS)):
        try:
            return webdriver.Chrome(service=Service(DRIVER), options=options)
        except WebDriverException:
            if not left:
                raise


class Browser:
    def __init__(self, place, pictures, size=(1280, 860), phone=False):
        options = webdriver.ChromeOptions()
        options.binary_location = CHROMIUM
        for word in (*WORDS, f"--window-size={size[0]},{size[1]}"):
            options.add_argument(word)
        options.set_capability("goog:loggingPrefs", {"browser": "ALL"})
        if phone:
            options.add_experimental_option("mobileEmulation", PHONE)
        self.place, self.pictures = place, pictures
        self.driver = started(options)
        self.js = self.driver.execute_script

    def __enter__(self):
        return self

    def __exit__(self, *_):
        self.driver.quit()

    # --- looking

    def text(self, css="main"):
        return self.js(TEXT, css)

    def shows(self, words, css="main", seconds=60):
        return until(lambda: words in self.text(css), seconds)

    def count(self, css):
        return self.js("return document.querySelectorAll(arguments[0]).length", css)

    def picture(self, name):
        self.driver.save_screenshot(f"{self.pictures}/{name}.png")

    def paper(self, name):
        told = self.tool("Page.printToPDF", {"printBackground": False, "paperWidth": 8.27, "paperHeight": 11.69})
        with open(f"{self.pictures}/{name}.pdf", "wb") as file:
            file.write(base64.b64decode(told["data"]))
        return base64.b64decode(told["data"])

    def faults(self):
        """What the page's own code told the console as a fault."""
        return [line["message"] for line in self.driver.get_log("browser")
                if line["level"] == "SEVERE" and "Failed to load resource" not in line["message"]]

    # --- going

    def tool(self, command, words):
        return self.driver.execute_cdp_cmd(command, words)

    def media(self, **features):
        self.tool("Emulation.setEmulatedMedia", {"features": [
            {"name": name.replace("_", "-"), "value": value} for name, value in features.items()]})

    def before_load(self, script):
        self.tool("Page.addScriptToEvaluateOnNewDocument", {"source": script})

    def enter(self, who, url=None):
        self.driver.get(url or self.place.url)
        self.give_key(f"{who}-key-1")
        until(lambda: self.count("body.in"))

    def give_key(self, key):
        field = until(lambda: self.driver.find_element("id", "key"))
        field.clear()
        field.send_keys(key + Keys.ENTER)

    def leave(self):
        self.push("#leave")
        until(lambda: self.count("#key"))

    def go(self, address):
        self.js("location.hash = arguments[0]", address)

    def open(self, round_id, number, name):
        """Opens a puzzle, and waits until its board is laid out."""
        self.go(f"#/r/{round_id}/{number}")
        self.ready(f"{number}. {name}")

    def ready(self, title):
        until(lambda: title in self.text(".bar") and self.js("return document.activeElement.tagName") == "svg")

    def reload(self):
        self.driver.refresh()
        with contextlib.suppress(Exception):
            self.driver.switch_to.alert.accept()

    # --- hands

    def push(self, css):
        self.js("document.querySelector(arguments[0]).click()", css)

    def hand_in(self):
        until(lambda: self.js("return !document.querySelector('button.hand').disabled"))
        self.push(NEXT)

    def choose(self, place):
        """Takes a choice of the dialog: 1 goes back, 2 goes on."""
        until(lambda: self.count("dialog[open]"))
        self.push(f"dialog button:nth-of-type({place})")
        until(lambda: not self.count("dialog"))

    def keys(self, *keys):
        ActionChains(self.driver, duration=0).send_keys(*keys).perform()

    def chord(self, holder, key):
        ActionChains(self.driver, duration=0).key_down(holder).send_keys(key).key_up(holder).perform()

    def spot(self, x, y):
        return self.js(SPOT, x, y)

    def mouse(self, kind, spot, button="left", buttons=1):
        self.tool("Input.dispatchMouseEvent", {"type": f"mouse{kind}", "x": spot[0], "y": spot[1], "button": button,
                                               "buttons": buttons, "clickCount": 1})

    def click(self, x, y, button="left"):
        spot = self.spot(x, y)
        self.mouse("Pressed", spot, button)
        self.mouse("Released", spot, button, 0)

    def drag(self, points):
        spots = [self.spot(*point) for point in points]
        self.mouse("Pressed", spots[0])
        for spot in spots[1:]:
            self.mouse("Moved", spot)
        self.mouse("Released", spots[-1], buttons=0)

    def touch(self, kind, *spots):
        points = [{"x": x, "y": y, "id": i} for i, (x, y) in enumerate(spots)]
        self.tool("Input.dispatchTouchEvent", {"type": f"touch{kind}", "touchPoints": points})

    def wall(self, steps=1):
        """A wall by keys, so many steps to the right of where the cursor is."""
        self.js("""const svg = document.querySelector('.board svg');
for (const key of [...Array(arguments[0]).fill('ArrowRight'), 'w']) {
  svg.dispatchEvent(new KeyboardEvent('keydown', { key }));
}""", steps)

    def try_now(self):
        self.js("document.querySelector('#trouble button')?.click()")

    # --- what the browser keeps

    def kept(self, begin):
        """What the browser keeps under names that begin so."""
        return {name: json.loads(text) for name, text in
                self.js("return Object.entries(localStorage)") if name.startswith(begin)}
