"""Firefox by the protocol that it speaks itself: Debian has no geckodriver."""
import base64
import json
import os
import shutil
import socket
import subprocess
import tempfile

from page_tests.place import free_port, until

FIREFOX = "/usr/bin/firefox-esr"
PREFERENCES = {"marionette.port": None, "browser.shell.checkDefaultBrowser": False, "app.update.enabled": False,
               "datareporting.policy.dataSubmissionEnabled": False, "browser.startup.page": 0,
               "network.captive-portal-service.enabled": False, "network.connectivity-service.enabled": False,
               "toolkit.telemetry.enabled": False, "browser.safebrowsing.update.enabled": False,
               "extensions.update.enabled": False, "dom.w3c_touch_events.enabled": 1,
               "services.settings.server": "http://127.0.0.1:9"}


class Firefox:
    name = "Firefox"

    def __init__(self, pictures):
        self.pictures, self.count_sent = pictures, 0
        self.profile, port = tempfile.mkdtemp(prefix="page-firefox-"), free_port()
        with open(f"{self.profile}/user.js", "w", encoding="ascii") as file:
            for name, value in {**PREFERENCES, "marionette.port": port}.items():
                file.write(f"user_pref({json.dumps(name)}, {json.dumps(value)});\n")
        words = [FIREFOX, "--headless", "--marionette", "--no-remote", "--profile", self.profile, "--width", "1280",
                 "--height", "860"]
        self.process = subprocess.Popen(words, env={**os.environ, "HOME": self.profile}, stdout=subprocess.DEVNULL,
                                        stderr=subprocess.DEVNULL)
        self.line = until(lambda: socket.create_connection(("127.0.0.1", port), 180), 120)
        if self.line is None:
            self.process.kill()
            raise OSError("Firefox doesn't listen")
        self.heard = self.line.makefile("rb")
        self.message()
        self.ask("WebDriver:NewSession", capabilities={})

    def __enter__(self):
        return self

    def __exit__(self, *_):
        self.line.close()
        self.process.terminate()
        self.process.wait()
        shutil.rmtree(self.profile, ignore_errors=True)

    def message(self):
        length = b""
        while (byte := self.heard.read(1)) != b":":
            if not byte:
                raise OSError("Firefox is gone")
            length += byte
        return json.loads(self.heard.read(int(length)))

    def ask(self, command, **words):
        self.count_sent += 1
        text = json.dumps([0, self.count_sent, command, words]).encode()
        self.line.sendall(str(len(text)).encode() + b":" + text)
        _, _, fault, value = self.message()
        if fault:
            raise OSError(f"{command}: {fault.get('message')}")
        return value

    # --- as chromium.py has them

    def js(self, script, *args):
        return self.ask("WebDriver:ExecuteScript", script=script, args=list(args))["value"]

    def load(self, url):
        self.ask("WebDriver:Navigate", url=url)

    def reload(self):
        self.ask("WebDriver:Refresh")

    def text(self, css="main"):
        return self.js("return document.querySelector(arguments[0])?.innerText ?? ''", css)

    def shows(self, words, css="main", seconds=60):
        return until(lambda: words in self.text(css), seconds)

    def count(self, css):
        return self.js("return document.querySelectorAll(arguments[0]).length", css)

    def picture(self, name):
        with open(f"{self.pictures}/{name}.png", "wb") as file:
            file.write(base64.b64decode(self.ask("WebDriver:TakeScreenshot", full=False)["value"]))

    def perform(self, kind, actions, **more):
        self.ask("WebDriver:PerformActions", actions=[{"type": kind, "id": kind, "actions": actions, **more}])

    def keys(self, *keys):
        self.perform("key", [{"type": f"key{way}", "value": key} for key in keys for way in ("Down", "Up")])

    def chord(self, holder, key):
        self.perform("key", [{"type": f"key{way}", "value": one} for way, one in
                             (("Down", holder), ("Down", key), ("Up", key), ("Up", holder))])

    def drag(self, spots):
        self.drags([spots])

    def drags(self, drags, pointer="mouse"):
        """One drag after another; one of a single spot is a click."""
        actions = []
        for spots in drags:
            moves = [{"type": "pointerMove", "x": round(x), "y": round(y), "origin": "viewport"} for x, y in spots]
            actions += [moves[0], {"type": "pointerDown", "button": 0}, *moves[1:], {"type": "pointerUp", "button": 0}]
        self.perform("pointer", actions, id=pointer, parameters={"pointerType": pointer})
