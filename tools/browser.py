"""A browser without a window, asked through its driver: Chromium by chromedriver, over the protocol of WebDriver.

tools/page-test imports it. Where the user is root, Chromium's sandbox is left out, which it wouldn't start with.
"""
import base64
import json
import os
import subprocess
import time
import urllib.error
import urllib.request

ELEMENT = "element-6066-11e4-a52e-4f735466cecf"
OPTIONS = ["--headless=new", "--disable-gpu", "--hide-scrollbars", "--disable-dev-shm-usage"]


class Browser:
    """A session of a browser, over a driver of its own."""

    def __init__(self, room, port):
        words = ["chromedriver", f"--port={port}"]
        log = open(f"{room}/driver", "wb")
        with log:
            self.driver = subprocess.Popen(words, stdin=subprocess.DEVNULL, stdout=log, stderr=log, env=of_room(room))
        self.address = f"http://127.0.0.1:{port}"
        words = [*OPTIONS, f"--user-data-dir={room}/profile", *(["--no-sandbox"] if os.getuid() == 0 else [])]
        capabilities = {"capabilities": {"alwaysMatch": {"goog:chromeOptions": {"args": words}}}}
        self.address += f"/session/{self.begun(capabilities)['sessionId']}"

    def begun(self, capabilities):
        """The session, as soon as the driver listens."""
        for _ in range(100):
            try:
                return self.ask("POST", "/session", capabilities)
            except (ConnectionError, urllib.error.URLError) as why:
                if isinstance(why, urllib.error.HTTPError):
                    raise
                time.sleep(0.1)
        raise SystemExit("tools/browser.py: chromedriver doesn't listen")

    def ask(self, method, path, body=None):
        """Sends a command to the driver; the value that it answers."""
        data = None if body is None else json.dumps(body).encode()
        request = urllib.request.Request(self.address + path, data, {"Content-Type": "application/json"}, method=method)
        with urllib.request.urlopen(request, timeout=60) as reply:
            return json.load(reply)["value"]

    def go(self, address):
        self.ask("POST", "/url", {"url": address})

    def widen(self, width, height):
        self.ask("POST", "/window/rect", {"width": width, "height": height})

    def all(self, selector):
        """The elements that a CSS selector names."""
        return [found[ELEMENT] for found in self.ask("POST", "/elements", {"using": "css selector", "value": selector})]

    def link(self, words):
        return self.ask("POST", "/element", {"using": "link text", "value": words})[ELEMENT]

    def follow(self, element):
        """Clicks what leads to another page, and waits until that is there."""
        self.run("document.isLeft = true")
        self.ask("POST", f"/element/{element}/click", {})
        for _ in range(200):
            if self.run("return !document.isLeft && document.readyState == 'complete'"):
                return
            time.sleep(0.05)
        raise SystemExit("tools/browser.py: no other page came")

    def type(self, element, text):
        self.ask("POST", f"/element/{element}/clear", {})
        self.ask("POST", f"/element/{element}/value", {"text": text})

    def text(self, selector):
        """The texts of the elements that a selector names, as they are seen."""
        return [self.ask("GET", f"/element/{element}/text") for element in self.all(selector)]

    def title(self):
        return self.ask("GET", "/title")

    def run(self, script):
        """What a script answers that the driver runs in the page, of which no policy of the page knows."""
        return self.ask("POST", "/execute/sync", {"script": script, "args": []})

    def picture(self, path):
        with open(path, "wb") as file:
            file.write(base64.b64decode(self.ask("GET", "/screenshot")))

    def close(self):
        try:
            self.ask("DELETE", "")
        finally:
            self.driver.terminate()
            self.driver.wait()


def of_room(room):
    """An environment in which the browser writes in a folder alone."""
    return {**os.environ, "HOME": room, "XDG_CONFIG_HOME": room, "XDG_CACHE_HOME": room}
