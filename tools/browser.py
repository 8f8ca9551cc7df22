"""Opens the pages of a site from their files in headless Chromium, for tools/site.py --check. chromedriver takes the
browser's commands as JSON over HTTP (WebDriver)."""

import json
import shutil
import socket
import subprocess
import tempfile
import time
import urllib.error
import urllib.parse
import urllib.request

# what is searched for, and the page that a user wants first
SOUGHT = {
    "--retry": "docs/USAGE.html",
    "flash:w": "docs/USAGE.html",
    "Uno": "docs/BOARDS.html",
    "HostFault::Differs": "docs/api/stk_host.html",
    "ReceivedSentFrames": "docs/definitions/avr_laws.html",
}
WIDE, NARROW = 1280, 390
# (the shell is the same browser without its windows, and takes half of the time)
BINARY = shutil.which("chromium-headless-shell") or shutil.which("chromium")
SHAPES = ((WIDE, "light"), (NARROW, "dark"), (NARROW, "light"), (WIDE, "dark"))
# the pages of the code, which are long and alike: one shape is enough
CODE = ("docs/api/", "docs/definitions/", "crates/")

# the width of the page's contents, the smallest letters of its pictures, the brightness of its ground and text, and how
# many copy buttons cover code
MEASURED = """
const bright = colour => { const [r, g, b] = colour.match(/[\\d.]+/g).map(Number); return (r + g + b) / 3 }
const style = getComputedStyle(document.body)
const letters = [...document.querySelectorAll("svg.picture")].map(
    picture => 16 * picture.getBoundingClientRect().width / picture.viewBox.baseVal.width)
const wide = document.documentElement.scrollWidth
const buttons = [...document.querySelectorAll("button.copybtn")].filter(button =>
    button.getBoundingClientRect().left < button.parentElement.querySelector("pre").getBoundingClientRect().right)
return [wide, Math.min(99, ...letters), bright(style.backgroundColor), bright(style.color), buttons.length]
"""
FIRST = "return document.querySelector('#search-results li a')?.href"


class Browser:
    """A headless Chromium behind a chromedriver of its own."""

    def __init__(self, folder):
        with socket.socket() as free:
            free.bind(("127.0.0.1", 0))
            port = free.getsockname()[1]
        quiet = {"stdout": subprocess.DEVNULL, "stderr": subprocess.DEVNULL}
        self.driver = subprocess.Popen(["chromedriver", f"--port={port}"], **quiet)
        self.address = f"http://127.0.0.1:{port}/session"
        words = ["--headless", "--no-sandbox", "--disable-gpu", f"--user-data-dir={folder}"]
        asked = {
            "browserName": "chrome",
            "goog:chromeOptions": {"args": words},
            "goog:loggingPrefs": {"browser": "ALL"},
        }
        for _ in range(300):
            try:
                self.address += "/" + self.ask("", {"capabilities": {"alwaysMatch": asked}})["sessionId"]
                break
            except urllib.error.URLError:
                time.sleep(0.1)

    def ask(self, what, given):
        """Sends one command of WebDriver, and returns its value."""
        body = json.dumps(given).encode()
        asked = urllib.request.Request(self.address + what, body, {"Content-Type": "application/json"})
        with urllib.request.urlopen(asked, timeout=600) as reply:
            return json.load(reply)["value"]

    def call(self, name, **given):
        return self.ask("/goog/cdp/execute", {"cmd": name, "params": given})

    def value(self, script):
        return self.ask("/execute/sync", {"script": script, "args": []})

    def errors(self):
        return [entry["message"] for entry in self.ask("/se/log", {"type": "browser"}) if entry["level"] == "SEVERE"]

    def shape(self, width, theme):
        """Gives the browser this width, and its user this preference."""
        self.call(
            "Emulation.setDeviceMetricsOverride", width=width, height=900, deviceScaleFactor=1, mobile=width < 600
        )
        self.call("Emulation.setEmulatedMedia", features=[{"name": "prefers-color-scheme", "value": theme}])

    def end(self):
        urllib.request.urlopen(urllib.request.Request(self.address, method="DELETE"), timeout=600).close()
        self.driver.terminate()
        self.driver.wait()


def faults_of(browser, page, name):
    """Yields what is wrong with a page, at each width and in light and dark."""
    browser.ask("/url", {"url": page.as_uri()})
    for width, theme in SHAPES[1:2] if str(name).startswith(CODE) else SHAPES:
        browser.shape(width, theme)
        wide, letters, ground, text, covering = browser.value(MEASURED)
        if wide > width:
            yield f"{name} is {wide} pixels wide at {width}"
        # (a wide screen shows them only under the pointer)
        if width == NARROW and covering:
            yield f"{name}: {covering} copy buttons cover code at {width}"
        if letters < 15.9:
            yield f"{name}: the letters of a picture have {letters:.1f} pixels at {width}"
        if (ground < 80) != (theme == "dark") or abs(ground - text) < 100:
            yield f"{name}: in {theme} the ground has brightness {ground:.0f}, the text {text:.0f}"
    yield from (f"{name}: {error}" for error in browser.errors())


def found_first(browser, folder, sought):
    """Returns the first page that the site's search finds."""
    query = urllib.parse.urlencode({"q": sought})
    browser.ask("/url", {"url": f"{(folder / 'search.html').as_uri()}?{query}"})
    for _ in range(100):
        if found := browser.value(FIRST):
            return found.removeprefix(folder.as_uri() + "/").split("?")[0].split("#")[0]
        time.sleep(0.1)
    return None


def looked_at(folder):
    """Opens the pages of a site and searches it. Returns how much was right, and what is wrong."""
    if not BINARY or not shutil.which("chromedriver"):
        print("left out: the site in a browser: chromium or chromedriver is not installed")
        return 0, []
    pages = sorted(folder.rglob("*.html"))
    wrong = []
    with tempfile.TemporaryDirectory() as own:
        browser = Browser(own)
        try:
            for page in pages:
                wrong += faults_of(browser, page, page.relative_to(folder))
            for sought, wanted in SOUGHT.items():
                if (found := found_first(browser, folder, sought)) != wanted:
                    wrong.append(f"search for {sought} finds {found} first, not {wanted}")
            wrong += browser.errors()
        finally:
            browser.end()
    return len(pages) + len(SOUGHT), wrong
