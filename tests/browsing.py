"""A headless Chromium that is driven over WebDriver (W3C), and all that a page asked, printed and kept in it."""

import base64
import http.client
import json
import os
import shutil
import subprocess
from contextlib import suppress
from pathlib import Path

import program
from serving import free_port

# Elements that a reader sees, in the open dialog if there is one, whose text or name has some words.
FIND = """
const [css, words] = arguments;
const dialogs = document.querySelectorAll("dialog[open]");
const name = (it) => (it.getAttribute("aria-label") ?? "") + " " + it.textContent;
return [...(dialogs[dialogs.length - 1] ?? document).querySelectorAll(css)]
    .filter((it) => (words === null || name(it).includes(words)) && it.checkVisibility({visibilityProperty: true}));
"""
# The control that a label names.
LABELLED = f"const found = (function () {{ {FIND} }})('label', arguments[0]); return found[0]?.control ?? null;"
ELEMENT = "element-6066-11e4-a52e-4f735466cecf"


def bytes_of(file):
    """Those of a file that the browser may take away meanwhile."""
    with suppress(FileNotFoundError):
        return b"" if file.is_symlink() else file.read_bytes()
    return b""


class Failed(AssertionError):
    """An error that the driver answered."""


class Browser:
    """One tab, from the beginning of the block to its end; its folder has the browser's profile and downloads."""

    def __init__(self, folder):
        self.folder = Path(folder)
        self.profile, self.downloads = self.folder / "profile", self.folder / "downloads"
        self.downloads.mkdir(parents=True)
        self.events, self.messages = [], []
        # That of the session, once there is one.
        self.path = ""

    def __enter__(self):
        self.port = free_port()
        self.driver = subprocess.Popen(["chromedriver", f"--port={self.port}"], stdout=subprocess.DEVNULL, stderr=subprocess.DEVNULL)
        assert program.in_time(self.is_up), "chromedriver doesn't start"
        assert program.in_time(self.has_begun), "chromium doesn't start"
        return self

    def has_begun(self):
        """Whether it could be started; the driver gives up before a machine that is busy has read it from the disk."""
        words = ["--headless=new", "--no-sandbox", "--disable-dev-shm-usage", "--no-first-run", "--force-color-profile=srgb", f"--user-data-dir={self.profile}"]
        options = {"binary": shutil.which("chromium"), "args": words, "prefs": {"download.default_directory": str(self.downloads)}}
        logs = {"browser": "ALL", "performance": "ALL"}
        wanted = {"acceptInsecureCerts": True, "goog:loggingPrefs": logs, "goog:chromeOptions": options}
        try:
            begun = self.ask("POST", "/session", {"capabilities": {"alwaysMatch": wanted}})
        except (Failed, OSError):
            return False
        self.path = f"/session/{begun['sessionId']}"
        return True

    def __exit__(self, *_):
        self.ask("DELETE", "")
        self.driver.terminate()
        self.driver.wait()

    def is_up(self):
        try:
            return self.ask("GET", "/status")["ready"]
        except OSError:
            return False

    def ask(self, method, path, body=None):
        link = http.client.HTTPConnection("127.0.0.1", self.port, timeout=program.LIMIT)
        text = None if body is None else json.dumps(body)
        link.request(method, self.path + path, text, {"Content-Type": "application/json"})
        told = json.loads(link.getresponse().read())["value"]
        link.close()
        if isinstance(told, dict) and "error" in told:
            raise Failed(f"{path}: {told['error']}: {told['message']}")
        return told

    def run(self, script, *words):
        """What a script returns in the page; of a promise, what it comes to."""
        return self.ask("POST", "/execute/sync", {"script": script, "args": list(words)})

    def devtools(self, command, **words):
        return self.ask("POST", "/goog/cdp/execute", {"cmd": command, "params": words})

    def open(self, url):
        self.ask("POST", "/url", {"url": url})

    def resize(self, width, height, scheme="light"):
        self.devtools("Emulation.setDeviceMetricsOverride", width=width, height=height, deviceScaleFactor=1, mobile=False)
        features = {"prefers-color-scheme": scheme, "prefers-reduced-motion": "reduce"}
        self.devtools("Emulation.setEmulatedMedia", features=[{"name": name, "value": value} for name, value in features.items()])

    def wait(self, is_so, why):
        """Waits until this is so; a page that is being changed may fail to answer."""

        def is_now():
            try:
                return is_so()
            except Failed:
                return False

        assert program.in_time(is_now), f"{why}: {self.text()}"

    def found(self, css, words=None):
        return self.run(FIND, css, words)

    def find(self, css, words=None):
        """The first such element, once there is one."""
        self.wait(lambda: self.found(css, words), f"there is no {css} {words}")
        return self.found(css, words)[0]

    def click(self, words, css="button, a, summary"):
        """Clicks on the first such element. One that is replaced meanwhile wasn't clicked, so the new one is."""

        def is_clicked():
            [element, *_] = self.found(css, words) or [None]
            if element:
                self.click_on(element)
            return element

        self.wait(is_clicked, f"there is no {css} {words} to click on")

    def click_on(self, element):
        self.ask("POST", f"/element/{element[ELEMENT]}/click", {})

    def field(self, label):
        self.wait(lambda: self.run(LABELLED, label), f"there is no field {label}")
        return self.run(LABELLED, label)

    def fill(self, label, text):
        """Types into the field with this label, in place of what it has. A date is set, since its parts have the order of the language."""
        field = self.field(label)
        if self.run("return arguments[0].type", field) == "date":
            self.run("arguments[0].value = arguments[1]", field, text)
            return
        self.run("if (arguments[0].type !== 'file') arguments[0].value = ''", field)
        self.ask("POST", f"/element/{field[ELEMENT]}/value", {"text": text})

    def choose(self, label, option):
        """Chooses an option of the list with this label."""
        script = "arguments[0].selectedIndex = [...arguments[0].options].findIndex((it) => it.text === arguments[1]); arguments[0].dispatchEvent(new Event('change'))"
        self.run(script, self.field(label), option)

    def press(self, key):
        """Presses a key where the focus is."""
        self.ask("POST", f"/element/{self.run('return document.activeElement')[ELEMENT]}/value", {"text": key})

    def text(self, css="body"):
        return self.run("return [...document.querySelectorAll(arguments[0])].map((it) => it.innerText).join('\\n')", css)

    def says(self, words, css="body"):
        self.wait(lambda: words in self.text(css), f"it doesn't say {words!r}")

    def place(self):
        return self.run("return location.hash")

    def picture(self, path):
        Path(path).write_bytes(base64.b64decode(self.ask("GET", "/screenshot")))

    def shot(self, element, path):
        Path(path).write_bytes(base64.b64decode(self.ask("GET", f"/element/{element[ELEMENT]}/screenshot")))

    def collect(self):
        """Takes what came since then: messages of the console, and events of the network."""
        self.messages += self.ask("POST", "/se/log", {"type": "browser"})
        self.events += [json.loads(entry["message"])["message"] for entry in self.ask("POST", "/se/log", {"type": "performance"})]

    def forget(self):
        """What came so far is of an earlier test, or of the browser's own first page."""
        self.open("about:blank")
        self.collect()
        self.events.clear()
        self.messages.clear()

    def requests(self):
        """All requests of the page so far, as they were sent."""
        self.collect()
        return [event["params"]["request"] for event in self.events if event["method"] == "Network.requestWillBeSent"]

    def downloaded(self, name):
        """The bytes of a file that was downloaded whole, which is taken away."""
        file = self.downloads / name
        self.wait(file.exists, f"{name} isn't downloaded")
        text = file.read_bytes()
        file.unlink()
        return text

    def kept(self):
        """All bytes that the browser has on the disk."""
        return b"\n".join(bytes_of(Path(folder, name)) for folder, _, names in os.walk(self.profile) for name in names)
