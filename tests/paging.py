"""The page for tenants in a browser, over a real service behind nginx or HAProxy; no page here may leave a fault."""

import json
import re
import subprocess
import tempfile
import time
import unittest

from browsing import Browser
from fronts import QRCODE, HAProxy, Nginx
from serving import PEERS, TOKEN, key
from tools import MISSING, needs

# What the console says of a refusal, which the page shows in words of its own.
REFUSAL = re.compile(r"Failed to load resource: (the server responded with a status of (400|401|403|404|409|413|429|503) |net::ERR_)")

needs_browser = needs("chromium", "chromedriver", "openssl")


NO_CODE = "without node-qrcode-generator"


def needs_code(test):
    """Skips a test where there is no library for QR codes, or nothing that reads them."""
    MISSING[NO_CODE] = {"node-qrcode-generator"}
    return needs("zbarimg")(unittest.skipUnless(QRCODE.exists(), NO_CODE)(test))


def labels(browser):
    """Those of the rows that are drawn."""
    return browser.run("return [...document.querySelectorAll('tbody tr button')].map((it) => it.textContent)")


class Paged:
    """Beside a class of fronts.py: one browser for the class, and a page, a register and a proxy for each test."""

    @classmethod
    def setUpClass(cls):
        super().setUpClass()
        cls.browser = cls.enterClassContext(Browser(cls.enterClassContext(tempfile.TemporaryDirectory(ignore_cleanup_errors=True))))

    def setUp(self):
        super().setUp()
        self.origin = f"https://127.0.0.1:{self.port}"
        self.browser.forget()
        self.addCleanup(self.browser.open, "about:blank")
        self.browser.resize(1280, 900)

    def tearDown(self):
        """No script failed, the policy of the page was kept, and it asked for nothing elsewhere."""
        asked = [request["url"] for request in self.browser.requests()]
        # The browser draws its own parts from data and from pages that no other may ask for.
        own = (f"{self.origin}/page/", f"{self.origin}/v1/networks", f"blob:{self.origin}/", "data:image/svg+xml;", "chrome://")
        self.assertEqual([url for url in asked if not url.startswith(own)], [])
        told = [message["message"] for message in self.browser.messages]
        self.assertEqual([text for text in told if not REFUSAL.search(text)], [])
        super().tearDown()

    def open(self, place=""):
        self.browser.open(f"{self.origin}/page/{place}")
        self.browser.find("h1")

    def sign_in(self, token=TOKEN, place=""):
        self.open(place)
        self.browser.fill("Access token", token)
        self.browser.click("Sign in", "button[type=submit]")

    def add(self, label="", **members):
        """Adds a device by the API, with the next key."""
        self.added = getattr(self, "added", 0) + 1
        status, body, _ = self.ask("POST", PEERS, json.dumps({"key": key(100 + self.added), "label": label, **members}))
        self.assertEqual(status, 200, body)
        return json.loads(body)

    def peers(self):
        """Those of the network, once the proxy doesn't say that lists of the page are under way."""
        while (reply := self.ask("GET", PEERS))[0] == 429:
            time.sleep(0.1)
        return json.loads(reply[1])["peers"]

    def code(self):
        """What the QR code says that the page shows."""
        path = self.folder / "code.png"
        self.browser.shot(self.browser.find("svg.code"), path)
        return subprocess.run(["zbarimg", "--raw", "-q", path], capture_output=True, check=True).stdout


class PagedNginx(Paged, Nginx):
    pass


class PagedHAProxy(Paged, HAProxy):
    def start(self, behind):
        self.page = {"WGR_PAGE": str(self.folder / "page")}
        if QRCODE.exists():
            self.page["WGR_QRCODE"] = str(QRCODE)
        super().start(behind)
