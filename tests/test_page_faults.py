"""The page for tenants where no answer comes, or not the one that was sent: what it says, and that nothing is done twice."""

import re
import signal

from following import run
from fronts import QRCODE
from paging import PagedHAProxy, PagedNginx, labels, needs_browser
from serving import PEERS, Server, done, key, request, wait_until_read
from test_client import Proxy, lost, too_many
from tools import needs

# Keeps the notices of a page, since one of a second may be gone before a test that is waiting for it looks.
NOTICES = """
window.notices = [];
new MutationObserver(() => {
    for (const it of document.querySelectorAll(".notice")) window.notices.push(it.textContent);
}).observe(document, {childList: true, subtree: true, characterData: true});
"""


class Scripted:
    """Beside Paged: each page that a test opens has a script."""

    def setUp(self):
        super().setUp()
        added = self.browser.devtools("Page.addScriptToEvaluateOnNewDocument", source=self.script)
        self.addCleanup(self.browser.devtools, "Page.removeScriptToEvaluateOnNewDocument", **added)


class AnyFault(Scripted):
    """What is said where no answer comes, through either proxy."""

    script = NOTICES

    def was_told(self, words):
        self.browser.wait(lambda: words in self.browser.run("return window.notices"), f"it isn't said that {words!r}")

    def is_well(self):
        """Whether the device is shown without a notice; a page that has given up by now is let ask again."""
        for again in self.browser.found("button", "Try again"):
            self.browser.click_on(again)
        return self.browser.text(".notice") == "" and labels(self.browser) == ["laptop"]

    def test_a_service_that_is_down(self):
        browser = self.browser
        self.add("laptop")
        self.sign_in()
        browser.says("1 device")
        self.serving.__exit__()
        browser.click("Refresh")
        self.was_told("The service is not available at the moment. Asking again in 5 seconds.")
        again = Server(f"{self.folder}/reg.db")
        again.words[2] = f"127.0.0.1:{self.serving.port}"
        with again:
            browser.wait(self.is_well, "the notice stays")

    def test_too_many_requests(self):
        """Two lists of the tenant are under way already."""
        browser = self.browser
        self.add("laptop")
        self.sign_in()
        browser.says("1 device")
        self.serving.stop()
        links = [self.link() for _ in range(2)]
        for link in links:
            link.sock.sendall(request("GET", PEERS))
        for link in links:
            wait_until_read(self.port, link.sock)
        self.browser.wait(self.is_full, "the proxy takes more")
        browser.click("Refresh")
        self.was_told("The service has many requests at the moment. Asking again in 1 second.")
        self.serving.process.send_signal(signal.SIGCONT)
        browser.wait(self.is_well, "the notice stays")
        for link in links:
            link.close()

    def is_full(self):
        """Whether a further list is refused; one that is taken stays, and isn't waited for."""
        link = self.link()
        self.addCleanup(link.close)
        link.sock.settimeout(1)
        link.sock.sendall(request("GET", PEERS))
        try:
            return b" 429 " in link.sock.recv(65_536)
        except TimeoutError:
            return False


@needs_browser
@needs("nginx")
class FaultsByNginx(AnyFault, PagedNginx):
    def test_no_connection(self):
        """Nobody listens at the page's own origin; in the end the page gives up, and offers to ask again."""
        self.sign_in()
        self.browser.says("No devices yet")
        self.browser.devtools("Network.emulateNetworkConditions", offline=True, latency=0, downloadThroughput=-1, uploadThroughput=-1)
        self.addCleanup(self.browser.devtools, "Network.emulateNetworkConditions", offline=False, latency=0, downloadThroughput=-1, uploadThroughput=-1)
        self.browser.click("Refresh")
        self.was_told("No connection to the service. Asking again in 2 seconds.")
        self.browser.says("Check your own connection, then try again", "main [role=alert]")
        self.browser.devtools("Network.emulateNetworkConditions", offline=False, latency=0, downloadThroughput=-1, uploadThroughput=-1)
        self.browser.click("Try again")
        self.browser.says("No devices yet")


@needs_browser
@needs("nginx", "wg")
class Lies(Scripted, PagedNginx):
    """The service is behind one that loses replies, or changes them. A second of the page is a twentieth of one here."""

    script = "const wait = setTimeout; window.setTimeout = (go, time) => wait(go, time / 20);"

    def start(self, behind):
        self.liar = Proxy(self.serving, [])
        self.addCleanup(self.liar.close)
        super().start(self.liar.port)

    def test_lost_replies(self):
        """A request whose reply was lost is made again, and the device is there once, with the key that the page shows."""
        browser = self.browser
        self.sign_in()
        browser.click("Add the first device")
        browser.fill("Label", "laptop")
        self.liar.acts = [lost]
        browser.click("Add a device", "dialog button[type=submit]")
        browser.says("laptop is ready", "dialog")
        [peer] = self.peers()
        private = re.search(r"(?m)^PrivateKey = (.*)$", browser.run("return document.querySelector('pre').textContent"))[1]
        self.assertEqual((peer["label"], peer["key"]), ("laptop", run("wg", "pubkey", text=private).stdout.strip()))
        browser.click("I have scanned it" if QRCODE.exists() else "Copy", "dialog button")
        self.open()
        self.sign_in(place="#/office")
        browser.click("laptop", "tbody button")
        browser.click_on(browser.find("[data-part=revoke] summary"))
        browser.click("Revoke …")
        self.liar.acts = [lost]
        browser.click("Revoke laptop now")
        browser.says("laptop is revoked")
        self.assertEqual(self.peers(), [])

    def test_another_client_meanwhile(self):
        """A change whose reply was lost isn't made again, since that would undo what another client has changed by then."""
        prefix, browser = {"prefix": "192.168.4.0/24"}, self.browser
        self.add("laptop")
        self.add("desk")
        for name, act in [("a route", "Add the route"), ("no route", "Remove")]:
            with self.subTest(name):
                self.open()
                self.sign_in(place="#/office")
                browser.click("laptop", "tbody button")
                browser.click_on(browser.find("[data-part=routes] summary"))
                if act == "Add the route":
                    browser.fill("Range of addresses", prefix["prefix"])
                self.liar.acts = [lambda _: self.serving.ask("POST", f"{PEERS}/2/routes", prefix) and b""]
                browser.click(act, "[data-part=routes] button")
                browser.says("No answer came, so this may be done or not", "dialog")
                self.assertEqual([peer["routes"] for peer in self.peers()], [[], [prefix["prefix"]]])
                self.serving.ask("POST", f"{PEERS}/1/routes", prefix)

    def test_a_key_made_elsewhere(self):
        self.sign_in()
        self.browser.click("Add the first device")
        self.browser.click_on(self.browser.field("I have a public key already"))
        self.browser.fill("Public key", key(5))
        self.liar.acts = [lost]
        self.browser.click("Add a device", "dialog button[type=submit]")
        self.browser.says("The line with the private key is missing", "dialog")
        self.assertEqual([peer["key"] for peer in self.peers()], [key(5)])

    def test_lost_until_the_page_gives_up(self):
        """The reader asks again with the same button, and so with the same key."""
        self.sign_in()
        self.browser.click("Add the first device")
        self.liar.acts = [lost, too_many, too_many, too_many]
        self.browser.click("Add a device", "dialog button[type=submit]")
        self.browser.says("There are too many requests at the moment", "dialog .error")
        self.browser.click("Add a device", "dialog button[type=submit]")
        self.browser.says("is ready", "dialog")
        [peer] = self.peers()
        private = re.search(r"(?m)^PrivateKey = (.*)$", self.browser.run("return document.querySelector('pre').textContent"))[1]
        self.assertEqual(peer["key"], run("wg", "pubkey", text=private).stdout.strip())

    def test_two_pools(self):
        """Where a reply has a second address of a peer, as a later release may, it is shown, and found."""
        shown = {**self.add("laptop"), "second": "fd00:8::2/128"}
        self.liar.acts = [lambda reply: done({"peers": [shown]}) if b'"peers":[' in reply else reply] * 99
        self.sign_in()
        self.browser.says("fd00:8::2", "tbody")
        self.browser.fill("Search", "fd00:8::2")
        self.browser.click("laptop", "tbody button")
        self.browser.says("fd00:8::2", "dialog")
        self.browser.click("Close")
        self.browser.run("location.hash = arguments[0]", "#/office/addresses")
        self.browser.says("252 of 256 addresses are free")


@needs_browser
@needs("haproxy", "bash")
class FaultsByHAProxy(AnyFault, PagedHAProxy):
    pass
