"""The page for tenants: signing in, and a first device from its key to its file and its QR code."""

import json
import re
import subprocess
import time
from datetime import datetime
from zoneinfo import ZoneInfo

from earlier import rows_of
from fronts import DIST, QRCODE
from paging import PagedHAProxy, PagedNginx, needs_browser, needs_code
from serving import PEERS, TOKEN, make_register, order
from tools import needs

READER = "a-token-that-only-reads"
POLICY = {
    "default-src": "'none'", "script-src": "'self'", "style-src": "'self'", "img-src": "'self'", "connect-src": "'self'",
    "base-uri": "'none'", "form-action": "'none'", "frame-ancestors": "'none'", "require-trusted-types-for": "'script'", "trusted-types": "'none'",
}
KINDS = {".html": "text/html; charset=utf-8", ".css": "text/css; charset=utf-8", ".js": "text/javascript", ".svg": "image/svg+xml"}
# The place of a device in another time zone than the browser's own.
ZONE = "America/Los_Angeles"


def public_of(private):
    return subprocess.run(["wg", "pubkey"], input=private, capture_output=True, text=True, check=True).stdout.strip()


class AnyPage:
    """Tests through either proxy."""

    def test_files(self):
        """Each file of the page, and nothing else there, with its kind and the page's policy."""
        files = {"": DIST / "page/index.html", **{file.name: file for file in (DIST / "page").iterdir() if file.suffix != ".html"}}
        if QRCODE.exists():
            files["qrcode.js"] = QRCODE
        for name, file in files.items():
            with self.subTest(name):
                status, body, fields = self.ask("GET", f"/page/{name}", token=None)
                self.assertEqual((status, body), (200, file.read_bytes()))
                self.assertEqual(fields["Content-Type"].removesuffix("; charset=utf-8"), KINDS[file.suffix].removesuffix("; charset=utf-8"))
                self.assertEqual(dict(part.split(" ", 1) for part in fields["Content-Security-Policy"].split("; ")), POLICY)
                self.assertEqual([fields[field] for field in ["Referrer-Policy", "X-Content-Type-Options", "Cache-Control"]], ["no-referrer", "nosniff", "no-cache"])
        for method, path, status in [("GET", "/page", 301), ("GET", "/page/none.js", 404), ("GET", "/page/../wgr.key", 404), ("POST", "/page/", 405)]:
            with self.subTest(f"{method} {path}"):
                found = self.ask(method, path, "{}" if method == "POST" else None)[0]
                self.assertIn(found, {status, 404} if status == 405 else {status, 400})
        self.assertEqual(self.ask("GET", "/page", token=None)[2]["Location"], "/page/")

    @needs("wg")
    @needs_code
    def test_a_first_device(self):
        """The private key is the page's alone: it is in no request, no log and no storage, and the file is the one that works."""
        browser = self.browser
        browser.devtools("Emulation.setTimezoneOverride", timezoneId=ZONE)
        self.addCleanup(browser.devtools, "Emulation.setTimezoneOverride", timezoneId="")
        browser.devtools("Browser.grantPermissions", permissions=["clipboardReadWrite", "clipboardSanitizedWrite"])
        self.sign_in()
        browser.click("Add the first device")
        browser.fill("Label", "Anna’s laptop")
        browser.fill("Last day of the lease", "2040-02-28")
        browser.click("Add a device", "dialog button[type=submit]")
        browser.says("Anna's laptop is ready")

        text = browser.run("return document.querySelector('pre').textContent")
        private = re.search(r"(?m)^PrivateKey = (.*)$", text)[1]
        [peer] = self.peers()
        end = int(datetime(2040, 2, 29, tzinfo=ZoneInfo(ZONE)).timestamp())
        wanted = {"address": "10.8.0.2/32", "end": end, "keepalive": 25, "key": public_of(private), "label": "Anna's laptop", "number": 1, "routes": [], "status": None}
        self.assertEqual(peer, wanted)
        file = self.ask("GET", f"{PEERS}/1/file/quick")[1].decode()
        self.assertEqual(text, file.replace("[Interface]\n", f"[Interface]\nPrivateKey = {private}\n"))
        with self.subTest("as a QR code"):
            self.assertEqual(self.code(), text.encode() + b"\n")
        with self.subTest("it isn't closed unsaved, as by the browser's way back"):
            browser.run("location.hash = '#/office/devices'")
            browser.says("its private key is lost", "dialog")
        with self.subTest("as a file"):
            browser.click("Download Anna-s-laptop.conf")
            self.assertEqual(browser.downloaded("Anna-s-laptop.conf"), text.encode())
            self.assertNotIn("is lost", browser.text("dialog"))
        with self.subTest("to copy"):
            browser.click("Copy", "dialog pre ~ .actions button")
            browser.says("Copied", "dialog")
            self.assertEqual(browser.run("return navigator.clipboard.readText()"), text)
            browser.run("return navigator.clipboard.writeText('')")
        browser.click("Done")
        browser.says("1 device")
        self.assertEqual(browser.found("dialog"), [])
        with self.subTest("where the key is"):
            self.assert_nowhere(private)
            # The search finds what is there.
            self.assertIn(public_of(private), json.dumps(browser.requests()))

    def assert_nowhere(self, secret):
        sent = json.dumps(self.browser.requests() + self.browser.events)
        self.assertNotIn(secret, sent)
        self.assertNotIn(secret, self.log())
        kept = self.browser.run("return JSON.stringify([{...localStorage}, {...sessionStorage}, document.cookie, location.href, history.state])")
        self.assertEqual(kept, json.dumps([{}, {}, "", f"{self.origin}/page/#/office/devices", None]).replace(", ", ","))
        self.assertEqual(self.browser.run("return (async () => [...await indexedDB.databases(), ...await caches.keys()])()"), [])
        disk = self.browser.kept()
        self.assertNotIn(secret.encode(), disk)
        self.assertNotIn(secret.encode("utf-16-le"), disk)
        self.serving.process.kill()
        left = self.serving.process.communicate()
        rows = "".join(map(str, rows_of(f"{self.folder}/reg.db")))
        self.assertNotIn(secret, f"{left}{rows}")


@needs_browser
@needs("nginx")
class ByNginx(AnyPage, PagedNginx):
    def refused(self, token, words):
        self.sign_in(token)
        self.browser.says(words, ".field .error")
        self.assertEqual(self.browser.run("return document.activeElement.type"), "password")

    def test_tokens_that_are_refused(self):
        for name, token, words in [
            ("of another form", "two words", "without a space"),
            ("none", "", "1 to 128"),
            ("nobody's", "nobodys", "No customer has this token"),
        ]:
            with self.subTest(name):
                self.refused(token, words)

    def test_what_is_kept(self):
        """A token is in the tab's memory alone, or by choice until it is closed; signing out forgets it."""
        browser, kept = self.browser, "return JSON.stringify({...sessionStorage, ...localStorage})"
        self.sign_in()
        browser.says("No devices yet")
        self.assertEqual(browser.run(kept), "{}")
        self.open()
        browser.fill("Access token", TOKEN)
        browser.click_on(browser.field("Keep me signed in"))
        browser.click("Sign in", "button[type=submit]")
        browser.says("No devices yet")
        browser.open(f"{self.origin}/page/#/office/server")
        browser.ask("POST", "/refresh", {})
        browser.says("The server’s files")
        browser.click("Sign out")
        browser.says("Access token")
        self.assertEqual(browser.run(kept), "{}")

    def test_finding_out_the_right_changes_nothing(self):
        """A full token, and a peer whose lease is over, and whose row would go with any change."""
        self.add("long")
        self.add("short", end=int(time.time()) + 10)
        rows = self.register_rows()
        self.browser.wait(lambda: len(self.peers()) == 1, "the lease doesn't end")
        self.sign_in()
        self.browser.says("1 device")
        self.assertEqual(self.register_rows(), rows)
        impossible = [request for request in self.browser.requests() if request["method"] == "POST"]
        self.assertEqual([json.loads(request["postData"]) for request in impossible], [{"end": 1}])
        with self.subTest("nor would it change a peer that there is"):
            status, body, _ = self.ask("POST", f"{PEERS}/1/lease", '{"end":1}')
            self.assertEqual((status, json.loads(body)), (409, {"error": "lease_over"}))

    def register_rows(self):
        """The rows of a copy of the register's files, which the service has open."""
        copy = self.folder / "copies"
        copy.mkdir(exist_ok=True)
        for end in ["", "-wal"]:
            (copy / f"copy.db{end}").write_bytes((self.folder / f"reg.db{end}").read_bytes())
        return rows_of(str(copy / "copy.db"))


@needs_browser
@needs("haproxy", "bash")
class ByHAProxy(AnyPage, PagedHAProxy):
    pass


def with_reader(folder):
    database = make_register(folder)
    order("token-grant", database, "acme", "--right", "read", token=READER)
    return database


@needs_browser
@needs("nginx")
class ATokenThatOnlyReads(PagedNginx):
    make_register = staticmethod(with_reader)

    def test_no_button_would_be_refused(self):
        self.add("laptop")
        self.sign_in(READER)
        self.browser.says("This token only reads")
        for place, words in [("", "laptop"), ("/addresses", "addresses are free"), ("/server", "The server’s files")]:
            with self.subTest(place):
                self.browser.run(f"location.hash = '#/office{place}'")
                self.browser.says(words)
                for word in ["Add a", "Add the", "Take over", "Set the", "Move", "Revoke", "Remove"]:
                    self.assertEqual(self.browser.found("button, summary", word), [])
        self.browser.run("location.hash = '#/office'")
        self.browser.click("laptop", "tbody button")
        self.assertEqual([self.browser.text("dialog summary")], ["Routes"])
        asked = [request["method"] for request in self.browser.requests()]
        self.assertEqual(asked.count("POST"), 1)
        with self.subTest("where there is no device"):
            self.ask("DELETE", f"{PEERS}/1")
            self.open()
            self.sign_in(READER)
            self.browser.says("This token only reads, so a device is added with another token")
            self.assertEqual(self.browser.found("button", "Add"), [])
