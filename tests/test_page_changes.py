"""The page for tenants: each change of a device, its files, the takeover of an interface, and what is refused, said at the field."""

import json
import time
from datetime import datetime
from zoneinfo import ZoneInfo

from paging import PagedHAProxy, PagedNginx, needs_browser
from serving import PEERS, SERVER_KEY, TOKEN, key, make_register, network_add, order
from tools import needs

# Where the browser of these tests is: a zone with summer time, ahead of UTC.
ZONE = "Europe/Berlin"
FULL = "/networks/full/peers"
INTERFACE = f"(none)\t{SERVER_KEY}\t51820\toff"
PRIVATE, PRESHARED = key(77), key(78)


def line(public, allowed, preshared="(none)", seen=0):
    return f"{public}\t{preshared}\t(none)\t{allowed}\t{seen}\t0\t0\toff"


def make_two(folder):
    """Beside `office`, a network `full` with room for one address, which is held, and a second one that is `small`."""
    database = make_register(folder)
    network_add(database, "acme", "full", "10.9.0.0/30", port="51821", capacity="1")
    network_add(database, "acme", "small", "10.10.0.0/30", port="51822")
    return database


class Changing:
    def setUp(self):
        super().setUp()
        self.browser.devtools("Emulation.setTimezoneOverride", timezoneId=ZONE)

    def open_device(self, label, part):
        self.browser.click(label, "tbody button")
        self.browser.click_on(self.browser.find(f"[data-part={part}] summary"))

    def peer(self, number):
        return next(peer for peer in self.peers() if peer["number"] == number)

    def close(self):
        self.browser.click("Close", "dialog button.close")
        self.browser.wait(lambda: not self.browser.found("dialog"), "the dialog doesn't close")


class AnyChange(Changing):
    def test_changes(self):
        """Lease, move, routes and revoke of one device, as the register has them afterwards."""
        browser = self.browser
        self.add("laptop")
        self.add("router")
        self.sign_in(place="#/office")
        browser.says("2 devices")
        with self.subTest("the end of a lease"):
            self.open_device("laptop", "lease")
            browser.fill("Last day of the lease", "2041-07-04")
            browser.click("Set the end")
            browser.says("The lease is changed", "dialog")
            self.assertEqual(self.peer(1)["end"], int(datetime(2041, 7, 5, tzinfo=ZoneInfo(ZONE)).timestamp()))
            browser.says("Jul 5, 2041, 12:00", "dialog")
        with self.subTest("no end"):
            browser.click_on(browser.find("[data-part=lease] summary"))
            self.assertEqual(browser.run("return arguments[0].value", browser.field("Last day of the lease")), "2041-07-04")
            browser.fill("Last day of the lease", "")
            browser.click("Set the end")
            browser.wait(lambda: self.peer(1)["end"] == 0, "the lease still ends")
        with self.subTest("an address"):
            browser.wait(lambda: not browser.found("[data-part=lease][open]"), "the dialog isn't new")
            browser.click_on(browser.find("[data-part=move] summary"))
            browser.fill("Address in the network", "10.8.0.77")
            browser.click("Move", "dialog form button")
            browser.says("now has the address 10.8.0.77", "dialog")
            self.assertEqual(self.peer(1)["address"], "10.8.0.77/32")
        with self.subTest("the lowest free address"):
            browser.click_on(browser.find("[data-part=move] summary"))
            browser.click("Move", "dialog form button")
            browser.says("now has the address 10.8.0.2", "dialog")
        self.close()
        with self.subTest("a route in"):
            self.open_device("router", "routes")
            browser.fill("Range of addresses", "192.168.4.9/24")
            browser.click("Add the route")
            browser.says("The route is added", "dialog")
            self.assertEqual(self.peer(2)["routes"], ["192.168.4.0/24"])
        self.close()
        with self.subTest("a route to another device, with a second click"):
            self.open_device("laptop", "routes")
            browser.fill("Range of addresses", "192.168.4.0/24")
            browser.click("Add the route")
            browser.says("leads to router now", "dialog .field .error")
            self.assertEqual(self.peer(2)["routes"], ["192.168.4.0/24"])
            browser.click("Add the route")
            browser.says("The route is added", "dialog")
            self.assertEqual([self.peer(number)["routes"] for number in [1, 2]], [["192.168.4.0/24"], []])
        with self.subTest("a route out"):
            browser.click_on(browser.find("[data-part=routes] summary"))
            browser.click("Remove the route 192.168.4.0/24")
            browser.says("The route is removed", "dialog")
            self.assertEqual(self.peer(1)["routes"], [])
        with self.subTest("the file without a private key"):
            browser.click("Download its configuration")
            self.assertEqual(browser.downloaded("laptop.conf"), self.ask("GET", f"{PEERS}/1/file/quick")[1])
        with self.subTest("revoked by the second click, after it is said what that cuts off"):
            browser.click_on(browser.find("[data-part=revoke] summary"))
            browser.click("Revoke …")
            browser.says("its address 10.8.0.2", "dialog")
            self.assertEqual(len(self.peers()), 2)
            browser.click("Revoke laptop now")
            browser.says("laptop is revoked")
            self.assertEqual([peer["number"] for peer in self.peers()], [2])
            browser.says("1 device")

    def test_a_takeover(self):
        """A dump dropped on the page: it says what would be added, then adds it, and sends no secret."""
        browser = self.browser
        self.add("known")
        lines = [INTERFACE.replace("(none)", PRIVATE, 1), line(key(101), "10.8.0.2/32"), line(key(5), "10.8.0.5/32,192.168.9.0/24", PRESHARED), line(key(6), "10.8.0.6/32")]
        self.sign_in(place="#/office/server")
        self.drop("\n".join(lines) + "\n")
        self.assertNotIn(PRIVATE, browser.run("return arguments[0].value", browser.field("Or its text")))
        browser.click("Take over", "form button")
        browser.says("2 devices would be added. 1 is known already.")
        self.assertEqual(len(self.peers()), 1)
        browser.click("Take over", "form button")
        browser.says("Taken over: 2 devices added, 1 device known already.")
        browser.says("3 devices")
        self.assertEqual({peer["key"]: peer["address"] for peer in self.peers()}, {key(101): "10.8.0.2/32", key(5): "10.8.0.5/32", key(6): "10.8.0.6/32"})
        sent = json.dumps(browser.requests())
        self.assertIn(key(5), sent)
        self.assertNotIn(PRIVATE, sent)
        self.assertNotIn(PRESHARED, sent)

    def drop(self, text):
        """Drops a file with this text on the page."""
        self.browser.find("section.drop")
        self.browser.run("""
            const given = new DataTransfer();
            given.items.add(new File([arguments[0]], "dump"));
            document.querySelector("section.drop").dispatchEvent(new DragEvent("drop", {dataTransfer: given, bubbles: true, cancelable: true}));
        """, text)
        self.browser.wait(lambda: self.browser.run("return document.querySelector('textarea').value"), "the file isn't read")


@needs_browser
@needs("nginx")
class ByNginx(AnyChange, PagedNginx):
    make_register = staticmethod(make_two)

    def refuse(self, label, text, words, button):
        """What is typed into a field is refused, and said at this field, which has the focus then."""
        self.browser.fill(label, text)
        self.browser.click(button, "dialog form button[type=submit]")
        self.browser.wait(lambda: words in self.error(label), f"it isn't said that {words!r}")
        self.assertTrue(self.browser.run("return document.activeElement === arguments[0]", self.browser.field(label)))
        self.browser.fill(label, "")

    def error(self, label):
        return self.browser.run("return arguments[0].closest('.field').querySelector('.error').textContent", self.browser.field(label))

    def test_refusals_of_a_new_device(self):
        browser = self.browser
        self.add("laptop")
        self.ask("POST", f"{PEERS}/1/routes", json.dumps({"prefix": "10.8.0.9/32"}))
        self.sign_in(place="#/office")
        browser.click("Add a device")
        browser.click("More choices")
        yesterday = time.strftime("%Y-%m-%d", time.gmtime(time.time() - 2 * 86_400))
        for label, text, words in [
            ("Label", "Büro", "without letters such as ä"),
            ("Last day of the lease", yesterday, "This day is over"),
            ("Address in the network", "10.8.0", "This is no address"),
            ("Address in the network", "10.8.0.2", "Another device has this address"),
            ("Address in the network", "10.8.0.9", "or a route leads to it"),
            ("Address in the network", "10.8.0.1", "can’t give this address"),
            ("Address in the network", "10.9.0.2", "can’t give this address"),
            ("Address in the network", "fd00::2", "can’t give this address"),
            ("Keepalive, in seconds", "65536", "whole number from 0 to 65535"),
            ("Name servers", "10.8.0.1, ten", "no addresses"),
        ]:
            with self.subTest(f"{label}: {text}"):
                self.refuse(label, text, words, "Add a device")
        browser.click_on(browser.field("I have a public key already"))
        for text, words in [("abc", "no public key"), (key(101), "has this key already"), (SERVER_KEY, "the key of the server")]:
            with self.subTest(f"a key: {text}"):
                self.refuse("Public key", text, words, "Add a device")
        self.assertEqual(len(self.peers()), 1)

    def test_a_key_made_elsewhere(self):
        browser = self.browser
        self.sign_in(place="#/office")
        browser.click("Add the first device")
        browser.click_on(browser.field("I have a public key already"))
        browser.says("wg genkey", "dialog")
        browser.fill("Public key", key(5))
        browser.click("Add a device", "dialog button[type=submit]")
        browser.says("The line with the private key is missing", "dialog")
        self.assertEqual(browser.run("return document.querySelector('pre').textContent").encode(), self.ask("GET", f"{PEERS}/1/file/quick")[1])
        self.assertEqual(browser.found("svg.code"), [])
        browser.click("Done")
        browser.says("Device 1")

    def test_a_browser_without_keys(self):
        """Where the browser can't make them, the page asks for a public key."""
        broken = self.browser.devtools("Page.addScriptToEvaluateOnNewDocument", source="SubtleCrypto.prototype.generateKey = async () => { throw new DOMException('none', 'NotSupportedError'); };")
        self.addCleanup(self.browser.devtools, "Page.removeScriptToEvaluateOnNewDocument", **broken)
        self.sign_in(place="#/office")
        self.browser.click("Add the first device")
        self.browser.says("This browser can’t make WireGuard keys", "dialog")
        self.assertTrue(self.browser.field("Public key"))

    def test_full_networks(self):
        """A refusal that belongs to no field is said above the button."""
        self.ask("POST", FULL, json.dumps({"key": key(1)}))
        self.ask("POST", "/networks/small/peers", json.dumps({"key": key(1)}))
        self.sign_in()
        for network, words in [("full", "as many devices as it may"), ("small", "No address is free")]:
            with self.subTest(network):
                self.browser.run("location.hash = arguments[0]", f"#/{network}")
                self.browser.says(network, "h1")
                self.browser.says("1 device")
                self.browser.click("Add a device")
                self.browser.click("Add a device", "dialog button[type=submit]")
                self.browser.says(words, "dialog .error")

    def test_refusals_of_a_change(self):
        browser = self.browser
        self.add("laptop")
        self.add("router")
        self.sign_in(place="#/office")
        self.open_device("laptop", "move")
        for text, words in [("10.8.0.3", "Another device has this address"), ("10.8.0.255", "can’t give this address"), ("x", "This is no address")]:
            with self.subTest(f"an address: {text}"):
                self.refuse("Address in the network", text, words, "Move")
        browser.click_on(browser.find("[data-part=routes] summary"))
        for text, words in [("10.8.0.3", "own address of a device"), ("10.8.0.1/32", "own address of a device"), ("192.168.0.0/33", "no range of addresses"), ("", "no range of addresses")]:
            with self.subTest(f"a prefix: {text}"):
                self.refuse("Range of addresses", text, words, "Add the route")
        with self.subTest("a device that is gone"):
            self.ask("DELETE", f"{PEERS}/1")
            browser.click("Move", "dialog form button[type=submit]")
            browser.says("This device isn’t there any more", "dialog")
        with self.subTest("a token that ended meanwhile"):
            self.close()
            self.end_token()
            browser.click("Refresh")
            browser.says("You are signed out, because this token was ended")
            self.assertEqual(browser.found("tbody tr"), [])

    def end_token(self):
        """The service is anew at the same port, with a register whose token has ended."""
        from serving import Server

        self.serving.__exit__()
        order("token-end", f"{self.folder}/reg.db", token=TOKEN)
        again = Server(f"{self.folder}/reg.db")
        again.words[2] = f"127.0.0.1:{self.serving.port}"
        self.enterContext(again)

    def test_refused_lines(self):
        """The refused line is shown, in whichever way it is refused, and nothing is sent that has no place for its secret."""
        self.add("laptop")
        browser = self.browser
        self.sign_in(place="#/office/server")
        good = line(key(5), "10.8.0.5/32")
        for name, lines, words, shown in [
            ("no interface", [good], "Line 1 isn’t the line of an interface", "1  "),
            ("all interfaces", [f"wg0\t{INTERFACE}", f"wg0\t{good}"], "wg show all dump", "1  wg0"),
            ("a short line", [INTERFACE, good, "what"], "Line 3 isn’t the line of a peer", "3  what"),
            ("another server", [INTERFACE.replace(SERVER_KEY, key(8))], "Line 1 is refused, and so nothing was taken over. This is the dump of another server", "1  (none)"),
            ("the server's key", [INTERFACE, good, line(SERVER_KEY, "10.8.0.6/32")], "Line 3 is refused, and so nothing was taken over. This is the key of the server", "3  "),
            ("no address", [INTERFACE, line(key(5), "10.8.0.5/99")], "Line 2 is refused, and so nothing was taken over. It has a part that is malformed: number 4", "2  "),
            ("a held address", [INTERFACE, line(key(5), "10.8.0.2/32")], "Line 2 is refused, and so nothing was taken over. Another device has this address", "2  "),
        ]:
            with self.subTest(name):
                browser.run("arguments[0].value = arguments[1]; arguments[0].dispatchEvent(new Event('input'))", browser.field("Or its text"), "\n".join(lines))
                for _ in range(1 if "isn’t" in words or "all" in words else 2):
                    browser.click("Take over", "form button")
                    browser.wait(lambda: browser.text(".plan") or browser.text(".field .error"), "nothing is said")
                browser.says(words, ".field .error")
                self.assertTrue(browser.text("pre.refused").startswith(shown), browser.text("pre.refused"))
        self.assertEqual(len(self.peers()), 1)

    def test_files_of_the_server(self):
        self.add("laptop")
        self.sign_in(place="#/office/server")
        for words, name in [("wg-quick", "quick"), ("wg setconf", "wg")]:
            with self.subTest(name):
                self.browser.click(f"Download for {words}")
                self.assertEqual(self.browser.downloaded(f"office-{name}.conf"), self.ask("GET", f"/networks/office/server/{name}")[1])


@needs_browser
@needs("haproxy", "bash")
class ByHAProxy(AnyChange, PagedHAProxy):
    pass
