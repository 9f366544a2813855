"""The page for tenants: the table of devices up to 4,096, and the picture of a pool."""

import json
import time

from crowd import Crowd, make_place
from paging import PagedNginx, labels, needs_browser
from serving import PEERS, SERVER_KEY, key, make_register, network_add
from tools import needs

# The most milliseconds to the first rows of a table, and between two frames, on a machine that is busy with other tests.
SHOWN, FRAME = 3_000, 200
# After a click on a button: how many rows a table that tells of so many devices has at first, and the time from the reply
# until they are on the screen.
SHOWN_AFTER = """
const [button, count] = arguments;
const former = document.querySelector("main tbody");
return new Promise((show) => {
    const look = new MutationObserver(() => {
        if (former.isConnected || !document.querySelector(".count").textContent.startsWith(count)) return;
        look.disconnect();
        const rows = document.querySelectorAll("main tbody tr").length;
        // The second frame begins once the first one is drawn.
        requestAnimationFrame(() => requestAnimationFrame(() => {
            const replies = performance.getEntriesByType("resource").filter((it) => it.name.endsWith("/peers"));
            show([rows, performance.now() - replies[replies.length - 1].responseEnd]);
        }));
    });
    look.observe(document.querySelector("main"), {childList: true, subtree: true});
    button.click();
});
"""
# The milliseconds between two frames, of many in which the page is scrolled on, in order.
FRAMES = """
return new Promise((show) => {
    const times = [];
    let last = performance.now();
    const step = (now) => {
        times.push(now - last);
        last = now;
        scrollBy(0, 120);
        if (times.length < 60) requestAnimationFrame(step);
        else show(times.sort((one, other) => one - other));
    };
    requestAnimationFrame(step);
});
"""


@needs_browser
@needs("nginx")
class Table(PagedNginx):
    def see(self):
        """Four devices as their interface shows them: label, end, handshake and bytes."""
        now = int(time.time())
        lines = [f"(none)\t{SERVER_KEY}\t51820\toff\n"]
        for label, address, end, seen, received in [
            ("b10", "10.8.0.20", now + 3 * 86_400 - 60, now - 60, 5_000),
            ("b9", "10.8.0.100", 0, now - 40 * 86_400, 7_000_000_000),
            ("a", "10.8.0.3", now + 90 * 86_400, 0, 0),
            ("c", "10.8.0.4", now + 86_500, now - 7_200, 0),
        ]:
            made = self.add(label, address=address, end=end)
            lines.append(f"{made['key']}\t(none)\t(none)\t(none)\t{seen}\t{received}\t0\toff\n")
        assert self.ask("POST", "/networks/office/dump", "".join(lines))[0] == 200

    def test_order_and_filters(self):
        browser = self.browser
        self.see()
        self.ask("POST", f"{PEERS}/2/routes", json.dumps({"prefix": "192.168.4.0/24"}))
        self.sign_in()
        browser.says("4 devices")
        self.assertEqual(labels(browser), ["a", "b9", "b10", "c"])
        for column, wanted in [
            ("Label", ["c", "b10", "b9", "a"]),
            ("Address", ["a", "c", "b10", "b9"]),
            ("Lease ends", ["c", "b10", "a", "b9"]),
            ("Last handshake", ["b10", "c", "b9", "a"]),
            ("Traffic", ["b9", "b10", "a", "c"]),
            ("Traffic", ["a", "c", "b10", "b9"]),
            ("Public key", sorted(["a", "b9", "b10", "c"], key=lambda label: next(peer["key"] for peer in self.peers() if peer["label"] == label))),
        ]:
            with self.subTest(f"by {column}"):
                browser.click(column, "thead button")
                self.assertEqual(labels(browser), wanted)
                self.assertEqual(browser.run("return [...document.querySelectorAll('th[aria-sort]')].map((it) => it.innerText.trim())"), [column])
        browser.click("Label", "thead button")
        for words, wanted in [("B1", ["b10"]), ("10.8.0.4", ["c"]), ("192.168.4", ["b9"]), (key(103), ["a"]), ("b 10.8.0.2", ["b10"]), ("nothing", []), ("", ["a", "b9", "b10", "c"])]:
            with self.subTest(f"search for {words!r}"):
                browser.fill("Search", words or " ")
                self.assertEqual(labels(browser), wanted)
        for choice, wanted in [
            ("Lease ends within 7 days", ["b10", "c"]), ("Lease has an end", ["a", "b10", "c"]), ("Lease has no end", ["b9"]), ("Connected within a day", ["b10", "c"]),
            ("Not connected for 30 days", ["b9"]), ("Never connected", ["a"]), ("With traffic", ["b9", "b10"]), ("Without traffic", ["a", "c"]), ("All devices", ["a", "b9", "b10", "c"]),
        ]:
            with self.subTest(choice):
                browser.choose("Show", choice)
                self.assertEqual(labels(browser), wanted)
        with self.subTest("what stands out"):
            self.assertEqual(browser.run("return [...document.querySelectorAll('.soon')].map((it) => it.textContent)"), ["Ends in 2 days", "Ends in 1 day"])
        with self.subTest("times and bytes"):
            row = browser.run("return [...document.querySelectorAll('tbody tr')].map((it) => it.innerText).find((it) => it.startsWith('b9'))")
            for words in ["No end", "1 month ago", "↓ 0 byte", "↑ 7 GB"]:
                self.assertIn(words, row)


@needs_browser
@needs("nginx")
class Crowded(PagedNginx):
    make_register = staticmethod(make_place)

    def test_4096_devices(self):
        reply = self.serving.send(Crowd().dump())
        self.assertTrue(reply.startswith(b"HTTP/1.1 200 "), reply[:200])
        self.sign_in()
        self.browser.says("4,096 devices")
        button = self.browser.find("button", "Refresh")
        # A quiet machine takes far less than a second, since the first rows don't wait for the others.
        self.browser.wait(lambda: len(labels(self.browser)) == 4096, "not all rows follow")
        self.assertIn(self.browser.run(SHOWN_AFTER, button, "4,096")[0], range(32, 257))
        self.browser.wait(lambda: self.browser.run(SHOWN_AFTER, button, "4,096")[1] < SHOWN, "the first rows are late")
        self.browser.wait(lambda: len(labels(self.browser)) == 4096, "not all rows follow")
        with self.subTest("the last one"):
            self.browser.fill("Search", "10.64.16.1")
            self.browser.says("of 4,096 devices")
            self.assertIn("Device 4096", labels(self.browser))
            self.browser.fill("Search", " ")
            self.browser.wait(lambda: len(labels(self.browser)) == 4096, "not all are shown again")
        with self.subTest("it scrolls"):
            # On a quiet machine, half of the frames are no later than the next of a screen with 60 a second.
            self.browser.wait(lambda: self.browser.run(FRAMES)[30] < FRAME, "it stops as it scrolls")


def make_pools(folder):
    """Networks of the least and the largest pools of each family, and of one between."""
    database = make_register(folder)
    for place, (name, pool) in enumerate([("tiny", "10.9.0.0/29"), ("huge", "11.0.0.0/8"), ("six", "fd00:8::/64")], 51821):
        network_add(database, "acme", name, pool, port=str(place))
    return database


@needs_browser
@needs("nginx")
class Pools(PagedNginx):
    make_register = staticmethod(make_pools)

    def names(self):
        return self.browser.run("return [...document.querySelectorAll('.grid button')].map((it) => it.getAttribute('aria-label'))")

    def put(self, network, address, number, *routes):
        assert self.ask("POST", f"/networks/{network}/peers", json.dumps({"key": key(number), "label": f"device {number}", "address": address}))[0] == 200
        for prefix in routes:
            assert self.ask("POST", f"/networks/{network}/peers/{number}/routes", json.dumps({"prefix": prefix}))[0] == 200

    def go(self, network):
        self.browser.run("location.hash = arguments[0]", f"#/{network}/addresses")
        self.browser.says(network, "h1")
        self.browser.find(".grid button")

    def test_single_addresses(self):
        """Of a /29: the server and five more; a free one is offered, a held one opens its device."""
        browser = self.browser
        self.put("tiny", "10.9.0.3", 1, "10.9.0.4/31")
        self.sign_in(place="#/tiny/addresses")
        browser.says("2 of 8 addresses are free")
        wanted = [
            "10.9.0.0 – the network’s own address", "10.9.0.1 – the server", "10.9.0.2 – free – add a device here", "10.9.0.3 – device 1",
            "10.9.0.4 – in a route to device 1 – add a device here", "10.9.0.5 – in a route to device 1 – add a device here", "10.9.0.6 – free – add a device here", "10.9.0.7 – the broadcast address",
        ]
        self.assertEqual(self.names(), wanted)
        with self.subTest("by the keyboard"):
            browser.run("document.querySelector('.grid button').focus()")
            for key_name, place in [("\ue014", 1), ("\ue014", 2), ("\ue012", 1), ("\ue015", 1), ("\ue010", 7), ("\ue011", 0)]:
                browser.press(key_name)
                self.assertEqual(browser.run("return document.activeElement.getAttribute('aria-label')"), wanted[place])
                self.assertEqual(browser.text(".told"), wanted[place])
        with self.subTest("as a table"):
            browser.click("The same as a table")
            browser.find("table.plain tbody tr")
            rows = browser.run("return [...document.querySelectorAll('table.plain tbody tr')].map((it) => [...it.children].map((cell) => cell.textContent))")
            self.assertEqual(rows, [
                ["10.9.0.0", "1", "the network’s own address"], ["10.9.0.1", "1", "the server"], ["10.9.0.2", "1", "free"], ["10.9.0.3", "1", "device 1"],
                ["10.9.0.4 – 10.9.0.5", "2", "in a route to device 1"], ["10.9.0.6", "1", "free"], ["10.9.0.7", "1", "the broadcast address"],
            ])
        browser.click("10.9.0.3")
        browser.says("device 1", "dialog h2")
        browser.click("Close")
        browser.click("10.9.0.6")
        browser.click("Add a device", "dialog button[type=submit]")
        browser.says("Address = 10.9.0.6/32", "dialog")

    def test_rows(self):
        """A row has a power of two, so that prefixes begin and end at its edges; arrows up and down lead from row to row."""
        browser = self.browser
        self.sign_in(place="#/office/addresses")
        browser.says("10.8.0.0/24")
        browser.find(".grid button")
        for width, columns in [(1280, 32), (960, 16), (700, 16), (360, 8)]:
            with self.subTest(width):
                browser.resize(width, 900)
                self.assertEqual(browser.run("return new Set([...document.querySelectorAll('.grid button')].map((it) => it.offsetLeft)).size"), columns)
                browser.run("document.querySelector('.grid button').focus()")
                browser.press("\ue015")
                self.assertTrue(browser.text(".told").startswith(f"10.8.0.{columns} "), browser.text(".told"))
                browser.press("\ue013")
                self.assertTrue(browser.text(".told").startswith("10.8.0.0 "), browser.text(".told"))

    def test_ranges(self):
        """Of a /8 and a /64, at first where the devices are, and from there out to the whole and in again."""
        browser = self.browser
        self.put("huge", "11.0.0.2", 1)
        self.put("huge", "11.0.3.7", 2, "11.128.0.0/9")
        self.put("six", "fd00:8::5", 1)
        self.sign_in(place="#/huge/addresses")
        free = 2**24 - 3 - 2 - (2**23 - 1)
        browser.says(f"{free:,} of 16,777,216 addresses are free")
        with self.subTest("at first"):
            self.assertEqual(self.names()[:4], ["11.0.0.0/24 – device 1, 253 free", "11.0.1.0/24 – 0 devices, 256 free", "11.0.2.0/24 – 0 devices, 256 free", "11.0.3.0/24 – device 2, 255 free"])
        with self.subTest("the whole, in proportion"):
            browser.click("11.0.0.0/8", ".crumbs button")
            names = self.names()
            self.assertEqual((len(names), names[0], names[128], names[255]), (256, "11.0.0.0/16 – 2 devices, 65,532 free", "11.128.0.0/16 – 0 devices, 0 free", "11.255.0.0/16 – 0 devices, 0 free"))
            filled = browser.run("return [...document.querySelectorAll('.grid button')].map((it) => [it.style.getPropertyValue('--held'), it.style.getPropertyValue('--route')])")
            self.assertEqual((filled[0], filled[1], filled[200]), (["1%", "0%"], ["0%", "0%"], ["0%", "100%"]))
        with self.subTest("in again"):
            browser.click("11.0.0.0/16")
            browser.click("11.0.3.0/24")
            self.assertEqual(self.names()[7], "11.0.3.7 – device 2")
        with self.subTest("a /64"):
            self.go("six")
            browser.says("18,446,744,073,709,551,613 of 18,446,744,073,709,551,616 addresses are free")
            self.assertEqual((self.names()[2], self.names()[5], self.names()[255]), ("fd00:8::2 – free – add a device here", "fd00:8::5 – device 1", "fd00:8::ff – free – add a device here"))
            browser.click("fd00:8::/64", ".crumbs button")
            self.assertEqual((len(self.names()), self.names()[255]), (256, "fd00:8:0:0:ff00::/72 – 0 devices, 72,057,594,037,927,936 free"))
