"""The page for tenants for all readers: names and roles, the keyboard alone, contrast, a telephone's width, other zones and formats."""

import json

from paging import PagedNginx, needs_browser
from serving import PEERS
from tools import needs

TAB, ENTER, ESCAPE = "\ue004", "\ue007", "\ue00c"
PLACES = ["", "/addresses", "/server"]
# Texts whose contrast with what is behind them is less than WCAG 2.2 wants (1.4.3): 4.5, and 3 for large ones.
FAINT = """
const levels = (colour) => colour.match(/[\\d.]+/g).map(Number);
const light = ([red, green, blue]) => [red, green, blue].map((it) => it / 255).map((it) => (it <= 0.04045 ? it / 12.92 : ((it + 0.055) / 1.055) ** 2.4))
    .reduce((sum, it, place) => sum + it * [0.2126, 0.7152, 0.0722][place], 0);
const behind = (it) => {
    for (let at = it; at; at = at.parentElement) {
        const back = levels(getComputedStyle(at).backgroundColor);
        if (back.length === 3 || back[3] === 1) return back;
    }
    return [255, 255, 255];
};
const found = [];
for (const it of document.querySelectorAll("body *")) {
    const hasText = [...it.childNodes].some((child) => child.nodeType === 3 && child.textContent.trim());
    const open = document.querySelector("dialog[open]");
    if (!hasText || !it.checkVisibility() || it.closest("svg, option, noscript, .skip") || (open && !open.contains(it))) continue;
    const style = getComputedStyle(it);
    const [one, other] = [light(levels(style.color)), light(behind(it))].sort((a, b) => b - a);
    const size = parseFloat(style.fontSize);
    const least = size >= 24 || (size >= 18.66 && Number(style.fontWeight) >= 700) ? 3 : 4.5;
    if ((one + 0.05) / (other + 0.05) < least) found.push([it.textContent.trim().slice(0, 40), style.color, ((one + 0.05) / (other + 0.05)).toFixed(2)]);
}
return found;
"""
# What leads out of the width of the window, and what is smaller than WCAG 2.2 wants of what is clicked (2.5.8).
WIDE = "return [...document.querySelectorAll('body *')].filter((it) => it.checkVisibility() && it.getBoundingClientRect().right > innerWidth + 1 && !it.closest('pre, textarea, .skip')).map((it) => it.outerHTML.slice(0, 80))"
SMALL = """return [...document.querySelectorAll("button, input:not([type=checkbox]), select, summary, nav a")].filter((it) => it.checkVisibility())
    .map((it) => [it.textContent, it.getBoundingClientRect()]).filter(([, box]) => box.height && Math.min(box.width, box.height) < 24).map(([name]) => name)"""
FOCUSED = "const it = document.activeElement; return (it.labels?.[0] ?? it).textContent.trim()"


@needs_browser
@needs("nginx")
class People(PagedNginx):
    def setUp(self):
        super().setUp()
        self.add("laptop", end=4_000_000_000)
        self.add("router")
        self.ask("POST", f"{PEERS}/2/routes", json.dumps({"prefix": "192.168.4.0/24"}))

    def go(self, place, words):
        self.browser.run("location.hash = arguments[0]", f"#/office{place}")
        self.browser.says(words)

    def states(self):
        """Each state of the page, with its name."""
        browser = self.browser
        self.open()
        yield "signing in"
        self.sign_in(place="#/office")
        browser.says("2 devices")
        yield "devices"
        browser.click("router", "tbody button")
        for part in browser.found("dialog summary"):
            browser.click_on(part)
        browser.click("Revoke …")
        yield "a device"
        browser.click("Close")
        browser.click("Add a device")
        browser.click("More choices")
        browser.fill("Label", "ö")
        browser.click("Add a device", "dialog button[type=submit]")
        yield "a refusal"
        browser.fill("Label", "telephone")
        browser.click("Add a device", "dialog button[type=submit]")
        browser.says("telephone is ready", "dialog")
        browser.click("Done")
        yield "a new device"
        browser.click("Done")
        self.go("/addresses", "addresses are free")
        browser.click("The same as a table")
        yield "addresses"
        self.go("/server", "Take over")
        browser.fill("Or its text", "what")
        browser.click("Take over", "form button")
        browser.says("Line 1")
        yield "the server"

    def test_each_state(self):
        """What is clicked has a name and room; nothing is too faint, in light and dark; nothing leads out of a telephone's width."""
        for state in self.states():
            with self.subTest(f"{state}: names"):
                self.assertEqual(self.nameless(), [])
            for scheme in ["light", "dark"]:
                with self.subTest(f"{state}: contrast, {scheme}"):
                    self.browser.resize(1280, 900, scheme)
                    self.assertEqual(self.browser.run(FAINT), [])
            with self.subTest(f"{state}: a telephone's width"):
                self.browser.resize(360, 800)
                self.assertEqual(self.browser.run(WIDE), [])
                self.assertEqual(self.browser.run(SMALL), [])
            self.browser.resize(1280, 900)

    def nameless(self):
        """What has the focus in its turn, or a role that wants a name, and has none, as a screen reader has it."""
        wanted = {"button", "link", "textbox", "searchbox", "checkbox", "combobox", "dialog", "table", "image", "navigation", "columnheader", "heading", "Date"}
        nodes = self.browser.devtools("Accessibility.getFullAXTree")["nodes"]
        shown = [node for node in nodes if not node.get("ignored") and node.get("role", {}).get("value") in wanted]
        assert len(shown) > 3, nodes
        return [node["role"]["value"] for node in shown if not node.get("name", {}).get("value")]

    def test_roles(self):
        """The table is one for a screen reader, and the heads say the order."""
        self.sign_in(place="#/office")
        self.browser.says("2 devices")
        nodes = self.browser.devtools("Accessibility.getFullAXTree")["nodes"]
        roles = [node["role"]["value"] for node in nodes if not node.get("ignored")]
        self.assertEqual([roles.count(role) for role in ["table", "row", "columnheader", "rowheader", "cell", "main", "banner"]], [1, 3, 6, 2, 10, 1, 1])
        self.assertEqual(self.browser.run("return document.querySelector('thead th').getAttribute('aria-sort')"), "ascending")

    def test_by_keyboard(self):
        """From signing in to a new device and back, by Tab, Enter and Escape."""
        browser = self.browser
        self.open()
        browser.run("document.querySelector('main').focus()")
        self.tab_to("Access token")
        browser.press("abc" + ENTER)
        browser.says("2 devices")
        self.assertEqual(browser.run(FOCUSED), "office")
        order = self.tab_to("laptop")
        self.assertEqual(order[:6], ["Add a device", "Devices", "Addresses", "Server", "Refresh", "Search"])
        browser.press(ENTER)
        browser.says("Keepalive", "dialog")
        browser.press(ESCAPE)
        browser.wait(lambda: not browser.found("dialog"), "Escape doesn't close it")
        self.assertEqual(browser.run(FOCUSED), "laptop")
        browser.run("document.querySelector('h1').focus()")
        self.tab_to("Add a device")
        browser.press(ENTER)
        browser.wait(lambda: browser.run(FOCUSED) == "Label", "the label hasn't the focus")
        browser.press("tablet" + ENTER)
        browser.says("tablet is ready", "dialog")
        browser.press(ESCAPE)
        browser.says("its private key is lost", "dialog")
        self.tab_to("Download tablet.conf")
        browser.press(ENTER)
        self.assertIn(b"PrivateKey = ", browser.downloaded("tablet.conf"))
        browser.press(ESCAPE)
        browser.says("3 devices")

    def tab_to(self, name):
        """Presses Tab until this has the focus, and gives what had it on the way."""
        passed = []
        while len(passed) < 40:
            self.browser.press(TAB)
            passed.append(self.browser.run(FOCUSED))
            if passed[-1] == name:
                return passed
        self.fail(passed)

    def test_formats(self):
        """Times are in the reader's zone, and numbers in the reader's format."""
        self.browser.devtools("Emulation.setTimezoneOverride", timezoneId="Asia/Tokyo")
        self.browser.devtools("Emulation.setLocaleOverride", locale="de-DE")
        self.addCleanup(self.browser.devtools, "Emulation.setLocaleOverride")
        self.sign_in(place="#/office")
        self.browser.click("laptop", "tbody button")
        # 4000000000 is 2096-10-02T07:06:40Z.
        self.browser.says("02.10.2096, 16:06", "dialog")
        self.browser.click("Close")
        self.go("/server", "4.096 devices")
