"""The man pages of dist/, and the notice."""

import re
import subprocess
import unittest
from pathlib import Path

from tools import needs

DIST = Path(__file__).resolve().parent.parent / "dist"
# The man pages, and words of each.
PAGES = {
    "wgr.8": [b"network-add", b"migrate", b"--capacity", b"pool_overlaps"],
    "wgr-net.8": [b"again", b"/run/netns/name"],
    "wgr-sync.8": [b"--all", b"/etc/wgr/name", b"preshared/", b"endpoints", b"routes = all | none"],
}


class Files(unittest.TestCase):
    @needs("mandoc")
    def test_the_pages(self):
        for name, words in PAGES.items():
            with self.subTest(name):
                page = str(DIST / name)
                told = subprocess.run(["mandoc", "-T", "lint", "-W", "warning", page], capture_output=True, text=True)
                self.assertEqual((told.returncode, told.stdout), (0, ""))
                shown = re.sub(rb".\x08", b"", subprocess.run(["mandoc", "-T", "ascii", page], capture_output=True).stdout)
                for word in [b"EXIT STATUS", *words]:
                    self.assertIn(word, shown)

    def test_each_message_of_wgr_net_is_on_its_page(self):
        page = (DIST / "wgr-net.8").read_text()
        messages = re.findall(r'(?:fail|say) "([^"]*\$name[^"]*)"', (DIST / "wgr-net").read_text())
        self.assertGreater(len(messages), 8)
        for message in messages:
            with self.subTest(message):
                self.assertIn(message.replace("$name", "NAME"), page)

    def test_the_notice(self):
        lines = (DIST.parent / "crates.txt").read_text().splitlines()
        uses = dict(line.split(":") for line in lines if not line.startswith("#"))
        used = ["wgr_prog"]
        for crate in used:
            used += [name for name in uses.get(crate, "").split() if name not in used]
        crates = set(used) - uses.keys()
        notice = (DIST.parent / "NOTICE").read_text()
        named = re.findall(r"(?m)^(?:Files:)? rattle/(\w+)/\*$", notice)
        self.assertEqual(len(named), len(set(named)))
        self.assertLessEqual(crates, set(named))
        # Each licence that is named has its text.
        licences = {name for line in re.findall(r"(?m)^License: (.*)$", notice) for name in re.split(" or | and ", line)}
        texts = set(re.findall(r"(?m)^License: (\S+)\n ", notice))
        self.assertEqual(licences, texts)
