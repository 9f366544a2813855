"""docs/ASSURANCE.md: its sizes are those of the sources, and the tool that counts them counts what it says."""

import re
import subprocess
import unittest
from pathlib import Path

TOP = Path(__file__).resolve().parent.parent
PAGE = (TOP / "docs/ASSURANCE.md").read_text()


def sizes():
    """What tools/sizes prints: a count for each name."""
    printed = subprocess.run([TOP / "tools/sizes"], capture_output=True, text=True, check=True).stdout
    return {name: int(count.replace(",", "")) for name, count in re.findall(r"(?m)^(.+?) +([\d,]+)$", printed)}


class Assurance(unittest.TestCase):
    def test_the_sizes(self):
        """Within a tenth, so that a small change needs no other page."""
        counted = sizes()
        said = re.findall(r"(?m)^\| ([^|]+?) \| ([\d,]+) \|$", PAGE)
        self.assertGreater(len(said), 5)
        for name, count in said:
            with self.subTest(name):
                self.assertAlmostEqual(int(count.replace(",", "")) / counted[name], 1, delta=0.1)

    def test_the_core(self):
        """What to read first is named with its lines, in the tool's order."""
        counted = sizes()
        core = [(name, count) for name, count in counted.items() if name.startswith("core: ")]
        said = re.findall(r"(?m)^\d\. \[\w+\.antt\]\(\.\./crates/([\w/.]+)\) \((\d+)", PAGE)
        self.assertEqual([f"core: {path}" for path, _ in said], [name for name, _ in core])
        for (_, lines), (name, count) in zip(said, core, strict=True):
            with self.subTest(name):
                self.assertAlmostEqual(int(lines) / count, 1, delta=0.1)
        self.assertEqual(sum(count for _, count in core), counted["the core in all"])

    def test_lines_that_count(self):
        """A file whose lines are counted by hand: blanks, comments and `use` are left out."""
        path = TOP / "crates/wgr_model/specs/Runs.antt"
        lines = [it.strip() for it in path.read_text().splitlines()]
        count = len([it for it in lines if it and not it.startswith(("--", "use "))])
        self.assertEqual(sizes()[f"core: {path.relative_to(TOP / 'crates')}"], count)
