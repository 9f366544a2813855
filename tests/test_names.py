"""A name of a definition stands for one thing: those that several files define are in the table, and no others."""

import re
import unittest
from collections import Counter, defaultdict
from pathlib import Path

CRATES = Path(__file__).resolve().parent.parent / "crates"
DEFINITION = re.compile(r"(?m)^(?:abbrev |unfoldable )?pub (?:record |data )?(?!mod |record |data )([^\s:]+)")

# Each name with the crates whose definitions have it, without `wgr_`; one crate twice where two of its files do.
# Each is one idea: `wgr_tables` has for the register's database what `wgr_sql` has for any, and `is_there` looks for
# what an option has. Give a new definition a name of its own.
SHARED = """
Stands: sql tables
StepsFrom: sql tables
StepsOn: sql tables
is_there: peers show
"""


def shared():
    """Each such name with each crate that defines it."""
    found = defaultdict(list)
    for file in sorted(CRATES.glob("*/specs/**/*.antt")):
        for name in DEFINITION.findall(file.read_text()):
            found[name].append(file.relative_to(CRATES).parts[0].removeprefix("wgr_"))
    return Counter((name, crate) for name, crates in found.items() if len(crates) > 1 for crate in crates)


class Names(unittest.TestCase):
    maxDiff = None

    def test_shared_names(self):
        lines = SHARED.split("\n")[1:-1]
        table = Counter((name, crate) for name, _, crates in (line.partition(": ") for line in lines) for crate in crates.split())
        self.assertEqual(sorted(shared() - table), [], "another file defines these already: rename, or put them into the table")
        self.assertEqual(sorted(table - shared()), [], "these are no longer shared so: take them out of the table")
        self.assertEqual(lines, sorted(lines))


if __name__ == "__main__":
    unittest.main()
