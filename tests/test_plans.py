"""How SQLite's C library would run the statements of the register: whose rows each of them reads."""

import re
import sqlite3
import tempfile
import unittest
from pathlib import Path

from serving import make_register

SOURCES = Path(__file__).resolve().parent.parent / "crates"

# The crate that reads only the rows that a request needs, where its network isn't in memory.
ROWS = "wgr_rows"

# The crates whose statements are run by requests and orders.
CRATES = ["wgr_tables", "wgr_entries", ROWS]

# An order that adds a network, and the opening, read whole tables: of these, only the first is in these
# crates, in this file.
WHOLE_TABLES = "all.rt"
# The list of the tokens that only read is read whole too, in the order of its key.
WHOLE_LISTS = {"SELECT NULL, digest FROM reader ORDER BY digest"}


# A query of networks, without what follows the table's name: the argument of the macro.
NETWORKS = re.search(r'macro_rules! select_networks \{.*?"(SELECT [^"]*)"', (SOURCES / "wgr_columns/src/columns.rt").read_text(), re.S)[1]


def statements():
    """The statements that requests and orders run, with the crate and the file that each is in."""
    for crate in CRATES:
        for file in sorted((SOURCES / crate / "src").glob("*.rt")):
            for found in re.finditer(r'"((?:SELECT|INSERT|UPDATE|DELETE) [^"]*)"|select_networks!\((?:"([^"]*)")?\)', file.read_text()):
                yield crate, file.name, found[1] or NETWORKS + (found[2] or "")


def plan_of(link, statement):
    count = len(set(re.findall(r"\?\d+", statement)))
    return [row[3] for row in link.execute(f"EXPLAIN QUERY PLAN {statement}", [None] * count)]


class Plans(unittest.TestCase):
    def test_no_table_is_scanned(self):
        with tempfile.TemporaryDirectory() as folder:
            link = sqlite3.connect(make_register(folder))
            self.addCleanup(link.close)
            seen = []
            for _, file, statement in statements():
                plan = plan_of(link, statement)
                with self.subTest(statement):
                    scans = [line for line in plan if line.startswith("SCAN")]
                    self.assertEqual(bool(scans), file == WHOLE_TABLES or statement in WHOLE_LISTS, plan)
                seen.append(file)
        # A token, a tenant and a network by their keys, and a tenant's networks.
        self.assertEqual(seen.count("lookup.rt"), 4)
        self.assertGreater(len(seen), 20)

    def test_no_rows_are_sorted(self):
        """Those that are read where a network isn't in memory come in their order, so the first ones may be enough."""
        with tempfile.TemporaryDirectory() as folder:
            link = sqlite3.connect(make_register(folder))
            self.addCleanup(link.close)
            texts = [statement for crate, _, statement in statements() if crate == ROWS]
            for statement in texts:
                # The program reads a range of rowids where both bounds are given, and so does the C library once a
                # plus keeps it from the index.
                plan = plan_of(link, statement.replace("network = ?1 AND id >= ", "+network = ?1 AND id >= "))
                with self.subTest(statement):
                    self.assertEqual([line for line in plan if "TEMP B-TREE" in line or line.startswith("SCAN")], [], plan)
            # Peers by key, by number, those whose leases are over, and their count; a prefix, and those in the pool,
            # with the peers to which they lead and without.
            self.assertEqual(len(texts), 7)

    def test_prefixes_alone_are_read_from_their_key(self):
        with tempfile.TemporaryDirectory() as folder:
            link = sqlite3.connect(make_register(folder))
            self.addCleanup(link.close)
            texts = [it for crate, _, it in statements() if crate == ROWS and "lo >= " in it and "peer" not in it]
            self.assertEqual(len(texts), 1)
            self.assertIn("USING COVERING INDEX", " ".join(plan_of(link, texts[0])))
