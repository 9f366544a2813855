"""dist/wgr-free-pool: the next free pool of several registers."""

import json
import os
import shutil
import sqlite3
from contextlib import closing

from program import Left, run
from serving import key, network_add, order
from shipped import BEFORE, OTHER, Shipped


class Pools(Shipped):
    def test_free_pools(self):
        rows = [
            ("the space is empty", [], "24", "10.8.0.0/16", "10.8.0.0/24"),
            ("behind one", ["10.8.0.0/24"], "24", "10.8.0.0/16", "10.8.1.0/24"),
            ("between two", ["10.8.0.0/30", "10.8.2.0/24"], "24", "10.8.0.0/16", "10.8.1.0/24"),
            ("no room between", ["10.8.0.0/24", "10.8.2.0/24"], "23", "10.8.0.0/16", "10.8.4.0/23"),
            ("all is held", ["10.8.0.0/16"], "24", "10.8.0.0/16", None),
            ("a pool around the space", ["10.0.0.0/8"], "24", "10.8.0.0/16", None),
            ("IPv6", ["fd00::/64", "10.0.0.0/24"], "64", "fd00::/56", "fd00:0:0:1::/64"),
            ("IPv6 up to its end", [f"fd00:0:0:{place:x}::/64" for place in range(3)], "64", "fd00::/62", "fd00:0:0:3::/64"),
        ]
        for name, pools, length, space, due in rows:
            with self.subTest(name):
                run(["network-end", self.database, "acme", "office"])
                for place, pool in enumerate(pools):
                    network_add(self.database, "acme", f"n{place}", pool, port=str(place + 1))
                left = self.run_script("wgr-free-pool", length, self.database, "--within", space)
                told = f"wgr-free-pool: {space} has no free pool of length {length}\n".encode()
                self.assertEqual(left, Left(1, b"", told) if due is None else Left(0, f"{due}\n".encode()))
                if due:
                    network_add(self.database, "acme", "free", due, port="65535")
                    order("network-end", self.database, "acme", "free")
                for place, _ in enumerate(pools):
                    order("network-end", self.database, "acme", f"n{place}")

    def test_several_registers(self):
        os.rename(self.database, self.folder / "first.db")
        other = self.folder / "second.db"
        shutil.copy(self.folder / "first.db", other)
        order("network-end", str(other), "acme", "office")
        network_add(str(other), "acme", "lab", "10.8.1.0/24")
        left = self.run_script("wgr-free-pool", "24", "first.db", "second.db", "--within", "10.8.0.0/16")
        self.assertEqual(left, Left(0, b"10.8.2.0/24\n"))

    def test_services(self):
        """The pools of each service and of each copy that is named count, those of now."""
        os.rename(self.database, self.folder / "first.db")
        for name, pool in [("second.db", "10.8.1.0/24"), ("third.db", "10.8.2.0/24")]:
            shutil.copy(self.folder / "first.db", self.folder / name)
            order("network-end", str(self.folder / name), "acme", "office")
            network_add(str(self.folder / name), "acme", "lab", pool)
        for name in ["first", "second"]:
            self.serve(str(self.folder / f"{name}.db"), orders=self.folder / name)
        rows = [
            ("one", ["--orders", "first"], "10.8.1.0/24"),
            ("another", ["--orders", "second"], "10.8.0.0/24"),
            ("two", ["--orders", "first", "--orders", "second"], "10.8.2.0/24"),
            ("one and a copy", ["third.db", "--orders", "first"], "10.8.1.0/24"),
            ("two and a copy", ["--orders", "first", "--orders", "second", "third.db"], "10.8.3.0/24"),
        ]
        for name, words, due in rows:
            with self.subTest(name):
                self.assertEqual(self.run_script("wgr-free-pool", "24", *words, "--within", "10.8.0.0/16"), Left(0, f"{due}\n".encode()))
        with self.subTest("a network that was just added"):
            added = self.run_script("wgr", "send", "first", "network-add", "acme", "new", "10.8.1.0/24", "h", "1", key(9), "9")
            self.assertEqual(added, Left(0, b"done\n"))
            self.assertEqual(self.run_script("wgr-free-pool", "24", "--orders", "first", "--within", "10.8.0.0/16"), Left(0, b"10.8.2.0/24\n"))
        with self.subTest("nobody takes orders at one of them"):
            left = self.run_script("wgr-free-pool", "24", "--orders", "first", "--orders", "none")
            self.assertEqual(left, Left(1, b"", b"wgr-free-pool: the service at none doesn't show its networks: wgr: device\n"))
        with self.subTest("no copy"):
            left = self.run_script("wgr-free-pool", "24", "--orders", "first", "none.db")
            self.assertEqual(left, Left(1, b"", b"wgr-free-pool: there is no copy none.db\n"))
        with self.subTest("neither"):
            left = self.run_script("wgr-free-pool", "24")
            told = b"wgr-free-pool: error: COPY or --orders is needed, for each register"
            self.assertEqual((left.status, left.out, left.err.splitlines()[-1]), (2, b"", told))

    def test_copies_that_are_not_read(self):
        """The copy is as it was, and nothing is left beside it, as where it is read."""
        rows = [
            ("a good one", "UPDATE meta SET version = 3", None),
            ("of another version", "UPDATE meta SET version = 9", OTHER),
            ("of an earlier version", "UPDATE meta SET version = 1", BEFORE),
            ("with a token that only reads", "INSERT INTO reader SELECT digest FROM token", None),
            ("with rows that aren't good", "UPDATE network SET tenant = 9", "wgr: not_good"),
            ("with a second pool", "INSERT INTO second VALUES (1, 6, zeroblob(16), 64)", "wgr: not_good"),
        ]
        for name, sql, why in rows:
            with self.subTest(name):
                copy = self.folder / "copies/copy.db"
                copy.parent.mkdir(exist_ok=True)
                shutil.copy(self.database, copy)
                with closing(sqlite3.connect(copy)) as link:
                    link.execute(sql)
                    link.commit()
                before = copy.read_bytes()
                left = self.run_script("wgr-free-pool", "24", copy, "--within", "10.8.0.0/16")
                told = why and f"wgr-free-pool: {copy} can't be opened: {why.format(copy)}\n".encode()
                self.assertEqual(left, Left(1, b"", told) if told else Left(0, b"10.8.1.0/24\n"))
                self.assertTrue(copy.read_bytes() == before)
                self.assertEqual(self.names(), ["copy.db"])

    def test_a_network_of_another_version(self):
        """More is said of it than the tool reads, which may be another pool."""
        [tenant] = json.loads(self.run_script("wgr", "show", self.database, "--json").out)["tenants"]
        tenant["networks"][0]["pool6"] = "fd00::/64"
        self.stand_in("wgr", f"echo '{json.dumps({'tenants': [tenant]})}'")
        for words, place in [([self.database], self.database), (["--orders", "orders"], "orders")]:
            with self.subTest(words):
                told = f"wgr-free-pool: wgr shows {place} in a form that this tool doesn't know: one of the two is of another version\n"
                self.assertEqual(self.run_script("wgr-free-pool", "24", *words), Left(1, b"", told.encode()))

    def test_lengths(self):
        for words in [["31"], ["24", "--within", "10.8.0.0/25"], ["47", "--within", "fd00::/8"]]:
            with self.subTest(words):
                left = self.run_script("wgr-free-pool", *words, self.database)
                self.assertEqual((left.status, left.out), (1, b""))
                self.assertIn(b"has no pools of length", left.err)


if __name__ == "__main__":
    unittest.main()

