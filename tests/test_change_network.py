"""dist/wgr-change-network: another host, port, key or capacity of a network."""

import os
import re
import sqlite3
from contextlib import closing
from pathlib import Path

from program import Left
from register_file import BUSY, failed
from serving import PEERS, key, network_add, request
from shipped import ANOTHER, BEFORE, NEW, OLD, OTHER, Shipped, rows_of
from test_batch import batch


class Changes(Shipped):
    def setUp(self):
        super().setUp()
        network_add(self.database, "acme", "lab", "10.9.0.0/24", port="7", host="h")
        messages = [request("POST", PEERS, {"key": key(number)}) for number in [1, 2]]
        self.assertEqual(batch(self.database, 0, messages).out.count(b" 200 OK"), 2)

    def dump(self, path=None):
        with closing(sqlite3.connect(f"file:{path or self.database}?mode=ro&immutable=1", uri=True)) as link:
            return list(link.iterdump())

    def change(self, *words):
        return self.run_script("wgr-change-network", self.database, *words)

    def test_changes(self):
        """The row of the network is as the words say, all else is the same, and the register as it was is kept."""
        rows = [
            ("an IPv6 host", ["--host", "2001:db8::1"], ["2001:db8::1", 51820, 9, 4096]),
            ("port", ["--port", "1"], ["2001:db8::1", 1, 9, 4096]),
            ("key", ["--key", key(3)], ["2001:db8::1", 1, 3, 4096]),
            ("the least capacity", ["--capacity", "2"], ["2001:db8::1", 1, 3, 2]),
            ("all", ["--host", "VPN2.example.net", "--port", "65535", "--key", key(9), "--capacity", "4096"], ["vpn2.example.net", 65535, 9, 4096]),
        ]
        for name, words, (host, port, of, capacity) in rows:
            with self.subTest(name):
                before, mode = self.dump(), os.stat(self.database).st_mode
                left = self.change("acme", "office", *words)
                found = re.fullmatch(r"done; (.*) is the register as it was\n", left.out.decode())
                self.assertEqual((left.status, left.err, found is not None), (0, b"", True), left)
                row = (f"'{host}',{port},X'{32 * f'{of:02X}'}',{capacity},3")
                due = [re.sub(r"'[^']*',\d+,X'\w{64}',\d+,3", row, line) if "'office'" in line else line for line in before]
                self.assertNotEqual(due, before)
                self.assertEqual(self.dump(), due)
                self.assertEqual(self.dump(found[1]), before)
                self.assertEqual(os.stat(self.database).st_mode, mode)
                self.assertEqual(batch(self.database, 0, [request("GET", PEERS)]).out.count(b'"number"'), 2)

    def test_refusals(self):
        """The register is the same file, byte for byte, and nothing is left beside it."""
        taken = "another network has this host and port"
        bad = "wgr refuses the change: wgr: not_good"
        rows = [
            ("a host that is none", ["acme", "office", "--host", "a_b"], bad),
            ("port 65536", ["acme", "office", "--port", "65536"], bad),
            ("a short key", ["acme", "office", "--key", "AAAA"], bad),
            ("a peer's key", ["acme", "office", "--key", key(1)], bad),
            ("capacity 4097", ["acme", "office", "--capacity", "4097"], bad),
            ("a capacity below the peers", ["acme", "office", "--capacity", "1"], bad),
            ("a capacity below the peers, with one whose lease is over", ["acme", "office", "--capacity", "2"], bad),
            ("another network's endpoint", ["acme", "office", "--host", "h", "--port", "7"], taken),
            ("no such network", ["acme", "lobby", "--port", "1"], "acme has no network lobby"),
        ]
        self.assertIn(b" 200 OK", batch(self.database, 0, [request("POST", PEERS, {"key": key(4), "end": 1})]).out)
        before, names = Path(self.database).read_bytes(), self.names(".")
        for name, words, told in rows:
            with self.subTest(name):
                self.assertEqual(self.change(*words), Left(1, b"", f"wgr-change-network: {told}\n".encode()))
                self.assert_untouched(before, names)
        for words in [["acme", "office"], ["acme", "office", "--port", "x"], ["acme", "office", "--key", "*"]]:
            with self.subTest(words):
                self.assertEqual(self.change(*words).status, 2)
                self.assert_untouched(before, names)

    def test_another_version(self):
        """Also one that wgr knows by then."""
        real = os.readlink(self.bin / "wgr")
        rows = [
            ("of another version", "UPDATE meta SET version = 9", OTHER, ANOTHER),
            ("of an earlier version", "UPDATE meta SET version = 2", BEFORE.format(self.database), OLD),
            ("with a second pool", "INSERT INTO second VALUES (1, 6, zeroblob(16), 64)", "wgr: not_good", NEW),
            ("without a table", "DROP TABLE second", OTHER, "no register: no such table: second"),
        ]
        good = Path(self.database).read_bytes()
        for name, sql, why, is_what in rows:
            Path(self.database).write_bytes(good)
            with closing(sqlite3.connect(self.database)) as link:
                link.execute(sql)
                link.commit()
            # The empty log that wgr leaves beside each file that it has opened.
            Path(f"{self.database}-wal").touch()
            before, names = Path(self.database).read_bytes(), self.names(".")
            for by, does, told in [("wgr", f'exec {real} "$@"', f"can't be opened: {why}"), ("a later wgr", "exit 0", f"is {is_what}")]:
                with self.subTest(name, by=by):
                    self.stand_in("wgr", does)
                    self.assertEqual(self.change("acme", "office", "--port", "1"), Left(1, b"", f"wgr-change-network: {self.database} {told}\n".encode()))
                    self.assert_untouched(before, names)

    def test_a_register_that_is_served(self):
        self.serve()
        left = self.change("acme", "office", "--port", "1")
        self.assertEqual(left, Left(1, b"", f"wgr-change-network: {self.database} can't be opened: wgr: store: {BUSY}\n".encode()))

    def test_nobody_opens_it_meanwhile(self):
        """While the copy is judged, a service that starts is refused the register."""
        real = (self.bin / "wgr").resolve()
        self.stand_in("wgr", f'[[ $2 == "$DB" ]] || {real} tenant-add "$DB" bolt 2>"$ROOM/meanwhile"; exec {real} "$@"')
        self.assertEqual(self.change("acme", "office", "--port", "1").status, 0)
        self.assertEqual((self.folder / "meanwhile").read_bytes(), failed("store", BUSY).err)
        self.assertEqual(rows_of(self.database, "SELECT name FROM tenant"), [("acme",)])


if __name__ == "__main__":
    unittest.main()

