"""A register that an earlier release made: it is refused until it is migrated, and then shows what it showed then.

`data/earlier.db.gz` is such a file, as version 0.2.0 left it, with the text of its tables; test_migrate.py has others.
"""

import sqlite3
import tempfile
import unittest
from contextlib import closing
from pathlib import Path

from earlier import EARLIER, make, rows_of, unpack
from program import Left, run
from register_file import DONE, options
from serving import SERVER_KEY, done, file_of, key, peer, request
from test_batch import batch, replies

SEEN, NEVER = {"handshake": 1700000000, "received": 1024, "sent": 2048}, {"handshake": 0, "received": 0, "sent": 0}

# What each tenant has, and the third of acme's peers until its lease ends at 100.
OFFICE = {"capacity": 250, "endpoint": "vpn.example.net:51820", "name": "office", "pool": "10.8.0.0/24", "server": SERVER_KEY}
LAB = {"capacity": 4096, "endpoint": "[2001:db8::1]:51821", "name": "lab", "pool": "fd00:8::/64", "server": SERVER_KEY}
PEERS = [
    peer(1, 1, "10.8.0.2/32", "laptop", routes=["192.168.4.0/24", "fd00:4::/64"]),
    peer(2, 2, "10.8.0.20/32", "", 4000000000, 25),
]
THIRD = peer(3, 3, "10.8.0.3/32", "phone", 100, 0, ["192.168.5.0/24"])
THEIRS = [peer(1, 4, "fd00:8::7/128", keepalive=25, routes=["10.0.0.0/8"], status=SEEN), peer(2, 5, "fd00:8::2/128", status=NEVER)]

SERVER_FILE = file_of(
    *["[Interface]", "Address = 10.8.0.1/24", "ListenPort = 51820", ""],
    *["[Peer]", f"PublicKey = {key(1)}", "AllowedIPs = 10.8.0.2/32, 192.168.4.0/24, fd00:4::/64", ""],
    *["[Peer]", f"PublicKey = {key(2)}", "AllowedIPs = 10.8.0.20/32", "PersistentKeepalive = 25"],
)

# The moment, the path, the token, and the reply.
SHOWN = [
    (99, "/networks", "abc", done({"networks": [OFFICE]})),
    (99, "/networks", "xyz", done({"networks": [LAB]})),
    (99, "/networks/office/peers", "abc", done({"peers": [*PEERS, THIRD]})),
    (99, "/networks/office/owner/192.168.5.1", "abc", done({"number": 3})),
    (100, "/networks/office/peers", "abc", done({"peers": PEERS})),
    (100, "/networks/office/server/quick", "abc", SERVER_FILE),
    (100, "/networks/lab/peers", "xyz", done({"peers": THEIRS})),
]


# Each command on a register, by its words behind the path, and the text on standard input.
COMMANDS = [
    ("tenant-add", ["cato"], b""),
    ("token-grant", ["acme"], b"new"),
    ("token-grant", ["acme", "--right", "read"], b"new"),
    ("token-end", [], b"abc"),
    ("token-end", ["--digest", "ba7816bf8f01cfea414140de5dae2223b00361a396177a9cb410ff61f20015ad"], b""),
    ("network-add", ["acme", "more", *options(pool="10.9.0.0/24", port="1")], b""),
    ("network-end", ["bolt", "lab"], b""),
    ("orders", [], b"tenant-add cato\n"),
    ("show", [], b""),
    ("show", ["acme", "--json"], b""),
    ("batch", ["--now", "100", "asked"], b""),
    ("serve", ["127.0.0.1:1", "--count", "1"], b""),
]


class Earlier(unittest.TestCase):
    maxDiff = None

    def setUp(self):
        self.folder = Path(self.enterContext(tempfile.TemporaryDirectory()))
        self.database = str(self.folder / "earlier.db")
        unpack(self.database)

    def test_each_command(self):
        """It is refused with the words that say what to do, and nothing is changed, in a register of either earlier version."""
        (self.folder / "asked").write_bytes(request("GET", "/networks"))
        second = str(self.folder / "second.db")
        make(second, 2, self.database)
        for database in [self.database, second]:
            rows = rows_of(database)
            for word, words, text in COMMANDS:
                with self.subTest(f"{word} {words}", database=Path(database).name):
                    words = [str(self.folder / "asked") if it == "asked" else it for it in words]
                    self.assertEqual(run([word, database, *words], text), EARLIER)
                    self.assertEqual(rows_of(database), rows)

    def test_what_is_told_first(self):
        """What is told of the words, and of files of requests, comes first; standard error may fail."""
        self.assertEqual(run(["tenant-add", self.database, "_"]), Left(2, b"", b"wgr: bad_field name\n"))
        self.assertEqual(run(["batch", self.database, "--now", "7", str(self.folder / "none")]), Left(1, b"", b"wgr: device\n"))
        with open("/dev/full", "wb") as full:
            self.assertEqual(run(["tenant-add", self.database, "cato"], stderr=full), Left(1))

    def test_tables_of_no_version(self):
        """They are told by the first line alone."""
        with closing(sqlite3.connect(self.database)) as file:
            file.execute("UPDATE meta SET version = 9")
            file.commit()
        for word, words, text in COMMANDS:
            if word != "batch":
                with self.subTest(word):
                    self.assertEqual(run([word, self.database, *words], text), Left(1, b"", b"wgr: not_a_register\n"))

    def test_what_it_shows(self):
        self.assertEqual(run(["migrate", self.database]), DONE)
        for moment, path, token, due in SHOWN:
            with self.subTest(path, moment=moment, token=token):
                self.assertEqual(batch(self.database, moment, [request("GET", path, token=token)]), Left(0, due))

    def test_it_is_changed(self):
        self.assertEqual(run(["migrate", self.database]), DONE)
        left = batch(self.database, 100, [request("POST", "/networks/office/peers", {"key": key(6)}), request("GET", "/networks/office/peers")])
        added = peer(4, 6, "10.8.0.3/32")
        self.assertEqual(replies(left.out), [done(added), done({"peers": [*PEERS, added]})])
        self.assertEqual(run(["tenant-add", self.database, "cato"]), DONE)
        self.assertEqual(run(["network-end", self.database, "bolt", "lab"]), DONE)
        with closing(sqlite3.connect(self.database)) as file:
            self.assertEqual(file.execute("PRAGMA integrity_check").fetchall(), [("ok",)])
            self.assertEqual(file.execute("SELECT name FROM tenant ORDER BY name").fetchall(), [("acme",), ("bolt",), ("cato",)])
            self.assertEqual(file.execute("SELECT id & 1048575 FROM peer ORDER BY id").fetchall(), [(1,), (2,), (4,)])
