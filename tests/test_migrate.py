"""`wgr migrate`: registers of earlier versions are taken to the present one."""

import os
import shutil
from pathlib import Path

from earlier import EARLIER, READER, SECOND, make, make_logged, rows_of, schema_of, unpack
from faulty import scratch
from program import Left, run
from register_file import DONE, Files, failed
from serving import SERVER_KEY, TOKEN, key, make_register, network_add, order, refused, request
from test_batch import batch

PEERS, THEIRS = "/networks/office/peers", "/networks/lab/peers"
# What release 0.7.1 answered to ASKED on the register of release 0.2.0, at NOW.
ANSWERS = Path(__file__).resolve().parent / "data" / "earlier_replies.txt"
NOW = 100
DUMP = f"(none)\t{SERVER_KEY}\t51820\toff\n{key(6)}\t(none)\t(none)\t10.8.0.30/32,172.16.0.0/12\t5\t6\t7\toff\n{key(1)}\t(none)\t(none)\t(none)\t9\t9\t9\toff\n"
# Each command of the API, done and refused, of both tenants.
ASKED = [
    request("GET", "/networks"),
    request("GET", "/networks", token="xyz"),
    request("GET", PEERS),
    request("GET", THEIRS, token="xyz"),
    request("GET", "/networks/office/owner/192.168.4.1"),
    request("GET", "/networks/office/owner/192.168.5.1"),
    request("GET", "/networks/lab/owner/10.1.2.3", token="xyz"),
    request("GET", "/networks/office/server/quick"),
    request("GET", "/networks/office/server/wg"),
    request("GET", "/networks/lab/server/quick", token="xyz"),
    request("GET", f"{PEERS}/1/file/quick"),
    request("GET", f"{PEERS}/3/file/quick"),
    request("POST", PEERS, {"key": key(11)}),
    request("POST", PEERS, {"key": key(12), "label": "twelve", "address": "10.8.0.50", "end": 200, "keepalive": 9}),
    request("POST", PEERS, {"key": key(1)}),
    request("POST", PEERS, {"key": SERVER_KEY}),
    request("POST", PEERS, {"key": key(13), "address": "10.8.0.20"}),
    request("POST", THEIRS, {"key": key(11)}, token="xyz"),
    request("POST", f"{PEERS}/1/address", {"address": "10.8.0.40"}),
    request("POST", f"{PEERS}/2/address", {}),
    request("POST", f"{PEERS}/2/address", {"address": "10.8.0.1"}),
    request("POST", f"{PEERS}/2/lease", {"end": 300}),
    request("POST", f"{PEERS}/2/lease", {"end": 50}),
    request("POST", f"{PEERS}/2/routes", {"prefix": "192.168.4.0/24"}),
    request("POST", f"{PEERS}/2/routes", {"prefix": "10.8.0.40/32"}),
    request("POST", "/networks/office/unroute", {"prefix": "fd00:4::/64"}),
    request("POST", "/networks/office/unroute", {"prefix": "192.168.5.0/24"}),
    request("DELETE", f"{PEERS}/1"),
    request("DELETE", f"{PEERS}/1"),
    request("POST", "/networks/office/dump", DUMP.encode()),
    request("POST", "/networks/office/dump", DUMP.encode()[:-9]),
    request("POST", "/networks/lab/dump", DUMP.encode(), token="xyz"),
    request("POST", PEERS, {"key": "x"}),
    request("PUT", PEERS),
    request("GET", "/peers"),
    request("GET", THEIRS),
    request("GET", PEERS, token="nobody"),
    request("GET", PEERS),
    request("GET", THEIRS, token="xyz"),
]
# What the same release printed by `show`.
SHOWN = b"""\
TENANT  NETWORK  POOL         ENDPOINT               CAPACITY  PEERS  ROUTES
acme    office   10.8.0.0/24  vpn.example.net:51820  250       3      3
bolt    lab      fd00:8::/64  [2001:db8::1]:51821    4096      2      1

TENANT  TOKEN
acme    ba7816bf8f01cfea414140de5dae2223b00361a396177a9cb410ff61f20015ad
bolt    3608bca1e44ea6c4d268eb6db02260269892c0b42b86bbf1e77a6fa16c3c9282
"""

NOTE = [
    "CREATE TABLE note (id INTEGER PRIMARY KEY AUTOINCREMENT, text TEXT UNIQUE)",
    "INSERT INTO note (text) VALUES ('mine'), ('too')",
    "CREATE INDEX note_text ON note (text, id)",
    "CREATE VIEW noted AS SELECT text FROM note",
    "CREATE INDEX by_label ON peer (label)",
]
# A table of somebody's own that is written as though it counted its rowids, where nothing counts them.
UNCOUNTED = [
    "CREATE TABLE note (id INTEGER PRIMARY KEY, text TEXT)",
    "PRAGMA writable_schema = ON",
    "UPDATE sqlite_schema SET sql = 'CREATE TABLE note (id INTEGER PRIMARY KEY AUTOINCREMENT, text TEXT)' WHERE name = 'note'",
    "PRAGMA writable_schema = RESET",
]
POOL = "INSERT INTO second VALUES (1, 6, x'fd000009000000000000000000000000', 64)"
READS = "INSERT INTO reader SELECT digest FROM token"

# The version, and what is done to the register first: none of it is in the way.
DONE_ON = [
    ("version 1", 1, []),
    ("version 1 beside a table of somebody's own", 1, NOTE),
    ("version 1 beside one that refers to another of them", 1, ["CREATE TABLE note (id INTEGER PRIMARY KEY)", "CREATE TABLE more (note INTEGER REFERENCES note (id))"]),
    ("version 1 beside names that are near", 1, ["CREATE TABLE seconds (reader TEXT)", "CREATE TABLE readers (second TEXT)"]),
    ("version 1 that had a table `second`", 1, ["CREATE TABLE second (text TEXT)", "INSERT INTO second VALUES ('gone')", "DROP TABLE second"]),
    ("version 2", 2, []),
    ("version 2 beside a table of somebody's own", 2, NOTE),
    ("version 2 that had second pools", 2, [POOL, "DELETE FROM second"]),
]


class Migrations(Files):
    def migrate(self, path=None, **words):
        return run(["migrate", path or self.db], **words)

    def is_migrated(self, before, schema):
        """The rows are those of before, in the tables of the present version, and what else was made is there in its order."""
        rows = rows_of(self.db)
        self.assertEqual(rows, {"second": [], "reader": [], **before, "meta": [(3,)]})
        texts = dict.fromkeys([*schema, ("table", "second", SECOND), ("table", "reader", READER), ("index", "sqlite_autoindex_reader_1", None)])
        self.assertEqual(schema_of(self.db), list(texts))
        self.assertEqual(self.query("PRAGMA integrity_check"), [("ok",)])

    def stays(self, why):
        """It is refused, and the file and its rows are as before; no text is put on standard output."""
        before, rows, schema = Path(self.db).read_bytes(), rows_of(self.db), schema_of(self.db)
        self.assertEqual(self.migrate(), failed(why))
        self.assertTrue(Path(self.db).read_bytes() == before, "the file is changed")
        self.assertEqual((rows_of(self.db), schema_of(self.db)), (rows, schema))


class Done(Migrations):
    def setUp(self):
        super().setUp()
        self.good = make_register(self.folder)
        network_add(self.good, "acme", "lab", "fd00:8::/64", port="1")
        asked = [request("POST", PEERS, {"key": key(1)}), request("POST", f"{PEERS}/1/routes", {"prefix": "10.9.0.0/16"})]
        self.assertEqual(batch(self.good, 7, asked).status, 0)

    def test_each_version(self):
        for name, version, statements in DONE_ON:
            for register in [None, self.good]:
                with self.subTest(name, register=register):
                    if POOL in statements and not register:
                        continue
                    self.db = self.path(f"{len(os.listdir(self.folder))}.db")
                    make(self.db, version, register, *statements)
                    before, schema = rows_of(self.db), schema_of(self.db)
                    self.assertEqual(self.migrate(), DONE)
                    self.is_migrated(before, schema)

    def test_what_a_release_made(self):
        """With the text of its tables; all is answered as that release answers it, byte for byte."""
        unpack(self.db)
        before, schema = rows_of(self.db), schema_of(self.db)
        self.assertEqual(self.migrate(), DONE)
        self.is_migrated(before, schema)
        self.assertEqual(run(["show", self.db]), Left(0, SHOWN))
        self.assertEqual(batch(self.db, NOW, ASKED), Left(0, ANSWERS.read_bytes()))

    def test_each_token_is_full(self):
        """A change with a token from before is done; the token can be granted anew as one that only reads."""
        add, refusal = request("POST", PEERS, {"key": key(7)}), refused(403, "read_only")
        for version in [1, 2]:
            with self.subTest(version=version):
                self.db = self.path(f"{version}.db")
                make(self.db, version, self.good)
                self.assertEqual(self.migrate(), DONE)
                self.assertIn(b" 200 OK", batch(self.db, 7, [add]).out)
                order("token-end", self.db, token=TOKEN)
                order("token-grant", self.db, "acme", "--right", "read", token=TOKEN)
                self.assertEqual(batch(self.db, 7, [add]), Left(0, refusal))
                self.assertEqual(self.migrate(), DONE)
                self.assertEqual(batch(self.db, 7, [add]), Left(0, refusal))

    def test_a_second_time(self):
        """The register of the present version is as it was, byte for byte."""
        for version in [1, 2]:
            self.db = self.path(f"{version}.db")
            make(self.db, version, self.good, *NOTE)
            self.assertEqual(self.migrate(), DONE)
            before = Path(self.db).read_bytes()
            self.assertEqual(self.migrate(), DONE)
            self.assertTrue(Path(self.db).read_bytes() == before)

    def test_the_present_version(self):
        """Also where its tables stand behind others, and where no table counts rowids that are counted: other commands open it."""
        for name, statements in [("as it was made", None), ("without entries", ()), ("tokens that only read", [READS]), ("beside a table", NOTE), ("rowids that nothing counts", UNCOUNTED)]:
            with self.subTest(name):
                self.db = self.path(f"{name}.db")
                if statements is None:
                    shutil.copyfile(self.good, self.db)
                else:
                    make(self.db, 3, self.good if statements else None, *statements)
                before = Path(self.db).read_bytes()
                self.assertEqual(self.migrate(), DONE)
                self.assertTrue(Path(self.db).read_bytes() == before)
                self.assertEqual(rows_of(self.db)["meta"], [(3,)])

    def test_as_though_it_were_made_so(self):
        """Orders and requests leave the same on a migrated register, with another's table between, as on one that was made."""
        with scratch() as folder:
            made, self.db = f"{folder}/made.db", f"{folder}/migrated.db"
            order("init", made)
            make(self.db, 1, None, *NOTE)
            self.assertEqual(self.migrate(), DONE)
            for path in [made, self.db]:
                order("tenant-add", path, "acme")
                order("token-grant", path, "acme", token="abc")
                order("token-grant", path, "acme", token="new")
                order("token-end", path, token="new")
                for token in ["reads", "ends"]:
                    order("token-grant", path, "acme", "--right", "read", token=token)
                order("token-end", path, token="ends")
                network_add(path, "acme", "office", "10.8.0.0/24")
                network_add(path, "acme", "lab", "10.9.0.0/24", port="1")
            asked = [message for message in ASKED if b"xyz" not in message]
            asked += [request("POST", "/networks/lab/peers", {"key": key(1)}, token) for token in ["reads", "abc"]]
            self.assertEqual(batch(self.db, 7, asked), batch(made, 7, asked))
            for path in [made, self.db]:
                order("network-end", path, "acme", "lab")
            rows = rows_of(self.db)
            self.assertEqual((rows.pop("note"), rows.pop("sqlite_sequence")), ([(1, "mine"), (2, "too")], [("note", 2)]))
            self.assertEqual(rows, rows_of(made))

    def test_a_log(self):
        """What a service that was killed left in the log is there."""
        for version in [1, 2]:
            with self.subTest(version=version):
                self.db = self.path(f"{version}.db")
                make_logged(self.db, version, self.good, "INSERT INTO tenant VALUES (2, 'bolt')", "DELETE FROM token")
                self.assertGreater(Path(f"{self.db}-wal").stat().st_size, 4_096)
                self.assertEqual(self.migrate(), DONE)
                rows = rows_of(self.db)
                self.assertEqual((rows["meta"], rows["tenant"], rows["token"], len(rows["peer"])), ([(3,)], [(1, "acme"), (2, "bolt")], [], 1))

    def test_the_file_alone_has_all(self):
        make(self.db, 1, self.good)
        self.assertEqual(self.migrate(), DONE)
        copy = self.path("copy.db")
        shutil.copyfile(self.db, copy)
        self.assertEqual(self.query("SELECT version FROM meta", copy), [(3,)])

    def test_a_link(self):
        make(self.path("real.db"), 1, self.good)
        os.symlink("real.db", self.db)
        self.assertEqual(self.migrate(), DONE)
        self.assertEqual(self.query("SELECT version FROM meta", self.path("real.db")), [(3,)])

    def test_nothing_else_migrates(self):
        make(self.db, 1, self.good)
        self.assertEqual(run(["init", self.db]), failed("not_empty"))
        self.assertEqual(run(["show", self.db]), EARLIER)
        self.assertEqual(self.query("SELECT version FROM meta"), [(1,)])

    def test_output_that_takes_nothing(self):
        make(self.db, 1, self.good)
        with open("/dev/full", "wb") as full:
            self.assertEqual(self.migrate(stdout=full), failed("device"))
        self.assertEqual(self.query("SELECT version FROM meta"), [(3,)])
