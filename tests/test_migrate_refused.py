"""`wgr migrate` of what isn't a register of an earlier version, or can't be migrated: it is refused, and stays as it is."""

import os
import shutil
import sqlite3
import stat
from contextlib import closing
from pathlib import Path

from earlier import READER, SECOND, make, rows_of, schema_of
from faulty import scratch
from program import without_room
from register_file import BUSY, DAMAGED, DENIED, DONE, TABLES, failed
from serving import Server, key, make_register, network_add, order, request
from test_migrate import PEERS, POOL, UNCOUNTED, Migrations
from test_open import BROKEN as BROKEN_ROWS
from test_open import ROWS
from test_register_faults import bound_by_modes

BAD = "UPDATE network SET capacity = 4097"

# The version, what is done to the register first, and why it is refused; of the faults that meet, the first decides.
REFUSED = [
    ("version 9", 1, ["UPDATE meta SET version = 9"], "not_a_register"),
    ("version 0", 1, ["UPDATE meta SET version = 0"], "not_a_register"),
    ("version 4", 3, ["UPDATE meta SET version = 4"], "not_a_register"),
    ("no version", 1, ["DELETE FROM meta"], "not_a_register"),
    ("no version, all tables", 3, ["DELETE FROM meta"], "not_a_register"),
    ("two versions", 1, ["INSERT INTO meta VALUES (2)"], "not_a_register"),
    ("two versions, one of them the present", 3, ["INSERT INTO meta VALUES (1)"], "not_a_register"),
    *((f"no table {name}", 1, [f"DROP TABLE {name}"], "not_a_register") for name in TABLES[:6]),
    ("no index", 1, ["DROP INDEX allowed_peer"], "not_a_register"),
    ("a column more", 1, ["ALTER TABLE peer ADD COLUMN note TEXT"], "not_a_register"),
    ("version 2 without its table", 1, ["UPDATE meta SET version = 2"], "not_a_register"),
    ("version 3 without its tables", 1, ["UPDATE meta SET version = 3"], "not_a_register"),
    ("version 3 without one of them", 2, ["UPDATE meta SET version = 3"], "not_a_register"),
    ("version 2 with another table of this name", 2, ["DROP TABLE second", "CREATE TABLE second (network INTEGER PRIMARY KEY) STRICT"], "not_a_register"),
    ("version 2 with a view of this name", 2, ["DROP TABLE second", "CREATE VIEW second AS SELECT 1 AS network"], "not_a_register"),
    ("a table that refers to a table `second`", 1, ["CREATE TABLE note (network INTEGER REFERENCES second (network))"], "not_a_register"),
    ("a table that refers to a table `reader`", 1, ["CREATE TABLE note (digest BLOB REFERENCES Reader)"], "not_a_register"),
    ("the same in version 2", 2, ["CREATE TABLE note (network INTEGER REFERENCES second)"], "not_a_register"),
    ("a table that refers to a register's table", 1, ["CREATE TABLE note (peer INTEGER REFERENCES peer (id))"], "not_a_register"),
    ("rowids that nothing counts", 1, UNCOUNTED, "not_a_register"),
    ("rowids that nothing counts, in version 2", 2, UNCOUNTED, "not_a_register"),
    ("a table `second`", 1, ["CREATE TABLE second (text TEXT)"], "not_empty"),
    ("a table `second` as it would be made", 1, [SECOND], "not_empty"),
    ("a table `Reader`", 1, ["CREATE TABLE Reader (text TEXT)"], "not_empty"),
    ("both as they would be made", 1, [SECOND, READER], "not_empty"),
    ("a table `reader` in version 2", 2, ["CREATE TABLE reader (text TEXT)"], "not_empty"),
    ("a table `reader` as it would be made, in version 2", 2, [READER], "not_empty"),
    ("an index `second`", 1, ["CREATE INDEX second ON peer (label)"], "not_empty"),
    ("an index `reader` on a table of somebody's own", 1, ["CREATE TABLE note (text TEXT)", "CREATE INDEX READER ON note (text)"], "not_empty"),
    ("an index `reader` in version 2", 2, ["CREATE INDEX reader ON peer (label)"], "not_empty"),
    ("a view `second`", 1, ["CREATE VIEW second AS SELECT 1 AS network"], "not_empty"),
    ("a view `reader`", 1, ["CREATE VIEW reader AS SELECT digest FROM token"], "not_empty"),
    ("a view `reader` in version 2", 2, ["CREATE VIEW reader AS SELECT digest FROM token"], "not_empty"),
    ("a row that is no good", 1, [BAD], "not_good"),
    ("a row that is no good, in version 2", 2, [BAD], "not_good"),
    ("a row that is no good, in version 3", 3, [BAD], "not_good"),
    ("a second pool in version 2", 2, [POOL], "not_good"),
    ("a second pool in version 3", 3, [POOL], "not_good"),
    ("a reader of no token", 3, ["INSERT INTO reader VALUES (zeroblob(32))"], "not_good"),
    ("version 9 and a table `second`", 1, ["UPDATE meta SET version = 9", "CREATE TABLE second (text TEXT)"], "not_a_register"),
    ("version 9 and a row that is no good", 1, ["UPDATE meta SET version = 9", BAD], "not_a_register"),
    ("rowids that nothing counts, and a table `second`", 1, [*UNCOUNTED, SECOND], "not_a_register"),
    ("rowids that nothing counts, and a row that is no good", 1, [*UNCOUNTED, BAD], "not_a_register"),
    ("a table `second` and one that refers to it", 1, [SECOND, "CREATE TABLE note (network INTEGER REFERENCES second)"], "not_a_register"),
    ("a table `second` and a row that is no good", 1, ["CREATE TABLE second (text TEXT)", BAD], "not_empty"),
    ("a table `reader` and a second pool, in version 2", 2, ["CREATE TABLE reader (text TEXT)", POOL], "not_empty"),
]


class Refused(Migrations):
    def test_each(self):
        good = make_register(self.folder)
        for place, (name, version, statements, why) in enumerate(REFUSED):
            with self.subTest(name):
                self.db = self.path(f"{place}.db")
                make(self.db, version, good, *statements)
                self.stays(why)

    def test_rows(self):
        """All rows are tested, as where a register is opened."""
        good = make_register(self.folder)
        order("tenant-add", good, "bolt")
        order("token-grant", good, "bolt", token="xyz")
        network_add(good, "bolt", "lab", "10.9.0.0/24", port="2")
        with closing(sqlite3.connect(good)) as file:
            file.executescript(ROWS)
        for place, (name, sql) in enumerate(BROKEN_ROWS):
            with self.subTest(name):
                self.db = self.path(f"{place}.db")
                made = self.path(f"{place}.rows.db")
                shutil.copyfile(good, made)
                with closing(sqlite3.connect(made)) as file:
                    file.executescript(sql)
                # The first version has no such rows.
                if rows_of(made)["second"] or rows_of(made)["reader"]:
                    continue
                make(self.db, 1, made)
                self.stays("not_good")

    def test_no_file(self):
        self.assertEqual(self.migrate(), failed("not_a_register"))
        self.assertEqual(self.migrate(self.path("none/register.db")), failed("not_a_register"))
        self.assertEqual(os.listdir(self.folder), [])

    def test_no_register(self):
        with self.subTest("an empty file"):
            Path(self.db).touch()
            self.assertEqual(self.migrate(), failed("not_a_register"))
            self.assertEqual(rows_of(self.db), {})
        with self.subTest("another database"):
            self.change("CREATE TABLE note (text TEXT)", "INSERT INTO note VALUES ('mine')")
            self.assertEqual(self.migrate(), failed("not_a_register"))
            self.assertEqual(rows_of(self.db), {"note": [("mine",)]})
        with self.subTest("another database with the tables that are to be made"):
            self.change("DROP TABLE note", SECOND, READER)
            self.assertEqual(self.migrate(), failed("not_a_register"))
        with self.subTest("no database"):
            text = b"not a database, but longer than a header of one hundred bytes" * 10
            Path(self.db).write_bytes(text)
            self.assertEqual(self.migrate(), failed("store", DAMAGED))
            self.assertEqual(Path(self.db).read_bytes(), text)
        with self.subTest("a folder"):
            self.assertEqual(self.migrate(str(self.folder)), failed("store", DENIED))

    def test_a_register_that_is_cut(self):
        make(self.db, 1, make_register(self.folder))
        whole = Path(self.db).read_bytes()
        for length in [len(whole) // 2, len(whole) - 1, 512]:
            with self.subTest(length):
                Path(self.db).write_bytes(whole[:length])
                self.assertEqual(self.migrate(), failed("store", DAMAGED))
                self.assertEqual(Path(self.db).read_bytes(), whole[:length])

    def test_in_use(self):
        make(self.db, 1, make_register(self.folder))
        before = rows_of(self.db)
        with closing(sqlite3.connect(self.db, isolation_level=None)) as file:
            file.execute("BEGIN EXCLUSIVE")
            self.assertEqual(self.migrate(), failed("store", BUSY))
        self.assertEqual(rows_of(self.db), before)
        self.assertEqual(self.migrate(), DONE)

    def test_a_file_that_may_not_be_read_or_written(self):
        make(self.db, 1, make_register(self.folder))
        before = Path(self.db).read_bytes()
        for mode in [0, stat.S_IRUSR, stat.S_IWUSR]:
            with self.subTest(oct(mode)):
                Path(self.db).chmod(mode)
                self.assertEqual(self.migrate(prepare=bound_by_modes), failed("store", DENIED))
        Path(self.db).chmod(stat.S_IRUSR | stat.S_IWUSR)
        self.assertEqual(Path(self.db).read_bytes(), before)

    def test_a_register_that_is_served(self):
        self.db = make_register(self.folder)
        with Server(self.db) as server:
            self.assertEqual(self.migrate(), failed("store", BUSY))
            self.assertIn(b" 200 OK", server.send(request("POST", PEERS, {"key": key(1)})))
        self.assertEqual(self.migrate(), DONE)
        self.assertEqual(len(self.query("SELECT * FROM peer")), 1)

    def test_a_log_that_takes_nothing(self):
        for version in [1, 2]:
            with self.subTest(version=version):
                self.db = self.path(f"{version}.db")
                make(self.db, version, make_register(self.enterContext(scratch())))
                before, schema = rows_of(self.db), schema_of(self.db)
                self.assertEqual(self.migrate(prepare=without_room), failed("store"))
                self.assertEqual((rows_of(self.db), schema_of(self.db)), (before, schema))
                self.assertEqual(self.migrate(), DONE)
                self.is_migrated(before, schema)
