"""Files that hold no register, registers whose rows are no good, and streams that fail: what the commands print, and what stays."""

import ctypes
import os
import sqlite3
import stat
from contextlib import closing
from pathlib import Path

from earlier import EARLIER
from program import Left, run, without_room
from register_file import ACME, BOLT, BUSY, DAMAGED, DENIED, DONE, NETWORK, TABLES, TOKEN, Files, failed, options

WORDS = [
    ("tenant-add", ["acme"], b""),
    ("token-grant", ["acme"], TOKEN),
    ("token-grant", ["acme", "--right", "read"], TOKEN),
    ("token-end", [], TOKEN),
    ("network-add", ["acme", "office", *options()], b""),
    ("network-end", ["acme", "office"], b""),
]

# A change that makes rows of a register no good.
BROKEN = [
    ("a token of no tenant", "INSERT INTO token VALUES (zeroblob(32), 7)"),
    ("a short digest", "UPDATE token SET digest = x'00'"),
    ("a reader of no token", "INSERT INTO reader VALUES (zeroblob(32))"),
    ("a name that is none", "UPDATE tenant SET name = 'Acme'"),
    ("an id beyond the last", "UPDATE tenant SET id = 65537"),
    ("a network of no tenant", "UPDATE network SET tenant = 7"),
    ("a pool with a host bit", "UPDATE network SET lo = x'0000000000000000000000000a080001'"),
    ("a capacity of 4097", "UPDATE network SET capacity = 4097"),
    ("a host in upper case", "UPDATE network SET host = 'VPN.example.net'"),
    ("a peer of no network", "INSERT INTO peer VALUES (1048577, 2, zeroblob(32), '', 0, 0, NULL, NULL, NULL)"),
]

# prctl(2) and capabilities(7)
PR_CAPBSET_DROP, CAP_DAC_OVERRIDE = 24, 1


def bound_by_modes():
    """Takes from a process of root what lets it write where no mode allows it; others hadn't that."""
    ctypes.CDLL(None).prctl(PR_CAPBSET_DROP, CAP_DAC_OVERRIDE)


class Faults(Files):
    def test_init_twice(self):
        self.init(ACME)
        before = self.rows()
        self.assertEqual(run(["init", self.db]), failed("not_empty"))
        self.assertEqual(self.rows(), before)

    def test_init_beside_other_tables(self):
        self.change("CREATE TABLE note (text TEXT)")
        self.assertEqual(run(["init", self.db]), failed("not_a_register"))
        self.assertEqual(self.query("SELECT name FROM sqlite_schema"), [("note",)])

    def test_init_beside_a_name_of_its_tables(self):
        for name in TABLES:
            for made in [f"CREATE TABLE {name} (text TEXT)", f"CREATE VIEW {name.upper()} AS SELECT 1 AS text"]:
                with self.subTest(made):
                    self.db = self.path(f"{made.split()[1]}-{name}.db")
                    self.change(made)
                    self.assertEqual(run(["init", self.db]), failed("not_empty"))
                    self.assertEqual(self.query("SELECT sql FROM sqlite_schema"), [(made,)])

    def test_init_in_an_empty_database(self):
        self.change("CREATE TABLE note (text TEXT)", "DROP TABLE note")
        self.assertEqual(run(["init", self.db]), DONE)

    def test_init_in_an_empty_file(self):
        Path(self.db).touch()
        self.assertEqual(run(["init", self.db]), DONE)
        self.assertEqual(self.query("SELECT version FROM meta"), [(3,)])

    def each_word(self, left):
        for word, words, text in WORDS:
            with self.subTest(word):
                self.assertEqual(self.order(word, *words, text=text), left)

    def test_a_missing_file_is_not_made(self):
        self.each_word(failed("not_a_register"))
        self.assertEqual(os.listdir(self.folder), [])

    def test_an_empty_file(self):
        Path(self.db).touch()
        self.each_word(failed("not_a_register"))

    def test_an_empty_database(self):
        self.change("CREATE TABLE note (text TEXT)", "DROP TABLE note")
        self.each_word(failed("not_a_register"))

    def test_another_database(self):
        self.change("CREATE TABLE note (text TEXT)", "INSERT INTO note VALUES ('mine')")
        self.each_word(failed("not_a_register"))
        self.assertEqual(self.query("SELECT text FROM note"), [("mine",)])

    def test_another_version(self):
        self.init(ACME)
        for version, left in [(9, failed("not_a_register")), (1, EARLIER), (2, EARLIER)]:
            with self.subTest(version=version):
                self.change(f"UPDATE meta SET version = {version}")
                self.each_word(left)

    def test_no_database(self):
        text = b"not a database, but longer than a header of one hundred bytes" * 10
        Path(self.db).write_bytes(text)
        self.each_word(failed("store", DAMAGED))
        self.assertEqual(run(["init", self.db]), failed("store", DAMAGED))
        self.assertEqual(Path(self.db).read_bytes(), text)

    def test_a_register_that_is_cut(self):
        self.init(ACME, NETWORK)
        whole = Path(self.db).read_bytes()
        for length in [len(whole) // 2, len(whole) - 1, 4096, 512, 99]:
            with self.subTest(length):
                Path(self.db).write_bytes(whole[:length])
                self.each_word(failed("store", DAMAGED))
                self.assertEqual(Path(self.db).read_bytes(), whole[:length])

    def test_a_file_that_may_not_be_read_or_written(self):
        self.init(ACME)
        before = Path(self.db).read_bytes()
        for mode in [0, stat.S_IRUSR, stat.S_IWUSR]:
            with self.subTest(oct(mode)):
                Path(self.db).chmod(mode)
                for word, words, text in WORDS:
                    self.assertEqual(self.order(word, *words, text=text, prepare=bound_by_modes), failed("store", DENIED))
        Path(self.db).chmod(stat.S_IRUSR | stat.S_IWUSR)
        self.assertEqual(Path(self.db).read_bytes(), before)

    def test_a_folder(self):
        self.db = str(self.folder)
        self.each_word(failed("store", DENIED))
        self.assertEqual(run(["init", self.db]), failed("store", DENIED))

    def test_a_folder_that_is_missing(self):
        self.db = self.path("none/register.db")
        self.assertEqual(run(["init", self.db]), failed("store", DENIED))
        self.each_word(failed("not_a_register"))
        self.assertEqual(os.listdir(self.folder), [])

    def test_rows_that_are_not_good(self):
        for name, sql in BROKEN:
            with self.subTest(name):
                self.setUp()
                self.init(ACME, NETWORK)
                self.grant("acme")
                self.change(sql)
                before = self.rows()
                self.assertEqual(self.order("tenant-add", "bolt"), failed("not_good"))
                self.assertEqual(self.rows(), before)

    def test_a_folder_that_is_not_written(self):
        self.folder.chmod(stat.S_IRUSR | stat.S_IXUSR)
        self.addCleanup(self.folder.chmod, stat.S_IRWXU)
        self.assertEqual(run(["init", self.db], prepare=bound_by_modes), failed("store", DENIED))

    def test_a_log_that_takes_nothing(self):
        self.init(ACME)
        before = self.rows()
        for words in [("tenant-add", "bolt"), NETWORK]:
            with self.subTest(words[0]):
                self.assertEqual(self.order(*words, prepare=without_room), failed("store"))
                self.assertEqual(self.rows(), before)

    def test_a_rule_of_ones_own(self):
        self.init(ACME, BOLT)
        self.grant("acme")
        self.change("CREATE UNIQUE INDEX one_token ON token (tenant)")
        before = self.rows()
        self.assertEqual(self.order("token-grant", "acme", text=b"abd"), failed("store"))
        self.assertEqual(self.rows(), before)
        self.grant("bolt", b"abd")

    def test_a_database_in_use(self):
        self.init(ACME)
        with closing(sqlite3.connect(self.db, isolation_level=None)) as conn:
            conn.execute("BEGIN EXCLUSIVE")
            self.each_word(failed("store", BUSY))

    def test_output_that_takes_nothing(self):
        self.init()
        with open("/dev/full", "wb") as full:
            left = run(["tenant-add", self.db, "acme"], stdout=full)
        self.assertEqual(left, failed("device"))
        self.assertEqual(self.query("SELECT name FROM tenant"), [("acme",)])

    def test_standard_error_that_takes_nothing_keeps_the_status(self):
        with open("/dev/full", "wb") as full:
            self.assertEqual(run(["tenant-add", self.db, "_"], stderr=full), Left(2))
            self.assertEqual(run(["tenant-add", self.db, "acme"], stderr=full), Left(1))
