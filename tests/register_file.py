"""A register's file, made by the program and read by Python's own SQLite."""

import ipaddress
import sqlite3
import tempfile
import unittest
from contextlib import closing
from pathlib import Path

from keys import key_text
from program import Left, run

DONE = Left(0, b"done\n")
# The register's tables.
TABLES = ["meta", "tenant", "token", "network", "peer", "allowed", "second", "reader"]
S = key_text(bytes([200]) * 32)
TOKEN = b"abc"
# The SHA-256 of `abc` (FIPS 180-4 has it as an example).
DIGEST = bytes.fromhex("ba7816bf8f01cfea414140de5dae2223b00361a396177a9cb410ff61f20015ad")

# The options of a network, by their long names.
OFFICE = {
    "pool": "10.8.0.0/24",
    "host": "vpn.example.net",
    "port": "51820",
    "key": S,
    "capacity": "4096",
}


def refused(why):
    return Left(2, b"", b"wgr: %s\n" % why.encode())


# What the second line says of a fault of the store; there is none where it is none of these.
BUSY = "another process has the file open"
DENIED = "the file can't be opened: see its permissions, those of its directory, and whether the disk is full"
DAMAGED = "the file isn't a database, or is damaged"
FULL = "the disk is full"


def failed(*lines):
    return Left(1, b"", b"".join(b"wgr: %s\n" % line.encode() for line in lines))


# A fault of the store, whatever its second line.
STORE = [failed("store"), *(failed("store", line) for line in [BUSY, DENIED, DAMAGED, FULL])]


def options(**changed):
    """The words of a network's options."""
    return [word for name, value in {**OFFICE, **changed}.items() for word in (f"--{name}", value)]


def address_bytes(text):
    """An address as a column keeps it: 16 bytes, IPv4 in the last four."""
    return ipaddress.ip_address(text).packed.rjust(16, b"\0")


def network_row(row, tenant, name, pool, host, port, following=1):
    """A row of `network`: the server's key is S, the capacity 4,096, and `following` the next number."""
    prefix = ipaddress.ip_network(pool)
    lo = address_bytes(prefix.network_address)
    return row, tenant, name, prefix.version, lo, prefix.prefixlen, host, port, bytes([200]) * 32, 4096, following


def pool_of(place):
    """One of 65,536 pools that have no address in common, and its prefix without the last number and length."""
    first = f"10.{place >> 8}.{place & 255}"
    return f"{first}.0/24", first


def put(database, table, rows):
    """Puts rows into a table by Python's own SQLite, which ends the commit in the file itself."""
    with closing(sqlite3.connect(database)) as conn:
        conn.executemany(f"INSERT INTO {table} VALUES ({', '.join('?' * len(rows[0]))})", rows)
        conn.commit()
        conn.execute("PRAGMA wal_checkpoint(TRUNCATE)")


ACME = ("tenant-add", "acme")
BOLT = ("tenant-add", "bolt")
NETWORK = ("network-add", "acme", "office", *options())


class Files(unittest.TestCase):
    """A folder for each test, and a register in it."""

    maxDiff = None

    def setUp(self):
        self.folder = Path(self.enterContext(tempfile.TemporaryDirectory()))
        self.db = str(self.folder / "register.db")

    def path(self, name):
        return str(self.folder / name)

    def init(self, *orders):
        """Makes the register, and does these orders."""
        self.assertEqual(run(["init", self.db]), DONE)
        for words in orders:
            self.assertEqual(self.order(*words), DONE)

    def order(self, word, *words, text=b"", prepare=None):
        return run([word, self.db, *words], text, prepare=prepare)

    def grant(self, tenant, token=TOKEN):
        self.assertEqual(self.order("token-grant", tenant, text=token), DONE)

    def query(self, sql, database=None):
        """The rows that Python's own SQLite reads."""
        with closing(sqlite3.connect(database or self.db)) as conn:
            return conn.execute(sql).fetchall()

    def change(self, *statements):
        """Changes the file by Python's own SQLite, which ends each commit in the file itself."""
        with closing(sqlite3.connect(self.db)) as conn:
            for sql in statements:
                conn.execute(sql)
            conn.commit()
            conn.execute("PRAGMA wal_checkpoint(TRUNCATE)")

    def rows(self, database=None):
        """All rows of all tables."""
        return {name: sorted(self.query(f"SELECT * FROM {name}", database), key=repr) for name in TABLES}
