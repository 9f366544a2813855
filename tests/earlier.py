"""Registers whose tables are of an earlier version, made by Python's own SQLite, and what the program says of them."""

import gzip
import shutil
import sqlite3
from contextlib import closing
from pathlib import Path

from program import Left

# A register of the first version with two tenants, as release 0.2.0 left it, with the text of its tables.
FILE = Path(__file__).resolve().parent / "data" / "earlier.db.gz"
# What each command but `init` and `migrate` says of an earlier version.
EARLIER = Left(1, b"", b"wgr: not_a_register\nwgr: the tables are of an earlier version: 'wgr migrate' takes them to this one\n")

# The tables of the first version, which releases up to 0.7.1 made, and those that came with the others.
FIRST = [
    "CREATE TABLE meta (version INTEGER PRIMARY KEY) STRICT",
    "CREATE TABLE tenant (id INTEGER PRIMARY KEY, name TEXT NOT NULL UNIQUE) STRICT",
    "CREATE TABLE token (digest BLOB NOT NULL PRIMARY KEY, tenant INTEGER NOT NULL) STRICT",
    "CREATE TABLE network (id INTEGER PRIMARY KEY, tenant INTEGER NOT NULL, name TEXT NOT NULL, family INTEGER NOT NULL, "
    "lo BLOB NOT NULL, length INTEGER NOT NULL, host TEXT NOT NULL, port INTEGER NOT NULL, server BLOB NOT NULL, "
    "capacity INTEGER NOT NULL, next INTEGER NOT NULL, UNIQUE (tenant, name), UNIQUE (host, port)) STRICT",
    "CREATE TABLE peer (id INTEGER PRIMARY KEY, network INTEGER NOT NULL, key BLOB NOT NULL, label TEXT NOT NULL, "
    "until INTEGER NOT NULL, keepalive INTEGER NOT NULL, handshake INTEGER, received INTEGER, sent INTEGER, UNIQUE (network, key)) STRICT",
    "CREATE TABLE allowed (network INTEGER NOT NULL, family INTEGER NOT NULL, lo BLOB NOT NULL, length INTEGER NOT NULL, "
    "hi BLOB NOT NULL, peer INTEGER NOT NULL, kind TEXT NOT NULL, PRIMARY KEY (network, family, lo, length)) STRICT",
    "CREATE INDEX allowed_peer ON allowed (network, peer)",
]
SECOND = "CREATE TABLE second (network INTEGER PRIMARY KEY, family INTEGER NOT NULL, lo BLOB NOT NULL, length INTEGER NOT NULL) STRICT"
READER = "CREATE TABLE reader (digest BLOB NOT NULL PRIMARY KEY) STRICT"
TABLES = {1: FIRST, 2: [*FIRST, SECOND], 3: [*FIRST, SECOND, READER]}
# The tables whose rows are the same in each version.
SAME = ["tenant", "token", "network", "peer", "allowed"]


def unpack(path):
    """Puts the register of release 0.2.0 there."""
    Path(path).write_bytes(gzip.decompress(FILE.read_bytes()))


def copy(register, path):
    """Copies a register that nobody has open, with its log."""
    for end in ["", "-wal"]:
        if Path(f"{register}{end}").exists():
            shutil.copyfile(f"{register}{end}", f"{path}{end}")


def remove(path):
    for end in ["", "-wal", "-shm"]:
        Path(f"{path}{end}").unlink(missing_ok=True)


def make(path, version, register=None, *statements):
    """Makes a register of this version, with the rows of a register if one is named, and then runs statements on it."""
    rows = f"{path}.rows"
    if register:
        # SQLite would put its log into the file.
        copy(register, rows)
    with closing(sqlite3.connect(path, isolation_level=None)) as file:
        # As the program leaves a file.
        file.execute("PRAGMA journal_mode = WAL")
        for text in TABLES[version]:
            file.execute(text)
        file.execute("INSERT INTO meta VALUES (?)", [version])
        if register:
            file.execute("ATTACH ? AS other", [rows])
            for name in SAME:
                file.execute(f"INSERT INTO {name} SELECT * FROM other.{name}")
            file.execute("DETACH other")
        for text in statements:
            file.execute(text)
        file.execute("PRAGMA wal_checkpoint(TRUNCATE)")
    remove(rows)


def make_logged(path, version, register, *statements):
    """The same, but what the statements do is in the log alone, as where a service was killed."""
    made = f"{path}.made"
    make(made, version, register)
    with closing(sqlite3.connect(made, isolation_level=None)) as file:
        for text in statements:
            file.execute(text)
        copy(made, path)
    remove(made)


def schema_of(path):
    """The kind, the name and the text of each table, index and view, in the order in which they were made."""
    with closing(sqlite3.connect(path)) as file:
        return file.execute("SELECT type, name, sql FROM sqlite_schema").fetchall()


def rows_of(path):
    """The rows of each table, by its name, also of others' tables; where there is no database, nothing."""
    with closing(sqlite3.connect(path)) as file:
        try:
            names = [name for (name,) in file.execute("SELECT name FROM sqlite_schema WHERE type = 'table' ORDER BY name")]
            return {name: sorted(file.execute(f"SELECT * FROM {name}"), key=repr) for name in names}
        except sqlite3.DatabaseError:
            return None
