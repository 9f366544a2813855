"""What is opened: a register whose rows another program has changed, and files that hold none."""

import shutil
import sqlite3
import tempfile
import unittest
from pathlib import Path

from earlier import EARLIER, READER, SECOND
from keys import key_text
from program import Left, run

DONE = Left(0, b"done\n")


def address(text):
    """The 16 bytes that a column has for an IPv4 address, as SQLite writes a blob."""
    return "x'" + bytes([0] * 12 + [int(part) for part in text.split(".")]).hex() + "'"


def key_blob(byte):
    return f"x'{bytes([byte] * 32).hex()}'"


# Two peers of network 1, acme's `office` in 10.8.0.0/24, and a route to the first; network 2 is bolt's
# `lab` in 10.9.0.0/24, and has none.
ROWS = f"""
INSERT INTO peer (id, network, key, label, until, keepalive, handshake, received, sent) VALUES
  (1048577, 1, {key_blob(1)}, 'laptop', 0, 0, NULL, NULL, NULL),
  (1048578, 1, {key_blob(2)}, '', 4000000000, 25, 1, 2, 3);
INSERT INTO allowed (network, family, lo, length, hi, peer, kind) VALUES
  (1, 4, {address("10.8.0.2")}, 32, {address("10.8.0.2")}, 1048577, 'address'),
  (1, 4, {address("10.8.0.3")}, 32, {address("10.8.0.3")}, 1048578, 'address'),
  (1, 4, {address("192.168.4.0")}, 24, {address("192.168.4.255")}, 1048577, 'route');
UPDATE network SET next = 3 WHERE id = 1;
"""

NEW_TOKEN = "INSERT INTO token (digest, tenant) VALUES"
NEW_PEER = "INSERT INTO peer (id, network, key, label, until, keepalive) VALUES"
NEW_ALLOWED = "INSERT INTO allowed (network, family, lo, length, hi, peer, kind) VALUES"
ROUTE = "UPDATE allowed SET {} WHERE kind = 'route'"
PEER = "UPDATE peer SET {} WHERE id = 1048577"
OFFICE = "UPDATE network SET {} WHERE id = 1"
TENANT = "UPDATE tenant SET {} WHERE id = 1"

# Each breaks one rule of a register.
BROKEN = [
    ("a tenant's name in capitals", TENANT.format("name = 'Acme'")),
    ("a tenant's name of 33 bytes", TENANT.format(f"name = '{33 * 'a'}'")),
    ("a tenant's empty name", TENANT.format("name = ''")),
    ("a tenant's id above 65,536", "INSERT INTO tenant (id, name) VALUES (65537, 'cato')"),
    ("a tenant's id of 0", "INSERT INTO tenant (id, name) VALUES (0, 'cato')"),
    ("a digest of 31 bytes", f"{NEW_TOKEN} (x'{31 * '01'}', 1)"),
    ("a token of nobody's", f"{NEW_TOKEN} ({key_blob(7)}, 9)"),
    ("a network of nobody's", OFFICE.format("tenant = 9")),
    ("a network's name in capitals", OFFICE.format("name = 'Office'")),
    ("a pool that overlaps", "UPDATE network SET lo = {}, length = 20 WHERE id = 2".format(address("10.8.0.0"))),
    ("a pool with a host bit", OFFICE.format(f"lo = {address('10.8.0.1')}")),
    ("a pool of length 31", OFFICE.format("length = 31")),
    ("a pool of no family", OFFICE.format("family = 5")),
    ("a host in capitals", OFFICE.format("host = 'VPN.example.net'")),
    ("a host with a blank", OFFICE.format("host = 'a b'")),
    ("port 0", OFFICE.format("port = 0")),
    ("port 65,536", OFFICE.format("port = 65536")),
    ("a server's key of 31 bytes", OFFICE.format(f"server = x'{31 * '01'}'")),
    ("a capacity of 0", OFFICE.format("capacity = 0")),
    ("a capacity of 4,097", OFFICE.format("capacity = 4097")),
    ("more peers than the capacity", OFFICE.format("capacity = 1")),
    ("a peer's number at next", OFFICE.format("next = 2")),
    ("a next number of 0", OFFICE.format("next = 0")),
    ("a next number of 1,000,002", OFFICE.format("next = 1000002")),
    ("a peer with the server's key", OFFICE.format(f"server = {key_blob(1)}")),
    ("a peer's key of 31 bytes", PEER.format(f"key = x'{31 * '01'}'")),
    ("a label with a tab", PEER.format("label = 'a\tb'")),
    ("a label of 65 bytes", PEER.format(f"label = '{65 * 'a'}'")),
    ("an end above the limit", PEER.format("until = 9007199254740992")),
    ("an end below 0", PEER.format("until = -1")),
    ("a keepalive of 65,536", PEER.format("keepalive = 65536")),
    ("a part of a status", PEER.format("handshake = 1")),
    ("a count below 0", "UPDATE peer SET sent = -1 WHERE id = 1048578"),
    ("a peer of another network than its id's", PEER.format("network = 2")),
    ("a peer of no network", f"{NEW_PEER} (9437185, 9, {key_blob(7)}, '', 0, 0)"),
    ("a peer without an address", "DELETE FROM allowed WHERE peer = 1048578"),
    ("an address of no peer", "DELETE FROM peer WHERE id = 1048578"),
    ("an address that the pool never gives", f"UPDATE allowed SET lo = {address('10.8.0.255')}, hi = {address('10.8.0.255')} WHERE peer = 1048578"),
    ("an address outside the pool", f"UPDATE allowed SET lo = {address('10.7.0.9')}, hi = {address('10.7.0.9')} WHERE peer = 1048578"),
    ("an address that is no full length", f"UPDATE allowed SET lo = {address('10.8.0.4')}, hi = {address('10.8.0.5')}, length = 31 WHERE peer = 1048578"),
    ("two addresses of one peer", f"{NEW_ALLOWED} (1, 4, {address('10.8.0.9')}, 32, {address('10.8.0.9')}, 1048577, 'address')"),
    ("an end of a prefix off by one", ROUTE.format(f"hi = {address('192.168.4.254')}")),
    ("a route with a host bit", ROUTE.format(f"lo = {address('192.168.4.1')}")),
    ("a route to no peer", ROUTE.format("peer = 1048579")),
    ("a route to another network's peer", ROUTE.format("network = 2")),
    ("a route at the server's address", ROUTE.format(f"lo = {address('10.8.0.1')}, hi = {address('10.8.0.1')}, length = 32")),
    ("an address of another kind", ROUTE.format("kind = 'other'")),
    ("an allowed prefix of no network", ROUTE.format("network = 9")),
    ("a second pool", f"INSERT INTO second VALUES (1, 6, x'fd{15 * '00'}', 64)"),
    ("a second pool of no network", f"INSERT INTO second VALUES (9, 6, x'fd{15 * '00'}', 64)"),
    ("a reader of no token", f"INSERT INTO reader VALUES ({key_blob(7)})"),
    ("one beside a good one", f"INSERT INTO reader SELECT digest FROM token WHERE tenant = 1; INSERT INTO reader VALUES ({key_blob(7)})"),
    ("one whose token ended", "INSERT INTO reader SELECT digest FROM token; DELETE FROM token WHERE tenant = 2"),
    ("one in a register without a token", f"DELETE FROM token; INSERT INTO reader VALUES ({key_blob(7)})"),
    ("one of 31 bytes", "INSERT INTO reader SELECT substr(digest, 1, 31) FROM token WHERE tenant = 1"),
    ("one of 33 bytes", "INSERT INTO reader SELECT CAST(digest || x'00' AS BLOB) FROM token WHERE tenant = 1"),
    ("one of no bytes", "INSERT INTO reader VALUES (x'')"),
    ("a token's text in place of its digest", "INSERT INTO reader VALUES (CAST('acme' AS BLOB))"),
    ("a token of 31 bytes that only reads", "UPDATE token SET digest = substr(digest, 1, 31) WHERE tenant = 1; INSERT INTO reader SELECT digest FROM token"),
]

# None of these does.
GOOD = [
    ("nothing", ""),
    ("a tenant's id of 65,536", "INSERT INTO tenant (id, name) VALUES (65536, 'cato')"),
    ("a name of 32 bytes", TENANT.format(f"name = '{32 * 'a'}'")),
    ("a network that has given all its numbers", OFFICE.format("next = 1000001")),
    ("as many peers as the capacity", OFFICE.format("capacity = 2")),
    ("the least port", OFFICE.format("port = 1")),
    ("a lease that is over", PEER.format("until = 1")),
    ("a route at full length", ROUTE.format(f"lo = {address('10.8.0.9')}, hi = {address('10.8.0.9')}, length = 32")),
    ("all addresses as a route", ROUTE.format(f"lo = {address('0.0.0.0')}, hi = {address('255.255.255.255')}, length = 0")),
    ("a token that only reads", "INSERT INTO reader SELECT digest FROM token WHERE tenant = 1"),
    ("the other one", "INSERT INTO reader SELECT digest FROM token WHERE tenant = 2"),
    ("all tokens, in the order of their digests", "INSERT INTO reader SELECT digest FROM token ORDER BY digest"),
    ("and in the other", "INSERT INTO reader SELECT digest FROM token ORDER BY digest DESC"),
    ("a reader at another rowid", "INSERT INTO reader (rowid, digest) SELECT -9, digest FROM token WHERE tenant = 1"),
    ("a reader in a table made anew", f"DROP TABLE second; DROP TABLE reader; {READER}; {SECOND}; INSERT INTO reader SELECT digest FROM token WHERE tenant = 1"),
    ("a table of one's own", "CREATE TABLE note (id INTEGER PRIMARY KEY, text TEXT)"),
    ("tables of second pools and of tokens that only read, made anew behind it", f"DROP TABLE second; DROP TABLE reader; CREATE TABLE note (text TEXT); {READER}; {SECOND}"),
]

# What holds no register of any version.
FOREIGN = [
    ("a later version", "UPDATE meta SET version = 4"),
    ("version 0", "UPDATE meta SET version = 0"),
    ("no version", "DELETE FROM meta"),
    ("two versions", "INSERT INTO meta VALUES (1)"),
    ("no table of second pools", "DROP TABLE second"),
    ("no table of tokens that only read", "DROP TABLE reader"),
    ("a table `second` of another form", "DROP TABLE second; CREATE TABLE second (network INTEGER PRIMARY KEY, family INTEGER NOT NULL, lo BLOB NOT NULL, length INTEGER) STRICT"),
    ("a view in place of a table", "DROP TABLE reader; CREATE VIEW reader AS SELECT digest FROM token"),
    ("a table that refers to `second`", "CREATE TABLE note (network INTEGER REFERENCES second (network))"),
    ("a table that refers to `reader`", "CREATE TABLE note (digest BLOB REFERENCES reader)"),
    ("a table less", "DROP TABLE token"),
    ("an index less", "DROP INDEX allowed_peer"),
    ("a column more", "ALTER TABLE peer ADD COLUMN note TEXT"),
    ("a table that refers to ours", "CREATE TABLE note (peer INTEGER REFERENCES peer (id))"),
]


# What holds one of an earlier version.
BEFORE = [
    ("version 1", "DROP TABLE reader; DROP TABLE second; UPDATE meta SET version = 1"),
    ("version 2", "DROP TABLE reader; UPDATE meta SET version = 2"),
    ("version 1, with tables that have the names of later ones", "UPDATE meta SET version = 1"),
    ("version 2, with a table that has the name of a later one", "UPDATE meta SET version = 2"),
]


class Opening(unittest.TestCase):
    @classmethod
    def setUpClass(cls):
        cls.folder = Path(cls.enterClassContext(tempfile.TemporaryDirectory()))
        cls.register = str(cls.folder / "good.db")
        orders = [["init"]]
        for tenant, name, pool, port in [("acme", "office", "10.8.0.0/24", "1"), ("bolt", "lab", "10.9.0.0/24", "2")]:
            words = ["--pool", pool, "--host", "vpn.example.net", "--port", port, "--capacity", "4096"]
            words += ["--key", key_text(bytes([9] * 32))]
            orders += [["tenant-add", tenant], ["token-grant", tenant], ["network-add", tenant, name, *words]]
        for word, *words in orders:
            left = run([word, cls.register, *words], words[0].encode() if word == "token-grant" else b"")
            assert left == DONE, (word, left)
        cls.do(cls.register, ROWS)

    @staticmethod
    def do(database, statements):
        link = sqlite3.connect(database)
        link.executescript(statements)
        link.close()

    def opened_after(self, statements):
        """What an order is answered once the statements are done, and whether the file stayed."""
        database = self.folder / "changed.db"
        shutil.copyfile(self.register, database)
        self.do(str(database), statements)
        before = database.read_bytes()
        left = run(["tenant-add", str(database), "new"])
        return left, database.read_bytes() == before

    def test_rows(self):
        for name, statements in BROKEN:
            with self.subTest(name):
                self.assertEqual(self.opened_after(statements), (Left(1, b"", b"wgr: not_good\n"), True))

    def test_good_rows(self):
        for name, statements in GOOD:
            with self.subTest(name):
                self.assertEqual(self.opened_after(statements)[0], DONE)

    def test_earlier_versions(self):
        for name, statements in BEFORE:
            with self.subTest(name):
                self.assertEqual(self.opened_after(statements), (EARLIER, True))

    def test_tables(self):
        for name, statements in FOREIGN:
            with self.subTest(name):
                self.assertEqual(self.opened_after(statements), (Left(1, b"", b"wgr: not_a_register\n"), True))
