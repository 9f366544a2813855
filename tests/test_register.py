"""The words on a register in a file: what they print, what they leave in the file, what they refuse."""

import hashlib
import os
import sqlite3
from contextlib import closing
from pathlib import Path

from keys import K0
from program import run
from register_file import ACME, BOLT, DIGEST, DONE, NETWORK, OFFICE, S, TABLES, TOKEN, Files, address_bytes, failed, options, refused


# Each table's columns, with the kinds that SQLite keeps in them.
COLUMNS = {
    "meta": "version INTEGER",
    "tenant": "id INTEGER, name TEXT",
    "token": "digest BLOB, tenant INTEGER",
    "network": "id INTEGER, tenant INTEGER, name TEXT, family INTEGER, lo BLOB, length INTEGER, host TEXT, "
    "port INTEGER, server BLOB, capacity INTEGER, next INTEGER",
    "peer": "id INTEGER, network INTEGER, key BLOB, label TEXT, until INTEGER, keepalive INTEGER, "
    "handshake INTEGER, received INTEGER, sent INTEGER",
    "allowed": "network INTEGER, family INTEGER, lo BLOB, length INTEGER, hi BLOB, peer INTEGER, kind TEXT",
    "second": "network INTEGER, family INTEGER, lo BLOB, length INTEGER",
    "reader": "digest BLOB",
}


class Done(Files):
    """Each word once, and the rows that it leaves."""

    def tearDown(self):
        self.assertEqual(self.query("PRAGMA integrity_check"), [("ok",)])

    def test_init(self):
        self.assertEqual(run(["init", self.db]), DONE)
        tables = self.query("SELECT name FROM sqlite_schema WHERE type = 'table'")
        self.assertEqual(tables, [(name,) for name in TABLES])
        self.assertEqual(self.rows(), {name: [(3,)] if name == "meta" else [] for name in TABLES})

    def test_the_columns(self):
        self.init()
        for name, columns in COLUMNS.items():
            with self.subTest(name):
                told = self.query(f"SELECT name || ' ' || type FROM pragma_table_info('{name}')")
                self.assertEqual(", ".join(column for (column,) in told), columns)
                self.assertEqual(self.query(f"SELECT strict FROM pragma_table_list('{name}')"), [(1,)])

    def test_the_file_alone_has_all(self):
        self.init(("tenant-add", "acme"))
        copy = Path(self.path("copy.db"))
        copy.write_bytes(Path(self.db).read_bytes())
        with closing(sqlite3.connect(copy)) as conn:
            self.assertEqual(conn.execute("SELECT name FROM tenant").fetchall(), [("acme",)])

    def test_tenant_add(self):
        self.init(("tenant-add", "acme"), ("tenant-add", "b-0"))
        rows = self.query("SELECT id, name FROM tenant ORDER BY name")
        self.assertEqual([name for _, name in rows], ["acme", "b-0"])
        self.assertEqual(len({row for row, _ in rows}), 2)
        for row, _ in rows:
            self.assertIn(row, range(1, 65537))

    def test_token_grant(self):
        self.init(("tenant-add", "acme"))
        self.grant("acme")
        self.grant("acme", b"second\n")
        tenant = self.query("SELECT id FROM tenant")[0][0]
        digests = {DIGEST, hashlib.sha256(b"second").digest()}
        self.assertEqual(set(self.query("SELECT digest, tenant FROM token")), {(d, tenant) for d in digests})
        self.assertEqual(self.query("SELECT digest FROM reader"), [])

    def test_token_grant_with_a_right(self):
        """The digest of a token that only reads is in a table of its own too, and goes with the token."""
        self.init(("tenant-add", "acme"))
        readers = []
        for name, words in [("full", ["--right", "full"]), ("read", ["--right", "read"]), ("read too", ["--right=read"])]:
            with self.subTest(name):
                self.assertEqual(self.order("token-grant", "acme", *words, text=name.replace(" ", "-").encode()), DONE)
                readers += [(hashlib.sha256(name.replace(" ", "-").encode()).digest(),)] * ("read" in name)
                self.assertEqual(self.query("SELECT digest FROM reader ORDER BY rowid"), readers)
        self.assertEqual(len(self.query("SELECT digest FROM token")), 3)
        for name, words, text in [("by its text", [], b"read\n"), ("by its digest", ["--digest", hashlib.sha256(b"read-too").hexdigest()], b"")]:
            with self.subTest(name):
                self.assertEqual(self.order("token-end", *words, text=text), DONE)
                readers.pop(0)
                self.assertEqual(self.query("SELECT digest FROM reader"), readers)
        self.assertEqual(self.query("SELECT digest FROM token"), [(hashlib.sha256(b"full").digest(),)])

    def test_token_end(self):
        self.init(("tenant-add", "acme"))
        self.grant("acme")
        self.grant("acme", b"second")
        self.assertEqual(self.order("token-end", text=b"second\n"), DONE)
        self.assertEqual(self.query("SELECT digest FROM token"), [(DIGEST,)])

    def test_network_add(self):
        self.init(("tenant-add", "acme"), ("network-add", "acme", "office", *options()))
        tenant = self.query("SELECT id FROM tenant")[0][0]
        columns = "tenant, name, family, lo, length, host, port, server, capacity, next"
        self.assertEqual(
            self.query(f"SELECT {columns} FROM network"),
            [(tenant, "office", 4, address_bytes("10.8.0.0"), 24, "vpn.example.net", 51820, bytes([200]) * 32, 4096, 1)],
        )
        self.assertEqual((self.query("SELECT * FROM peer"), self.query("SELECT * FROM allowed")), ([], []))

    def test_network_add_by_other_texts(self):
        words = ("--capacity=0001", f"--key={K0}", "--port=0000000000000065535", "--host=VPN.Example.NET", "--pool=FD00:0::/64")
        self.init(("tenant-add", "acme"), ("network-add", *words, "acme", "v6"))
        columns = "name, family, lo, length, host, port, server, capacity"
        self.assertEqual(
            self.query(f"SELECT {columns} FROM network"),
            [("v6", 6, address_bytes("fd00::"), 64, "vpn.example.net", 65535, bytes(32), 1)],
        )

    def test_a_host_that_is_an_ipv6_address(self):
        self.init(("tenant-add", "acme"), ("network-add", "acme", "v6", *options(host="2001:DB8:0:0:0:0:0:1")))
        self.assertEqual(self.query("SELECT host FROM network"), [("2001:db8::1",)])

    def test_network_end(self):
        self.init(
            ("tenant-add", "acme"),
            ("network-add", "acme", "office", *options()),
            ("network-add", "acme", "lab", *options(pool="10.9.0.0/24", port="51821")),
        )
        office = self.query("SELECT id FROM network WHERE name = 'office'")[0][0]
        lab = self.query("SELECT id FROM network WHERE name = 'lab'")[0][0]
        self.put_peer(office, "10.8.0.2")
        self.put_peer(lab, "10.9.0.2")
        self.assertEqual(self.order("network-end", "acme", "office"), DONE)
        left = [self.query(f"SELECT {column} FROM {table}") for table, column in [("network", "id"), ("peer", "network"), ("allowed", "network")]]
        self.assertEqual(left, [[(lab,)]] * 3)
        self.assertEqual(self.order("network-add", "acme", "office", *options()), DONE)

    def put_peer(self, network, address):
        """Puts peer 1 into a network, as a register keeps it."""
        peer = network * 2**20 + 1
        at = address_bytes(address).hex()
        self.change(
            f"INSERT INTO peer VALUES ({peer}, {network}, x'{bytes([7] * 32).hex()}', '', 0, 0, NULL, NULL, NULL)",
            f"INSERT INTO allowed VALUES ({network}, 4, x'{at}', 32, x'{at}', {peer}, 'address')",
            f"UPDATE network SET next = 2 WHERE id = {network}",
        )

    def test_names_that_begin_with_a_hyphen(self):
        self.init()
        self.assertEqual(run(["tenant-add", "--", self.db, "-x"]), DONE)
        words = ["network-add", "--host=-h", "--pool=10.8.0.0/24", "--port=1", f"--key={S}", "--capacity=1"]
        self.assertEqual(run([*words, "--", self.db, "-x", "-n"]), DONE)
        self.assertEqual(self.query("SELECT name, host FROM network"), [("-n", "-h")])
        self.assertEqual(run(["network-end", "--", self.db, "-x", "-n"]), DONE)
        self.assertEqual(self.query("SELECT * FROM network"), [])

    def test_a_database_with_other_tables(self):
        self.init()
        self.change("CREATE TABLE note (text TEXT)", "INSERT INTO note VALUES ('mine')")
        self.assertEqual(self.order("tenant-add", "acme"), DONE)
        self.assertEqual(self.query("SELECT text FROM note"), [("mine",)])


# The orders, the words, standard input, and the refusal.
REFUSALS = [
    ("a tenant twice", [ACME], ["tenant-add", "acme"], b"", "name_held"),
    ("a token for nobody", [ACME], ["token-grant", "bolt"], TOKEN, "no_such_tenant"),
    ("one that only reads, for nobody", [ACME], ["token-grant", "bolt", "--right", "read"], TOKEN, "no_such_tenant"),
    ("a token that nobody has", [ACME], ["token-end"], b"other", "no_such_token"),
    ("a network of nobody", [ACME], ["network-add", "bolt", "office", *options()], b"", "no_such_tenant"),
    ("a name twice", [ACME, NETWORK], ["network-add", "acme", "office", *options(pool="10.9.0.0/24", port="1")], b"", "name_held"),
    ("a pool of length 31", [ACME], ["network-add", "acme", "office", *options(pool="10.8.1.0/31")], b"", "bad_pool"),
    ("a pool of length 7", [ACME], ["network-add", "acme", "office", *options(pool="10.0.0.0/7")], b"", "bad_pool"),
    ("a pool with a host bit", [ACME], ["network-add", "acme", "office", *options(pool="10.8.0.1/24")], b"", "bad_pool"),
    ("a pool without a length", [ACME], ["network-add", "acme", "office", *options(pool="10.8.0.0")], b"", "bad_pool"),
    ("a pool of length 127", [ACME], ["network-add", "acme", "office", *options(pool="fd00::/127")], b"", "bad_pool"),
    ("a pool that overlaps", [ACME, BOLT, NETWORK], ["network-add", "bolt", "lab", *options(pool="10.8.0.128/25", port="1")], b"", "pool_overlaps acme office"),
    ("a host and a port twice", [ACME, BOLT, NETWORK], ["network-add", "bolt", "lab", *options(pool="10.9.0.0/24", host="VPN.example.net")], b"", "port_held"),
    ("a network of nobody ends", [ACME, NETWORK], ["network-end", "bolt", "office"], b"", "no_such_tenant"),
    ("a network ends that is not there", [ACME, NETWORK], ["network-end", "acme", "lab"], b"", "no_network"),
    ("another tenant's network ends", [ACME, BOLT, NETWORK], ["network-end", "bolt", "office"], b"", "no_network"),
    ("the name is asked before the pool", [ACME, NETWORK], ["network-add", "acme", "office", *options(pool="10.8.0.1/24")], b"", "name_held"),
    ("the pool is asked before the overlap", [ACME, NETWORK], ["network-add", "acme", "lab", *options(pool="10.8.0.1/24")], b"", "bad_pool"),
    ("the overlap is told before the port", [ACME, NETWORK], ["network-add", "acme", "lab", *options()], b"", "pool_overlaps acme office"),
]

NAME_32 = "a" * 32
NOT_RIGHTS = ["", "Read", "READ", "reads", "read ", " read", "write", "full,read", "fulL", "0", "é"]
NOT_NAMES = ["", "a" * 33, "Acme", "a_b", "a.b", "é", "a b"]
NOT_NUMBERS = ["", "0", "-1", "+1", "1.0", "0x1", "1e3", " 1", "1 ", "²", "9" * 19, "9" * 20, "0" * 20 + "1", "9223372036854775808"]

# A field, and texts that are not of its form.
ILL_FORMED = {
    "pool": ["", "10.8.0.0/33", "10.8.0/24", "01.8.0.0/24", "10.8.0.0/024", "10.8.0.0/", "net", "fd00::/129"],
    "host": ["", "a_b", "a" * 254, "é", "[::1]", "fe80::1%eth0", "a/b", "::1/128"],
    "port": [*NOT_NUMBERS, "65536"],
    "key": ["", K0[:-1], K0 + "=", "A" * 42 + "B=", K0 + "\n", "A" * 44],
    "capacity": [*NOT_NUMBERS, "4097"],
}

NOT_TOKENS = [
    ("nothing", b""),
    ("a newline alone", b"\n"),
    ("two newlines", b"abc\n\n"),
    ("a second line", b"abc\nabc"),
    ("129 bytes", b"a" * 129),
    ("a blank", b"a b\n"),
    ("a byte below 0x21", b"abc\x1f"),
    ("a byte above 0x7E", b"abc\x7f"),
    ("a carriage return", b"abc\r\n"),
    ("a letter of two bytes", "é".encode()),
]


class Refused(Files):
    def test_refusals_of_the_register(self):
        for name, orders, words, text, why in REFUSALS:
            with self.subTest(name):
                self.setUp()
                self.init(*orders)
                before = self.rows()
                self.assertEqual(self.order(*words, text=text), refused(why))
                self.assertEqual(self.rows(), before)

    def test_a_token_twice(self):
        self.init(ACME, BOLT)
        self.grant("acme")
        for tenant in ["acme", "bolt"]:
            for right in [[], ["--right=full"], ["--right=read"]]:
                with self.subTest(tenant, right=right):
                    self.assertEqual(self.order("token-grant", tenant, *right, text=b"abc\n"), refused("digest_held"))
        self.assertEqual(self.query("SELECT digest FROM token"), [(DIGEST,)])
        self.assertEqual(self.query("SELECT digest FROM reader"), [])
        with self.subTest("one that only reads"):
            self.assertEqual(self.order("token-grant", "acme", "--right", "read", text=b"xyz"), DONE)
            before = self.rows()
            for right in [[], ["--right=full"], ["--right=read"]]:
                self.assertEqual(self.order("token-grant", "bolt", *right, text=b"xyz"), refused("digest_held"))
            self.assertEqual(self.order("token-grant", "cato", text=b"xyz"), refused("no_such_tenant"))
            self.assertEqual(self.rows(), before)

    def test_the_first_of_several_that_overlap(self):
        self.init(
            ("tenant-add", "b"),
            ("tenant-add", "a"),
            ("network-add", "b", "x", *options(pool="10.0.0.0/24")),
            ("network-add", "a", "z", *options(pool="10.0.1.0/24", port="2")),
            ("network-add", "a", "y", *options(pool="10.0.2.0/24", port="3")),
        )
        left = self.order("network-add", "b", "w", *options(pool="10.0.0.0/16", port="4"))
        self.assertEqual(left, refused("pool_overlaps a y"))

    def test_ill_formed_fields(self):
        # No database is there, and none is made.
        rows = [("tenant-add", [text], "name") for text in NOT_NAMES]
        rows += [("token-grant", [text], "tenant") for text in NOT_NAMES]
        rows += [("token-grant", ["acme", f"--right={text}"], "right") for text in NOT_RIGHTS]
        rows += [("network-end", [text, "office"], "tenant") for text in NOT_NAMES]
        rows += [("network-end", ["acme", text], "name") for text in NOT_NAMES]
        rows += [("network-add", [text, "office", *options()], "tenant") for text in NOT_NAMES]
        rows += [("network-add", ["acme", text, *options()], "name") for text in NOT_NAMES]
        for field, texts in ILL_FORMED.items():
            for text in texts:
                others = {name: value for name, value in OFFICE.items() if name != field}
                words = [word for name, value in others.items() for word in (f"--{name}", value)]
                rows.append(("network-add", ["acme", "office", *words, f"--{field}={text}"], field))
        for word, words, field in rows:
            with self.subTest(f"{word} {words}"):
                self.assertEqual(self.order(word, *words, text=TOKEN), refused(f"bad_field {field}"))
        self.assertEqual(os.listdir(self.folder), [])

    def test_the_first_ill_formed_field_is_told(self):
        # Each field in turn is mended, in the order of the words; the options are in another order.
        order = ["tenant", "name", "pool", "host", "port", "key", "capacity"]
        good = {"tenant": "acme", "name": "office", **OFFICE}
        for count, field in enumerate(order):
            values = {name: good[name] if place < count else "_" for place, name in enumerate(order)}
            words = [f"--{name}={values[name]}" for name in reversed(order[2:])]
            with self.subTest(field):
                left = self.order("network-add", *words, values["tenant"], values["name"])
                self.assertEqual(left, refused(f"bad_field {field}"))
        with self.subTest("the tenant before the name"):
            self.assertEqual(self.order("network-end", "_", "_"), refused("bad_field tenant"))
        with self.subTest("the tenant before the token"):
            self.assertEqual(self.order("token-grant", "_", text=b""), refused("bad_field tenant"))
        with self.subTest("the tenant before the right"):
            self.assertEqual(self.order("token-grant", "--right=_", "_", text=TOKEN), refused("bad_field tenant"))
        with self.subTest("the right before the token"):
            self.assertEqual(self.order("token-grant", "acme", "--right", "_", text=b""), refused("bad_field right"))
        with self.subTest("the token behind a right"):
            self.assertEqual(self.order("token-grant", "acme", "--right", "read", text=b""), refused("bad_field token"))

    def test_limits(self):
        self.init(("tenant-add", NAME_32))
        rows = [
            ("the least port", {"port": "1"}),
            ("the greatest port", {"port": "65535", "pool": "10.9.0.0/24"}),
            ("the least capacity", {"capacity": "1", "port": "2", "pool": "10.10.0.0/24"}),
            ("a host of 253", {"host": "a" * 253, "pool": "10.11.0.0/24"}),
            ("19 digits", {"port": "0000000000000000003", "pool": "10.12.0.0/24"}),
        ]
        for place, (name, changed) in enumerate(rows):
            with self.subTest(name):
                self.assertEqual(self.order("network-add", NAME_32, f"n{place}", *options(**changed)), DONE)

    def test_ill_formed_tokens(self):
        self.init(ACME)
        for name, text in NOT_TOKENS:
            with self.subTest(name):
                self.assertEqual(self.order("token-grant", "acme", text=text), refused("bad_field token"))
                self.assertEqual(self.order("token-end", text=text), refused("bad_field token"))
        self.assertEqual(self.query("SELECT * FROM token"), [])

    def test_tokens_of_all_forms(self):
        self.init(ACME)
        every = bytes(range(0x21, 0x7F))
        for name, token in [("one byte", b"!"), ("128 bytes", b"~" * 128), ("every character", every)]:
            with self.subTest(name):
                self.grant("acme", token + b"\n")
                held = {row[0] for row in self.query("SELECT digest FROM token")}
                self.assertIn(hashlib.sha256(token).digest(), held)

    def test_a_token_before_the_database(self):
        self.assertEqual(self.order("token-grant", "acme", text=b""), refused("bad_field token"))
        self.assertEqual(self.order("token-end", text=b"a b"), refused("bad_field token"))
        self.assertEqual(os.listdir(self.folder), [])

    def test_words_without_a_token_read_nothing(self):
        self.init()
        # A folder as standard input fails to be read.
        folder = os.open(self.folder, os.O_RDONLY)
        try:
            self.assertEqual(run(["tenant-add", self.db, "acme"], stdin=folder), DONE)
            self.assertEqual(run(["token-grant", self.db, "_"], stdin=folder), refused("bad_field tenant"))
            self.assertEqual(run(["token-grant", self.db, "acme"], stdin=folder), failed("device"))
        finally:
            os.close(folder)

    def test_no_token_is_in_the_file(self):
        self.init(ACME)
        token = b"a-token-that-nothing-else-has-in-it"
        self.grant("acme", token)
        self.assertEqual(self.order("token-end", text=token), DONE)
        for path in self.folder.iterdir():
            self.assertNotIn(token, path.read_bytes())
