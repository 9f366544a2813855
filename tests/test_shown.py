"""What `show` prints: of a file by `wgr show`, and of a running service by `wgr send`."""

import base64
import hashlib
import ipaddress
import json
import os
import shutil

from keys import K0
from program import Left, run
from register_file import BUSY, DENIED, DONE, S, failed, network_row, pool_of, put, refused
from sending import send, shown
from serving import PEERS, Server, key, request
from test_readings import HEADER, TEST, Reading

TABLE = f"""\
TENANT  NETWORK  POOL          ENDPOINT               CAPACITY  PEERS  ROUTES
acme    lab      fd00:1::/64   vpn.example.net:51821  4096      0      0
acme    office   10.66.0.0/24  vpn.example.net:51820  250       12     3
globex  -        -             -                      -         -      -

TENANT  TOKEN
acme    {TEST}
"""
ACME_JSON = (
    f'{{"name":"acme","tokens":["{TEST}"],"networks":['
    f'{{"name":"lab","pool":"fd00:1::/64","host":"vpn.example.net","port":51821,"server":"{K0}","capacity":4096,"peers":0,"routes":0}},'
    f'{{"name":"office","pool":"10.66.0.0/24","host":"vpn.example.net","port":51820,"server":"{S}","capacity":250,"peers":12,"routes":3}}]}}'
)
GLOBEX_JSON = '{"name":"globex","tokens":[],"networks":[]}'
# What is shown of that register: the words behind `show`, and the text.
SHOWN = [
    ("all", [], TABLE),
    ("all, as JSON", ["--json"], f'{{"tenants":[{ACME_JSON},{GLOBEX_JSON}]}}\n'),
    ("a tenant", ["acme"], TABLE.replace("globex  -        -             -                      -         -      -\n", "")),
    ("a tenant, as JSON", ["acme", "--json"], f'{{"tenants":[{ACME_JSON}]}}\n'),
    ("one without networks and tokens", ["globex"], f"{HEADER}globex  -        -     -         -         -      -\n"),
    ("the same as JSON", ["globex", "--json"], f'{{"tenants":[{GLOBEX_JSON}]}}\n'),
]


# The SHA-256 of tokens that are granted beside `test`.
ABC, FIRST, SECOND = (hashlib.sha256(text).hexdigest() for text in [b"abc", b"first", b"second"])
# The table of tokens where `abc` and `first` only read.
RIGHTS = f"""\
TENANT  TOKEN                                                             RIGHT
acme    {TEST}  full
acme    {ABC}  read
dune    {SECOND}  full
globex  {FIRST}  read
"""


def pool_text(family, low, length):
    return f"{ipaddress.IPv4Address(low[12:]) if family == 4 else ipaddress.IPv6Address(low)}/{length}"


def table_of(rows):
    """The rows in columns."""
    widths = [max(map(len, column)) for column in zip(*rows)]
    return "".join("  ".join(cell.ljust(width) for cell, width in zip(row, widths)).rstrip() + "\n" for row in rows)


class Show(Reading):
    def show(self, *words, database=None):
        """What `wgr show` prints of a file."""
        left = run(["show", database or self.db, *words])
        self.assertEqual((left.status, left.err), (0, b""))
        return left.out.decode()

    def test_texts(self):
        """By the command on a file, by the socket and by `wgr send`, the same bytes."""
        self.make_two()
        before = self.rows()
        for name, words, due in SHOWN:
            with self.subTest(name):
                self.assertEqual(self.show(*words), due)
        self.assertEqual(self.rows(), before)
        self.serve()
        for name, words, due in SHOWN:
            with self.subTest(name, by="socket"):
                self.assertEqual(shown(self.socket, "show", *words).decode(), due)
                self.assertEqual(send(self.socket, ("show", *words)), Left(0, due.encode()))

    def test_tokens_that_only_read(self):
        """A third column where one that is shown only reads, and a member of JSON; without one, all is as it was before there were any."""
        self.make_two()
        without = [(words, self.show(*words)) for words in [[], ["--json"], ["acme"], ["acme", "--json"], ["globex"], ["globex", "--json"]]]
        self.do(("token-grant", "acme", "read", "abc"), ("token-grant", "globex", "read", "first"))
        self.do(("tenant-add", "dune"), ("token-grant", "dune", "second"))
        acme = ACME_JSON.replace(f'["{TEST}"]', f'["{TEST}","{ABC}"],"readers":["{ABC}"]')
        globex = GLOBEX_JSON.replace("[]", f'["{FIRST}"],"readers":["{FIRST}"]', 1)
        dune = f'{{"name":"dune","tokens":["{SECOND}"],"networks":[]}}'
        head, *lines = RIGHTS.splitlines(keepends=True)
        rows = [
            ("all", [], RIGHTS),
            ("one with both", ["acme"], head + lines[0] + lines[1]),
            ("one that has no other", ["globex"], head + lines[3]),
            ("one that has none", ["dune"], f"TENANT  TOKEN\ndune    {SECOND}\n"),
            ("all, as JSON", ["--json"], f'{{"tenants":[{acme},{dune},{globex}]}}\n'),
            ("one with both, as JSON", ["acme", "--json"], f'{{"tenants":[{acme}]}}\n'),
            ("one that has no other, as JSON", ["globex", "--json"], f'{{"tenants":[{globex}]}}\n'),
            ("one that has none, as JSON", ["dune", "--json"], f'{{"tenants":[{dune}]}}\n'),
        ]
        for name, words, due in rows:
            with self.subTest(name):
                self.assertEqual(self.show(*words).rpartition("\n\n")[2], due)
        server = self.serve()
        for name, words, due in rows:
            with self.subTest(name, by="socket"):
                self.assertEqual(shown(self.socket, "show", *words).decode().rpartition("\n\n")[2], due)
        server.process.kill()
        server.process.wait()
        self.do(("token-end", "abc"), ("token-end", "first"), ("token-end", "second"))
        self.change("DELETE FROM tenant WHERE name = 'dune'")
        for words, due in without:
            with self.subTest("once they ended", words=words):
                self.assertEqual(self.show(*words), due)

    def test_no_tenant(self):
        self.init()
        rows = [([], HEADER), (["--json"], '{"tenants":[]}\n')]
        for words, due in rows:
            self.assertEqual(self.show(*words), due)
        self.serve()
        for words, due in rows:
            self.assertEqual(shown(self.socket, "show", *words).decode(), due)

    def test_the_order_and_the_width_of_columns(self):
        """Names in the order of their bytes, digests too; a host that is an IPv6 address."""
        self.init()
        names = ["b", "a0", "-x", "a", 32 * "z"]
        self.do(*(("tenant-add", name) for name in names))
        self.do(*(("token-grant", "a", text) for text in ["abc", "test", "second"]), ("token-grant", "-x", "first"))
        self.do(("network-add", "b", "n-1", "10.8.0.0/30", "2001:DB8::0001", "1", S, "1"), ("network-add", "b", "n", "10.9.0.0/24", "h", "65535", K0, "4096"))
        digests = sorted(hashlib.sha256(text).hexdigest() for text in [b"abc", b"test", b"second"])
        longest = 32 * "z"
        due = f"""\
TENANT                            NETWORK  POOL         ENDPOINT         CAPACITY  PEERS  ROUTES
-x                                -        -            -                -         -      -
a                                 -        -            -                -         -      -
a0                                -        -            -                -         -      -
b                                 n        10.9.0.0/24  h:65535          4096      0      0
b                                 n-1      10.8.0.0/30  [2001:db8::1]:1  1         0      0
{longest}  -        -            -                -         -      -

TENANT  TOKEN
-x      {hashlib.sha256(b"first").hexdigest()}
a       {digests[0]}
a       {digests[1]}
a       {digests[2]}
"""
        self.assertEqual(self.show(), due)
        tenants = json.loads(self.show("--json"))["tenants"]
        self.assertEqual([tenant["name"] for tenant in tenants], ["-x", "a", "a0", "b", longest])
        self.assertEqual(tenants[1]["tokens"], digests)
        self.assertEqual([(network["name"], network["host"], network["port"]) for network in tenants[3]["networks"]], [("n", "h", 65535), ("n-1", "2001:db8::1", 1)])
        self.assertEqual(self.show("--", "-x").count("\n"), 5)

    def due(self, database, name=None):
        """The table and the JSON of what SQLite reads, of all tenants or of one."""
        names = sorted(found for (found,) in self.query("SELECT name FROM tenant", database) if name in (None, found))
        tokens = sorted(self.query("SELECT tenant.name, lower(hex(digest)) FROM token JOIN tenant ON tenant.id = token.tenant", database))
        readers = {digest for (digest,) in self.query("SELECT lower(hex(digest)) FROM reader", database)}
        networks = self.query(
            "SELECT tenant.name, network.name, family, lo, length, host, port, server, capacity, (SELECT count(*) FROM peer WHERE network = network.id), "
            "(SELECT count(*) FROM allowed WHERE network = network.id AND kind = 'route') FROM network JOIN tenant ON tenant.id = network.tenant", database
        )
        rows, tenants = [HEADER.split()], []
        for tenant in names:
            own = sorted(row[1:] for row in networks if row[0] == tenant)
            shown_rows = [(tenant, row[0], pool_text(*row[1:4]), f"[{row[4]}]:{row[5]}" if ":" in row[4] else f"{row[4]}:{row[5]}", *map(str, row[7:])) for row in own]
            rows += shown_rows or [(tenant, *6 * "-")]
            members = [{"name": row[0], "pool": pool_text(*row[1:4]), "host": row[4], "port": row[5], "server": base64.b64encode(row[6]).decode(), "capacity": row[7], "peers": row[8], "routes": row[9]} for row in own]
            held = [digest for owner, digest in tokens if owner == tenant]
            reading = {"readers": [digest for digest in held if digest in readers]}
            tenants.append({"name": tenant, "tokens": held, **(reading if reading["readers"] else {}), "networks": members})
        table = table_of(rows)
        listed = [(*row, "read" if row[1] in readers else "full") for row in tokens if row[0] in names]
        if listed:
            # The third column is there where it tells something.
            columns = 3 if any(row[2] == "read" for row in listed) else 2
            table += "\n" + table_of([row[:columns] for row in [("TENANT", "TOKEN", "RIGHT"), *listed]])
        return table, json.dumps({"tenants": tenants}, separators=(",", ":")) + "\n"

    def test_a_larger_register(self):
        """2,000 networks of 40 tenants, and 500 tokens, of which each seventh only reads: by a file and by the socket, as SQLite reads a copy."""
        self.init()
        put(self.db, "tenant", [(row, f"t{row * 7919 % 1009}") for row in range(1, 41)])
        put(self.db, "token", [(hashlib.sha256(b"%d" % row).digest(), row % 39 + 1) for row in range(500)])
        put(self.db, "reader", [(hashlib.sha256(b"%d" % row).digest(),) for row in range(499, 0, -7)])
        networks = [network_row(row, row % 38 + 1, f"n{row * 31 % 2003}", pool_of(row)[0], f"h{row}.example.net", row) for row in range(1, 2_001)]
        put(self.db, "network", networks)
        copy = self.path("copy.db")
        shutil.copy(self.db, copy)
        [(rich,)], [(poor,)] = (self.query(f"SELECT name FROM tenant WHERE id = {row}") for row in [7, 40])
        with Server(self.db, orders=self.socket):
            for name in [None, rich, poor]:
                words = [] if name is None else [name]
                for extra, due in zip([[], ["--json"]], self.due(copy, name)):
                    with self.subTest(name, extra=extra):
                        # A text of this length is too long to print where it differs.
                        self.assertTrue(shown(self.socket, "show", *words, *extra).decode() == due)
                        self.assertTrue(self.show(*words, *extra, database=copy) == due)
        self.assertGreater(len(due), 50)

    def test_peers_and_routes(self):
        self.make_two()
        copy = self.path("copy.db")
        server = self.serve()
        for message in [request("DELETE", f"{PEERS}/12", token="test"), request("POST", PEERS, {"key": key(30)}, "test")]:
            self.assertIn(b" 200 OK", server.send(message))
        self.assertEqual(send(self.socket, ("backup", copy)), DONE)
        self.assertEqual([shown(self.socket, "show", *words).decode() for words in [[], ["--json"]]], [*self.due(copy)])
        self.assertEqual([each["peers"] for each in json.loads(shown(self.socket, "show", "--json"))["tenants"][0]["networks"]], [0, 12])

    def test_on_a_file(self):
        """What is refused, with its message and status."""
        self.make_two()
        none, empty, bad = self.path("none.db"), self.path("empty.db"), self.path("bad.db")
        open(empty, "w").close()
        shutil.copy(self.db, bad)
        with Server(self.db):
            with self.subTest("a register that is served"):
                self.assertEqual(run(["show", self.db]), failed("store", BUSY))
        self.db, good = bad, self.db
        self.change("UPDATE network SET port = 0 WHERE name = 'lab'")
        rows = [
            ("a malformed name", [good, "Acme"], refused("bad_field tenant")),
            ("the same before a file", [none, "Acme"], refused("bad_field tenant")),
            ("a name that nobody has", [good, "nobody"], refused("no_such_tenant")),
            ("the same as JSON", [good, "nobody", "--json"], refused("no_such_tenant")),
            ("a name like an option", [good, "--", "--json"], refused("no_such_tenant")),
            ("no file", [none], failed("not_a_register")),
            ("an empty file", [empty], failed("not_a_register")),
            ("rows that aren't good", [bad], failed("not_good")),
            ("a folder", [str(self.folder)], failed("store", DENIED)),
        ]
        for name, words, due in rows:
            with self.subTest(name):
                self.assertEqual(run(["show", *words]), due)
        self.assertFalse(os.path.exists(none))
        for name, extra in [("a table", []), ("JSON", ["--json"])]:
            with self.subTest(name), open("/dev/full", "wb") as full:
                self.assertEqual(run(["show", good, *extra], stdout=full), failed("device"))

    def test_the_log_is_put_into_the_file(self):
        """A killed service leaves a log; `show` has what it has, and then the file alone has it too."""
        self.make_two()
        server = self.serve()
        self.assertIn(b" 200 OK", server.send(request("POST", PEERS, {"key": key(20)}, "test")))
        server.process.kill()
        server.process.wait()
        self.assertEqual(self.show("acme"), SHOWN[2][2].replace("12     3", "13     3"))
        alone = self.path("alone.db")
        shutil.copy(self.db, alone)
        self.assertEqual(self.query("SELECT count(*) FROM peer", alone), [(13,)])
