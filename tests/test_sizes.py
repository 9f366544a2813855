"""Registers with many entries, and long messages: each is answered as a small one is."""

import hashlib
import itertools
from pathlib import Path

from program import Left, run
from register_file import ACME, DONE, S, Files, failed, network_row, options, pool_of, put, refused
from serving import PEERS, Server, done, key, make_register, peer, request
from serving import refused as refused_reply
from test_batch import batch, compare

HOST = "vpn.example.net"
MANY = 1_100
MOST = 65_536


def digest_of(token):
    return hashlib.sha256(token.encode()).digest()


# A token whose digest begins with two bytes of 255.
HIGH = next(token for token in map(str, itertools.count()) if digest_of(token).startswith(b"\xff\xff"))


def network_shown(name, pool, port, host=HOST):
    return {"capacity": 4096, "endpoint": f"{host}:{port}", "name": name, "pool": pool, "server": S}


def lab(tenant, pool="10.200.0.0/24", port="60000"):
    return ["network-add", tenant, "lab", *options(pool=pool, port=port)]


# Orders in turn, beside as many tenants, tokens and networks, which are all those of `t1`.
LAST_POOL = pool_of(MANY)[0]
ORDERS = [
    ("a tenant", ["tenant-add", "new"], DONE),
    ("the last tenant's name", ["tenant-add", f"t{MANY}"], refused("name_held")),
    ("a token", ["token-grant", f"t{MANY}"], DONE),
    ("the token again", ["token-grant", "new"], refused("digest_held")),
    ("the last network's pool", lab("new", pool=LAST_POOL), refused(f"pool_overlaps t1 n{MANY}")),
    ("the last network's port", lab("new", port=str(MANY)), refused("port_held")),
    ("a network", lab(f"t{MANY}"), DONE),
    ("its name", lab(f"t{MANY}"), refused("name_held")),
]
ENDS = [
    ("a network ends", ["network-end", "t1", f"n{MANY}"], DONE),
    ("it has ended", ["network-end", "t1", f"n{MANY}"], refused("no_network")),
    ("a token ends", ["token-end"], DONE),
    ("it has ended too", ["token-end"], refused("no_such_token")),
]


class Entries(Files):
    def setUp(self):
        super().setUp()
        self.init()
        places = range(1, MANY + 1)
        put(self.db, "tenant", [(place, f"t{place}") for place in places])
        put(self.db, "token", [(digest_of(f"token-{place}"), place) for place in places])
        put(self.db, "network", [network_row(place, 1, f"n{place}", pool_of(place)[0], HOST, place) for place in places])

    def do(self, orders):
        for name, words, left in orders:
            with self.subTest(name):
                text = HIGH.encode() if words[0].startswith("token") else b""
                self.assertEqual(self.order(*words, text=text), left)

    def test_among_many_entries(self):
        self.do(ORDERS)
        names = sorted(f"n{place}" for place in range(1, MANY + 1))
        shown = [network_shown(name, pool_of(int(name[1:]))[0], name[1:]) for name in names]
        own, last = f"token-{MANY}", pool_of(MANY)[1]
        added, peers = peer(1, 1, f"{last}.2/32"), f"/networks/n{MANY}/peers"
        rows = [
            ("the list of many networks", request("GET", "/networks", token="token-1"), done({"networks": shown})),
            ("a list of one", request("GET", "/networks", token=HIGH), done({"networks": [network_shown("lab", "10.200.0.0/24", 60000)]})),
            ("the same by the last token", request("GET", "/networks/lab/peers", token=own), done({"peers": []})),
            ("a new peer of the last network", request("POST", peers, {"key": key(1)}, "token-1"), done(added)),
            ("its list", request("GET", peers, token="token-1"), done({"peers": [added]})),
            ("another tenant's network", request("GET", peers, token=own), refused_reply(404, "no_such_network")),
            ("nobody's token", request("GET", peers, token=f"{own}0"), refused_reply(401, "unknown_token")),
        ]
        compare(self, self.db, 7, rows)
        self.do(ENDS)
        kept = {f"t{place}" for place in range(1, MANY + 1)}
        self.assertEqual({name for (name,) in self.query("SELECT name FROM tenant")}, kept | {"new"})
        self.assertEqual(set(self.query("SELECT name FROM network")), {*((name,) for name in names), ("lab",)} - {(f"n{MANY}",)})
        self.assertEqual(len(self.query("SELECT digest FROM token")), MANY)
        self.assertEqual(self.query("SELECT * FROM peer"), [])


def small_network(place):
    """A row of `network` for one of 65,536, with a pool of four addresses."""
    port, host = place & 65_535 or 1, HOST if place < MOST else "a"
    return network_row(place, 1, f"n{place}", f"10.{place >> 14}.{place >> 6 & 255}.{place % 64 * 4}/30", host, port)


# Rows of a register that has as many as it may, and the order of one more.
FULL = [
    ("tenant", lambda place: (place, f"t{place}"), ["tenant-add", "more"]),
    ("token", lambda place: (digest_of(str(place)), 1), ["token-grant", "acme"]),
    ("token", lambda place: (digest_of(str(place)), 1), ["token-grant", "acme", "--right", "read"]),
    ("network", small_network, ["network-add", "acme", "more", *options(pool="10.200.0.0/24", host="b")]),
]


class Full(Files):
    def test_65536_entries_at_most(self):
        for table, row, more in FULL:
            with self.subTest(table):
                self.setUp()
                self.init(*([] if table == "tenant" else [ACME]))
                put(self.db, table, [row(place) for place in range(1, MOST + 1)])
                self.assertEqual(self.order(*more, text=b"more"), refused("register_full"))
                self.assertEqual(self.query(f"SELECT count(*) FROM {table}"), [(MOST,)])

    def test_a_token_too_many(self):
        self.init(ACME)
        put(self.db, "token", [(digest_of(str(place)), 1) for place in range(MOST + 1)])
        self.assertEqual(self.order("tenant-add", "bolt"), failed("not_good"))


LENGTHS = [4_096, 4_097, 65_536, 100_000, 500_000, 1_000_001, 1_999_999, 2_097_152]


def bodies(place, length):
    """Requests with a body of this length, and the reply that is due to each."""
    number = place + 1
    text = f'{{"key":"{key(20 + number)}"'.encode()
    field, line = refused_reply(400, "bad_field", field="body"), refused_reply(400, "bad_dump", field=1, line=1)
    return [
        ("JSON with blanks", request("POST", PEERS, text + (length - len(text) - 1) * b" " + b"}"), done(peer(number, 20 + number, f"10.8.0.{number + 1}/32"))),
        ("no JSON", request("POST", PEERS, length * b"x"), field),
        ("arrays without an end", request("POST", PEERS, length * b"["), field),
        ("no dump", request("POST", "/networks/office/dump", length * b"x"), line),
        ("the body of a GET", request("GET", "/networks/none/peers", length * b"x"), refused_reply(404, "no_such_network")),
    ]


def longest():
    """A request for a new peer, with the longest head and the longest body."""
    text = f'{{"key":"{key(1)}"'.encode()
    message = request("POST", PEERS, text + (LENGTHS[-1] - len(text) - 1) * b" " + b"}")
    head, _, body = message.partition(b"\r\n\r\n")
    return head + b"\r\nX: " + (8_192 - len(head) - 9) * b"x" + b"\r\n\r\n" + body


LONGEST = longest()


class Messages(Files):
    def test_long_bodies(self):
        server = Server(make_register(self.folder), now=7)
        with server:
            for place, length in enumerate(LENGTHS):
                for name, message, due in bodies(place, length):
                    with self.subTest(name, length=length):
                        self.assertEqual(server.send(message), due)
            with self.subTest("the longest head and body"):
                number = len(LENGTHS) + 1
                added = done(peer(number, 1, f"10.8.0.{number + 1}/32"))
                self.assertEqual(server.send(LONGEST), added)

    def test_long_files(self):
        database = make_register(self.folder)
        added = peer(1, 1, "10.8.0.2/32")
        left = batch(database, 7, [LONGEST, request("GET", PEERS)])
        self.assertEqual(left, Left(0, done(added) + done({"peers": [added]})))

    def test_many_files(self):
        database, file = make_register(self.folder), self.path("list")
        Path(file).write_bytes(request("GET", PEERS))
        left = run(["batch", database, "--now", "7", *[file] * MANY])
        self.assertTrue(left == Left(0, MANY * done({"peers": []})), (left.status, len(left.out), left.err))

