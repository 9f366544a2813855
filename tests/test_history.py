"""dist/wgr-history: what two copies differ in."""

import json
import shutil
import sqlite3
from contextlib import closing

from earlier import make
from program import Left
from serving import PEERS, SERVER_KEY, key, network_add, order, request
from shipped import ANOTHER, OLD, Shipped
from test_batch import batch

# The SHA-256 of `abc`, of `xyz` and of `abd`.
ABC = "ba7816bf8f01cfea414140de5dae2223b00361a396177a9cb410ff61f20015ad"
XYZ = "3608bca1e44ea6c4d268eb6db02260269892c0b42b86bbf1e77a6fa16c3c9282"
ABD = "a52d159f262b2c6ddb724a61840befc36eb30c88877a4030b65cbe86298449c9"
LAB = "/networks/lab/peers"
DUMP = f"(none)\t{SERVER_KEY}\t51820\toff\n{key(1)}\t(none)\t(none)\t10.8.0.2/32\t1700000000\t5\t6\toff\n".encode()


def add(of, path=PEERS, **members):
    return ("ask", request("POST", path, {"key": key(of), **members}))


def shown(number, of, address, network="office", routes=(), end=0, label="", keepalive=0):
    own = {"tenant": "acme", "network": network, "number": number, "key": key(of), "address": address}
    return {**own, "routes": list(routes), "end": end, "label": label, "keepalive": keepalive}


def network(name, pool, endpoint, capacity=4096, server=SERVER_KEY):
    return {"tenant": "acme", "network": name, "pool": pool, "endpoint": endpoint, "server": server, "capacity": capacity}


# A day: by name, what is done between two copies, and the lines that say so.
DAY = [
    ("nothing", [], []),
    ("a peer", [add(1, label="laptop", keepalive=25)], [{"change": "peer_added", **shown(1, 1, "10.8.0.2/32", label="laptop", keepalive=25)}]),
    ("what a dump says of a peer", [("ask", request("POST", "/networks/office/dump", DUMP))], []),
    (
        "two peers, one with a lease", [add(2), add(3, address="10.8.0.9", end=2_000_000_000)],
        [{"change": "peer_added", **shown(2, 2, "10.8.0.3/32")}, {"change": "peer_added", **shown(3, 3, "10.8.0.9/32", end=2_000_000_000)}],
    ),
    ("one that came and went", [add(4), ("ask", request("DELETE", f"{PEERS}/4"))], []),
    (
        "a move", [("ask", request("POST", f"{PEERS}/2/address", {"address": "10.8.0.77"}))],
        [{"change": "peer_changed", **shown(2, 2, "10.8.0.77/32"), "was": {"address": "10.8.0.3/32"}}],
    ),
    (
        "a route that goes from one to another, and a renewal",
        [("ask", request("POST", f"{PEERS}/{to}/routes", {"prefix": prefix})) for to, prefix in [(2, "192.168.4.0/24"), (2, "fd00:4::/64")]]
        + [("ask", request("POST", f"{PEERS}/2/lease", {"end": 2_000_000_001}))],
        [{
            "change": "peer_changed", **shown(2, 2, "10.8.0.77/32", routes=["192.168.4.0/24", "fd00:4::/64"], end=2_000_000_001),
            "was": {"routes": [], "end": 0},
        }],
    ),
    (
        "a route of another's", [("ask", request("POST", f"{PEERS}/3/routes", {"prefix": "192.168.4.0/24"}))],
        [
            {
                "change": "peer_changed", **shown(2, 2, "10.8.0.77/32", routes=["fd00:4::/64"], end=2_000_000_001),
                "was": {"routes": ["192.168.4.0/24", "fd00:4::/64"]},
            },
            {"change": "peer_changed", **shown(3, 3, "10.8.0.9/32", routes=["192.168.4.0/24"], end=2_000_000_000), "was": {"routes": []}},
        ],
    ),
    (
        "an address that another peer gets", [("ask", request("DELETE", f"{PEERS}/1")), add(5, address="10.8.0.2")],
        [
            {"change": "peer_removed", **shown(1, 1, "10.8.0.2/32", label="laptop", keepalive=25)},
            {"change": "peer_added", **shown(5, 5, "10.8.0.2/32")},
        ],
    ),
    (
        "a lease that is over, at the next change", [("later", request("DELETE", f"{PEERS}/5"))],
        [
            {"change": "peer_removed", **shown(2, 2, "10.8.0.77/32", routes=["fd00:4::/64"], end=2_000_000_001)},
            {"change": "peer_removed", **shown(3, 3, "10.8.0.9/32", routes=["192.168.4.0/24"], end=2_000_000_000)},
            {"change": "peer_removed", **shown(5, 5, "10.8.0.2/32")},
        ],
    ),
    (
        "a tenant with a token", [("order", "tenant-add", "bolt"), ("order", "token-grant", "bolt", "xyz")],
        [{"change": "tenant_added", "tenant": "bolt"}, {"change": "token_added", "tenant": "bolt", "digest": XYZ}],
    ),
    (
        "a token that only reads", [("order", "token-grant", "bolt", "read", "abd")],
        [{"change": "token_added", "tenant": "bolt", "digest": ABD, "right": "read"}],
    ),
    (
        "it is granted anew, with the full right", [("order", "token-end", "abd"), ("order", "token-grant", "bolt", "full", "abd")],
        [{"change": "token_changed", "tenant": "bolt", "digest": ABD, "right": "full", "was": {"right": "read"}}],
    ),
    (
        "and as one that only reads", [("order", "token-end", "abd"), ("order", "token-grant", "bolt", "read", "abd")],
        [{"change": "token_changed", "tenant": "bolt", "digest": ABD, "right": "read", "was": {"right": "full"}}],
    ),
    (
        "it ends", [("order", "token-end", "abd")],
        [{"change": "token_removed", "tenant": "bolt", "digest": ABD, "right": "read"}],
    ),
    ("the token ends", [("order", "token-end", "xyz")], [{"change": "token_removed", "tenant": "bolt", "digest": XYZ}]),
    (
        "an IPv6 network with a peer", [("network", "lab", "fd00:8::/64", "2001:db8::1", "7"), add(6, LAB)],
        [
            {"change": "network_added", **network("lab", "fd00:8::/64", "[2001:db8::1]:7")},
            {"change": "peer_added", **shown(1, 6, "fd00:8::2/128", "lab")},
        ],
    ),
    (
        "another capacity", [("change", "lab", "--capacity", "9")],
        [{"change": "network_changed", **network("lab", "fd00:8::/64", "[2001:db8::1]:7", 9), "was": {"capacity": 4096}}],
    ),
    (
        "it is ended, and added with another pool", [("order", "network-end", "acme", "lab"), ("network", "lab", "10.9.0.0/24", "h", "8"), add(6, LAB)],
        [
            {"change": "network_added", **network("lab", "10.9.0.0/24", "h:8")},
            {"change": "network_removed", **network("lab", "fd00:8::/64", "[2001:db8::1]:7", 9)},
            {"change": "peer_added", **shown(1, 6, "10.9.0.2/32", "lab")},
            {"change": "peer_removed", **shown(1, 6, "fd00:8::2/128", "lab")},
        ],
    ),
    (
        "and with the same one, where another peer gets the number",
        [("order", "network-end", "acme", "lab"), ("network", "lab", "10.9.0.0/24", "h", "8"), add(7, LAB)],
        [{"change": "peer_removed", **shown(1, 6, "10.9.0.2/32", "lab")}, {"change": "peer_added", **shown(1, 7, "10.9.0.2/32", "lab")}],
    ),
]


class History(Shipped):
    def do(self, kind, *words):
        if kind in ["ask", "later"]:
            left = batch(self.database, 1_900_000_000 if kind == "ask" else 2_000_000_001, words)
            self.assertIn(b" 200 OK", left.out)
        elif kind == "network":
            name, pool, host, port = words
            network_add(self.database, "acme", name, pool, host=host, port=port)
        elif kind == "change":
            self.assertEqual(self.run_script("wgr-change-network", self.database, "acme", *words).status, 0)
        else:
            word, *rest = words
            token = rest.pop() if word.startswith("token") else None
            if word == "token-grant":
                rest[1:] = [f"--right={right}" for right in rest[1:]]
            order(word, self.database, *rest, token=token)

    def copy(self, turn):
        path = self.folder / f"20260101T0000{turn:02}.500Z.db"
        shutil.copy(self.database, path)
        return path

    def test_a_day(self):
        old = self.copy(0)
        copies = [old]
        for turn, (name, done, due) in enumerate(DAY, 1):
            with self.subTest(name):
                for each in done:
                    self.do(*each)
                new = self.copy(turn)
                copies.append(new)
                left = self.run_script("wgr-history", old, new)
                self.assertEqual((left.status, left.err), (0, b""))
                times = {"after": f"2026-01-01T00:00:{turn - 1:02}.500Z", "until": f"2026-01-01T00:00:{turn:02}.500Z"}
                self.assertEqual(sorted(map(json.loads, left.out.splitlines()), key=str), sorted(({**line, **times} for line in due), key=str))
                old = new
        with self.subTest("over all of it"):
            left = self.run_script("wgr-history", copies[0], copies[-1])
            changes = [(line["change"], line.get("number")) for line in map(json.loads, left.out.splitlines())]
            self.assertEqual(sorted(changes, key=str), [("network_added", None), ("peer_added", 1), ("tenant_added", None)])
        with self.subTest("names without a time"):
            shutil.copy(copies[1], self.folder / "one.db")
            shutil.copy(copies[2], self.folder / "two.db")
            left = self.run_script("wgr-history", "one.db", "two.db")
            self.assertEqual(json.loads(left.out), DAY[1][2][0])
        with self.subTest("no copy"):
            self.assertEqual(self.run_script("wgr-history", "none.db", "one.db"), Left(1, b"", b"wgr-history: there is no copy none.db\n"))
        for name, version, why in [("an earlier version", 1, OLD), ("another version", 9, ANOTHER)]:
            with self.subTest(name):
                shutil.copy(copies[0], self.folder / "other.db")
                with closing(sqlite3.connect(self.folder / "other.db")) as link:
                    link.execute("UPDATE meta SET version = ?", [version])
                    link.commit()
                for words in [["other.db", "one.db"], ["one.db", "other.db"]]:
                    self.assertEqual(self.run_script("wgr-history", *words), Left(1, b"", f"wgr-history: other.db is {why}\n".encode()))
        with self.subTest("one that was migrated"):
            make(self.folder / "earlier.db", 1, copies[1])
            self.assertEqual(self.run_script("wgr", "migrate", "earlier.db"), Left(0, b"done\n"))
            self.assertEqual(self.run_script("wgr-history", "earlier.db", "one.db"), Left(0))
            left = self.run_script("wgr-history", "earlier.db", "two.db")
            self.assertEqual(json.loads(left.out), DAY[1][2][0])


if __name__ == "__main__":
    unittest.main()

