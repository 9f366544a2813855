"""Random events: each tenant is answered as though it were alone, and each request as though it were.

10,000 events of three tenants are run on one register for all, and each tenant's own requests and the
accepted orders about it on a register of its own; its replies have to be the same, byte for byte. And a
list of requests is answered by one program as each of them by a program of its own, which has nothing of
the networks in memory. `WGR_SEED=N` takes other events.
"""

import json
import os
import random
import shutil
import sqlite3
import tempfile
import unittest
from contextlib import closing
from pathlib import Path

from program import run
from serving import SERVER_KEY, key, make_register, network_add, request
from test_batch import batch, replies

EVENTS = 10_000
# As many requests of all tenants are run at one moment, between two orders.
SEGMENT = 50
TENANTS = ["acme", "bolt", "cato"]
NAMES = ["lab", "office"]
# More networks than a program keeps in memory, and requests that come back to each.
MANY, ASKED = 70, 200
POOLS = ["10.8.0.0/29", "10.8.0.0/24", "10.9.0.0/26", "10.10.0.0/24", "fd00::/126", "fd00:1::/64"]


class Script:
    """Random events."""

    def __init__(self, seed):
        self.random = random.Random(seed)

    def order(self):
        """An order, the tenant that it is about, and the token on standard input."""
        pick, tenant = self.random.choice, self.random.choice(TENANTS)
        name, token = pick(NAMES), f"{tenant}-{self.random.randrange(3)}"
        kind = self.random.random()
        if kind < 0.5:
            port, pool = str(51820 + self.random.randrange(3)), pick(POOLS)
            words = ["network-add", tenant, name, "--pool", pool, "--host", "vpn.example.net"]
            words += ["--port", port, "--key", SERVER_KEY, "--capacity", pick(["2", "200"])]
            return words, tenant, b""
        if kind < 0.65:
            return ["network-end", tenant, name], tenant, b""
        if kind < 0.9:
            right = [] if kind < 0.82 else ["--right", "full" if kind < 0.86 else "read"]
            return ["token-grant", tenant, *right], tenant, token.encode()
        return ["token-end"], tenant, token.encode()

    def address(self):
        return self.random.choice(["10.8.0.", "10.9.0.", "10.10.0."]) + str(self.random.randrange(12))

    def asked(self, name):
        """The method, the path and the body of a request."""
        pick, small = self.random.choice, self.random.randrange
        network, number = f"/networks/{name}", 1 + small(8)
        end = pick([0, 0, small(EVENTS)])
        new = {"key": key(small(12))} | ({"address": self.address()} if small(3) == 0 else {})
        prefix = pick([f"{self.address()}/{24 + small(9)}", "192.168.0.0/16", "fd00:9::/64", "::/0"])
        dump = f"(none)\t{SERVER_KEY}\t51820\toff\n" + "".join(
            f"{key(of)}\t(none)\t(none)\t{self.address()}/32\t{small(99)}\t1\t2\toff\n"
            for of in self.random.choices(range(12), k=small(3))
        )
        return pick(
            [
                ("GET", "/networks", None),
                ("GET", f"{network}/peers", None),
                ("POST", f"{network}/peers", new | {"end": end, "label": pick(["", "x y"])}),
                ("POST", f"{network}/peers", new),
                ("DELETE", f"{network}/peers/{number}", None),
                ("POST", f"{network}/peers/{number}/address", {"address": self.address()}),
                ("POST", f"{network}/peers/{number}/address", {}),
                ("POST", f"{network}/peers/{number}/routes", {"prefix": prefix}),
                ("POST", f"{network}/peers/{number}/lease", {"end": end}),
                ("GET", f"{network}/peers/{number}/file/{pick(['wg', 'quick'])}", None),
                ("POST", f"{network}/unroute", {"prefix": prefix}),
                ("POST", f"{network}/dump", dump.encode()),
                ("GET", f"{network}/owner/{self.address()}", None),
                ("GET", f"{network}/server/{pick(['wg', 'quick'])}", None),
            ]
        )

    def request(self):
        """A tenant, and a request of its own: now and then one whose bytes are spoilt."""
        tenant = self.random.choice(TENANTS)
        method, path, body = self.asked(self.random.choice(NAMES))
        message = request(method, path, body, f"{tenant}-{self.random.randrange(3)}")
        place = self.random.randrange(len(message))
        kind = self.random.random()
        if kind < 0.05:
            message = message[:place]
        elif kind < 0.1:
            # No token has such a byte, so nobody's becomes another's.
            message = message[:place] + self.random.choice([b"\x00", b"\xff", b" ", b"\r\n"]) + message[place:]
        return tenant, message


class Worlds(unittest.TestCase):
    def test_each_tenant_is_answered_as_though_alone(self):
        seed = int(os.environ.get("WGR_SEED", "1"))
        with self.subTest(f"WGR_SEED={seed}"), tempfile.TemporaryDirectory() as folder:
            self.compare(Script(seed), Path(folder))

    def compare(self, script, folder):
        everybody = str(folder / "all.db")
        own = {tenant: str(folder / f"{tenant}.db") for tenant in TENANTS}
        for database in [everybody, *own.values()]:
            self.assertEqual(run(["init", database]).out, b"done\n")
        for tenant in TENANTS:
            for words, token in [(["tenant-add", tenant], b""), (["token-grant", tenant], f"{tenant}-0".encode())]:
                for database in [everybody, own[tenant]]:
                    self.assertEqual(run([words[0], database, *words[1:]], token).out, b"done\n")
        seen = set()
        for now in range(0, EVENTS, SEGMENT):
            self.do_order(script, everybody, own)
            events = [script.request() for _ in range(SEGMENT - 1)]
            together = batch(everybody, now, [message for _, message in events])
            self.assertEqual((together.status, together.err), (0, b""))
            given = list(zip(events, replies(together.out), strict=True))
            for tenant in TENANTS:
                mine = [(message, reply) for (whose, message), reply in given if whose == tenant]
                alone = batch(own[tenant], now, [message for message, _ in mine])
                self.assertEqual(replies(alone.out), [reply for _, reply in mine], (tenant, now))
            seen |= {reply.partition(b"\r\n\r\n")[2].partition(b":")[0] for _, reply in given}
            seen |= {json.loads(reply.partition(b"\r\n\r\n")[2]).get("error") for _, reply in given if b'{"error"' in reply}
        # The script reaches what it should compare.
        self.assertLessEqual({b'{"address"', b'{"peers"', b'{"networks"', b'{"added"', b'{"revoked"'}, seen)
        self.assertLessEqual({"unknown_token", "read_only", "no_such_network", "key_held", "address_held", "pool_full"}, seen)

    def do_order(self, script, everybody, own):
        words, tenant, token = script.order()
        left = run([words[0], everybody, *words[1:]], token)
        self.assertIn(left.status, [0, 2], left)
        if left.status == 0:
            self.assertEqual(run([words[0], own[tenant], *words[1:]], token), left)


class Alone(unittest.TestCase):
    def test_each_request_is_answered_as_though_alone(self):
        seed = int(os.environ.get("WGR_SEED", "1"))
        with self.subTest(f"WGR_SEED={seed}"), tempfile.TemporaryDirectory() as folder:
            together = make_register(folder)
            names = [f"n{place}" for place in range(MANY)]
            for place, name in enumerate(names):
                network_add(together, "acme", name, f"10.{9 + place}.0.0/24", port=str(40000 + place))
            alone = str(Path(folder) / "alone.db")
            shutil.copy(together, alone)
            script = Script(seed)
            asked = [(name, request("POST", f"/networks/{name}/peers", {"key": key(1)})) for name in names]
            while len(asked) < ASKED:
                # Now the networks in turn, now one of the last few.
                turn = names[len(asked) % MANY]
                last, _ = script.random.choice(asked[-9:])
                name = turn if script.random.random() < 0.7 else last
                asked.append((name, request(*script.asked(name))))
            answers = replies(batch(together, 0, [message for _, message in asked]).out)
            for (name, message), answer in zip(asked, answers, strict=True):
                self.assertEqual(batch(alone, 0, [message]).out, answer, (name, message))
            self.assertEqual(rows(alone), rows(together))
            self.assertGreater(sum(answer.startswith(b"HTTP/1.1 200") for answer in answers), ASKED // 3)


def rows(database):
    with closing(sqlite3.connect(database)) as file:
        return [sorted(file.execute(f"select * from {table}"), key=repr) for table in ["network", "peer", "allowed"]]
