"""Random lists of requests and orders through services that take both, against a plain register.

Three tenants ask over HTTP, and the operator gives orders over the socket, hostile bytes among both. Each reply and
each answer has to be that of the plain register (`plain.py`, `plain_orders.py`), byte for byte, and so have the views
at the end: the tenants, their tokens and their networks with all peers. Readings come between them, each of which has
to show the plain register. A service is killed now and then. A run takes 3,000 events, `WGR_ALL=1` 60,000;
`WGR_SEED=N` takes others.
"""

import ipaddress
import json
import os
import random
import sqlite3
import unittest
from contextlib import closing

from faulty import WHOLE, scratch, tell
from plain import Register, digest_of
from plain_messages import is_open
from plain_orders import answer_line
from program import Left, run
from sending import answered, shown
from serving import Server, request
from test_hostile import Hostile, rarely
from test_worlds import NAMES, TENANTS

EVENTS, SEGMENT = 60_000 if WHOLE else 3_000, 150
# How many of the events have a reading behind them.
READ = 0.05
# Lines that no spoilt bytes make.
ODD = [b"", b"\n", b"x\n", b"tenant-add acme", b"tenant-add " + 4_084 * b"x" + b"\n", b"tenant-add " + 4_085 * b"x" + b"\n", b"token-end --digest\n", b"token-end --digest ab\n"]


class Orders(Hostile):
    """Orders as lines, of which some are spoilt."""

    def line(self):
        words, _, token = self.order()
        fields = [word for word in words if not word.startswith("--")]
        pick = self.random.random()
        if pick < 0.05:
            fields = ["tenant-add", rarely(self.random, TENANTS, ["dune", "Acme", 33 * "x", "é"], 0.3)]
        elif words == ["token-end"] and pick < 0.5:
            fields += ["--digest", digest_of(token).hex()]
        elif token:
            # Now and then a right that is none, or a word too many.
            fields += rarely(self.random, [[]], [["Read"], [""], ["full"]], 0.2) if len(fields) > 1 else []
            fields.append(token.decode())
        if len(words) > 1 and pick > 0.97:
            fields[1] = "nobody"
        text = " ".join(fields).encode() + b"\n"
        if self.random.random() < 0.02:
            return self.random.choice(ODD)
        return self.spoilt_line(text) if self.random.random() < 0.3 else text

    def spoilt_line(self, text):
        blanks = [text.replace(b" ", b"  ", 1), b" " + text, text.replace(b"\n", b"\r\n")]
        return self.random.choice(self.disturbed(text) + blanks)


class Lists(unittest.TestCase):
    maxDiff = None

    def test_random_events(self):
        seed = int(os.environ.get("WGR_SEED", "1"))
        with self.subTest(f"WGR_SEED={seed}"), scratch() as folder:
            self.database, self.socket, self.plain = f"{folder}/run.db", f"{folder}/orders", Register()
            self.script = Orders(seed, self.plain)
            self.random, self.replies, self.answers = self.script.random, set(), {}
            self.readings = random.Random(seed)
            self.assertEqual(run(["init", self.database]).out, b"done\n")
            for place in range(EVENTS // SEGMENT):
                now = max(0, place * SEGMENT // 2 - self.random.choice([0, 0, 0, 500]))
                self.serve(now, [(kind, self.event(kind)) for kind in self.kinds(first=place == 0)])
            self.look_at_all()
            tell("random requests and orders", EVENTS, f"compared, {len(self.replies)} replies differ")
            if seed == 1 or WHOLE:
                self.look_at_what_was_reached()

    def look_at_what_was_reached(self):
        """The script reaches what it should compare. A short one of another seed may lack some of it."""
        self.assertLessEqual({200, 400, 401, 403, 404, 409}, {int(reply[9:12]) for reply in self.replies})
        wanted = "name_held no_such_tenant digest_held no_such_token no_network port_held bad_order bad_field done pool_overlaps"
        self.assertLessEqual(set(wanted.split()), {answer.split()[1].decode() for answer in self.answers})
        self.assertLessEqual({"name", "tenant", "right", "token", "pool"}, {answer.split()[2].decode() for answer in self.answers if b" bad_field " in answer})

    def kinds(self, first):
        """Of each five events, some two are orders; the first ones add the tenants and their tokens."""
        begin = ["tenants"] * (2 * len(TENANTS)) if first else []
        return begin + [self.random.choice(["order", "order", "request", "request", "request"]) for _ in range(SEGMENT - len(begin))]

    def event(self, kind):
        """What makes the bytes, once all before it has been answered."""
        if kind != "tenants":
            return self.script.line if kind == "order" else self.script.message
        place = self.begun = getattr(self, "begun", -1) + 1
        tenant = TENANTS[place // 2]
        text = f"tenant-add {tenant}\n" if place % 2 == 0 else f"token-grant {tenant} {tenant}-0\n"
        return text.encode

    def serve(self, now, events):
        ends = self.random.random() < 0.5 and events[-1][0] == "request"
        count = sum(kind == "request" for kind, _ in events)
        with Server(self.database, count=count if ends else count + 1, now=now, orders=self.socket) as server:
            for place, (kind, make) in enumerate(events, 1):
                text = make()
                if kind == "request":
                    self.compare(now, text, server.send(text, close=is_open(text)), self.plain.answer(now, text))
                    self.replies.add(self.plain.answer(now, text))
                else:
                    due = answer_line(self.plain, text)
                    self.compare(now, text, answered(self.socket, text), due)
                    self.answers[due] = text
                # Behind its last request the service may have ended.
                if self.readings.random() < READ and not (ends and place == len(events)):
                    self.read(now)
            if ends:
                self.assertEqual(server.ended(), Left(0))

    def compare(self, now, text, given, due):
        if given != due:
            self.fail(f"at {now}\n{text!r}\ngave {given!r}\nand not {due!r}")

    def read(self, now):
        """What the service shows of all tenants or of one, and its counts of them, are those of the plain register."""
        tenant = self.readings.choice([None, *self.plain.tenants])
        words = ["show", *([tenant] if tenant else []), "--json"]
        names = [name for name in sorted(self.plain.tenants) if tenant in (None, name)]
        due = json.dumps({"tenants": [self.shown_of(name) for name in names]}, separators=(",", ":")).encode() + b"\n"
        self.compare(now, words, shown(self.socket, *words), due)
        networks = [network for each in self.plain.tenants.values() for network in each.values()]
        counts = [len(self.plain.tenants), len(self.plain.tokens), len(networks), sum(len(it.peers) for it in networks), sum(len(it.routes) for it in networks)]
        names = ["tenants", "tokens", "networks", "peers", "routes"]
        lines = shown(self.socket, "status").decode().splitlines()
        found = [line for name in names for line in lines if line.startswith(f"wgr_service_{name} ")]
        self.compare(now, "status", found, [f"wgr_service_{name} {count}" for name, count in zip(names, counts)])

    def shown_of(self, name):
        tokens = sorted(digest.hex() for digest, tenant in self.plain.tokens.items() if tenant == name)
        networks = [
            {
                "name": each, "pool": str(network.pool), "host": network.host, "port": network.port, "server": network.server,
                "capacity": network.capacity, "peers": len(network.peers), "routes": len(network.routes),
            }
            for each, network in sorted(self.plain.tenants[name].items())
        ]
        readers = [digest for digest in tokens if bytes.fromhex(digest) in self.plain.readers]
        return {"name": name, "tokens": tokens, **({"readers": readers} if readers else {}), "networks": networks}

    def look_at_all(self):
        """At moment 0 all peers are live. The rows of tenants, tokens and networks are those of the plain register."""
        asked = [request("GET", "/networks", token=f"{tenant}-{place}") for tenant in TENANTS for place in range(3)]
        asked += [request("GET", f"/networks/{name}/peers", token=f"{tenant}-{place}") for tenant in TENANTS for place in range(3) for name in NAMES]
        with Server(self.database, count=len(asked), now=0, orders=self.socket) as server:
            for text in asked:
                self.compare(0, text, server.send(text), self.plain.answer(0, text))
            self.assertEqual(server.ended(), Left(0))
        with closing(sqlite3.connect(self.database)) as file:
            names = dict(file.execute("SELECT id, name FROM tenant"))
            self.assertEqual(sorted(names.values()), sorted(self.plain.tenants))
            tokens = {digest: names[tenant] for digest, tenant in file.execute("SELECT digest, tenant FROM token")}
            self.assertEqual(tokens, self.plain.tokens)
            self.assertEqual({digest for (digest,) in file.execute("SELECT digest FROM reader")}, self.plain.readers)
            columns = "tenant, name, lo, family, length, host, port, capacity"
            found = {(names[row[0]], row[1]): row[2:] for row in file.execute(f"SELECT {columns} FROM network")}
        plain = {(tenant, name): self.row_of(network) for tenant, networks in self.plain.tenants.items() for name, network in networks.items()}
        self.assertEqual(found, plain)

    def row_of(self, network):
        pool = ipaddress.ip_network(network.pool)
        return pool.network_address.packed.rjust(16, b"\0"), pool.version, pool.prefixlen, network.host, network.port, network.capacity
