"""Each growth of memory refused in turn, from the first until a run meets no refusal.

What was asked is then done as with ample memory, or it is told that memory is wanting and all rows are as
before; and what follows is answered as on those rows. `serve` meets the refusals while it reads a message,
answers it and writes the reply; the other words from their start to their end. A run takes each growth of
the smallest scripts and every so many-th of the others; `WGR_ALL=1` takes each of all.
"""

import itertools
import shutil
import sqlite3
import unittest
from concurrent.futures import ThreadPoolExecutor
from contextlib import closing
from pathlib import Path

from earlier import EARLIER, make, rows_of
from faulty import WHOLE, Faulty, needs_faults, scratch, tell
from keys import K0
from program import Left
from register_file import DONE, OFFICE, options
from register_file import refused as refused_order
from serving import SERVER_KEY, done, free_port, key, make_register, network_add, order, refused, request
from test_batch import batch, replies

PEERS = "/networks/office/peers"
NO_MEMORY = Left(1, b"", b"wgr: no_memory\n")
UNAVAILABLE = refused(503, "unavailable")
# Most growths of a word's whole run are those of the opening, the same for all words. So a run of the tests
# takes few of them, others for each script, and more of those behind; and each so many-th of a connection's.
OPENING, EARLY, LATE = 6_000, 3_001, 251
CONNECTION_STRIDE = 1 if WHOLE else 11
NOW = 100


def dump(*lines):
    """A dump of these keys with their prefixes."""
    peers = "".join(f"{key(of)}\t(none)\t(none)\t{prefixes}\t5\t6\t7\toff\n" for of, prefixes in lines)
    return f"(none)\t{SERVER_KEY}\t51820\toff\n{peers}".encode()


THREE = dump((5, "10.8.0.30/32"), (6, "(none)"), (7, "fd00:9::/64"))
# What the register has: peers 1 and 2, peer 3 whose lease is over at NOW, and routes to the first two.
BASE = [
    request("POST", PEERS, {"key": key(1)}),
    request("POST", PEERS, {"key": key(2), "label": "two", "address": "10.8.0.9", "keepalive": 25}),
    request("POST", PEERS, {"key": key(3), "end": 50}),
    request("POST", f"{PEERS}/1/routes", {"prefix": "192.168.4.0/24"}),
    request("POST", f"{PEERS}/2/routes", {"prefix": "10.8.0.64/26"}),
    request("POST", f"{PEERS}/3/routes", {"prefix": "192.168.5.0/24"}),
]

# Each command of the API, done and refused; the first is the smallest.
ASKED = {
    "truncated": b"",
    "a bad head": b"GET\r\n\r\n",
    "a wrong method": request("PUT", PEERS),
    "no such path": request("GET", "/peers"),
    "a token of nobody": request("GET", PEERS, token="zzz"),
    "no such network": request("GET", "/networks/none/peers"),
    "the networks": request("GET", "/networks"),
    "the peers": request("GET", PEERS),
    "a new peer": request("POST", PEERS, {"key": key(5)}),
    "a new peer with all members": request("POST", PEERS, {"key": key(5), "label": "five", "address": "10.8.0.50", "end": 200, "keepalive": 9}),
    "a long body": request("POST", PEERS, f'{{"key":"{key(5)}"{70_000 * " "}}}'.encode()),
    "a key that is held": request("POST", PEERS, {"key": key(1)}),
    "a new peer with a token that only reads": request("POST", PEERS, {"key": key(5)}, "reads"),
    "the peers with one": request("GET", PEERS, token="reads"),
    "no JSON": request("POST", PEERS, b"[" * 1_000),
    "a bad field": request("POST", PEERS, {"key": "x"}),
    "an address": request("POST", f"{PEERS}/1/address", {"address": "10.8.0.20"}),
    "the lowest address": request("POST", f"{PEERS}/2/address", {}),
    "an address that is held": request("POST", f"{PEERS}/1/address", {"address": "10.8.0.9"}),
    "a lease": request("POST", f"{PEERS}/1/lease", {"end": 200}),
    "a lease that is over": request("POST", f"{PEERS}/3/lease", {"end": 200}),
    "an end of a peer": request("DELETE", f"{PEERS}/1"),
    "an end of nobody": request("DELETE", f"{PEERS}/99"),
    "a route": request("POST", f"{PEERS}/1/routes", {"prefix": "192.168.9.0/24"}),
    "another peer's route": request("POST", f"{PEERS}/2/routes", {"prefix": "192.168.4.0/24"}),
    "a route that is an address": request("POST", f"{PEERS}/1/routes", {"prefix": "10.8.0.9/32"}),
    "an end of a route": request("POST", "/networks/office/unroute", {"prefix": "192.168.4.0/24"}),
    "an end of no route": request("POST", "/networks/office/unroute", {"prefix": "192.168.5.0/24"}),
    "an owner": request("GET", "/networks/office/owner/192.168.4.1"),
    "nobody's address": request("GET", "/networks/office/owner/192.168.5.1"),
    "a peer's file": request("GET", f"{PEERS}/1/file/wg"),
    "a peer's file for wg-quick": request("GET", f"{PEERS}/2/file/quick"),
    "nobody's file": request("GET", f"{PEERS}/3/file/wg"),
    "the server's file": request("GET", "/networks/office/server/wg"),
    "the server's file for wg-quick": request("GET", "/networks/office/server/quick"),
    "a dump of three": request("POST", "/networks/office/dump", THREE),
    "a dump of known peers": request("POST", "/networks/office/dump", dump((1, "(none)"), (2, "(none)"))),
    "a dump with a held address": request("POST", "/networks/office/dump", dump((5, "10.8.0.30/32"), (6, "10.8.0.9/32"))),
    "no dump": request("POST", "/networks/office/dump", THREE[:-9]),
}
# Where the network isn't in memory, these read only the rows that they need.
DIRECTED = ["a new peer", "a new peer with all members", "a key that is held", "an owner", "nobody's address"]
# On a network of 4,096 routes.
AT_THE_LIMIT = {
    "a route too many": request("POST", f"{PEERS}/2/routes", {"prefix": "10.200.0.0/16"}),
    "one of 4,096 routes": request("POST", f"{PEERS}/2/routes", {"prefix": "10.9.0.7/32"}),
}
LOOK = request("GET", PEERS)
# What follows upon a run: both tenants look, and a peer is added.
FOLLOWING = [LOOK, request("GET", "/networks"), request("GET", "/networks", token="xyz"), request("POST", PEERS, {"key": key(77)})]
ADD, FILE = ASKED["a new peer"], ASKED["the server's file"]
MORE = {**OFFICE, "pool": "10.10.0.0/24", "port": "51822"}
HELD = ("network-add", "acme", "more", *options(port="51823", pool="10.8.0.0/16"))

# Orders: the words behind the register's path, the text on standard input, and what is printed with ample memory.
ORDERS = {
    "a tenant": (["tenant-add", "cato"], b"", DONE),
    "a tenant that is there": (["tenant-add", "acme"], b"", refused_order("name_held")),
    "a token": (["token-grant", "acme"], b"new", DONE),
    "a token that only reads": (["token-grant", "acme", "--right", "read"], b"new", DONE),
    "a token that is there": (["token-grant", "acme"], b"abc", refused_order("digest_held")),
    "an end of a token": (["token-end"], b"abc", DONE),
    "an end of a token that only reads": (["token-end"], b"reads", DONE),
    "an end of no token": (["token-end"], b"none", refused_order("no_such_token")),
    "a network": (["network-add", "acme", "more", *options(**MORE)], b"", DONE),
    "a pool that overlaps": (list(HELD), b"", refused_order("pool_overlaps acme office")),
    "an end of a full network": (["network-end", "bolt", "lab"], b"", DONE),
    "an end of no network": (["network-end", "acme", "none"], b"", refused_order("no_network")),
}


def rows(database):
    """All rows of all tables, or nothing where there are none."""
    return rows_of(database) or None


def make_base(folder):
    """A register of two tenants, one of which has a token that only reads; bolt's network has as many peers as it may."""
    database = make_register(folder)
    order("tenant-add", database, "bolt")
    order("token-grant", database, "bolt", token="xyz")
    order("token-grant", database, "acme", "--right", "read", token="reads")
    network_add(database, "bolt", "lab", "10.9.0.0/24", port="51821", capacity="40")
    theirs = [request("POST", "/networks/lab/peers", {"key": key(of)}, "xyz") for of in range(10, 50)]
    left = batch(database, 7, BASE + theirs)
    assert left.out.count(b"HTTP/1.1 200 OK") == 46, left
    return database


class Run:
    """A word, run on copies of a register in which a growth is refused."""

    def __init__(self, base, words, text=b"", asked=None, lasting=0):
        self.base, self.words, self.text, self.asked, self.lasting = base, words, text, asked, lasting
        self.known = {}

    def leaves(self, faulty, asked=None, **wanted):
        """What the run prints, and what those that follow print and leave."""
        folder = faulty.folder.name
        database = f"{folder}/run.db"
        for name in [database, f"{database}-wal"]:
            Path(name).unlink(missing_ok=True)
        if self.base:
            shutil.copyfile(self.base, database)
        words = [self.words[0], database, *self.words[1:]]
        if asked is None:
            asked = self.asked
        left = faulty.run([*words, *files(folder, asked or [])], self.text, **wanted) if asked != [] else None
        met = faulty.growths, faulty.refused
        # Where `init` found no memory, the register can be made.
        again = None if self.base else faulty.run(["init", database])
        follows = faulty.run(["batch", database, "--now", str(NOW), *files(folder, FOLLOWING, "next")])
        return left, (again, follows, rows(database)), met

    def due(self, faulty, left):
        """What should follow what the run printed, by runs with ample memory; nothing if it may not print that."""
        if left not in self.known:
            self.known[left] = self.leaves(faulty, [])[1] if left == NO_MEMORY else self.without_some(faulty, left)
        return self.known[left]

    def without_some(self, faulty, left):
        """Where a request was answered `unavailable`, or several were, what the others leave without them."""
        if self.asked is None or left.status != 1 or left.err:
            return None
        told = replies(left.out)
        if len(told) != len(self.asked) or told.count(UNAVAILABLE) > (len(told) if self.lasting else 1):
            return None
        done = [(asked, reply) for asked, reply in zip(self.asked, told) if reply != UNAVAILABLE]
        others, behind, _ = self.leaves(faulty, [asked for asked, _ in done])
        kept = replies(others.out) if others else []
        return behind if kept == [reply for _, reply in done] else None

    def sweep(self, script):
        """What is printed with ample memory, the growths at which something else came, and how many were refused."""
        wrong, count = [], 0
        with Faulty() as faulty:
            ample, behind, (total, _) = self.leaves(faulty)
            self.known[ample] = behind
            for number in itertools.chain(numbers(total, script), itertools.count(total)):
                left, behind, (_, met) = self.leaves(faulty, growth=number, lasting=self.lasting)
                due = self.due(faulty, left)
                if behind != due or not (met or left == ample):
                    wrong.append((number, left, "other rows" if due else "not due"))
                count += met > 0
                if not met:
                    return ample, wrong, count


def numbers(total, script):
    """The growths to refuse of so many: all, or other ones for each script."""
    if WHOLE:
        return range(total)
    early = range(script * 97 % EARLY, min(OPENING, total), EARLY)
    return [*early, *range(OPENING + script % LATE, total, LATE)]


def files(folder, asked, name="asked"):
    """The paths of files of these requests."""
    paths = [f"{folder}/{name}-{place}" for place in range(len(asked))]
    for path, message in zip(paths, asked):
        Path(path).write_bytes(message)
    return paths


@needs_faults()
class Words(unittest.TestCase):
    """A word's whole run: its start, the register's opening, what is asked, and its end."""

    maxDiff = None

    def test_growths(self):
        with scratch() as folder, ThreadPoolExecutor(2) as pool:
            base = make_base(folder)
            ended = f"{folder}/ended.db"
            shutil.copyfile(base, ended)
            order("token-end", ended, token="abc")
            bad = f"{folder}/bad.db"
            shutil.copyfile(base, bad)
            with closing(sqlite3.connect(bad)) as file:
                file.execute("UPDATE network SET capacity = 4097")
                file.commit()
                file.execute("PRAGMA wal_checkpoint(TRUNCATE)")
            earlier = f"{folder}/earlier.db"
            make(earlier, 1, base)
            now = ["batch", "--now", str(NOW)]
            scripts = {
                "init": (Run(None, ["init"]), DONE),
                "init of a register": (Run(base, ["init"]), Left(1, b"", b"wgr: not_empty\n")),
                "a migration": (Run(earlier, ["migrate"]), DONE),
                "a migration of the present version": (Run(base, ["migrate"]), DONE),
                "an order on an earlier version": (Run(earlier, ["tenant-add", "cato"]), EARLIER),
                "a register that is not good": (Run(bad, ["tenant-add", "cato"]), Left(1, b"", b"wgr: not_good\n")),
                **{name: (Run(base, words, text), left) for name, (words, text, left) in ORDERS.items()},
                "what is shown": (Run(base, ["show"]), None),
                "what is shown of a tenant, as JSON": (Run(base, ["show", "acme", "--json"]), None),
                "what is shown of nobody": (Run(base, ["show", "nobody"]), refused_order("no_such_tenant")),
                "a service that is asked nothing": (Run(base, ["serve", f"127.0.0.1:{free_port()}", "--count", "0"]), Left(0, b"listening\n")),
                "the first peer": (Run(base, now, asked=[ADD, LOOK]), None),
                "a list of requests": (Run(base, now, asked=list(ASKED.values())), None),
                "requests with an ended token": (Run(ended, now, asked=[LOOK, request("GET", "/networks", token="xyz"), ADD]), None),
                "a list of requests, and no memory from then on": (Run(base, now, asked=list(ASKED.values()), lasting=1), None),
                "a network, and no memory from then on": (Run(base, ["network-add", *ORDERS["a network"][0][1:]], lasting=1), DONE),
                "the server's file before an end": (Run(base, ["batch", "--now", "49"], asked=[FILE]), None),
                "the server's file at an end": (Run(base, ["batch", "--now", "50"], asked=[FILE]), None),
            }
            swept = {name: pool.submit(run.sweep, place) for place, (name, (run, _)) in enumerate(scripts.items())}
            for name, future in swept.items():
                ample, wrong, count = future.result()
                tell(name, count, "growths refused")
                with self.subTest(name, refused=count):
                    due = scripts[name][1]
                    self.assertTrue(ample == due if due else ample.status == 0, ample)
                    self.assertEqual(wrong[:3], [])
                    self.assertGreater(count, 0)

    def test_growths_of_a_plan(self):
        words, text = ["plan", "10.8.0.0/24"], f"{K0}\n".encode()
        with Faulty() as faulty:
            ample, number, met = faulty.run(words, text), 0, 1
            while met:
                left = faulty.run(words, text, growth=number)
                met, number = faulty.refused, number + 1
                self.assertIn(left, [ample, NO_MEMORY] if met else [ample], number)
        self.assertEqual(ample, Left(0, f"1\t{K0}\t10.8.0.2/32\n".encode()))
        tell("plan", number - 1, "growths refused")


@needs_faults()
class Serving(unittest.TestCase):
    """One connection, from its first read to its reply."""

    maxDiff = None
    # Whether the service has the network in memory by then.
    loads = True

    def setUp(self):
        self.folder = self.enterContext(scratch())
        self.faulty = self.enterContext(Faulty())
        self.server = None
        self.addCleanup(self.end)

    def end(self):
        """Kills the service; its file has what it showed last."""
        if self.server:
            self.server.__exit__()
            self.server = None
            left = batch(f"{self.folder}/run.db", NOW, [LOOK])
            self.assertEqual(left, Left(0, self.shown))

    def start(self):
        """A service on a copy of the register. One that has loaded the network goes on where it is as it began."""
        if self.loads and self.server and self.shown == self.before:
            return
        self.end()
        shutil.copyfile(self.base, f"{self.folder}/run.db")
        Path(f"{self.folder}/run.db-wal").unlink(missing_ok=True)
        self.server = self.faulty.serve(f"{self.folder}/run.db", now=NOW).__enter__()
        self.before = self.shown = self.server.send(LOOK) if self.loads else batch(self.base, NOW, [LOOK]).out

    def ask(self, message, growth, lasting=0):
        """The reply to a message at which this growth is refused, and whether it was; `shown` is what follows."""
        self.faulty.arm(growth=growth, lasting=lasting)
        reply = self.server.send(message, close=message == ASKED["truncated"])
        met = self.faulty.refused
        self.faulty.disarm()
        self.shown = self.server.send(LOOK)
        return reply, met

    def sweep(self, message, stride, lasting):
        """How many growths were refused with the 503, and how many without."""
        self.start()
        ample, _ = self.ask(message, -1)
        behind, number, met, counts = self.shown, 0, 1, [0, 0]
        while met:
            self.start()
            reply, met = self.ask(message, number, lasting)
            if met and reply == UNAVAILABLE:
                self.assertEqual(self.shown, self.before, f"growth {number}")
            else:
                self.assertEqual((reply, self.shown), (ample, behind), f"growth {number}")
            counts[reply != UNAVAILABLE] += met > 0
            number += stride
        return counts

    def each(self, asked, whole=(), lasting=0, stride=CONNECTION_STRIDE):
        total = 0
        for name, message in asked.items():
            with self.subTest(name):
                counts = self.sweep(message, 1 if name in whole else stride, lasting)
                if counts[0] == 0:
                    # On a busy machine the message comes late, and the first growth was that of the list of silent clients.
                    counts = self.sweep(message, 1, lasting)
                self.assertGreater(counts[0], 0)
                total += sum(counts)
        tell(f"{len(asked)} requests by serve", total, "growths refused")

    def test_growths(self):
        self.base = make_base(self.folder)
        self.each(ASKED, ["truncated", "a new peer"])

    def test_no_memory_from_a_growth_on(self):
        self.base = make_base(self.folder)
        self.each(ASKED, lasting=1, stride=1 if WHOLE else 37)

    def test_growths_by_rows(self):
        self.base, self.loads = make_base(self.folder), False
        self.each({name: ASKED[name] for name in DIRECTED}, stride=1 if WHOLE else 23)

    def test_growths_of_4096_routes(self):
        self.base = make_base(self.folder)
        many = ",".join(f"10.9.{place // 256}.{place % 256}/32" for place in range(4_094))
        line = request("POST", "/networks/office/dump", dump((8, f"10.8.0.30/32,{many}")))
        # At this moment the route of peer 3 is gone.
        self.assertEqual(batch(self.base, 60, [line]), Left(0, done({"added": [4], "known": 0})))
        self.each(AT_THE_LIMIT)
