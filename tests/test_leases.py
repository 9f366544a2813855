"""Leases that end, in whichever way the program came to know of them.

The program knows of each network when its first lease ends, and looks for expired peers only from then on. If it took
that for later than it is, a peer whose lease is over would still hold its key, its address and its room.
"""

import copy
import re
import shutil
import time
import unittest

import sending
from faulty import ONCE, Faulty, needs_faults, scratch
from plain_orders import answer_line
from serving import SERVER_KEY, Server, done, key, peer, refused, request
from test_batch import batch, replies
from test_clock import wait_until
from test_directed import Pair, dump, look_at_all, new
from test_directed_lists import MANY
from test_worlds import rows

# When the leases of three peers end. Of two networks that follow one another, one has a lease that ends soon.
SOON, LATE = 100, 200
ENDS = [(SOON, LATE, 0), (LATE, 0, 0), (LATE, SOON, 0), (0, 0, 0), (0, SOON, LATE), (0, LATE, 0), (LATE, 0, SOON), (0, 0, LATE)]
# Seconds until the leases end that a service sees end, at least. It has to be asked all else by then, which takes half a second.
WAIT = 10
# How many networks stay in memory.
KEPT = 64
# Networks that are added while a service runs. The first has the id of one that was ended.
ADDED = ["in-place-of-another", "added"]


def taking(what, pool, place):
    """A new peer that wants the key, the address or the room of the peer at this place."""
    return {"key": {"key": key(1 + place)}, "address": {"key": key(5), "address": str(pool[2 + place])}, "room": {"key": key(5)}}[what]


def add(of, end=0):
    return "POST", "peers", {"key": key(of), "end": end}


def renew(number, end):
    return "POST", f"peers/{number}/lease", {"end": end}


def courses(soon, late):
    """By network: when the leases of its first peers end, what is asked of it, and what once it isn't in memory any more.

    In each a lease ends soon. What begins with a new peer is answered by rows, all else in memory.
    """
    listed = ("GET", "peers", None)
    return {
        "alone": ([], [add(3, soon)], []),
        "behind-a-later-one": ([late], [add(3, soon)], []),
        "before-a-later-one": ([], [add(3, soon)], [add(4, late)]),
        "before-a-peer-without": ([], [add(3, soon)], [add(4)]),
        "behind-one-that-is-over": ([LATE, soon], [add(3)], []),
        "listed": ([late, soon], [listed], []),
        "renewed": ([late], [renew(1, soon)], []),
        "renewed-before-another": ([late, late], [renew(1, soon), renew(2, late + 1)], []),
        "added-before-another": ([0], [listed, add(3, soon), add(4, late)], []),
        "moved": ([soon], [("POST", "peers/1/address", {})], []),
        "adopted": ([soon], [("POST", "dump", dump([(key(1), ["(none)"])]))], []),
        **{name: ([], [add(3, soon)], [add(4)]) for name in ADDED},
    }


class Leases(unittest.TestCase):
    """A lease that is over counts for nothing, in whichever way the program came to know of it."""

    maxDiff = None

    def make(self, folder, capacities):
        self.pair = Pair(folder, {name: (f"10.9.{place}.0/29", capacity) for place, (name, capacity) in enumerate(capacities.items())})

    def add_first(self, ends):
        """Adds peers whose leases end then, to networks by their names."""
        asked = [(name, add(of, end)) for name, each in ends.items() for of, end in enumerate(each, 1)]
        asked = [request(method, f"/networks/{name}/{path}", body) for name, (method, path, body) in asked]
        left = batch(self.pair.database, 1, asked)
        self.assertEqual(replies(left.out), [self.pair.plain.answer(1, message) for message in asked])
        self.assertEqual(left.out.count(b" 200 OK"), len(asked))

    def test_before_an_opening(self):
        """A new peer in each of many networks wants what the one has whose lease ends first."""
        cases = {f"{what}-{place}": (what, ends) for what in ["key", "address", "room"] for place, ends in enumerate(ENDS)}
        asked = []
        with scratch() as folder:
            self.make(folder, {name: 3 if what == "room" else 4 for name, (what, _) in cases.items()})
            self.add_first({name: ends for name, (_, ends) in cases.items()})
            for name, (what, ends) in cases.items():
                first = ends.index(min(filter(None, ends), default=0))
                asked.append(request("POST", f"/networks/{name}/peers", taking(what, self.pair.network(name).pool, first)))
            for now, added in [(SOON - 1, 0), (SOON, 12), (LATE - 1, 12), (LATE, 21)]:
                path, plain = shutil.copyfile(self.pair.database, f"{folder}/copy.db"), copy.deepcopy(self.pair.plain)
                told = replies(batch(path, now, asked).out)
                for name, message, reply in zip(cases, asked, told, strict=True):
                    with self.subTest(name, ends=cases[name][1], moment=now):
                        self.assertEqual(reply, plain.answer(now, message))
                with self.subTest("what is left", moment=now):
                    look_at_all(self, path, plain)
                    self.assertEqual(sum(b" 200 OK" in reply for reply in told), added)

    @needs_faults()
    def test_before_a_fault(self):
        """What was known of leases is forgotten then; one that is over is found all the same."""
        with scratch() as folder, Faulty() as faulty:
            self.make(folder, {"office": 1, "lab": 1})
            self.add_first({"office": [SOON]})
            with faulty.serve(self.pair.database, now=SOON) as server:
                faulty.arm(call=0, how=ONCE)
                self.assertEqual(server.send(request("POST", "/networks/lab/peers", {"key": key(1)})), refused(503, "unavailable"))
                faulty.disarm()
                self.assertEqual(server.send(new(5)), done(peer(2, 5, "10.9.0.2/32")))
            self.assertEqual([len(table) for table in rows(self.pair.database)], [2, 1, 1])

    def test_while_a_service_runs(self):
        with scratch() as folder:
            self.socket, self.others = f"{folder}/orders", [f"n{place}" for place in range(MANY)]
            names = ["ended", *(name for name in courses(0, 0) if name not in ADDED), *self.others]
            began = time.monotonic()
            self.make(folder, dict.fromkeys(names, 6))
            # A machine that is slow to make the register has more time for the rest.
            soon = int(time.time() + WAIT + 4 * (time.monotonic() - began))
            late = soon + 1_000
            self.add_first({"ended": [late], **{name: ends for name, (ends, _, _) in courses(soon, late).items()}})
            with Server(self.pair.database, orders=self.socket) as self.server:
                self.add_networks()
                self.see_the_end(courses(soon, late), soon)
            look_at_all(self, self.pair.database, self.pair.plain)
            self.assertIn((1, ADDED[0]), [(row[0], row[2]) for row in rows(self.pair.database)[0]])

    def add_networks(self):
        """Ends a network that is in memory, and adds others."""
        self.ask(1, "ended", "GET", "peers")
        self.order("network-end", "acme", "ended")
        for place, name in enumerate(ADDED, 1):
            self.order("network-add", "acme", name, f"10.10.{place}.0/29", "vpn.example.net", str(place), SERVER_KEY, "6")

    def see_the_end(self, asked, soon):
        self.ask_each(soon - 1, {name: first for name, (_, first, _) in asked.items()})
        self.ask_others(soon - 1)
        self.ask_by_rows(soon - 1, {name: then for name, (_, _, then) in asked.items()})
        self.ask_others(soon - 1)
        self.assertLess(time.time(), soon, "this machine is too slow")
        wait_until(soon + 0.1)
        self.ask_by_rows(soon, {name: [add(5)] for name in asked})

    def order(self, *words):
        line = sending.line(words)
        self.assertEqual((sending.tell(self.socket, line), answer_line(self.pair.plain, line)), 2 * (b"0 done\n",))

    def ask(self, now, name, method, path, body=None):
        message = request(method, f"/networks/{name}/{path}", body)
        reply = self.server.send(message)
        self.assertEqual(reply, self.pair.plain.answer(now, message))
        return reply

    def ask_each(self, now, asked):
        for name, each in asked.items():
            with self.subTest(name, moment=now):
                for words in each:
                    self.assertIn(b" 200 OK", self.ask(now, name, *words))

    def ask_others(self, now):
        """Each by its rows, then in memory. They are more than are kept of both, so none that was asked before is left."""
        for name in self.others:
            self.ask(now, name, "GET", f"owner/{self.pair.network(name).pool[2]}")
            self.ask(now, name, "GET", "peers")

    def ask_by_rows(self, now, asked):
        """One network in memory is ended first, so there is room for one that is loaded, and it would count."""
        self.order("network-end", "acme", self.others.pop())
        before = self.in_memory()
        self.ask_each(now, asked)
        self.assertEqual((before, self.in_memory()), (KEPT - 1, KEPT - 1))

    def in_memory(self):
        return int(re.search(rb"networks_in_memory (\d+)", sending.shown(self.socket, "status"))[1])
