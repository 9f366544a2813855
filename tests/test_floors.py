"""The lowest free address, by the rows of a network that isn't in memory, after whatever may have freed a lower one.

The program knows of each network an address below which none is free, and reads the rows of held addresses only from
there on. If it took that for higher than it is, a new peer would not get the lowest free address.
"""

import unittest

from faulty import scratch
from serving import key, request
from test_batch import batch, replies
from test_directed import Pair, dump, look_at_all
from test_directed_lists import MANY

LATE = 200


def at(network, place):
    return f"10.9.{network}.{place}"


def add(of, **members):
    return "POST", "peers", {"key": key(of), **members}


def lead(network, place, length):
    return "POST", "peers/1/routes", {"prefix": f"{at(network, place)}/{length}"}


def unroute(network, place, length):
    return "POST", "unroute", {"prefix": f"{at(network, place)}/{length}"}


def move(network, place):
    return "POST", "peers/2/address", {"address": at(network, place)}


# By what happens to a network with peers at the places 2 to 5: what is asked before the program starts, what then, as
# functions of the network's place, and at which place the lowest free address is after that.
COURSES = {
    "nothing": ([], [], 6),
    "listed": ([], [lambda _: ("GET", "peers", None)], 6),
    "revoked": ([], [lambda _: ("DELETE", "peers/2", None)], 3),
    "moved-away": ([], [lambda n: move(n, 9)], 3),
    "moved-to-where-it-was": ([], [lambda _: ("POST", "peers/2/address", {})], 6),
    "renewed": ([], [lambda _: ("POST", "peers/2/lease", {"end": LATE})], 6),
    "routed-at-the-gap": ([], [lambda n: lead(n, 6, 31)], 8),
    "routed-over-the-gap": ([], [lambda n: lead(n, 4, 30)], 8),
    "routed-above-the-gap": ([], [lambda n: lead(n, 8, 30)], 6),
    "unrouted-below-the-gap": ([lambda n: lead(n, 6, 31)], [lambda n: unroute(n, 6, 31)], 6),
    "unrouted-over-others": ([lambda n: lead(n, 4, 30)], [lambda n: unroute(n, 4, 30)], 6),
    "unrouted-at-its-begin": ([lambda n: lead(n, 4, 30)], [lambda _: ("DELETE", "peers/3", None), lambda n: unroute(n, 4, 30)], 4),
    "added": ([], [lambda _: add(5)], 7),
    "added-twice": ([], [lambda _: add(5), lambda _: add(6)], 8),
    "added-and-revoked": ([], [lambda _: add(5), lambda _: ("DELETE", "peers/1", None)], 2),
    "revoked-and-added": ([], [lambda _: ("DELETE", "peers/1", None), lambda _: add(5)], 6),
    "added-at-the-gap": ([], [lambda n: add(5, address=at(n, 6))], 7),
    "added-above-the-gap": ([], [lambda n: add(5, address=at(n, 8))], 6),
    "adopted": ([], [lambda n: ("POST", "dump", dump([(key(5), [f"{at(n, 6)}/32"])]))], 7),
    "with-the-router": ([lambda n: lead(n, 6, 31)], [lambda _: ("DELETE", "peers/1", None)], 2),
}


class Floors(unittest.TestCase):
    maxDiff = None

    def answers(self, asked):
        """The replies to requests, each a network's name and what is asked, one after the other in one program."""
        messages = [request(method, f"/networks/{name}/{path}", body) for name, (method, path, body) in asked]
        due = [self.pair.plain.answer(1, message) for message in messages]
        for message, reply, wanted in zip(messages, replies(batch(self.pair.database, 1, messages).out), due, strict=True):
            self.assertEqual(reply, wanted, message)
        return due

    def others(self):
        """More than stay in memory, so that no network that was asked before is left there."""
        return [(f"n{place}", ("GET", path, None)) for place in range(MANY) for path in ["owner/10.8.0.9", "peers"]]

    def test_after_each_change(self):
        with scratch() as folder:
            names = {name: (f"{at(place, 0)}/28", 16) for place, name in enumerate(COURSES)}
            self.pair = Pair(folder, names | {f"n{place}": (f"10.10.{place}.0/29", 4) for place in range(MANY)})
            asked = [(name, add(of)) for of in range(1, 5) for name in COURSES]
            self.answers(asked + [(name, made(place)) for place, (name, (first, _, _)) in enumerate(COURSES.items()) for made in first])
            asked = [(name, made(place)) for place, (name, (_, then, _)) in enumerate(COURSES.items()) for made in then]
            added = [(name, add(8)) for name in COURSES]
            told = self.answers([*asked, *self.others(), *added, *self.others(), *[(name, add(10)) for name in COURSES]])
            self.assertEqual([reply for reply in told[: len(asked)] if b" 200 OK" not in reply], [])
            first = len(asked) + 2 * MANY
            for place, ((name, (_, _, free)), reply) in enumerate(zip(COURSES.items(), told[first:])):
                with self.subTest(name):
                    self.assertIn(f'{{"address":"{at(place, free)}/32"'.encode(), reply)
            look_at_all(self, self.pair.database, self.pair.plain)
