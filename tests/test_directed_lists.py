"""Random lists of requests, most of them for new peers and owners of addresses, in networks that aren't in memory.

A program that was just started has no network in memory, and of more than 64 networks that are asked in turn none is
there when its turn comes. Each reply has to be that of the plain register (`plain.py`), byte for byte, and that of a
program which has the network in memory; so have the rows that are left. The lists have pools that are small, leases
that are over while their rows are there, and routes in the pool, around it and beside it. A run takes 600 and 2,100
requests, `WGR_ALL=1` 20,000 and 70,000; `WGR_SEED=N` takes others.
"""

import ipaddress
import os
import random
import shutil
import unittest

from faulty import WHOLE, scratch, tell
from program import Left
from serving import SERVER_KEY, key, request
from test_batch import batch, replies
from test_directed import Pair, look_at_all, twin
from test_worlds import rows

EVENTS, MANY_EVENTS = (20_000, 70_000) if WHOLE else (600, 2_100)
# More networks than a program keeps in memory, and how often each is asked at one moment.
MANY, TURNS = 70, 3
# The networks of random lists: a pool, and how many peers may be there.
NETWORKS = [
    ("10.8.0.0/28", 4096),
    ("10.8.1.0/30", 4096),
    ("10.8.2.0/24", 4),
    ("10.16.0.0/12", 4096),
    ("fd00:8::/124", 4096),
    ("fd00:9::/126", 2),
    ("fd00:a::/64", 4096),
]
# How many addresses at the pool's begin are asked for.
LOW = 17
OTHERS = ["0.0.0.0", "255.255.255.255", "192.168.4.7", "::", "fd00:b::7", "ffff::ffff"]


class Script:
    """Random requests, most of them for new peers and for owners."""

    def __init__(self, seed, pair):
        self.random, self.pair = random.Random(seed), pair

    def moment(self, place):
        """Moments rise, and a few are earlier ones: then leases aren't over that were, if their rows are there."""
        return max(1, place - self.random.choice([0, 0, 0, 0, 0, 9]))

    def end(self, now):
        return self.random.choice([0, 0, now, now + 1, now + self.random.randrange(20)])

    def address(self, pool):
        """One that the pool has, mostly at its begin or its end; or one beside it, or of the other family."""
        pick, low = self.random.random(), pool[self.random.randrange(min(LOW, pool.num_addresses))]
        if pick < 0.9:
            return pool[-1 - self.random.randrange(2)] if pick < 0.15 else low
        return self.random.choice([pool[-1] + 1, pool[0] - 1, *[twin(low)] * 3, *map(ipaddress.ip_address, OTHERS)])

    def prefix(self, pool):
        """A prefix with such an address: one of a few addresses, the pool itself or a part, or one around it."""
        address, full = self.address(pool), pool.max_prefixlen
        address = twin(address) if self.random.random() < 0.1 else address
        if address.max_prefixlen != full:
            lengths = [0, address.max_prefixlen, address.max_prefixlen - 2, self.random.randrange(address.max_prefixlen + 1)]
            return f"{address}/{self.random.choice(lengths)}"
        around = [pool.prefixlen - 1, self.random.randrange(pool.prefixlen), 0]
        # The plain register looks at each address of a large pool that is held.
        around += [pool.prefixlen] if full - pool.prefixlen <= 8 else []
        return f"{address}/{self.random.choice([full, full, full - 1, full - 2, full - 3, self.random.choice(around)])}"

    def number(self, network):
        """A peer's number: one whose row is there, or one near."""
        return self.random.choice([*network.peers, network.next] if self.random.random() < 0.9 else [1, network.next + 1])

    def directed(self, name, now):
        """A request for a new peer or for an owner."""
        pool, pick = self.pair.network(name).pool, self.random.random()
        if pick < 0.4:
            return request("GET", f"/networks/{name}/owner/{self.address(pool)}")
        new = {"key": SERVER_KEY if pick > 0.98 else key(1 + self.random.randrange(20))}
        if pick < 0.65:
            new["address"] = str(self.address(pool))
        return request("POST", f"/networks/{name}/peers", new | ({"end": self.end(now)} if self.random.random() < 0.6 else {}))

    def other(self, name, now):
        """A request that makes other rows."""
        network, path = self.pair.network(name), f"/networks/{name}"
        at, prefix = f"{path}/peers/{self.number(network)}", self.prefix(network.pool)
        routes = [str(each) for each in network.routes]
        dump = f"(none)\t{SERVER_KEY}\t51820\toff\n{key(30)}\t(none)\t(none)\t{self.prefix(network.pool)},{prefix}\t0\t0\t0\toff\n"
        return self.random.choice(
            [
                request("POST", f"{at}/routes", {"prefix": prefix}),
                request("POST", f"{at}/routes", {"prefix": prefix}),
                request("POST", f"{at}/routes", {"prefix": prefix}),
                request("POST", f"{at}/lease", {"end": self.end(now)}),
                request("POST", f"{at}/lease", {"end": self.end(now)}),
                request("DELETE", at),
                request("DELETE", at),
                request("POST", f"{at}/address", {}),
                request("POST", f"{path}/unroute", {"prefix": self.random.choice(routes or [prefix])}),
                request("POST", f"{path}/dump", dump.encode()),
            ]
        )


class Random(unittest.TestCase):
    def due(self, now, message):
        return self.pair.plain.answer(now, message)

    def compare(self, now, message, reply, due):
        if reply != due:
            self.fail(f"at {now}\n{message!r}\ngave {reply!r}\nand not {due!r}")

    def assert_reached(self, seen):
        """The script reaches what it should compare."""
        names = {reply.partition(b'{"error":"')[2].partition(b'"')[0].decode() for reply in seen}
        wanted = "server_key key_held lease_over capacity_reached outside_pool address_held pool_full nobodys_address"
        self.assertLessEqual(set(wanted.split()), names)
        self.assertLessEqual({b'{"address"', b'{"number"'}, {reply.partition(b"\r\n\r\n")[2].partition(b":")[0] for reply in seen})

    def start(self, folder, networks):
        self.pair = Pair(folder, networks)
        self.script = Script(int(os.environ.get("WGR_SEED", "1")), self.pair)
        return self.script.random

    def in_memory(self, folder, name, now, message):
        """The reply of a program that has the network in memory, on a copy of the register, and the rows that it leaves."""
        path = f"{folder}/copy.db"
        shutil.copyfile(self.pair.database, path)
        left = batch(path, now, [request("GET", f"/networks/{name}/peers"), message])
        return replies(left.out)[1], rows(path)

    def test_each_by_a_program_of_its_own(self):
        with self.subTest(WGR_SEED=os.environ.get("WGR_SEED", "1")), scratch() as folder:
            pick, seen = self.start(folder, {f"n{place}": each for place, each in enumerate(NETWORKS)}), set()
            for place in range(EVENTS):
                name, now = f"n{pick.randrange(len(NETWORKS))}", self.script.moment(place // 5)
                is_directed = pick.random() < 0.6
                message = (self.script.directed if is_directed else self.script.other)(name, now)
                known = self.in_memory(folder, name, now, message) if is_directed else None
                due, left = self.due(now, message), batch(self.pair.database, now, [message])
                self.compare(now, message, left, Left(0, due))
                if is_directed:
                    self.compare(now, message, known, (due, rows(self.pair.database)))
                    seen.add(due)
            look_at_all(self, self.pair.database, self.pair.plain)
            self.assert_reached(seen)
            tell("random requests, each by a program of its own", EVENTS, f"compared, {len(seen)} replies differ")

    def test_more_networks_than_stay_in_memory(self):
        """One of each two of them has a pool of few addresses."""
        with self.subTest(WGR_SEED=os.environ.get("WGR_SEED", "1")), scratch() as folder:
            pools = [[f"10.9.{place}.0/28", f"fd00:{place:x}::/125"][place % 2] for place in range(MANY)]
            capacities = [[4096, 4096, 3][place % 3] for place in range(MANY)]
            pick, seen = self.start(folder, {f"n{place}": each for place, each in enumerate(zip(pools, capacities))}), set()
            names = list(self.pair.plain.tenants["acme"])
            for place in range(MANY_EVENTS // (MANY * TURNS)):
                now, asked = self.script.moment(4 * place), []
                for name in names * TURNS:
                    message = (self.script.directed if pick.random() < 0.7 else self.script.other)(name, now)
                    # What is made next may be of the peers that are there then.
                    asked.append((message, self.due(now, message)))
                left = batch(self.pair.database, now, [message for message, _ in asked])
                self.assertEqual((left.status, left.err), (0, b""))
                for (message, due), reply in zip(asked, replies(left.out), strict=True):
                    self.compare(now, message, reply, due)
                    seen.add(due)
            look_at_all(self, self.pair.database, self.pair.plain)
            self.assert_reached(seen)
            tell("random requests of many networks in turn", MANY_EVENTS, f"compared, {len(seen)} replies differ")
