"""New peers and owners of addresses in networks that aren't in memory, where the program reads only the rows it needs.

A program that was just started has no network in memory. Each reply has to be that of the plain register (`plain.py`),
byte for byte; so have the rows that are left.
"""

import copy
import ipaddress
import shutil
import sqlite3
import unittest
from contextlib import closing

from faulty import scratch
from keys import numbered_keys
from plain import Register, digest_of
from serving import SERVER_KEY, TOKEN, done, key, network_add, order, peer, refused, request
from test_batch import batch, replies
from test_worlds import rows


def twin(address):
    """The address of the other family that is the same number, as a column of the rows has it, in 32 bits."""
    return (ipaddress.IPv6Address if address.version == 4 else ipaddress.IPv4Address)(int(address) & 0xFFFF_FFFF)


class Pair:
    """A register in a file, and the plain one with the same entries: a tenant, and networks by their names."""

    def __init__(self, folder, networks):
        self.database, self.plain = f"{folder}/run.db", Register()
        order("init", self.database)
        order("tenant-add", self.database, "acme")
        order("token-grant", self.database, "acme", token=TOKEN)
        self.plain.tenant_add("acme")
        self.plain.token_grant("acme", digest_of(TOKEN.encode()))
        for place, (name, (pool, capacity)) in enumerate(networks.items()):
            port = 40_000 + place
            network_add(self.database, "acme", name, pool, port=str(port), capacity=str(capacity))
            assert self.plain.network_add("acme", name, pool, "vpn.example.net", port, SERVER_KEY, capacity) is None

    def network(self, name):
        return self.plain.tenants["acme"][name]


def look_at_all(test, database, plain):
    """At moment 0 all peers whose rows are there are live."""
    asked = [request("GET", f"/networks/{name}/peers") for name in plain.tenants["acme"]]
    for message, reply in zip(asked, replies(batch(database, 0, asked).out), strict=True):
        test.assertEqual(reply, plain.answer(0, message), message)


class Family:
    """A pool of sixteen addresses, prefixes around it and beside it, and such of the other family."""

    def __init__(self, pool, near, around, beside, more, others, nobodys):
        self.pool, self.full = ipaddress.ip_network(pool), ipaddress.ip_network(pool).max_prefixlen
        # Two prefixes that have the pool, of which the first begins where it does; one that hasn't, a longer one in
        # this, and an address that none has.
        self.near, self.around, self.beside, self.more, self.nobodys = near, around, beside, more, nobodys
        # All addresses of the other family, and a prefix with the same numbers as the pool's last four.
        self.others = others

    def at(self, place):
        return str(self.pool[place])

    def of(self, place, count):
        """The prefix of so many addresses that begins at this place."""
        return f"{self.at(place)}/{self.full - count.bit_length() + 1}"


FAMILIES = {
    "IPv4": Family("10.8.0.0/28", "10.8.0.0/27", "10.0.0.0/8", "192.168.4.0/24", "192.168.4.128/25", ["::/0", "::10.8.0.12/126"], "0.0.0.7"),
    "IPv6": Family("fd00:8::/124", "fd00:8::/64", "fd00::/16", "2001:db8::/32", "2001:db8:8000::/33", ["0.0.0.0/0", "0.0.0.12/30"], "::7"),
}
OFFICE = "/networks/office"
# At the first moment all leases run; at the second that of peer 2 is over, and its rows are there.
LIVE, OVER = 99, 100


def new(of, **members):
    return request("POST", f"{OFFICE}/peers", {"key": key(of), **members})


def lead(number, prefix):
    return request("POST", f"{OFFICE}/peers/{number}/routes", {"prefix": prefix})


def base(it):
    """Peer 1 at place 2, peer 2 at place 3 with a lease, peer 3 at place 4, where a route of peer 1 begins too.

    Peer 3 has all addresses of the other family.
    """
    yield new(1)
    yield new(2, end=OVER)
    yield new(3, address=it.at(4))
    yield lead(1, it.of(4, 4))
    yield lead(1, it.beside)
    for prefix in [it.around, it.of(8, 4), it.more, it.of(14, 1)]:
        yield lead(2, prefix)
    for prefix in it.others:
        yield lead(3, prefix)


def added(it, of, place, **members):
    return done(peer(4, of, f"{it.at(place)}/{it.full}", **members))


def shown(number):
    return done({"number": number})


def new_peers(it):
    """By name, a moment, a request for a new peer, and the reply."""
    yield "the first gap is behind the routes", LIVE, new(5), added(it, 5, 12)
    yield "the server's key", LIVE, request("POST", f"{OFFICE}/peers", {"key": SERVER_KEY, "end": 1}), refused(409, "server_key")
    yield "a key, before a lease", LIVE, new(2, end=LIVE), refused(409, "key_held", number=2)
    yield "a lease, before an address", LIVE, new(5, end=LIVE, address=it.at(0)), refused(409, "lease_over")
    for name, place in [("a peer", 2), ("a peer with a lease", 3), ("a peer and a route", 4), ("a route at full length", 14)]:
        yield f"the address of {name}", LIVE, new(5, address=it.at(place)), refused(409, "address_held")
    for name, address in [("first", it.at(0)), ("server's", it.at(1)), ("next pool's", str(it.pool[-1] + 1)), ("twin", str(twin(it.pool[5])))]:
        yield f"the {name} address", LIVE, new(5, address=address), refused(409, "outside_pool")
    for name, place in [("a route", 5), ("another's route", 9), ("no route", 13)]:
        yield f"an address in {name}", LIVE, new(5, address=it.at(place)), added(it, 5, place)
    yield "the lowest address is that of an expired peer", OVER, new(5), added(it, 5, 3)
    yield "an expired peer's key", OVER, new(2, end=OVER + 1), added(it, 2, 3, end=OVER + 1)
    yield "a live peer's key", OVER, new(3), refused(409, "key_held", number=3)
    for name, place in [("address", 3), ("route", 9), ("route at full length", 14)]:
        yield f"the address of an expired peer's {name}", OVER, new(5, address=it.at(place)), added(it, 5, place)
    for name, place in [("a peer", 2), ("a peer and a route", 4)]:
        yield f"the address of {name} then", OVER, new(5, address=it.at(place)), refused(409, "address_held")


def owners(it):
    """By name, a moment, an address, and the owner's number or nothing."""
    beside, more = ipaddress.ip_network(it.beside), ipaddress.ip_network(it.more)
    for name, address, live, over in [
        ("a peer's", it.at(2), 1, 1),
        ("a peer's with a lease", it.at(3), 2, None),
        ("a peer's, in a route", it.at(4), 3, 3),
        ("one in a route", it.at(7), 1, 1),
        ("one in a route, beside a longer one", str(beside[0]), 1, 1),
        ("one in the longer route", str(more[-1]), 2, 1),
        ("one in a route in the pool", it.at(8), 2, None),
        ("one that is a route at full length", it.at(14), 2, None),
        ("the server's, in a route around the pool", it.at(1), 2, None),
        ("one in that route alone", str(it.pool[-1] + 1), 2, None),
        ("one of the other family", str(twin(it.pool[3])), 3, 3),
        ("none's", it.nobodys, None, None),
    ]:
        yield name, LIVE, address, live
        yield name, OVER, address, over


class Tables(unittest.TestCase):
    maxDiff = None

    def each_alone(self, pair, folder, cases):
        """Asks each of a program of its own on a copy, and of one that has the network in memory by then."""
        path = f"{folder}/copy.db"
        for name, now, message, due in cases:
            with self.subTest(name, moment=now):
                self.assertEqual(copy.deepcopy(pair.plain).answer(now, message), due)
                left = []
                for before in [[], [request("GET", f"{OFFICE}/peers")]]:
                    shutil.copyfile(pair.database, path)
                    text = batch(path, now, [*before, message]).out
                    left.append((replies(text)[-1], rows(path)))
                self.assertEqual(left[0][0], due)
                self.assertEqual(*left)

    def make(self, folder, pool, *asked, capacity=4096):
        pair = Pair(folder, {"office": (str(pool), capacity)})
        text = batch(pair.database, 1, asked).out
        self.assertEqual(replies(text), [pair.plain.answer(1, message) for message in asked])
        self.assertEqual(text.count(b"HTTP/1.1 200 OK"), len(asked))
        return pair

    def test_new_peers_and_owners(self):
        for family, it in FAMILIES.items():
            with self.subTest(family), scratch() as folder:
                pair = self.make(folder, it.pool, *base(it))
                self.each_alone(pair, folder, new_peers(it))
                asked = ((name, now, request("GET", f"{OFFICE}/owner/{address}"), number) for name, now, address, number in owners(it))
                found = ((*words, shown(number) if number else refused(404, "nobodys_address")) for *words, number in asked)
                self.each_alone(pair, folder, found)

    def test_full_networks(self):
        """Room, numbers and addresses, in this order; expired peers take none of them."""
        full, spent, none = (refused(409, name) for name in ["capacity_reached", "numbers_spent", "pool_full"])
        for family, it in FAMILIES.items():
            # All addresses that may be given, but for the last one of some.
            rest = [lead(1, it.of(4, 4)), lead(1, it.of(8, 8))]
            with self.subTest(family), scratch() as folder:
                pair = self.make(folder, it.pool, new(1), new(2, end=OVER), *rest, capacity=2)
                self.each_alone(pair, folder, [("no room", LIVE, new(5, address=it.at(0)), full)])
                self.each_alone(pair, folder, [("room", OVER, new(5), done(peer(3, 5, f"{it.at(3)}/{it.full}")))])
            with self.subTest(family), scratch() as folder:
                pair = self.make(folder, it.pool, new(1), new(2, end=OVER), *rest, capacity=3)
                self.each_alone(pair, folder, [("no address", LIVE, new(5), none)])
                self.each_alone(pair, folder, [("an address", OVER, new(5), done(peer(3, 5, f"{it.at(3)}/{it.full}")))])
                with closing(sqlite3.connect(pair.database)) as file, file:
                    file.execute("UPDATE network SET next = 1000001")
                pair.network("office").next = 1_000_001
                self.each_alone(pair, folder, [("no number, before an address", now, new(5), spent) for now in [LIVE, OVER]])

    def test_the_last_addresses(self):
        """The pool's very last one is given in IPv6 alone."""
        for family, it in FAMILIES.items():
            rest = [new(1), new(2), lead(1, it.of(4, 4)), lead(1, it.of(8, 4)), lead(1, it.of(12, 2))]
            places = [14, 15] if it.full == 128 else [14]
            given = [done(peer(3 + count, 5, f"{it.at(place)}/{it.full}")) for count, place in enumerate(places)]
            for count, due in enumerate([*given, refused(409, "pool_full")]):
                with self.subTest(family), scratch() as folder:
                    pair = self.make(folder, it.pool, *rest, *(new(6 + before) for before in range(count)))
                    self.each_alone(pair, folder, [(f"{count} of them are held", LIVE, new(5), due)])

    def test_a_route_that_is_the_pool(self):
        """It leaves no address but to those who name one; a route around the pool leaves all."""
        for family, it in FAMILIES.items():
            first, second = (f"{it.at(place)}/{it.full}" for place in [2, 3])
            none, other = refused(409, "pool_full"), done(peer(2, 5, second))
            for name, prefix, due in [("the pool", str(it.pool), none), ("around it", it.around, other), ("behind it too", it.near, other)]:
                with self.subTest(family), scratch() as folder:
                    pair = self.make(folder, it.pool, new(1, end=OVER), lead(1, prefix))
                    cases = [(name, LIVE, new(5), due), (f"{name}, an expired peer's", OVER, new(5), done(peer(2, 5, first)))]
                    self.each_alone(pair, folder, cases)


# How many peers there are before a gap, beside some sizes in which rows are read.
GAPS = [1, 2, 3, 9, 10, 11, 73, 74, 75, 300, 599]
PEERS = 600
LARGE = ipaddress.ip_network("10.64.0.0/18")


def dump(lines):
    """A dump of peers by their keys, each with its prefixes."""
    texts = [f"{of}\t(none)\t(none)\t{','.join(prefixes)}\t0\t0\t0\toff\n" for of, prefixes in lines]
    return (f"(none)\t{SERVER_KEY}\t51820\toff\n" + "".join(texts)).encode()


class Large(unittest.TestCase):
    """The plain register would take too long here."""

    def make(self, folder, lines):
        pair = Pair(folder, {"office": (str(LARGE), 4096)})
        self.assertIn(b"HTTP/1.1 200 OK", batch(pair.database, 1, [request("POST", f"{OFFICE}/dump", dump(lines))]).out)
        return pair.database

    def change(self, database, sql):
        with closing(sqlite3.connect(database)) as file, file:
            file.execute(sql)

    def assert_added(self, database, now, number, place):
        """A new peer gets this number, and the address of this place in the pool."""
        self.assertEqual(batch(database, now, [new(5)]).out, done(peer(number, 5, f"{LARGE[place]}/32")))

    def test_gaps(self):
        """Of peers with addresses in a row one was revoked, or several are expired; in each other place a route begins too."""
        lines = [(of, [f"{LARGE[place]}/32", *([f"{LARGE[place]}/31"] if place % 2 == 0 else [])]) for place, of in enumerate(numbered_keys(PEERS), 2)]
        with scratch() as folder:
            database = self.make(folder, [(of, prefixes[:1]) for of, prefixes in lines])
            path = f"{folder}/copy.db"
            for gap in GAPS:
                with self.subTest("a peer was revoked", before=gap):
                    shutil.copyfile(database, path)
                    batch(path, 1, [request("DELETE", f"{OFFICE}/peers/{gap + 1}")])
                    self.assert_added(path, 1, PEERS + 1, gap + 2)
                with self.subTest("some are expired", before=gap):
                    shutil.copyfile(database, path)
                    # A peer's number is in the last 20 bits of its row's id.
                    self.change(path, f"UPDATE peer SET until = 100 WHERE id & 1048575 > {gap} AND id % 3 < 2")
                    expired = next(number for number in range(gap + 1, PEERS + 1) if ((1 << 20) + number) % 3 < 2)
                    self.assert_added(path, 100, PEERS + 1, expired + 1)
            with self.subTest("none is free but the next"):
                self.assert_added(database, 1, PEERS + 1, PEERS + 2)
        with scratch() as folder:
            database = self.make(folder, lines)
            path = f"{folder}/copy.db"
            for gap in GAPS:
                with self.subTest("a peer with a route was revoked, or one in the route of the one before", before=gap):
                    shutil.copyfile(database, path)
                    batch(path, 1, [request("DELETE", f"{OFFICE}/peers/{gap + 1}")])
                    # Peer 1 has place 2, where the first route begins.
                    self.assert_added(path, 1, PEERS + 1, gap + 2 if gap % 2 == 0 else PEERS + 2)

    def test_as_many_rows_as_may_be(self):
        """4,095 peers and 4,096 routes in the pool, one behind the other; then all peers are expired."""
        keys, routes = numbered_keys(4_095), [f"{LARGE[place]}/32" for place in range(4_097, 8_193)]
        lines = [(of, [f"{LARGE[place]}/32", *(routes if place == 2 else [])]) for place, of in enumerate(keys, 2)]
        with scratch() as folder:
            database = self.make(folder, lines)
            path = f"{folder}/copy.db"
            for name, address, due in [("a peer", 4_096, 4_095), ("the last route", 8_192, 1), ("nobody", 8_193, None)]:
                with self.subTest("the owner of an address", of=name):
                    text = batch(database, 1, [request("GET", f"{OFFICE}/owner/{LARGE[address]}")]).out
                    self.assertEqual(text, shown(due) if due else refused(404, "nobodys_address"))
            with self.subTest("a new peer"):
                shutil.copyfile(database, path)
                self.assert_added(path, 1, 4_096, 8_193)
                self.assertEqual(batch(path, 1, [new(6)]).out, refused(409, "capacity_reached"))
            with self.subTest("a new peer where all are expired"):
                self.change(database, "UPDATE peer SET until = 100")
                self.assert_added(database, 100, 4_096, 2)
                self.assertEqual([len(table) for table in rows(database)], [1, 1, 1])
