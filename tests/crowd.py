"""A network of 4,096 peers with as many routes, and the replies that show it, of which the largest have most of a megabyte."""

import ipaddress
from pathlib import Path

from keys import numbered_keys
from serving import SERVER_KEY, TOKEN, done, file_of, key, network_add, order, peer, refused, request

MOST = 4_096
NUMBERS = range(1, MOST + 1)
KEYS = numbered_keys(MOST + 2)
POOL = "10.64.0.0/19"
SERVER = ipaddress.ip_address("10.64.0.1")
OFFICE = "/networks/office"
INTERFACE = f"(none)\t{SERVER_KEY}\t51820\toff\n"


def address(number):
    return f"{SERVER + number}/32"


def route(number):
    """The route to a peer; those of peers in turn are in no order."""
    place = number * 1_237 % MOST
    return f"172.16.{place // 16}.{place % 16 * 16}/28"


def in_order(prefixes):
    return sorted(prefixes, key=lambda prefix: ipaddress.ip_network(prefix))


def make_place(folder):
    """A register whose network `office` has room for them, and none of them yet."""
    database = str(Path(folder) / "reg.db")
    order("init", database)
    order("tenant-add", database, "acme")
    order("token-grant", database, "acme", token=TOKEN)
    network_add(database, "acme", "office", POOL)
    return database


class Crowd:
    """The peers as they should be, by number, and the replies that show them."""

    def __init__(self):
        self.peers = {number: self.new(number, address(number), [route(number)], number % 2 * 25) for number in NUMBERS}
        self.see(1)

    @staticmethod
    def new(number, at, routes=(), keepalive=0):
        return peer(number, 0, at, routes=routes, keepalive=keepalive) | {"key": KEYS[number - 1]}

    def see(self, handshake):
        for number, one in self.peers.items():
            one["status"] = {"handshake": handshake, "received": number, "sent": 2**63 - number}

    def dump(self):
        """A dump that shows all of them, each with a preshared key."""
        lines = [INTERFACE]
        for one in self.peers.values():
            seen = "\t".join(str(one["status"][name]) for name in ["handshake", "received", "sent"])
            fields = [one["key"], key(7), "192.0.2.1:9", ",".join([one["address"], *one["routes"]]), seen, str(one["keepalive"] or "off")]
            lines.append("\t".join(fields) + "\n")
        return request("POST", f"{OFFICE}/dump", "".join(lines).encode())

    def listed(self):
        return done({"peers": list(self.peers.values())})

    def server_file(self, form):
        lines = ["[Interface]", *([f"Address = {SERVER}/19"] if form == "quick" else []), "ListenPort = 51820"]
        for one in self.peers.values():
            lines += ["", "[Peer]", f"PublicKey = {one['key']}", f"AllowedIPs = {', '.join([one['address'], *one['routes']])}"]
            lines += self.keepalive(one)
        return file_of(*lines)

    def peer_file(self, number, form):
        own = self.peers[number]
        others = in_order(prefix for one in self.peers.values() if one is not own for prefix in one["routes"])
        lines = ["[Interface]", *([f"Address = {own['address']}"] if form == "quick" else []), "", "[Peer]", f"PublicKey = {SERVER_KEY}"]
        lines += [f"AllowedIPs = {', '.join([POOL, *others])}", "Endpoint = vpn.example.net:51820"]
        return file_of(*lines, *self.keepalive(own))

    @staticmethod
    def keepalive(one):
        return [f"PersistentKeepalive = {one['keepalive']}"] if one["keepalive"] else []

    def readings(self):
        """Each reading, and the reply that is due."""
        yield "the list", request("GET", f"{OFFICE}/peers"), self.listed()
        for form in ["wg", "quick"]:
            yield f"the server's file, {form}", request("GET", f"{OFFICE}/server/{form}"), self.server_file(form)
            for number in [1, MOST]:
                asked = request("GET", f"{OFFICE}/peers/{number}/file/{form}")
                yield f"the file of peer {number}, {form}", asked, self.peer_file(number, form)
        for number in [1, MOST]:
            for held in [self.peers[number]["address"], self.peers[number]["routes"][0]]:
                asked = request("GET", f"{OFFICE}/owner/{held.partition('/')[0]}")
                yield f"the owner of {held}", asked, done({"number": number})

    def change(self, path, body, number, **facts):
        """A change of a peer, which is shown with these facts then."""
        self.peers[number].update(facts)
        return f"{path} {body}", request("POST", f"{OFFICE}/{path}", body), done(dict(self.peers[number]))

    def changes(self):
        """Changes of peers with large numbers, and the replies that are due."""
        yield self.change("peers/4000/address", {"address": "10.64.31.9"}, 4000, address="10.64.31.9/32")
        yield self.change("peers/4001/lease", {"end": 2**53 - 1}, 4001, end=2**53 - 1)
        self.peers[4003]["routes"] = []
        yield self.change("peers/4002/routes", {"prefix": route(4003)}, 4002, routes=in_order([route(4002), route(4003)]))
        yield self.change("unroute", {"prefix": route(4002)}, 4002, routes=[route(4003)])
        del self.peers[3000]
        yield "a peer is revoked", request("DELETE", f"{OFFICE}/peers/3000"), done({"revoked": 3000})
        yield "it is gone", request("DELETE", f"{OFFICE}/peers/3000"), refused(404, "no_such_peer")
        # It gets the address that was revoked, the lowest free one.
        self.peers[4097] = self.new(4097, address(3000))
        yield "a new peer", request("POST", f"{OFFICE}/peers", {"key": KEYS[4096]}), done(self.peers[4097])

    def session(self):
        yield "all are adopted", self.dump(), done({"added": [*NUMBERS], "known": 0})
        yield from self.readings()
        yield "a peer more", request("POST", f"{OFFICE}/peers", {"key": KEYS[MOST]}), refused(409, "capacity_reached")
        yield "a route more", request("POST", f"{OFFICE}/peers/1/routes", {"prefix": "::/0"}), refused(409, "routes_full")
        yield "a key of the last", request("POST", f"{OFFICE}/peers", {"key": KEYS[MOST - 1]}), refused(409, "key_held", number=MOST)
        self.see(2)
        yield "all are adopted again", self.dump(), done({"added": [], "known": MOST})
        yield from self.changes()
        yield from self.readings()

    def session_of_ends(self):
        """At a moment at which the leases of 2,000 peers are over."""
        for number in range(1001, 3001):
            self.peers.pop(number, None)
        yield from self.readings()
        self.peers[4098] = self.new(4098, address(1001))
        yield "a new peer", request("POST", f"{OFFICE}/peers", {"key": KEYS[4097]}), done(self.peers[4098])
        yield from self.readings()
