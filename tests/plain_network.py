"""One network of the plain register, by the rules of docs/SPECIFICATION.md. Addresses and prefixes are Python's."""

import copy
import ipaddress
import re
from dataclasses import dataclass, field

import serving

MOST_NUMBER, MOST_ROUTES = 1_000_000, 4_096


class Refused(Exception):
    def __init__(self, status, name, **facts):
        super().__init__(name)
        self.reply = serving.refused(status, name, **facts)
        self.name, self.facts, self.status = name, facts, status


def prefix_of(text):
    """The prefix of a loose text, masked, and its address; nothing for another text."""
    found = re.fullmatch(r"([0-9a-fA-F.:]+)(?:/(0|[1-9][0-9]{0,2}))?", text)
    try:
        address = ipaddress.ip_address(found[1])
        return ipaddress.ip_network((address, int(found[2] or address.max_prefixlen)), strict=False), address
    except (TypeError, ValueError):
        return None


def is_full(prefix):
    return prefix.prefixlen == prefix.max_prefixlen


def place_of(prefix):
    """The order of prefixes: IPv4 before IPv6, then the address, then the length."""
    return prefix.version, int(prefix.network_address), prefix.prefixlen


@dataclass
class Peer:
    key: str
    address: object
    label: str = ""
    end: int = 0
    keepalive: int = 0
    status: object = None


@dataclass
class Network:
    pool: object
    host: str
    port: int
    server: str
    capacity: int
    next: int = 1
    peers: dict = field(default_factory=dict)
    routes: dict = field(default_factory=dict)

    def live(self, now):
        peers = {number: peer for number, peer in self.peers.items() if not 0 < peer.end <= now}
        routes = {prefix: number for prefix, number in self.routes.items() if number in peers}
        kept = Network(self.pool, self.host, self.port, self.server, self.capacity, self.next, peers, routes)
        return copy.deepcopy(kept)

    @property
    def endpoint(self):
        return f"[{self.host}]:{self.port}" if ":" in self.host else f"{self.host}:{self.port}"

    def assignable(self, address):
        last = self.pool.broadcast_address if self.pool.version == 4 else None
        return address in self.pool and address not in (self.pool[0], self.pool[1], last)

    def lowest(self, own=None):
        held = {peer.address for number, peer in self.peers.items() if number != own}
        inside = [route for route in self.routes if route.version == self.pool.version and route.subnet_of(self.pool)]
        for address in self.pool:
            if self.assignable(address) and address not in held and not any(address in route for route in inside):
                return address
        raise Refused(409, "pool_full")

    def given(self, named, own=None):
        if named is None:
            return self.lowest(own)
        if not self.assignable(named):
            raise Refused(409, "outside_pool")
        held = {peer.address for number, peer in self.peers.items() if number != own}
        if named in held or ipaddress.ip_network(named) in self.routes:
            raise Refused(409, "address_held")
        return named

    def peer(self, number):
        if number not in self.peers:
            raise Refused(404, "no_such_peer")
        return self.peers[number]

    def add(self, now, key, label="", address=None, end=0, keepalive=0, status=None):
        if key == self.server:
            raise Refused(409, "server_key")
        for number, peer in self.peers.items():
            if peer.key == key:
                raise Refused(409, "key_held", number=number)
        self.test_end(now, end)
        if len(self.peers) >= self.capacity:
            raise Refused(409, "capacity_reached")
        if self.next > MOST_NUMBER:
            raise Refused(409, "numbers_spent")
        number = self.next
        self.peers[number] = Peer(key, self.given(address), label, end, keepalive, status)
        self.next += 1
        return number

    def test_end(self, now, end):
        if 0 < end <= now:
            raise Refused(409, "lease_over")

    def move(self, now, number, address=None):
        peer = self.peer(number)
        peer.address = self.given(address, number)
        return number

    def revoke(self, now, number):
        self.peer(number)
        del self.peers[number]
        self.routes = {prefix: of for prefix, of in self.routes.items() if of != number}
        return {"revoked": number}

    def route(self, now, number, prefix):
        self.peer(number)
        own = [self.pool[1], *(peer.address for peer in self.peers.values())]
        if is_full(prefix) and prefix[0] in own:
            raise Refused(409, "is_address")
        if prefix not in self.routes and len(self.routes) >= MOST_ROUTES:
            raise Refused(409, "routes_full")
        self.routes[prefix] = number
        return number

    def unroute(self, now, prefix):
        if prefix not in self.routes:
            raise Refused(404, "no_such_route")
        return self.routes.pop(prefix)

    def renew(self, now, number, end):
        peer = self.peer(number)
        self.test_end(now, end)
        peer.end = end
        return number

    def adopt(self, now, interface, lines):
        if interface not in ("(none)", self.server):
            raise Refused(409, "wrong_server")
        added, known = [], 0
        for line, key, prefixes, status, keepalive in sorted(lines, key=lambda each: self.named(each[2]) is None):
            held = [number for number, peer in self.peers.items() if peer.key == key]
            try:
                if held:
                    self.peers[held[0]].status, known = status, known + 1
                    continue
                number = self.add(now, key, address=self.named(prefixes), keepalive=keepalive, status=status)
                for prefix in prefixes:
                    if prefix != ipaddress.ip_network(self.peers[number].address):
                        self.route(now, number, prefix)
                added.append(number)
            except Refused as why:
                raise Refused(why.status, why.name, line=line) from None
        return {"added": added, "known": known}

    def named(self, prefixes):
        return next((prefix[0] for prefix in prefixes if is_full(prefix) and self.assignable(prefix[0])), None)

    def owner(self, address):
        own = {ipaddress.ip_network(peer.address): number for number, peer in self.peers.items()}
        leading = [prefix for prefix in {**self.routes, **own} if address in prefix]
        if not leading:
            raise Refused(404, "nobodys_address")
        return {**self.routes, **own}[max(leading, key=lambda prefix: prefix.prefixlen)]

    def routes_to(self, number):
        return [str(prefix) for prefix in sorted(self.routes, key=place_of) if self.routes[prefix] == number]

    def shown(self, number):
        peer = self.peers[number]
        return {
            "address": f"{peer.address}/{peer.address.max_prefixlen}", "end": peer.end, "keepalive": peer.keepalive,
            "key": peer.key, "label": peer.label, "number": number, "routes": self.routes_to(number), "status": peer.status,
        }

    def section(self, key, allowed, *more):
        return ["", "[Peer]", f"PublicKey = {key}", f"AllowedIPs = {', '.join(allowed)}", *more]

    def keepalive_of(self, peer):
        return [f"PersistentKeepalive = {peer.keepalive}"] if peer.keepalive else []

    def server_file(self, form):
        quick = [f"Address = {self.pool[1]}/{self.pool.prefixlen}"] if form == "quick" else []
        lines = ["[Interface]", *quick, f"ListenPort = {self.port}"]
        for number, peer in sorted(self.peers.items()):
            allowed = [f"{peer.address}/{peer.address.max_prefixlen}", *self.routes_to(number)]
            lines += self.section(peer.key, allowed, *self.keepalive_of(peer))
        return serving.file_of(*lines)

    def peer_file(self, number, form):
        peer = self.peer(number)
        quick = [f"Address = {peer.address}/{peer.address.max_prefixlen}"] if form == "quick" else []
        others = [prefix for prefix in sorted(self.routes, key=place_of) if self.routes[prefix] != number]
        outside = [prefix for prefix in others if prefix.version != self.pool.version or not prefix.subnet_of(self.pool)]
        allowed = [str(self.pool), *map(str, outside)]
        more = [f"Endpoint = {self.endpoint}", *self.keepalive_of(peer)]
        return serving.file_of("[Interface]", *quick, *self.section(self.server, allowed, *more))
