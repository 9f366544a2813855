"""A WireGuard interface as wg(8) and ip(8) show it, and what is changed on it: never more than what differs."""

import ipaddress
import json
import os
import subprocess
from dataclasses import dataclass

# Routes that a round adds: their protocol, by which they are known, and a metric above those of routes by hand.
PROTOCOL, METRIC = 77, 4096
# Seconds between keepalives of a peer with whom the server begins the handshake.
BEGIN = 25
SECONDS = 60
# All that a round looks at, by one process: the interface, its peers, its addresses, and the routes of either family.
LOOK = f"""
wg show "$1" dump && echo && ip -j address show dev "$1" && ip -4 -j route show dev "$1" proto {PROTOCOL} || exit
[ ! -e /proc/net/if_inet6 ] || ip -6 -j route show dev "$1" proto {PROTOCOL}
"""


class Failed(Exception):
    """A command on the interface failed; the text is what it said last."""


class Gone(Exception):
    """There is no such interface, or no such namespace."""


@dataclass
class Peer:
    prefixes: frozenset
    keepalive: int = 0
    preshared: str = None
    endpoint: str = None
    handshake: int = 0
    received: int = 0
    sent: int = 0


@dataclass
class Seen:
    """What an interface has. The private key is nothing where it has none yet."""

    private: str
    port: int
    peers: dict
    addresses: set
    routes: set
    is_up: bool


@dataclass
class Wanted:
    """What it should have, and which of its peers and addresses are taken away. The port stays where none is given."""

    private: str
    port: int
    peers: dict
    peers_off: set
    addresses: set
    addresses_off: set
    routes: set


def are_alike(some, others):
    """Whether these are the same addresses or prefixes, however they are written."""
    return some == others or set(map(ipaddress.ip_interface, some)) == set(map(ipaddress.ip_interface, others))


def number_of(text):
    return 0 if text == "off" else int(text)


def value_of(text):
    return None if text == "(none)" else text


def seen_peer(line):
    key, preshared, endpoint, prefixes, handshake, received, sent, keepalive = line.split("\t")
    held = frozenset(prefixes.split(",")) if prefixes != "(none)" else frozenset()
    status = int(handshake), int(received), int(sent)
    return key, Peer(held, number_of(keepalive), value_of(preshared), value_of(endpoint), *status)


def prefix_of(route, full, whole):
    """The prefix of a route that `ip` shows."""
    shown = route["dst"]
    return whole if shown == "default" else shown if "/" in shown else f"{shown}/{full}"


def seen_in(told):
    """Reads what LOOK prints."""
    dump, _, rest = told.partition("\n\n")
    first, *others = dump.splitlines()
    private, _, port, _ = first.split("\t")
    tables = [json.loads(line) for line in rest.splitlines() if line.strip()]
    [device] = filter(None, tables[0])
    addresses = {f"{it['local']}/{it['prefixlen']}" for it in device["addr_info"] if it["scope"] != "link"}
    routes = {prefix_of(route, 32, "0.0.0.0/0") for route in tables[1]}
    routes |= {prefix_of(route, 128, "::/0") for table in tables[2:] for route in table}
    return Seen(value_of(private), int(port), dict(map(seen_peer, others)), addresses, routes, "UP" in device["flags"])


class Interface:
    def __init__(self, name, space=None):
        self.name, self.space = name, space

    def run(self, *words, text=None):
        inside = ["nsenter", f"--net=/run/netns/{self.space}"] if self.space else []
        try:
            done = subprocess.run([*inside, *words], input=text or "", capture_output=True, text=True, timeout=SECONDS)
        except (OSError, subprocess.TimeoutExpired) as error:
            raise Failed(f"{words[0]}: {error}") from None
        if done.returncode != 0:
            raise Failed(done.stderr.strip().rpartition("\n")[2] or f"{words[0]} ends with {done.returncode}")
        return done.stdout

    def look(self):
        if self.space and not os.path.exists(f"/run/netns/{self.space}"):
            raise Gone(f"there is no namespace {self.space}")
        try:
            return seen_in(self.run("sh", "-c", LOOK, "sh", self.name))
        except Failed as failed:
            if self.is_there():
                raise
            raise Gone(f"there is no interface {self.name}") from None

    def is_there(self):
        try:
            return bool(self.run("ip", "link", "show", "dev", self.name))
        except Failed:
            return False

    def remove_peers(self, keys):
        if keys:
            self.run("wg", "set", self.name, *(word for key in keys for word in ["peer", key, "remove"]))

    def set_private(self, private):
        self.run("wg", "set", self.name, "private-key", "/dev/stdin", text=f"{private}\n")

    def set_port(self, port, former):
        """A port that another has would leave the interface without any."""
        try:
            self.run("wg", "set", self.name, "listen-port", str(port))
        except Failed:
            self.run("wg", "set", self.name, "listen-port", str(former))
            raise

    def set_peers(self, peers):
        """Sets these peers, whose preshared keys and endpoints stay where none is given."""
        if peers:
            self.run("wg", "addconf", self.name, "/dev/stdin", text="".join(section_of(key, peer) for key, peer in peers.items()))

    def set_keepalives(self, peers):
        if peers:
            words = (word for key, peer in peers.items() for word in ["peer", key, "persistent-keepalive", str(peer.keepalive)])
            self.run("wg", "set", self.name, *words)

    def change_links(self, lines):
        """Carries out lines of ip(8)."""
        if lines:
            self.run("ip", "-batch", "-", text="".join(f"{line}\n" for line in lines))


def section_of(key, peer):
    lines = ["[Peer]", f"PublicKey = {key}", f"AllowedIPs = {', '.join(sorted(peer.prefixes))}", f"PersistentKeepalive = {peer.keepalive}"]
    if peer.preshared:
        lines.append(f"PresharedKey = {peer.preshared}")
    if peer.endpoint:
        lines.append(f"Endpoint = {peer.endpoint}")
    return "".join(f"{line}\n" for line in lines)


def differs(wanted, seen):
    """Whether a peer has to be set anew."""
    if wanted.preshared not in (None, seen.preshared) or wanted.keepalive != seen.keepalive:
        return True
    return not are_alike(wanted.prefixes, seen.prefixes)


@dataclass
class Change:
    """What has to be done, in this order; nothing of it where all is as it should be."""

    private: str
    port: tuple
    removed: list
    peers: dict
    addresses: list
    routes: list

    def __bool__(self):
        return any([self.private, self.port, self.removed, self.peers, self.addresses, self.routes])


def change_of(name, wanted, seen):
    """What makes of the interface what is wanted."""
    peers = {key: peer for key, peer in wanted.peers.items() if key not in seen.peers or differs(peer, seen.peers[key])}
    private = wanted.private if wanted.private != seen.private else None
    port = (wanted.port, seen.port) if wanted.port not in (None, seen.port) else None
    addresses = [f"address replace {address} dev {name}" for address in missing(wanted.addresses, seen.addresses)]
    addresses += [f"address del {address} dev {name}" for address in sorted(wanted.addresses_off)]
    if not seen.is_up:
        addresses.append(f"link set {name} up")
    ours = f"dev {name} proto {PROTOCOL} metric {METRIC}"
    routes = [f"route del {prefix} {ours}" for prefix in missing(seen.routes, wanted.routes)]
    routes += [f"route replace {prefix} {ours}" for prefix in missing(wanted.routes, seen.routes)]
    return Change(private, port, sorted(wanted.peers_off), peers, addresses, routes)


def missing(some, others):
    """Those of some addresses or prefixes that aren't among others."""
    if some == others:
        return []
    known = set(map(ipaddress.ip_interface, others))
    return sorted(one for one in some if ipaddress.ip_interface(one) not in known)


def carry_out(interface, change, endpoints):
    """Changes the interface. With peers whose endpoint was kept, the server begins the handshake."""
    calls = {key: peer for key, peer in change.peers.items() if key in endpoints}
    first = dict(change.peers)
    for key, peer in calls.items():
        first[key] = Peer(peer.prefixes, peer.keepalive or BEGIN, peer.preshared, endpoints[key])
    steps = [
        ("the key", lambda: change.private and interface.set_private(change.private)),
        ("the port", lambda: change.port and interface.set_port(*change.port)),
        ("the peers", lambda: interface.remove_peers(change.removed)),
        ("the peers", lambda: interface.set_peers(first)),
        ("the address", lambda: interface.change_links(change.addresses)),
        ("the routes", lambda: interface.change_links(change.routes)),
        ("the peers", lambda: interface.set_keepalives({key: peer for key, peer in calls.items() if not peer.keepalive})),
    ]
    for what, step in steps:
        try:
            step()
        except Failed as failed:
            raise Failed(f"the interface refuses {what}: {failed}") from None
