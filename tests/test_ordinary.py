"""wgr-sync on an ordinary interface of a host, beside what others have set there."""

import json
import subprocess
from pathlib import Path

from following import DIST, TOOLS, Between, OneNetwork, inside, mark, private_key, public_key
from tools import needs

# A peer, an address and a route that are no round's.
OTHER_PREFIX, OTHER_ADDRESS, OTHER_ROUTE = "10.99.0.2/32", "10.99.0.1/24", "203.0.113.0/24"
# What the operator says, and whether the others stay: peer and address; which of the prefixes have a route, and whether the port follows.
POOL, NEAR, FAR = "10.8.0.2/32", "192.168.7.0/24", "0.0.0.0/0"
CHOICES = [
    ([], True, True, set(), False),
    (["peers = own", "addresses = own", "routes = none", "port = keep"], True, True, set(), False),
    (["peers = all"], False, True, set(), False),
    (["addresses = all"], True, False, set(), False),
    (["routes = 192.168.0.0/16, 10.8.0.0/24"], True, True, {POOL, NEAR}, False),
    (["routes = all"], True, True, {POOL, NEAR, FAR}, False),
    (["port = follow  # as the register says"], True, True, set(), True),
    (["peers = all", "addresses = all", "routes = all", "port = follow"], False, False, {POOL, NEAR, FAR}, True),
]
BAD_SETTINGS = [
    ("peers", "line 2: it isn't NAME = VALUE"),
    ("colour = red", "line 2: there is no setting colour"),
    ("peers = some", "line 2: peers: it is one of all, own"),
    ("addresses = some", "line 2: addresses: it is one of all, own, none"),
    ("routes = 10.0.0.1/8", "line 2: routes: it is all, none, or prefixes"),
    ("port = 51820", "line 2: port: it is one of follow, keep"),
    ("ended = 0", "line 2: ended: it is keep, or a number of rounds"),
    ("interface = a/b", "line 2: interface: it is the name of an interface"),
]


# A program that has a port until its standard input ends.
HOLDER = """
import socket, sys
with socket.socket(socket.AF_INET, socket.SOCK_DGRAM) as held:
    held.bind(("0.0.0.0", 51820))
    print(flush=True)
    sys.stdin.read()
"""


class OfOrdinary(OneNetwork):
    """A network with a peer, and an interface of the operator's."""

    def setUp(self):
        super().setUp()
        # As short as the name of an interface has to be.
        self.device, self.other = f"wgo{mark()}{self.net.name[-4:]}", public_key(private_key())
        self.between = Between(self.register, self.net.host)
        self.addCleanup(self.between.stop)
        self.net.write("url", f"http://127.0.0.1:{self.between.port}/networks/office")
        self.addCleanup(self.on_host, "ip", "link", "delete", self.device, allowed=None)
        _, self.key = self.add()
        for prefix in [NEAR, FAR]:
            self.ask("POST", "peers/1/routes", {"prefix": prefix})

    def on_host(self, *words, **more):
        return inside(self.net.host, *words, **more)

    def make(self, port=40000):
        """The operator's interface, with the peer, the address and the route."""
        self.on_host("ip", "link", "delete", self.device, allowed=None)
        while Path(f"/var/run/wireguard/{self.device}.sock").exists():
            pass
        self.on_host("wireguard-go", self.device)
        text = f"[Interface]\nPrivateKey = {self.net.private}\nListenPort = {port}\n[Peer]\nPublicKey = {self.other}\nAllowedIPs = {OTHER_PREFIX}\n"
        self.on_host("wg", "setconf", self.device, "/dev/stdin", text=text)
        for words in [f"link set {self.device} up", f"address add {OTHER_ADDRESS} dev {self.device}", f"route add {OTHER_ROUTE} dev {self.device}"]:
            self.on_host("ip", *words.split())

    def settings(self, *lines):
        self.net.write("settings", "\n".join([f"interface = {self.device}", *lines]))

    def sync(self, **more):
        return self.on_host(DIST / "wgr-sync", self.net.name, self.net.folder, **more)

    def seen(self):
        """The keys of the peers, the addresses, the destinations of routes and the port of the interface."""
        dump = [line.split("\t") for line in self.on_host("wg", "show", self.device, "dump").stdout.splitlines()]
        [device] = json.loads(self.on_host("ip", "-j", "-4", "address", "show", "dev", self.device).stdout)
        routes = json.loads(self.on_host("ip", "-j", "route", "show", "dev", self.device).stdout)
        shown = {"default": FAR, "10.8.0.2": POOL}
        found = {shown.get(route["dst"], route["dst"]) for route in routes if route.get("protocol") != "kernel"}
        return {line[0] for line in dump[1:]}, {f"{it['local']}/{it['prefixlen']}" for it in device["addr_info"]}, found, int(dump[0][2])


@needs(*TOOLS, root=True)
class Beside(OfOrdinary):
    def test_beside_others(self):
        for lines, peer_stays, address_stays, routes, follows in CHOICES:
            with self.subTest(lines):
                self.make()
                self.settings(*lines)
                for _ in range(2):
                    self.assertEqual(self.sync().stderr, "")
                    peers = {self.key} | ({self.other} if peer_stays else set())
                    addresses = {"10.8.0.1/24"} | ({OTHER_ADDRESS} if address_stays else set())
                    self.assertEqual(self.seen(), (peers, addresses, routes | {OTHER_ROUTE}, 51820 if follows else 40000))

    def test_what_rounds_have_set_goes_again(self):
        """A peer that is revoked, and nobody else's; also if the lease ends while the register is away."""
        self.make()
        self.settings("addresses = none", "routes = all")
        _, second = self.add()
        self.sync()
        self.assertEqual(self.seen(), ({self.key, second, self.other}, {OTHER_ADDRESS}, {POOL, NEAR, FAR, "10.8.0.3", OTHER_ROUTE}, 40000))
        self.ask("DELETE", "peers/1")
        self.sync()
        self.assertEqual(self.seen(), ({second, self.other}, {OTHER_ADDRESS}, {"10.8.0.3", OTHER_ROUTE}, 40000))
        (self.net.folder / "state/ends").write_text(f"1 {second}\n")
        self.net.write("url", "http://127.0.0.1:1/networks/office")
        self.sync(allowed=(1,))
        self.assertEqual(self.seen()[0], {self.other})

    def test_what_is_in_the_way(self):
        """A round that can't go on beside the others changes nothing, and says why."""
        self.make()
        self.settings()
        with self.subTest("another's peer has a prefix of the network"):
            self.on_host("wg", "set", self.device, "peer", self.other, "allowed-ips", f"{OTHER_PREFIX},{NEAR}")
            before = self.seen()
            self.assertIn(f"{NEAR} leads to the peer {self.other}", self.sync(allowed=(1,)).stderr)
            self.assertEqual(self.seen(), before)
        with self.subTest("another key"):
            self.make()
            other = private_key()
            self.on_host("wg", "set", self.device, "private-key", "/dev/stdin", text=other)
            before = self.seen()
            self.assertIn(f"the key of {self.device} isn't that in {self.net.folder}/key", self.sync(allowed=(1,)).stderr)
            self.assertEqual(self.seen(), before)
            self.assertEqual(self.on_host("wg", "show", self.device, "public-key").stdout.strip(), public_key(other))
        with self.subTest("no such interface"):
            self.on_host("ip", "link", "delete", self.device)
            self.assertIn(f"there is no interface {self.device}", self.sync(allowed=(1,)).stderr)

    def test_settings_that_are_none(self):
        self.make()
        before = self.seen()
        for line, said in BAD_SETTINGS:
            with self.subTest(line):
                self.settings(line)
                self.assertIn(f"{self.net.folder}/settings, {said}", self.sync(allowed=(1,)).stderr)
                self.assertEqual(self.seen(), before)


@needs(*TOOLS, root=True)
class Anew(OfOrdinary):
    """An interface that begins anew, or gets another port."""

    def test_without_the_register(self):
        self.make()
        self.settings()
        self.sync()
        before = self.seen()
        self.net.write("url", "http://127.0.0.1:1/networks/office")
        self.make()
        self.assertIn("the peers of the last good round are set", self.sync(allowed=(1,)).stderr)
        self.assertEqual(self.seen(), before)

    def test_port_in_use(self):
        """A port that another program has isn't taken, and the interface keeps its own."""
        self.make()
        self.settings("port = follow")
        words = ["nsenter", f"--net=/run/netns/{self.net.host}", "python3", "-c", HOLDER]
        with subprocess.Popen(words, stdin=subprocess.PIPE, stdout=subprocess.PIPE) as holder:
            holder.stdout.readline()
            before = self.seen()
            self.assertIn("the interface refuses the port", self.sync(allowed=(1,)).stderr)
            self.assertEqual(self.seen(), before)
            holder.stdin.close()
        self.assertEqual(self.sync().stderr, "")
        self.assertEqual(self.seen()[3], 51820)
