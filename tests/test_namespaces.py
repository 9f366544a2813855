"""wgr-net: each network has a namespace of its own on the host, so that tenants are apart there too."""

import json
import os
import re
import tempfile
from pathlib import Path

from following import PING, TOOLS, Network, OfHosts, OneNetwork, inside, mark, private_key, public_key, run
from serving import network_add, order, request
from tools import needs


def count(space, name):
    """How many packets of ICMP, of both families, a namespace has counted under a name."""
    told = inside(space, "sh", "-c", "cat /proc/net/snmp; cat /proc/net/snmp6 || true").stdout.splitlines()
    names, values = [line.split() for line in told if line.startswith("Icmp: ")]
    six = [int(line.split()[1]) for line in told if line.split()[0] == f"Icmp6{name}"]
    return int(values[names.index(name)]) + sum(six)


# A program that fails, and its words there as a pattern of bash.
FAULTS = [
    ("ip", '"link set "*" netns "*'),
    ("nsenter", '*" ipv4/conf/"*/send_redirects*'),
    # Where the kernel has WireGuard, these aren't asked for anything.
    *([] if os.path.exists("/sys/module/wireguard") else [("wireguard-go", "*"), ("wg", "show*")]),
]


@needs(*TOOLS, root=True)
class Namespaces(OneNetwork):
    def listens(self, space):
        """Whether a UDP socket of the namespace has the interface's port."""
        port = f":{51820:04X} "
        return any(port in inside(space, "cat", f"/proc/net/{table}").stdout for table in ["udp", "udp6"])

    def redirects(self):
        """Whether redirects are sent: for all interfaces, for new ones and for this one."""
        return [inside(self.net.name, "cat", f"/proc/sys/net/ipv4/conf/{name}/send_redirects").stdout.strip() for name in ["all", "default", self.net.name]]

    def test_a_namespace_of_its_own(self):
        self.net.sync()
        with self.subTest("the socket stays with the host"):
            self.assertEqual((self.listens(self.net.host), self.listens(self.net.name)), (True, False))
        with self.subTest("the interface doesn't"):
            self.assertNotIn(self.net.name, run("ip", "-n", self.net.host, "link").stdout)
        with self.subTest("peers reach one another"):
            self.assertEqual(inside(self.net.name, "cat", "/proc/sys/net/ipv4/ip_forward").stdout, "1\n")
        with self.subTest("they aren't told of another way"):
            self.assertEqual(self.redirects(), ["0", "0", "0"])
        with self.subTest("one that is there already stays"):
            before = self.net.state_of_interface()
            self.assertIn("there already", self.net.net("up", allowed=(1,)).stderr)
            self.assertEqual(self.net.state_of_interface(), before)
        for number in range(2):
            with self.subTest("down", number=number):
                self.net.net("down")
                self.assertNotIn(self.net.name, run("ip", "netns").stdout.split())

    def test_what_fails_leaves_nothing(self):
        self.net.net("down")
        for program, where in [("nsenter", "*ip_forward*"), *FAULTS]:
            with self.subTest(program, where=where):
                self.fails_at("up", program, where)
                self.assertNotIn(self.net.name, run("ip", "netns").stdout.split())
                self.assertNotIn(self.net.name, run("ip", "-n", self.net.host, "link").stdout)

    def fails_at(self, word, program, where):
        """Runs wgr-net where a program fails at some of its words."""
        folder = Path(self.enterContext(tempfile.TemporaryDirectory()))
        path = run("bash", "-c", f"type -P {program}").stdout.strip()
        (folder / program).write_text(f'#!/bin/bash\n[[ "$*" != {where} ]] || {{ touch {folder}/failed; exit 1; }}\nexec {path} "$@"\n')
        (folder / program).chmod(0o755)
        self.net.net(word, allowed=(1,), environment={"PATH": f"{folder}:{os.environ['PATH']}"})
        self.assertTrue((folder / "failed").exists())

    def kept(self):
        """What is in the namespace besides the interface, and the namespace itself."""
        told = inside(self.net.name, "ip", "-o", "address").stdout
        lines = [line for line in told.splitlines() if f" {self.net.name} " not in line]
        return os.stat(f"/run/netns/{self.net.name}").st_ino, lines

    def followed(self):
        """The interface after a round, without its number, which each new one has anew."""
        self.net.sync()
        return [re.sub(r"(?m)^\d+: ", "", text) for text in self.net.state_of_interface()]

    def add_by_hand(self):
        inside(self.net.name, "ip", "link", "add", "by-hand", "type", "veth", "peer", "name", "by-hand-too")
        inside(self.net.name, "ip", "address", "add", "192.0.2.9/24", "dev", "by-hand")

    def test_what_is_missing_is_made_again(self):
        self.add()
        self.add_by_hand()
        followed, before, kept = self.followed(), self.net.state_of_interface(), self.kept()
        with self.subTest("nothing is missing"):
            self.assertEqual(self.net.net("again").stderr, "")
            self.assertEqual((self.net.state_of_interface(), self.kept()), (before, kept))
        with self.subTest("the interface is missing"):
            inside(self.net.name, "ip", "link", "delete", self.net.name)
            inside(self.net.name, "sh", "-c", "echo 1 >/proc/sys/net/ipv4/conf/default/send_redirects")
            self.net.net("again")
            self.assertEqual(self.redirects(), ["0", "1", "0"])
            self.assertEqual(self.kept(), kept)
            self.assertEqual((self.followed(), self.listens(self.net.host)), (followed, True))
        with self.subTest("the namespace is missing"):
            self.net.net("down")
            self.net.net("again")
            self.assertEqual((self.followed(), self.listens(self.net.host)), (followed, True))

    def test_what_fails_again_leaves_what_was_there(self):
        self.add_by_hand()
        inside(self.net.name, "ip", "link", "delete", self.net.name)
        kept = self.kept()
        for program, where in FAULTS:
            with self.subTest(program, where=where):
                self.fails_at("again", program, where)
                self.assertEqual(self.kept(), kept)
                for space in [self.net.name, self.net.host]:
                    self.assertNotIn(self.net.name, run("ip", "-n", space, "link").stdout)

    def test_a_name_that_is_no_namespace(self):
        self.net.net("down")
        place = Path("/run/netns") / self.net.name
        place.touch()
        self.assertIn("cannot enter the namespace", self.net.net("again", allowed=(1,)).stderr)
        self.net.net("down")
        self.assertFalse(place.exists())


class Client:
    """A peer on a machine of its own, by a cable to the host."""

    def __init__(self, test, host, number):
        self.space, self.name = test.space(f"peer{number}"), f"wgp{number}{mark()}"
        self.private = private_key()
        self.public = public_key(self.private)
        here, there = f"192.0.2.{4 * number + 1}", f"192.0.2.{4 * number + 2}"
        run("ip", "link", "add", f"cable{number}", "netns", host, "type", "veth", "peer", "name", "eth0", "netns", self.space)
        for space, device, address in [(host, f"cable{number}", here), (self.space, "eth0", there)]:
            run("ip", "-n", space, "address", "add", f"{address}/30", "dev", device)
            run("ip", "-n", space, "link", "set", device, "up")
        self.server = here
        test.addCleanup(run, "ip", "-n", self.space, "link", "delete", self.name, allowed=None)

    def start(self, file, addresses):
        """The interface by the register's file, in which the server is this one, and addresses on its side."""
        inside(self.space, "wireguard-go", self.name)
        self.configure(file)
        for address in addresses:
            run("ip", "-n", self.space, "address", "add", f"{address}/{128 if ':' in address else 32}", "dev", self.name)
        run("ip", "-n", self.space, "link", "set", self.name, "up")
        run("ip", "-n", self.space, "route", "add", "fd00::/8" if ":" in addresses[0] else "10.0.0.0/8", "dev", self.name)

    def configure(self, file):
        """Sets what the file says, so that its peer begins anew."""
        text = file.replace("[Interface]", f"[Interface]\nPrivateKey = {self.private}").replace("vpn.example.net", self.server)
        inside(self.space, "wg", "setconf", self.name, "/dev/stdin", text=text)

    def answered(self):
        """How many pings came to this machine."""
        return count(self.space, "InEchos")


@needs(*TOOLS, "ping", root=True)
class Redirects(OneNetwork):
    """Two peers of one network, which reach one another through the server alone."""

    server, addresses = "10.8.0.1", ["10.8.0.2", "10.8.0.3"]

    def test_none_is_sent(self):
        clients = [Client(self, self.net.host, number) for number in range(2)]
        made = [self.ask("POST", "peers", {"key": client.public, "keepalive": 1}) for client in clients]
        self.net.sync()
        for client, peer, address in zip(clients, made, self.addresses):
            reply = self.register.send(request("GET", f"/networks/office/peers/{peer['number']}/file/wg"))
            client.start(reply.partition(b"\r\n\r\n")[2].decode(), [address])
        # The server knows where both are once it has answered them.
        for client in clients:
            inside(client.space, "ping", "-c", "1", "-w", PING, self.server)
        inside(clients[0].space, "ping", "-c", "3", "-i", "0.2", "-w", PING, self.addresses[1])
        self.assertGreaterEqual(clients[1].answered(), 3)
        self.assertEqual(count(self.net.name, "OutRedirects"), 0)


class RedirectsOfIPv6(Redirects):
    pool, server, addresses = "fd00:8::/64", "fd00:8::1", ["fd00:8::2", "fd00:8::3"]


# The tenants' pools, the routes to the one peer of each, and the addresses that its server pings there: two have the
# same network behind them; the second leads half of the first one's pool to its peer, the third all there is.
TENANTS = [
    ("10.1.0.0/24", ["192.168.1.0/24"], ["10.1.0.2", "192.168.1.1"]),
    ("10.2.0.0/24", ["192.168.1.0/24", "10.1.0.0/25"], ["10.2.0.2", "192.168.1.1", "10.1.0.2"]),
    ("10.3.0.0/24", ["0.0.0.0/0"], ["10.3.0.2", "192.168.1.1", "10.1.0.2", "198.51.100.7"]),
]


@needs(*TOOLS, "ping", root=True)
class Tenants(OfHosts):
    """Three tenants on one host, each with a network and a peer."""

    def setUp(self):
        folder = self.enterContext(tempfile.TemporaryDirectory())
        self.database = str(Path(folder) / "register.db")
        order("init", self.database)
        self.host = self.space("host")
        self.nets = [Network(self, self.host, letter, 0) for letter in "abc"]
        self.clients = [Client(self, self.host, number) for number in range(len(TENANTS))]
        for number, (net, (pool, _, _)) in enumerate(zip(self.nets, TENANTS)):
            order("tenant-add", self.database, net.name)
            order("token-grant", self.database, net.name, token=net.name)
            network_add(self.database, net.name, "office", pool, port=str(51820 + number), server=net.public)
        self.register = self.serve(self.database)

    def ask(self, net, method, path, body=None):
        reply = self.register.send(request(method, f"/networks/office/{path}", body, token=net.name))
        self.assertTrue(reply.startswith(b"HTTP/1.1 200 "), reply)
        return reply.partition(b"\r\n\r\n")[2].decode()

    def start(self, net, client, routes, addresses):
        made = json.loads(self.ask(net, "POST", "peers", {"key": client.public, "keepalive": 1}))
        for prefix in routes:
            self.ask(net, "POST", f"peers/{made['number']}/routes", {"prefix": prefix})
        net.write("url", f"http://127.0.0.1:{self.register.port}/networks/office")
        net.write("token", net.name)
        net.net("up")
        net.sync()
        client.start(self.ask(net, "GET", f"peers/{made['number']}/file/wg"), addresses)

    def routes_of_host(self):
        told = "".join(inside(self.host, "ip", *words).stdout for words in ["-4 route show table all".split(), "-6 route".split(), ["rule"]])
        # Addresses of links come by themselves.
        return [line for line in told.splitlines() if not line.startswith("fe80:")]

    def test_each_reaches_its_own_peers(self):
        before = self.routes_of_host()
        for net, client, (_, routes, addresses) in zip(self.nets, self.clients, TENANTS):
            self.start(net, client, routes, addresses)
        for net, client, (pool, _, addresses) in zip(self.nets, self.clients, TENANTS):
            inside(client.space, "ping", "-c", "1", "-w", PING, pool.replace("0/24", "1"))
            for address in addresses:
                with self.subTest(pool, address=address):
                    answered = client.answered()
                    self.assertTrue(net.reaches(address))
                    self.assertGreater(client.answered(), answered)
        with self.subTest("the host's routes stay"):
            self.assertEqual(self.routes_of_host(), before)
        with self.subTest("the host reaches what is its own"):
            inside(self.host, "ping", "-c", "1", "-w", PING, "192.0.2.2")
