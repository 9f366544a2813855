"""Two WireGuard servers that follow three networks of two tenants, and customers with real tunnels to them."""

import itertools
import json
import os
import shutil
import signal
import subprocess
import tempfile
import time
from concurrent.futures import ThreadPoolExecutor
from pathlib import Path

import program
from following import DIST, Between, Network, OfHosts, inside, run
from program import in_time
from serving import Server, network_add, order, request
from test_namespaces import Client

# Of each network its tenant, its server and its pool. The first server makes a round when it is told to, the second
# one makes them by itself.
NETWORKS = {"office": ("acme", "one", "10.1.0.0/24"), "shop": ("bolt", "one", "10.2.0.0/24"), "lab": ("acme", "two", "10.3.0.0/24")}
# The customers' peers, in the order of the tables: the network, the address, and the seconds between keepalives.
CUSTOMERS = {
    "steady": ("office", "10.1.0.2", 1),
    "passive": ("office", "10.1.0.3", 0),
    "preshared": ("office", "10.1.0.4", 1),
    "leased": ("office", "10.1.0.5", 1),
    "guest": ("office", "10.1.0.6", 1),
    "late": ("office", "10.1.0.7", 1),
    "till": ("shop", "10.2.0.2", 1),
    "bench": ("lab", "10.3.0.2", 1),
    "shelf": ("lab", "10.3.0.3", 0),
}
# Behind the peer that is steady.
BEHIND = "192.168.1.0/24", "192.168.1.1"
# From whom to whom each ping goes: customers, or the server of a network. Passive customers only answer.
PINGS = [
    *((name, network, f"{network} of {name}") for name, (network, _, keepalive) in CUSTOMERS.items() if keepalive),
    *((network, name, name) for name, (network, _, keepalive) in CUSTOMERS.items() if not keepalive),
    ("guest", "passive", "through the server"), ("bench", "shelf", "through the server"),
    ("preshared", "steady", "behind the peer"), ("office", "steady", "behind the peer"),
]
# Seconds between two rounds of the second server.
PAUSE = 2
HOUR = 3600

# How a round's process gets another clock.
CLOCK = f"""
import os, time
right = time.time
time.time = lambda: right() + {HOUR} * int(os.environ["HOURS"])
"""


class OfADay(OfHosts):
    """The register, the servers and the customers' peers before the first round."""

    maxDiff = None

    def setUp(self):
        self.folder = Path(self.enterContext(tempfile.TemporaryDirectory()))
        self.database, self.orders = str(self.folder / "register.db"), self.folder / "orders"
        order("init", self.database)
        for tenant in ["acme", "bolt"]:
            order("tenant-add", self.database, tenant)
            for token in [tenant, f"{tenant}-servers"]:
                order("token-grant", self.database, tenant, token=token)
        self.hosts = {name: self.space(name) for name in ["one", "two"]}
        self.betweens = {name: Between(None, host) for name, host in self.hosts.items()}
        self.nets = {name: self.make_network(name, number) for number, name in enumerate(NETWORKS)}
        self.peers_without_tunnels = set()
        (self.folder / "clock").mkdir()
        (self.folder / "clock/sitecustomize.py").write_text(CLOCK)
        # When the day begins, and what the first server's clock shows: so many hours later.
        self.began, self.hours = int(time.time()), 0
        self.start_register()
        self.files = {}
        self.customers = {name: self.make_customer(name, number) for number, name in enumerate(CUSTOMERS)}
        for between in self.betweens.values():
            self.addCleanup(between.stop)

    def make_network(self, name, number):
        tenant, server, pool = NETWORKS[name]
        net = Network(self, self.hosts[server], "abc"[number], self.betweens[server].port)
        net.write("url", f"http://127.0.0.1:{self.betweens[server].port}/networks/{name}")
        net.write("token", f"{tenant}-servers")
        network_add(self.database, tenant, name, pool, port=str(2000 + number), server=net.public)
        return net

    def make_customer(self, name, number):
        network, _, _ = CUSTOMERS[name]
        return Client(self, self.hosts[NETWORKS[network][1]], number)

    # The register.

    def start_register(self, hours=None):
        """By the clock, or at a moment so many hours after the day's begin."""
        now = None if hours is None else self.began + hours * HOUR
        self.register = self.serve_register(now)
        for between in self.betweens.values():
            between.register = self.register

    def serve_register(self, now):
        return self.enterContext(Server(self.database, now=now, orders=self.orders))

    def stop_register(self):
        self.register.process.kill()
        self.register.process.wait()

    def set_clocks(self, register, server):
        self.stop_register()
        self.start_register(register)
        self.hours = server

    def send(self, *words, token=None):
        """An order to the running service."""
        left = program.run(["send", str(self.orders), *map(str, words)], (token or "").encode())
        self.assertEqual((left.status, left.err), (0, b""), words)

    def ask(self, network, method, path, body=None, token=None):
        """What the register replies to the tenant."""
        token = token or NETWORKS[network][0]
        told = self.register.send(request(method, f"/networks/{network}/{path}", body, token=token))
        self.assertTrue(told.startswith(b"HTTP/1.1 200 "), (method, path, told))
        return told.partition(b"\r\n\r\n")[2].decode()

    def add(self, name, **members):
        """Registers a customer's peer and gives its number."""
        network, address, keepalive = CUSTOMERS[name]
        body = {"key": self.customers[name].public, "address": address, "keepalive": keepalive, **members}
        return json.loads(self.ask(network, "POST", "peers", body))["number"]

    def registered(self, network):
        """The numbers of the customers' peers, as the register lists them."""
        names = {customer.public: name for name, customer in self.customers.items()}
        listed = json.loads(self.ask(network, "GET", "peers"))["peers"]
        return {names[peer["key"]]: peer["number"] for peer in listed if peer["key"] in names}

    def revoke(self, name):
        network = CUSTOMERS[name][0]
        self.ask(network, "DELETE", f"peers/{self.registered(network)[name]}")

    def copy_register(self):
        self.copy = self.folder / "copy.db"
        self.send("backup", self.copy)
        left = program.run(["show", str(self.copy)])
        self.assertEqual((left.status, left.err), (0, b""))

    def restore_register(self):
        """As the page says: both files are put aside."""
        self.stop_register()
        aside = Path(tempfile.mkdtemp(dir=self.folder))
        for path in self.folder.glob("register.db*"):
            path.rename(aside / path.name)
        shutil.copy(self.copy, self.database)
        self.start_register()

    # The servers.

    def round(self, network, fails=None):
        """A round of the first server's, which is good, or fails and says this."""
        net = self.nets[network]
        known = {"PYTHONPATH": str(self.folder / "clock"), "HOURS": str(self.hours)}
        done = inside(net.host, DIST / "wgr-sync", net.name, net.folder, environment=known, allowed=None)
        self.assertEqual(done.returncode, 1 if fails else 0, done.stderr)
        self.assertIn(fails or "", done.stderr)
        return done.stderr

    def follow_all(self):
        """The process of the second server."""
        folder = self.folder / "two"
        folder.mkdir(exist_ok=True)
        if not (folder / self.nets["lab"].name).exists():
            (folder / self.nets["lab"].name).symlink_to(self.nets["lab"].folder)
        words = ["nsenter", f"--net=/run/netns/{self.hosts['two']}", DIST / "wgr-sync", "--all", "--pause", str(PAUSE), folder]
        known = {name: value for name, value in os.environ.items() if name != "INVOCATION_ID"}
        self.said = self.folder / "said"
        with self.said.open("a") as said:
            self.second = subprocess.Popen(list(map(str, words)), stderr=said, env=known)
        self.addCleanup(self.second.wait)
        self.addCleanup(self.second.kill)

    def stop_all(self):
        self.second.send_signal(signal.SIGTERM)
        self.second.wait(program.LIMIT)

    def wait_for_rounds(self):
        """Until the second server has made a whole round from here on."""
        state = self.nets["lab"].folder / "state"

        def noted():
            return [(state / name).read_text() if (state / name).exists() else "" for name in ["failures", "succeeded"]]

        for _ in range(2):
            before = noted()
            self.assertTrue(in_time(lambda: noted() != before), self.said.read_text())

    def says(self, text):
        """Whether the second server says so in time, or has said so."""
        return in_time(lambda: text in self.said.read_text())

    # The tunnels.

    def connect(self, name):
        network, address, _ = CUSTOMERS[name]
        customer = self.customers[name]
        number = self.registered(network)[name]
        file = self.ask(network, "GET", f"peers/{number}/file/wg")
        if name == "preshared":
            file = file.replace("[Peer]\n", f"[Peer]\nPresharedKey = {self.preshared}\n")
        self.files[name] = file
        customer.start(file, [address, *([BEHIND[1]] if name == "steady" else [])])
        if name != "steady":
            run("ip", "-n", customer.space, "route", "add", BEHIND[0], "dev", customer.name)

    def connect_again(self, name):
        """As when the customer does so by hand; else its peer begins a handshake after 15 seconds without an answer."""
        self.customers[name].configure(self.files[name])

    def let_send(self, name):
        """A customer's peer sends something, as a passive one has to before the server knows where it is."""
        server = NETWORKS[CUSTOMERS[name][0]][2].replace("0/24", "1")
        self.assertTrue(in_time(lambda: self.reaches(self.customers[name].space, server)), name)

    def let_rest(self, *names):
        """Passive peers have their last answer confirmed by a keepalive. From then on they begin no handshake by themselves."""

        def received(name):
            return inside(self.customers[name].space, "wg", "show", self.customers[name].name, "transfer").stdout.split()[1]

        for name in names:
            self.assertTrue(in_time(lambda: self.reaches(self.nets[CUSTOMERS[name][0]].name, CUSTOMERS[name][1])), name)
        before = [received(name) for name in names]
        self.assertTrue(in_time(lambda: all(map(str.__ne__, before, map(received, names)))), names)

    def reaches(self, space, address):
        return inside(space, "ping", "-c", "1", "-W", "1", address, allowed=None).returncode == 0

    def goes_through(self, ping):
        origin, target, what = ping
        space = self.customers[origin].space if origin in CUSTOMERS else self.nets[origin].name
        address = CUSTOMERS[target][1] if target in CUSTOMERS else NETWORKS[target][2].replace("0/24", "1")
        return self.reaches(space, BEHIND[1] if what == "behind the peer" else address)

    def pings(self):
        """Which go through, all at a time."""
        with ThreadPoolExecutor(len(PINGS)) as pool:
            return set(itertools.compress(PINGS, pool.map(self.goes_through, PINGS)))

    def peers(self):
        """The peers of all interfaces: customers by their names."""
        names = {customer.public: name for name, customer in self.customers.items()}
        # An interface that was lost has none.
        told = [inside(net.name, "wg", "show", net.name, "peers", allowed=None).stdout for net in self.nets.values()]
        keys = set("".join(told).split())
        return {names.get(key, key) for key in keys - self.peers_without_tunnels}

    def assert_tunnels(self, step, up):
        """The interfaces have these customers, and just the pings between these go through, with deadline."""
        wanted = {ping for ping in PINGS if {ping[0], ping[1]} <= up | NETWORKS.keys()}
        seen = []

        def are_so():
            seen[:] = self.peers(), self.pings()
            return seen == [up, wanted]

        if not in_time(are_so):
            self.assertEqual([*map(sorted, seen)], [sorted(up), sorted(wanted)], step)
