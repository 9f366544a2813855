"""Networks whose rounds of wgr-sync go wrong, and what their interfaces have before and after."""

import ipaddress
import json
import os
import shutil
import signal
import subprocess
import sys
import tempfile
import time
from concurrent.futures import ThreadPoolExecutor
from contextlib import suppress
from pathlib import Path
from typing import NamedTuple

import program
from following import DIST, Network, OfHosts, inside, run
from keys import key_text
from serving import TOKEN, network_add, order, request
from spoilt import Spoilt, body_of

# wgr-sync by the tests' own Python, without what is installed for it.
SYNC = [sys.executable, "-S", str(DIST / "wgr-sync")]
# The token of another tenant.
SECOND = "tenant-2"


class Held(NamedTuple):
    """What an interface has of a peer."""

    preshared: str
    prefixes: frozenset
    keepalive: str


class Look(NamedTuple):
    """What an interface has: its key and port, its peers, its addresses, and its routes."""

    device: tuple
    peers: dict
    addresses: set
    routes: set

    def without(self, *keys):
        return self._replace(peers={key: peer for key, peer in self.peers.items() if key not in keys})


def look(net):
    first, *lines = inside(net.name, "wg", "show", net.name, "dump").stdout.splitlines()
    private, _, port, _ = first.split("\t")
    fields = [line.split("\t") for line in lines]
    peers = {key: Held(preshared, frozenset(prefixes.split(",")), keepalive) for key, preshared, _, prefixes, *_, keepalive in fields}
    words = ["address", "-4 route", "-6 route"]
    [device], *tables = (json.loads(run("ip", "-n", net.name, "-j", *it.split(), "show", "dev", net.name).stdout or "[]") for it in words)
    addresses = {f"{it['local']}/{it['prefixlen']}" for it in device["addr_info"] if it["scope"] != "link"}
    routes = {prefix_of(it["dst"], whole) for table, whole in zip(tables, ["0.0.0.0/0", "::/0"]) for it in table if it.get("protocol") != "kernel"}
    return Look((private, int(port)), peers, addresses, routes)


def prefix_of(shown, whole):
    return whole if shown == "default" else str(ipaddress.ip_network(shown))


class Followed:
    """A network whose rounds ask through `between`. It has six peers, two with routes and one with a preshared key.

    On its interface there is also a route that somebody else has added.
    """

    by_hand = "203.0.113.0/24"

    def __init__(self, test, net, number):
        self.test, self.net, self.register = test, net, test.register
        self.network, self.port = f"office-{number}", 2000 + number
        self.address = f"10.8.{number}.1/24"
        self.between = Spoilt(self.register)
        test.addCleanup(self.between.stop)
        self.preshared, self.seventh, self.all = {}, None, None
        keys = [self.add() for _ in range(6)]
        for key, prefix in [(0, "192.168.7.0/24"), (0, "fd00:7::/64"), (3, "198.51.100.0/25")]:
            self.ask("POST", f"peers/{self.number_of(keys[key])}/routes", {"prefix": prefix})
        (net.folder / "preshared").mkdir()
        self.preshared[keys[1]] = run("wg", "genpsk").stdout.strip()
        net.net("up")
        run("ip", "-n", net.name, "link", "set", net.name, "up")
        run("ip", "-n", net.name, "route", "add", self.by_hand, "dev", net.name)
        self.mend()

    def mend(self):
        """All is as it should be again, but for what was kept and the interface."""
        self.between.spoil, self.between.before = {}, lambda method, path: None
        (self.net.folder / "state/fill").unlink(missing_ok=True)
        folder = self.net.folder
        self.net.write("url", f"http://127.0.0.1:{self.between.port}/networks/{self.network}")
        self.net.write("token", TOKEN)
        self.net.write("key", self.net.private)
        for path in [folder / "settings", folder / "ca", *(folder / "preshared").iterdir()]:
            path.unlink(missing_ok=True)
        for key, preshared in self.preshared.items():
            self.net.write(f"preshared/{key.replace('/', '_').replace('+', '-')}", preshared)

    def ask(self, method, path, body=None):
        """The JSON of the register's reply, which isn't asked through `self.between`, and may be a refusal."""
        return json.loads(body_of(self.register.send(request(method, f"/networks/{self.network}/{path}", body))))

    def add(self, key=None, **members):
        """The public key of a new peer."""
        key = key or key_text(os.urandom(32))
        self.ask("POST", "peers", {"key": key, **members})
        return key

    def listed(self):
        return {peer["key"]: peer for peer in self.ask("GET", "peers")["peers"]}

    def number_of(self, key):
        return self.listed()[key]["number"]

    def revoke(self, *keys):
        for key in keys:
            self.ask("DELETE", f"peers/{self.number_of(key)}")

    def change(self):
        """A seventh peer comes, or goes."""
        if self.seventh:
            self.revoke(self.seventh)
        self.seventh = None if self.seventh else self.add(keepalive=25)

    def kept(self):
        """What a round has kept of the register."""
        return [(self.net.folder / "state" / name).read_text() for name in ["ends", "server.conf"]]

    def empty(self):
        """The interface loses its peers."""
        inside(self.net.name, "wg", "set", self.net.name, *(word for key in self.look().peers for word in ["peer", key, "remove"]))

    def forget(self):
        """A round without anything that was kept, so that one row's fault isn't another's."""
        shutil.rmtree(self.net.folder / "state", ignore_errors=True)
        self.round()

    def fill_the_disk(self):
        """The state is on a disk without room, until `mend` makes some."""
        state = self.net.folder / "state"
        kept = {path.name: path.read_bytes() for path in state.iterdir()}
        run("mount", "-t", "tmpfs", "-o", "size=256k", "tmpfs", state)
        self.test.addCleanup(run, "umount", state)
        for name, text in kept.items():
            (state / name).write_bytes(text)
        with (state / "fill").open("wb", 0) as file, suppress(OSError):
            while True:
                file.write(bytes(512))

    def end_a_lease(self):
        """By what the last round kept, the lease of one of the peers is over now; the register has another end."""
        ends = self.net.folder / "state/ends"
        first, *others = ends.read_text().splitlines()
        key = first.split()[1]
        ends.write_text("".join(f"{line}\n" for line in [f"{int(time.time())} {key}", *others]))
        return key

    def round(self):
        if self.all:
            return self.all.round()
        return run(*SYNC, self.net.name, self.net.folder, allowed=None)

    def look(self):
        return look(self.net)

    def due(self):
        """What the interface has where it is as the register says."""
        peers = {}
        for key, peer in self.listed().items():
            prefixes = frozenset([peer["address"], *peer["routes"]])
            peers[key] = Held(self.preshared.get(key, "(none)"), prefixes, str(peer["keepalive"] or "off"))
        routes = {self.by_hand}.union(*(peer.prefixes for peer in peers.values()))
        return Look((self.net.private, self.port), peers, {self.address}, routes)


class All:
    """A `wgr-sync --all` that follows one network, and goes on only as a test wants a round."""

    def __init__(self, followed):
        self.state, test = followed.net.folder / "state", followed.test
        folder = Path(test.enterContext(tempfile.TemporaryDirectory()))
        (folder / followed.net.name).symlink_to(followed.net.folder)
        known = {name: value for name, value in os.environ.items() if name != "INVOCATION_ID"}
        before = self.left()
        with (folder / "told").open("w") as told:
            self.process = subprocess.Popen([*SYNC, "--all", "--pause", "2", folder], stderr=told, env=known)
        test.addCleanup(self.process.wait)
        test.addCleanup(self.process.kill)
        self.told = test.enterContext((folder / "told").open())
        self.wait(before)

    def left(self):
        """How many rounds have failed in turn, and when one was good, which is written last."""
        paths = [self.state / "failures", self.state / "succeeded"]
        return [path.read_text() if path.exists() else "" for path in paths]

    def wait(self, before):
        """Stops it once a round has ended."""
        end, left = time.monotonic() + program.LIMIT, before
        while left[1] == before[1] and left[0] in [before[0], "0\n", ""]:
            assert time.monotonic() < end and self.process.poll() is None, self.told.read()
            time.sleep(0.01)
            left = self.left()
        self.process.send_signal(signal.SIGSTOP)

    def round(self):
        before = self.left()
        self.process.send_signal(signal.SIGCONT)
        self.wait(before)
        return subprocess.CompletedProcess([], int(self.left()[1] == before[1]), "", self.told.read())


class Networks(OfHosts):
    """Networks of a register, of which each is followed by itself."""

    def follow(self, count):
        folder = Path(self.enterContext(tempfile.TemporaryDirectory()))
        database = str(folder / "register.db")
        order("init", database)
        for tenant, token in [("acme", TOKEN), ("second", SECOND)]:
            order("tenant-add", database, tenant)
            order("token-grant", database, tenant, token=token)
        network_add(database, "acme", "lab", "10.9.0.0/24", port="1000")
        host = self.space("host")
        nets = [Network(self, host, "f", 0) for _ in range(count)]
        for number, net in enumerate(nets):
            network_add(database, "acme", f"office-{number}", f"10.8.{number}.0/24", port=str(2000 + number), server=net.public)
        self.register = self.serve(database)
        followed = [Followed(self, net, number) for number, net in enumerate(nets)]
        for it in followed:
            self.heals(it)
        return followed

    def heals(self, it):
        """A good round makes all as the register says."""
        done = it.round()
        self.assertEqual((done.returncode, done.stderr), (0, ""))
        self.assertEqual(it.look(), it.due())

    def fails(self, it, words):
        """A round fails, and says so by its name and these words."""
        done = it.round()
        self.assertEqual(done.returncode, 1, done.stderr)
        for line in done.stderr.splitlines():
            self.assertTrue(line.startswith(f"wgr-sync: {it.net.name}: "), done.stderr)
        self.assertIn(words, done.stderr)

    def share(self, followed, rows, attempt):
        """Tries each row on any network that is free, those first that come first."""
        free = list(followed)

        def attempt_one(row):
            it = free.pop()
            try:
                attempt(it, *row[1:])
            except Exception as error:
                it.mend()
                it.forget()
                return error
            finally:
                it.mend()
                free.append(it)

        with ThreadPoolExecutor(len(followed)) as pool:
            for row, error in zip(rows, pool.map(attempt_one, rows)):
                with self.subTest(row[0]):
                    if error:
                        raise error
