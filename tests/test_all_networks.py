"""wgr-sync --all: one process follows the networks of a folder."""

import signal
import subprocess
import tempfile
import time
import unittest
from pathlib import Path

from following import DIST, TOOLS, Between, Network, OfHosts, private_key, public_key, run
from program import LIMIT, in_time
from serving import TOKEN, network_add, order, request
from tools import needs

# Seconds between two rounds of a network.
PAUSE = 3
# Seconds after which a round gives up to ask.
ASKING = 20
NAMES = ["one", "two", "three"]
# Networks of a register that hangs, and one of another.
HANGING, APART = ["first", "second", "third", "fourth", "fifth", "sixth"], "apart"


class OfFolder(OfHosts):
    """Networks in one folder, each asked for through one of these servers."""

    def make(self, places):
        self.folder = Path(self.enterContext(tempfile.TemporaryDirectory()))
        self.database = str(self.folder / "register.db")
        self.etc = self.folder / "etc"
        self.etc.mkdir()
        order("init", self.database)
        order("tenant-add", self.database, "acme")
        order("token-grant", self.database, "acme", token=TOKEN)
        host = self.space("host")
        self.nets = {name: Network(self, host, "a", 0) for name in places}
        for number, (name, net) in enumerate(self.nets.items()):
            network_add(self.database, "acme", name, f"10.{number}.0.0/24", port=str(2000 + number), server=net.public)
        self.register = self.serve(self.database)
        self.between = {place: Between(self.register) for place in places.values()}
        for between in self.between.values():
            self.addCleanup(between.stop)
        for name, net in self.nets.items():
            net.write("url", f"http://127.0.0.1:{self.between[places[name]].port}/networks/{name}")
            net.net("up")

    def place(self, name):
        """The operator makes the network's folder, of the name of its namespace."""
        net = self.nets[name]
        (self.etc / net.name).symlink_to(net.folder)

    def follow(self):
        process = subprocess.Popen([DIST / "wgr-sync", "--all", "--pause", str(PAUSE), self.etc], stderr=subprocess.PIPE, text=True)
        self.addCleanup(process.communicate)
        self.addCleanup(process.kill)
        return process

    def add(self, name, **members):
        key = public_key(private_key())
        told = self.register.send(request("POST", f"/networks/{name}/peers", {"key": key, **members}))
        self.assertTrue(told.startswith(b"HTTP/1.1 200 "), told)
        return key

    def has(self, name, keys):
        """Whether the interface has these peers in time."""
        return in_time(lambda: self.nets[name].peers() == keys)


@needs(*TOOLS, root=True)
class All(OfFolder):
    def test_networks_come_change_and_go(self):
        self.make({name: name for name in NAMES})
        keys = {name: {self.add(name)} for name in NAMES}
        for name in ["one", "two"]:
            self.place(name)
        # Its rounds fail, and the other's don't.
        self.nets["two"].write("token", "wrong")
        process = self.follow()
        with self.subTest("each has its round at the start"):
            self.assertTrue(self.has("one", keys["one"]))
            self.assertEqual(self.nets["two"].peers(), set())
        with self.subTest("a network that comes"):
            self.place("three")
            self.assertTrue(self.has("three", keys["three"]))
        with self.subTest("changes, and a fault that is mended"):
            for name in NAMES:
                keys[name].add(self.add(name))
            self.nets["two"].write("token", TOKEN)
            for name in NAMES:
                self.assertTrue(self.has(name, keys[name]), name)
        with self.subTest("a network that goes"):
            (self.etc / self.nets["three"].name).unlink()
            self.assertTrue(in_time(lambda: self.is_left_alone("three")))
            self.assertEqual(self.nets["three"].peers(), keys["three"])
        process.send_signal(signal.SIGTERM)
        _, said = process.communicate(timeout=LIMIT)
        # A round of the one that goes may be under way, and can't keep anything then.
        told = {line.split(": ")[1] for line in said.splitlines() if f"{self.nets['three'].name}: cannot write to " not in line}
        self.assertEqual(told, {self.nets["two"].name}, said)

    def is_left_alone(self, name):
        """Whether nothing is asked for it in the time of a round and more. One may be under way as its folder goes."""
        asked = len(self.between[name].asked)
        time.sleep(PAUSE + 2)
        return len(self.between[name].asked) == asked

    def test_a_register_that_hangs(self):
        """Leases end meanwhile, and networks of another register are followed."""
        self.make({name: "hangs" for name in HANGING} | {APART: APART})
        stays = {name: self.add(name) for name in self.nets}
        for name in self.nets:
            self.place(name)
        began = time.monotonic()
        process = self.follow()
        for name in self.nets:
            self.assertTrue(self.has(name, {stays[name]}), name)
        # Such rounds, and more, fit in before the leases end, however slow the machine is.
        end = int(time.time() + PAUSE + 10 + 3 * (time.monotonic() - began))
        ends = {name: self.add(name, end=end) for name in HANGING}
        for name in HANGING:
            self.assertTrue(self.has(name, {stays[name], ends[name]}), name)
        self.between["hangs"].before = lambda method, path: time.sleep(2 * ASKING)
        with self.subTest("another register's network"):
            self.assertTrue(self.has(APART, {stays[APART], self.add(APART)}))
        while time.time() < end:
            time.sleep(0.05)
        # Two rounds are under way, which had a look at the leases before; the other networks' leases end before the next ones.
        ended = lambda: [name for name in HANGING if self.nets[name].peers() == {stays[name]}]
        self.assertTrue(in_time(lambda: len(ended()) >= len(HANGING) - 2, ASKING / 2), ended())
        for name in HANGING:
            self.assertTrue(self.has(name, {stays[name]}), name)
        with self.subTest("all of them had rounds that failed"):
            self.assertTrue(all(int((self.nets[name].folder / "state/failures").read_text()) > 0 for name in HANGING))
        self.assertIsNone(process.poll())


class Words(unittest.TestCase):
    def test_pauses(self):
        for words in [["--all", "--pause", "0"], ["--all", "--pause", "3601"], ["--all", "a", "b"], [], ["a", "b", "c"]]:
            with self.subTest(words):
                done = run(DIST / "wgr-sync", *words, allowed=(2,))
                self.assertIn("usage: wgr-sync", done.stderr)

    def test_a_folder_that_is_not_there(self):
        """It is said, and looked for again."""
        with subprocess.Popen([DIST / "wgr-sync", "--all", "/nowhere"], stderr=subprocess.PIPE, text=True) as process:
            self.assertEqual(process.stderr.readline(), "wgr-sync: cannot read /nowhere: No such file or directory\n")
            self.assertIsNone(process.poll())
            process.kill()
