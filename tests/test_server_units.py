"""The units of a WireGuard server, run by a real systemd: wgr-net@, wgr-sync@ and wgr-sync."""

import json
import tempfile
import unittest

from first_process import System, needs_systemd
from program import in_time
from serving import TOKEN, key
from tools import needs

UNITS = ["wgr-net@.service", "wgr-sync@.service", "wgr-sync@.timer", "wgr-sync.service", "wgr-alert@.service"]
NET = r"system-wgr\x2dnet.slice/wgr-net@vpn1.service"
FIGURES = "/var/lib/prometheus/node-exporter"
FAILURES = "/var/lib/wgr-sync/vpn1/failures"
# Alerts, where a test finds them, and a crash loop that takes less time.
DROP_INS = {
    "wgr-alert@.service": "[Service]\nDynamicUser=no\nExecStart=\nExecStart=/bin/sh -c 'echo %i >>/run/alerts'\n",
    "wgr-sync.service": "[Unit]\nStartLimitBurst=4\n[Service]\nRestartSec=10ms\n",
}
# In place of wgr-sync: it does what a test asks, or fails where nothing is asked.
STAND_IN = """#!/bin/bash
asked() { bash /run/asked >"$STATE_DIRECTORY/new" 2>&1 && mv "$STATE_DIRECTORY/new" "$STATE_DIRECTORY/told"; }
[[ $1 == --all ]] || { asked; exit; }
[[ -e /run/waits ]] || exit 1
until asked; do sleep 0.05; done
exec sleep 1000
"""
# What a round has to be able to do, and what it may not.
ROUND = """
cat /etc/wgr/vpn1/token || exit
for file in /etc/wgr/vpn1/new /usr/new /var/lib/new /var/lib/prometheus/node-exporter/new "$STATE_DIRECTORY/file"; do
    ! touch "$file" 2>/dev/null || echo "$file"
done
nsenter --net=/run/netns/vpn1 ip link delete vpn1
systemctl reload wgr-net@vpn1 && echo reloaded
nsenter --net=/run/netns/vpn1 wg show vpn1 >/dev/null && echo there
systemctl start --no-block wgr-alert@wgr-sync@vpn1.service && echo alerted
"""


class Server(unittest.TestCase):
    def wait_until(self, is_so):
        self.assertTrue(in_time(is_so))

    def put(self, path, text):
        self.system.run("sh", "-c", f"umask 077; mkdir -p $(dirname {path}); cat >{path}.new; mv {path}.new {path}", text=text)

    def read(self, path):
        return self.system.run("cat", path, allowed=None).stdout

    def namespaces(self):
        return [line.split()[0] for line in self.system.run("ip", "netns").stdout.splitlines()]


@needs_systemd
@needs("wg", "wireguard-go", "nsenter", root=True)
class Sandboxes(Server):
    """The units with a stand-in for wgr-sync."""

    def setUp(self):
        self.system = System(self.enterContext(tempfile.TemporaryDirectory()), UNITS, scripts=["wgr-net"], drop_ins=DROP_INS)
        script = self.system.folder / "lib/wgr-sync"
        script.write_text(STAND_IN)
        script.chmod(0o755)
        self.addCleanup(self.system.stop)
        self.system.start()
        self.system.run("mkdir", "-p", FIGURES)

    def check(self, state):
        """What the round has told, and what is left of it in the namespace and by the alert."""
        self.wait_until(lambda: self.read(f"{state}/told"))
        written = [f"{FIGURES}/new", f"{state}/file"]
        self.assertEqual(self.read(f"{state}/told").splitlines(), ["secret", *written, "reloaded", "there", "alerted"])
        self.assertEqual(self.system.show("wgr-net@vpn1", "ActiveState", "SubState"), ("active", "exited"))
        self.wait_until(lambda: self.read("/run/alerts") == "wgr-sync@vpn1\n")

    def test_a_round_of_one_network(self):
        self.put("/etc/wgr/vpn1/token", "secret\n")
        self.put("/run/asked", ROUND)
        self.system.run("systemctl", "start", "wgr-sync@vpn1")
        self.check("/var/lib/wgr-sync/vpn1")
        with self.subTest("its interface stays, and its program runs on, also where nothing is missing"):
            before = self.system.processes(NET)
            self.system.run("systemctl", "reload", "wgr-net@vpn1")
            self.assertEqual(self.system.processes(NET), before)
            self.assertIn("vpn1", self.system.run("ip", "netns", "exec", "vpn1", "ip", "link").stdout)
        with self.subTest("it runs without any file"):
            self.system.run("rm", "-r", "/etc/wgr/vpn1")
            self.put("/run/asked", "echo ran\n")
            self.system.run("systemctl", "start", "wgr-sync@vpn1")
            self.assertEqual(self.read("/var/lib/wgr-sync/vpn1/told"), "ran\n")
        with self.subTest("it is never started too often"):
            # The timer keeps the unit, and its count of starts, in memory.
            self.system.run("systemctl", "start", "wgr-sync@vpn1.timer")
            for _ in range(12):
                self.system.run("systemctl", "start", "wgr-sync@vpn1")

    def test_rounds_of_all_networks(self):
        """Of those too whose namespace is made later."""
        self.put("/run/waits", "")
        self.system.run("systemctl", "start", "wgr-sync")
        self.assertEqual(self.namespaces(), [])
        self.put("/etc/wgr/vpn1/token", "secret\n")
        self.system.run("systemctl", "start", "wgr-net@vpn1")
        self.put("/run/asked", ROUND)
        self.check("/var/lib/wgr-sync")
        with self.subTest("one that is gone is gone for them"):
            self.system.run("systemctl", "stop", "wgr-net@vpn1")
            self.wait_until(lambda: len(self.system.processes("wgr-sync.service")) == 1)
            [process] = self.system.processes("wgr-sync.service")
            self.assertNotIn("/run/netns/vpn1", open(f"/proc/{process}/mountinfo").read())
        with self.subTest("stops by hand are never too many"):
            for _ in range(5):
                self.system.run("systemctl", "restart", "wgr-sync")
        self.assertEqual(self.system.show("wgr-sync", "ActiveState"), ("active",))

    def test_a_crash_loop_counts_as_failed(self):
        self.system.run("systemctl", "start", "--no-block", "wgr-sync")
        self.wait_until(lambda: self.read("/run/alerts") == "wgr-sync\n")
        self.assertEqual(self.system.show("wgr-sync", "ActiveState", "Result"), ("failed", "exit-code"))

    def test_an_interface_of_the_host(self):
        self.put("/etc/wgr/vpn1/settings", "# wg-quick's\n interface = wg0\n")
        self.put("/run/asked", "echo ran\n")
        self.system.run("systemctl", "start", "wgr-sync@vpn1.timer")
        self.wait_until(lambda: self.read("/var/lib/wgr-sync/vpn1/told") == "ran\n")
        self.assertEqual(self.system.show("wgr-net@vpn1", "ActiveState"), ("active",))
        self.assertEqual(self.namespaces(), [])
        self.put("/etc/wgr/vpn1/settings", "# interface = wg0\n")
        self.system.run("systemctl", "reload", "wgr-net@vpn1")
        self.assertEqual(self.namespaces(), ["vpn1"])


@needs_systemd
@needs("wg", "wireguard-go", "curl", "nsenter", root=True)
class Following(Server):
    """wgr-net@ and wgr-sync@ with a register on the same host."""

    def setUp(self):
        self.system = System(self.enterContext(tempfile.TemporaryDirectory()), UNITS, scripts=["wgr-net", "wgr-sync"])
        self.addCleanup(self.system.stop)
        self.system.start()
        private = self.system.run("wg", "genkey").stdout
        public = self.system.run("wg", "pubkey", text=private).stdout.strip()
        self.system.make_register(TOKEN)
        words = ["--pool", "10.8.0.0/24", "--host", "vpn.example.net", "--port", "51820", "--key", public, "--capacity", "9"]
        self.system.order("network-add", "acme", "office", *words)
        serve = "/usr/local/bin/wgr serve /var/lib/wgr/register.db 127.0.0.1:9000 --count 9000"
        self.system.run("sh", "-c", f"{serve} >/run/served 2>&1 & until grep -q listening /run/served; do sleep 0.02; done")
        for name, text in [("url", "http://127.0.0.1:9000/networks/office\n"), ("token", f"{TOKEN}\n"), ("key", private)]:
            self.put(f"/etc/wgr/vpn1/{name}", text)
        add = ["curl", "-s", "-H", f"Authorization: Bearer {TOKEN}", "-d", json.dumps({"key": key(1)}), "http://127.0.0.1:9000/networks/office/peers"]
        self.system.run(*add)

    def peers(self):
        return self.system.run("ip", "netns", "exec", "vpn1", "wg", "show", "vpn1", "peers", allowed=None).stdout.split()

    def test_a_network_is_followed(self):
        self.system.run("systemctl", "start", "wgr-sync@vpn1.timer")
        self.wait_until(lambda: self.peers() == [key(1)])
        with self.subTest("a round ends well"):
            self.system.run("systemctl", "start", "wgr-sync@vpn1")
            self.assertEqual(self.system.show("wgr-sync@vpn1", "Result", "ExecMainStatus"), ("success", "0"))
        with self.subTest("an interface that is lost is made again"):
            self.system.run("ip", "-n", "vpn1", "link", "delete", "vpn1")
            self.system.run("systemctl", "start", "wgr-sync@vpn1")
            self.assertEqual(self.peers(), [key(1)])
            # That of the former interface ends by itself.
            self.wait_until(lambda: len(self.system.processes(NET)) == 1)
        with self.subTest("the end of the namespace is the end of the rounds"):
            self.system.run("systemctl", "stop", "wgr-net@vpn1")
            self.assertEqual(self.namespaces(), [])
            self.assertEqual(self.system.show("wgr-sync@vpn1.timer", "ActiveState"), ("inactive",))

    def test_all_networks_are_followed(self):
        """By one service, which starts no namespace, and starts none again that was stopped."""
        self.system.run("mkdir", "-p", FIGURES)
        self.system.run("systemctl", "start", "wgr-sync")
        self.wait_until(lambda: "wgr-sync.prom" in self.system.run("ls", FIGURES).stdout)
        self.assertEqual(self.namespaces(), [])
        self.system.run("systemctl", "start", "wgr-net@vpn1")
        self.system.run("systemctl", "restart", "wgr-sync")
        self.wait_until(lambda: self.peers() == [key(1)] and self.read(FAILURES) == "0\n")
        self.system.run("systemctl", "stop", "wgr-net@vpn1")
        self.system.run("systemctl", "restart", "wgr-sync")
        self.wait_until(lambda: self.read(FAILURES) == "1\n")
        self.assertEqual((self.namespaces(), self.system.show("wgr-sync", "ActiveState")), ([], ("active",)))
