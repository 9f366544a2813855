"""The units of dist/: well-formed, as narrow as they were, and run by a real systemd where that can be started."""

import os
import re
import shutil
import subprocess
import sys
import tempfile
import unittest
from pathlib import Path

from first_process import DIST, System, needs_systemd
from program import in_time
from serving import TOKEN
from tools import needs

UNITS = sorted(path.name for pattern in ["*.service", "*.socket", "*.timer"] for path in DIST.glob(pattern))
# Of each service that is confined, what `systemd-analyze security` counts at most, in tenths: 100 is not confined at all.
EXPOSURE = {"wgr.service": 8, "wgr-space.service": 7, "wgr-http.service": 7, "wgr-haproxy.service": 9, "wgr-clock.service": 6, "wgr-sync@.service": 26, "wgr-sync.service": 26, "wgr-net@.service": 46}
# A unit and the one of several registers, which differs in its names alone.
INSTANCES = [("wgr.service", "wgr@.service"), ("wgr-space.service", "wgr-space@.service"), ("wgr-http.socket", "wgr-http@.socket"), ("wgr-http.service", "wgr-http@.service"), ("wgr-clock.service", "wgr-clock@.service"), ("wgr-clock.timer", "wgr-clock@.timer")]


def settings(name):
    """The settings of a unit, without what differs between the units of one register and those of several."""
    lines = [line for line in (DIST / name).read_text().splitlines() if line and line[0] != "#"]
    return re.sub(r"[@/ -]%i", "", "\n".join(lines))


class Files(unittest.TestCase):
    def copied(self):
        """A folder with all units, whose programs and man pages need not be installed where the tests run."""
        folder = self.enterContext(tempfile.TemporaryDirectory())
        for name in UNITS:
            text = re.sub(r"/usr/(local/(bin|lib/wgr)|sbin)/[\w-]+", shutil.which("true"), (DIST / name).read_text())
            (Path(folder) / name).write_text(re.sub(r"Documentation=.*\n", "", text))
        return Path(folder)

    @needs("systemd-analyze")
    def test_units(self):
        folder = self.copied()
        for name in UNITS:
            with self.subTest(name):
                unit = folder / name.replace("@", "@acme")
                told = subprocess.run(["systemd-analyze", "verify", unit], capture_output=True, text=True)
                self.assertEqual((told.returncode, told.stdout, told.stderr), (0, "", ""))

    @needs("systemd-analyze")
    def test_sandboxes(self):
        folder = self.copied()
        for name, most in EXPOSURE.items():
            with self.subTest(name):
                unit = folder / name.replace("@", "@acme")
                if "@" in name:
                    shutil.copy(folder / name, unit)
                told = subprocess.run(["systemd-analyze", "security", "--offline=yes", f"--threshold={most}", unit], capture_output=True, text=True)
                self.assertEqual(told.returncode, 0, told.stdout[-200:])

    def test_a_crash_loop_of_the_largest_register_counts_as_failed(self):
        for name, start in [("wgr.service", LONGEST_START), ("wgr-sync.service", 0)]:
            with self.subTest(name):
                text = (DIST / name).read_text()
                interval, burst, pause = (int(re.search(rf"(?m)^{it}=(\d+)$", text)[1]) for it in ["StartLimitIntervalSec", "StartLimitBurst", "RestartSec"])
                self.assertLess(burst * (start + pause), interval)

    def test_rounds_are_confined_alike(self):
        one, all_networks = [(DIST / name).read_text().partition("\nCapabilityBoundingSet=")[2].partition("\n\n")[0] for name in ["wgr-sync@.service", "wgr-sync.service"]]
        self.assertEqual(one.rstrip(), all_networks)
        self.assertIn("ProtectSystem=strict", one)

    def test_units_of_several_registers(self):
        for one, several in INSTANCES:
            with self.subTest(several):
                self.assertEqual(settings(several), settings(one))


ALL = ["wgr.service", "wgr@.service", "wgr-space.service", "wgr-space@.service", "wgr-http.socket", "wgr-http.service", "wgr-http@.socket", "wgr-http@.service", "wgr-alert@.service"]
# A crash loop takes less time so; what makes it count as failed is the unit's own interval.
QUICKLY = {"wgr.service": "[Unit]\nStartLimitBurst=4\n[Service]\nRestartSec=10ms\n"}
# The longest start that docs/OPERATIONS.md has, in seconds.
LONGEST_START = 14


@needs_systemd
@needs("curl", "nsenter")
class Running(unittest.TestCase):
    """The service and its socket, with a register that has a tenant."""

    def setUp(self):
        folder = self.enterContext(tempfile.TemporaryDirectory())
        self.system = System(folder, ALL, drop_ins=QUICKLY)
        self.addCleanup(self.system.stop)
        self.system.start()

    def curl(self, *words, user=None, token=TOKEN):
        told = self.system.run("curl", "-s", "-w", " %{http_code}", "-H", f"Authorization: Bearer {token}", *words, allowed=None, user=user)
        return told.stdout

    def through(self, socket, **more):
        return self.curl("--max-time", "60", "--unix-socket", socket, "http://wgr/networks", **more)

    def test_the_service(self):
        system = self.system
        with self.subTest("without a register it doesn't start, and says so"):
            for word in ["start", "restart"]:
                left = system.run("systemctl", word, "wgr", allowed=[1])
                self.assertIn("Assertion failed", left.stderr)
            self.assertEqual(system.show("wgr", "ActiveState", "AssertResult"), ("inactive", "no"))
        system.make_register(TOKEN)
        with self.subTest("it has started once it listens"):
            system.run("systemctl", "start", "wgr-http.socket", "wgr")
            sockets = Path(f"/proc/{system.processes('wgr.service')[0]}/net/tcp").read_text()
            self.assertIn(" 0100007F:1F90 00000000:0000 0A ", sockets)
        with self.subTest("it serves as long as it is wanted"):
            self.assertIn(" --count 9223372036854775807 ", system.show("wgr", "ExecStart")[0])
        with self.subTest("nginx's group reaches it by the socket"):
            self.assertEqual(self.through("/run/wgr-http.sock", user="www-data"), '{"networks":[]} 200')
        with self.subTest("no other user does"):
            self.assertEqual(self.through("/run/wgr-http.sock", user="mail"), " 000")
        with self.subTest("nobody holds its port"):
            self.assertEqual(self.curl("http://127.0.0.1:8080/networks"), " 000")
        with self.subTest("orders come by a socket, from root and its own user"):
            for user, name in [(None, "bolt"), ("wgr", "cato")]:
                self.assertEqual(system.send("tenant-add", name, user=user).stdout, "done\n")
            self.assertEqual(system.send("token-grant", "bolt", text="second").stdout, "done\n")
            self.assertEqual(self.through("/run/wgr-http.sock", token="second"), '{"networks":[]} 200')
        with self.subTest("from nobody else"):
            for user in ["www-data", "mail"]:
                left = system.send("tenant-add", "dune", user=user, allowed=[1])
                self.assertEqual((left.stdout, left.stderr), ("", "wgr: device\n"))
            modes = system.run("stat", "-c", "%a %U %G", "/run/wgr", "/run/wgr/orders").stdout
            self.assertEqual(modes, "700 wgr wgr\n600 wgr wgr\n")
        with self.subTest("the proxy runs on"):
            self.assertEqual(system.show("wgr-http.service", "ActiveState", "SubState"), ("active", "running"))

    def test_orders_behind_a_kill(self):
        """The next start takes orders at the same path."""
        system = self.system
        system.make_register(TOKEN)
        system.run("systemctl", "start", "wgr")
        self.assertEqual(system.send("tenant-add", "bolt").stdout, "done\n")
        self.assertEqual(self.kill(), "active")
        self.assertEqual(system.send("tenant-add", "bolt", allowed=[2]).stderr, "wgr: name_held\n")
        system.run("systemctl", "stop", "wgr")
        self.assertEqual(system.send("tenant-add", "cato", allowed=[1]).stderr, "wgr: device\n")

    def test_a_crash_loop_counts_as_failed(self):
        self.system.make_register(TOKEN)
        # No tenant has this id, so the rows aren't good.
        change = "import sqlite3; file = sqlite3.connect('/var/lib/wgr/register.db'); file.execute('UPDATE token SET tenant = 7'); file.commit()"
        self.system.run(sys.executable, "-c", change)
        self.system.run("systemctl", "start", "--no-block", "wgr")
        in_time(lambda: self.system.show("wgr", "ActiveState")[0] == "failed")
        self.assertEqual(self.system.show("wgr", "ActiveState", "Result"), ("failed", "exit-code"))
        with self.subTest("and somebody is told"):
            in_time(lambda: self.system.show("wgr-alert@wgr.service", "ExecMainExitTimestampMonotonic") != ("0",))
            self.assertEqual(self.system.show("wgr-alert@wgr.service", "Result", "ExecMainStatus"), ("success", "0"))
            self.assertNotEqual(self.system.show("wgr-alert@wgr.service", "ExecMainExitTimestampMonotonic"), ("0",))

    def kill(self):
        """Kills the service, and waits until it has started anew or has failed; gives the state."""
        before, state = self.system.show("wgr", "MainPID"), None
        self.system.run("kill", "-9", *before)

        def has_gone_on():
            nonlocal state
            state, process = self.system.show("wgr", "ActiveState", "MainPID")
            return state == "failed" or state == "active" and process not in before

        return state if in_time(has_gone_on) else None

    def test_stops_by_hand_are_never_too_many(self):
        """More of them than starts may be in a row; then a service that is killed again and again fails all the same."""
        system = self.system
        system.make_register(TOKEN)
        system.run("systemctl", "start", "wgr")
        for words in 4 * [["restart"]] + 4 * [["stop"], ["start"]]:
            system.run("systemctl", *words, "wgr")
        self.assertEqual(system.show("wgr", "ActiveState", "SubState"), ("active", "running"))
        with self.subTest("killed again and again"):
            self.assertEqual([self.kill() for _ in range(4)], ["active", "active", "active", "failed"])
            self.assertEqual(system.show("wgr", "ActiveState", "Result"), ("failed", "signal"))

    def test_two_registers(self):
        for name, token in [("eu1", "first"), ("eu2", "second")]:
            self.system.run("install", "-d", "-o", "wgr", "-g", "wgr", "-m", "700", f"/var/lib/wgr/{name}")
            self.system.make_register(token, register=f"/var/lib/wgr/{name}/register.db")
            self.system.run("systemctl", "start", f"wgr-http@{name}.socket", f"wgr@{name}")
        for name, token, status in [("eu1", "first", 200), ("eu1", "second", 401), ("eu2", "second", 200), ("eu2", "first", 401)]:
            with self.subTest(name, token=token):
                self.assertTrue(self.through(f"/run/wgr-http-{name}.sock", token=token).endswith(f" {status}"))
        with self.subTest("each takes its own orders"):
            self.assertEqual(self.system.send("token-grant", "acme", service="wgr-eu1", text="third").stdout, "done\n")
            told = [self.through(f"/run/wgr-http-{name}.sock", token="third")[-3:] for name in ["eu1", "eu2"]]
            self.assertEqual(told, ["200", "401"])
        with self.subTest("one ends without the other"):
            os.kill(self.system.processes("system-wgr.slice/wgr@eu1.service")[0], 9)
            self.assertTrue(self.through("/run/wgr-http-eu2.sock", token="second").endswith(" 200"))
            self.assertEqual(self.system.send("token-end", service="wgr-eu2", text="second").stdout, "done\n")
