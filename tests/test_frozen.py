"""The units of wgr-backup, wgr-figures and wgr-probe under a systemd of their own, with the real service, which they ask or freeze."""

import importlib.util
import json
import subprocess
import tempfile
import time
import unittest
from pathlib import Path

import program
from serving import SERVER_KEY, key
from shipped import DIST, rows_of

if importlib.util.find_spec("first_process"):
    from first_process import System, needs_systemd
else:
    needs_systemd = unittest.skip("without tests/first_process.py, which starts a systemd")

UNITS = ["wgr.service", "wgr-space.service", "wgr-http.service", "wgr-http.socket", "wgr-alert@.service", "wgr-backup.service", "wgr-figures.service", "wgr-probe.service"]
TOOLS = ["wgr-backup", "wgr-figures", "wgr-probe"]
BUS = ["dbus.service", "dbus.socket"]

# A service that has lost its store, in the place of the real one's socket.
STUB = """
import os, socket
os.unlink("/run/wgr-http.sock")
with socket.socket(socket.AF_UNIX) as listener:
    listener.bind("/run/wgr-http.sock")
    listener.listen()
    print("listening", flush=True)
    link, _ = listener.accept()
    link.recv(9999)
    link.sendall(b"HTTP/1.1 503 Service Unavailable\\r\\nContent-Length: 2\\r\\nConnection: close\\r\\n\\r\\n{}")
    link.close()
"""


@needs_systemd
@unittest.skipUnless(all(Path(path).exists() for path in ["/usr/bin/python3", "/usr/bin/dbus-daemon", "/usr/bin/curl"]), "without python3, dbus or curl in /usr/bin")
class Frozen(unittest.TestCase):
    def setUp(self):
        folder = self.enterContext(tempfile.TemporaryDirectory())
        self.system = System(folder, UNITS)
        for name in BUS:
            (self.system.units / name).write_bytes(Path(f"/lib/systemd/system/{name}").read_bytes())
        self.system.start()
        self.addCleanup(self.system.stop)
        self.run_all(
            ["mount", "-t", "tmpfs", "none", "/var/backups"],
            ["mkdir", "-p", "/usr/local/share/wgr", "/var/lib/prometheus/node-exporter"],
            ["cp", *(DIST / name for name in TOOLS), "/usr/local/bin"],
            ["cp", DIST / "wgr_copies.py", DIST / "wgr_figures.py", "/usr/local/share/wgr"],
            ["systemctl", "start", *reversed(BUS)],
        )
        self.system.make_register("abc")
        network = ["--pool", "10.8.0.0/24", "--host", "h", "--port", "1", "--key", SERVER_KEY, "--capacity", "9"]
        self.system.order("network-add", "acme", "office", *network)
        self.run_all(["systemctl", "start", "wgr-http.socket", "wgr.service"])

    def run_all(self, *commands):
        for words in commands:
            self.system.run(*words)

    def ask(self, *words):
        told = self.system.run(
            *["curl", "-s", "--max-time", "60", "--unix-socket", "/run/wgr-http.sock", "-H", "Authorization: Bearer abc"],
            *[*words, "http://wgr/networks/office/peers"],
        )
        return json.loads(told.stdout)

    def inside(self, path):
        """A path as the processes inside see it."""
        return Path(f"/proc/{self.system.first}/root{path}")

    def wait_for(self, unit, name, value):
        self.assertTrue(program.in_time(lambda: self.system.show(unit, name) == (value,)), (unit, name, self.system.show(unit, name)))

    def make_a_copy(self):
        self.ask("-d", json.dumps({"key": key(1)}))
        self.run_all(["systemctl", "start", "wgr-backup.service"])
        (copy,) = self.inside("/var/backups/wgr").glob("*.db")
        # SQLite would follow the way to it out of the namespace.
        here = self.system.folder / "copy.db"
        here.write_bytes(copy.read_bytes())
        self.assertEqual(rows_of(here, "SELECT key FROM peer"), [(bytes([1]) * 32,)])
        # A register that isn't served is copied without a pause.
        self.assertGreater(int((copy.parent / "pauses").read_text().split()[1]), 0)
        self.assertEqual(self.system.show("wgr.service", "ActiveState", "FreezerState"), ("active", "running"))
        self.assertEqual((copy.stat().st_mode & 0o777, copy.stat().st_uid), (0o600, 0))

    def check_rest(self, state="inactive"):
        """Once the figures are written, or have failed, there is nothing beside the register."""
        self.wait_for("wgr-figures.service", "ActiveState", state)
        self.assertEqual(sorted(path.name for path in self.inside("/var/lib/wgr").iterdir()), ["register.db", "register.db-wal"])

    def force_freezing(self):
        """Takes away the socket at which the service would be asked for a copy."""
        self.run_all(["rm", "/run/wgr/orders"])

    def test_a_frozen_service(self):
        self.force_freezing()
        self.make_a_copy()
        self.check_rest("failed")

    def test_a_copy_and_its_figures(self):
        # If it froze the unit, this would be told.
        self.inside("/usr/local/bin/systemctl").write_text('#!/bin/bash\n[[ $1 != freeze ]] || echo frozen >>/var/lib/wgr/told\nexec /usr/bin/systemctl "$@"\n')
        self.run_all(["chmod", "+x", "/usr/local/bin/systemctl"])
        self.make_a_copy()
        figures = self.inside("/var/lib/prometheus/node-exporter/wgr.prom")
        self.assertTrue(program.in_time(figures.exists))
        # Else the next start would be that of this run.
        self.wait_for("wgr-figures.service", "ActiveState", "inactive")
        self.assertEqual(self.system.show("wgr-figures.service", "Result"), ("success",))
        self.assertIn('wgr_network_peers{tenant="acme",network="office"} 1\n', figures.read_text())
        self.assertIn('wgr_service_requests_total{status="200"} 1\n', figures.read_text())
        with self.subTest("figures without another copy"):
            self.ask("-d", json.dumps({"key": key(2)}))
            self.run_all(["systemctl", "start", "wgr-figures.service"])
            self.assertIn('wgr_network_peers{tenant="acme",network="office"} 2\n', figures.read_text())
            self.assertIn('wgr_network_last_report_timestamp_seconds{tenant="acme",network="office"} 0\n', figures.read_text())
            self.check_rest()
            self.assertEqual(self.system.run("cat", "/var/lib/wgr-figures/state.json").stdout, "{}")
        with self.subTest("the copy is made beside the register"):
            self.run_all(["mkdir", "-p", "/run/words", "/var/lib/wgr/eu1"])
            self.inside("/run/words/wgr").write_text('#!/bin/sh\necho "$*" >>/run/words/told\nexec /usr/local/bin/wgr "$@"\n')
            self.run_all(["chmod", "+x", "/run/words/wgr"])
            for service, folder, status in [("wgr", "wgr", 0), ("wgr-eu1", "wgr/eu1", 1)]:
                words = ["env", "PATH=/run/words:/usr/local/bin:/usr/bin:/bin", "wgr-figures", "--status", f"/run/{service}/orders"]
                self.system.run(*words, "/var/backups/wgr", "/run/words/wgr.prom", allowed=[status])
                told = self.inside("/run/words/told").read_text()
                self.assertIn(f"send /run/{service}/orders backup /var/lib/{folder}/wgr-figures.db\n", told)
        with self.subTest("a service that is stopped"):
            self.run_all(["systemctl", "stop", "wgr.service"])
            self.system.run("systemctl", "start", "wgr-figures.service", allowed=[1])
            self.assertIn('wgr_network_peers{tenant="acme",network="office"} 1\n', figures.read_text())

    def test_a_copy_that_is_killed_leaves_nothing_frozen(self):
        self.force_freezing()
        self.inside("/usr/local/bin/cp").write_text("#!/bin/bash\nsleep 60\n")
        self.run_all(["chmod", "+x", "/usr/local/bin/cp"], ["systemctl", "start", "--no-block", "wgr-backup.service"])
        self.wait_for("wgr.service", "FreezerState", "frozen")
        self.run_all(["systemctl", "kill", "--signal=KILL", "wgr-backup.service"])
        self.wait_for("wgr-backup.service", "ActiveState", "failed")
        self.wait_for("wgr.service", "FreezerState", "running")
        self.assertEqual(self.ask(), {"peers": []})
        self.assertEqual(list(self.inside("/var/backups/wgr").glob("*.db")), [])

    def test_the_probe_sees_a_register_that_is_removed(self):
        """The service answers, and is not restarted, by which what it has would be lost; a start then says that there is none."""
        self.run_all(["systemctl", "start", "wgr-probe.service"])
        before = self.system.show("wgr.service", "MainPID")
        self.run_all(["mv", "/var/lib/wgr/register.db", "/var/lib/wgr/register.db-wal", "/var/backups"])
        self.system.run("systemctl", "start", "wgr-probe.service", allowed=[1])
        self.assertEqual(self.system.show("wgr-probe.service", "ExecMainStatus"), ("1",))
        self.assertEqual(self.system.show("wgr.service", "MainPID"), before)
        self.system.run("systemctl", "restart", "wgr.service", allowed=[1])

    def test_the_probe_sees_a_clock_that_has_jumped(self):
        """The service isn't restarted, since it would not start."""
        before = self.system.show("wgr.service", "MainPID")
        self.inside("/var/lib/wgr/clock").write_text(f"{int(time.time()) + 3600}\n")
        self.system.run("systemctl", "start", "wgr-probe.service", allowed=[1])
        self.assertEqual(self.system.show("wgr-probe.service", "ExecMainStatus"), ("1",))
        self.assertEqual(self.system.show("wgr.service", "MainPID"), before)
        self.run_all(["wgr-clock", "accept", "/var/lib/wgr/register.db"], ["systemctl", "start", "wgr-probe.service"])

    def test_the_probe_restarts_at_503(self):
        before = self.system.show("wgr.service", "MainPID")
        self.run_all(["systemctl", "start", "wgr-probe.service"])
        self.assertEqual(self.system.show("wgr.service", "MainPID"), before)
        self.run_all(["systemctl", "stop", "wgr-http.socket", "wgr-http.service"], ["systemctl", "start", "wgr.service"])
        before = self.system.show("wgr.service", "MainPID")
        self.inside("/run/wgr-http.sock").touch()
        words = ["nsenter", "-t", self.system.first, "-a", "/usr/bin/python3", "-c", STUB]
        with subprocess.Popen(words, stdout=subprocess.PIPE) as stub:
            self.assertEqual(stub.stdout.readline(), b"listening\n")
            self.system.run("systemctl", "start", "wgr-probe.service", allowed=[1])
            stub.wait(program.LIMIT)
        self.wait_for("wgr.service", "ActiveState", "active")
        self.assertNotEqual(self.system.show("wgr.service", "MainPID"), before)
        self.assertEqual(self.system.show("wgr-probe.service", "ExecMainStatus"), ("3",))


if __name__ == "__main__":
    unittest.main()
