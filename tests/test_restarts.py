"""Twenty requests a second while the service is started anew, stopped for an order, and killed: a real systemd, with nginx
or HAProxy before the service as dist/ has them."""

import fcntl
import json
import os
import signal
import subprocess
import sys
import tempfile
import time
import unittest
from contextlib import contextmanager
from pathlib import Path

import program
from first_process import DIST, System, needs_systemd
from fronts import make_certificate
from serving import SERVER_KEY, TOKEN
from tools import needs

# A few seconds, or with WGR_ALL=1 a minute with twenty orders.
SECONDS, ORDERS = (60, 20) if os.environ.get("WGR_ALL") else (4, 1)
NETWORK = ["acme", "office", "--pool", "10.8.0.0/24", "--host", "vpn.example.net", "--port", "51820", "--key", SERVER_KEY, "--capacity", "9"]


class Restarts(unittest.TestCase):
    def start(self, units):
        self.folder = Path(self.enterContext(tempfile.TemporaryDirectory()))
        self.folder.chmod(0o755)
        self.system = System(self.folder, ["wgr.service", "wgr-space.service", *units])
        self.addCleanup(self.system.stop)
        self.system.start()
        self.system.make_register(TOKEN)
        self.system.order("network-add", *NETWORK)
        (self.folder / "lock").touch()

    def begin_stream(self):
        """The stream of requests, from its own process; gives a function that waits for the answers."""
        words = ["nsenter", "-t", self.system.first, "-a", sys.executable, str(Path(__file__).with_name("stream.py"))]
        stream = subprocess.Popen([*words, str(self.folder / "lock"), str(SECONDS)], stdout=subprocess.PIPE)
        self.addCleanup(stream.stdout.close)
        return lambda: json.loads(stream.communicate(timeout=SECONDS + program.LIMIT)[0])

    @contextmanager
    def no_change(self):
        """While no change is being made, after which the service that ran then has ended."""
        [process] = self.system.processes("wgr.service")
        with (self.folder / "lock").open() as file:
            fcntl.flock(file, fcntl.LOCK_EX)
            yield process
            end = time.monotonic() + program.LIMIT
            while os.path.exists(f"/proc/{process}") and time.monotonic() < end:
                time.sleep(0.002)

    def restart(self):
        with self.no_change():
            self.system.run("systemctl", "restart", "--no-block", "wgr")
        self.wait_until_active()

    def kill(self):
        with self.no_change() as process:
            os.kill(process, signal.SIGKILL)
        self.wait_until_active()

    def give_an_order(self, number):
        with self.no_change():
            self.system.run("systemctl", "stop", "wgr")
        self.system.order("tenant-add", f"tenant{number}")
        self.system.run("systemctl", "start", "wgr")

    def send_an_order(self):
        """To the running service, which goes on."""
        before = self.system.processes("wgr.service")
        self.assertEqual(self.system.send("tenant-add", "sent").stdout, "done\n")
        self.assertEqual(self.system.processes("wgr.service"), before)

    def wait_until_active(self):
        end = time.monotonic() + program.LIMIT
        while self.system.show("wgr", "ActiveState") != ("active",) or not self.system.processes("wgr.service"):
            self.assertLess(time.monotonic(), end)
            time.sleep(0.02)

    def check(self, acts):
        """The answers while these acts are done one after the other, spread over the time."""
        answers = self.begin_stream()
        for act in acts:
            time.sleep(0.5)
            act()
        found = {}
        for kind, status, _ in answers():
            found.setdefault(kind, []).append(status)
        self.assertEqual({kind: set(statuses) for kind, statuses in found.items()}, {"reading": {"200"}, "stranger": {"401"}, "change": {"200", "409"}})
        self.assertEqual(found["change"].count("200"), 1)
        self.assertEqual(sum(map(len, found.values())), SECONDS * 20)

    def orders(self):
        return [lambda number=number: self.give_an_order(number) for number in range(ORDERS)]


@needs_systemd
@needs("nginx", "openssl", "nsenter")
class ByNginx(Restarts):
    def test_restarts_and_orders(self):
        self.start(["wgr-http.socket", "wgr-http.service"])
        system = self.system
        make_certificate(self.folder)
        (self.folder / "nginx.conf").write_text(f"user www-data; events {{}} http {{ include {DIST}/nginx.conf; }}")
        system.run("mkdir", "-p", "/var/lib/nginx", "/var/log/nginx", "/etc/nginx")
        system.run("cp", self.folder / "wgr.crt", self.folder / "wgr.key", "/etc/nginx/")
        system.run("systemctl", "start", "wgr-http.socket", "wgr")
        system.run("sh", "-c", f"nginx -c {self.folder}/nginx.conf >/dev/null 2>&1")
        self.check([self.restart, self.send_an_order, self.restart, *self.orders()])


@needs_systemd
@needs("haproxy", "openssl", "nsenter")
class ByHAProxy(Restarts):
    def test_restarts_orders_and_a_kill(self):
        self.start(["wgr-haproxy.socket", "wgr-haproxy.service"])
        make_certificate(self.folder)
        self.system.run("sh", "-c", f"cat {self.folder}/wgr.crt {self.folder}/wgr.key >/etc/wgr/certificate.pem; cp {DIST}/haproxy.cfg /etc/wgr/")
        self.system.run("systemctl", "start", "wgr-haproxy.socket", "wgr-haproxy", "wgr")
        self.check([self.restart, self.kill, self.send_an_order, self.restart, *self.orders()])
