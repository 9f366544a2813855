"""Proxies before the service, under a real systemd: in whatever order HAProxy and the rest start, all reach the register; and many
connections or requests of one address, or of one /64 of IPv6, hold nobody else up."""

import subprocess
import sys
import tempfile
import time
import unittest
from contextlib import contextmanager
from pathlib import Path

import program
from first_process import DIST, System, needs_systemd
from fronts import make_certificate
from serving import TOKEN
from tools import needs

UNITS = ["wgr.service", "wgr-space.service", "wgr-http.socket", "wgr-http.service", "wgr-haproxy.socket", "wgr-haproxy.service", "wgr-alert@.service"]
SOCKETS, SERVICES = ["wgr-haproxy.socket", "wgr-http.socket"], ["wgr", "wgr-http", "wgr-haproxy"]
# Seconds in which a request is answered, however busy the machine.
MOST = 15
HTTPS = ["-k", "https://127.0.0.1/networks"]
HTTP = ["--unix-socket", "/run/wgr-http.sock", "http://wgr/networks"]
# By name, what is done after all have stopped or, where it says so, all have started: lists are words of systemctl, texts
# are requests, for which nothing waits.
ORDERS = {
    "all at once": [["start", *SOCKETS, "wgr-haproxy", "wgr"]],
    "the service before HAProxy": [["start", "wgr-http.socket", "wgr"], ["start", "wgr-haproxy.socket", "wgr-haproxy"]],
    "HAProxy before the service": [["start", "wgr-haproxy.socket", "wgr-haproxy"], ["start", "wgr-http.socket", "wgr"]],
    "a request at 443 before the service": [["start", *SOCKETS], "https", ["start", "wgr"]],
    "a request at the socket before the service": [["start", *SOCKETS], "http", ["start", "wgr"]],
    "requests at both before the service": [["start", *SOCKETS], "https", "http", ["start", "wgr"]],
    "requests at both, the socket first": [["start", *SOCKETS], "http", "https", ["start", "wgr"]],
    "a restart": ["all", ["restart", "wgr"]],
    "a request at the socket of a stopped service": ["all", ["stop", "wgr"], "http", ["start", "wgr"]],
    "requests at both of a stopped service": ["all", ["stop", "wgr"], "https", "http", ["start", "wgr"]],
    "a kill": ["all", ["kill", "-s", "KILL", "wgr"], "https", "http"],
    "HAProxy after a restart under a request": ["all", ["stop", "wgr-haproxy.socket", "wgr-haproxy", "wgr"], "http", ["start", "wgr"], ["start", "wgr-haproxy.socket", "wgr-haproxy"]],
}
REQUESTS = {"https": HTTPS, "http": HTTP}
# Opens so many connections to a host from an address, says so, and holds them until its input ends, opening others for those
# that are closed.
HOLD = """
import resource, select, socket, sys
host, sources, count = sys.argv[1], sys.argv[2].split(), int(sys.argv[3])
resource.setrlimit(resource.RLIMIT_NOFILE, (8192, 8192))
held, poll, turn, ends = {}, select.poll(), 0, select.poll()
ends.register(0)
while not ends.poll(0):
    for _ in range(count - len(held)):
        link = socket.socket(socket.AF_INET6 if ":" in host else socket.AF_INET)
        link.setblocking(False)
        link.bind((sources[turn % len(sources)], 0))
        turn += 1
        link.connect_ex((host, 443))
        held[link.fileno()] = link
        poll.register(link, select.POLLIN | select.POLLHUP)
    if turn == count:
        print("held", flush=True)
    for number, _ in poll.poll(50):
        try:
            held[number].recv(1)
        except BlockingIOError:
            continue
        except OSError:
            pass
        poll.unregister(number)
        held.pop(number).close()
"""
# Asks at once from each of these addresses, and prints how many were answered 429: some seconds after all have asked, and so
# many were, or after a minute.
ASK = """
import os, socket, ssl, sys, threading, time
host, sources, due, asked, refused = sys.argv[1], sys.argv[2].split(), int(sys.argv[3]), [], []
def ask(source):
    with socket.create_connection((host, 443), source_address=(source, 0)) as link, ssl._create_unverified_context().wrap_socket(link) as tls:
        tls.sendall(b"GET /networks HTTP/1.1\\r\\nHost: wgr\\r\\n\\r\\n")
        asked.append(source)
        if tls.recv(99).startswith(b"HTTP/1.1 429 "):
            refused.append(source)
for source in sources:
    threading.Thread(target=ask, args=(source,), daemon=True).start()
end = time.monotonic() + 60
while (len(asked) < len(sources) or len(refused) < due) and time.monotonic() < end:
    time.sleep(0.02)
time.sleep(3)
print(len(refused), flush=True)
os._exit(0)
"""


class Begun(unittest.TestCase):
    """A system with a register, and a host that has all addresses of two networks."""

    def status(self, words, *more):
        told = self.system.run("curl", "-s", "-m", str(MOST), "-o", "/dev/null", "-w", "%{http_code}", "-H", f"Authorization: Bearer {TOKEN}", *more, *words, allowed=None)
        return told.stdout

    @contextmanager
    def hold(self, host, sources):
        """3,000 connections from these addresses, which have begun, until the block ends."""
        words = ["nsenter", "-t", self.system.first, "-a", sys.executable, "-c", HOLD, host, sources, "3000"]
        with subprocess.Popen(words, stdin=subprocess.PIPE, stdout=subprocess.PIPE) as process:
            self.assertEqual(process.stdout.readline(), b"held\n")
            yield
            self.assertIsNone(process.poll())
            process.stdin.close()
            self.assertEqual(process.wait(program.LIMIT), 0)

    def begin(self, units):
        self.folder = Path(self.enterContext(tempfile.TemporaryDirectory()))
        self.folder.chmod(0o755)
        self.system = System(self.folder, units)
        self.addCleanup(self.system.stop)
        self.system.start()
        self.system.make_register(TOKEN)
        make_certificate(self.folder)
        self.system.run("sh", "-c", "echo 1 >/proc/sys/net/ipv6/ip_nonlocal_bind")
        for network in ["2001:db8:0:1", "2001:db8:0:2"]:
            self.system.run("ip", "-6", "route", "add", "local", f"{network}::/64", "dev", "lo")


@needs_systemd
@needs("nginx", "openssl", "curl", "nsenter")
class ByNginx(Begun):
    def setUp(self):
        self.begin(["wgr.service", "wgr-space.service", "wgr-http.socket", "wgr-http.service"])
        (self.folder / "nginx.conf").write_text(f"user www-data; events {{}} http {{ include {DIST}/nginx.conf; }}")
        self.system.run("mkdir", "-p", "/var/lib/nginx", "/var/log/nginx", "/etc/nginx")
        self.system.run("cp", self.folder / "wgr.crt", self.folder / "wgr.key", "/etc/nginx/")
        self.system.run("systemctl", "start", "wgr-http.socket")
        self.system.run("sh", "-c", f"nginx -c {self.folder}/nginx.conf >/dev/null 2>&1")

    def test_connections_of_one_address(self):
        """nginx takes the oldest of those that send nothing from them, and answers others meanwhile; one that it took, too, asks again."""
        self.system.run("systemctl", "start", "wgr")
        with self.hold("127.0.0.1", "127.0.0.2"):
            for _ in range(3):
                self.assertTrue(program.in_time(lambda: self.status(HTTPS, "--interface", "127.0.0.3") == "200", MOST))

    def test_requests_of_one_network(self):
        """128 of one /64, or of one address of IPv4, wait for the service, which is stopped."""
        six, one, other = "2001:db8:0:1::1", [f"2001:db8:0:1::{place + 9:x}" for place in range(134)], "2001:db8:0:2::9"
        for name, host, sources, refused in [
            ("one /64", six, one, 6),
            ("two", six, [*one[:128], other], 0),
            ("one address of IPv4", "127.0.0.1", 134 * ["127.0.0.2"], 6),
            ("many of IPv4", "127.0.0.1", [f"127.0.0.{place + 2}" for place in range(134)], 0),
        ]:
            with self.subTest(name):
                told = self.system.run(sys.executable, "-c", ASK, host, " ".join(sources), refused)
                self.assertEqual(told.stdout, f"{refused}\n")


@needs_systemd
@needs("haproxy", "openssl", "curl", "nsenter")
class ByHAProxy(Begun):
    def setUp(self):
        self.begin(UNITS)
        self.system.run("sh", "-c", f"cat {self.folder}/wgr.crt {self.folder}/wgr.key >/etc/wgr/certificate.pem; cp {DIST}/haproxy.cfg /etc/wgr/")

    def systemctl(self, *words):
        self.system.run("systemctl", *words)

    def begin_request(self, name):
        """It waits at the proxy, or at the socket."""
        words = ["nsenter", "-t", self.system.first, "-a", "curl", "-s", "-m", "5", "-o", "/dev/null", *REQUESTS[name]]
        process = subprocess.Popen(words)
        self.addCleanup(process.wait)
        time.sleep(0.3)

    def stop_all(self):
        self.systemctl("stop", *SOCKETS, *SERVICES, "wgr-space")
        self.system.run("systemctl", "reset-failed", *SERVICES, *SOCKETS, allowed=None)

    def test_orders_of_start(self):
        for name, acts in ORDERS.items():
            with self.subTest(name):
                self.stop_all()
                for act in acts:
                    if act == "all":
                        self.systemctl("start", *SOCKETS, "wgr-haproxy", "wgr")
                    elif isinstance(act, str):
                        self.begin_request(act)
                    else:
                        self.systemctl(*act)
                self.assertEqual([self.status(HTTPS), self.status(HTTP)], ["200", "200"])

    def test_connections_of_one_address(self):
        """3,000 of one address, or of one /64: another address is answered meanwhile, and one of the same /64 isn't."""
        self.systemctl("start", *SOCKETS, "wgr-haproxy", "wgr")
        six = ["-k", "https://[2001:db8:0:1::1]/networks"]
        own = " ".join(f"2001:db8:0:2::{number:x}" for number in range(1, 200))
        for name, host, sources, others, same in [
            ("IPv4", "127.0.0.1", "127.0.0.2", [("127.0.0.3", HTTPS), ("2001:db8:0:1::1", six)], ("127.0.0.2", HTTPS)),
            ("IPv6", "2001:db8:0:1::1", own, [("127.0.0.3", HTTPS), ("2001:db8:0:1::9", six)], ("2001:db8:0:2::ffff", six)),
        ]:
            with self.subTest(name):
                with self.hold(host, sources):
                    for source, words in others:
                        self.assertEqual(self.status(words, "--interface", source), "200", source)
                    self.assertEqual(self.status(same[1], "--interface", same[0]), "000")
                # HAProxy takes a while to see that they have gone.
                self.assertTrue(program.in_time(lambda: self.status(same[1], "--interface", same[0]) == "200"))
