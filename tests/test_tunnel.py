"""A real tunnel: wireguard-go, wg and wg-quick in two network namespaces, by the register's files."""

import itertools
import json
import math
import os
import re
import subprocess
import tempfile
import time
import unittest
from pathlib import Path

from serving import TOKEN, Server, order
from tools import needs

PAGE = Path(__file__).resolve().parent.parent / "docs/OPERATIONS.md"
NUMBERS = itertools.count()


def shell(command, text=None, allowed=(0,)):
    done = subprocess.run(
        ["bash", "-c", command], input=text, capture_output=True, text=True, timeout=60
    )
    assert done.returncode in allowed, (command, done)
    return done.stdout


class Host:
    """A network namespace with one end of a cable."""

    def __init__(self, name):
        # The names have the number of this process, so that no other's are touched, and none comes again.
        mark = f"{os.getpid() % 10_000:04}"
        self.space, self.tunnel = f"wgr-{name}{mark}", f"wgr{name}{mark}-{next(NUMBERS)}"
        self.private = shell("wg genkey").strip()
        self.public = shell("wg pubkey", self.private).strip()

    def run(self, command, allowed=(0,)):
        quick = "WG_QUICK_USERSPACE_IMPLEMENTATION=wireguard-go"
        return shell(f"ip netns exec {self.space} env {quick} {command}", allowed=allowed)

    def reaches(self, address, seconds=30):
        """Whether one of some pings is answered in time; a handshake that fails is begun again after five seconds.

        An error of the network ends a `ping` at once, so another one follows."""
        end = time.monotonic() + seconds
        while (left := end - time.monotonic()) > 0:
            ping = ["ping", "-c", "1", "-w", str(math.ceil(left)), address]
            if subprocess.run(["ip", "netns", "exec", self.space, *ping], capture_output=True).returncode == 0:
                return True
            time.sleep(0.2)
        return False

    def with_private_key(self, file):
        return file.replace("[Interface]\n", f"[Interface]\nPrivateKey = {self.private}\n", 1)


needs_tunnels = needs("ip", "wg", "wg-quick", "wireguard-go", "ping", root=True)


class Hosts:
    """Two hosts with a cable between them, for a class of tests that has a folder."""

    def make_hosts(self):
        self.server, self.client = Host("a"), Host("b")
        for host in [self.server, self.client]:
            shell(f"ip netns add {host.space}")
            self.addCleanup(shell, f"ip netns del {host.space}")
            host.run("ip link set lo up")
            self.addCleanup(self.end, host)
        shell(
            f"ip link add eth0 netns {self.server.space} type veth peer name eth0 netns {self.client.space}"
        )
        for host, last in [(self.server, 1), (self.client, 2)]:
            host.run(f"ip address add 192.0.2.{last}/24 dev eth0")
            host.run(f"ip address add 2001:db8::{last}/64 dev eth0 nodad")
            host.run("ip link set eth0 up")

    def end(self, host):
        """Ends the interface, and with it the wireguard-go that serves it."""
        host.run(f"ip link delete {host.tunnel}", allowed=(0, 1))

    def write(self, name, text):
        file = self.folder / name
        file.write_text(text)
        file.chmod(0o600)
        return file


@needs_tunnels
@needs("curl")
class Tunnel(Hosts, unittest.TestCase):
    def setUp(self):
        self.folder = Path(self.enterContext(tempfile.TemporaryDirectory()))
        self.make_hosts()

    def register(self, name, pool, host):
        database = str(self.folder / name)
        order("init", database)
        order("tenant-add", database, "acme")
        order("token-grant", database, "acme", token=TOKEN)
        order(
            *["network-add", database, "acme", "office", "--pool", pool, "--host", host],
            *["--port", "51820", "--key", self.server.public, "--capacity", "16"],
        )
        return database

    def curl(self, serving, path, *words):
        url = f"http://127.0.0.1:{serving.port}/networks/office/{path}"
        told = subprocess.run(
            ["curl", "-sS", "--fail-with-body", "-H", f"Authorization: Bearer {TOKEN}", *words, url],
            capture_output=True,
            text=True,
            timeout=60,
        )
        self.assertEqual(told.returncode, 0, told)
        return told.stdout

    def start_client(self, serving, address, pool):
        """The client's interface, by `wg setconf`."""
        file = self.write("client.conf", self.client.with_private_key(self.curl(serving, "peers/1/file/wg")))
        self.client.run(f"wireguard-go {self.client.tunnel}")
        self.client.run(f"wg setconf {self.client.tunnel} {file}")
        self.client.run(f"ip address add {address} dev {self.client.tunnel}")
        self.client.run(f"ip link set {self.client.tunnel} up")
        self.client.run(f"ip route add {pool} dev {self.client.tunnel}")

    def server_file(self, serving):
        text = self.server.with_private_key(self.curl(serving, "server/quick"))
        return self.write(f"{self.server.tunnel}.conf", text)

    def sync_server(self, serving):
        """The running server takes the register's file, as docs/OPERATIONS.md says."""
        file = self.server_file(serving)
        stripped = self.write("stripped.conf", shell(f"wg-quick strip {file}"))
        self.server.run(f"wg syncconf {self.server.tunnel} {stripped}")

    def ping_through(self, pool, host, server, client, route, routed):
        with Server(self.register("reg.db", pool, host)) as serving:
            key = json.dumps({"key": self.client.public, "keepalive": 1})
            made = json.loads(self.curl(serving, "peers", "-d", key))
            self.assertEqual(made["address"].split("/")[0], client)
            self.server.run(f"wg-quick up {self.server_file(serving)}")
            self.start_client(serving, made["address"], pool)
            self.assertTrue(self.client.reaches(server))
            self.assertTrue(self.server.reaches(client))

            self.curl(serving, "peers/1/routes", "-d", json.dumps({"prefix": route}))
            self.sync_server(serving)
            self.server.run(f"ip route add {route} dev {self.server.tunnel}")
            self.client.run(f"ip address add {routed} dev lo")
            self.assertTrue(self.server.reaches(routed))

            self.adopt(pool, host, json.loads(self.curl(serving, "peers")))

            self.curl(serving, "peers/1", "-X", "DELETE")
            self.sync_server(serving)
            self.assertFalse(self.client.reaches(server, seconds=2))

    def adopt(self, pool, host, listed):
        """The running interface's dump makes the same peers in a register of its own."""
        # Without the private keys, as docs/OPERATIONS.md says.
        program = re.search(r"wg show wg0 dump \| (awk '[^']+')", PAGE.read_text())[1]
        text = shell(program, self.server.run(f"wg show {self.server.tunnel} dump"))
        self.assertNotIn(self.server.private, text)
        dump = self.write("dump", text)
        with Server(self.register("adopted.db", pool, host)) as serving:
            self.assertEqual(
                json.loads(self.curl(serving, "dump", "--data-binary", f"@{dump}")),
                {"added": [1], "known": 0},
            )
            taken = json.loads(self.curl(serving, "peers"))
            for one, other in zip(listed["peers"], taken["peers"], strict=True):
                for member in ["key", "address", "routes", "keepalive"]:
                    # The server's side has the keepalive that its file has.
                    self.assertEqual(one[member], other[member])
                self.assertGreater(other["status"]["handshake"], 1_600_000_000)

    def test_ipv4(self):
        self.ping_through(
            "10.8.0.0/24", "192.0.2.1", "10.8.0.1", "10.8.0.2", "192.168.77.0/24", "192.168.77.1"
        )

    def test_ipv6(self):
        self.ping_through(
            "fd00:8::/64", "2001:db8::1", "fd00:8::1", "fd00:8::2", "fd00:77::/64", "fd00:77::1"
        )
