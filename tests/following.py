"""What tests of wgr-net and wgr-sync need: a host with the networks of tenants, and a look at what is asked."""

import ctypes
import itertools
import json
import os
import socket
import socketserver
import subprocess
import tempfile
import threading
import unittest
from concurrent.futures import ThreadPoolExecutor
from contextlib import suppress
from pathlib import Path

import program
from serving import TOKEN, Server, network_add, order, request

TOOLS = ["ip", "wg", "wireguard-go", "nsenter", "bash"]
DIST = Path(__file__).resolve().parent.parent / "dist"
# Seconds in which one of the pings that are sent has to be answered. A handshake that fails is begun again after five.
PING = 30
# No name is used twice, since a wireguard-go that ends removes the socket of its name.
NUMBERS = itertools.count()


def mark():
    """The number of this process, which is in the names of namespaces and interfaces, so that no other is touched."""
    return f"{os.getpid() % 10_000:04}"


def run(*words, text=None, allowed=(0,), environment=None):
    # Where systemd runs the tests, their wgr-sync isn't its own.
    known = {name: value for name, value in os.environ.items() if name != "INVOCATION_ID"} | (environment or {})
    done = subprocess.run(list(map(str, words)), input=text, capture_output=True, text=True, timeout=program.LIMIT, env=known)
    assert allowed is None or done.returncode in allowed, (words, done)
    return done


def inside(space, *words, **more):
    """Runs in a network namespace, with the mounts of the host."""
    return run("nsenter", f"--net=/run/netns/{space}", *words, **more)


def private_key():
    return run("wg", "genkey").stdout.strip()


def public_key(private):
    return run("wg", "pubkey", text=private).stdout.strip()


def listen_inside(space):
    """A socket that listens in a network namespace, into which this thread goes for good."""
    with open(f"/run/netns/{space}") as found:
        if ctypes.CDLL(None, use_errno=True).setns(found.fileno(), 0) != 0:
            raise OSError(ctypes.get_errno(), "setns")
    return socket.create_server(("127.0.0.1", 0))


class Between:
    """A server between wgr-sync and the register, which keeps all that is asked.

    `before` is called with the method and the path of each request. `instead` has replies of its own by the end of a path.
    It listens in a network namespace, or in that of the tests.
    """

    def __init__(self, register, space=None):
        self.register, self.asked, self.instead = register, [], {}
        self.before = lambda method, path: None
        self.server = socketserver.ThreadingTCPServer(("127.0.0.1", 0), self.handler(), bind_and_activate=space is None)
        if space is not None:
            self.server.socket.close()
            with ThreadPoolExecutor(1) as pool:
                self.server.socket = pool.submit(listen_inside, space).result()
            self.server.server_address = self.server.socket.getsockname()
        self.server.daemon_threads = True
        threading.Thread(target=self.server.serve_forever, args=(0.01,), daemon=True).start()
        self.port = self.server.server_address[1]

    def handler(between):
        class Handler(socketserver.StreamRequestHandler):
            def handle(self):
                head = line = self.rfile.readline()
                while line not in [b"\r\n", b""]:
                    line = self.rfile.readline()
                    head += line
                lengths = [int(line.split(b":")[1]) for line in head.split(b"\r\n") if line.lower().startswith(b"content-length:")]
                message = head + self.rfile.read(sum(lengths))
                between.asked.append(message)
                method, path, _ = head.decode().split(" ", 2)
                between.before(method, path)
                # Without a register, or a client that waits, there is no reply.
                with suppress(OSError):
                    between.answer(message, path.rpartition("/")[2], self.connection)

        return Handler

    def answer(self, message, end, link):
        own = self.instead.get(end)
        link.sendall(self.register.send(message) if own is None else own)

    def stop(self):
        self.server.shutdown()
        self.server.server_close()


class Network:
    """A network of a register, with its namespace on a host and the folder of wgr-sync."""

    def __init__(self, test, host, letter, port):
        self.host, self.name = host, f"wgr{letter}{mark()}{next(NUMBERS)}"
        self.folder = Path(test.enterContext(tempfile.TemporaryDirectory()))
        self.private = private_key()
        self.public = public_key(self.private)
        self.write("url", f"http://127.0.0.1:{port}/networks/office")
        self.write("token", TOKEN)
        self.write("key", self.private)
        test.addCleanup(self.net, "down")

    def write(self, name, text):
        (self.folder / name).write_text(f"{text}\n")

    def net(self, word, **more):
        return inside(self.host, DIST / "wgr-net", word, self.name, **more)

    def sync(self, **more):
        """One round of wgr-sync."""
        return run(DIST / "wgr-sync", self.name, self.folder, **more)

    def kept(self):
        """What rounds have kept, but for how many of them failed."""
        return {path.name: path.read_text() for path in (self.folder / "state").iterdir() if path.name != "failures"}

    def peers(self):
        """The public keys of the interface's peers."""
        return set(inside(self.name, "wg", "show", self.name, "peers").stdout.split())

    def state_of_interface(self):
        """The interface's keys, peers, addresses and routes."""
        told = [inside(self.name, "wg", "showconf", self.name).stdout]
        for what in ["address", "route", "-6 route"]:
            told.append(run("ip", "-n", self.name, *what.split()[:-1], what.split()[-1], "show", "dev", self.name).stdout)
        return told

    def reaches(self, address):
        """Whether one of some pings is answered, in the time of a second handshake and more."""
        return inside(self.name, "ping", "-c", "1", "-w", PING, address, allowed=None).returncode == 0


class OfHosts(unittest.TestCase):
    """Tests with namespaces that end with the test."""

    def space(self, name):
        """A network namespace of this test, by its full name."""
        space = f"wgr-{name}{mark()}"
        run("ip", "netns", "add", space)
        self.addCleanup(run, "ip", "netns", "delete", space)
        run("ip", "-n", space, "link", "set", "lo", "up")
        return space

    def serve(self, database):
        return self.enterContext(Server(database))


class OneNetwork(OfHosts):
    """Tests of one network, whose rounds ask through `self.between`."""

    pool = "10.8.0.0/24"

    def setUp(self):
        self.folder = Path(self.enterContext(tempfile.TemporaryDirectory()))
        self.database = str(self.folder / "register.db")
        order("init", self.database)
        order("tenant-add", self.database, "acme")
        order("token-grant", self.database, "acme", token=TOKEN)
        host = self.space("host")
        self.net = Network(self, host, "a", 0)
        network_add(self.database, "acme", "office", self.pool, server=self.net.public)
        self.register = self.serve(self.database)
        self.between = Between(self.register)
        self.addCleanup(self.between.stop)
        self.net.write("url", f"http://127.0.0.1:{self.between.port}/networks/office")
        self.net.net("up")

    def ask(self, method, path, body=None):
        """The JSON of the register's reply, which isn't asked through `self.between`."""
        reply = self.register.send(request(method, f"/networks/office/{path}", body))
        self.assertTrue(reply.startswith(b"HTTP/1.1 200 "), reply)
        return json.loads(reply.partition(b"\r\n\r\n")[2])

    def stop_register(self):
        self.net.write("url", f"http://127.0.0.1:{self.register.port}/networks/office")
        self.register.__exit__()

    def add(self, **members):
        """A new peer: its number and its public key."""
        key = public_key(private_key())
        return self.ask("POST", "peers", {"key": key, **members})["number"], key

    def registered(self):
        return {peer["key"] for peer in self.ask("GET", "peers")["peers"]}

    def revoke_before_the_report(self, number):
        """Lets the peer be revoked in the next round, once the server's file was fetched."""

        def revoke(method, path):
            if path.endswith("/dump"):
                self.between.before = lambda method, path: None
                self.ask("DELETE", f"peers/{number}")

        self.between.before = revoke
