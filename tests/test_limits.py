"""Slow clients of a service: a message has ten seconds to come, and its reply ten to be taken; an order has five each.

Each case waits for seconds. So each has a register and a service of its own, and they run side by side.
"""

import os
import re
import socket
import tempfile
import time
import unittest
from concurrent.futures import ThreadPoolExecutor
from contextlib import suppress
from pathlib import Path

import program
from program import Left, in_time
from register_file import network_row, pool_of, put
from sending import connect, shown
from serving import LIST, NOBODY, PEERS, TOKEN, Server, make_register, read_all, request, unsent

# Seconds that a message or a reply may take, and an order or its answer. A busy machine may add as many to them.
MOST, ORDER_MOST = 10, 5
HEAD = f"GET {PEERS} HTTP/1.1\r\nAuthorization: Bearer {TOKEN}\r\n".encode()
BODY = f"POST {PEERS} HTTP/1.1\r\nAuthorization: Bearer {TOKEN}\r\nContent-Length: 100\r\n\r\n".encode()
# How many networks there are, of which a list is longer than a megabyte.
NETWORKS = 8_000


def send_slowly(link, text):
    """A byte a second, until the service has ended the connection."""
    with suppress(OSError):
        for byte in text:
            time.sleep(1)
            link.sendall(bytes([byte]))


# What a client sends at once before a request's message is whole, or an order's, and what it sends a byte a second from then on.
STALLS = [
    ("sends half a head", HEAD[:-9], b""),
    ("sends half a body", BODY + 30 * b" ", b""),
    ("sends a byte a second", HEAD[:1], HEAD[1:]),
]
ORDER_STALLS = [("sends no order", b"", b""), ("sends half an order", b"tenant-add", b""), ("sends an order's byte a second", HEAD[:1], HEAD[1:])]


def rest_of(link):
    """What the service has sent; a connection that it has reset has nothing more."""
    whole = b""
    with suppress(OSError):
        while part := link.recv(65_536):
            whole += part
    return whole


class Slow(unittest.TestCase):
    def setUp(self):
        self.folder = Path(self.enterContext(tempfile.TemporaryDirectory()))

    def serve(self, name, count, networks=0):
        """A service over a register of its own."""
        own = self.folder / name.replace(" ", "_")
        own.mkdir()
        database = make_register(own)
        if networks:
            put(database, "network", [network_row(row, 1, f"n{row}", pool_of(10_000 + row)[0], "h", row) for row in range(2, networks)])
        server = Server(database, count=count, orders=own / "orders")
        server.socket = own / "orders"
        return server

    def figures(self, server):
        """How many connections failed, and how many of them were late."""
        text = shown(server.socket, "status").decode()
        return tuple(int(re.search(rf"^wgr_service_{name}_connections_total (\d+)$", text, re.MULTILINE)[1]) for name in ["failed", "late"])

    def files(self, server):
        return len(os.listdir(f"/proc/{server.process.pid}/fd"))

    def has_files(self, server, count):
        """Whether the service comes to have so many open files."""
        return in_time(lambda: self.files(server) == count)

    def side_by_side(self, cases, run):
        with ThreadPoolExecutor(len(cases)) as pool:
            return list(zip(cases, pool.map(run, cases), strict=True))


class Stalls(Slow):
    """A client that stalls is ended by the limit, and counted; then the next one is answered."""

    def stall(self, case, join, count):
        """What the next client is answered, after how many seconds; what is left and open then."""
        name, first, later = case
        with self.serve(name, count) as server, ThreadPoolExecutor(1) as pool:
            open_files = self.files(server)
            begin = time.monotonic()
            with join(server) as link:
                link.sendall(first)
                self.is_taken(server, link, open_files)
                pool.submit(send_slowly, link, later)
                reply = server.send(LIST)
                seconds = time.monotonic() - begin
                answer = rest_of(link)
            figures = self.figures(server)
            closed = self.has_files(server, open_files)
            self.assertEqual(server.send(LIST), NOBODY)
            return reply, seconds, answer, figures, closed, server.ended()

    def is_taken(self, server, link, open_files):
        """Waits until the service has accepted the client and read what it has sent."""
        self.assertTrue(in_time(lambda: self.files(server) > open_files))
        if link.family == socket.AF_UNIX:
            self.assertTrue(in_time(lambda: unsent(link) == 0))
        else:
            server.has_read(link)

    def check(self, seen, most, line):
        for (name, *_), (reply, seconds, answer, figures, closed, left) in seen:
            with self.subTest(name):
                self.assertEqual((reply, answer, figures, closed), (NOBODY, b"", (1, 1), True))
                self.assertTrue(most - 0.1 < seconds < 2 * most, seconds)
                self.assertEqual(left, Left(0, b"", line))

    def test_requests(self):
        self.check(self.side_by_side(STALLS, lambda case: self.stall(case, Server.connect, 3)), MOST, b"wgr: connection\n")

    def test_orders(self):
        join = lambda server: connect(server.socket)
        self.check(self.side_by_side(ORDER_STALLS, lambda case: self.stall(case, join, 2)), ORDER_MOST, b"wgr: order\n")

    def test_one_that_sends_nothing(self):
        """It waits aside and holds up nobody, and is ended once its time is over."""
        with self.serve("sends nothing", 3) as server:
            open_files = self.files(server)
            begin = time.monotonic()
            with server.connect() as link:
                self.is_taken(server, link, open_files)
                self.assertEqual(server.send(LIST), NOBODY)
                self.assertLess(time.monotonic() - begin, MOST - 1)
                self.assertEqual(rest_of(link), b"")
                seconds = time.monotonic() - begin
            self.assertTrue(MOST - 0.1 < seconds < 2 * MOST, seconds)
            self.assertEqual(self.figures(server), (1, 1))
            self.assertTrue(self.has_files(server, open_files))
            self.assertEqual(server.send(LIST), NOBODY)
            self.assertEqual(server.ended(), Left(0, b"", b"wgr: connection\n"))


def narrow(server):
    """A connection of which hardly anything is on the way at once: small segments keep the service's own buffer small."""
    link = socket.socket()
    link.setsockopt(socket.SOL_SOCKET, socket.SO_RCVBUF, 4_096)
    link.setsockopt(socket.IPPROTO_TCP, socket.TCP_MAXSEG, 536)
    link.settimeout(program.LIMIT)
    link.connect((server.host, server.port))
    return link


class Replies(Slow):
    """A reply of a megabyte."""

    def listed(self, server):
        """The list of networks, and the seconds that it takes to make."""
        begin = time.monotonic()
        return server.send(request("GET", "/networks")), time.monotonic() - begin

    def test_one_that_takes_nothing(self):
        with self.serve("takes nothing", 4, NETWORKS) as server:
            open_files = self.files(server)
            whole, making = self.listed(server)
            self.assertGreater(len(whole), 1_000_000)
            with narrow(server) as link:
                begin = time.monotonic()
                link.sendall(request("GET", "/networks"))
                server.has_read(link)
                self.assertEqual(server.send(LIST), NOBODY)
                seconds = time.monotonic() - begin
                part = rest_of(link)
            self.assertEqual(self.figures(server), (1, 1))
            self.assertTrue(self.has_files(server, open_files))
            server.send(LIST)
            self.assertEqual(server.ended(), Left(0, b"", b"wgr: connection\n"))
        self.assertTrue(MOST - 0.1 < seconds < 2 * MOST + 3 * making, (seconds, making))
        self.assertTrue(len(part) < len(whole) and whole.startswith(part))

    def test_one_that_takes_it_a_little_at_a_time(self):
        """It takes some of it all the time, but not all of it in ten seconds."""
        with self.serve("takes little", 4, NETWORKS) as server, ThreadPoolExecutor(1) as pool:
            making = self.listed(server)[1]
            with narrow(server) as link:
                begin = time.monotonic()
                link.sendall(request("GET", "/networks"))
                server.has_read(link)
                waits = pool.submit(server.send, LIST)
                taken = 0
                # The service may have ended it before the next one is answered.
                with suppress(OSError):
                    while not waits.done():
                        taken += len(link.recv(1_024))
                        time.sleep(0.1)
                self.assertEqual(waits.result(), NOBODY)
                seconds = time.monotonic() - begin
            self.assertEqual(self.figures(server), (1, 1))
            server.send(LIST)
            self.assertEqual(server.ended(), Left(0, b"", b"wgr: connection\n"))
        self.assertGreater(taken, 10_000)
        self.assertTrue(MOST - 0.1 < seconds < 2 * MOST + 3 * making, (seconds, making))


def pauses(link):
    """A client whose message comes in pieces within its time, with three seconds between two."""
    for piece in [HEAD[:4], HEAD[4:30]]:
        link.sendall(piece)
        time.sleep(3)
    link.sendall(HEAD[30:] + b"\r\n")
    return read_all(link)


class Good(Slow):
    """A client that is slow, but within its time, is answered, and isn't counted as late."""

    def test_one_that_pauses(self):
        with self.serve("pauses", 2) as server:
            with server.connect() as link:
                self.assertEqual(pauses(link), NOBODY)
            self.assertEqual(self.figures(server), (0, 0))
            server.send(LIST)
            self.assertEqual(server.ended(), Left(0))

    def test_one_that_takes_its_reply_late(self):
        with self.serve("takes late", 3, NETWORKS) as server:
            whole = server.send(request("GET", "/networks"))
            with narrow(server) as link:
                link.sendall(request("GET", "/networks"))
                time.sleep(4)
                self.assertEqual(read_all(link), whole)
            self.assertEqual(self.figures(server), (0, 0))
            server.send(LIST)
            self.assertEqual(server.ended(), Left(0))

    def test_one_that_sends_on_behind_its_message(self):
        """After its reply it holds up the next one for no more than a second, and not until its time is over."""
        with self.serve("sends on", 2) as server, server.connect() as link:
            link.sendall(LIST)
            self.assertEqual(link.recv(65_536), NOBODY)
            begin = time.monotonic()
            with ThreadPoolExecutor(1) as pool:
                waits = pool.submit(server.send, LIST)
                with suppress(OSError):
                    while not waits.done():
                        link.sendall(b"x")
                        time.sleep(0.05)
                self.assertEqual(waits.result(), NOBODY)
            self.assertLess(time.monotonic() - begin, MOST / 2)
            self.assertEqual(server.ended(), Left(0))
