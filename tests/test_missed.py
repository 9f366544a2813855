"""Connections that a service can't serve, of requests and of orders: what is told of each, and which of them count."""

import os
import resource
from contextlib import suppress
from pathlib import Path

from faulty import EARLY, FAILS, Faulty, needs_faults
from program import Left, in_time
from register_file import ACME, BOLT, DONE
from sending import Sending, connect, line, send
from serving import done, read_all, request

LISTED = request("GET", "/networks")
NOTHING = done({"networks": []})


class Missed(Sending):
    def setUp(self):
        super().setUp()
        self.init(ACME)
        self.grant("acme")

    def leave(self, server, more):
        """Leaves the service so many more files that it may open; with none given, as many as before."""
        process = server.process.pid
        numbers = {int(name) for name in os.listdir(f"/proc/{process}/fd")}
        free = [number for number in range(max(numbers) + 2 + (more or 0)) if number not in numbers]
        most = self.files if more is None else free[more]
        resource.prlimit(process, resource.RLIMIT_NOFILE, (most, self.files))

    def start(self):
        server = self.serve(count=1)
        self.files = resource.prlimit(server.process.pid, resource.RLIMIT_NOFILE)[1]
        return server

    def answer(self, link):
        try:
            return read_all(link)
        except ConnectionResetError:
            return b""


class Descriptors(Missed):
    """A service that may open no more files."""

    def test_an_order_without_a_second_handle(self):
        """It is told as an order's, and isn't counted."""
        server = self.start()
        self.leave(server, 1)
        for _ in range(3):
            with connect(self.socket) as link:
                with suppress(BrokenPipeError):
                    link.sendall(line(BOLT))
                self.assertEqual(self.answer(link), b"")
        self.leave(server, None)
        self.assertEqual(send(self.socket, BOLT), DONE)
        self.assertEqual(server.send(LISTED), NOTHING)
        self.assertEqual(server.ended(), Left(0, b"", 3 * b"wgr: order\n"))

    def test_an_order_that_is_not_accepted(self):
        """It is told as an order's after some tries; it waits, and is done once there are files."""
        server = self.start()
        self.leave(server, 0)
        with connect(self.socket) as link:
            link.sendall(line(BOLT))
            self.assertEqual(server.logged(), b"wgr: order\n")
            self.leave(server, None)
            self.assertEqual(read_all(link), b"0 done\n")
        self.assertEqual(server.send(LISTED), NOTHING)
        # Where the machine is slow, it may have been told once more before there were files.
        left = server.ended()
        self.assertEqual(left, Left(0, b"", left.err.count(b"\n") * b"wgr: order\n"))

    def test_a_request_without_a_second_handle(self):
        """It is told as a connection, and counts."""
        server = self.start()
        self.leave(server, 1)
        with server.connect() as link:
            link.sendall(LISTED)
            self.assertEqual(self.answer(link), b"")
        self.assertEqual(server.ended(), Left(0, b"", b"wgr: connection\n"))

    def test_a_request_that_is_not_accepted(self):
        """It is told as a connection, and counts."""
        server = self.start()
        self.leave(server, 0)
        with server.connect() as link:
            link.sendall(LISTED)
            self.assertEqual(self.answer(link), b"")
        self.assertEqual(server.ended(), Left(0, b"", b"wgr: connection\n"))


@needs_faults()
class Faults(Missed):
    """A clock that gives no moment, and memory that is refused."""

    def start_faulty(self):
        self.faulty = self.enterContext(Faulty())
        return self.enterContext(self.faulty.serve(self.db, count=1, orders=self.socket))

    def test_an_order_without_a_clock(self):
        """It has no limit of time, so it isn't served; it is told as an order's, and isn't counted."""
        server = self.start_faulty()
        for clock in [FAILS, EARLY]:
            self.faulty.arm(clock=clock)
            with self.subTest(clock), connect(self.socket) as link:
                # It is ended before its line is sent, or behind it.
                with suppress(BrokenPipeError):
                    link.sendall(line(BOLT))
                self.assertEqual(self.answer(link), b"")
        self.faulty.disarm()
        self.assertEqual(send(self.socket, BOLT), DONE)
        self.assertEqual(server.send(LISTED), NOTHING)
        self.assertEqual(server.ended(), Left(0, b"", 2 * b"wgr: order\n"))

    def test_a_line_without_memory(self):
        """Where memory is refused as a line is read, it is answered `no_memory` and told as unavailable."""
        server = self.start_faulty()
        files = len(os.listdir(f"/proc/{server.process.pid}/fd"))
        with connect(self.socket) as link:
            # The service has accepted it, and waits for the line.
            self.assertTrue(in_time(lambda: len(os.listdir(f"/proc/{server.process.pid}/fd")) == files + 2))
            self.assertTrue(in_time(lambda: Path(f"/proc/{server.process.pid}/stat").read_text().rpartition(") ")[2][0] == "S"))
            self.faulty.arm(growth=0)
            link.sendall(line(BOLT))
            self.assertEqual(self.answer(link), b"1 no_memory\n")
            self.assertEqual(self.faulty.refused, 1)
        self.faulty.disarm()
        self.assertEqual(send(self.socket, BOLT), DONE)
        self.assertEqual(server.send(LISTED), NOTHING)
        self.assertEqual(server.ended(), Left(0, b"", b"wgr: unavailable\n"))
