"""The socket at which a service takes orders: who may have the path, who may connect, clients that stall, and stops."""

import os
import shutil
import signal
import socket
import stat
import time
import unittest
from concurrent.futures import ThreadPoolExecutor
from contextlib import suppress
from pathlib import Path

import program
from program import Left, run
from register_file import DIGEST, DONE, OFFICE, failed
from sending import Sending, command, connect, line, send, tell
from serving import PEERS, Server, done, free_port, key, peer, read_all, request
from serving import refused as refused_request

BOLT = ("tenant-add", "bolt")
LISTED, NOTHING = request("GET", "/networks"), done({"networks": []})
# The seconds that a client of the socket has, and those after which the next one should long be served: no limit is as long.
PATIENCE, LATE = 5, 9.5


class At(Sending):
    """The path of the socket."""

    def setUp(self):
        super().setUp()
        self.init(("tenant-add", "acme"))
        self.grant("acme")

    def refuses(self, path, database=None):
        words = ["serve", database or self.db, f"127.0.0.1:{free_port()}", "--count", "0", "--orders", path]
        self.assertEqual(run(words), failed("device"))

    def test_its_mode(self):
        for mask in [0, 0o022, 0o077, 0o277]:
            with self.subTest(f"umask {mask:o}"):
                before = os.umask(mask)
                try:
                    server = self.serve()
                finally:
                    os.umask(before)
                found = os.lstat(self.socket)
                self.assertEqual((stat.S_ISSOCK(found.st_mode), stat.S_IMODE(found.st_mode), found.st_uid), (True, 0o600, os.geteuid()))
                self.assertEqual(tell(self.socket, b"tenant-add acme\n"), b"2 name_held\n")
                server.__exit__()

    @unittest.skipUnless(os.geteuid() == 0, "another user can be taken by root alone")
    def test_another_user(self):
        self.serve()
        tool = self.path("wgr")
        shutil.copy(program.path, tool)
        for path in [self.folder, tool]:
            os.chmod(path, 0o755)

        def become_nobody():
            os.setgroups([])
            os.setgid(65534)
            os.setuid(65534)

        left = run(["send", self.socket, *BOLT], prepare=become_nobody)
        self.assertEqual(left, failed("device"))
        self.assertEqual(send(self.socket, BOLT), DONE)

    def test_no_port_makes_a_client_the_operator(self):
        """An order's line that comes to the address is a malformed request, from a port of each range and from known ones."""
        ports = [*range(1_000, 65_536, 257), 22, 53, 80, 443, 8080, 31_337, 51_820]
        server, asked = self.serve(), 0
        for port in ports:
            with socket.socket() as link, suppress(OSError):
                link.setsockopt(socket.SOL_SOCKET, socket.SO_REUSEADDR, 1)
                # It may be held, or be for root alone.
                link.bind((server.host, port))
                link.settimeout(program.LIMIT)
                link.connect((server.host, server.port))
                link.sendall(line(BOLT))
                with self.subTest(port=port):
                    self.assertEqual(read_all(link), refused_request(400, "bad_head"))
                    asked += 1
        self.assertGreater(asked, len(ports) * 3 // 4)
        server.__exit__()
        self.assertEqual(self.query("SELECT name FROM tenant"), [("acme",)])

    def test_what_is_no_socket_is_kept(self):
        file, folder = Path(self.path("file")), Path(self.path("folder"))
        file.write_bytes(b"text")
        Path(self.path("empty")).touch()
        folder.mkdir()
        os.mkfifo(self.path("pipe"))
        with socket.socket(socket.AF_UNIX) as left:
            left.bind(self.path("left"))
        for name, target in [("to a file", file), ("to a folder", folder), ("to nothing", self.path("none")), ("to a socket", self.path("left"))]:
            os.symlink(target, self.path(name))
        for name in ["file", "empty", "folder", "pipe", "to a file", "to a folder", "to nothing", "to a socket"]:
            with self.subTest(name):
                path = self.path(name)
                before = os.lstat(path)
                self.refuses(path)
                after = os.lstat(path)
                self.assertEqual((after.st_ino, after.st_mode, after.st_mtime_ns), (before.st_ino, before.st_mode, before.st_mtime_ns))
        self.assertEqual((file.read_bytes(), list(folder.iterdir())), (b"text", []))
        self.assertFalse(os.path.lexists(self.path("none")))
        with self.subTest("the register itself"):
            rows = self.rows()
            self.refuses(self.db)
            self.assertEqual(self.rows(), rows)

    def test_paths_that_cannot_be_bound(self):
        for name, path in [("in no folder", self.path("none/orders")), ("in a file", f"{self.db}/orders"), ("too long", self.path(200 * "x")), ("none", "")]:
            with self.subTest(name):
                self.refuses(path)

    def test_a_path_where_another_service_listens(self):
        other = self.path("other.db")
        shutil.copy(self.db, other)
        server = self.serve()
        before = os.lstat(self.socket).st_ino
        with self.subTest("it waits"):
            self.refuses(self.socket, other)
            self.assertEqual(send(self.socket, BOLT), DONE)
        with self.subTest("it is stopped"):
            server.process.send_signal(signal.SIGSTOP)
            self.refuses(self.socket, other)
            server.process.send_signal(signal.SIGCONT)
            self.assertEqual(send(self.socket, ("token-grant", "bolt", "new")), DONE)
        with self.subTest("another program's"):
            path = self.path("theirs")
            with socket.socket(socket.AF_UNIX) as theirs:
                theirs.bind(path)
                theirs.listen()
                self.refuses(path, other)
                self.assertTrue(os.path.exists(path))
        self.assertEqual(os.lstat(self.socket).st_ino, before)
        self.assertEqual(server.send(request("GET", "/networks", token="new")), NOTHING)
        self.assertEqual(self.query("SELECT name FROM tenant", other), [("acme",)])

    def test_a_socket_that_is_left_is_taken_over(self):
        for signal_number in [signal.SIGKILL, signal.SIGTERM]:
            with self.subTest(signal_number.name):
                server = self.serve()
                server.process.send_signal(signal_number)
                server.process.wait(program.LIMIT)
                if signal_number == signal.SIGKILL:
                    self.assertTrue(stat.S_ISSOCK(os.lstat(self.socket).st_mode))
                again = self.serve()
                self.assertEqual(tell(self.socket, b"tenant-add acme\n"), b"2 name_held\n")
                again.__exit__()
        with self.subTest("one that ended by itself"):
            self.assertEqual(self.serve(count=0).ended(), Left(0))
            self.serve()
            self.assertEqual(send(self.socket, BOLT), DONE)
        with self.subTest("with another mode"):
            path = self.path("left")
            with socket.socket(socket.AF_UNIX) as left:
                left.bind(path)
            os.chmod(path, 0o777)
            database = self.path("other.db")
            shutil.copy(self.db, database)
            self.serve(database, orders=path)
            self.assertEqual(stat.S_IMODE(os.lstat(path).st_mode), 0o600)

    def test_a_service_without_a_socket(self):
        self.serve(orders=None)
        self.assertEqual(send(self.socket, BOLT), failed("device"))
        self.assertFalse(os.path.lexists(self.socket))

    def test_the_register_and_the_address_come_first(self):
        """Where they fail, no socket is made, and one that is left stays."""
        with socket.socket(socket.AF_UNIX) as left:
            left.bind(self.path("left"))
        with socket.socket() as used:
            used.bind(("127.0.0.1", 0))
            used.listen()
            place = f"127.0.0.1:{used.getsockname()[1]}"
            rows = [(self.path("none.db"), place, "not_a_register"), (self.path("none.db"), f"127.0.0.1:{free_port()}", "not_a_register"), (self.db, place, "device")]
            for path in [self.socket, self.path("left")]:
                for database, place, why in rows:
                    with self.subTest(path=path, why=why):
                        there = os.path.lexists(path) and os.lstat(path).st_ino
                        self.assertEqual(run(["serve", database, place, "--count", "0", "--orders", path]), failed(why))
                        self.assertEqual(os.path.lexists(path) and os.lstat(path).st_ino, there)

    def test_words_that_do_not_read(self):
        """A field that is ill-formed is told before anything is made."""
        left = run(["serve", self.db, "127.0.0.1", "--count", "0", "--orders", self.socket])
        self.assertEqual(left, Left(2, b"", b"wgr: bad_field host:port\n"))
        self.assertFalse(os.path.lexists(self.socket))


def send_slowly(link, text):
    """A byte a second, until the service has ended the connection."""
    with suppress(OSError):
        for byte in text:
            time.sleep(1)
            link.sendall(bytes([byte]))


# What a client sends at once, and what a byte a second from then on. Each stands before a request that waits.
STALLS = [("sends nothing", b"", b""), ("sends a byte a second", b"t", b"enant-add stalled\n"), ("sends no newline", b"tenant-add stalled", b"")]


class Stalls(Sending):
    """A client of the socket that stalls holds up the others for five seconds. The cases run side by side."""

    def setUp(self):
        super().setUp()
        self.init(("tenant-add", "acme"))
        self.grant("acme")

    def register(self, name):
        database = self.path(f"{name}.db")
        shutil.copy(self.db, database)
        return database

    def stall(self, name, first, later):
        """What the next request is answered, after how many seconds; what is left, and the tenants then."""
        database, path = self.register(name), self.path(name)
        server = Server(database, count=1, orders=path)
        with server, ThreadPoolExecutor(1) as pool:
            begin = time.monotonic()
            # Orders that wait come before requests, so the service takes this client first.
            with connect(path) as link:
                link.sendall(first)
                pool.submit(send_slowly, link, later)
                reply = server.send(LISTED)
                seconds = time.monotonic() - begin
                left = server.ended()
                answer = self.rest_of(link)
        return reply, seconds, left, answer, self.query("SELECT name FROM tenant", database)

    def rest_of(self, link):
        try:
            return read_all(link)
        except OSError:
            return b""

    def test_clients_that_stall(self):
        with ThreadPoolExecutor(len(STALLS)) as pool:
            seen = list(pool.map(lambda row: self.stall(*row), STALLS))
        for (name, *_), (reply, seconds, left, answer, tenants) in zip(STALLS, seen, strict=True):
            with self.subTest(name):
                self.assertEqual((reply, left), (NOTHING, Left(0, b"", b"wgr: order\n")))
                self.assertTrue(PATIENCE - 0.5 < seconds < LATE, seconds)
                self.assertEqual((answer, tenants), (b"", [("acme",)]))

    def test_one_that_takes_its_time(self):
        """Within its five seconds it is answered, and holds up nobody longer."""
        server, late = self.serve(count=1), 0
        # On a busy machine it may have taken more time than that: then it tries again.
        while (tried := self.take_three_seconds()) == (b"", True) and late < 9:
            late += 1
        self.assertEqual(tried[0], b"0 done\n")
        self.assertEqual(server.send(LISTED), NOTHING)
        self.assertEqual(server.ended(), Left(0, b"", late * b"wgr: order\n"))

    def take_three_seconds(self):
        """What is answered to an order whose client rests for three seconds, and whether these were nearly five."""
        with connect(self.socket) as link:
            begin = time.monotonic()
            link.sendall(b"tenant-add ")
            time.sleep(3)
            with suppress(OSError):
                link.sendall(b"bolt\n")
            return self.rest_of(link), time.monotonic() - begin > PATIENCE - 0.5

    def test_one_that_takes_no_byte_of_its_answer(self):
        """It stays connected, with its side open."""
        server = self.serve(count=2)
        with connect(self.socket) as link:
            link.setsockopt(socket.SOL_SOCKET, socket.SO_RCVBUF, 1)
            link.sendall(line(BOLT))
            begin = time.monotonic()
            self.assertEqual(server.send(LISTED), NOTHING)
            self.assertEqual(send(self.socket, BOLT), Left(2, b"", b"wgr: name_held\n"))
            self.assertEqual(server.send(LISTED), NOTHING)
            self.assertLess(time.monotonic() - begin, LATE)
            self.assertEqual(server.ended().status, 0)

    def test_one_that_goes_away(self):
        """The order of one that has sent its line is done, though nobody takes the answer."""
        server = self.serve(count=1)
        with connect(self.socket) as link:
            link.sendall(line(BOLT))
        with connect(self.socket):
            pass
        self.assertEqual(send(self.socket, BOLT), Left(2, b"", b"wgr: name_held\n"))
        self.assertEqual(server.send(LISTED), NOTHING)
        self.assertEqual(server.ended().status, 0)

    def test_one_that_is_slow_over_http(self):
        """A request under way isn't cut by an order: the order waits for it."""
        server = self.serve(count=1)
        with server.connect() as link, ThreadPoolExecutor(1) as pool:
            link.sendall(LISTED[:9])
            server.has_read(link)
            sent = pool.submit(send, self.socket, BOLT)
            time.sleep(1)
            self.assertFalse(sent.done())
            link.sendall(LISTED[9:])
            self.assertEqual(read_all(link), NOTHING)


# Orders of which each is acknowledged, and then the service is killed.
KILLED = [
    BOLT,
    ("token-grant", "acme", "new"),
    ("token-grant", "acme", "read", "new"),
    ("token-end", "abc"),
    ("token-end", "reads"),
    ("token-end", "--digest", DIGEST.hex()),
    ("network-add", "acme", "lab", "10.9.0.0/24", "h", "1", OFFICE["key"], "9"),
    ("network-end", "acme", "office"),
]


class Killed(Sending):
    def setUp(self):
        super().setUp()
        self.init(("tenant-add", "acme"))
        self.grant("acme")
        self.do(("token-grant", "acme", "read", "reads"), ("network-add", "acme", "office", *OFFICE.values()))

    def test_what_is_acknowledged_stays(self):
        """A service is killed right behind the answer; the register that is opened again has what the command leaves."""
        for order in KILLED:
            with self.subTest(order=order):
                killed, plain = self.path("killed.db"), self.path("plain.db")
                for path in [killed, plain]:
                    shutil.copy(self.db, path)
                server = self.serve(killed)
                with connect(self.socket) as link:
                    link.sendall(line(order))
                    answer = link.recv(64)
                    server.process.kill()
                self.assertEqual(answer, b"0 done\n")
                server.process.wait()
                self.assertEqual(command(plain, order), DONE)
                for path in [killed, plain]:
                    # This puts what the log has into the file.
                    self.assertEqual(command(path, ("tenant-add", "next")), DONE)
                self.assertEqual(self.rows(killed), self.rows(plain))

    def test_between_orders_and_requests(self):
        """All that was acknowledged in turn is there."""
        server = self.serve()
        self.assertEqual(server.send(request("POST", PEERS, {"key": key(1)})), done(peer(1, 1, "10.8.0.2/32")))
        self.assertEqual(send(self.socket, ("token-grant", "acme", "new")), DONE)
        self.assertEqual(server.send(request("POST", PEERS, {"key": key(2)}, "new")), done(peer(2, 2, "10.8.0.3/32")))
        self.assertEqual(send(self.socket, ("token-end", "abc")), DONE)
        server.process.kill()
        server.process.wait()
        again = self.serve()
        listed = done({"peers": [peer(1, 1, "10.8.0.2/32"), peer(2, 2, "10.8.0.3/32")]})
        self.assertEqual(again.send(request("GET", PEERS, token="new")), listed)
        self.assertIn(b" 401 ", again.send(request("GET", PEERS)))
