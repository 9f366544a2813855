"""Where the program meets the system: where it listens, which fault it prints first, and what it leaves in files."""

import os
import shutil
import socket
import sqlite3
import unittest
from contextlib import closing
from pathlib import Path

from earlier import make
from faulty import Faulty, needs_faults, recorded
from program import Left, run, without_room
from register_file import ACME, DONE, NETWORK, TABLES, Files, failed
from register_file import refused as refused_order
from serving import LIST, NOBODY, PEERS, Server, Serving, done, has_ipv6, key, make_register, peer, refused, request
from test_batch import batch

# The state of a socket that listens, in /proc/net/tcp.
LISTENS = "0A"


def own_address():
    """An IPv4 address of this machine by which it reaches others, or none."""
    with socket.socket(socket.AF_INET, socket.SOCK_DGRAM) as probe:
        try:
            # Nothing is sent: the system only chooses the address.
            probe.connect(("192.0.2.1", 9))
        except OSError:
            return None
        return probe.getsockname()[0]


def listeners(process):
    """The addresses and ports at which a process listens, as the kernel writes them."""
    folder, found = f"/proc/{process}/fd", []
    sockets = {os.readlink(f"{folder}/{name}") for name in os.listdir(folder)}
    for table in ["tcp", "tcp6", "udp", "udp6"]:
        for line in Path(f"/proc/{process}/net/{table}").read_text().splitlines()[1:]:
            fields = line.split()
            if f"socket:[{fields[9]}]" in sockets and (fields[3] == LISTENS or table.startswith("udp")):
                found.append((table, fields[1]))
    return found


class Listening(Serving):
    def serve(self, host):
        server = super().serve(host=host)
        self.assertEqual(server.send(LIST), NOBODY)
        return server

    def refuses(self, host, port):
        family = socket.AF_INET6 if ":" in host else socket.AF_INET
        with socket.socket(family) as link, self.assertRaises(ConnectionRefusedError):
            link.connect((host, port))

    def test_at_its_address_alone(self):
        server = self.serve("127.0.0.1")
        self.assertEqual(listeners(server.process.pid), [("tcp", f"0100007F:{server.port:04X}")])
        self.refuses("127.0.0.2", server.port)
        if own_address():
            self.refuses(own_address(), server.port)

    @unittest.skipUnless(has_ipv6(), "this machine has no ::1")
    def test_at_its_ipv6_address_alone(self):
        server = self.serve("::1")
        self.assertEqual(listeners(server.process.pid), [("tcp6", f"{24 * '0'}01000000:{server.port:04X}")])
        self.refuses("127.0.0.1", server.port)

    @unittest.skipUnless(own_address(), "this machine has no address but the loopback's")
    def test_clients_that_are_not_on_the_loopback(self):
        self.serve(own_address())


class FirstFault(Files):
    """Of two faults that meet, the first in the order of the words' work is printed."""

    def bad_registers(self):
        """Paths that hold no good register, and what is printed for each."""
        Path(self.path("empty.db")).touch()
        self.init(ACME, NETWORK)
        self.change("UPDATE network SET port = 0")
        return [("missing", self.path("none.db"), "not_a_register"), ("empty", self.path("empty.db"), "not_a_register"), ("not good", self.db, "not_good")]

    def test_a_register_before_its_address(self):
        with socket.socket() as used:
            used.bind(("127.0.0.1", 0))
            used.listen()
            place = f"127.0.0.1:{used.getsockname()[1]}"
            for name, database, why in self.bad_registers():
                with self.subTest(name):
                    self.assertEqual(run(["serve", database, place, "--count", "1"]), failed(why))

    def test_a_file_of_requests_before_the_register(self):
        Path(self.path("list")).write_bytes(LIST)
        for name, database, why in self.bad_registers():
            for files, told in [(["no"], "device"), (["list", "no"], "device"), (["list"], why)]:
                with self.subTest(name, files=files):
                    words = ["batch", database, "--now", "7", *map(self.path, files)]
                    self.assertEqual(run(words), failed(told))

    def test_init_that_has_no_room(self):
        with self.subTest("a missing file"):
            self.assertEqual(run(["init", self.db], prepare=without_room), failed("store"))
        with self.subTest("an empty database"):
            self.db = self.path("empty.db")
            self.change("CREATE TABLE note (text TEXT)", "DROP TABLE note")
            self.assertEqual(run(["init", self.db], prepare=without_room), failed("store"))
            self.assertEqual(self.query("SELECT * FROM sqlite_schema"), [])
            self.assertEqual(run(["init", self.db]), DONE)


# A new peer and its end, which leave something else where they are done twice.
ASKED = [request("POST", PEERS, {"key": key(1)}), request("DELETE", f"{PEERS}/1"), request("POST", PEERS, {"key": key(2)})]
ANSWERS = [done(peer(1, 1, "10.8.0.2/32")), done({"revoked": 1}), done(peer(2, 2, "10.8.0.2/32"))]


class Ends(Files):
    """What the file alone has, without its log, once a word has ended by itself."""

    def setUp(self):
        super().setUp()
        self.db = make_register(self.folder)
        self.before = self.alone()

    def alone(self):
        """All rows that a copy of the file shows."""
        copy = self.path("copy.db")
        shutil.copyfile(self.db, copy)
        with closing(sqlite3.connect(copy)) as file:
            return {name: file.execute(f"SELECT * FROM {name}").fetchall() for name in TABLES}

    def has_peer_2(self):
        rows = self.alone()
        key_and_number = [(row[0] & 0xFFFFF, row[2]) for row in rows["peer"]]
        self.assertEqual(key_and_number, [(2, bytes([2] * 32))])
        self.assertEqual([row[5] & 0xFFFFF for row in rows["allowed"]], [2])
        self.assertEqual(rows["network"][0][:-1], self.before["network"][0][:-1])
        self.assertEqual(rows["network"][0][-1], 3)
        for table in ["meta", "tenant", "token", "second", "reader"]:
            self.assertEqual(rows[table], self.before[table])

    def test_batch(self):
        self.assertEqual(batch(self.db, 7, ASKED), Left(0, b"".join(ANSWERS)))
        self.has_peer_2()

    def test_serve(self):
        with Server(self.db, count=3) as server:
            self.assertEqual([server.send(message) for message in ASKED], ANSWERS)
            self.assertEqual(server.ended(), Left(0))
        self.has_peer_2()

    def test_readings_leave_all_rows(self):
        self.assertEqual(batch(self.db, 7, [LIST, b""]), Left(0, NOBODY + refused(400, "truncated")))
        self.assertEqual(self.alone(), self.before)


def opened_in(record):
    """The files that a recorded run opened."""
    return {path.decode() for kind, _, _, path in recorded(record) if kind == "o"}


# What `show` prints of a tenant with the token `abc`.
SHOWN = b"""\
TENANT  NETWORK  POOL  ENDPOINT  CAPACITY  PEERS  ROUTES
acme    -        -     -         -         -      -

TENANT  TOKEN
acme    ba7816bf8f01cfea414140de5dae2223b00361a396177a9cb410ff61f20015ad
"""


class Opened(Files):
    """Each word opens the database's file, its log and their folder, and the files that it names, and no other."""

    def opened(self, faulty, words, text=b"", left=DONE):
        record = self.path("record")
        self.assertEqual(faulty.run(words, text, record=record), left)
        found = opened_in(record)
        os.unlink(record)
        return found

    @needs_faults()
    def test_files_that_are_named(self):
        files = {self.db, f"{self.db}-wal", str(Path(self.db).parent)}
        asked = [self.path("first"), self.path("second")]
        for path in asked:
            Path(path).write_bytes(LIST)
        rows = [
            ("init", ["init", self.db], b"", DONE),
            ("an order", ["tenant-add", self.db, "acme"], b"", DONE),
            ("an order with a token", ["token-grant", self.db, "acme"], b"abc", DONE),
            ("an order that is refused", ["tenant-add", self.db, "acme"], b"", refused_order("name_held")),
            ("a reading", ["show", self.db, "acme"], b"", Left(0, SHOWN)),
            ("requests", ["batch", self.db, "--now", "7", *asked], b"", Left(0, 2 * refused(404, "no_such_network"))),
        ]
        with Faulty() as faulty:
            for name, words, text, left in rows:
                with self.subTest(name):
                    self.assertEqual(self.opened(faulty, words, text, left), files | {*asked} if name == "requests" else files)
            earlier = self.path("earlier.db")
            make(earlier, 1)
            for name in ["a migration", "a migration of the present version"]:
                with self.subTest(name):
                    self.assertEqual(self.opened(faulty, ["migrate", earlier]), {earlier, f"{earlier}-wal", str(self.folder)})
            with self.subTest("no register"):
                self.assertEqual(self.opened(faulty, ["plan", "10.8.0.0/24"], b"", Left(0)), set())
            with self.subTest("connections"):
                server, record = faulty.serve(self.db, count=2, now=7), self.path("record")
                server.environment = server.environment | {"WGR_RECORD": record}
                faulty.arm()
                with server:
                    server.send(LIST)
                    server.send(b"x", close=True)
                    self.assertEqual(server.ended(), Left(0))
                self.assertEqual(opened_in(record), files)
