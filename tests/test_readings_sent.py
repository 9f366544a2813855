"""Readings that `wgr send` asks of a service, whole or cut, and clients that don't take them."""

import os
import socket
import threading
import time

from program import LIMIT, Left, run
from register_file import DONE, failed, network_row, pool_of, put, refused
from sending import connect, send
from serving import done, read_all, request
from test_order_socket import LATE, PATIENCE
from test_readings import ACME, Reading


class Service:
    """In place of a service: it takes one client's line and answers these parts, and then ends the connection."""

    def __init__(self, path, *parts):
        self.listener, self.parts, self.line = socket.socket(socket.AF_UNIX), parts, b""
        self.listener.bind(path)
        self.listener.listen()
        self.thread = threading.Thread(target=self.serve, daemon=True)
        self.thread.start()

    def serve(self):
        with self.listener.accept()[0] as link:
            while not self.line.endswith(b"\n"):
                self.line += link.recv(4_096)
            for part in self.parts:
                link.sendall(part)

    def ended(self):
        self.thread.join(LIMIT)
        self.listener.close()
        return self.line


class Sent(Reading):
    """`wgr send` of readings, to services that answer what they should and what they shouldn't."""

    def answered(self, words, *parts):
        """What `wgr send` leaves, and the line that it sends."""
        path = self.path("service")
        service = Service(path, *parts)
        left = send(path, words)
        told = service.ended()
        os.unlink(path)
        return left, told

    def test_the_line(self):
        for words in [("status",), ("show",), ("show", "--json"), ("show", "acme"), ("show", "acme", "--json"), ("show", "-x")]:
            with self.subTest(words):
                self.assertEqual(self.answered(words, b"0 3\nabc"), (Left(0, b"abc"), " ".join(words).encode() + b"\n"))
        self.assertEqual(self.answered(("backup", "/a/b"), b"0 done\n"), (DONE, b"backup /a/b\n"))
        rows = [
            (["show", "--json"], b"show --json\n"),
            (["show", "acme", "--json"], b"show acme --json\n"),
            (["--json", "show", "acme"], b"show acme --json\n"),
            (["--json", "show", "--", "--json"], b"show --json --json\n"),
        ]
        for words, due in rows:
            with self.subTest(words, by="option"):
                service = Service(self.path("other"), b"0 3\nabc")
                self.assertEqual(run(["send", self.path("other"), *words]), Left(0, b"abc"))
                self.assertEqual(service.ended(), due)
                os.unlink(self.path("other"))

    def test_whole_replies(self):
        long = 300_000 * b"text\n"
        rows = [
            ("an empty text", [b"0 0\n"], Left(0)),
            ("a text without a newline", [b"0 5\n1 abc"], Left(0, b"1 abc")),
            ("any bytes", [b"0 4\n\0\n\xff\n"], Left(0, b"\0\n\xff\n")),
            ("in single bytes", [bytes([byte]) for byte in b"0 12\nwgr: device\n"[:-1]] + [b""], None),
            ("a long text", [b"0 %d\n" % len(long), long], Left(0, long)),
            ("no such tenant", [b"2 no_such_tenant\n"], refused("no_such_tenant")),
            ("no memory", [b"1 no_memory\n"], failed("no_memory")),
            ("the store", [b"1 store\n"], failed("store")),
        ]
        for name, parts, due in rows:
            with self.subTest(name):
                left, _ = self.answered(("show",), *parts)
                # The text of single bytes is one byte short of its length.
                due = due or failed("device")._replace(out=left.out)
                self.assertTrue(left == due, (left.status, left.out[:50], left.err))
        for text, due in [(b"2 file_exists\n", refused("file_exists")), (b"1 device\n", failed("device")), (b"2 bad_field file\n", refused("bad_field file"))]:
            with self.subTest(text):
                self.assertEqual(self.answered(("backup", "/a"), text)[0], due)

    def test_replies_that_are_not_whole(self):
        """`wgr: device`, whatever the text; what came of it may be printed."""
        rows = [
            ("nothing", ("show",), b""),
            ("a part of the first line", ("show",), b"0 5"),
            ("no text", ("show",), b"0 5\n"),
            ("a part of the text", ("show",), b"0 5\nabcd"),
            ("a part of figures", ("status",), b"0 50\nwgr_service_start_time_seconds 1\n"),
            ("more than the text", ("show",), b"0 3\nabcd"),
            ("no length", ("show",), b"0 \nabc"),
            ("what is no number", ("show",), b"0 x\nabc"),
            ("the largest length", ("show",), b"0 18446744073709551615\nabc"),
            ("a copy without its newline", ("backup", "/a"), b"0 done"),
        ]
        for name, words, text in rows:
            with self.subTest(name):
                left, _ = self.answered(words, text)
                self.assertEqual(left, failed("device")._replace(out=left.out))
                self.assertTrue(text.partition(b"\n")[2].startswith(left.out), left.out)

    def test_nobody_serves_and_output_that_fails(self):
        self.init()
        for words in [("status",), ("show",), ("backup", "/a")]:
            self.assertEqual(send(self.socket, words), failed("device"))
        self.serve()
        with open("/dev/full", "wb") as full:
            self.assertEqual(send(self.socket, ("status",), stdout=full), failed("device"))

    def test_words_that_make_no_reading(self):
        self.init()
        self.serve()
        rows = [("show", ""), ("show", "a b"), ("show", "a\n"), ("status", ""), ("status", "acme"), ("backup", "/a b"), ("backup",)]
        # Behind `--` it is no option, and no line asks for a tenant of this name.
        rows += [("show", "--json"), ("show", "acme", "--json"), ("show", "--json", "acme")]
        for words in rows:
            with self.subTest(words):
                self.assertEqual(run(["send", self.socket, "--", *words]), refused("bad_order"))


class Stops(Reading):
    """A client that doesn't take what is shown: its reply is cut, and the service goes on."""

    def setUp(self):
        super().setUp()
        self.init(ACME)
        self.grant("acme")
        # The text is longer than what a socket holds.
        put(self.db, "network", [network_row(row, 1, f"n{row}", pool_of(row)[0], "h", row) for row in range(1, 4_001)])
        self.whole = run(["show", self.db, "--json"]).out
        self.assertGreater(len(self.whole), 500_000)

    def ask(self, server):
        """Whether a request is answered."""
        return server.send(request("GET", "/networks/n1/peers")) == done({"peers": []})

    def test_one_that_reads_nothing(self):
        server = self.serve(count=1)
        with connect(self.socket) as link:
            begin = time.monotonic()
            link.sendall(b"show --json\n")
            # Orders that wait come before requests, so the service takes this client first.
            self.assertTrue(self.ask(server))
            self.assertTrue(PATIENCE - 0.5 < time.monotonic() - begin < LATE)
            head, _, text = read_all(link).partition(b"\n")
        self.assertEqual(head, b"0 %d" % len(self.whole))
        self.assertTrue(len(text) < len(self.whole) and self.whole.startswith(text))
        self.assertEqual(server.ended(), Left(0, b"", b"wgr: order\n"))

    def test_one_that_goes_away(self):
        server = self.serve(count=1)
        with connect(self.socket) as link:
            link.sendall(b"show --json\n")
            self.assertEqual(link.recv(2), b"0 ")
        begin = time.monotonic()
        self.assertTrue(self.ask(server))
        self.assertLess(time.monotonic() - begin, PATIENCE)
        self.assertEqual(server.ended(), Left(0, b"", b"wgr: order\n"))

    def test_one_that_takes_its_time(self):
        """Within its five seconds it gets all."""
        self.serve()
        with connect(self.socket) as link:
            link.sendall(b"show --json\n")
            begin = time.monotonic()
            time.sleep(2)
            whole = read_all(link)
            is_late = time.monotonic() - begin > PATIENCE - 0.5
        due = b"0 %d\n" % len(self.whole) + self.whole
        # On a busy machine it may have taken more time than that.
        self.assertTrue(whole == due or is_late and due.startswith(whole))
