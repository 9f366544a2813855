"""`wgr serve`: messages, connections and the words that start it."""

import socket
import struct
import tempfile
import unittest

from program import Left, run
from register_file import BUSY, failed
from serving import OFFICE, PEERS, Server, Serving, done, has_ipv6, key, make_register, peer, read_all, refused, request

ADD = request("POST", PEERS, {"key": key(1)})


class Serve(Serving):
    def test_messages(self):
        head = b"GET /networks HTTP/1.1\r\nAuthorization: Bearer abc\r\n"
        networks = done({"networks": [OFFICE]})
        bad, large = refused(400, "bad_head"), refused(413, "too_large")
        longest = head + b"X: " + (8_192 - len(head) - 7) * b"x" + b"\r\n\r\n"
        self.assertEqual(len(longest), 8_192)
        post = b"POST " + PEERS.encode() + b" HTTP/1.1\r\nAuthorization: Bearer abc\r\n"
        body = 2_097_152 * b" "
        rows = [
            ("two tokens", head + b"authorization: Bearer abc\r\n\r\n", bad),
            ("another scheme", head.replace(b"Bearer", b"Basic") + b"\r\n", refused(401, "unknown_token")),
            ("the scheme in capitals", head.replace(b"Bearer", b"BEARER ") + b"\r\n", networks),
            ("two lengths", head + b"Content-Length: 0\r\ncontent-length: 0\r\n\r\n", bad),
            ("a length with a sign", head + b"Content-Length: +1\r\n\r\n0", bad),
            ("chunks", post + b"Transfer-Encoding: chunked\r\n\r\n0\r\n\r\n", refused(411, "length_required")),
            ("no length", post + b"\r\n", refused(411, "length_required")),
            ("the longest head", longest, networks),
            ("a byte more", longest.replace(b"xxx", b"xxxx", 1), large),
            ("33 fields", head + 32 * b"X: y\r\n" + b"\r\n", bad),
            ("32 fields", head + 31 * b"X: y\r\n" + b"\r\n", networks),
            ("the largest body", post + b"Content-Length: 2097152\r\n\r\n" + body, refused(400, "bad_field", field="body")),
            ("a byte more of it", post + b"Content-Length: 2097153\r\n\r\n" + body + b" ", large),
            ("3 MiB of it", post + b"Content-Length: 2097153\r\n\r\n" + 3 * 1_048_576 * b" ", large),
            ("more behind it", head + b"\r\n" + head + b"\r\n", networks),
            ("a body of a GET", head + b"Content-Length: 2\r\n\r\n{}", networks),
            ("fields that mean nothing here", head + b"Expect: 100-continue\r\nConnection: keep-alive\r\n\r\n", networks),
        ]
        server = self.serve()
        for name, message, due in rows:
            with self.subTest(name):
                self.assertEqual(server.send(message), due)
        with self.subTest("one byte at a time"):
            self.assertEqual(server.send(*[bytes([byte]) for byte in head + b"\r\n"]), networks)
        cut = refused(400, "truncated")
        for name, message, due in [("nothing", b"", cut), ("an empty line is wanting", head, bad), ("a body that is cut", post + b"Content-Length: 3\r\n\r\n{}", cut)]:
            with self.subTest(name):
                self.assertEqual(server.send(message, close=True), due)
        self.assertEqual(server.ask("GET", PEERS), done({"peers": []}))

    def test_a_request_that_is_cut(self):
        server = self.serve()
        body = ADD.index(b"\r\n\r\n") + 4
        for length in range(len(ADD)):
            with self.subTest(length):
                name = "bad_head" if 0 < length < body else "truncated"
                self.assertEqual(server.send(ADD[:length], close=True), refused(400, name))
        self.assertEqual(server.send(ADD), done(peer(1, 1, "10.8.0.2/32")))

    def test_connections_are_counted(self):
        with self.subTest("none"):
            self.assertEqual(self.serve(count=0).ended(), Left(0))
        with self.subTest("a client that goes at once, and two that ask"):
            server = self.serve(count=3)
            link = server.connect()
            link.setsockopt(socket.SOL_SOCKET, socket.SO_LINGER, struct.pack("ii", 1, 0))  # end by a reset
            link.close()
            server.ask("POST", PEERS, {"key": key(1)})
            server.ask("GET", PEERS)
            self.assertEqual(server.ended(), Left(0, b"", b"wgr: connection\n"))

    def test_clients_in_turn(self):
        server = self.serve(count=2)
        with server.connect() as first, server.connect() as second:
            second.sendall(request("GET", "/networks"))
            first.sendall(request("GET", "/networks"))
            networks = done({"networks": [OFFICE]})
            self.assertEqual([read_all(first), read_all(second)], [networks, networks])
        self.assertEqual(server.ended(), Left(0))

    @unittest.skipUnless(has_ipv6(), "this machine has no ::1")
    def test_ipv6(self):
        server = self.serve(host="::1")
        self.assertEqual(server.ask("GET", "/networks"), done({"networks": [OFFICE]}))

    def test_what_is_acknowledged_stays(self):
        server = self.serve()
        server.ask("POST", PEERS, {"key": key(1)})
        server.process.kill()
        server.process.wait()
        again = self.serve()
        self.assertEqual(again.ask("GET", PEERS), done({"peers": [peer(1, 1, "10.8.0.2/32")]}))

    def test_words_that_do_not_serve(self):
        place = "127.0.0.1:1"
        rows = [
            ("no port", ["serve", self.database, "127.0.0.1", "--count", "1"], b"wgr: bad_field host:port\n"),
            ("a name", ["serve", self.database, "localhost:8080", "--count", "1"], b"wgr: bad_field host:port\n"),
            ("IPv6 bare", ["serve", self.database, "::1:8080", "--count", "1"], b"wgr: bad_field host:port\n"),
            ("port", ["serve", self.database, "127.0.0.1:65536", "--count", "1"], b"wgr: bad_field host:port\n"),
            ("count", ["serve", self.database, place, "--count", "x"], b"wgr: bad_field count\n"),
            ("now", ["serve", self.database, place, "--count", "1", "--now", "x"], b"wgr: bad_field now\n"),
        ]
        for name, words, told in rows:
            with self.subTest(name):
                self.assertEqual(run(words), Left(2, b"", told))
        with self.subTest("no register"):
            words = ["serve", f"{self.database}.no", place, "--count", "1"]
            self.assertEqual(run(words), Left(1, b"", b"wgr: not_a_register\n"))
        with Server(self.database) as server, tempfile.TemporaryDirectory() as folder:
            used = f"127.0.0.1:{server.port}"
            rows = [
                ("a register that is in use", self.database, place, failed("store", BUSY)),
                ("an address that is in use", make_register(folder), used, failed("device")),
            ]
            for name, database, place, told in rows:
                with self.subTest(name):
                    self.assertEqual(run(["serve", database, place, "--count", "1"]), told)
