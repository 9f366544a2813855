"""Tokens that only read, of clients that are slow or send much, through nginx and HAProxy, and while rights change under a service."""

import json

from fronts import HAProxy, Nginx
from register_file import DONE, Files
from sending import send
from serving import OFFICE, PEERS, Server, done, key, make_register, order, peer, refused, request
from tools import needs

READS = "reads"
READ_ONLY = refused(403, "read_only")
ADD = {"key": key(7)}
# The largest body, of which nearly all is blanks.
LARGEST = json.dumps(ADD).encode().ljust(2_097_152)


def make_register_with_both(folder):
    """The register of the other tests, with a token that only reads beside the full one."""
    database = make_register(folder)
    order("token-grant", database, "acme", "--right", "read", token=READS)
    return database


class Served(Files):
    def setUp(self):
        super().setUp()
        self.db = make_register_with_both(self.folder)
        self.orders = self.path("orders")
        self.server = self.enterContext(Server(self.db, now=1, orders=self.orders))

    def test_clients(self):
        """The client keeps its side open but in the last row, and nothing is changed."""
        head, _, body = request("POST", PEERS, ADD, READS).partition(b"\r\n\r\n")
        rows = [
            ("a byte at a time", [bytes([byte]) for byte in head + b"\r\n\r\n" + body], False),
            ("the largest body", [request("POST", PEERS, LARGEST, READS)], False),
            ("the largest body in parts", [request("POST", PEERS, LARGEST, READS)[at : at + 300_000] for at in range(0, 2_200_000, 300_000)], False),
            ("bytes behind the body", [request("POST", PEERS, ADD, READS) + 100_000 * b"x"], False),
            ("a side that is closed", [request("DELETE", f"{PEERS}/1", token=READS)], True),
        ]
        for name, parts, close in rows:
            with self.subTest(name):
                self.assertEqual(self.server.send(*parts, close=close), READ_ONLY)
        self.assertEqual(self.server.ask("GET", PEERS, token=READS), done({"peers": []}))

    def test_another_right_while_it_runs(self):
        """A token is ended and granted with the other right, again and again; each request behind an order is answered by the last one."""
        number = 0
        for right in ["full", "read", "full", "read"]:
            with self.subTest(right):
                self.assertEqual(send(self.orders, ("token-end", READS)), DONE)
                self.assertEqual(self.server.ask("POST", PEERS, ADD, READS), refused(401, "unknown_token"))
                self.assertEqual(send(self.orders, ("token-grant", "acme", right, READS)), DONE)
                number += right == "full"
                due = done(peer(number, number, f"10.8.0.{number + 1}/32")) if right == "full" else READ_ONLY
                self.assertEqual(self.server.ask("POST", PEERS, {"key": key(number if right == "full" else 9)}, READS), due)
                self.assertEqual(self.server.ask("GET", "/networks", token=READS), done({"networks": [OFFICE]}))


class AnyFront:
    """Tests of either proxy."""

    make_register = staticmethod(make_register_with_both)

    def test_a_token_that_only_reads(self):
        due = json.loads(READ_ONLY.partition(b"\r\n\r\n")[2])
        for name, method, path, body in [
            ("a peer", "POST", PEERS, json.dumps(ADD)),
            ("the largest body", "POST", PEERS, LARGEST),
            ("a removal, below /v1", "DELETE", f"/v1{PEERS}/1", None),
        ]:
            with self.subTest(name):
                status, told, fields = self.ask(method, path, body, token=READS)
                self.assertEqual((status, json.loads(told), fields["Content-Type"]), (403, due, "application/json"))
        with self.subTest("a body that comes slowly"):
            link = self.link()
            message = request("POST", PEERS, LARGEST, READS)
            for part in [message[:100], message[100:1000], message[1000:-1]]:
                link.sock.sendall(part)
            self.assertEqual(self.ask("GET", PEERS, token=READS)[:2], (200, b'{"peers":[]}'))
            link.sock.sendall(message[-1:])
            self.assertTrue(link.sock.recv(65_536).startswith(b"HTTP/1.1 403 "))
            link.close()


@needs("nginx", "openssl")
class ByNginx(AnyFront, Nginx):
    pass


@needs("haproxy", "openssl", "bash")
class ByHAProxy(AnyFront, HAProxy):
    pass
