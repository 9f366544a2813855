"""Orders and requests of one service: what the next request finds, and what waits for what."""

import signal

from program import Left
from register_file import DONE, OFFICE, refused
from sending import Sending, connect, line, send, tell_line
from serving import LIST, NOBODY, PEERS, done, key, peer, read_all, request
from serving import refused as refused_request
from test_orders import ACME, GRANT, NETWORK, SECOND

LISTED = request("GET", "/networks")


class Between(Sending):
    """Orders and requests of one service."""

    def setUp(self):
        super().setUp()
        self.init(ACME)

    def asks(self, server, token):
        """Whether the token opens the service."""
        reply = server.send(request("GET", "/networks", token=token))
        self.assertIn(reply, [done({"networks": []}), refused_request(401, "unknown_token")])
        return reply == done({"networks": []})

    def test_a_token_opens_and_closes_at_once(self):
        self.do(("token-grant", "acme", "own"))
        server = self.serve()
        for name, end in [("its text", ("token-end", "second")), ("its digest", ("token-end", "--digest", SECOND)), ("in capitals", ("token-end", "--digest", SECOND.upper()))]:
            with self.subTest(name):
                self.assertFalse(self.asks(server, "second"))
                self.assertEqual(send(self.socket, ("token-grant", "acme", "second")), DONE)
                self.assertTrue(self.asks(server, "second"))
                self.assertEqual(send(self.socket, end), DONE)
                self.assertFalse(self.asks(server, "second"))
                self.assertTrue(self.asks(server, "own"))

    def test_a_token_gets_another_right(self):
        """It ends, and is granted anew; the next request has the new right."""
        self.do(NETWORK)
        server = self.serve()
        add = request("POST", PEERS, {"key": key(1)}, "second")
        for right, due in [("read", refused_request(403, "read_only")), ("full", done(peer(1, 1, "10.8.0.2/32"))), ("read", refused_request(403, "read_only"))]:
            with self.subTest(right):
                self.assertEqual(send(self.socket, ("token-grant", "acme", right, "second")), DONE)
                self.assertEqual(server.send(add), due)
                self.assertEqual(send(self.socket, ("token-end", "second")), DONE)
                self.assertEqual(server.send(add), refused_request(401, "unknown_token"))

    def test_an_order_between_two_requests(self):
        self.do(GRANT)
        server = self.serve()
        for _ in range(2):
            self.assertEqual(server.send(LIST), refused_request(404, "no_such_network"))
            self.assertEqual(send(self.socket, NETWORK), DONE)
            self.assertEqual(server.send(LIST), NOBODY)
            self.assertEqual(server.send(request("POST", PEERS, {"key": key(1)})), done(peer(1, 1, "10.8.0.2/32")))
            self.assertEqual(send(self.socket, ("tenant-add", "acme")), refused("name_held"))
            self.assertEqual(server.send(LIST), done({"peers": [peer(1, 1, "10.8.0.2/32")]}))
            self.assertEqual(send(self.socket, ("network-end", "acme", "office")), DONE)

    def test_orders_are_not_counted(self):
        self.do(GRANT)
        server = self.serve(count=2)
        for place in range(3):
            self.assertEqual(send(self.socket, ("tenant-add", f"a{place}")), DONE)
        self.assertEqual(server.send(LISTED), done({"networks": []}))
        for place in range(3):
            self.assertEqual(send(self.socket, ("tenant-add", f"b{place}")), DONE)
        self.assertEqual(server.send(LISTED), done({"networks": []}))
        self.assertEqual(server.ended(), Left(0))
        with self.subTest("none"):
            self.assertEqual(self.serve(count=0, orders=self.path("none")).ended(), Left(0))

    def test_orders_that_wait_are_served_first(self):
        self.do(GRANT, NETWORK)
        server = self.serve(count=2)
        server.stop()
        links, orders = [], [("tenant-add", "bolt"), ("token-end", "abc"), ("tenant-add", "bolt")]
        for _ in range(2):
            links.append(server.connect())
            links[-1].sendall(LIST)
        waiting = [connect(self.socket) for _ in orders]
        for link, order in zip(waiting, orders):
            link.sendall(line(order))
        server.process.send_signal(signal.SIGCONT)
        self.assertEqual([read_all(link) for link in waiting], [b"0 done\n", b"0 done\n", b"2 name_held\n"])
        self.assertEqual([read_all(link) for link in links], 2 * [refused_request(401, "unknown_token")])
        for link in links + waiting:
            link.close()
        self.assertEqual(server.ended(), Left(0))

    def test_the_answer_is_that_of_the_command(self):
        """Raw, the status and the text that the same command prints."""
        self.serve(count=1, orders=self.socket)
        rows = [
            (GRANT, (0, "done")),
            (NETWORK, (0, "done")),
            (ACME, (2, "name_held")),
            (("network-add", "acme", "lab", *OFFICE.values()), (2, "pool_overlaps acme office")),
            (("tenant-add", "Acme"), (2, "bad_field name")),
            (("token-end", "--digest", "ab"), (2, "bad_field digest")),
            (("tenant-add",), (2, "bad_order")),
        ]
        for order, due in rows:
            with self.subTest(order=order):
                self.assertEqual(tell_line(self.socket, order), due)
