"""Tokens that only read: what they are answered over HTTP and by `wgr batch`, and that no request with one changes a row."""

from program import Left
from register_file import DONE, Files, put
from sending import send
from serving import (
    OFFICE,
    PEERS,
    SERVER_KEY,
    TOKEN,
    Server,
    done,
    file_of,
    key,
    make_register,
    network_add,
    order,
    peer,
    refused,
    request,
    wrong_method,
)
from test_batch import batch, replies

# The moment of all requests. The lease of peer 2 is over by then, and no change has taken its row away.
NOW, OVER, BEFORE = 100, 50, 49
# Tokens of acme that only read, and one of bolt, whose network is `theirs`.
READS, OTHER, STRANGER = "reads", "reads-too", "bolt-reads"
READ_ONLY = b"""\
HTTP/1.1 403 Forbidden\r
Content-Type: application/json\r
Content-Length: 21\r
Connection: close\r
\r
{"error":"read_only"}"""
NETWORK = "/networks/office"
DUMP = f"(none)\t{SERVER_KEY}\t51820\toff\n"
LINE = f"{key(7)}\t(none)\t(none)\t10.8.0.7/32\t0\t0\t0\toff\n"
KNOWN = f"{key(1)}\t(none)\t(none)\t10.8.0.2/32\t9\t1\t2\toff\n"

# Each kind of request that changes a network: its method, its path and its body. With a full token each is done.
CHANGES = [
    ("add", "POST", PEERS, {"key": key(7)}),
    ("move", "POST", f"{PEERS}/1/address", {"address": "10.8.0.9"}),
    ("revoke", "DELETE", f"{PEERS}/1", None),
    ("route", "POST", f"{PEERS}/1/routes", {"prefix": "192.168.5.0/24"}),
    ("unroute", "POST", f"{NETWORK}/unroute", {"prefix": "192.168.4.0/24"}),
    ("renew", "POST", f"{PEERS}/1/lease", {"end": 4_000_000_000}),
    ("adopt", "POST", f"{NETWORK}/dump", f"{DUMP}{LINE}".encode()),
]
# Each kind that reads, and what every token of acme is answered.
ALLOWED = "AllowedIPs = 10.8.0.2/32, 192.168.4.0/24"
READINGS = [
    ("networks", "/networks", done({"networks": [OFFICE]})),
    ("peers", PEERS, done({"peers": [peer(1, 1, "10.8.0.2/32", routes=["192.168.4.0/24"])]})),
    ("owner", f"{NETWORK}/owner/192.168.4.1", done({"number": 1})),
    ("nobody's address", f"{NETWORK}/owner/192.168.5.1", refused(404, "nobodys_address")),
    (
        "the peer's file", f"{PEERS}/1/file/wg",
        file_of("[Interface]", "", "[Peer]", f"PublicKey = {SERVER_KEY}", "AllowedIPs = 10.8.0.0/24", "Endpoint = vpn.example.net:51820"),
    ),
    ("the file of a peer whose lease is over", f"{PEERS}/2/file/wg", refused(404, "no_such_peer")),
    (
        "the server's file", f"{NETWORK}/server/quick",
        file_of("[Interface]", "Address = 10.8.0.1/24", "ListenPort = 51820", "", "[Peer]", f"PublicKey = {key(1)}", ALLOWED),
    ),
    ("no such network", "/networks/lab/peers", refused(404, "no_such_network")),
    ("another tenant's network", "/networks/theirs/peers", refused(404, "no_such_network")),
    ("no such path", "/peers", refused(404, "no_such_path")),
]

# Requests at which two checks fail, or a check fails that a change with a full token would not reach: the token, the
# method, the path, the body, and the reply. What the bytes decide comes before the right, and the right before the network.
PAIRS = [
    ("nobody's token and a change", "nobody", "POST", PEERS, {"key": key(7)}, refused(401, "unknown_token")),
    ("no token and a change", None, "POST", PEERS, {"key": key(7)}, refused(401, "unknown_token")),
    ("a malformed key", READS, "POST", PEERS, {"key": "x"}, refused(400, "bad_field", field="key")),
    ("no key", READS, "POST", PEERS, {}, refused(400, "bad_field", field="key")),
    ("no JSON", READS, "POST", PEERS, b"{", refused(400, "bad_field", field="body")),
    ("a malformed address", READS, "POST", f"{PEERS}/1/address", {"address": "10.8.0"}, refused(400, "bad_field", field="address")),
    ("a malformed prefix", READS, "POST", f"{PEERS}/1/routes", {"prefix": "net"}, refused(400, "bad_field", field="prefix")),
    ("a malformed prefix to remove", READS, "POST", f"{NETWORK}/unroute", {"prefix": 1}, refused(400, "bad_field", field="prefix")),
    ("no end", READS, "POST", f"{PEERS}/1/lease", {}, refused(400, "bad_field", field="end")),
    ("a malformed dump", READS, "POST", f"{NETWORK}/dump", b"", refused(400, "bad_dump", field=1, line=1)),
    ("a malformed field and no such network", READS, "POST", "/networks/lab/peers", {"key": "x"}, refused(400, "bad_field", field="key")),
    ("another method", READS, "PUT", PEERS, None, wrong_method("GET, POST")),
    ("another path", READS, "POST", f"{PEERS}/0/lease", {"end": 0}, refused(404, "no_such_path")),
    ("a change of no network", READS, "POST", "/networks/lab/peers", {"key": key(7)}, READ_ONLY),
    ("an end in no network", READS, "DELETE", "/networks/lab/peers/1", None, READ_ONLY),
    ("a dump for no network", READS, "POST", "/networks/lab/dump", DUMP.encode(), READ_ONLY),
    ("a change of another tenant's network", READS, "POST", "/networks/theirs/peers", {"key": key(7)}, READ_ONLY),
    ("another tenant's token, which only reads", STRANGER, "POST", PEERS, {"key": key(7)}, READ_ONLY),
    ("the same of a list", STRANGER, "GET", PEERS, None, refused(404, "no_such_network")),
    ("no such peer", READS, "DELETE", f"{PEERS}/9", None, READ_ONLY),
    ("a peer whose lease is over", READS, "POST", f"{PEERS}/2/lease", {"end": 0}, READ_ONLY),
    ("a move to the own address", READS, "POST", f"{PEERS}/1/address", {"address": "10.8.0.2"}, READ_ONLY),
    ("a route that is there", READS, "POST", f"{PEERS}/1/routes", {"prefix": "192.168.4.0/24"}, READ_ONLY),
    ("no such route", READS, "POST", f"{NETWORK}/unroute", {"prefix": "::/0"}, READ_ONLY),
    ("the server's key", READS, "POST", PEERS, {"key": SERVER_KEY}, READ_ONLY),
    ("a key that a peer has", READS, "POST", PEERS, {"key": key(1)}, READ_ONLY),
    ("an end that is over", READS, "POST", PEERS, {"key": key(7), "end": 1}, READ_ONLY),
    ("an address outside of the pool", READS, "POST", PEERS, {"key": key(7), "address": "10.9.0.2"}, READ_ONLY),
    ("another server's dump", READS, "POST", f"{NETWORK}/dump", DUMP.replace(SERVER_KEY, key(8)).encode(), READ_ONLY),
    ("a dump without a peer", READS, "POST", f"{NETWORK}/dump", DUMP.encode(), READ_ONLY),
    ("a dump of known peers alone", READS, "POST", f"{NETWORK}/dump", f"{DUMP}{KNOWN}".encode(), READ_ONLY),
]


class Rights(Files):
    """A network with a peer, a route to it, and a peer whose lease is over; tokens of both rights."""

    def setUp(self):
        super().setUp()
        self.db = make_register(self.folder)
        order("tenant-add", self.db, "bolt")
        network_add(self.db, "bolt", "theirs", "10.9.0.0/24", port="51821")
        for tenant, token in [("acme", READS), ("acme", OTHER), ("bolt", STRANGER)]:
            order("token-grant", self.db, tenant, "--right", "read", token=token)
        asked = [("POST", PEERS, {"key": key(1)}), ("POST", PEERS, {"key": key(2), "end": OVER})]
        asked += [("POST", f"{PEERS}/1/routes", {"prefix": "192.168.4.0/24"})]
        self.assertEqual(batch(self.db, 1, [request(*each) for each in asked]).out.count(b" 200 OK"), 3)
        self.before = self.rows()
        self.assertEqual(len(self.before["peer"]), 2)

    def stays(self):
        """All rows are as before, also those of the peer whose lease is over."""
        self.assertEqual(self.rows(), self.before)
        self.assertEqual(batch(self.db, BEFORE, [request("GET", PEERS, token=READS)]).out.count(b'"number":2'), 1)

    def by_both(self, rows):
        """Asks in turn over HTTP, each by one service, and by one `batch`. Each row has a name, a token, what is asked and the reply."""
        with Server(self.db, count=len(rows), now=NOW) as server:
            for name, token, method, path, body, due in rows:
                with self.subTest(name, token=token, by="serve"):
                    self.assertEqual(server.ask(method, path, body, token), due)
            self.assertEqual(server.ended(), Left(0))
        self.stays()
        left = batch(self.db, NOW, [request(method, path, body, token) for _, token, method, path, body, _ in rows])
        for (name, token, *_, due), reply in zip(rows, replies(left.out), strict=True):
            with self.subTest(name, token=token, by="batch"):
                self.assertEqual(reply, due)
        self.assertEqual((left.status, left.err), (0, b""))
        self.stays()

    def test_the_reply(self):
        self.assertEqual(len(READ_ONLY), 118)
        self.assertEqual(refused(403, "read_only"), READ_ONLY)

    def test_changes(self):
        self.by_both([(name, token, *asked, READ_ONLY) for token in [READS, OTHER] for name, *asked in CHANGES])

    def test_changes_alone(self):
        """Each by a program of its own, for which the network isn't in memory."""
        for name, method, path, body in CHANGES:
            with self.subTest(name):
                self.assertEqual(batch(self.db, NOW, [request(method, path, body, READS)]), Left(0, READ_ONLY))
                self.stays()

    def test_readings(self):
        """Every token of the tenant is answered the same."""
        self.by_both([(name, token, "GET", path, None, due) for name, path, due in READINGS for token in [TOKEN, READS, OTHER]])

    def test_readings_between(self):
        """What is in memory by then is as it was: a refusal takes nothing out of it and puts nothing in."""
        rows = [(name, READS, "GET", path, None, due) for name, path, due in READINGS]
        between = [(name, READS, *asked, READ_ONLY) for name, *asked in CHANGES]
        self.by_both([each for row in rows for each in [row, *between, row]])

    def test_pairs_of_checks(self):
        self.by_both(PAIRS)

    def test_messages_that_are_none(self):
        """What is no whole message is refused as such, whatever its token."""
        head = f"POST {PEERS} HTTP/1.1\r\nAuthorization: Bearer {READS}\r\n"
        rows = [
            ("no length", f"{head}\r\n", refused(411, "length_required")),
            ("a body that is too long", f"{head}Content-Length: 2097153\r\n\r\n", refused(413, "too_large")),
            ("a body that is cut", f"{head}Content-Length: 9\r\n\r\n{{}}", refused(400, "truncated")),
        ]
        left = batch(self.db, NOW, [text.encode() for _, text, _ in rows])
        for (name, _, due), reply in zip(rows, replies(left.out), strict=True):
            with self.subTest(name):
                self.assertEqual(reply, due)
        self.stays()

    def test_a_full_token_between(self):
        """Its changes are done, and those with the other aren't, on the same network in turn."""
        asked, due = [], []
        for number in range(3, 6):
            for token in [READS, TOKEN, OTHER]:
                asked.append(request("POST", PEERS, {"key": key(number)}, token))
                due.append(done(peer(number, number, f"10.8.0.{number}/32")) if token == TOKEN else READ_ONLY)
        self.assertEqual(replies(batch(self.db, NOW, asked).out), due)

    def test_each_change_is_done_with_a_full_token(self):
        """So the right alone refuses it."""
        for name, method, path, body in CHANGES:
            with self.subTest(name):
                self.setUp()
                refusal, reply = replies(batch(self.db, NOW, [request(method, path, body, token) for token in [READS, TOKEN]]).out)
                self.assertEqual((refusal, reply[:15]), (READ_ONLY, b"HTTP/1.1 200 OK"))
                self.assertNotEqual(self.rows(), self.before)

    def test_a_token_granted_anew(self):
        """It is ended, by its text or its digest, and granted with the other right; nothing of the former right is left."""
        add, rights = request("POST", PEERS, {"key": key(7)}, "turns"), ["read", "full", "read", "full"]
        for place, right in enumerate(rights):
            with self.subTest(right, place=place):
                order("token-grant", self.db, "acme", "--right", right, token="turns")
                reply = batch(self.db, NOW, [add]).out
                self.assertEqual(reply == READ_ONLY, right == "read", reply)
                order("token-end", self.db, token="turns")
                self.assertEqual(batch(self.db, NOW, [add]), Left(0, refused(401, "unknown_token")))
        self.assertEqual(len(self.query("SELECT * FROM reader")), 3)

    def test_the_end_of_a_token_that_only_reads(self):
        """It opens nothing from then on, and each other token has the right that it had."""
        order("token-end", self.db, token=READS)
        asked = [("GET", "/networks", None, READS, refused(401, "unknown_token")), ("GET", "/networks", None, OTHER, READINGS[0][2])]
        asked += [("POST", PEERS, {"key": key(7)}, token, due) for token, due in [(READS, refused(401, "unknown_token")), (OTHER, READ_ONLY), (STRANGER, READ_ONLY)]]
        left = batch(self.db, NOW, [request(*each[:4]) for each in asked])
        self.assertEqual(replies(left.out), [due for *_, due in asked])
        self.assertEqual(len(self.query("SELECT * FROM reader")), 2)

    def test_orders_of_a_running_service(self):
        """A token that is granted while the service runs only reads from its first request on."""
        orders = self.path("orders")
        with Server(self.db, now=NOW, orders=orders) as server:
            self.assertEqual(send(orders, ("token-grant", "acme", "read", "later")), DONE)
            self.assertEqual(server.ask("POST", PEERS, {"key": key(7)}, "later"), READ_ONLY)
            self.assertEqual(server.ask("GET", "/networks", token="later"), READINGS[0][2])
            self.assertEqual(server.ask("POST", PEERS, {"key": key(7)}), done(peer(3, 7, "10.8.0.3/32")))
            self.assertEqual(send(orders, ("token-end", "later")), DONE)
            self.assertEqual(server.ask("GET", "/networks", token="later"), refused(401, "unknown_token"))

    def test_many_tokens(self):
        """Among a thousand tokens of both rights, each has its own."""
        put(self.db, "token", [(bytes([7, place >> 8, place & 255] + 29 * [0]), 1) for place in range(1_000)])
        put(self.db, "reader", [(bytes([7, place >> 8, place & 255] + 29 * [0]),) for place in range(0, 1_000, 2)])
        self.before = self.rows()
        self.by_both([(name, READS, *asked, READ_ONLY) for name, *asked in CHANGES])
        self.assertEqual(batch(self.db, NOW, [request("POST", PEERS, {"key": key(7)})]), Left(0, done(peer(3, 7, "10.8.0.3/32"))))
