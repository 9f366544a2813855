"""Requests to `wgr serve`: which check of several decides, and a dump that is adopted twice."""

from serving import (
    PEERS,
    SERVER_KEY,
    TOKEN,
    Serving,
    done,
    key,
    peer,
    refused,
    wrong_method,
)

DUMP = "/networks/office/dump"
MORE = {"key": key(1), "extra": 0}
LIST = f"GET {PEERS} HTTP/1.1\r\n"

# Method, path, body and token of a request that changes nothing, and the reply.
CHECKS = [
    ("PUT", PEERS, None, TOKEN, wrong_method("GET, POST")),
    ("GET", f"{PEERS}/2", None, TOKEN, wrong_method("DELETE")),
    ("GET", f"{PEERS}/01", None, TOKEN, refused(404, "no_such_path")),
    ("GET", "/networks/", None, TOKEN, refused(404, "no_such_path")),
    ("GET", "/networks/office/server/ini", None, TOKEN, refused(404, "no_such_path")),
    ("GET", "/networks/Office/peers", None, TOKEN, refused(404, "no_such_network")),
    ("POST", PEERS, MORE, TOKEN, refused(400, "bad_field", field="body")),
    ("POST", PEERS, MORE, "zzz", refused(400, "bad_field", field="body")),
    ("POST", PEERS, MORE, None, refused(401, "unknown_token")),
]

LINES = [
    ["(none)", SERVER_KEY, "51820", "off"],
    [key(1), "(none)", "(none)", "(none)", "0", "0", "0", "off"],
    [key(2), "(none)", "198.51.100.7:40000", "10.8.0.2/32,192.168.4.0/24", "1700000000", "1024", "2048", "25"],
    [key(3), key(0), "[2001:db8::1]:51820", "fd00:9::/64", "0", "0", "0", "off"],
]
NEVER = {"handshake": 0, "received": 0, "sent": 0}
SEEN = {"handshake": 1700000000, "received": 1024, "sent": 2048}
# The line that names an address comes first.
ADOPTED = [
    peer(1, 2, "10.8.0.2/32", keepalive=25, routes=["192.168.4.0/24"], status=SEEN),
    peer(2, 1, "10.8.0.3/32", status=NEVER),
    peer(3, 3, "10.8.0.4/32", routes=["fd00:9::/64"], status=NEVER),
]


# Peers by number, which a dump shows with two prefixes each; the numbers whose handshakes are later in
# each dump after the first.
MANY = range(1, 101)
LATER = [
    ("all", list(MANY)),
    ("one by one", [number for number in MANY if number % 2]),
    ("in a row", list(range(31, 51))),
    ("in two rows", [*range(1, 21), *range(61, 81)]),
    ("the last", [100]),
    ("none", []),
]


def shown(number, handshake):
    """A line of a dump, and the peer that the API shows of it."""
    # The routes come in an order of their own.
    address, route = f"10.8.0.{number + 1}/32", f"10.{100 + number * 37 % 101}.0.0/16"
    line = [key(100 + number), "(none)", "(none)", f"{address},{route}", str(handshake), "5", "6", "off"]
    status = {"handshake": handshake, "received": 5, "sent": 6}
    return line, peer(number, 100 + number, address, routes=[route], status=status)


def text_of(lines):
    return "".join("\t".join(line) + "\n" for line in lines).encode()


class Requests(Serving):
    def test_the_first_check_tells(self):
        server = self.serve()
        for method, path, body, token, due in CHECKS:
            with self.subTest(f"{method} {path} {token}"):
                self.assertEqual(server.ask(method, path, body, token), due)
                self.assertEqual(server.ask("GET", PEERS), done({"peers": []}))
        with self.subTest("names and schemes are compared without case"):
            message = f"{LIST}authorization: bEARER   {TOKEN}\r\n\r\n".encode()
            self.assertEqual(server.send(message), done({"peers": []}))

    def test_a_dump_is_adopted_once(self):
        for name, text in [("whole", text_of(LINES)), ("without its last newline", text_of(LINES)[:-1])]:
            with self.subTest(name):
                self.setUp()
                server = self.serve()
                self.assertEqual(server.ask("POST", DUMP, text), done({"added": [1, 2, 3], "known": 0}))
                self.assertEqual(server.ask("GET", PEERS), done({"peers": ADOPTED}))
                self.assertEqual(server.ask("POST", DUMP, text), done({"added": [], "known": 3}))
                self.assertEqual(server.ask("GET", PEERS), done({"peers": ADOPTED}))

    def test_later_handshakes_of_a_dump(self):
        server = self.serve()
        seen = dict.fromkeys(MANY, 1)
        for moment, (name, numbers) in enumerate([("first", []), *LATER], 1):
            seen.update(dict.fromkeys(numbers, moment))
            lines, peers = zip(*(shown(number, handshake) for number, handshake in seen.items()))
            with self.subTest(name):
                due = {"added": [], "known": 100} if moment > 1 else {"added": list(MANY), "known": 0}
                self.assertEqual(server.ask("POST", DUMP, text_of([LINES[0], *lines])), done(due))
                self.assertEqual(server.ask("GET", PEERS), done({"peers": list(peers)}))
        self.assertEqual(server.ask("DELETE", f"{PEERS}/50"), done({"revoked": 50}))
        lines, peers = zip(*(shown(number, 99) for number in MANY if number != 50))
        with self.subTest("beside a number that is gone"):
            due = {"added": [], "known": 99}
            self.assertEqual(server.ask("POST", DUMP, text_of([LINES[0], *lines])), done(due))
            self.assertEqual(server.ask("GET", PEERS), done({"peers": list(peers)}))

    def test_dumps_that_are_none(self):
        server = self.serve()
        cut = text_of([*LINES[:3], LINES[3][:5]])[:-1]
        for name, text, line, field in [("nothing", b"", 1, 1), ("five fields", cut, 4, 6)]:
            with self.subTest(name):
                due = refused(400, "bad_dump", line=line, field=field)
                self.assertEqual(server.ask("POST", DUMP, text), due)
        self.assertEqual(server.ask("GET", PEERS), done({"peers": []}))
