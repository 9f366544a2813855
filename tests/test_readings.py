"""Readings over the socket of a service, which change nothing: what is refused, `status`, and readings among orders and requests.

`test_shown.py` has what `show` prints, and `test_backups.py` the readings that make a copy.
"""

import re
import shutil
import signal
import socket
import struct
import time

from faulty import FAILS, ONCE, WHOLE, Faulty, needs_faults
from keys import K0
from program import Left, run
from register_file import DONE, S, failed, network_row, put, refused
from sending import Sending, answered, connect, line, send, shown, tell
from serving import LIST, NOBODY, PEERS, Server, done, key, peer, read_all, request
from serving import refused as refused_request
from test_batch import batch
from test_reads import pool as small_pool
from test_register import NOT_NAMES

# A run takes each so many-th growth of memory; `WGR_ALL=1` takes each.
STRIDE = 7
# The SHA-256 of `test`.
TEST = "9f86d081884c7d659a2feaa0c55ad015a3bf4f1b2b0b822cd15d6c15b0f00a08"
ACME, GLOBEX = ("tenant-add", "acme"), ("tenant-add", "globex")
OFFICE = ("network-add", "acme", "office", "10.66.0.0/24", "vpn.example.net", "51820", S, "250")
LAB = ("network-add", "acme", "lab", "fd00:1::/64", "vpn.example.net", "51821", K0, "4096")
# Twelve peers of `office`, and three routes.
ADDED = [request("POST", PEERS, {"key": key(number)}, "test") for number in range(1, 13)]
ADDED += [request("POST", f"{PEERS}/{number}/routes", {"prefix": f"192.168.{number}.0/24"}, "test") for number in [1, 1, 2, 12]]

HEADER = "TENANT  NETWORK  POOL  ENDPOINT  CAPACITY  PEERS  ROUTES\n"
STATUSES = ["200", "400", "401", "403", "404", "405", "409", "411", "413", "503"]
# A message of which the head says that its body is too long.
TOO_LARGE = f"POST {PEERS} HTTP/1.1\r\nContent-Length: 2097153\r\n\r\n".encode()
# One whose head doesn't say how long its body is.
NO_LENGTH = f"POST {PEERS} HTTP/1.1\r\nAuthorization: Bearer test\r\n\r\n".encode()


def status_text(requests=(0,) * 10, orders=(0, 0, 0), failed=0, rows=(0, 0, 0, 0, 0), kept=(0, 0)):
    """What `status` shows but for its first line: by the status of a reply, by that of an order, of the rows, of what is in memory."""
    lines = [f'wgr_service_requests_total{{status="{status}"}} {count}' for status, count in zip(STATUSES, requests, strict=True)]
    lines += [f'wgr_service_orders_total{{status="{status}"}} {count}' for status, count in enumerate(orders)]
    lines.append(f"wgr_service_failed_connections_total {failed}")
    lines.append("wgr_service_late_connections_total 0")
    names = ["tenants", "tokens", "networks", "peers", "routes", "networks_in_memory", "files_in_memory"]
    lines += [f"wgr_service_{name} {count}" for name, count in zip(names, [*rows, *kept], strict=True)]
    return "".join(f"{each}\n" for each in lines)


def steady(text):
    """The text without the number of orders that failed."""
    return re.sub(rb'(wgr_service_orders_total\{status="1"\}) \d+', rb"\1", text)


class Reading(Sending):
    def status(self):
        """The seconds at which the service began, and the other lines."""
        first, _, rest = shown(self.socket, "status").decode().partition("\n")
        name, _, began = first.partition(" ")
        self.assertEqual(name, "wgr_service_start_time_seconds")
        return int(began), rest

    def figure(self, name):
        """One figure of `status`."""
        pairs = [line.rsplit(" ", 1) for line in shown(self.socket, "status").decode().splitlines()]
        return int(dict(pairs)[f"wgr_service_{name}"])

    def make_two(self):
        """A register with two tenants, a token, two networks, and in one of these twelve peers and three routes."""
        self.init(ACME, GLOBEX)
        self.do(("token-grant", "acme", "test"), LAB, OFFICE)
        self.assertEqual(batch(self.db, 7, ADDED).out.count(b" 200 OK"), len(ADDED))


class Errors(Reading):
    """Each line that says why nothing is shown; all rows stay, and the next reading is answered."""

    def test_lines(self):
        self.init(ACME)
        self.serve()
        rows = [
            ("no word", b"\n", "2 bad_order"),
            ("an unknown word", b"statu\n", "2 bad_order"),
            ("in capitals", b"STATUS\n", "2 bad_order"),
            ("a word too many", b"status acme\n", "2 bad_order"),
            ("an option of another reading", b"status --json\n", "2 bad_order"),
            ("two tenants", b"show acme globex\n", "2 bad_order"),
            ("an option that isn't the last word", b"show --json acme\n", "2 bad_order"),
            ("four words", b"show acme --json --json\n", "2 bad_order"),
            ("no file", b"backup\n", "2 bad_order"),
            ("two files", b"backup /a /b\n", "2 bad_order"),
            ("a blank before", b" status\n", "2 bad_order"),
            ("a blank behind", b"status \n", "2 bad_order"),
            ("two blanks", b"show  acme\n", "2 bad_order"),
            ("a carriage return", b"status\r\n", "2 bad_order"),
            ("no newline", b"status", "2 bad_order"),
            ("what isn't UTF-8", b"show \xff\n", "2 bad_order"),
            ("4,097 bytes", b"backup /" + 4_088 * b"x" + b"\n", "2 bad_order"),
            ("4,096 bytes", b"backup /" + 4_087 * b"x" + b"\n", "1 device"),
            ("an empty name", b"show \n", "2 bad_field tenant"),
            ("a name that has no form", b"show Acme\n", "2 bad_field tenant"),
            ("the same as JSON", b"show Acme --json\n", "2 bad_field tenant"),
            ("a name that nobody has", b"show nobody\n", "2 no_such_tenant"),
            ("the same of JSON", b"show nobody --json\n", "2 no_such_tenant"),
            ("a name like an option", b"show --json --json\n", "2 no_such_tenant"),
            ("a relative path", b"backup copy.db\n", "2 bad_field file"),
            ("an empty path", b"backup \n", "2 bad_field file"),
        ]
        for name, text, due in rows:
            with self.subTest(name):
                self.assertEqual(answered(self.socket, text), f"{due}\n".encode())
        self.assertEqual(shown(self.socket, "show", "acme").decode(), f"{HEADER}acme    -        -     -         -         -      -\n")

    def test_names(self):
        self.init(ACME)
        self.serve()
        for text in NOT_NAMES:
            with self.subTest(text):
                whole = text and not set(text) & {" ", "\n"}
                due = refused("bad_field tenant" if whole else "bad_order")
                self.assertEqual(send(self.socket, ("show", text)), due)
                self.assertEqual(run(["show", self.db, "--", text]), refused("bad_field tenant"))

    @needs_faults()
    def test_want_of_memory(self):
        """Each growth of memory refused in turn: the whole text, or that memory is wanting."""
        self.make_two()
        with Faulty() as faulty, faulty.serve(self.db, orders=self.socket):
            for words in [("show",), ("show", "acme", "--json"), ("status",)]:
                with self.subTest(words):
                    shown(self.socket, *words)
                    faulty.arm()
                    text = shown(self.socket, *words)
                    told = set()
                    for growth in range(0, faulty.growths, 1 if WHOLE else STRIDE):
                        faulty.arm(growth=growth)
                        told.add(answered(self.socket, line(words)))
                    faulty.disarm()
                    self.assertIn(b"1 no_memory\n", told)
                    # Where memory is wanting as the line is read, it counts as an order.
                    whole = {steady(b"0 %d\n" % len(text) + text)}
                    self.assertLessEqual({steady(answer) for answer in told}, {b"1 no_memory\n", b""} | whole)
                    self.assertEqual(steady(shown(self.socket, *words)), steady(text))

    @needs_faults()
    def test_a_store_that_fails(self):
        """The rows are more than what is kept of the file in memory, so they are read from it again."""
        self.init(ACME)
        put(self.db, "network", [network_row(row, 1, f"n{row}", small_pool(row), f"{240 * 'h'}{row}", 1) for row in range(1, 16_300)])
        with Faulty() as faulty, faulty.serve(self.db, orders=self.socket):
            text = shown(self.socket, "status")
            faulty.arm(file_read=0, file_read_once=1)
            self.assertEqual(tell(self.socket, b"status\n"), b"1 store\n")
            faulty.disarm()
            self.assertEqual(shown(self.socket, "status"), text)


class Status(Reading):
    def test_each_line(self):
        """Of a register without entries: the names, their order, and nothing else."""
        self.init()
        before = int(time.time())
        self.serve()
        began, rest = self.status()
        self.assertTrue(before <= began <= time.time(), began)
        self.assertEqual(rest, status_text())
        with self.subTest("it stays when it began"):
            time.sleep(1.1)
            self.assertEqual(self.status(), (began, status_text()))
        with self.subTest("by `wgr send`"):
            left = send(self.socket, ("status",))
            self.assertEqual(left, Left(0, f"wgr_service_start_time_seconds {began}\n{status_text()}".encode()))

    def test_requests_are_counted_by_the_status_of_their_reply(self):
        self.make_two()
        self.do(("token-grant", "acme", "read", "reads"))
        server = self.serve()
        held = {"key": key(1)}
        asked = [
            *[("200", request("GET", path, token="test")) for path in ["/networks", PEERS, "/networks/lab/peers"]],
            *2 * [("400", request("POST", PEERS, {"key": "x"}, "test"))],
            ("400", b"GET\r\n\r\n"),
            ("400", b""),
            ("401", request("GET", PEERS, token="nobodys")),
            *3 * [("403", request("POST", PEERS, held, "reads"))],
            *2 * [("404", request("GET", "/networks/none/peers", token="test"))],
            ("405", request("DELETE", "/networks", token="test")),
            *5 * [("409", request("POST", PEERS, held, "test"))],
            ("411", NO_LENGTH),
            ("413", TOO_LARGE),
        ]
        for status, message in asked:
            self.assertIn(f"HTTP/1.1 {status} ".encode(), server.send(message, close=not message))
        self.assertEqual(self.status()[1], status_text(requests=(3, 4, 1, 3, 2, 1, 5, 1, 1, 0), rows=(2, 2, 2, 12, 3), kept=(2, 0)))

    def test_orders_are_counted_by_their_status(self):
        self.init()
        self.serve()
        for order, due in [(ACME, DONE), (GLOBEX, DONE), (ACME, refused("name_held")), (("token-grant", "acme", "abc"), DONE)]:
            self.assertEqual(send(self.socket, order), due)
        self.assertEqual(self.status()[1], status_text(orders=(3, 0, 1), rows=(2, 1, 0, 0, 0)))
        with self.subTest("readings don't count"):
            for words in [("show",), ("show", "nobody"), ("status",), ("backup", self.path("copy.db")), ("backup", "copy.db")]:
                send(self.socket, words)
            self.assertEqual(self.status()[1], status_text(orders=(3, 0, 1), rows=(2, 1, 0, 0, 0)))

    @needs_faults()
    def test_what_failed(self):
        """A write that fails: a request is answered 503, an order with status 1, and the service goes on."""
        self.make_two()
        with Faulty() as faulty, faulty.serve(self.db, orders=self.socket) as server:
            faulty.arm(call=0, how=ONCE)
            self.assertEqual(server.send(request("POST", PEERS, {"key": key(20)}, "test")), refused_request(503, "unavailable"))
            faulty.arm(call=0, how=ONCE)
            self.assertEqual(send(self.socket, ("tenant-add", "bolt")), failed("store"))
            faulty.disarm()
            due = status_text(requests=(0, 0, 0, 0, 0, 0, 0, 0, 0, 1), orders=(0, 1, 0), rows=(2, 1, 2, 12, 3), kept=(self.figure("networks_in_memory"), 0))
            self.assertEqual(self.status()[1], due)

    def test_connections_that_failed(self):
        self.init()
        server = self.serve(count=3)
        link = server.connect()
        link.sendall(b"GET")
        link.setsockopt(socket.SOL_SOCKET, socket.SO_LINGER, struct.pack("ii", 1, 0))  # end by a reset
        link.close()
        server.send(request("GET", "/networks"))
        self.assertEqual(self.status()[1], status_text(requests=(0, 0, 1, 0, 0, 0, 0, 0, 0, 0), failed=1))
        with self.subTest("one of the orders' socket"):
            with connect(self.socket) as link:
                link.sendall(b"tenant-add")
                self.assertEqual(read_all(link), b"")
            self.assertEqual(self.figure("failed_connections_total"), 2)
        server.send(request("GET", "/networks"))
        self.assertEqual(server.ended(), Left(0, b"", b"wgr: connection\nwgr: order\n"))

    def test_rows(self):
        """After each change the counts are those of SQLite on a copy."""
        self.init()
        server = self.serve(now=100)
        orders = [ACME, GLOBEX, ("token-grant", "acme", "test"), ("token-grant", "globex", "abc"), LAB, OFFICE]
        for place, step in enumerate([*orders, *ADDED, ("network-end", "acme", "office"), ("token-end", "abc")]):
            if isinstance(step, bytes):
                self.assertIn(b" 200 OK", server.send(step))
            else:
                self.assertEqual(send(self.socket, step), DONE)
            copy = self.path(f"copy{place}.db")
            self.assertEqual(send(self.socket, ("backup", copy)), DONE)
            [due] = self.query(
                "SELECT (SELECT count(*) FROM tenant), (SELECT count(*) FROM token), (SELECT count(*) FROM network), "
                "(SELECT count(*) FROM peer), (SELECT count(*) FROM allowed WHERE kind = 'route')", copy
            )
            self.assertEqual(tuple(self.figure(name) for name in ["tenants", "tokens", "networks", "peers", "routes"]), due)
        self.assertEqual(due, (2, 1, 1, 0, 0))

    def test_a_peer_whose_lease_is_over(self):
        """Its row counts until a change of its network."""
        self.init(ACME)
        self.do(("token-grant", "acme", "test"), OFFICE)
        self.assertIn(b" 200 OK", batch(self.db, 100, [request("POST", PEERS, {"key": key(1), "end": 101}, "test")]).out)
        server = self.serve(now=200)
        self.assertEqual(server.send(request("GET", PEERS, token="test")), done({"peers": []}))
        self.assertEqual(self.figure("peers"), 1)
        server.send(request("POST", PEERS, {"key": key(2)}, "test"))
        self.assertEqual(self.figure("peers"), 1)
        server.send(request("POST", PEERS, {"key": key(3)}, "test"))
        self.assertEqual(self.figure("peers"), 2)

    def test_what_is_in_memory(self):
        self.make_two()
        server = self.serve()
        rows = [
            ("nothing was asked", None, (0, 0)),
            ("a list", ("GET", PEERS, None), (1, 0)),
            ("a server's file", ("GET", "/networks/office/server/wg", None), (1, 1)),
            ("its other form", ("GET", "/networks/office/server/quick", None), (1, 2)),
            ("the same again", ("GET", "/networks/office/server/wg", None), (1, 2)),
            ("a network that isn't there", ("GET", "/networks/none/peers", None), (1, 2)),
            ("another network", ("GET", "/networks/lab/peers", None), (2, 2)),
            ("a change", ("DELETE", f"{PEERS}/1", None), (2, 0)),
        ]
        for name, asked, due in rows:
            with self.subTest(name):
                if asked:
                    server.send(request(*asked, "test"))
                for _ in range(2):
                    self.assertEqual((self.figure("networks_in_memory"), self.figure("files_in_memory")), due)
        with self.subTest("the end of a network"):
            self.assertEqual(send(self.socket, ("network-end", "acme", "office")), DONE)
            self.assertEqual(self.figure("networks_in_memory"), 1)

    def test_what_is_read_by_rows_alone(self):
        """The first request on a network for a new peer or for an owner doesn't load it, and the second one does."""
        self.make_two()
        server = self.serve()
        rows = [
            ("an owner", 200, ("GET", "/networks/office/owner/10.66.0.2", None), 0),
            ("a new peer in another network", 200, ("POST", "/networks/lab/peers", {"key": key(20)}), 0),
            ("a key that is held", 409, ("POST", PEERS, {"key": key(1)}), 1),
            ("nobody's address", 404, ("GET", "/networks/lab/owner/10.66.0.2", None), 2),
        ]
        for name, status, asked, due in rows:
            with self.subTest(name):
                self.assertIn(f"HTTP/1.1 {status} ".encode(), server.send(request(*asked, "test")))
                self.assertEqual(self.figure("networks_in_memory"), due)

    @needs_faults()
    def test_without_a_clock(self):
        self.init()
        with Faulty() as faulty:
            server = faulty.serve(self.db, orders=self.socket)
            faulty.arm(clock=FAILS)
            with server:
                # It reads the clock once it listens, and again for a connection, which it drops and counts.
                with self.assertRaises((OSError, AssertionError)):
                    self.status()
                faulty.disarm()
                self.assertEqual(self.status(), (0, status_text(failed=1)))


class Between(Reading):
    """Readings among the orders and the requests of one service."""

    def test_readings_are_not_counted(self):
        self.make_two()
        server = self.serve(count=2)
        for words in [("status",), ("show",), ("show", "nobody")]:
            send(self.socket, words)
        self.assertEqual(server.send(request("GET", "/networks/lab/peers", token="test")), NOBODY)
        for words in [("show", "acme", "--json"), ("backup", self.path("copy.db"))]:
            self.assertEqual(send(self.socket, words).status, 0)
        self.assertEqual(server.send(request("GET", "/networks/lab/peers", token="test")), NOBODY)
        self.assertEqual(server.ended(), Left(0))

    def test_orders_and_requests_go_on(self):
        """With each reading between any two, they leave what they leave without."""
        self.init(ACME)
        self.do(("token-grant", "acme", "abc"))
        plain = self.path("plain.db")
        shutil.copy(self.db, plain)
        steps = [OFFICE, request("POST", PEERS, {"key": key(1)}), ("tenant-add", "bolt"), request("POST", PEERS, {"key": key(2)}), ("tenant-add", "bolt"), request("DELETE", f"{PEERS}/1"), LIST]

        def follow(database, between):
            path, replies = self.path(f"{len(between)}.orders"), []
            with Server(database, count=4, now=7, orders=path) as server:
                for step in steps:
                    for words in between:
                        tell(path, line(words))
                    replies.append(server.send(step) if isinstance(step, bytes) else send(path, step))
                self.assertEqual(server.ended(), Left(0))
            return replies

        readings = [("status",), ("show",), ("show", "acme", "--json"), ("show", "nobody"), ("backup", self.path("copy.db"))]
        self.assertEqual(follow(self.db, readings), follow(plain, []))
        self.assertEqual(self.rows(), self.rows(plain))
        self.assertEqual(self.query("SELECT id & 1048575 FROM peer"), [(2,)])

    def test_those_that_wait_take_turns_with_the_orders(self):
        """Before requests, each sees what the orders before it have done."""
        self.init(ACME)
        self.do(("token-grant", "acme", "abc"), OFFICE)
        server = self.serve(count=1)
        server.stop()
        first = server.connect()
        first.sendall(request("POST", PEERS, {"key": key(1)}))
        lines = [b"show bolt\n", b"tenant-add bolt\n", b"show bolt\n", b"show acme --json\n", b"tenant-add cato\n"]
        waiting = [connect(self.socket) for _ in lines]
        for link, text in zip(waiting, lines):
            link.sendall(text)
        server.process.send_signal(signal.SIGCONT)
        answers = [read_all(link) for link in waiting]
        bolt = f"{HEADER}bolt    -        -     -         -         -      -\n".encode()
        self.assertEqual(answers[:3], [b"2 no_such_tenant\n", b"0 done\n", b"0 %d\n" % len(bolt) + bolt])
        self.assertIn(b'"peers":0', answers[3])
        self.assertEqual(answers[4], b"0 done\n")
        self.assertEqual(read_all(first), done(peer(1, 1, "10.66.0.2/32")))
        for link in [first, *waiting]:
            link.close()
        self.assertEqual(server.ended(), Left(0))
