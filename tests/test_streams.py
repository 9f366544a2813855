"""Broken messages and broken streams: bytes that no client should send, and sockets that give or take little, or fail.

The sockets fail by the library of `faulty.py` in the program itself, so each read and each write of a
connection is met in turn. Each message is answered the same by `serve` and by `batch`.
"""

import ipaddress
import re
import shutil
import signal
import socket
import unittest
from contextlib import suppress

from faulty import WHOLE, Faulty, needs_faults, scratch
from malformed import MALFORMED, UNFINISHED
from program import Left
from serving import Server, done, key, make_register, peer, read_all, refused, request
from test_batch import batch
from test_requests import LINES, text_of

PEERS = "/networks/office/peers"
ADD, LOOK = request("POST", PEERS, {"key": key(1)}), request("GET", PEERS)
ADDED, NOBODY = done(peer(1, 1, "10.8.0.2/32")), done({"peers": []})
THERE = done({"peers": [peer(1, 1, "10.8.0.2/32")]})
NO_PATH, UNKNOWN = refused(404, "no_such_path"), refused(401, "unknown_token")
BODY = refused(400, "bad_field", field="body")
GET = b"GET " + PEERS.encode() + b" HTTP/1.1\r\n"
TOKEN = b"Authorization: Bearer abc\r\n"
POST = b"POST " + PEERS.encode() + b" HTTP/1.1\r\n" + TOKEN
KEY = key(1).encode()


def sized(length, body=b""):
    """A new peer's message with this value of Content-Length."""
    return POST + b"Content-Length: " + length + b"\r\n\r\n" + body


def posted(body):
    return sized(str(len(body)).encode(), body)


def field(name):
    return refused(400, "bad_field", field=name)


# Messages that their client ends by closing its side; `test_open_sides.py` has those that are malformed without that.
ENDED = {**MALFORMED, **UNFINISHED}
# Messages that leave the register without peers, and the reply to each.
MESSAGES = [
    ("HTTP/1.0", GET.replace(b"1.1", b"1.0") + TOKEN + b"\r\n", NOBODY),
    ("empty lines before the head", b"\r\n\n\r\n" + LOOK, NOBODY),
    ("lines that end in a newline alone", LOOK.replace(b"\r\n", b"\n"), NOBODY),
    ("a target beyond ASCII", LOOK.replace(b"/peers", "/pe\u00e9rs".encode()), NO_PATH),
    ("a target with a host", LOOK.replace(b" /", b" http://wgr/"), NO_PATH),
    ("an asterisk as target", LOOK.replace(PEERS.encode(), b"*"), NO_PATH),
    ("a target with a query", LOOK.replace(b"/peers", b"/peers?"), NO_PATH),
    ("a target with an escape", LOOK.replace(b"/peers", b"/%70eers"), NO_PATH),
    ("a target with dots", LOOK.replace(b"/peers", b"/../office/peers"), NO_PATH),
    ("a target with a slash more", LOOK.replace(b"/peers", b"/peers/"), NO_PATH),
    ("a target of 8,000 bytes", b"GET /" + 8_000 * b"a" + b" HTTP/1.1\r\n" + TOKEN + b"\r\n", NO_PATH),
    ("a name of 7,000 bytes", b"GET /networks/" + 7_000 * b"a" + b"/peers HTTP/1.1\r\n" + TOKEN + b"\r\n", refused(404, "no_such_network")),
    ("a network by no name", LOOK.replace(b"office", b"off%69ce"), refused(404, "no_such_network")),
    ("a number with a plus", request("DELETE", f"{PEERS}/+1"), NO_PATH),
    ("a number of 400 digits", request("DELETE", f"{PEERS}/{400 * '1'}"), NO_PATH),
    ("bytes beyond ASCII in a value", GET + TOKEN + b"X: \xff\x80\r\n\r\n", NOBODY),
    ("32 fields", GET + TOKEN + 31 * b"X: y\r\n" + b"\r\n", NOBODY),
    ("an empty token", GET + b"Authorization: Bearer \r\n\r\n", UNKNOWN),
    ("a token of 129 bytes", GET + b"Authorization: Bearer " + 129 * b"a" + b"\r\n\r\n", UNKNOWN),
    ("a token of 7,000 bytes", GET + b"Authorization: Bearer " + 7_000 * b"a" + b"\r\n\r\n", UNKNOWN),
    ("two tokens in one value", GET + b"Authorization: Bearer abc abc\r\n\r\n", UNKNOWN),
    ("a tab behind the scheme", GET + b"Authorization: Bearer\tabc\r\n\r\n", UNKNOWN),
    ("a token beyond ASCII", GET + b"Authorization: Bearer ab\xe7\r\n\r\n", UNKNOWN),
    ("an empty body", posted(b""), BODY),
    ("1,000 arrays without an end", posted(1_000 * b"["), BODY),
    ("1,000 arrays", posted(1_000 * b"[" + 1_000 * b"]"), BODY),
    ("1,000 objects", posted(1_000 * b'{"a":' + b"1" + 1_000 * b"}"), BODY),
    ("a member of 1,000 arrays", posted(b'{"key":' + 1_000 * b"[" + 1_000 * b"]}"), BODY),
    ("a body that is not UTF-8", posted(b'{"key":"\xff"}'), BODY),
    ("a body in UTF-16", posted('{"key":"a"}'.encode("utf-16")), BODY),
    ("a byte order mark", posted(b'\xef\xbb\xbf{"key":"' + KEY + b'"}'), BODY),
    ("half a surrogate", posted(b'{"key":"\\ud800"}'), BODY),
    ("a control byte in a text", posted(b'{"label":"\x01","key":"' + KEY + b'"}'), BODY),
    ("a NUL behind the object", posted(b'{"key":"' + KEY + b'"}\0'), BODY),
    ("two objects", posted(2 * (b'{"key":"' + KEY + b'"}')), BODY),
    ("a text", posted(b'"' + KEY + b'"'), BODY),
    ("an array", posted(b'["' + KEY + b'"]'), BODY),
    ("null", posted(b"null"), BODY),
    ("a comma too many", posted(b'{"key":"' + KEY + b'",}'), BODY),
    ("apostrophes", posted(b"{'key':'" + KEY + b"'}"), BODY),
    ("a comment", posted(b'{"key":"' + KEY + b'"/**/}'), BODY),
    ("no number", posted(b'{"key":"' + KEY + b'","end":NaN}'), BODY),
    ("a number beyond all", posted(b'{"key":"' + KEY + b'","end":1e999}'), BODY),
    ("an empty member", posted(b'{"key":"' + KEY + b'","":1}'), BODY),
    ("a member twice, the last of no form", posted(b'{"key":"' + KEY + b'","key":"x"}'), field("key")),
    ("a key of null", posted(b'{"key":null}'), field("key")),
    ("an end of null", posted(b'{"key":"' + KEY + b'","end":null}'), field("end")),
    ("an end with a point", posted(b'{"key":"' + KEY + b'","end":200.0}'), field("end")),
    ("an end with an exponent", posted(b'{"key":"' + KEY + b'","end":2e2}'), field("end")),
    ("an end of minus zero", posted(b'{"key":"' + KEY + b'","end":-0}'), field("end")),
    ("an end as a text", posted(b'{"key":"' + KEY + b'","end":"200"}'), field("end")),
    ("an end of 2 to the 64th", posted(b'{"key":"' + KEY + b'","end":18446744073709551616}'), field("end")),
    ("a keepalive of 100 digits", posted(b'{"key":"' + KEY + b'","keepalive":' + 100 * b"9" + b"}"), field("keepalive")),
    ("a label with a NUL", posted(b'{"key":"' + KEY + b'","label":"\\u0000"}'), field("label")),
    ("a key with a bit too many", posted(b'{"key":"' + KEY[:42] + b'F="}'), field("key")),
]

# Messages that each add the first peer.
ADDS = [
    ("a length of 20 digits", sized(b"00000000000000000054", b'{"key":"' + KEY + b'"}')),
    ("blanks and tabs around a length", sized(b" \t54\t ", b'{"key":"' + KEY + b'"}')),
    ("a member twice, the last of its form", posted(b'{"key":"x","key":"' + KEY + b'"}')),
    ("escapes in a text", posted(b'{"k\\u0065y":"' + KEY.replace(b"A", b"\\u0041") + b'"}')),
    ("blanks in the body", posted(b' \r\n\t{ "key" :\n"' + KEY + b'" }\n')),
]

DIGITS, SOME = r"[0-9]{1,20}", r"[!-\xff]{1,256}"
KEY_OR_NONE = r"[A-Za-z0-9+/]{43}=|\(none\)"
# The forms of the fields of a dump's lines; there is none for the prefixes.
INTERFACE = [KEY_OR_NONE, KEY_OR_NONE, r"[0-9]{1,5}", SOME]
LINE = [r"[A-Za-z0-9+/]{43}=", KEY_OR_NONE, SOME, None, DIGITS, DIGITS, DIGITS, r"off|[0-9]{1,5}"]


def are_prefixes(text):
    try:
        return text == "(none)" or all(map(ipaddress.ip_interface, text.split(",")))
    except ValueError:
        return False


def fault_of(text):
    """The first line of a text that isn't of a dump's form, and its first field that isn't; none for a dump."""
    lines = text.removesuffix("\n").split("\n")
    for number, line in enumerate(lines, 1):
        fields = line.split("\t")
        for place, form in enumerate(INTERFACE if number == 1 else LINE, 1):
            given = fields[place - 1] if place <= len(fields) else ""
            if not (are_prefixes(given) if form is None else re.fullmatch(form, given)):
                return number, place
    return None


class Served(unittest.TestCase):
    maxDiff = None

    def setUp(self):
        self.folder = self.enterContext(scratch())
        self.database = make_register(self.folder)


class Messages(Served):
    def test_messages(self):
        with Server(self.database, now=100) as server:
            for name, message, due in MESSAGES:
                with self.subTest(name):
                    self.assertEqual(server.send(message), due)
            for name, (message, due) in ENDED.items():
                with self.subTest(name):
                    self.assertEqual(server.send(message, close=True), due)
            self.assertEqual(server.send(LOOK), NOBODY)
        rows = [row[-2:] for row in [*MESSAGES, *ENDED.values()]]
        left = batch(self.database, 100, [message for message, _ in rows])
        with self.subTest("all in files"):
            self.assertEqual(left, Left(0, b"".join(due for _, due in rows)))

    def test_messages_that_add_a_peer(self):
        end = request("DELETE", f"{PEERS}/%d")
        with Server(self.database, now=100) as server:
            for number, (name, message) in enumerate(ADDS, 1):
                with self.subTest(name):
                    self.assertEqual(server.send(message), done(peer(number, 1, "10.8.0.2/32")))
                    self.assertEqual(server.send(end % number), done({"revoked": number}))

    def test_a_dump_that_is_cut(self):
        """Cut anywhere, it is a dump at eleven lengths alone."""
        text = text_of(LINES).decode()
        whole, given = [], 0
        with Server(self.database, now=100) as server:
            for length in range(len(text) + 1):
                reply = server.ask("POST", "/networks/office/dump", text[:length].encode())
                fault = fault_of(text[:length])
                with self.subTest(length=length):
                    if fault:
                        self.assertEqual(reply, refused(400, "bad_dump", line=fault[0], field=fault[1]))
                        continue
                    lines = text[:length].removesuffix("\n").count("\n")
                    added = list(range(given + 1, given + lines + 1))
                    self.assertEqual(reply, done({"added": added, "known": 0}))
                    for number in added:
                        server.ask("DELETE", f"{PEERS}/{number}")
                    given += lines
                    whole.append(length)
            self.assertEqual(server.send(LOOK), NOBODY)
        ends = [place for place, byte in enumerate(text) if byte == "\n"]
        last = text.index("\t25\n") + 2
        eleven = {ends[0] - 2, ends[0] - 1, last, *ends, *(end + 1 for end in ends)}
        self.assertEqual((set(whole), len(eleven)), (eleven, 11))


@needs_faults()
class Streams(Served):
    """Sockets of the service that fail, give or take little."""

    def setUp(self):
        super().setUp()
        self.faulty = self.enterContext(Faulty())

    def answers(self, message, look=LOOK, **wanted):
        """What a new service writes to a message where this fails, what it shows then, and what it prints."""
        with scratch() as folder, self.faulty.serve(shutil.copy(self.database, folder), count=2, now=100) as server:
            self.faulty.arm(**wanted)
            with server.connect() as link:
                written = b""
                # A service that goes without having read all of the message resets the connection.
                with suppress(OSError):
                    link.sendall(message)
                    link.shutdown(socket.SHUT_WR)
                with suppress(ConnectionResetError):
                    written = read_all(link)
            self.faulty.disarm()
            return written, server.send(look), server.ended()

    def test_single_bytes(self):
        rows = [
            ("each read gives one byte", {"receive_most": 1}),
            ("each write takes one byte", {"send_most": 1}),
            ("both", {"receive_most": 1, "send_most": 1}),
        ]
        for name, wanted in rows:
            with self.subTest(name):
                self.assertEqual(self.answers(ADD, **wanted), (ADDED, THERE, Left(0)))
                counts = self.faulty.receives >= len(ADD), self.faulty.sends == len(ADDED)
                self.assertEqual(counts, ("receive_most" in wanted, "send_most" in wanted))

    def test_each_read_fails(self):
        """Nothing is done, nothing written, and the failure is printed."""
        for number in range(0, len(ADD), 1 if WHOLE else 9):
            with self.subTest(number):
                left = self.answers(ADD, receive=number, receive_most=1)
                self.assertEqual(left, (b"", NOBODY, Left(0, b"", b"wgr: connection\n")))
                self.assertEqual(self.faulty.sends, 0)
        with self.subTest("a read behind the message"):
            self.assertEqual(self.answers(ADD, receive=len(ADD), receive_most=1), (ADDED, THERE, Left(0)))

    def test_each_write_fails(self):
        """What was asked is done, the reply's beginning is written, and the failure is printed."""
        for number in range(0, len(ADDED), 1 if WHOLE else 17):
            for name, zero in [("fails", 0), ("takes nothing", 1)]:
                with self.subTest(name, number=number):
                    left = self.answers(ADD, send=number, send_most=1, send_zero=zero)
                    self.assertEqual(left, (ADDED[:number], THERE, Left(0, b"", b"wgr: connection\n")))

    def test_two_clients(self):
        """Both have sent all before the first is served."""
        with Server(self.database, count=2, now=100) as server:
            server.stop()
            with server.connect() as first, server.connect() as second:
                second.sendall(LOOK)
                first.sendall(ADD)
                server.process.send_signal(signal.SIGCONT)
                self.assertEqual([read_all(first), read_all(second)], [ADDED, THERE])
            self.assertEqual(server.ended(), Left(0))
