"""Clients that keep their side of the connection open, as most do: what is malformed is answered at once, what is unfinished
is ended by the service's limit, and neither holds up others for longer. Directly, through nginx and through HAProxy.
"""

import socket
import ssl
import tempfile
import time
import unittest
from concurrent.futures import ThreadPoolExecutor
from contextlib import suppress
from pathlib import Path

from fronts import HAProxy, Nginx
from malformed import BODIES, MALFORMED, UNFINISHED
from plain_messages import is_open
from program import Left
from serving import LIST, NOBODY, PEERS, Server, make_register, read_all, refused, request
from tools import needs

# Seconds in which a message has to be whole, those in which an answer is due that doesn't wait for them, and what a busy
# machine may add to them.
LIMIT, SOON, MORE = 10, 8, 9
# Messages that are whole, and the reply to each.
GOOD = {
    "a GET": (LIST, NOBODY),
    "a GET with a body": (request("GET", PEERS, b"{}"), NOBODY),
    "a POST": (request("POST", PEERS, {"key": "x"}), refused(400, "bad_field", field="key")),
    "a target beyond ASCII": (LIST.replace(b"/peers", "/pé€𝄞rs".encode()), refused(404, "no_such_path")),
    "empty lines first": (b"\r\n\n\r\n" + LIST, NOBODY),
}
# A message that lacks its last byte.
SHORT = GOOD["a POST"][0][:-1]
# How many services take the messages of a table side by side.
SERVICES = 8


def answer_to(server, *parts):
    """What is answered to these parts, of which each comes by itself, and the client stays; or that nothing is, in time."""
    with server.connect() as link:
        link.setsockopt(socket.IPPROTO_TCP, socket.TCP_NODELAY, 1)
        for part in parts[:-1]:
            link.sendall(part)
            link.settimeout(0.002)
            with suppress(TimeoutError):
                return b"before its end: " + link.recv(65_536)
        link.settimeout(SOON)
        try:
            link.sendall(parts[-1])
            return read_all(link)
        except TimeoutError:
            return b"nothing in time"


def places_in(message):
    """Where to cut a message: anywhere, but for the middle of a long one."""
    return [place for place in range(len(message)) if place < 99 or place > len(message) - 9 or 8_187 < place < 8_196]


def wrong_cut(server, message, due):
    """The first place at which a cut makes another answer, with the answer: a part that decides is all that is sent."""
    for place in places_in(message):
        front, back = message[:place], message[place:]
        given = answer_to(server, front, back) if is_open(front) else answer_to(server, front)
        if given != due:
            return place, given
    return None


def cut_short():
    """What is unfinished, and good messages that are cut in some places."""
    yield from UNFINISHED.values()
    for message, _ in GOOD.values():
        for place in [len(message) // 3, 2 * len(message) // 3, len(message) - 1]:
            yield message[:place], None


class Direct(unittest.TestCase):
    def setUp(self):
        self.folder = Path(self.enterContext(tempfile.TemporaryDirectory()))

    def serve(self, place, **words):
        folder = self.folder / str(place)
        folder.mkdir()
        return self.enterContext(Server(make_register(folder), **words))

    def over_services(self, ask, rows):
        """What is found of each row; each service is asked of some of them, in turn."""
        servers = [self.serve(place) for place in range(SERVICES)]

        def ask_some(place):
            return [ask(servers[place], *row) for row in rows[place::SERVICES]]

        with ThreadPoolExecutor(SERVICES) as asking:
            found = list(asking.map(ask_some, range(SERVICES)))
        return [found[place % SERVICES][place // SERVICES] for place in range(len(rows))]

    def test_malformed_messages(self):
        rows = {**GOOD, **MALFORMED}
        given = self.over_services(lambda server, message, _: answer_to(server, message), list(rows.values()))
        for (name, (_, due)), reply in zip(rows.items(), given, strict=True):
            with self.subTest(name):
                self.assertEqual(reply, due)

    def test_cuts(self):
        """Wherever the bytes are cut into reads, the answer is one, and comes as soon as it is decided."""
        rows = {**GOOD, **MALFORMED}
        found = self.over_services(wrong_cut, list(rows.values()))
        for name, wrong in zip(rows, found, strict=True):
            with self.subTest(name):
                self.assertIsNone(wrong)

    def ended(self, server, message):
        """What an unfinished message is answered, the seconds that it takes, and what the next client is answered then."""
        began = time.monotonic()
        with server.connect() as link, server.connect() as other:
            link.sendall(message)
            other.sendall(LIST)
            link.settimeout(LIMIT + MORE)
            try:
                reply = read_all(link)
            except TimeoutError:
                reply = b"nothing, and it was not ended"
            spent = time.monotonic() - began
            link.close()
            return reply, spent, read_all(other)

    def test_unfinished_messages(self):
        """Each has a service of its own, and all wait at once."""
        messages = [message for message, _ in cut_short()]
        servers = [self.serve(place, count=2) for place in range(len(messages))]
        with ThreadPoolExecutor(len(messages)) as asking:
            given = list(asking.map(self.ended, servers, messages))
        for message, server, (reply, spent, other) in zip(messages, servers, given, strict=True):
            with self.subTest(message[:99], length=len(message)):
                self.assertEqual((reply, other), (b"", NOBODY))
                self.assertTrue(LIMIT - 0.5 < spent < LIMIT + MORE, spent)
                self.assertEqual(server.ended(), Left(0, b"", b"wgr: connection\n"))


class AnyFront:
    """Tests of either proxy, which has a limit of its own, and reads on where the service wouldn't."""

    def answer_to(self, message):
        """What is answered until there is a head, or the connection is closed, and the seconds that it takes."""
        reply = b""
        with self.link().sock as link, suppress(ConnectionError, ssl.SSLEOFError):
            began = time.monotonic()
            link.settimeout(self.limit + MORE)
            try:
                link.sendall(message)
                while b"\r\n\r\n" not in reply and (part := link.recv(65_536)):
                    reply += part
            except TimeoutError:
                reply = b"nothing, and it was not ended"
        return reply, time.monotonic() - began

    def test_open_sides(self):
        """All are there at once, and another client is answered meanwhile."""
        messages = [message for message, _ in [*cut_short(), *MALFORMED.values()]]
        # A head that has ended decides it, where no body is wanted.
        soon = {message for name, (message, _) in MALFORMED.items() if name not in BODIES and b"\r\n\r\n" in message.lstrip(b"\r\n")}
        with ThreadPoolExecutor(len(messages)) as asking:
            asked = asking.map(self.answer_to, messages)
            for _ in range(10):
                time.sleep(self.limit / 12)
                began = time.monotonic()
                self.assertEqual(self.ask("GET", PEERS, link=self.link(source="127.0.0.2"))[:2], (200, NOBODY.partition(b"\r\n\r\n")[2]))
                self.assertLess(time.monotonic() - began, SOON)
            for message, (reply, spent) in zip(messages, asked, strict=True):
                with self.subTest(message[:99], length=len(message)):
                    # A proxy may pass on less than was sent, which then is no longer malformed.
                    self.assertRegex(reply, rb"""(?s)\A(HTTP/1\.[01] (200|4\d\d|501|505) .*|{"error":"\w+"})?\Z""")
                    self.assertLess(spent, SOON if message in soon else self.limit + MORE)
                    if message == SHORT:
                        self.assertRegex(reply, self.told)


@needs("nginx", "openssl")
class ByNginx(AnyFront, Nginx):
    limit = 10
    # The connection is closed without a reply.
    told = rb"\A\Z"


@needs("haproxy", "openssl", "bash")
class ByHAProxy(AnyFront, HAProxy):
    limit = 20
    told = rb"\AHTTP/1\.1 408 "
