"""`wgr serve` by the clock: leases that end while it runs, clients that pause, and what each costs the next.

Each case waits for seconds. So each has a register and a service of its own, and they run side by side.
"""

import json
import socket
import tempfile
import time
import unittest
from concurrent.futures import ThreadPoolExecutor
from pathlib import Path

from faulty import EARLY, FAILS, Faulty, needs_faults
from program import Left
from serving import LIST, NOBODY, PEERS, TOKEN, Server, done, key, make_register, peer, read_all, refused, reply, request

HEAD = f"GET {PEERS} HTTP/1.1\r\nAuthorization: Bearer {TOKEN}\r\n".encode()
# Seconds after which an answer doesn't count as one at once: it would have come with the end of the client's ten.
SOON = 8
# Seconds that a lease lasts where what is done before its end has to be done in time: more where the machine was too slow.
SPANS = [4, 8, 16, 32, 64]


def wait_until(moment):
    time.sleep(max(0, moment - time.time()))


def before_an_end(server, act, undo=lambda made: None):
    """Adds a peer, and does this with its number and the end of its lease, which comes behind it; gives these and what was made."""
    for span in SPANS:
        end = int(time.time()) + span
        told = server.ask("POST", PEERS, {"key": key(1), "end": end})
        if told.startswith(b"HTTP/1.1 200 "):
            number = json.loads(told.partition(b"\r\n\r\n")[2])["number"]
            made = act(number, end)
            if time.time() < end:
                return number, end, made
            undo(made)
        wait_until(end + 0.1)
    raise AssertionError("the machine is too slow")


def an_end_that_is_over(server):
    now = int(time.time())
    late = [("GET", PEERS, None, NOBODY)]
    for end in [1, now - 3600, now - 60, now - 5, now]:
        late.append(("POST", PEERS, {"key": key(1), "end": end}, refused(409, "lease_over")))
    for method, path, body, due in late:
        yield f"{method} {body}", server.ask(method, path, body), due


def an_end_that_comes(server):
    def ask(number, end):
        listed = done({"peers": [peer(number, 1, "10.8.0.2/32", end=end)]})
        rows = [("added", server.ask("GET", PEERS), listed)]
        rows.append(("its address", server.ask("GET", "/networks/office/owner/10.8.0.2"), done({"number": number})))
        # No request comes between this one and the end.
        wait_until(end - 1)
        return [*rows, ("before its end", server.ask("GET", PEERS), listed)]

    number, end, rows = before_an_end(server, ask)
    yield from rows
    wait_until(end + 0.1)
    yield "at its end", server.ask("GET", PEERS), NOBODY
    yield "its address then", server.ask("GET", "/networks/office/owner/10.8.0.2"), refused(404, "nobodys_address")
    yield "its file then", server.ask("GET", f"{PEERS}/{number}/file/wg"), refused(404, "no_such_peer")
    file = reply(200, b"[Interface]\nListenPort = 51820\n", "text/plain")
    yield "the server's file then", server.ask("GET", "/networks/office/server/wg"), file


def the_moment_of_a_connection(server):
    """It is that at which the service begins to read it: of the second, once the first is answered."""
    def begin(number, end):
        first = server.connect()
        first.sendall(LIST[:1])
        server.has_read(first)
        return first

    number, end, first = before_an_end(server, begin, undo=socket.socket.close)
    with first, server.connect() as second:
        second.sendall(LIST)
        wait_until(end + 0.2)
        first.sendall(LIST[1:])
        yield "taken before the end", read_all(first), done({"peers": [peer(number, 1, "10.8.0.2/32", end=end)]})
        yield "taken after the end", read_all(second), NOBODY


def a_pause(*parts):
    """A client that stops in its request for three seconds."""

    def ask(server):
        with server.connect() as link:
            for part in parts[:-1]:
                link.sendall(part)
                time.sleep(3)
            link.sendall(parts[-1])
            yield "answered", read_all(link), NOBODY
        yield "and the next", server.ask("GET", PEERS), NOBODY

    return ask


def within(server, message):
    """What is answered to a client that keeps its side open, and whether it came soon."""
    with server.connect() as link:
        link.settimeout(SOON)
        link.sendall(message)
        try:
            return read_all(link)
        except TimeoutError:
            return b"nothing in time"


def an_open_side(server):
    """A message is answered once it is decided, though its client could send more."""
    for length in [200, 4_096, 4_097, 5_000, 8_191, 8_192]:
        message = HEAD + b"X: " + (length - len(HEAD) - 7) * b"x" + b"\r\n\r\n"
        yield f"a head of {length} bytes", within(server, message), NOBODY
    for length in [0, 2, 4_096, 5_000, 100_000]:
        message = request("POST", PEERS, length * b"x")
        yield f"a body of {length} bytes", within(server, message), refused(400, "bad_field", field="body")
    yield "a head that is too long", within(server, HEAD + 9_000 * b"x"), refused(413, "too_large")


def a_client_that_stays(server):
    """Behind its reply it costs the next one a quarter of a second, and not all of its own time."""
    with server.connect() as first:
        first.sendall(LIST)
        begin = time.monotonic()
        yield "the one that stays", read_all(first), NOBODY
        yield "the next", within(server, LIST), NOBODY
        yield "seconds", time.monotonic() - begin < SOON, True


def a_reply_read_late(server):
    """A client that is refused by its head, but sends all of its body first, can send it, and gets its reply."""
    for pieces, pause in [(1, 0), (1, 0.1), (24, 0.01)]:
        # Behind its reply the service waits a quarter of a second for each piece, and a second for all: a client that a
        # busy machine makes slower tries again.
        for _ in range(50):
            told, is_in_time = send_too_much(server, pieces, pause)
            if is_in_time:
                break
        yield f"3 MiB in {pieces} pieces, {pause} seconds apart", told, refused(413, "too_large")


def send_too_much(server, pieces, pause):
    """What is answered, and whether the pieces came in time."""
    large = f"POST {PEERS} HTTP/1.1\r\nAuthorization: Bearer {TOKEN}\r\nContent-Length: 3145728\r\n\r\n".encode()
    with server.connect() as link:
        moments = [time.monotonic()]
        try:
            link.sendall(large)
            for _ in range(pieces):
                # By then the reply is on its way.
                time.sleep(pause)
                link.sendall(3_145_728 // pieces * b" ")
                moments.append(time.monotonic())
            time.sleep(1)
            told = read_all(link)
        except OSError as fault:
            told = str(fault)
            moments.append(time.monotonic())
    longest = max(later - earlier for earlier, later in zip(moments, moments[1:]))
    return told, longest < 0.2 and moments[-1] - moments[0] < 0.8 or told == refused(413, "too_large")


CASES = [
    ("an end that is over", an_end_that_is_over),
    ("an end that comes", an_end_that_comes),
    ("the moment of a connection", the_moment_of_a_connection),
    ("a pause in the head", a_pause(HEAD, b"\r\n")),
    ("a pause in the first line", a_pause(HEAD[:7], HEAD[7:] + b"\r\n")),
    ("a pause in a body", a_pause(HEAD + b"Content-Length: 4\r\n\r\n12", b"34")),
    ("an open side", an_open_side),
    ("a client that stays", a_client_that_stays),
    ("a reply that is read late", a_reply_read_late),
]


class Clock(unittest.TestCase):
    def test_cases(self):
        folder = self.enterContext(tempfile.TemporaryDirectory())
        servers = []
        for place, _ in enumerate(CASES):
            own = Path(folder) / str(place)
            own.mkdir()
            servers.append(self.enterContext(Server(make_register(own))))
        with ThreadPoolExecutor(len(CASES)) as pool:
            seen = pool.map(lambda case, server: list(case[1](server)), CASES, servers)
            for (name, _), rows in zip(CASES, seen, strict=True):
                for what, given, due in rows:
                    with self.subTest(name, what=what):
                        self.assertEqual(given, due)


class Broken(unittest.TestCase):
    """A clock that gives no moment: the connection fails, is reported and counts, and the next one is answered."""

    def setUp(self):
        folder = self.enterContext(tempfile.TemporaryDirectory())
        self.database = make_register(folder)

    @needs_faults()
    def test_a_clock_that_gives_no_moment(self):
        with Faulty() as faulty, faulty.serve(self.database, count=4) as server:
            for name, clock, due in [("fails", FAILS, b""), ("before 1970", EARLY, b""), ("fails again", FAILS, b""), ("works", 0, NOBODY)]:
                with self.subTest(name):
                    faulty.arm(clock=clock)
                    self.assertEqual(server.send(LIST), due)
            self.assertEqual(server.ended(), Left(0, b"", 3 * b"wgr: connection\n"))

    @needs_faults()
    def test_a_moment_that_is_given(self):
        with Faulty() as faulty, faulty.serve(self.database, count=2, now=7) as server:
            for clock in [FAILS, EARLY]:
                with self.subTest(clock):
                    faulty.arm(clock=clock)
                    self.assertEqual(server.send(LIST), NOBODY)
            self.assertEqual(server.ended(), Left(0))
