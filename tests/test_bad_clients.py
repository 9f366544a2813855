"""Clients that would hold up others: many that connect and send nothing, directly and through the proxies, and there also such
that send a byte a second, or take nothing of a large reply; and a service that has no descriptors left. In all of these another
client is served within the limit. `test_limits.py` has slow clients of the service itself.
"""

import itertools
import os
import resource
import socket
import tempfile
import threading
import time
import unittest
from concurrent.futures import ThreadPoolExecutor
from contextlib import ExitStack, suppress
from pathlib import Path

from crowd import OFFICE, SERVER, Crowd, make_place
from fronts import HAProxy, Nginx
from program import in_time
from serving import LIST, NOBODY, Server, make_register, read_all
from tools import needs

# Seconds in which a message has to be whole, those in which an answer comes that doesn't wait for them, and what a busy
# machine may add to them.
LIMIT, SOON, MORE = 10, 8, 9
SILENT = 500
# Connections that have sent nothing which the service keeps (docs/SPECIFICATION.md).
KEPT = 256


def next_answer(server, began):
    """What another client is answered, which comes now, and the seconds since."""
    with server.connect() as link:
        link.settimeout(2 * LIMIT + MORE)
        link.sendall(LIST)
        return rest_of(link), time.monotonic() - began


def rest_of(link):
    try:
        return read_all(link)
    except TimeoutError:
        return b"nothing in time"


def open_files(server, kind=""):
    """The numbers of its open files, or of those of a kind."""
    found = set()
    for path in Path(f"/proc/{server.process.pid}/fd").iterdir():
        # It may be closed meanwhile.
        with suppress(FileNotFoundError):
            if os.readlink(path).startswith(kind):
                found.add(int(path.name))
    return found


def are_open(server, files):
    """Whether these are its open files once nobody is there, and the socket of the last one is closed."""
    return in_time(lambda: open_files(server) == files)


def send_slowly(link, message, seconds):
    """Sends a byte a second, until the other side ends the connection or the time is over."""
    for byte in message[:seconds]:
        try:
            link.sendall(bytes([byte]))
            link.settimeout(1)
            with suppress(TimeoutError):
                if not link.recv(65_536):
                    return
        except OSError:
            return


def many_that_send_nothing(server):
    """They hold up nobody. Those that are more than the service keeps are ended at once, the oldest first, and the others by the limit."""
    open_before = open_files(server)
    with ExitStack() as held:
        links = [held.enter_context(server.connect()) for _ in range(SILENT)]
        # The last one is accepted now.
        began = time.monotonic()
        for _ in range(20):
            reply, waited = next_answer(server, time.monotonic())
            yield "the next", (reply, waited < SOON), (NOBODY, True)
            if reply != NOBODY:
                return
        for place, link in enumerate(links):
            link.settimeout(LIMIT + MORE)
            reply = rest_of(link)
            yield "no reply", reply, b""
            if reply:
                return
            if place in [SILENT - KEPT - 1, SILENT - 1]:
                ended = time.monotonic() - began
                yield "in time", LIMIT - 1 < ended < LIMIT + MORE if place == SILENT - 1 else ended < SOON, True
    yield "nobody is left", (server.send(LIST), are_open(server, open_before)), (NOBODY, True)


def no_descriptors_left(server):
    """It may open none for a second and a half: who comes then waits, and is answered once it may."""
    process, open_now = server.process.pid, open_files(server)
    most = resource.prlimit(process, resource.RLIMIT_NOFILE)
    lowest = next(number for number in itertools.count() if number not in open_now)
    resource.prlimit(process, resource.RLIMIT_NOFILE, (lowest, most[1]))
    began = time.monotonic()
    with ThreadPoolExecutor(1) as other:
        answer = other.submit(next_answer, server, began)
        time.sleep(1.5)
        yield "nobody is answered", answer.done(), False
        resource.prlimit(process, resource.RLIMIT_NOFILE, most)
        reply, waited = answer.result()
    yield "the next", (reply, waited < LIMIT + MORE), (NOBODY, True)
    with ThreadPoolExecutor(20) as many:
        yield "many", set(many.map(server.send, 200 * [LIST])), {NOBODY}
    yield "none is left open", are_open(server, open_now), True


# Each case has a service of its own, and all run side by side.
CASES = {"many that send nothing": many_that_send_nothing, "no descriptors left": no_descriptors_left}


def rows_of(case, server):
    """The rows of a case, also where it can't connect or its connection breaks."""
    rows = []
    try:
        rows.extend(case(server))
    except OSError as fault:
        rows.append(("it broke off", repr(fault), None))
    return rows


class Direct(unittest.TestCase):
    def test_cases(self):
        servers = []
        for _ in CASES:
            folder = self.enterContext(tempfile.TemporaryDirectory())
            servers.append(self.enterContext(Server(make_register(folder))))
        with ThreadPoolExecutor(len(CASES)) as running:
            seen = running.map(rows_of, CASES.values(), servers)
            for name, rows in zip(CASES, seen, strict=True):
                for what, given, due in rows:
                    with self.subTest(name, what=what):
                        self.assertEqual(given, due)


class AnyFront:
    """Tests of either proxy, with bad clients of one address, and another client of another one."""

    make_register = staticmethod(make_place)

    def begin_silent(self, held):
        """500 that connect, of which half begin TLS."""
        for number in range(SILENT):
            link = held.enter_context(socket.socket())
            link.bind(("127.0.0.2", 0))
            link.settimeout(1)
            with suppress(OSError):
                link.connect(("127.0.0.1", self.port))
                link.send(b"\x16\x03\x01" if number % 2 else b"")

    def bad_link(self):
        """A connection of the bad clients' address. HAProxy takes none until it has seen that enough of those before are gone."""
        made = []

        def is_made():
            with suppress(OSError):
                made.append(self.link(source="127.0.0.2"))
            return made

        self.assertTrue(in_time(is_made))
        return made[0]

    def begin_slow(self, held):
        """20 that send a byte a second."""
        for _ in range(20):
            link = self.bad_link()
            held.callback(link.close)
            threading.Thread(target=send_slowly, args=(link.sock, LIST, LIMIT), daemon=True).start()

    def begin_taking_nothing(self, held):
        """20 that ask for the list of all, and read nothing."""
        for _ in range(20):
            link = self.bad_link()
            held.callback(link.close)
            link.sock.sendall(LIST)

    def waited(self):
        """The seconds that another client waits for a small reply."""
        began, link = time.monotonic(), self.link(source="127.0.0.3")
        self.assertEqual(self.ask("GET", f"{OFFICE}/owner/{SERVER + 1}", link=link)[:2], (200, b'{"number":1}'))
        link.close()
        return time.monotonic() - began

    def test_bad_clients(self):
        sockets = open_files(self.serving, "socket:")
        self.assertTrue(self.serving.send(Crowd().dump()).startswith(b"HTTP/1.1 200 "))
        # The first change has opened the log, and its own socket is closed by now.
        self.assertTrue(in_time(lambda: open_files(self.serving, "socket:") == sockets))
        open_now = open_files(self.serving)
        for name, begin in [("silent", self.begin_silent), ("slow", self.begin_slow), ("taking nothing", self.begin_taking_nothing)]:
            with ExitStack() as held, self.subTest(name):
                begin(held)
                for _ in range(5):
                    self.assertLess(self.waited(), SOON)
                    time.sleep(1)
        self.assertTrue(are_open(self.serving, open_now))


@needs("nginx", "openssl")
class ByNginx(AnyFront, Nginx):
    pass


@needs("haproxy", "openssl", "bash")
class ByHAProxy(AnyFront, HAProxy):
    pass
