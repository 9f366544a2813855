"""Requests of a WireGuard server to the register, of which each ends in time, over connections that are kept."""

import functools
import http.client
import io
import json
import os
import ssl
import time
from urllib.parse import urlsplit

# Seconds that a connection may take to be made, and in which a refusal for the moment is asked again.
CONNECT, AGAIN = 10, 5
# Seconds in which a place isn't asked again that has said nothing in time, so that other networks there needn't wait too.
SILENT = 10
# What a proxy answers for the moment: too many at once, or no service just now.
MOMENTARY = {429, 502, 503, 504}
# No file or list of a network is as large.
LARGEST = 1 << 24

# The system's resolver would wait for minutes.
os.environ.setdefault("RES_OPTIONS", "timeout:2 attempts:2")


class NoReply(Exception):
    """No whole reply came; the text says why."""


class Refused(Exception):
    """A reply that isn't 200. `error` is the member of that name, where the register itself has answered."""

    def __init__(self, status, body):
        self.status, self.error = status, error_of(body)
        super().__init__(f"it answers {status}{f' {self.error}' if self.error else ''}")


def error_of(body):
    try:
        told = json.loads(body)
        return str(told["error"]) if isinstance(told, dict) else None
    except (ValueError, KeyError):
        return None


class Deadline:
    """A moment at which something has to be done."""

    def __init__(self, seconds):
        self.end = time.monotonic() + seconds

    def left(self):
        left = self.end - time.monotonic()
        if left <= 0:
            raise TimeoutError("timed out")
        return left


class Timed(io.RawIOBase):
    """What comes over a socket. Each read ends by the deadline, however little comes at a time."""

    def __init__(self, sock, deadline):
        self.sock, self.raw, self.deadline = sock, sock.makefile("rb", 0), deadline

    def makefile(self, _):
        """What http.client reads of."""
        return io.BufferedReader(self)

    def readable(self):
        return True

    def readinto(self, room):
        self.sock.settimeout(self.deadline.left())
        return self.raw.readinto(room)

    def close(self):
        if not self.closed:
            self.raw.close()
        super().close()


@functools.cache
def context_of(certificates, _modified):
    """Reading the certificates is what takes longest of a short request, so it is done once."""
    return ssl.create_default_context(cafile=certificates)


class Link:
    """A connection to one place, made when it is needed."""

    def __init__(self, scheme, place, certificates=None):
        self.scheme, self.place, self.certificates = scheme, place, certificates
        self.connection = None
        self.heard, self.silent_until = False, 0

    def connect(self, deadline):
        seconds = min(CONNECT, deadline.left())
        if self.scheme == "https":
            modified = os.stat(self.certificates).st_mtime_ns if self.certificates else None
            context = context_of(self.certificates, modified)
            self.connection = http.client.HTTPSConnection(self.place, timeout=seconds, context=context)
        else:
            self.connection = http.client.HTTPConnection(self.place, timeout=seconds)
        self.connection.connect()

    def close(self):
        if self.connection is not None:
            self.connection.close()
            self.connection = None

    def try_once(self, method, path, headers, body, deadline):
        """The status, the headers and the body of a reply."""
        self.heard = False
        if self.connection is None or self.connection.sock is None:
            self.connect(deadline)
        link = self.connection
        link.response_class = lambda sock, **more: http.client.HTTPResponse(Timed(sock, deadline), **more)
        link.sock.settimeout(deadline.left())
        link.request(method, path, body, headers)
        with link.getresponse() as reply:
            self.heard = True
            text = reply.read(LARGEST)
            if reply.length:
                raise http.client.IncompleteRead(text, reply.length)
            return reply.status, reply.headers, text

    def ask_once(self, method, path, headers, body, deadline):
        """The other side may have ended a connection that was kept: then the request is made on a new one."""
        was_kept = self.connection is not None and self.connection.sock is not None
        for is_last in [not was_kept, True]:
            try:
                return self.try_once(method, path, headers, body, deadline)
            except (OSError, http.client.HTTPException, ValueError) as error:
                self.close()
                if isinstance(error, TimeoutError) and not self.heard:
                    self.silent_until = time.monotonic() + SILENT
                broke_off = isinstance(error, (ConnectionError, http.client.RemoteDisconnected))
                if is_last or not broke_off:
                    raise NoReply(reason_of(error)) from None

    def ask(self, method, path, token, deadline, body=None):
        """The body of a reply 200. A refusal for the moment is asked again after as long as it says."""
        if time.monotonic() < self.silent_until:
            raise NoReply("no answer in time to a request just before")
        headers = {"Authorization": f"Bearer {token}"}
        again = Deadline(AGAIN)
        while True:
            status, told, text = self.ask_once(method, path, headers, body, deadline)
            if status == 200:
                return text
            pause = pause_of(told)
            if status not in MOMENTARY or pause >= min(again.end, deadline.end) - time.monotonic():
                raise Refused(status, text)
            time.sleep(pause)


def pause_of(headers):
    """Seconds until it may be asked again."""
    told = headers.get("Retry-After", "1")
    return int(told) if told.isdecimal() else 1


def reason_of(error):
    if isinstance(error, TimeoutError):
        return "no answer in time"
    if isinstance(error, http.client.IncompleteRead):
        return "the reply is cut"
    if isinstance(error, ssl.SSLCertVerificationError):
        return f"its certificate isn't good: {error.verify_message}"
    if isinstance(error, OSError):
        return error.strerror or str(error) or type(error).__name__
    return str(error) or type(error).__name__


class Links:
    """The connections of one thread, by place."""

    def __init__(self):
        self.links = {}

    def to(self, url, certificates):
        parts = urlsplit(url)
        place = parts.scheme, parts.netloc, certificates
        if place not in self.links:
            self.links[place] = Link(*place)
        return self.links[place]
