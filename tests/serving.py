"""A running `wgr serve`, requests to it, and the replies that are due."""

import collections
import fcntl
import json
import select
import signal
import socket
import subprocess
import tempfile
import termios
import unittest
from pathlib import Path

import openapi
import program
from keys import key_text

TOKEN = "abc"


def key(byte):
    """The text of the key of 32 such bytes."""
    return key_text(bytes([byte]) * 32)


SERVER_KEY = key(9)

# The network of `make_register`: the path to its peers, and what the list of networks shows of it.
PEERS = "/networks/office/peers"
OFFICE = {
    "capacity": 4096,
    "endpoint": "vpn.example.net:51820",
    "name": "office",
    "pool": "10.8.0.0/24",
    "server": SERVER_KEY,
}

REASONS = {
    200: "OK",
    400: "Bad Request",
    401: "Unauthorized",
    403: "Forbidden",
    404: "Not Found",
    405: "Method Not Allowed",
    409: "Conflict",
    411: "Length Required",
    413: "Content Too Large",
    503: "Service Unavailable",
}


def order(*words, token=None):
    """Runs an order of the operator, which has to be done."""
    left = program.run(list(words), b"" if token is None else token.encode())
    assert left == program.Left(0, b"done\n"), (words, left)


def network_add(database, tenant, name, pool, port="51820", capacity="4096", host="vpn.example.net", server=SERVER_KEY):
    order(
        *["network-add", database, tenant, name, "--pool", pool, "--host", host],
        *["--port", port, "--key", server, "--capacity", capacity],
    )


def make_register(folder):
    """A register with the tenant `acme`, whose token is TOKEN, and its network `office`."""
    database = str(Path(folder) / "reg.db")
    order("init", database)
    order("tenant-add", database, "acme")
    order("token-grant", database, "acme", token=TOKEN)
    network_add(database, "acme", "office", "10.8.0.0/24")
    return database


# The number of a call of Linux on x86-64, as the kernel shows it.
EPOLL_WAIT = "232"
# The last ports that were chosen, so that the system gives none of them to another socket before they are used.
HELD = collections.deque(maxlen=100)


def free_port(host="127.0.0.1"):
    """A port at which nobody listens, and at which a program may that sets SO_REUSEADDR; no other socket is given it."""
    held = socket.socket(socket.AF_INET6 if ":" in host else socket.AF_INET)
    HELD.append(held)
    held.setsockopt(socket.SOL_SOCKET, socket.SO_REUSEADDR, 1)
    held.bind((host, 0))
    return held.getsockname()[1]


def has_ipv6():
    try:
        free_port("::1")
    except OSError:
        return False
    return True


def unsent(link):
    """How many bytes of a connection are still on their way: over TCP until they wait to be read, over a Unix socket until they are read."""
    return int.from_bytes(fcntl.ioctl(link.fileno(), termios.TIOCOUTQ, bytes(4)), "little")


def unread(port, link):
    """How many bytes that were sent over a connection wait to be read by who listens at this port of IPv4."""
    ends = [f"{number:04X}" for number in (port, link.getsockname()[1])]
    lines = [line.split() for line in Path("/proc/net/tcp").read_text().splitlines()[1:]]
    return sum(int(line[4].partition(":")[2], 16) for line in lines if [end.partition(":")[2] for end in line[1:3]] == ends)


def wait_until_read(port, link):
    """Waits until who listens at this port has read all that was sent over a connection."""
    assert program.in_time(lambda: unsent(link) == 0) and program.in_time(lambda: unread(port, link) == 0), "it isn't read"


class Server:
    """`wgr serve` on a port of its own, until the block ends or its connections are counted down."""

    # The variables of its environment, where they are others than those of the tests.
    environment = None

    def __init__(self, database, count=100_000, now=None, host="127.0.0.1", orders=None):
        self.host, self.port = host, free_port(host)
        place = f"[{host}]:{self.port}" if ":" in host else f"{host}:{self.port}"
        self.words = ["serve", database, place, "--count", str(count)]
        if now is not None:
            self.words += ["--now", str(now)]
        if orders is not None:
            self.words += ["--orders", str(orders)]

    def __enter__(self):
        self.process = subprocess.Popen(
            [program.path, *self.words], stdout=subprocess.PIPE, stderr=subprocess.PIPE, env=self.environment
        )
        told = self.process.stdout.readline()
        assert told == b"listening\n", (told, self.process.stderr.read())
        return self

    def __exit__(self, *_):
        self.process.kill()
        self.process.communicate()

    def logged(self):
        """The next line that the service logs, once it does; none in the tests' time limit is a failure."""
        log = self.process.stderr
        assert select.select([log], [], [], program.LIMIT)[0], "nothing is logged"
        return log.readline()

    def ended(self):
        """What the program leaves once all its connections are served, but for the lines that `logged` took."""
        out, err = self.process.communicate(timeout=program.LIMIT)
        return program.Left(self.process.returncode, out, err)

    def stop(self):
        """Stops the process while it waits for whoever comes, and not before it has looked for all that are there."""
        assert program.in_time(self.waits), "it doesn't wait"
        self.process.send_signal(signal.SIGSTOP)

    def waits(self):
        """Whether it is in the call epoll_wait, or sleeps where the kernel doesn't say in which call."""
        place = Path(f"/proc/{self.process.pid}")
        try:
            return (place / "syscall").read_text().split()[0] == EPOLL_WAIT
        except OSError:
            return (place / "stat").read_text().rpartition(") ")[2].startswith("S")

    def connect(self):
        return socket.create_connection((self.host, self.port), timeout=program.LIMIT)

    def has_read(self, link):
        """Waits until the service has read all that was sent over a connection: from then on it serves this client."""
        wait_until_read(self.port, link)

    def send(self, *parts, close=False):
        """All that is answered to these bytes, which are sent one part after the other; by default the client could send more."""
        with self.connect() as link:
            link.setsockopt(socket.IPPROTO_TCP, socket.TCP_NODELAY, 1)
            for part in parts:
                link.sendall(part)
            if close:
                link.shutdown(socket.SHUT_WR)
            return read_all(link)

    def ask(self, method, path, body=None, token=TOKEN):
        """The reply to a request; docs/openapi.yaml has to describe both."""
        reply = self.send(request(method, path, body, token))
        openapi.check(method, path, body, reply)
        return reply


class Serving(unittest.TestCase):
    """A register for each test, and services over it that end with the test."""

    maxDiff = None

    def setUp(self):
        folder = self.enterContext(tempfile.TemporaryDirectory())
        self.database = make_register(folder)

    def serve(self, **words):
        return self.enterContext(Server(self.database, **words))


def read_all(link):
    whole = b""
    while part := link.recv(65_536):
        whole += part
    return whole


def request(method, path, body=None, token=TOKEN):
    """A request's bytes; a body that is no bytes is sent as JSON."""
    lines = [f"{method} {path} HTTP/1.1", "Host: wgr"]
    if token is not None:
        lines.append(f"Authorization: Bearer {token}")
    if body is None:
        body = b""
    elif not isinstance(body, bytes):
        body = json.dumps(body).encode()
    if body or method == "POST":
        lines.append(f"Content-Length: {len(body)}")
    return "\r\n".join([*lines, "", ""]).encode() + body


def reply(status, body, kind="application/json", extra=""):
    """The bytes of a reply. A body that is no bytes is written as compact JSON, its members in order."""
    if not isinstance(body, bytes):
        body = json.dumps(body, sort_keys=True, separators=(",", ":")).encode()
    head = (
        f"HTTP/1.1 {status} {REASONS[status]}\r\nContent-Type: {kind}\r\n"
        f"Content-Length: {len(body)}\r\n{extra}Connection: close\r\n\r\n"
    )
    return head.encode() + body


def done(body):
    return reply(200, body)


def file_of(*lines):
    return reply(200, "".join(line + "\n" for line in lines).encode(), "text/plain")


def refused(status, name, **facts):
    extra = "WWW-Authenticate: Bearer\r\n" if status == 401 else ""
    return reply(status, {"error": name, **facts}, extra=extra)


def wrong_method(allow):
    return reply(405, {"error": "wrong_method"}, extra=f"Allow: {allow}\r\n")


def peer(number, of, address, label="", end=0, keepalive=0, routes=(), status=None):
    return {
        "address": address,
        "end": end,
        "keepalive": keepalive,
        "key": key(of),
        "label": label,
        "number": number,
        "routes": list(routes),
        "status": status,
    }


# The list of the peers of `office`, and the reply where there are none.
LIST, NOBODY = request("GET", PEERS), done({"peers": []})
