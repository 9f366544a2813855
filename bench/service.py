"""A running `wgr serve` that takes orders, and how long it takes to answer."""

import socket
import subprocess
import sys
import time

LIMIT = 100


def free_port():
    with socket.socket() as probe:
        probe.bind(("127.0.0.1", 0))
        return probe.getsockname()[1]


def timed(link, place, text, due):
    """What is answered, which has to begin so, and the milliseconds from the connection to its end."""
    start = time.perf_counter()
    parts = []
    with link:
        link.settimeout(LIMIT)
        link.connect(place)
        link.sendall(text)
        while part := link.recv(1 << 20):
            parts.append(part)
    spent = (time.perf_counter() - start) * 1000
    whole = b"".join(parts)
    if not whole.startswith(due):
        sys.exit(f"{text[:60]!r} is answered {whole[:200]!r}")
    return whole, spent


class Service:
    """A service on this register, which takes orders and ends after so many requests."""

    def __init__(self, program, path, count):
        self.place, self.orders = ("127.0.0.1", free_port()), str(path.with_name("orders"))
        words = [program, "serve", path, "{}:{}".format(*self.place), "--count", str(count), "--orders", self.orders]
        self.process = subprocess.Popen(words, stdout=subprocess.PIPE)
        if self.process.stdout.readline() != b"listening\n":
            sys.exit(f"{program} doesn't listen")

    def ask(self, request):
        """The reply to a request, and its milliseconds."""
        return timed(socket.socket(), self.place, request, b"HTTP/1.1 200 ")

    def order(self, *words, due=b"0 done\n"):
        """The answer to an order or a reading, and its milliseconds."""
        return timed(socket.socket(socket.AF_UNIX), self.orders, " ".join(words).encode() + b"\n", due)

    def end(self):
        if self.process.wait(LIMIT) != 0:
            sys.exit(f"the service ends with {self.process.returncode}")
