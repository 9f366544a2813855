"""Orders and readings over the socket of a service: as lines, by `wgr send`, and the same orders as commands on a file.

An order is written as its line has it: the word, then the fields by their place, the token last.
"""

import socket
from contextlib import suppress

import program
from register_file import Files
from serving import Server, read_all

# The options of `network-add` on a file, in the order of the line's fields behind the names.
OPTIONS = ["pool", "host", "port", "key", "capacity"]


def connect(path):
    link = socket.socket(socket.AF_UNIX)
    link.settimeout(program.LIMIT)
    link.connect(str(path))
    return link


def tell(path, *parts, close=False):
    """All that is answered to these bytes, which are sent one part after the other."""
    with connect(path) as link:
        for part in parts:
            link.sendall(part)
        if close:
            link.shutdown(socket.SHUT_WR)
        return read_all(link)


def answered(path, text, closes=True):
    """The same of one part; the service may end the connection while more is sent."""
    whole = b""
    with connect(path) as link:
        with suppress(BrokenPipeError):
            link.sendall(text)
            if closes:
                link.shutdown(socket.SHUT_WR)
        with suppress(ConnectionResetError):
            while part := link.recv(4_096):
                whole += part
    return whole


def line(order):
    return " ".join(order).encode() + b"\n"


def tell_line(path, order):
    """The status and the text that are answered to the order."""
    answer = tell(path, line(order)).decode()
    status, text = answer.removesuffix("\n").split(" ", 1)
    assert answer == f"{status} {text}\n", answer
    return int(status), text


def shown(path, *words):
    """The text that a reading is answered, all of which has to come."""
    head, newline, text = tell(path, line(words)).partition(b"\n")
    assert head + newline == b"0 %d\n" % len(text), (head, len(text))
    return text


def parts_of(order):
    """The word, the words behind it, a digest and the text of standard input, as a command has them."""
    word, *fields = order
    if word == "token-end" and len(fields) == 2:
        return word, [], fields[1], b""
    if word in ("token-grant", "token-end"):
        return word, fields[:-1], None, fields[-1].encode()
    return word, fields, None, b""


def send(path, order, **streams):
    """What `wgr send` leaves."""
    word, fields, digest, text = parts_of(order)
    options = [] if digest is None else ["--digest", digest]
    if word == "show" and fields[-1:] == ["--json"]:
        options, fields = ["--json"], fields[:-1]
    return program.run(["send", str(path), *options, "--", word, *fields], text, **streams)


def command(database, order):
    """What the command on a file leaves."""
    word, fields, digest, text = parts_of(order)
    options = [] if digest is None else [f"--digest={digest}"]
    if word == "network-add":
        options = [f"--{name}={value}" for name, value in zip(OPTIONS, fields[2:], strict=True)]
        fields = fields[:2]
    if word == "token-grant" and len(fields) == 2:
        options, fields = [f"--right={fields[1]}"], fields[:1]
    return program.run([word, *options, "--", database, *fields], text)


def left_of(status, text):
    """What a command leaves where the answer to the same line is this."""
    if status == 0:
        return program.Left(0, f"{text}\n".encode())
    return program.Left(status, b"", f"wgr: {text}\n".encode())


class Sending(Files):
    """A register for each test, and services over it that take orders at a socket."""

    def setUp(self):
        super().setUp()
        self.socket = self.path("orders")

    def serve(self, database=None, **words):
        return self.enterContext(Server(database or self.db, **{"orders": self.socket, **words}))

    def do(self, *orders):
        """Does these orders as commands on the file."""
        for order in orders:
            self.assertEqual(command(self.db, order), program.Left(0, b"done\n"), order)
