"""Replies of the register that are spoilt on their way to wgr-sync, and files of its folder that are."""

import re
import socket
import struct
import threading
import time

from following import Between
from serving import reply

# In place of a reply: none comes.
HANG = object()
PAGE = reply(200, b"<html>Log in first</html>", "text/html")
MOVED = b"HTTP/1.1 302 Found\r\nLocation: /v1/networks\r\nContent-Length: 0\r\nConnection: close\r\n\r\n"


def body_of(whole):
    return whole.partition(b"\r\n\r\n")[2]


def with_body(whole, body):
    """The reply with another body and its length."""
    head = re.sub(rb"(?i)(content-length: )\d+", rb"\g<1>%d" % len(body), whole.partition(b"\r\n\r\n")[0])
    return head + b"\r\n\r\n" + body


def without_length(whole, body, field=b""):
    """The reply with another body, which ends with the connection, or with another field in place of the length."""
    head = re.sub(rb"(?i)content-length: \d+\r\n", field, whole.partition(b"\r\n\r\n")[0] + b"\r\n")
    return head + b"\r\n" + body


def before_last_peer(whole):
    body = body_of(whole)
    return body[: body.rindex(b"[Peer]")]


def in_chunks(*chunks):
    """Makes of a reply one whose body comes in so many parts of this share each; a share of 0 ends it."""

    def made(whole):
        body, parts = body_of(whole), b""
        for share in chunks:
            part = body[: len(body) * share // 100]
            body = body[len(part) :]
            parts += b"%x\r\n%b\r\n" % (len(part), part)
        return without_length(whole, parts, b"Transfer-Encoding: chunked\r\n")

    return made


def slowly(whole):
    """A byte now and then, so that the whole would come in several minutes."""
    for byte in whole:
        yield bytes([byte])
        time.sleep(0.1)


class Spoilt(Between):
    """A server between wgr-sync and the register, which spoils replies.

    `spoil` has, by the end of a path, what makes of the true reply the one that is sent: bytes, or several in turn, or
    None for a connection that is reset, or HANG. `given` has the last whole reply of each, `earlier` all true ones.
    """

    def __init__(self, register):
        super().__init__(register)
        self.spoil, self.given, self.earlier, self.over = {}, {}, {}, threading.Event()

    def answer(self, message, end, link):
        true = self.register.send(message.replace(b" /v1/", b" /", 1))
        self.earlier.setdefault(end, []).append(true)
        made = self.spoil.get(end, bytes)(true)
        if made is None:
            link.setsockopt(socket.SOL_SOCKET, socket.SO_LINGER, struct.pack("ii", 1, 0))
        elif made is HANG:
            self.over.wait()
        else:
            self.send(end, [made] if isinstance(made, bytes) else made, link)

    def send(self, end, parts, link):
        sent = b""
        for part in parts:
            link.sendall(part)
            sent += part
        self.given[end] = sent

    def stop(self):
        self.over.set()
        super().stop()


def wrote(name, text):
    """Lets a file of the network's folder have a text, which may be made of the network, or be missing."""

    def spoil(followed):
        path = followed.net.folder / name
        if text is None:
            return path.unlink(missing_ok=True)
        path.parent.mkdir(exist_ok=True)
        if isinstance(text, bytes):
            path.write_bytes(text)
        else:
            path.write_text(text if isinstance(text, str) else text(followed))

    return spoil


def sent(end, made):
    """Lets replies of this end of a path be such ones: bytes, or what a function makes of the true reply."""

    def spoil(followed):
        followed.between.spoil[end] = made if callable(made) else lambda true: made

    return spoil
