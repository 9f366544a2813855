"""What a beginning of a message decides, by RFC 9112 and docs/SPECIFICATION.md: a plain model, with no code of the program.

A message is decided once nothing that could follow changes what it is: it is whole, or refused. Until then it is open.
"""

import re
from typing import NamedTuple

from plain_network import Refused

MOST_HEAD, MOST_FIELDS, MOST_BODY = 8_192, 32, 2_097_152
TOKEN_BYTE = rb"[A-Za-z0-9!#$%&'*+\-.^_`|~]"
FIELD = TOKEN_BYTE + rb"+:[\t\x20-\x7e\x80-\xff]*\r?\n"
HEAD = re.compile(
    rb"(?:\r?\n)*(" + TOKEN_BYTE + rb"+) ([\x21-\x7e\x80-\xff]+) HTTP/1\.[01]\r?\n((?:" + FIELD + rb")*)\r?\n"
)
WHOLE = b"X / HTTP/1.1\r\n\r\n"
# If any bytes make a beginning a head, then one of these does: they end what each part of a head may have begun, the last
# ones a character of the target.
ENDINGS = [
    *(WHOLE[place:] for place in range(len(WHOLE))),
    b"\n" + WHOLE,
    b":\r\n\r\n",
    *(cut + b" HTTP/1.1\r\n\r\n" for cut in [b"\x80", b"\x80\x80", b"\x80\x80\x80", b"\xa0\x80", b"\x90\x80\x80"]),
]


class Message(NamedTuple):
    """The token is nothing where the head has none that may be one."""

    method: str
    target: str
    token: bytes | None
    body: bytes


class Head(NamedTuple):
    """The values of the fields by their names in small letters, and how many bytes the head has."""

    method: bytes
    target: bytes
    fields: dict
    length: int


def head_of(text):
    """The head at the front of these bytes, however long; nothing where there is none."""
    found = HEAD.match(text)
    lines = [line.partition(b":") for line in found[3].split(b"\n")[:-1]] if found else []
    if not found or len(lines) > MOST_FIELDS or not is_utf8(found[2]):
        return None
    fields = {}
    for name, _, value in lines:
        fields.setdefault(name.lower(), []).append(value.removesuffix(b"\r").strip(b" \t"))
    return Head(found[1], found[2], fields, found.end())


def is_utf8(text):
    try:
        return text.decode() is not None
    except UnicodeDecodeError:
        return False


def may_become_head(text):
    return any(head_of(text + ending) for ending in ENDINGS)


def length_of(head):
    """How many bytes the body has."""
    tokens, lengths = head.fields.get(b"authorization", []), head.fields.get(b"content-length", [])
    if len(tokens) > 1 or len(lengths) > 1:
        raise Refused(400, "bad_head")
    if b"transfer-encoding" in head.fields:
        raise Refused(411, "length_required")
    if lengths and not re.fullmatch(rb"[0-9]{1,20}", lengths[0]):
        raise Refused(400, "bad_head")
    if head.method == b"POST" and not lengths:
        raise Refused(411, "length_required")
    length = int(lengths[0]) if lengths else 0
    if length > MOST_BODY:
        raise Refused(413, "too_large")
    return length


def token_of(head):
    values = head.fields.get(b"authorization", [])
    found = re.fullmatch(rb"(?i:bearer) +([!-~]{1,128})", values[0]) if values else None
    return found and found[1]


def decided(text):
    """The message that these bytes decide, or nothing while it is open. `Refused` is raised where they decide a refusal."""
    head = head_of(text[:MOST_HEAD])
    if head:
        end = head.length + length_of(head)
        return Message(head.method.decode(), head.target.decode(), token_of(head), text[head.length : end]) if end <= len(text) else None
    if not may_become_head(text[:MOST_HEAD]):
        raise Refused(400, "bad_head")
    if len(text) > MOST_HEAD:
        raise Refused(413, "too_large")
    return None


def is_open(text):
    try:
        return decided(text) is None
    except Refused:
        return False


def read(text):
    """The message of a client that sends no more than these bytes."""
    message = decided(text)
    if message is None:
        raise Refused(400, "bad_head" if text and not head_of(text[:MOST_HEAD]) else "truncated")
    return message
