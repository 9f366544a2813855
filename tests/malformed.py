"""Malformed messages, and the reply that is due to each.

What is malformed is by RFC 9112, and by docs/SPECIFICATION.md where the service is stricter: 32 fields, 8,192 bytes of a head,
a target in UTF-8, a body of 2,097,152 bytes and no transfer coding. The refusals of `MALFORMED` are due at once, though the
client keeps its side open, since whatever follows changes nothing. What is `UNFINISHED` may still become a message: it is
answered once the client closes its side, and else not at all.
"""

from serving import PEERS, TOKEN, refused

BAD, LARGE = refused(400, "bad_head"), refused(413, "too_large")
CUT, NO_LENGTH = refused(400, "truncated"), refused(411, "length_required")
GET = f"GET {PEERS} HTTP/1.1\r\n".encode()
HELD = f"Authorization: Bearer {TOKEN}\r\n".encode()
POST = f"POST {PEERS} HTTP/1.1\r\n".encode() + HELD


def aimed(target, version=b"HTTP/1.1"):
    return b"GET " + target + b" " + version + b"\r\n" + HELD + b"\r\n"


def having(*lines):
    """A GET with these lines among its fields."""
    return GET + b"".join(line + b"\r\n" for line in lines) + HELD + b"\r\n"


def sized(*lengths, body=b"{}"):
    """A new peer's message with these values of Content-Length."""
    return POST + b"".join(b"Content-Length: " + length + b"\r\n" for length in lengths) + b"\r\n" + body


def filled(length, *ends, fields=0):
    """A head that the value of a field fills to this length, behind the token and so many others, and then these bytes."""
    front = GET + HELD + fields * b"X: y\r\n" + b"X: "
    return front + (length - len(front)) * b"x" + b"".join(ends)


# RFC 9112 section 3: the request line.
LINES = {
    "a NUL": b"\0",
    "a blank first": b" " + having(),
    "a TLS hello": b"\x16\x03\x01\x02\x00\x01\x00\x01\xfc\x03\x03" + bytes(range(256)),
    "a banner of SSH": b"SSH-2.0-OpenSSH_9.2p1\r\n",
    "the preface of HTTP/2": b"PRI * HTTP/2.0\r\n\r\nSM\r\n\r\n",
    "a method with a bracket": having().replace(b"GET", b"G(T", 1),
    "no target": b"GET HTTP/1.1\r\n\r\n",
    "no target and no version": b"GET\r\n\r\n",
    "two blanks before the target": having().replace(b" ", b"  ", 1),
    "a tab before the target": having().replace(b" ", b"\t", 1),
    "a target with a blank": aimed(b"/a b"),
    "a target with a tab": aimed(b"/a\tb"),
    "a target with a NUL": aimed(b"/a\0b"),
    "a target with a byte 31": aimed(b"/a\x1fb"),
    "a target with a byte 127": aimed(b"/a\x7fb"),
    "a target that isn't UTF-8": aimed(b"/a\xffb"),
    "a target that isn't UTF-8, and hasn't ended": b"GET /a\xff",
    "a target that ends within a character": aimed(b"/a\xc3"),
    "a target with half a surrogate": aimed(b"/\xed\xa0\x80"),
    "a target with a character that is too long": aimed(b"/\xc0\xaf"),
    "a target with a character beyond all": aimed(b"/\xf4\x90\x80\x80"),
    "no version": b"GET /networks\r\n\r\n",
    "a blank and no version": b"GET /networks \r\n\r\n",
    "HTTP/2.0": aimed(b"/networks", b"HTTP/2.0"),
    "HTTP/1.2": aimed(b"/networks", b"HTTP/1.2"),
    "HTTP/1.10": aimed(b"/networks", b"HTTP/1.10"),
    "a version in small letters": aimed(b"/networks", b"http/1.1"),
    "a blank behind the version": aimed(b"/networks", b"HTTP/1.1 "),
    "lines that end in a carriage return alone": having().replace(b"\r\n", b"\r"),
    "a carriage return before the request line": b"\r" + having(),
}
# RFC 9112 section 5: the fields.
FIELDS = {
    "a blank before a colon": having(b"Host : x"),
    "a tab before a colon": having(b"Host\t: x"),
    "a folded line": having(b"X: a", b" b"),
    "a folded line first": having(b" X: a"),
    "a line without a colon": having(b"X"),
    "a line without a name": having(b": x"),
    "a name with a bracket": having(b"X(y): x"),
    "a name with a blank": having(b"X y: x"),
    "a name with a NUL": having(b"X\0: x"),
    "a name beyond ASCII": having(b"X\xc3\xa9: x"),
    "a value with a NUL": having(b"X: a\0b"),
    "a value with a byte 1": having(b"X: a\x01b"),
    "a value with a byte 31": having(b"X: a\x1fb"),
    "a value with a byte 127": having(b"X: a\x7fb"),
    "a value with a carriage return": having(b"X: a\rb"),
    "a token with a byte 1": GET + b"Authorization: Bearer a\x01b\r\n\r\n",
    "33 fields": having(*32 * [b"X: y"]),
    "40 fields": having(*39 * [b"X: y"]),
    "a 33rd field that has begun": GET + HELD + 31 * b"X: y\r\n" + b"X",
    "two tokens": having(HELD.rstrip()),
    "two tokens, one of another scheme": having(b"authorization: Basic YTpi"),
}
# RFC 9112 section 6: the body, of which nothing is sent that the head doesn't decide.
LENGTHS = {
    "an empty length": sized(b""),
    "a length in letters": sized(b"two"),
    "a length with a plus": sized(b"+2"),
    "a length below zero": sized(b"-2"),
    "a length in hexadecimal": sized(b"0x2"),
    "a length with a point": sized(b"2.0"),
    "a length with a blank": sized(b"2 2"),
    "two lengths in one value": sized(b"2, 2"),
    "a length of 21 digits": sized(b"000000000000000000002"),
    "two equal lengths": sized(b"2", b"2"),
    "two other lengths": sized(b"2", b"3"),
    "two lengths of a GET": having(b"Content-Length: 0", b"content-length: 0"),
}
# Heads that are too long, and those that are refused before that.
LONG_HEADS = {
    "8,193 bytes of a method": (8_193 * b"x", LARGE),
    "8,193 bytes of empty lines": (4_096 * b"\r\n" + b"\n", LARGE),
    "8,193 bytes of a target": (b"GET /" + 8_188 * b"a", LARGE),
    "8,193 bytes of a value": (filled(8_193), LARGE),
    "a head of 8,193 bytes": (filled(8_189, b"\r\n\r\n"), LARGE),
    "9,000 bytes of a value": (filled(9_000), LARGE),
    "a byte 1 as the 8,193rd": (filled(8_192, b"\x01"), LARGE),
    "a byte 1 as the 8,192nd": (filled(8_191, b"\x01"), BAD),
    "a byte 1 as the 8,192nd, and more": (filled(8_191, b"\x01", 900 * b"x"), BAD),
    "a 33rd field at the 8,192nd": (filled(8_189, b"\r\nX: y\r\n\r\n", fields=30), BAD),
    "a 33rd field at the 8,193rd": (filled(8_190, b"\r\nX: y\r\n\r\n", fields=30), LARGE),
    "9,000 bytes behind a byte 1": (GET + b"X: \x01" + 9_000 * b"x", BAD),
    "9,000 NULs": (9_000 * b"\0", BAD),
    "100,000 NULs": (100_000 * b"\0", BAD),
}
BODIES = {
    "a POST without a length": (POST + b"\r\n", NO_LENGTH),
    "a body in chunks": (POST + b"Transfer-Encoding: chunked\r\n\r\n0\r\n\r\n", NO_LENGTH),
    "chunks that don't come": (POST + b"Transfer-Encoding: chunked\r\n\r\n", NO_LENGTH),
    "another coding": (POST + b"Transfer-Encoding: gzip, chunked\r\n\r\n", NO_LENGTH),
    "a coding and a length": (POST + b"Content-Length: 2\r\nTransfer-Encoding: chunked\r\n\r\n{}", NO_LENGTH),
    "a coding of a GET": (having(b"Transfer-Encoding: identity"), NO_LENGTH),
    "a body of 2,097,153 bytes": (sized(b"2097153"), LARGE),
    "a body of 2,097,153 bytes, none of which comes": (sized(b"2097153", body=b""), LARGE),
    "a length of 64 bits": (sized(b"18446744073709551615"), LARGE),
    "a length of 64 bits and one more": (sized(b"18446744073709551616"), LARGE),
    "the largest length of 20 digits": (sized(20 * b"9"), LARGE),
}
# Each message by its name, and the reply.
MALFORMED = {name: (message, BAD) for name, message in {**LINES, **FIELDS, **LENGTHS}.items()} | LONG_HEADS | BODIES

# Beginnings of messages by their names, and the reply if the client sends no more.
UNFINISHED = {
    "nothing": (b"", CUT),
    "an empty line": (b"\r\n", BAD),
    "a byte": (b"G", BAD),
    "a method": (b"GET", BAD),
    "half a target": (b"GET /networks/of", BAD),
    "half a character of a target": (b"GET /a\xe2\x82", BAD),
    "half a version": (b"GET / HTTP/1.", BAD),
    "half a name": (GET + b"Autho", BAD),
    "half a value": (GET + HELD[:-5], BAD),
    "half a line end": (GET + HELD[:-1], BAD),
    "all but the last byte": (having()[:-1], BAD),
    "32 fields": (GET + HELD + 31 * b"X: y\r\n", BAD),
    "two tokens, and no end": (GET + HELD + HELD, BAD),
    "8,192 bytes of a method": (8_192 * b"x", BAD),
    "8,192 bytes of a value": (filled(8_192), BAD),
    "a body that is one byte short": (sized(b"3"), CUT),
    "no body": (sized(b"2097152", body=b""), CUT),
    "a body of a GET that is short": (having(b"Content-Length: 9") + b"{}", CUT),
}
