"""Odd requests through nginx and HAProxy, by the files of dist/. Each is answered at once, or its connection closed, though the
client keeps its side open; and the register is passed nothing but what it reads."""

from fronts import SOON, HAProxy, Nginx
from serving import NOBODY, PEERS
from tools import needs

TWO = b"POST /networks HTTP/1.1\r\nHost: x\r\n"


def head(*lines, first=b"GET /networks HTTP/1.1"):
    return b"\r\n".join([first, b"Host: wgr.example.net", *lines, b"", b""])


def aimed(target):
    return head(first=b"GET " + target + b" HTTP/1.1")


def fields(count):
    return head(*(b"X%d: a" % number for number in range(count)))


ODD = {
    **{f"{count} fields": fields(count) for count in [20, 28, 29, 30, 31, 32, 33, 40, 60, 99]},
    "a CR in a value": head(b"X: a\rb"),
    "a zero byte in a value": head(b"X: a\0b"),
    "a byte 1 in a value": head(b"X: \1"),
    "a byte 127 in a value": head(b"X: \x7f"),
    "a value that isn't ASCII": head(b"X: \xc3\xa9\xff"),
    "a folded line": head(b"X: a", b" b"),
    "a blank before the colon": head(b"Xx : a"),
    "a tab before the value": head(b"X:\ta"),
    "an empty value": head(b"X:"),
    "a name with _": head(b"X_y: 1"),
    "a name with all signs": head(b"X!#$%&'*+.^`|~: 1"),
    "a name with (": head(b"X(y): 1"),
    "a name with @": head(b"X@y: 1"),
    "a name that isn't ASCII": head(b"X\xc3y: 1"),
    "a colon first": head(b": 1"),
    "no colon": head(b"abc"),
    "a target that is UTF-8": aimed(b"/\xc3\xa9"),
    "a target that isn't UTF-8": aimed(b"/networks/a\xff"),
    "a target that ends within a character": aimed(b"/\xc3"),
    "a target with a blank": aimed(b"/a b"),
    "a target with a tab": aimed(b"/a\tb"),
    "a target with a byte 1": aimed(b"/a\1b"),
    "a target with a byte 127": aimed(b"/a\x7fb"),
    "a target with #": aimed(b"/a#b"),
    "a target with odd signs": aimed(b"/a\"<>\\^`{|}"),
    "a target below /v1 that isn't UTF-8": aimed(b"/v1/\xff"),
    "a whole URL": aimed(b"http://wgr.example.net/networks"),
    "a whole URL that isn't UTF-8": aimed(b"http://wgr.example.net/\xff"),
    "no target": head(first=b"GET HTTP/1.1"),
    "a method in small letters": head(first=b"get /networks HTTP/1.1"),
    "a method with signs": head(first=b"G-T_1 /networks HTTP/1.1"),
    "HTTP/1.2": head(first=b"GET /networks HTTP/1.2"),
    "HTTP/2.0": head(first=b"GET /networks HTTP/2.0"),
    "HTTP/1.0": b"GET /networks HTTP/1.0\r\n\r\n",
    "HTTP/0.9": b"GET /networks\r\n",
    "no version": b"GET /networks\r\n\r\n",
    "lines that end without CR": head().replace(b"\r", b""),
    "no Host": b"GET /networks HTTP/1.1\r\n\r\n",
    "two Hosts": head(b"Host: y"),
    "a Host with odd bytes": b"GET /networks HTTP/1.1\r\nHost: a\xff\x01b\r\n\r\n",
    "two tokens": head(b"Authorization: Bearer a", b"Authorization: Bearer b"),
    "a long token": head(b"Authorization: Bearer " + b"a" * 7_000),
    "a token that isn't ASCII": head(b"Authorization: Bearer \xff\xfe"),
    "a token with a byte 1": head(b"Authorization: Bearer a\1"),
    "a token with a byte 127": head(b"Authorization: Bearer a\x7f"),
    "a token with a tab": head(b"Authorization: Bearer a\tb"),
    "another scheme": head(b"Authorization: Basic YTpi"),
    "an empty Authorization": head(b"Authorization:"),
    "a long value": head(b"X: " + b"a" * 7_900),
    "two long values": head(b"X: " + b"a" * 7_900, b"Y: " + b"a" * 7_900),
    "a long target": aimed(b"/" + b"a" * 8_000),
    "chunks": TWO + b"Transfer-Encoding: chunked\r\n\r\n2\r\n{}\r\n0\r\n\r\n",
    "chunks with an extension and a trailer": TWO + b"Transfer-Encoding: chunked\r\n\r\n2;a=\x01\r\n{}\r\n0\r\nX: \x02\r\n\r\n",
    "another coding": TWO + b"Transfer-Encoding: gzip, chunked\r\n\r\n2\r\n{}\r\n0\r\n\r\n",
    "chunks and a length": TWO + b"Content-Length: 2\r\nTransfer-Encoding: chunked\r\n\r\n2\r\n{}\r\n0\r\n\r\n",
    "two lengths": TWO + b"Content-Length: 2\r\nContent-Length: 3\r\n\r\n{}",
    "a length with a sign": TWO + b"Content-Length: +2\r\n\r\n{}",
    "a length of many digits": TWO + b"Content-Length: 18446744073709551618\r\n\r\n{}",
    "a length and no digits": TWO + b"Content-Length: \r\n\r\n{}",
    "no length": TWO + b"\r\n",
    "a body that waits to be asked for": TWO + b"Expect: 100-continue\r\nContent-Length: 2\r\n\r\n{}",
    "another expectation": TWO + b"Expect: a\r\nContent-Length: 2\r\n\r\n{}",
    "a GET with a body": head(b"Content-Length: 2") + b"{}",
    "an upgrade to HTTP/2": head(b"Connection: Upgrade, HTTP2-Settings", b"Upgrade: h2c", b"HTTP2-Settings: AAMAAABkAARAAAAAAAIAAAAA"),
    "a web socket": head(b"Connection: Upgrade", b"Upgrade: websocket", b"Sec-WebSocket-Key: AAAAAAAAAAAAAAAAAAAAAA==", b"Sec-WebSocket-Version: 13"),
    "the beginning of HTTP/2": b"PRI * HTTP/2.0\r\n\r\nSM\r\n\r\n\0\0\0\4\0\0\0\0\0",
    "CONNECT": b"CONNECT a:1 HTTP/1.1\r\nHost: a:1\r\n\r\n",
    "TRACE": head(first=b"TRACE / HTTP/1.1"),
    "OPTIONS *": head(first=b"OPTIONS * HTTP/1.1"),
    "a TLS hello within TLS": bytes.fromhex("16030100c8010000c40303") + b"\1" * 190 + b"\r\n\r\n",
    "nonsense": b"nonsense\r\n\r\n",
    "blank lines first": b"\r\n\r\n" + head(),
}
# What a client sends that the register is passed otherwise, or not at all: the fields, and the value of its Authorization.
PASSED = [
    ("a token", [b"Authorization: Bearer abc"], "Bearer abc"),
    ("a token in other letters", [b"authorization:bEARER   !~"], "!~"),
    ("no token", [], None),
    ("a token that isn't ASCII", [b"Authorization: Bearer a\xff"], None),
    ("a token that is too long", [b"Authorization: Bearer " + 129 * b"a"], None),
    ("another scheme", [b"Authorization: Basic YTpi"], None),
    ("two words", [b"Authorization: Bearer a b"], None),
    ("other fields", [b"Authorization: Bearer a,b", b"X: \x80\xff", b"Cookie: a", b"Forwarded: for=b", b"Accept: */*"], "a,b"),
    ("codings", [b"Authorization: Bearer a", b"Accept-Encoding: gzip, br", b"Accept-Encoding: \x80, gzip;q=0.5"], "a"),
]
# The fields that the register, or a proxy on the way to it, may have to read.
READ = {"host", "content-length", "authorization", "connection"}


class AnyFront:
    """Tests of either proxy."""

    def test_odd_requests(self):
        for name, message in ODD.items():
            with self.subTest(name):
                reply, spent = self.answer_to(message)
                self.assertLess(spent, SOON)
                # Without a token, or with nobody's, none is done; a reply in HTTP/0.9 has no head.
                self.assertRegex(reply, rb"""(?s)\A(HTTP/1\.[01] (4\d\d|100|501|505) .*|{"error":"\w+"})?\Z""")
                self.assertEqual(self.ask("GET", PEERS)[:2], (200, NOBODY.partition(b"\r\n\r\n")[2]))

    def test_what_is_passed_on(self):
        self.serving.__exit__()
        for name, sent, wanted in PASSED:
            with self.subTest(name):
                lines = self.passed(head(*sent))[0].partition("\r\n\r\n")[0].split("\r\n")[1:]
                found = {name.lower(): value for name, value in (line.split(": ", 1) for line in lines)}
                self.assertEqual(found.keys() - READ, set())
                self.assertEqual(found.get("authorization", "").split(" ")[-1] or None, wanted and wanted.split(" ")[-1])


@needs("nginx", "openssl")
class ByNginx(AnyFront, Nginx):
    pass


@needs("haproxy", "openssl", "bash")
class ByHAProxy(AnyFront, HAProxy):
    pass
