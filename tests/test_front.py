"""What is in front of the service, nginx or HAProxy by the files of dist/: limits, refusals, the log, and that no body is
written to the disk."""

import hashlib
import json
import socket
import sqlite3
import ssl
import threading
import time
from concurrent.futures import ThreadPoolExecutor
from contextlib import closing, suppress

from following import run
from fronts import HAProxy, Nginx
from program import LIMIT
from serving import PEERS, SERVER_KEY, TOKEN, done, key, peer, request
from tools import needs

DUMP = "/networks/office/dump"
OWNER = "/networks/office/owner/10.8.0.2"
LARGEST = 2_097_152


def body_of(reply):
    return reply.partition(b"\r\n\r\n")[2]


def answer(service, replies):
    """Answers each connection by the next of the replies, of which an empty one is none."""
    with suppress(OSError):
        while replies:
            link, _ = service.accept()
            with link:
                link.recv(65_536)
                link.sendall(replies.pop(0))


class AnyFront:
    """Tests of either; a class below this is one of the proxies too."""

    def test_requests(self):
        wanted = body_of(done(peer(1, 1, "10.8.0.2/32")))
        with self.subTest("a change"):
            self.assertEqual(self.ask("POST", PEERS, json.dumps({"key": key(1)}))[:2], (200, wanted))
        with self.subTest("a path below /v1"):
            self.assertEqual(self.ask("GET", f"/v1{PEERS}")[:2], (200, b'{"peers":[' + wanted + b"]}"))
        with self.subTest("the path as it came"):
            for target in ["/networks?x=1", "/v1", "/v1/networks%2f", "/networks/office/owner/10.8.0.2%2f32"]:
                self.assertEqual(self.ask("GET", target)[0] // 100, 4, target)
        with self.subTest("many at once"), ThreadPoolExecutor(32) as pool:
            asked = [pool.submit(self.ask, "GET", OWNER) for _ in range(100)]
            self.assertEqual({one.result()[:2] for one in asked}, {(200, b'{"number":1}')})
        with self.subTest("nobody's token"):
            status, body, fields = self.ask("GET", PEERS, token="nobodys")
            self.assertEqual((status, body, fields["WWW-Authenticate"]), (401, b'{"error":"unknown_token"}', "Bearer"))

    def test_sizes(self):
        for name, length, wanted in [
            ("the largest body", LARGEST, (400, b'{"error":"bad_field","field":"body"}')),
            ("a larger one", LARGEST + 1, (413, b'{"error":"too_large"}')),
        ]:
            with self.subTest(name):
                status, body, fields = self.ask("POST", PEERS, length * " ")
                self.assertEqual((status, body, fields["Content-Type"]), (*wanted, "application/json"))
        with self.subTest("a head that is too long"):
            self.assertEqual(self.ask("GET", f"/networks/{9_000 * 'a'}")[:2], (413, b'{"error":"too_large"}'))

    def test_what_is_no_request(self):
        """Some of what a proxy's own parser refuses has a body in HTML."""
        for name, message, status, kind in self.unread:
            with self.subTest(name):
                reply, _ = self.answer_to(message)
                self.assertRegex(reply, rb"(?is)\AHTTP/1\.1 %d .*\r\nContent-Type: %s\r\n" % (status, kind))

    def test_a_slow_client_holds_nobody(self):
        link = self.link()
        message = request("POST", PEERS, 100_000 * b" ")
        for part in [message[:20], message[20:200], message[200:-1]]:
            link.sock.sendall(part)
        began = time.monotonic()
        self.assertEqual(self.ask("GET", PEERS)[:2], (200, b'{"peers":[]}'))
        # The service itself would wait for the slow one for ten seconds.
        self.assertLess(time.monotonic() - began, 9)
        link.sock.sendall(message[-1:])
        self.assertTrue(link.sock.recv(65_536).startswith(b"HTTP/1.1 400 "))
        link.close()

    def test_no_service(self):
        self.serving.__exit__()
        status, body, fields = self.ask("POST", PEERS, "{}")
        self.assertEqual((status, body, fields["Content-Type"], fields["Retry-After"]), (503, b'{"error":"unavailable"}', "application/json", "5"))

    def test_a_connection_that_breaks(self):
        """A reading that gets no reply is made once more, and a change isn't."""
        self.serving.__exit__()
        for method, status, times in [("GET", 200, 2), ("POST", 503, 1), ("DELETE", 503, 1)]:
            with self.subTest(method), socket.create_server(("127.0.0.1", self.serving.port)) as service:
                replies = [b"", done({"networks": []})]
                asked = threading.Thread(target=answer, args=(service, replies), daemon=True)
                asked.start()
                given = self.ask(method, "/networks", "{}" if method == "POST" else None)[0]
                service.shutdown(socket.SHUT_RDWR)
                asked.join()
                self.assertEqual((given, 2 - len(replies)), (status, times))

    def test_versions_of_tls(self):
        for version, is_taken in [(ssl.TLSVersion.TLSv1_1, False), (ssl.TLSVersion.TLSv1_2, True), (ssl.TLSVersion.TLSv1_3, True)]:
            with self.subTest(version.name):
                # At their lowest level the client's ciphers have those of TLS 1.1.
                context = ssl._create_unverified_context()
                context.set_ciphers("ALL:@SECLEVEL=0")
                context.minimum_version = context.maximum_version = version
                try:
                    self.link(context).close()
                    self.assertTrue(is_taken)
                except (ssl.SSLError, ConnectionError):
                    self.assertFalse(is_taken)

    def until_limited(self, _):
        """Asks by one connection until the limit refuses it, or so often that it should have."""
        given, link = [], self.link()
        while len(given) < self.too_many and (not given or given[-1][0] != 429):
            given.append(self.ask("GET", PEERS, token="limited", link=link))
        link.close()
        return given

    def test_many_requests(self):
        """So many by one client at once are too many."""
        with ThreadPoolExecutor(8) as asking:
            replies = [given for link in asking.map(self.until_limited, range(8)) for given in link]
        self.assertEqual({given[0] for given in replies}, {401, 429})
        _, body, fields = max(replies, key=lambda given: given[0])
        self.assertEqual((body, fields["Content-Type"]), (b'{"error":"too_many_requests"}', "application/json"))
        self.assertGreater(int(fields["Retry-After"]), 0)

    def lines(self, count):
        """The lines of the log, once there are so many."""
        end = time.monotonic() + LIMIT
        while True:
            found = [json.loads(line) for line in self.log().splitlines() if line.startswith("{")]
            if len(found) >= count or time.monotonic() > end:
                return found
            time.sleep(0.02)

    def test_the_log(self):
        secret = "token-that-nothing-else-has"
        self.ask("GET", PEERS)
        self.ask("GET", PEERS, token=secret)
        self.ask("POST", PEERS, (LARGEST + 1) * " ", token=secret)
        lines = self.lines(3)
        self.assertEqual([(line["method"], line["target"], line["status"]) for line in lines], [("GET", PEERS, 200), ("GET", PEERS, 401), ("POST", PEERS, 413)])
        for line in lines:
            self.assertEqual({"time", "client"} - line.keys(), set())
        self.assertNotIn(secret, self.log())
        return lines


@needs("nginx", "openssl")
class ByNginx(AnyFront, Nginx):
    too_many = 1_000
    unread = [
        ("nonsense", b"nonsense\r\n\r\n", 400, b"application/json"),
        ("another version", b"GET / HTTP/9.1\r\n\r\n", 505, b"text/html"),
        ("a coding of the body", b"POST / HTTP/1.1\r\nHost: x\r\nTransfer-Encoding: x\r\n\r\n", 501, b"text/html"),
    ]

    def test_the_log(self):
        lines = super().test_the_log()
        with self.subTest("the service isn't asked for what is too large"):
            self.assertEqual([line["register_status"] for line in lines], ["200", "401", ""])

    def test_many_requests(self):
        super().test_many_requests()
        with self.subTest("another token is served all the same"):
            self.assertEqual(self.ask("GET", PEERS)[0], 200)

    def test_no_body_is_written_to_the_disk(self):
        """nginx warns of each body that it writes to a file, and names its folder."""
        dump = f"(none)\t{SERVER_KEY}\t51820\toff\n" + "".join(
            f"{key(1)[:-4]}{number:03}=\t{key(8)}\t(none)\t10.8.0.2/32\t0\t0\t0\toff\n" for number in range(100, 1000)
        )
        link = self.link()
        whole = dump.encode() + (LARGEST - len(dump)) * b" "
        for name, fields in [("with its length", {"Content-Length": str(LARGEST)}), ("in chunks", {"Transfer-Encoding": "chunked"})]:
            with self.subTest(name):
                link.request("POST", DUMP, iter([whole]), {"Authorization": f"Bearer {TOKEN}", **fields}, encode_chunked="Transfer-Encoding" in fields)
                reply = link.getresponse()
                self.assertEqual((reply.status, json.loads(reply.read())["error"]), (400, "bad_dump"))
                self.assertNotIn("temporary file", self.log())


@needs("haproxy", "openssl", "bash")
class ByHAProxy(AnyFront, HAProxy):
    too_many = 300
    unread = [
        ("nonsense", b"nonsense\r\n\r\n", 400, b"text/html"),
        ("two lengths", b"POST / HTTP/1.1\r\nHost: x\r\nContent-Length: 1\r\nContent-Length: 2\r\n\r\n", 400, b"text/html"),
        ("two tokens", b"GET / HTTP/1.1\r\nHost: x\r\nAuthorization: x\r\nAuthorization: x\r\n\r\n", 400, b"application/json"),
    ]

    def test_the_log(self):
        lines = super().test_the_log()
        with self.subTest("the service isn't asked for what is too large"):
            self.assertEqual([line["connect_ms"] >= 0 for line in lines], [True, True, False])
        database = f"{self.folder}/reg.db"
        self.serving.__exit__()
        with closing(sqlite3.connect(database)) as file:
            [(digest,)] = file.execute("SELECT digest FROM token").fetchall()
        self.assertEqual(lines[0]["digest"], digest.hex())
        self.assertEqual(lines[0]["digest"], hashlib.sha256(TOKEN.encode()).hexdigest())

    def test_refusals_that_are_no_guesses(self):
        self.assertEqual({self.ask("GET", "/networks/none/peers")[0] for _ in range(250)}, {404})

    def test_the_file(self):
        told = run("haproxy", "-c", "-f", self.folder / "haproxy.cfg", allowed=None, environment={"CREDENTIALS_DIRECTORY": str(self.folder)})
        # The one complaint is that here no socket is inherited.
        self.assertEqual([line for line in told.stderr.splitlines() if "[WARNING]" in line], [])
