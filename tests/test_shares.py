"""How much of one tenant, and of one address, nginx and HAProxy let be under way by the files of dist/, and what is left to another
tenant beside those that ask as fast as they may."""

import http.client
import itertools
import json
import statistics
import subprocess
import sys
import threading
import time
from concurrent.futures import ThreadPoolExecutor, wait
from contextlib import contextmanager
from http.server import BaseHTTPRequestHandler, ThreadingHTTPServer
from pathlib import Path

from fronts import HAProxy, Nginx
from program import LIMIT, in_time
from serving import PEERS, SERVER_KEY, key, network_add, order, wait_until_read
from tools import needs

LARGE_BODY = 100_000 * " "
FILE, SERVER_FILE, DUMP = f"{PEERS}/7/file/quick", "/networks/office/server/wg", "/networks/office/dump"
NOISE = Path(__file__).with_name("noise.py")
# By name: the requests, which are sent at once again and again up to a number, and how many of them are let through.
OWN, OTHERS = ["own"], [f"token{number}" for number in range(200)]
SHARES = [
    ("lists", 5, [("GET", PEERS, "")], OWN, 2),
    ("files of peers", 5, [("GET", FILE, "")], OWN, 2),
    ("files of the server", 5, [("GET", SERVER_FILE, "")], OWN, 2),
    ("dumps", 5, [("POST", DUMP, "")], OWN, 2),
    ("all of these, with and without /v1", 6, [("GET", PEERS, ""), ("GET", f"/v1{FILE}", ""), ("POST", f"/v1{DUMP}", "")], OWN, 2),
    ("lists and dumps at encoded paths", 6, [("GET", "/networks/office/%70eers", ""), ("POST", "/%761/networks/office/d%75mp", "")], OWN, 2),
    ("a token behind more blanks", 6, [("GET", PEERS, "")], ["own", "  own"], 2),
    ("large bodies", 4, [("POST", PEERS, LARGE_BODY)], OWN, 1),
    ("other requests", 72, [("GET", "/networks", ""), ("POST", PEERS, "{}"), ("GET", "/networks/office/owner/10.8.0.2", "")], OWN, 64),
]


class Holding(BaseHTTPRequestHandler):
    """Takes each request, and answers it once the server lets it."""

    protocol_version = "HTTP/1.1"

    def answer(self):
        self.server.taken.append(self.path)
        self.rfile.read(int(self.headers.get("Content-Length", 0)))
        self.server.goes_on.wait(LIMIT)
        self.send_response(200)
        for name, value in [("Content-Length", "2"), ("Connection", "close")]:
            self.send_header(name, value)
        self.end_headers()
        self.wfile.write(b"{}")

    do_GET = do_POST = answer

    def log_message(self, *_):
        pass


class Service(ThreadingHTTPServer):
    request_queue_size = 128


@contextmanager
def holding(port):
    """A service at this port that answers nothing until its `goes_on` is set."""
    with Service(("127.0.0.1", port), Holding) as service:
        service.goes_on, service.taken = threading.Event(), []
        threading.Thread(target=service.serve_forever, daemon=True).start()
        try:
            yield service
        finally:
            service.goes_on.set()
            service.shutdown()


class AnyFront:
    """Tests of either proxy."""

    def ask_one(self, request, token):
        method, path, body = request
        try:
            return self.ask(method, path, body or None, token=token)
        except (OSError, http.client.HTTPException):
            return 0, b"", {}

    def refused(self, count, requests, tokens, through):
        """What is refused of so many requests that are sent at once; the others are all answered, once the service goes on."""
        turns = zip(range(count), itertools.cycle(requests), itertools.cycle(tokens))
        with holding(self.serving.port) as service, ThreadPoolExecutor(count) as asking:
            asked = [asking.submit(self.ask_one, request, token) for _, request, token in turns]
            in_time(lambda: sum(one.done() for one in asked) >= count - through)
            # Nothing else is refused then.
            done = wait(asked, timeout=0.3).done
            service.goes_on.set()
            self.assertEqual({one.result()[0] for one in asked if one not in done}, {200})
            return [one.result() for one in done]

    def test_requests_under_way(self):
        self.serving.__exit__()
        for place, (name, count, requests, tokens, through) in enumerate(SHARES):
            with self.subTest(name):
                # HAProxy may count what was answered just before for a moment, so each has other tokens.
                refused = self.refused(count, requests, [f"{token}{place}" for token in tokens], through)
                self.assertEqual([given[:2] for given in refused], (count - through) * [(429, b'{"error":"too_many_requests"}')])
                self.assertEqual({given[2]["Retry-After"] for given in refused}, {"1"})
        with self.subTest("each token has its own"):
            self.assertEqual(self.refused(20, [("GET", PEERS, "")], OTHERS[:10], 20), [])

    def test_requests_of_one_address(self):
        """Each has another token, as of one who guesses, and some have none."""
        self.serving.__exit__()
        self.assertEqual([given[0] for given in self.refused(134, [("GET", PEERS, "")], OTHERS, 128)], 6 * [self.refusal])

    def timed(self, method, path, body=None, **more):
        began = time.monotonic()
        self.assertEqual(self.ask(method, path, body, **more)[0], 200)
        return time.monotonic() - began

    def adopted(self, dump):
        """The seconds that a dump takes. A proxy may count the one before for a moment after its reply was taken."""
        spent = []

        def is_taken():
            began = time.monotonic()
            status = self.ask("POST", DUMP, dump, token="noisy")[0]
            spent.append(time.monotonic() - began)
            self.assertIn(status, [200, 429])
            return status == 200

        self.assertTrue(in_time(is_taken))
        return spent[-1]

    def test_a_noisy_tenant(self):
        """While it posts dumps of 4,096 lines by 16 connections, another tenant's file has at most few of them before it."""
        self.serving.__exit__()
        database = str(self.folder / "reg.db")
        order("tenant-add", database, "noisy")
        order("token-grant", database, "noisy", token="noisy")
        network_add(database, "noisy", "office", "10.16.0.0/16", host="other.example.net")
        self.serving.__enter__()
        self.assertEqual(self.ask("POST", PEERS, json.dumps({"key": key(1)}))[0], 200)
        dumps = [dump_of(4096, moment) for moment in [1, 2]]
        adopted = statistics.median(self.adopted(dumps[turn % 2]) for turn in range(4))
        (self.folder / "requests").write_text(json.dumps([{"method": "POST", "path": DUMP, "token": "noisy", "body": dump} for dump in dumps]))
        words = [sys.executable, NOISE, str(self.port), "127.0.0.2", "6", "16", self.folder / "requests"]
        with subprocess.Popen(words, stdout=subprocess.PIPE) as noise:
            time.sleep(2)
            waits = []
            while noise.poll() is None:
                waits.append(self.timed("GET", f"{PEERS}/1/file/quick"))
            counts = json.loads(noise.stdout.read())
        self.assertGreater(counts.get("429", 0), counts.get("200", 0))
        # Without a limit there would be 16.
        self.assertLess(statistics.median(waits), 5 * adopted)


def dump_of(count, moment):
    """The dump of an interface with so many peers that were seen at this moment."""
    keys = (f"{place}{key(1)[4:]}" for place in range(1000, 1000 + count))
    lines = (f"{text}\t(none)\t(none)\t10.16.{place // 256}.{place % 256}/32\t{moment}\t0\t0\toff\n" for place, text in enumerate(keys, 2))
    return f"(none)\t{SERVER_KEY}\t51820\toff\n{''.join(lines)}"


@needs("nginx", "openssl")
class ByNginx(AnyFront, Nginx):
    refusal = 429

    def test_large_bodies_of_one_address(self):
        self.serving.__exit__()
        self.assertEqual([given[0] for given in self.refused(10, [("POST", DUMP, LARGE_BODY)], OTHERS, 2)], 8 * [429])


@needs("haproxy", "openssl", "bash")
class ByHAProxy(AnyFront, HAProxy):
    # It closes the connection.
    refusal = 0

    def test_a_client_that_goes_away(self):
        """What waits is given up with it, and the service isn't asked."""
        self.serving.__exit__()
        with holding(self.serving.port) as service, ThreadPoolExecutor(1) as asking:
            first = asking.submit(self.ask_one, ("GET", "/networks", None), "first")
            self.assertTrue(in_time(lambda: service.taken))
            for token in OTHERS[:9]:
                link = self.link()
                link.request("GET", f"/networks/{token}", headers={"Authorization": f"Bearer {token}"})
                wait_until_read(self.port, link.sock)
                link.close()
            # HAProxy logs each that it has given up.
            self.assertTrue(in_time(lambda: self.log().count("/token") == 9))
            service.goes_on.set()
            self.assertEqual(first.result()[0], 200)
            self.assertEqual(self.ask_one(("GET", "/networks/last", None), "last")[0], 200)
            self.assertEqual(service.taken, ["/networks", "/networks/last"])

    def test_those_with_least_go_first(self):
        """A token and an address that ask for the first time are before 20 requests of others, with and without a token."""
        self.serving.__exit__()
        for name, tokens in [("one token", OWN), ("many tokens", OTHERS), ("no token", [None])]:
            with self.subTest(name), holding(self.serving.port) as service, ThreadPoolExecutor(30) as asking:
                turns = itertools.islice(itertools.cycle(tokens), 20)
                asked = [asking.submit(self.ask_one, ("GET", "/networks", None), token) for token in turns]
                time.sleep(1)
                quiet = self.link(source="127.0.0.2")
                quiet.request("GET", "/networks/quiet", headers={"Authorization": "Bearer quiet"})
                wait_until_read(self.port, quiet.sock)
                # By then HAProxy has it among those that wait.
                time.sleep(1)
                service.goes_on.set()
                self.assertEqual({quiet.getresponse().status, *(one.result()[0] for one in asked)}, {200})
                quiet.close()
                self.assertLess(service.taken.index("/networks/quiet"), 4)
