"""Paths with `%` through nginx and HAProxy, by the files of dist/: what generated clients send works, and no path becomes another one."""

import gzip
import json
import subprocess
from urllib.parse import quote

from fronts import HAProxy, Nginx
from serving import PEERS, TOKEN, key, make_register, network_add
from tools import needs

OWNER = "/networks/lab/owner"
ADDRESS = "fd00:6::5"
# As Python's `quote(.., safe="")` and JavaScript's `encodeURIComponent` write the address.
ENCODED = f"/networks/lab/owner/{quote(ADDRESS, safe='')}"
# RFC 3986, 2.1: either case. 6.2.2.2: what needs no encoding is the same with it.
DECODED = [
    (ENCODED, f"{OWNER}/{ADDRESS}"),
    (f"/v1{ENCODED}", f"{OWNER}/{ADDRESS}"),
    (f"{OWNER}/fd00%3a6%3A:5", f"{OWNER}/{ADDRESS}"),
    (f"{OWNER}/10%2E8%2e0.2", f"{OWNER}/10.8.0.2"),
    ("/%6Eetworks", "/networks"),
    ("/%761/networks", "/networks"),
    ("/networks/a%2Db%30%39%5A%41%7a%4F%6f%50%70/peers", "/networks/a-b09ZAzOoPp/peers"),
    (PEERS, PEERS),
]
# They would become another path, or what they become is none that the register has.
KEPT = [
    f"{PEERS}%2f1",
    "/networks%2Foffice%2Fpeers",
    "/networks%3fx=1",
    "/networks%23a",
    "/networks/office%20/peers",
    "/networks/office%0d%0aX/peers",
    "/networks/office%09/peers",
    "/networks/office%7f/peers",
    "/networks/office%c3%a9/peers",
    "/networks/office%ff/peers",
    "/networks/lab/%2e%2e/office/peers",
    "/networks/lab/.%2e/office/peers",
    "/networks/lab/../%6fffice/peers",
    "/networks/lab/%2e/peers",
    "/networks/./%6fffice/peers",
    "/networks//%6fffice/peers",
    "//%6eetworks",
    "/networks/%6fffice/peers/",
    "/%6eetworks?x=1",
    "/networks/office%5cpeers",
    "/networks/office%3Bx/peers",
    "/networks/office+x%6f/peers",
    f"{OWNER}/fd00%253A6%253A%253A5",
    "/networks/%6fffice%2fpeers",
]
# Neither they, which either proxy may refuse by itself.
KEPT_OR_REFUSED = ["/networks/office%00/peers", "/networks%", "/networks/%zz", "/networks/%6", "/%2e%2e/networks", "/%2e%2e%2f%6eetworks", "/networks#%6e"]


def make_networks(folder):
    """With a second network, of IPv6."""
    database = make_register(folder)
    network_add(database, "acme", "lab", "fd00:6::/64", port="51821")
    return database


class AnyFront:
    """Tests of either proxy."""

    make_register = staticmethod(make_networks)

    def test_what_a_client_encodes(self):
        self.assertEqual(self.ask("POST", "/networks/lab/peers", json.dumps({"key": key(1), "address": ADDRESS}))[0], 200)
        for target in [ENCODED, f"/v1{ENCODED}", f"{OWNER}/{ADDRESS}"]:
            with self.subTest(target):
                self.assertEqual(self.ask("GET", target)[:2], (200, b'{"number":1}'))

    def target_of(self, path):
        head, reply = self.passed(f"GET {path} HTTP/1.1\r\nHost: a\r\n\r\n".encode())
        return head.split(" ")[1] if head else int(reply.split(b" ")[1])

    def test_what_is_passed_on(self):
        self.serving.__exit__()
        for path, due in [*DECODED, *((path, path) for path in KEPT)]:
            with self.subTest(path):
                self.assertEqual(self.target_of(path), due)
        for path in KEPT_OR_REFUSED:
            with self.subTest(path):
                self.assertIn(self.target_of(path), [path, 400])

    def test_what_is_refused(self):
        """The register refuses what it is passed as it came."""
        for path in [*KEPT, *KEPT_OR_REFUSED]:
            with self.subTest(path):
                self.assertIn(self.ask("GET", path)[0], [400, 404])

    @needs("curl")
    def test_compressed_replies(self):
        """curl takes a list compressed, and reads the same; without a word of it none is."""
        for number in range(20, 40):
            self.assertEqual(self.ask("POST", PEERS, json.dumps({"key": key(number)}))[0], 200)
        plain = self.ask("GET", PEERS)[1]
        for path, due in [(PEERS, plain), ("/networks/office/server/wg", self.ask("GET", "/networks/office/server/wg")[1])]:
            with self.subTest(path):
                words = ["curl", "-sk", "-H", f"Authorization: Bearer {TOKEN}", "-D", self.folder / "head", f"https://127.0.0.1:{self.port}{path}"]
                self.assertEqual(subprocess.run([*words, "--compressed"], capture_output=True, check=True).stdout, due)
                sent = subprocess.run([*words, "-H", "Accept-Encoding: br, gzip;q=0.5"], capture_output=True, check=True).stdout
                self.assertIn("content-encoding: gzip\n", (self.folder / "head").read_text().lower())
                self.assertEqual(gzip.decompress(sent), due)
                self.assertLess(len(sent), len(due) / 3)
                for taken in ["identity", "br", "gzip;q=0", "gzip; q=0.0", "xgzip", "*;q=0"]:
                    self.assertEqual(subprocess.run([*words, "-H", f"Accept-Encoding: {taken}"], capture_output=True, check=True).stdout, due)


@needs("nginx", "openssl")
class ByNginx(AnyFront, Nginx):
    pass


@needs("haproxy", "openssl", "bash")
class ByHAProxy(AnyFront, HAProxy):
    pass
