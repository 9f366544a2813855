"""`wgr batch`: requests from files; and that no tenant sees what others do."""

import os
import sqlite3
import tempfile
import unittest
from contextlib import closing
from pathlib import Path

from keys import key_text
from program import Left, run, without_room
from serving import (
    PEERS,
    SERVER_KEY,
    TOKEN,
    done,
    file_of,
    key,
    make_register,
    network_add,
    order,
    peer,
    refused,
    request,
)

# Where files of requests are written: in memory, if the system has a folder there, since they are thousands.
ROOM = "/dev/shm" if os.access("/dev/shm", os.W_OK) else None


def batch(database, now, requests, prepare=None):
    """Runs the program on files of these requests."""
    with tempfile.TemporaryDirectory(dir=ROOM) as folder:
        files = []
        for place, message in enumerate(requests):
            file = Path(folder) / str(place)
            file.write_bytes(message)
            files.append(str(file))
        return run(["batch", database, "--now", str(now), *files], prepare=prepare)


def replies(text):
    """The replies of a text, which follow one another."""
    found = []
    while text:
        head, _, rest = text.partition(b"\r\n\r\n")
        length = int(head.partition(b"Content-Length: ")[2].partition(b"\r\n")[0])
        found.append(head + b"\r\n\r\n" + rest[:length])
        text = rest[length:]
    return found


def compare(test, database, moment, rows, **facts):
    """Answers requests in turn. Each row has a name, a request, and the reply that is due."""
    rows = list(rows)
    left = batch(database, moment, [message for _, message, _ in rows])
    for (name, _, due), reply in zip(rows, replies(left.out), strict=True):
        with test.subTest(name, moment=moment, **facts):
            # A list of thousands would be too long to print.
            test.assertTrue(reply == due, (reply[:500], due[:500]))
    with test.subTest("the status", moment=moment, **facts):
        test.assertEqual((left.status, left.err), (0, b""))


def files_at(moment, form):
    """The files of peer 1, of peer 2, whose lease ends at 100 and who has a route, and of the server."""
    live, quick = moment < 100, form == "quick"
    to_server = ["", "[Peer]", f"PublicKey = {SERVER_KEY}"]
    allowed, endpoint = "AllowedIPs = 10.8.0.0/24", "Endpoint = vpn.example.net:51820"
    first = ["[Interface]", *(["Address = 10.8.0.2/32"] if quick else []), *to_server, allowed + (", 192.168.4.0/24" if live else ""), endpoint]
    second = ["[Interface]", *(["Address = 10.8.0.3/32"] if quick else []), *to_server, allowed, endpoint]
    server = ["[Interface]", *(["Address = 10.8.0.1/24"] if quick else []), "ListenPort = 51820"]
    server += ["", "[Peer]", f"PublicKey = {key(1)}", "AllowedIPs = 10.8.0.2/32"]
    if live:
        server += ["", "[Peer]", f"PublicKey = {key(2)}", "AllowedIPs = 10.8.0.3/32, 192.168.4.0/24"]
    return [file_of(*first), file_of(*second) if live else refused(404, "no_such_peer"), file_of(*server)]


class Batch(unittest.TestCase):
    maxDiff = None

    def setUp(self):
        self.folder = Path(self.enterContext(tempfile.TemporaryDirectory()))
        self.database = make_register(self.folder)

    def test_two_requests(self):
        left = batch(
            self.database, 7, [request("POST", PEERS, {"key": key(1)}), request("GET", PEERS)]
        )
        first = peer(1, 1, "10.8.0.2/32")
        self.assertEqual(left, Left(0, done(first) + done({"peers": [first]})))

    def test_the_moment_is_that_of_the_words(self):
        add = request("POST", PEERS, {"key": key(1), "end": 100})
        self.assertEqual(
            batch(self.database, 100, [add]), Left(0, refused(409, "lease_over"))
        )
        self.assertEqual(
            batch(self.database, 99, [add]), Left(0, done(peer(1, 1, "10.8.0.2/32", end=100)))
        )
        self.assertEqual(
            batch(self.database, 100, [request("GET", PEERS)]), Left(0, done({"peers": []}))
        )

    def test_files_at_a_moment(self):
        """A file has the peers, and the routes to them, whose leases aren't over at its moment."""
        add = [request("POST", PEERS, {"key": key(of), "end": end}) for of, end in [(1, 0), (2, 100)]]
        route = request("POST", f"{PEERS}/2/routes", {"prefix": "192.168.4.0/24"})
        self.assertEqual(batch(self.database, 7, [*add, route]).status, 0)
        for moment in [99, 100, 101]:
            for form in ["wg", "quick"]:
                with self.subTest(form, moment=moment):
                    files = [f"{PEERS}/1/file/{form}", f"{PEERS}/2/file/{form}", f"/networks/office/server/{form}"]
                    left = batch(self.database, moment, [request("GET", path) for path in files])
                    self.assertEqual(left, Left(0, b"".join(files_at(moment, form))))

    def test_networks_by_name(self):
        for name, place in [("zoo", 1), ("a-b", 2), ("a", 3), ("ab", 4), ("office2", 5)]:
            network_add(self.database, "acme", name, f"10.9.{place}.0/24", port=str(place))
        named = [("a", 9, 3), ("a-b", 9, 2), ("ab", 9, 4), ("office", 8, 0), ("office2", 9, 5), ("zoo", 9, 1)]
        networks = [
            {"capacity": 4096, "endpoint": f"vpn.example.net:{place or 51820}", "name": name, "pool": f"10.{second}.{place}.0/24", "server": SERVER_KEY}
            for name, second, place in named
        ]
        left = batch(self.database, 7, [request("GET", "/networks")])
        self.assertEqual(left, Left(0, done({"networks": networks})))

    def test_an_address_for_each_peer(self):
        """The last addresses of a pool are given in turn, with strangers' requests and orders between."""
        for first in range(1, 255, 64):
            asked, due = [], b""
            for byte in range(first, min(first + 64, 255)):
                of = key_text(bytes(31 * [0xAA] + [byte]))
                asked += [request("POST", PEERS, {"key": of}), request("GET", PEERS, token="zzz")]
                made = done(peer(byte, 0, f"10.8.0.{byte + 1}/32") | {"key": of})
                due += made if byte < 254 else refused(409, "pool_full")
                due += refused(401, "unknown_token")
            self.assertEqual(batch(self.database, 0, asked), Left(0, due))
            again = run(["tenant-add", self.database, "acme"])
            self.assertEqual(again, Left(2, b"", b"wgr: name_held\n"))

    def test_a_network_at_its_limits(self):
        """A number above 1,000,000 is never given, and a network has 4,096 routes at most."""
        with closing(sqlite3.connect(self.database)) as rows, rows:
            rows.execute("update network set next = 1000000")
        many = ",".join(f"172.16.{place // 256}.{place % 256}/32" for place in range(4_096))
        line = f"{key(1)}\t(none)\t(none)\t10.8.0.2/32,{many}\t0\t0\t0\toff\n"
        asked = [
            request("POST", "/networks/office/dump", f"(none)\t{SERVER_KEY}\t51820\toff\n{line}".encode()),
            request("POST", f"{PEERS}/1000000/routes", {"prefix": "172.32.0.0/16"}),
            request("POST", PEERS, {"key": key(2)}),
        ]
        due = [done({"added": [1_000_000], "known": 0})]
        due += [refused(409, "routes_full"), refused(409, "numbers_spent")]
        self.assertEqual(batch(self.database, 7, asked), Left(0, b"".join(due)))

    def test_another_tenants_network(self):
        """It is answered as one that nobody has, byte for byte."""
        asked = [request("GET", "/networks/lab/peers")]
        nobodys = batch(self.database, 7, asked)
        self.assertEqual(nobodys, Left(0, refused(404, "no_such_network")))
        order("tenant-add", self.database, "bolt")
        network_add(self.database, "bolt", "lab", "10.9.0.0/24", port="51821")
        self.assertEqual(batch(self.database, 7, asked), nobodys)

    def test_an_ended_token(self):
        """Who asks with it is a stranger from then on, and no other token ends."""
        order("tenant-add", self.database, "bolt")
        order("token-grant", self.database, "bolt", token="xyz")
        asked = [request("GET", PEERS), request("GET", "/networks", token="xyz")]
        theirs = done({"networks": []})
        self.assertEqual(batch(self.database, 7, asked), Left(0, done({"peers": []}) + theirs))
        order("token-end", self.database, token=TOKEN)
        left = batch(self.database, 7, asked)
        self.assertEqual(left, Left(0, refused(401, "unknown_token") + theirs))

    def test_two_worlds(self):
        """A tenant's replies are the same where another has a network of its name and many peers."""
        shared = self.folder / "shared"
        shared.mkdir()
        other = make_register(shared)
        order("tenant-add", other, "bolt")
        order("token-grant", other, "bolt", token="xyz")
        network_add(other, "bolt", "office", "10.9.0.0/24", port="51821")
        theirs = [
            request("POST", PEERS, {"key": key_text(bytes([byte] * 32))}, token="xyz")
            for byte in range(1, 101)
        ]
        own = [
            request("POST", PEERS, {"key": key(1)}),
            request("POST", PEERS, {"key": key(2)}),
            request("POST", f"{PEERS}/1/routes", {"prefix": "192.168.4.0/24"}),
            request("DELETE", f"{PEERS}/2"),
            request("GET", PEERS),
        ]
        mixed = []
        for place, message in enumerate(own):
            mixed += [*theirs[20 * place : 20 * place + 20], message]
        alone, among = batch(self.database, 7, own), batch(other, 7, mixed)
        self.assertEqual((alone.status, among.status), (0, 0))
        self.assertEqual(replies(among.out)[20::21], replies(alone.out))

    def test_a_key_on_two_lines_of_a_dump(self):
        """It is one peer, with the address of the line taken first and the status of the line taken last."""
        lines = [f"{key(2)}\t(none)\t(none)\t10.8.0.{last}/32\t{last}\t1\t2\toff\n" for last in [2, 3]]
        dump = f"(none)\t{SERVER_KEY}\t51820\toff\n" + "".join(lines)
        asked = [request("POST", "/networks/office/dump", dump.encode()), request("GET", PEERS)]
        taken = peer(1, 2, "10.8.0.2/32", status={"handshake": 3, "received": 1, "sent": 2})
        left = batch(self.database, 7, asked)
        self.assertEqual(left, Left(0, done({"added": [1], "known": 1}) + done({"peers": [taken]})))

    def test_a_log_that_takes_nothing(self):
        """A change that can't be written is answered Unavailable and leaves the rows; the status shows it."""
        listed, none = request("GET", PEERS), done({"peers": []})
        asked = [listed, request("POST", PEERS, {"key": key(1)}), listed]
        left = batch(self.database, 7, asked, prepare=without_room)
        self.assertEqual(left, Left(1, none + refused(503, "unavailable") + none))
        self.assertEqual(batch(self.database, 7, [listed]), Left(0, none))

    def test_files_that_are_not_there(self):
        before = Path(self.database).read_bytes()
        words = ["batch", self.database, "--now", "7", str(self.folder / "no")]
        self.assertEqual(run(words), Left(1, b"", b"wgr: device\n"))
        self.assertEqual(Path(self.database).read_bytes(), before)

    def test_words_that_do_not_serve(self):
        rows = [
            ("now", ["batch", self.database, "--now", "x", "file"], b"wgr: bad_field now\n"),
            ("now above the limit", ["batch", self.database, "--now", str(2**63), "file"], b"wgr: bad_field now\n"),
        ]
        for name, words, told in rows:
            with self.subTest(name):
                self.assertEqual(run(words), Left(2, b"", told))
        with self.subTest("no file"):
            self.assertEqual(run(["batch", self.database, "--now", "7"]).status, 2)
