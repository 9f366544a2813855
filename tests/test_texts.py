"""Labels, names, hosts and tokens at random at each length, and numbers and moments of each size: all are
taken, kept and shown. `WGR_SEED=N` takes other texts."""

import hashlib
import os
import random
import sqlite3
import string
from contextlib import closing

from register_file import S, Files, network_row, pool_of, put
from serving import OFFICE, TOKEN, done, file_of, key, make_register, peer, refused, request
from test_batch import compare

SEED = int(os.environ.get("WGR_SEED", "1"))
LABEL = [chr(code) for code in range(0x20, 0x7F)]
NAME = [*string.ascii_lowercase, *string.digits, "-"]
HOST = [*NAME, "."]
MARKS = [chr(code) for code in range(0x21, 0x7F)]
HOSTED = "vpn.example.net"
WORDS = ["a", "admin", "desk", "fax", "laptop", "network", "none", "null", "office", "office9", "peer", "printer", "server", "test", "wg0"]

# The first numbers, and such as need more bytes and digits.
NUMBERS = [*range(1, 41), 255, 256, 999, 1_000, 1_001, 4_097, 65_536, 131_073, 999_999, 1_000_000]

# 1970, 2001, 2030, 2031, 2033, 2038, 2096, 2100, the last end of a lease, and the last moment of `--now`.
LAST = 2**53 - 1
MOMENTS = [0, 1, 10**9, 1_893_456_000, 1_925_000_000, 2 * 10**9, 2**31, 4_000_000_001, 4_102_444_800, 2**32, LAST, 2**63 - 1]

LAB = {"capacity": 4096, "endpoint": f"{HOSTED}:2", "name": "lab", "pool": pool_of(2)[0], "server": S}


def digest_of(token):
    return hashlib.sha256(token.encode()).digest()


def texts(chosen, letters, lengths):
    """Random texts of these lengths, no two alike."""
    found = []
    while len(found) < len(lengths):
        text = "".join(chosen.choices(letters, k=lengths[len(found)]))
        if text not in found and text not in WORDS:
            found.append(text)
    return found


class Texts(Files):
    def setUp(self):
        super().setUp()
        self.database = make_register(self.folder)

    def compare(self, rows, moment=7):
        compare(self, self.database, moment, rows, seed=SEED)

    def put_networks(self, networks):
        """Networks of acme's beside `office`, each with a name, a host and its next number."""
        pairs = enumerate(networks, 2)
        put(self.database, "network", [network_row(row, 1, name, pool_of(row)[0], host, row, following) for row, (name, host, following) in pairs])

    def test_labels_names_and_hosts(self):
        chosen = random.Random(SEED)
        hosts = texts(chosen, HOST, range(1, 254)) + WORDS
        names = texts(chosen, NAME, [1 + place % 32 for place in range(253)]) + [word for word in WORDS if word != "office"] + ["office-2"]
        labels = ["".join(chosen.choices(LABEL, k=place % 65)) for place in range(253)] + WORDS
        self.put_networks([(name, host, 1) for name, host in zip(names, hosts, strict=True)])
        shown = [OFFICE]
        rows = []
        for row, (name, host, label) in enumerate(zip(names, hosts, labels, strict=True), 2):
            pool, first = pool_of(row)
            shown.append({"capacity": 4096, "endpoint": f"{host}:{row}", "name": name, "pool": pool, "server": S})
            added = peer(1, 1, f"{first}.2/32", label)
            rows.append((f"a label {label!r}", request("POST", f"/networks/{name}/peers", {"key": key(1), "label": label}), done(added)))
            rows.append((f"a name {name!r}", request("GET", f"/networks/{name}/peers"), done({"peers": [added]})))
        shown.sort(key=lambda network: network["name"])
        self.compare([*rows, ("hosts", request("GET", "/networks"), done({"networks": shown}))])

    def test_tokens(self):
        tokens = texts(random.Random(SEED), MARKS, range(1, 129))
        put(self.database, "token", [(digest_of(token), 1) for token in tokens if token != TOKEN])
        found, stranger = done({"peers": []}), refused(401, "unknown_token")
        rows = []
        for token in tokens:
            rows.append((token, request("GET", "/networks/office/peers", token=token), found))
            other = token[:-1] + chr(0x21 + (ord(token[-1]) - 0x20) % 94)
            rows.append((f"{other}, which nobody has", request("GET", "/networks/office/peers", token=other), found if other in tokens else stranger))
        self.compare([*rows, ("129 bytes", request("GET", "/networks", token=129 * "x"), stranger)])

    def test_numbers(self):
        self.put_networks([(f"n{number}", HOSTED, number) for number in NUMBERS])
        rows = []
        for row, number in enumerate(NUMBERS, 2):
            rows += [(f"{number}: {name}", *rest) for name, *rest in session(f"/networks/n{number}", row, number, LAST)]
        self.compare(rows)
        with closing(sqlite3.connect(self.database)) as file:
            self.assertEqual(file.execute("SELECT count(*) FROM peer").fetchall(), [(0,)])
            numbers = file.execute("SELECT next - 1 FROM network WHERE id > 1 ORDER BY id").fetchall()
        self.assertEqual(numbers, [(number,) for number in NUMBERS])

    def test_moments(self):
        self.put_networks([("lab", HOSTED, 1)])
        for place, moment in enumerate(MOMENTS):
            end = moment + 1 if moment < LAST else 0
            number = 3 * place + 1
            self.compare([*session("/networks/lab", 2, number, end), *leases(moment, end, number + 1)], moment)


def session(network, row, number, end):
    """Each command once on an empty network whose next number is this one, and the reply that is due."""
    own, first = f"{network}/peers/{number}", pool_of(row)[1]
    added, moved = peer(number, 1, f"{first}.2/32"), peer(number, 1, f"{first}.9/32", end=end)
    routed = moved | {"routes": ["fd00::/64"]}
    server = ["[Interface]", f"ListenPort = {row}", "", "[Peer]", f"PublicKey = {key(1)}", f"AllowedIPs = {first}.9/32, fd00::/64"]
    file = ["[Interface]", f"Address = {first}.9/32", "", "[Peer]", f"PublicKey = {S}", f"AllowedIPs = {first}.0/24", f"Endpoint = {HOSTED}:{row}"]
    return [
        ("add", request("POST", f"{network}/peers", {"key": key(1)}), done(added)),
        ("a key that is held", request("POST", f"{network}/peers", {"key": key(1)}), refused(409, "key_held", number=number)),
        ("lease", request("POST", f"{own}/lease", {"end": end}), done(added | {"end": end})),
        ("move", request("POST", f"{own}/address", {"address": f"{first}.9"}), done(moved)),
        ("route", request("POST", f"{own}/routes", {"prefix": "fd00::/64"}), done(routed)),
        ("owner", request("GET", f"{network}/owner/fd00::1"), done({"number": number})),
        ("list", request("GET", f"{network}/peers"), done({"peers": [routed]})),
        ("the peer's file", request("GET", f"{own}/file/quick"), file_of(*file)),
        ("the server's file", request("GET", f"{network}/server/wg"), file_of(*server)),
        ("unroute", request("POST", f"{network}/unroute", {"prefix": "fd00::/64"}), done(moved)),
        ("revoke", request("DELETE", own), done({"revoked": number})),
        ("nobody's number", request("DELETE", own), refused(404, "no_such_peer")),
    ]


def leases(moment, end, number):
    """Ends of leases at a moment, and a dump, on the network `lab`; `end` is the first that isn't over."""
    peers, own, first = "/networks/lab/peers", f"/networks/lab/peers/{number}", pool_of(2)[1]
    over = min(moment, LAST)
    added, seen = peer(number, 2, f"{first}.2/32", end=end), {"handshake": 2**63 - 1, "received": 0, "sent": 0}
    line = f"{key(3)}\t(none)\t(none)\t{first}.3/32\t{2**64 - 1}\t0\t0\toff\n"
    rows = [("add", request("POST", peers, {"key": key(2), "end": end}), done(added))]
    if over:
        late = refused(409, "lease_over")
        rows += [("an end that is over", request("POST", peers, {"key": key(3), "end": over}), late)]
        rows += [("an end before it", request("POST", own + "/lease", {"end": max(over - 1, 1)}), late)]
    return [
        *rows,
        ("dump", request("POST", "/networks/lab/dump", f"(none)\t{S}\t0\toff\n{line}".encode()), done({"added": [number + 1], "known": 0})),
        ("list", request("GET", peers), done({"peers": [added, peer(number + 1, 3, f"{first}.3/32", status=seen)]})),
        ("networks", request("GET", "/networks"), done({"networks": [LAB, OFFICE]})),
        ("revoke", request("DELETE", own), done({"revoked": number})),
        ("revoke the other", request("DELETE", f"{peers}/{number + 1}"), done({"revoked": number + 1})),
    ]
