"""What `wgr serve` answers to each command, method and path: whole replies byte for byte."""

from serving import (
    OFFICE,
    PEERS,
    SERVER_KEY,
    Serving,
    done,
    file_of,
    key,
    network_add,
    order,
    peer,
    refused,
    wrong_method,
)

# A session at moment 100: what is asked in turn, and the reply.
SESSION = [
    ("GET", "/networks", None, done({"networks": [OFFICE]})),
    ("GET", PEERS, None, done({"peers": []})),
    ("POST", PEERS, {"key": key(1)}, done(peer(1, 1, "10.8.0.2/32"))),
    (
        "POST",
        PEERS,
        {"key": key(2), "label": 'a "b" \\', "address": "10.8.0.9", "end": 101, "keepalive": 25},
        done(peer(2, 2, "10.8.0.9/32", 'a "b" \\', 101, 25)),
    ),
    (
        "POST",
        f"{PEERS}/2/lease",
        {"end": 9007199254740991},
        done(peer(2, 2, "10.8.0.9/32", 'a "b" \\', 9007199254740991, 25)),
    ),
    ("POST", f"{PEERS}/2/lease", {"end": 0}, done(peer(2, 2, "10.8.0.9/32", 'a "b" \\', 0, 25))),
    ("POST", f"{PEERS}/2/address", {}, done(peer(2, 2, "10.8.0.3/32", 'a "b" \\', 0, 25))),
    (
        "POST",
        f"{PEERS}/2/address",
        {"address": "10.8.0.7/32"},
        done(peer(2, 2, "10.8.0.7/32", 'a "b" \\', 0, 25)),
    ),
    (
        "POST",
        f"{PEERS}/1/routes",
        {"prefix": "192.168.4.7/24"},
        done(peer(1, 1, "10.8.0.2/32", routes=["192.168.4.0/24"])),
    ),
    (
        "POST",
        f"{PEERS}/2/routes",
        {"prefix": "192.168.4.0/24"},
        done(peer(2, 2, "10.8.0.7/32", 'a "b" \\', 0, 25, ["192.168.4.0/24"])),
    ),
    ("GET", "/networks/office/owner/192.168.4.1", None, done({"number": 2})),
    ("GET", "/networks/office/owner/10.8.0.2", None, done({"number": 1})),
    (
        "GET",
        PEERS,
        None,
        done(
            {
                "peers": [
                    peer(1, 1, "10.8.0.2/32"),
                    peer(2, 2, "10.8.0.7/32", 'a "b" \\', 0, 25, ["192.168.4.0/24"]),
                ]
            }
        ),
    ),
    (
        "GET",
        f"{PEERS}/1/file/quick",
        None,
        file_of(
            *["[Interface]", "Address = 10.8.0.2/32", "", "[Peer]", f"PublicKey = {SERVER_KEY}"],
            *["AllowedIPs = 10.8.0.0/24, 192.168.4.0/24", "Endpoint = vpn.example.net:51820"],
        ),
    ),
    (
        "GET",
        f"{PEERS}/2/file/wg",
        None,
        file_of(
            *["[Interface]", "", "[Peer]", f"PublicKey = {SERVER_KEY}", "AllowedIPs = 10.8.0.0/24"],
            *["Endpoint = vpn.example.net:51820", "PersistentKeepalive = 25"],
        ),
    ),
    (
        "GET",
        "/networks/office/server/quick",
        None,
        file_of(
            *["[Interface]", "Address = 10.8.0.1/24", "ListenPort = 51820", ""],
            *["[Peer]", f"PublicKey = {key(1)}", "AllowedIPs = 10.8.0.2/32", ""],
            *["[Peer]", f"PublicKey = {key(2)}", "AllowedIPs = 10.8.0.7/32, 192.168.4.0/24"],
            *["PersistentKeepalive = 25"],
        ),
    ),
    (
        "POST",
        "/networks/office/unroute",
        {"prefix": "192.168.4.0/24"},
        done(peer(2, 2, "10.8.0.7/32", 'a "b" \\', 0, 25)),
    ),
    ("DELETE", f"{PEERS}/2", None, done({"revoked": 2})),
    (
        "POST",
        "/networks/office/dump",
        f"{key(0)}\t{SERVER_KEY}\t51820\toff\n"
        f"{key(1)}\t(none)\t192.0.2.1:9\t10.8.0.2/32\t1700000000\t5\t6\toff\n"
        f"{key(3)}\t{key(4)}\t(none)\tfd00:9::/64\t0\t0\t0\t25\n".encode(),
        done({"added": [3], "known": 1}),
    ),
    (
        "GET",
        PEERS,
        None,
        done(
            {
                "peers": [
                    peer(1, 1, "10.8.0.2/32", status={"handshake": 1700000000, "received": 5, "sent": 6}),
                    peer(
                        *[3, 3, "10.8.0.3/32", "", 0, 25, ["fd00:9::/64"]],
                        status={"handshake": 0, "received": 0, "sent": 0},
                    ),
                ]
            }
        ),
    ),
]

# Each path, and the methods that it has.
METHODS = [
    ("/networks", "GET"),
    (PEERS, "GET, POST"),
    (f"{PEERS}/1", "DELETE"),
    (f"{PEERS}/1/address", "POST"),
    (f"{PEERS}/1/routes", "POST"),
    (f"{PEERS}/1/lease", "POST"),
    (f"{PEERS}/1/file/wg", "GET"),
    ("/networks/office/unroute", "POST"),
    ("/networks/office/dump", "POST"),
    ("/networks/office/owner/10.8.0.2", "GET"),
    ("/networks/office/server/quick", "GET"),
]

LINE = f"{key(3)}\t(none)\t(none)\t10.8.0.2/32\t0\t0\t0\toff\n"

# Refusals on a network of capacity 3 in 10.8.0.0/29 that has peer 1, with key 1, at .2, and the route
# 192.168.4.0/24 to it.
REFUSALS = [
    ("GET", "/", None, refused(404, "no_such_path")),
    ("GET", "/networks?", None, refused(404, "no_such_path")),
    ("DELETE", f"{PEERS}/01", None, refused(404, "no_such_path")),
    ("DELETE", f"{PEERS}/1000001", None, refused(404, "no_such_path")),
    ("GET", "/networks/office/server/conf", None, refused(404, "no_such_path")),
    ("GET", "/networks/lab/peers", None, refused(404, "no_such_network")),
    ("GET", "/networks/Office/peers", None, refused(404, "no_such_network")),
    ("DELETE", f"{PEERS}/2", None, refused(404, "no_such_peer")),
    ("POST", "/networks/office/unroute", {"prefix": "192.168.0.0/16"}, refused(404, "no_such_route")),
    ("GET", "/networks/office/owner/192.0.2.1", None, refused(404, "nobodys_address")),
    ("GET", "/networks/office/owner/10.8.0.2/32", None, refused(404, "no_such_path")),
    ("GET", "/networks/office/owner/10.8.0", None, refused(400, "bad_field", field="address")),
    ("POST", PEERS, {"key": key(1)}, refused(409, "key_held", number=1)),
    ("POST", PEERS, {"key": SERVER_KEY}, refused(409, "server_key")),
    ("POST", PEERS, {"key": key(2), "end": 100}, refused(409, "lease_over")),
    ("POST", PEERS, {"key": key(2), "address": "10.8.0.7"}, refused(409, "outside_pool")),
    ("POST", PEERS, {"key": key(2), "address": "fd00::2"}, refused(409, "outside_pool")),
    ("POST", PEERS, {"key": key(2), "address": "10.8.0.2"}, refused(409, "address_held")),
    ("POST", f"{PEERS}/1/routes", {"prefix": "10.8.0.2"}, refused(409, "is_address")),
    ("POST", f"{PEERS}/1/routes", {"prefix": "10.8.0.1/32"}, refused(409, "is_address")),
    ("POST", f"{PEERS}/1/lease", {"end": 99}, refused(409, "lease_over")),
    ("POST", PEERS, b"", refused(400, "bad_field", field="body")),
    ("POST", PEERS, b"[]", refused(400, "bad_field", field="body")),
    ("POST", PEERS, {"key": key(2), "number": 7}, refused(400, "bad_field", field="body")),
    ("POST", PEERS, {"label": "x"}, refused(400, "bad_field", field="key")),
    ("POST", PEERS, {"key": key(2)[:43]}, refused(400, "bad_field", field="key")),
    ("POST", PEERS, {"key": key(2), "label": "\t"}, refused(400, "bad_field", field="label")),
    ("POST", PEERS, {"key": key(2), "label": 65 * "x"}, refused(400, "bad_field", field="label")),
    ("POST", PEERS, {"key": key(2), "address": "10.8.0.0/29"}, refused(400, "bad_field", field="address")),
    ("POST", PEERS, {"key": key(2), "end": -1}, refused(400, "bad_field", field="end")),
    ("POST", PEERS, {"key": key(2), "end": 9007199254740992}, refused(400, "bad_field", field="end")),
    ("POST", PEERS, {"key": key(2), "keepalive": 65536}, refused(400, "bad_field", field="keepalive")),
    ("POST", PEERS, {"label": 1, "key": "x"}, refused(400, "bad_field", field="key")),
    ("POST", f"{PEERS}/1/lease", {}, refused(400, "bad_field", field="end")),
    ("POST", f"{PEERS}/1/routes", {}, refused(400, "bad_field", field="prefix")),
    ("POST", "/networks/office/dump", b"", refused(400, "bad_dump", field=1, line=1)),
    (
        *["POST", "/networks/office/dump"],
        f"(none)\t{SERVER_KEY}\t51820\toff\n{key(3)}\t(none)\t(none)\t10.8.0.2\t0".encode(),
        refused(400, "bad_dump", field=6, line=2),
    ),
    (
        *["POST", "/networks/office/dump", f"(none)\t{key(8)}\t51820\toff\n".encode()],
        refused(409, "wrong_server"),
    ),
    (
        *["POST", "/networks/office/dump", f"(none)\t{SERVER_KEY}\t51820\toff\n{LINE}".encode()],
        refused(409, "address_held", line=2),
    ),
]


class Replies(Serving):
    def test_a_session(self):
        server = self.serve(now=100)
        for method, path, body, due in SESSION:
            with self.subTest(f"{method} {path}"):
                self.assertEqual(server.ask(method, path, body), due)

    def test_methods(self):
        server = self.serve()
        for path, allow in METHODS:
            for method in ["GET", "POST", "DELETE", "PUT", "HEAD", "get"]:
                if method not in allow.split(", "):
                    with self.subTest(f"{method} {path}"):
                        self.assertEqual(server.ask(method, path), wrong_method(allow))

    def test_refusals(self):
        order("network-end", self.database, "acme", "office")
        network_add(self.database, "acme", "office", "10.8.0.0/29", capacity="3")
        server = self.serve(now=100)
        server.ask("POST", PEERS, {"key": key(1)})
        server.ask("POST", f"{PEERS}/1/routes", {"prefix": "192.168.4.0/24"})
        before = server.ask("GET", PEERS)
        for method, path, body, due in REFUSALS:
            with self.subTest(f"{method} {path} {body}"):
                self.assertEqual(server.ask(method, path, body), due)
        self.assertEqual(server.ask("GET", PEERS), before)

    def test_full_networks(self):
        order("network-end", self.database, "acme", "office")
        network_add(self.database, "acme", "office", "10.8.0.0/30", capacity="2")
        network_add(self.database, "acme", "lab", "fd00::/64", port="51821", capacity="1")
        server = self.serve()
        self.assertEqual(server.ask("POST", PEERS, {"key": key(1)}), done(peer(1, 1, "10.8.0.2/32")))
        self.assertEqual(server.ask("POST", PEERS, {"key": key(2)}), refused(409, "pool_full"))
        lab = "/networks/lab/peers"
        self.assertEqual(server.ask("POST", lab, {"key": key(1)}), done(peer(1, 1, "fd00::2/128")))
        self.assertEqual(server.ask("POST", lab, {"key": key(2)}), refused(409, "capacity_reached"))

    def test_who_may_ask(self):
        order("tenant-add", self.database, "bolt")
        order("token-grant", self.database, "bolt", token="xyz")
        network_add(self.database, "bolt", "lab", "10.9.0.0/24", port="51821")
        server = self.serve()
        unknown = refused(401, "unknown_token")
        for name, token in [("none", None), ("nobody's", "abd"), ("in capitals", "ABC"), ("empty", "")]:
            with self.subTest(name):
                self.assertEqual(server.ask("GET", "/networks", token=token), unknown)
        absent = refused(404, "no_such_network")
        self.assertEqual(absent.count(b"Content-Length: 27\r\n"), 1)
        for name in ["lab", "nobodys"]:
            with self.subTest(f"the network {name}"):
                self.assertEqual(server.ask("GET", f"/networks/{name}/peers"), absent)
        with self.subTest("its owner"):
            self.assertEqual(server.ask("GET", "/networks/lab/peers", token="xyz"), done({"peers": []}))
