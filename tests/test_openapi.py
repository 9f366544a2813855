"""docs/openapi.yaml: it is well-formed, its numbers are wide enough, its refusals are those of the specification, and its examples
are what a service answers.

That each request and reply of the other tests is one that it describes is checked by `Server.ask`.
"""

import json
import re
import unittest
from pathlib import Path

import openapi
from keys import K0
from serving import PEERS, SERVER_KEY, Serving, done, key, peer, refused, reply, request
from tools import needs_module

DOCS = Path(openapi.__file__).resolve().parent.parent / "docs"

# The refusals of each operation once its form is right: by docs/SPECIFICATION.md, its sections on commands and adoption.
NETWORK = {"no_such_network"}
OF_PEER = NETWORK | {"no_such_path", "no_such_peer"}
ADDRESS = {"outside_pool", "address_held", "pool_full"}
REFUSALS = {
    "listNetworks": (set(), set()),
    "listPeers": (NETWORK, set()),
    "addPeer": (NETWORK, ADDRESS | {"server_key", "key_held", "lease_over", "capacity_reached", "numbers_spent"}),
    "revokePeer": (OF_PEER, set()),
    "movePeer": (OF_PEER, ADDRESS),
    "routePrefix": (OF_PEER, {"is_address", "routes_full"}),
    "renewLease": (OF_PEER, {"lease_over"}),
    "peerFile": (OF_PEER, set()),
    "unroutePrefix": (NETWORK | {"no_such_route"}, set()),
    "adoptDump": (
        NETWORK,
        {"wrong_server", "server_key", "capacity_reached", "numbers_spent", "address_held", "pool_full", "is_address", "routes_full"},
    ),
    "ownerOf": (NETWORK | {"nobodys_address"}, set()),
    "serverFile": (NETWORK | {"no_such_path"}, set()),
}

# Bodies of requests for a new peer and for a lease, by what they are, and whether the page describes them.
BODIES = [
    ("a key", PEERS, {"key": K0}, True),
    ("all members", PEERS, {"key": K0, "label": "x", "address": "10.8.0.2", "end": 0, "keepalive": 0}, True),
    ("the last moment", PEERS, {"key": K0, "end": 9007199254740991}, True),
    ("a later one", PEERS, {"key": K0, "end": 9007199254740992}, False),
    ("another member", PEERS, {"key": K0, "dns": "10.8.0.1"}, False),
    ("no key", PEERS, {}, False),
    ("a key that is none", PEERS, {"key": K0[:-1]}, False),
    ("a number as text", PEERS, {"key": K0, "end": "0"}, False),
    ("true", PEERS, {"key": K0, "keepalive": True}, False),
    ("a member twice, whose last one counts", PEERS, b'{"key":"%s","key":"%s"}' % (b"x", K0.encode()), True),
    ("no JSON", PEERS, b"key", False),
    ("a lease", f"{PEERS}/1/lease", {"end": 0}, True),
    ("a lease without an end", f"{PEERS}/1/lease", {}, False),
]

# Replies to the list of peers, whether the page describes them.
ONE = peer(1, 0, "10.8.0.2/32")
SEEN = {"handshake": 2**62, "received": 2**63 - 1, "sent": 0}
REPLIES = [
    ("a peer", reply(200, {"peers": [ONE]}), True),
    ("a peer that was seen", reply(200, {"peers": [{**ONE, "status": SEEN}]}), True),
    ("a member more", reply(200, {"peers": [{**ONE, "dns": ""}]}), False),
    ("a member less", reply(200, {"peers": [{name: ONE[name] for name in ONE if name != "end"}]}), False),
    ("text in a number's place", reply(200, {"peers": [{**ONE, "end": "0"}]}), False),
    ("another refusal", refused(404, "no_such_network"), True),
    ("a refusal of another operation", refused(404, "no_such_route"), False),
    ("a field without its token", refused(401, "unknown_token"), True),
    ("401 without its field", reply(401, {"error": "unknown_token"}), False),
    ("401 with another one", reply(401, {"error": "unknown_token"}, extra="WWW-Authenticate: Basic\r\n"), False),
]


def operations():
    for path, item in openapi.PAGE["paths"].items():
        for method, found in item.items():
            if method != "parameters":
                yield path, method, found


def errors(found, status):
    """The names of refusals that an operation may have with this status."""
    if status not in found["responses"]:
        return set()
    schema = openapi.follow(found["responses"][status])["content"]["application/json"]["schema"]
    return set(schema["properties"]["error"]["enum"])


def is_told(text):
    """Whether the page describes such a reply to the list of peers."""
    try:
        openapi.check("GET", PEERS, None, text)
    except AssertionError:
        return False
    return True


def schemas(value, name=""):
    """Each schema of a number, with the member that it is of."""
    if isinstance(value, dict):
        if value.get("type") == "integer":
            yield name, value
        for member, inner in value.items():
            yield from schemas(inner, member)
    elif isinstance(value, list):
        for inner in value:
            yield from schemas(inner, name)


class Page(unittest.TestCase):
    maxDiff = None

    @needs_module("openapi_spec_validator")
    def test_it_is_well_formed(self):
        from openapi_spec_validator import validate_spec

        validate_spec(openapi.PAGE)

    def test_numbers_have_the_bits_that_they_need(self):
        found = list(schemas(openapi.PAGE))
        self.assertEqual({name for name, schema in found if "format" in schema}, {"End", "handshake", "received", "sent"})
        for name, schema in found:
            with self.subTest(name):
                self.assertEqual(schema.get("format"), "int64" if schema.get("maximum", 0) >= 2**31 else None)

    def test_refusals(self):
        self.assertEqual({found["operationId"] for _, _, found in operations()}, set(REFUSALS))
        for _, method, found in operations():
            absent, conflict = REFUSALS[found["operationId"]]
            with self.subTest(found["operationId"]):
                self.assertEqual((errors(found, "404"), errors(found, "409")), (absent, conflict))
                # A token that only reads may ask nothing but the operations that are a GET.
                self.assertEqual(errors(found, "403"), set() if method == "get" else {"read_only"})
                self.assertLessEqual({"400", "401", "411", "413", "429", "502", "503", "504"}, set(found["responses"]))
        with self.subTest("those of API.md"):
            rows = re.findall(r"(?m)^\| (4\d\d|503) \| `(\w+)` \|", (DOCS / "API.md").read_text())
            general = {"responses": {status: {"$ref": f"#/components/responses/{form}"} for status, form in openapi.GENERAL.items()}}
            statuses = {status for status, _ in rows}
            found = [general, *(found for _, _, found in operations())]
            self.assertEqual({(status, name) for each in found for status in statuses for name in errors(each, status)}, set(rows))

    @needs_module("jsonschema")
    def test_bodies_and_replies_that_it_describes(self):
        for name, path, body, due in BODIES:
            with self.subTest(name):
                self.assertEqual(openapi.is_described("POST", path, body), due)
        for name, text, due in REPLIES:
            with self.subTest(name):
                self.assertEqual(is_told(text), due)


    @needs_module("jsonschema")
    def test_examples(self):
        """There is one of each body, reply, refusal and parameter, and they are of the page."""
        for _, _, found in operations():
            contents = {("200", kind): content for kind, content in found["responses"]["200"]["content"].items()}
            contents |= {("body", kind): content for kind, content in found.get("requestBody", {"content": {}})["content"].items()}
            for status in found["responses"].keys() - {"200"}:
                contents[status, "application/json"] = openapi.follow(found["responses"][status])["content"]["application/json"]
            for (status, kind), content in contents.items():
                with self.subTest(found["operationId"], status=status):
                    given = openapi.examples(content)
                    self.assertTrue(all(openapi.fits(content["schema"], value) for value in given))
                    if status not in ["200", "body", "502", "504"]:
                        self.assertEqual(sorted(value["error"] for value in given), sorted(errors(found, status)))
        for name, form in openapi.PAGE["components"]["parameters"].items():
            with self.subTest(name):
                self.assertTrue(openapi.fits(form["schema"], form["example"]))


# The operations in an order in which each example is what a service answers, of which the first has made the peer.
SESSION = [
    *["listNetworks", "addPeer", "movePeer", "renewLease", "routePrefix", "ownerOf", "listPeers", "serverFile"],
    *["unroutePrefix", "peerFile", "adoptDump", "revokePeer"],
]


class Examples(Serving):
    def test_a_session(self):
        self.assertEqual(set(SESSION), set(REFUSALS))
        by_name = {found["operationId"]: (path, method, found) for path, method, found in operations()}
        parameters = {name: str(form["example"]) for name, form in openapi.PAGE["components"]["parameters"].items()}
        server = self.serve(now=1)
        for name in SESSION:
            with self.subTest(name):
                path, method, found = by_name[name]
                bodies = [content["example"] for content in found.get("requestBody", {"content": {}})["content"].values()]
                body = bodies[0].encode() if bodies and isinstance(bodies[0], str) else next(iter(bodies), None)
                ((kind, content),) = found["responses"]["200"]["content"].items()
                due = content["example"].encode() if kind == "text/plain" else content["example"]
                self.assertEqual(server.ask(method.upper(), path.format(**parameters), body), reply(200, due, kind))


class Bodies(Serving):
    def test_requests_made_again(self):
        """The second answer, as docs/API.md has it."""
        first = peer(1, 1, "10.8.0.2/32", label="laptop")
        moved = {**first, "address": "10.8.0.9/32"}
        renewed = {**moved, "end": 7}
        routed = {**renewed, "routes": ["192.168.4.0/24"]}
        dump = f"(none)\t{SERVER_KEY}\t51820\toff\n{key(2)}\t(none)\t(none)\t10.8.0.3/32\t0\t0\t0\toff\n".encode()
        rows = [
            ("POST", PEERS, {"key": key(1), "label": "laptop"}, done(first), refused(409, "key_held", number=1)),
            ("POST", f"{PEERS}/1/address", {"address": "10.8.0.9"}, done(moved), done(moved)),
            ("POST", f"{PEERS}/1/lease", {"end": 7}, done(renewed), done(renewed)),
            ("POST", f"{PEERS}/1/routes", {"prefix": "192.168.4.0/24"}, done(routed), done(routed)),
            ("POST", "/networks/office/unroute", {"prefix": "192.168.4.0/24"}, done(renewed), refused(404, "no_such_route")),
            ("POST", "/networks/office/dump", dump, done({"added": [2], "known": 0}), done({"added": [], "known": 1})),
            ("POST", f"{PEERS}/1/address", {}, done({**renewed, "address": "10.8.0.2/32"}), done({**renewed, "address": "10.8.0.2/32"})),
            ("DELETE", f"{PEERS}/1", None, done({"revoked": 1}), refused(404, "no_such_peer")),
        ]
        server = self.serve(now=1)
        for method, path, body, once, again in rows:
            with self.subTest(path):
                self.assertEqual((server.ask(method, path, body), server.ask(method, path, body)), (once, again))
        with self.subTest("what the second one says of the peer isn't taken"):
            server.ask("POST", PEERS, {"key": key(3)})
            server.ask("POST", PEERS, {"key": key(3), "label": "other", "end": 9})
            self.assertIn(peer(3, 3, "10.8.0.2/32"), json.loads(server.ask("GET", PEERS).partition(b"\r\n\r\n")[2])["peers"])

    @needs_module("jsonschema")
    def test_the_service_is_of_the_same_opinion(self):
        server = self.serve(now=1)
        for name, path, body, due in BODIES:
            with self.subTest(name):
                text = server.send(request("POST", path, body))
                self.assertEqual(text.startswith(b"HTTP/1.1 400 "), not due, text)


if __name__ == "__main__":
    unittest.main()
