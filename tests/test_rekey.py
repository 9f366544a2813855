"""`wgr-client rekey`: another key for a device, whatever is lost or taken on the way; and how `list` finds its peer."""

import json
import os
import re

from program import Left
from serving import PEERS, TOKEN, order
from test_client import Client, bad_gateway, lost, too_many, unavailable
from tools import needs

# What `wgr-client rekey` asks for a peer with two routes, each behind a list of the peers, which it reads once more at
# its beginning and at its end.
STEPS = ["add", "route", "route", "hold", "revoke", "move", "unroute"]
ROUTES = ["192.168.4.0/24", "fd00:4::/64"]


def as_it_is(reply):
    return reply


class Rekey(Client):
    """Peer 1 is the device's, at the lowest address, and has two routes; peer 2 is another one."""

    def setUp(self):
        super().setUp()
        self.add_device()

    def add_device(self):
        words = ["add", "office", "laptop.conf", "--label", "laptop", "--days", "9", "--dns", "10.8.0.1", "--keepalive", "7"]
        self.number = len(self.peers()) + 1
        self.assertEqual(self.client(*words).status, 0)
        self.device = self.peers()[-1]
        for prefix in ROUTES:
            self.change("POST", f"{PEERS}/{self.device['number']}/routes", {"prefix": prefix})
        self.device["routes"] = ROUTES
        self.text = (self.folder / "laptop.conf").read_text()

    def change(self, method, path, body=None):
        reply = self.server.ask(method, path, body)
        self.assertIn(b" 200 OK", reply)
        return json.loads(reply.partition(b"\r\n\r\n")[2])

    def add_other(self, number, **more):
        """Another client adds a peer."""
        key = f"{number:02}{'A' * 41}="
        return self.change("POST", PEERS, {"key": key, **more})

    def is_changed(self, address=None):
        """There is one peer of the device, with all that it had but the key and the number, and its file has the new key alone."""
        address = address or self.device["address"]
        text = (self.folder / "laptop.conf").read_text()
        private = re.search("PrivateKey = (.*)\n", text)[1]
        key = self.public(private)
        self.assertNotEqual(key, self.device["key"])
        (found,) = [it for it in self.peers() if it["label"] == "laptop"]
        self.assertGreater(found["number"], self.device["number"])
        self.assertEqual(found, {**self.device, "key": key, "number": found["number"], "address": address})
        former = re.search("PrivateKey = (.*)\n", self.text)[1]
        self.assertEqual(text, self.text.replace(former, private).replace(self.device["address"], address))
        self.assertEqual(os.stat(self.folder / "laptop.conf").st_mode & 0o777, 0o600)
        self.assertEqual([name for name in self.names(".") if "laptop" in name], ["laptop.conf"])
        return f"peer {found['number']}: laptop.conf\n".encode()

    def stays(self):
        """The device's peer and its file are as they were, and nothing is left over."""
        self.assertEqual([it for it in self.peers() if it["label"] == "laptop"], [self.device])
        self.assertEqual((self.folder / "laptop.conf").read_text(), self.text)
        self.assertEqual([name for name in self.names(".") if "laptop" in name], ["laptop.conf"])


@needs("wg")
class Changes(Rekey):
    def rekey(self, acts=(), words=("rekey", "office", "laptop.conf")):
        return self.through(acts, *words)

    def again(self):
        """The same once more, of the same device."""
        for it in self.peers():
            self.change("DELETE", f"{PEERS}/{it['number']}")
        (self.folder / "laptop.conf").unlink(missing_ok=True)
        self.add_device()

    def test_a_change(self):
        left = self.rekey()
        self.assertEqual(left, Left(0, self.is_changed()))
        with self.subTest("and another one"):
            self.text, self.device = (self.folder / "laptop.conf").read_text(), self.peers()[-1]
            self.assertEqual(self.rekey(), Left(0, self.is_changed()))

    def test_replies_that_are_lost(self):
        """Each in turn: of a list, or of a change, which is done all the same."""
        for place in range(2 * len(STEPS) + 2):
            for act in [lost, [bad_gateway, too_many][place % 2]]:
                with self.subTest(place=place, act=act.__name__):
                    self.again()
                    self.assertEqual(self.rekey([*place * [as_it_is], act]), Left(0, self.is_changed()))

    def test_runs_that_are_cut_off(self):
        """No answer comes from any place on; the same words go on from there."""
        for place in range(2 * len(STEPS) + 2):
            with self.subTest(place=place):
                self.again()
                self.assertEqual(self.rekey([*place * [as_it_is], *5 * [unavailable]]).status, 1)
                self.assertEqual(self.rekey(), Left(0, self.is_changed()))

    def test_a_file_that_was_written(self):
        """A run that was killed once the file was written leaves FILE.rekey, and nothing to do."""
        kept = self.folder / "laptop.conf.rekey"
        self.rekey([*(2 * len(STEPS) + 1) * [as_it_is], *5 * [unavailable]])
        text = kept.read_text()
        due = self.rekey()
        kept.write_text(text)
        self.assertEqual(self.rekey(), due)
        self.is_changed()

    def test_another_client_adds_peers(self):
        """Before each request: none gets the device's address, though it is the lowest."""
        added = []

        def meanwhile(reply):
            added.append(self.add_other(10 + len(added)))
            return reply

        left = self.rekey(2 * (len(STEPS) + 1) * [meanwhile])
        self.assertEqual(left, Left(0, self.is_changed()))
        self.assertGreater(len(added), 2 * len(STEPS))

    def test_another_client_takes_the_address(self):
        """By its name, once the former peer is removed: the device has another one, and its file says so."""

        def meanwhile(reply):
            self.add_other(10, address="10.8.0.2")
            return reply

        place = 1 + 2 * STEPS.index("revoke") + 1
        left = self.rekey([*place * [as_it_is], meanwhile])
        self.assertEqual((left.status, left.out), (1, self.is_changed("10.8.0.3/32")))
        self.assertEqual(left.err, b"wgr-client: another peer got 10.8.0.2/32 meanwhile, so the address is 10.8.0.3/32\n")

    def test_routes_of_others(self):
        """One in the pool that has the address isn't taken from its peer; one that moves away meanwhile isn't taken back."""
        other = self.add_other(10)
        with self.subTest("a route that has the address"):
            self.change("POST", f"{PEERS}/{other['number']}/routes", {"prefix": "10.8.0.2/31"})
            self.assertEqual(self.rekey(), Left(0, self.is_changed()))
            self.assertEqual([it["routes"] for it in self.peers() if it["number"] == other["number"]], [["10.8.0.2/31"]])
        with self.subTest("the route that keeps the address, which somebody else removes"):
            self.change("POST", "/networks/office/unroute", {"prefix": "10.8.0.2/31"})
            self.text, self.device = (self.folder / "laptop.conf").read_text(), self.peers()[-1]

            def removes(reply):
                self.change("POST", "/networks/office/unroute", {"prefix": "10.8.0.2/31"})
                return reply

            self.assertEqual(self.rekey([*(1 + 2 * STEPS.index("unroute")) * [as_it_is], removes]), Left(0, self.is_changed()))
        with self.subTest("a route that moves away"):
            self.text, self.device = (self.folder / "laptop.conf").read_text(), self.peers()[-1]

            def moves(_):
                self.change("POST", f"{PEERS}/{other['number']}/routes", {"prefix": ROUTES[0]})
                return b""

            # The reply to the first route is lost.
            self.assertEqual(self.rekey([*4 * [as_it_is], moves]).status, 0)
            self.device["routes"] = ROUTES[1:]
            self.is_changed()

    def test_refusals(self):
        """Before a peer has the new key, nothing is changed and no key is left."""
        self.server.process.kill()
        self.server.process.wait()
        order("token-grant", self.database, "acme", "--right", "read", token="reads")
        self.server = self.serve()
        self.url = f"http://127.0.0.1:{self.server.port}"
        rows = [
            ("nobody's token", "nobodys", "office", "laptop.conf", "refused: unknown_token"),
            ("a token that only reads", "reads", "office", "laptop.conf", "refused: read_only: the token only reads"),
            ("no such network", TOKEN, "lab", "laptop.conf", "refused: no_such_network"),
            ("no file", TOKEN, "office", "none.conf", "none.conf: No such file or directory"),
            ("no key in it", TOKEN, "office", "token", "token has no PrivateKey"),
        ]
        for name, token, network, file, why in rows:
            with self.subTest(name):
                self.assertEqual(self.client("rekey", network, file, WGR_TOKEN=token), Left(1, b"", f"wgr-client: {why}\n".encode()))
                self.stays()
        with self.subTest("a file with this name that is another's"):
            kept = self.folder / "laptop.conf.rekey"
            kept.write_text("mine\n")
            self.assertEqual(self.rekey(), Left(1, b"", b"wgr-client: laptop.conf.rekey is another's\n"))
            self.assertEqual(kept.read_text(), "mine\n")
            kept.unlink()
        with self.subTest("a peer that is gone"):
            self.change("DELETE", f"{PEERS}/{self.device['number']}")
            self.assertEqual(self.rekey(), Left(1, b"", b"wgr-client: no peer has the key of laptop.conf\n"))


@needs("wg")
class Found(Rekey):
    def test_by_key_and_label(self):
        other = self.add_other(10, label="desk")
        rows = [
            ([], [self.device, other]),
            (["--label", "desk"], [other]),
            (["--key", self.device["key"]], [self.device]),
            (["--key", self.device["key"], "--label", "laptop"], [self.device]),
        ]
        for words, due in rows:
            with self.subTest(words):
                left = self.client("list", "office", *words, "--json")
                self.assertEqual((left.status, left.err, json.loads(left.out)), (0, b"", due))
                numbers = [line.split(b"\t")[0] for line in self.client("list", "office", *words).out.splitlines()]
                self.assertEqual(numbers, [str(it["number"]).encode() for it in due])
        for words in [["--label", "des"], ["--key", "x"], ["--key", other["key"], "--label", "laptop"], ["--label", ""]]:
            with self.subTest(words):
                self.assertEqual(self.client("list", "office", *words, "--json"), Left(1, b"", b"wgr-client: there is no such peer\n"))
        with self.subTest("no peers"):
            for it in self.peers():
                self.change("DELETE", f"{PEERS}/{it['number']}")
            self.assertEqual(self.client("list", "office", "--json"), Left(0, b"[]\n"))
