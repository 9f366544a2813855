"""Whatever goes wrong in a round of wgr-sync, each peer stays as the register has it, or goes as its lease says."""

import socket
import time
import unittest

from following import TOOLS, private_key
from rounds import SECOND, All, Networks
from serving import free_port, reply
from spoilt import HANG, MOVED, PAGE, before_last_peer, body_of, in_chunks, sent, slowly, with_body, without_length, wrote
from tools import needs

LIST, NETWORKS = {"peers": []}, {"networks": []}
ASKING, KEY, LATE_REPLY = "cannot ask the register", "the key is not that of the network", "no answer in time"
# Seconds within which a round has ended that gets no answer: it asks for 20, and a busy machine adds some to them.
MOST = 35


def url(form):
    """The text of the file `url`, of which the form has the port, and the network's name."""
    return wrote("url", lambda it: form.format(port=it.between.port, register=it.register.port, network=it.network))


def half(true):
    return true[: -len(body_of(true)) // 2]


def in_a_line(true):
    body = body_of(true)
    return without_length(true, body[: body.rindex(b"AllowedIPs = ") + 17])


def without_peers(true):
    return with_body(true, body_of(true).partition(b"[Peer]")[0])


def shorter_list(true):
    """A list in which the last peer is missing."""
    return with_body(true, body_of(true).rpartition(b',{"address"')[0] + b"]}\n")


def nobody_accepts(it):
    """At the url is a port whose queue is full."""
    listener = it.test.enterContext(socket.create_server(("127.0.0.1", 0), backlog=0))
    for _ in range(2):
        link = it.test.enterContext(socket.socket())
        link.setblocking(False)
        link.connect_ex(listener.getsockname())
    url(f"http://127.0.0.1:{listener.getsockname()[1]}/networks/{it.network}")(it)


def between_both(it):
    """The list is asked for once the register has another peer than in the file, and then both come again."""

    def before(method, path):
        if path.endswith("/peers"):
            it.between.before = lambda method, path: None
            it.change()

    it.between.before = before


# Of each reply that a round takes whole or not at all.
CUT = [
    ("is cut", "the reply is cut", half),
    ("has no byte", ASKING, b""),
    ("has no body", ASKING, reply(200, b"", "text/plain")),
    ("is a page", ASKING, PAGE),
    ("leads elsewhere", "302", MOVED),
    ("is a fault of the proxy", "500", b"HTTP/1.1 500 Internal Server Error\r\nContent-Length: 0\r\nConnection: close\r\n\r\n"),
    ("says that the token has ended", "401 unknown_token", reply(401, {"error": "unknown_token"})),
    ("is reset", ASKING, None),
    ("is cut in chunks", ASKING, in_chunks(50)),
    ("is cut in a chunk", ASKING, lambda true: in_chunks(50)(true)[:-9]),
]
# By a name: what the message says, and what goes wrong in a round that then changes nothing.
FAULTS = [
    ("the file never comes", LATE_REPLY, sent("quick", HANG)),
    ("the list never comes", LATE_REPLY, sent("peers", HANG)),
    ("the list of networks never comes", LATE_REPLY, sent("networks", HANG)),
    ("the list comes too slowly", LATE_REPLY, sent("peers", slowly)),
    ("nobody takes the connection", LATE_REPLY, nobody_accepts),
    ("the token is wrong", "401", wrote("token", "wrong")),
    ("the token is empty", "/token", wrote("token", "")),
    ("the token is missing", "/token", wrote("token", None)),
    ("the token is another tenant's", "404 no_such_network", wrote("token", SECOND)),
    ("the token is no text", "/token", wrote("token", b"\xff\xfe")),
    ("the url is empty", "/url", wrote("url", "")),
    ("the url is missing", "/url", wrote("url", None)),
    ("the url has a slash too many", "/url", url("http://127.0.0.1:{port}/networks/{network}/")),
    ("the url has no number of a port", ASKING, url("http://127.0.0.1:port/networks/{network}")),
    ("nobody is at the url", ASKING, lambda it: url(f"http://127.0.0.1:{free_port()}/networks/{it.network}")(it)),
    ("the url wants TLS, and the port has none", ASKING, url("https://127.0.0.1:{register}/networks/{network}")),
    ("the url is that of another network", KEY, url("http://127.0.0.1:{port}/networks/lab")),
    ("the url is that of no network", "404 no_such_network", url("http://127.0.0.1:{port}/networks/none")),
    ("the key is empty", "/key", wrote("key", "")),
    ("the key is cut", "/key", wrote("key", lambda it: it.net.private[:40])),
    ("the key is another's", KEY, wrote("key", lambda it: private_key())),
    ("a line of the settings is none", "/settings, line 2", wrote("settings", "# none\npeers all\n")),
    ("a setting is unknown", "/settings", wrote("settings", "colour = blue\n")),
    ("a setting has a wrong value", "/settings", wrote("settings", "routes = 10.0.0.0/33\n")),
    ("the settings are no text", "/settings", wrote("settings", b"\xff\xfe\n")),
    ("a preshared key is cut", "/preshared/", wrote("preshared/" + "A" * 43 + "=", "abc\n")),
    ("a preshared key is for no key", "/preshared/", wrote("preshared/office", "A" * 43 + "=\n")),
    *((f"the file {name}", words, sent("quick", made)) for name, words, made in CUT),
    *((f"the list {name}", words, sent("peers", made)) for name, words, made in CUT),
    *((f"the list of networks {name}", words, sent("networks", made)) for name, words, made in CUT),
    ("the file ends between two peers", ASKING, sent("quick", lambda true: without_length(true, before_last_peer(true)))),
    ("the file ends in a line", ASKING, sent("quick", in_a_line)),
    ("the file has a peer less", ASKING, sent("quick", lambda true: with_body(true, before_last_peer(true)))),
    ("the file has no peers", ASKING, sent("quick", without_peers)),
    ("the list has a peer less", ASKING, sent("peers", shorter_list)),
    ("the list is empty", ASKING, sent("peers", reply(200, LIST))),
    ("the list is a text", ASKING, sent("peers", reply(200, {"peers": "none"}))),
    ("the list is the file", ASKING, lambda it: it.between.spoil.update(peers=lambda true: it.between.given["quick"])),
    ("the list of networks is empty", KEY, sent("networks", reply(200, NETWORKS))),
    ("the disk is full, and the list is cut", ASKING, lambda it: (it.fill_the_disk(), sent("peers", half)(it))),
]
# What goes wrong once the interface is as the register says: what the message says, and the status.
LATE = [
    ("the report is answered 500", "500", sent("dump", CUT[5][2]), 1),
    ("the report is answered by a page", "cannot report", sent("dump", PAGE), 1),
    ("the reply to the report is cut", "cannot report", sent("dump", half), 1),
    ("the report is reset", "cannot report", sent("dump", None), 1),
    ("a change comes between the file and the list", "", between_both, 0),
    ("a path that begins with /v1", "", url("http://127.0.0.1:{port}/v1/networks/{network}"), 0),
    ("a file in chunks", "", sent("quick", in_chunks(30, 60, 100, 0)), 0),
    ("a file that ends with the connection", "", sent("quick", lambda true: without_length(true, body_of(true))), 0),
    ("a preshared key for nobody", "", wrote("preshared/" + "A" * 43 + "=", "B" * 42 + "A=\n"), 0),
    ("settings that say what is so anyway", "", wrote("settings", "peers = all\n"), 0),
]
# What may be left in each file of the state, in which so many digits are no number for Python's `int`.
RUBBISH = ["", "\n", "rubbish\n", "1 rubbish\n", "9" * 5000 + " rubbish\n", "9" * 5000 + "\n", b"\xff\xfe\0\n", None]
STATE = ["ends", "server.conf", "endpoints", "address", "public", "reported", "failures"]
# What is left there where the interface has lost its peers, and whether they come back without the register.
EMPTIED = [
    ("all is there", "failures", "", True),
    ("an endpoint is none", "endpoints", lambda it: f"{list(it.listed())[-1]}\tnowhere:1\n", True),
    *((f"server.conf is {rubbish!r:.20}", "server.conf", rubbish, False) for rubbish in RUBBISH[::3]),
    *((f"ends is {rubbish!r:.20}", "ends", rubbish, False) for rubbish in RUBBISH[::3]),
]


@needs(*TOOLS, root=True)
class Rounds(Networks):
    def nothing_changes(self, it, words, spoil):
        it.change()
        before, over = it.look(), it.end_a_lease()
        kept = it.kept()
        spoil(it)
        began = time.monotonic()
        self.fails(it, words)
        if words == LATE_REPLY:
            self.assertLess(time.monotonic() - began, MOST)
        self.assertEqual((it.look(), it.kept()), (before.without(over), kept))
        it.mend()
        self.heals(it)

    def followed_all_the_same(self, it, words, spoil, status):
        it.change()
        it.end_a_lease()
        spoil(it)
        done = it.round()
        self.assertEqual((done.returncode, words in done.stderr), (status, True), done.stderr)
        self.assertEqual(it.look(), it.due())
        it.mend()
        self.heals(it)

    def has_no_room(self, it):
        """The interface follows, and what was kept stays whole."""
        it.change()
        kept = it.kept()
        it.fill_the_disk()
        done = it.round()
        self.assertEqual((done.returncode, "cannot write to" in done.stderr), (0, True), done.stderr)
        self.assertEqual((it.look(), it.kept()), (it.due(), kept))
        it.mend()
        self.heals(it)
        self.assertNotEqual(it.kept(), kept)

    def state_is_lost(self, it, rubbish):
        """With the register away nothing changes, and a good round makes the state whole."""
        before, kept = it.look(), it.kept()
        for is_away in [True, False]:
            for name in STATE[:-1] if it.all else STATE:
                wrote(f"state/{name}", rubbish)(it)
            if is_away:
                it.between.spoil["quick"] = lambda true: b""
                self.fails(it, ASKING)
                self.assertEqual(it.look(), before)
                it.mend()
        self.heals(it)
        self.assertEqual(it.kept(), kept)

    def is_emptied(self, it, name, rubbish, is_restored):
        """An interface that has lost its peers, with the register away, and then a good round."""
        before, over = it.look(), it.end_a_lease()
        wrote(f"state/{name}", rubbish)(it)
        it.empty()
        it.between.spoil["quick"] = lambda true: b""
        self.fails(it, ASKING)
        left = it.look()
        self.assertEqual(left[:3], before.without(*([over] if is_restored else before.peers))[:3])
        if is_restored:
            self.assertEqual(left.routes, before.routes - before.peers[over].prefixes)
        it.mend()
        self.heals(it)

    def test_rounds(self):
        followed = self.follow(8)
        self.share(followed, FAULTS, self.nothing_changes)
        self.share(followed, LATE, self.followed_all_the_same)
        self.share(followed, [("the disk is full",)], self.has_no_room)
        self.share(followed, [(f"what is kept is {rubbish!r:.20}", rubbish) for rubbish in RUBBISH], self.state_is_lost)
        self.share(followed, EMPTIED, self.is_emptied)

    def test_rounds_of_one_process(self):
        """What it knows of its last round is no longer what was kept."""
        [it] = self.follow(1)
        it.all = All(it)
        self.share([it], [(f"what is kept is {rubbish!r:.20}", rubbish) for rubbish in ["rubbish\n", None]], self.state_is_lost)


@needs(*TOOLS, root=True)
class Cliff(Networks):
    """No round takes away more than half of five or more peers, unless the operator says so."""

    def refuses(self, it, count, of):
        before = it.look()
        for _ in range(2):
            self.fails(it, f"{count} of {of} peers")
            self.fails(it, f"touch {it.net.folder}/state/many")
            self.assertEqual(it.look(), before)

    def test_most_of_the_peers(self):
        [it] = self.follow(1)
        keys = list(it.listed())
        it.revoke(*keys[:3])
        with self.subTest("half of six go"):
            self.heals(it)
        keys = keys[3:] + [it.add() for _ in range(3)]
        self.heals(it)
        it.revoke(*keys[:4])
        with self.subTest("four of six don't"):
            self.refuses(it, 4, 6)
        many = it.net.folder / "state/many"
        many.touch()
        with self.subTest("but by the operator's word"):
            self.heals(it)
        with self.subTest("which counts once"):
            self.assertFalse(many.exists())
            keys = keys[4:] + [it.add() for _ in range(3)]
            self.heals(it)
            it.revoke(*keys[:3])
            self.refuses(it, 3, 5)
        with self.subTest("others come meanwhile, and nothing else is needed"):
            new = [it.add() for _ in range(2)]
            self.refuses(it, 3, 5)
            many.touch()
            self.heals(it)
            self.assertEqual(it.look().peers.keys(), {*keys[3:], *new})
        with self.subTest("three of four go"):
            it.revoke(*new, keys[3])
            self.heals(it)


if __name__ == "__main__":
    unittest.main()
