"""Orders on a running service by `wgr send`: what they leave, and what they refuse."""

import hashlib
import os
import shutil

from keys import K0
from program import Left, run
from register_file import DIGEST, DONE, OFFICE, S, address_bytes, failed, options, refused
from sending import Sending, command, send, tell_line
from serving import LIST, PEERS, Server, key, request
from serving import refused as refused_request
from test_batch import batch
from test_register import ILL_FORMED, NOT_NAMES, NOT_TOKENS, REFUSALS

ACME, GRANT = ("tenant-add", "acme"), ("token-grant", "acme", "abc")
NETWORK = ("network-add", "acme", "office", *OFFICE.values())
SECOND = hashlib.sha256(b"second").hexdigest()

# Each is done on what those before it leave.
IN_TURN = [
    ACME,
    ("tenant-add", "b-0"),
    ("tenant-add", "-x"),
    GRANT,
    ("token-grant", "acme", "second"),
    ("token-grant", "-x", 128 * "~"),
    ("token-grant", "b-0", "--digest"),
    ("token-grant", "acme", "read", "reads"),
    ("token-grant", "b-0", "full", "writes"),
    ("token-grant", "b-0", "read"),
    ("token-grant", "-x", "read", "full"),
    NETWORK,
    ("network-add", "b-0", "v6", "FD00:0::/64", "2001:DB8:0:0:0:0:0:1", "0000000000000065535", K0, "0001"),
    ("network-add", "-x", "-n", "10.9.0.0/30", "-H", "1", S, "4096"),
    ("token-end", "second"),
    ("token-end", "--digest"),
    ("token-end", "--digest", DIGEST.hex()),
    ("token-end", "reads"),
    ("token-grant", "acme", "reads"),
    ("token-end", "--digest", hashlib.sha256(b"full").hexdigest()),
    ("network-end", "-x", "-n"),
    ("tenant-add", 32 * "a"),
]


class Done(Sending):
    """The rows are those that the same commands on a file leave, as Python's own SQLite reads them."""

    def test_each_order(self):
        self.init()
        sent = self.path("sent.db")
        shutil.copy(self.db, sent)
        for order in IN_TURN:
            with self.subTest(" ".join(order)):
                self.do(order)
                server = self.serve(sent, count=1)
                self.assertEqual(send(self.socket, order), DONE)
                server.send(LIST)
                self.assertEqual(server.ended(), Left(0))
                self.assertEqual(self.rows(sent), self.rows())

    def test_orders_of_one_service(self):
        self.init()
        sent = self.path("sent.db")
        shutil.copy(self.db, sent)
        self.do(*IN_TURN)
        server = self.serve(sent, count=1)
        self.assertEqual([send(self.socket, order) for order in IN_TURN], [DONE] * len(IN_TURN))
        server.send(LIST)
        self.assertEqual(server.ended(), Left(0))
        self.assertEqual(self.rows(sent), self.rows())

    def test_the_rows_of_a_network(self):
        self.init(ACME)
        server = self.serve(count=1)
        self.assertEqual(send(self.socket, NETWORK), DONE)
        server.send(LIST)
        self.assertEqual(server.ended(), Left(0))
        columns = "name, family, lo, length, host, port, server, capacity, next"
        due = ("office", 4, address_bytes("10.8.0.0"), 24, "vpn.example.net", 51820, bytes([200]) * 32, 4096, 1)
        self.assertEqual(self.query(f"SELECT {columns} FROM network"), [due])

    def test_fields_as_options(self):
        """As on the command line for a file, wherever the options are among the words."""
        self.init(ACME)
        sent = self.path("sent.db")
        shutil.copy(self.db, sent)
        self.do(("token-grant", "acme", "first"), ("token-grant", "acme", "read", "reader"), NETWORK)
        server = self.serve(sent, count=1)
        network, words = ["acme", "office"], ["send", self.socket]
        self.assertEqual(run([*words, "token-grant", "acme", "--right", "full"], b"first\n"), DONE)
        self.assertEqual(run([*words, "--right=read", "token-grant", "acme"], b"reader\n"), DONE)
        self.assertEqual(run([*words, *options()[4:], "network-add", *network, *options()[:4]]), DONE)
        server.send(LIST)
        self.assertEqual(server.ended(), Left(0))
        self.assertEqual(self.rows(sent), self.rows())

    def test_the_end_of_a_network_with_peers(self):
        self.init(ACME)
        self.do(GRANT, NETWORK, ("network-add", "acme", "lab", "10.9.0.0/24", "h", "1", S, "9"))
        asked = [("POST", PEERS, {"key": key(1)}), ("POST", f"{PEERS}/1/routes", {"prefix": "192.168.4.0/24"})]
        asked.append(("POST", "/networks/lab/peers", {"key": key(2)}))
        self.assertEqual(batch(self.db, 0, [request(*each) for each in asked]).out.count(b" 200 OK"), 3)
        sent = self.path("sent.db")
        shutil.copy(self.db, sent)
        self.do(("network-end", "acme", "office"))
        server = self.serve(sent, count=2)
        # The network is in memory by then.
        server.send(LIST)
        self.assertEqual(send(self.socket, ("network-end", "acme", "office")), DONE)
        self.assertEqual(server.send(LIST), refused_request(404, "no_such_network"))
        self.assertEqual(server.ended(), Left(0))
        self.assertEqual(self.rows(sent), self.rows())
        self.assertEqual(len(self.query("SELECT * FROM peer", sent)), 1)


def order_of(words, text):
    """An order in the form of a line, of the words of the command and standard input."""
    return *(word for word in words if not word.startswith("--")), *([text.decode()] if text else [])


class Refused(Sending):
    """Each refusal leaves all rows, and has the message and the status of the command."""

    def test_refusals_of_the_register(self):
        for name, orders, words, text, why in REFUSALS:
            with self.subTest(name):
                self.setUp()
                self.init(*orders)
                before = self.rows()
                server = self.serve(count=1)
                self.assertEqual(send(self.socket, order_of(words, text)), refused(why))
                server.send(LIST)
                self.assertEqual(server.ended(), Left(0))
                self.assertEqual(self.rows(), before)

    def test_a_token_twice(self):
        self.init(ACME, ("tenant-add", "bolt"))
        self.do(GRANT)
        self.serve()
        for tenant in ["acme", "bolt"]:
            for right in [[], ["full"], ["read"]]:
                with self.subTest(tenant, right=right):
                    self.assertEqual(send(self.socket, ("token-grant", tenant, *right, "abc")), refused("digest_held"))

    def test_a_digest_that_nobody_has(self):
        self.init(ACME)
        self.do(GRANT)
        self.serve()
        self.assertEqual(send(self.socket, ("token-end", "--digest", SECOND)), refused("no_such_token"))

    def test_ill_formed_fields(self):
        self.init(ACME)
        before = self.rows()
        rows = [(("tenant-add", text), "name", text) for text in NOT_NAMES]
        rows += [(("token-grant", text, "abc"), "tenant", text) for text in NOT_NAMES]
        rows += [(("network-end", text, "office"), "tenant", text) for text in NOT_NAMES]
        rows += [(("network-end", "acme", text), "name", text) for text in NOT_NAMES]
        for field, texts in {"tenant": NOT_NAMES, "name": NOT_NAMES, **ILL_FORMED}.items():
            for text in texts:
                fields = {"tenant": "acme", "name": "office", **OFFICE, field: text}
                rows.append((("network-add", *fields.values()), field, text))
        digests = ["", "ab", SECOND[1:], f"{SECOND}0", f"{SECOND[1:]}g", f"{SECOND}\n", f"0x{SECOND[2:]}"]
        rows += [(("token-end", "--digest", text), "digest", text) for text in digests]
        server = self.serve(count=1)
        for order, field, text in rows:
            with self.subTest(f"{order}"):
                # Some words make no line.
                whole = text and not set(text) & {" ", "\n"}
                self.assertEqual(send(self.socket, order), refused(f"bad_field {field}" if whole else "bad_order"))
        server.send(LIST)
        self.assertEqual(server.ended(), Left(0))
        self.assertEqual(self.rows(), before)

    def test_the_first_ill_formed_field_is_told(self):
        # Each field in turn is mended, in the order of the line.
        self.init()
        self.serve()
        good = {"tenant": "acme", "name": "office", **OFFICE}
        for count, field in enumerate(good):
            values = [good[name] if place < count else "_" for place, name in enumerate(good)]
            with self.subTest(field):
                self.assertEqual(send(self.socket, ("network-add", *values)), refused(f"bad_field {field}"))
        firsts = [(("network-end", "_", "_"), "tenant"), (("token-grant", "_", 129 * "a"), "tenant")]
        for order, field in [*firsts, (("token-grant", "_", "read", "a"), "tenant"), (("token-grant", "acme", "read", 129 * "a"), "token")]:
            with self.subTest(order=order):
                self.assertEqual(send(self.socket, order), refused(f"bad_field {field}"))
        for order, field in [(("token-grant", "_", "Read", "a"), "tenant"), (("token-grant", "acme", "Read", 129 * "a"), "right")]:
            with self.subTest(order=order):
                self.assertEqual(tell_line(self.socket, order), (2, f"bad_field {field}"))

    def test_ill_formed_tokens(self):
        self.init(ACME)
        server = self.serve(count=1)
        for name, text in NOT_TOKENS:
            # Of these, some make no line either.
            whole = text.strip(b"\n") and not set(text) & set(b" \n")
            due = [refused("bad_field token")] + ([] if whole else [refused("bad_order")])
            for order in [("token-grant", "acme"), ("token-grant", "acme", "read"), ("token-end",)]:
                with self.subTest(name, order=order):
                    self.assertIn(send(self.socket, (*order, text.decode())), due)
        server.send(LIST)
        self.assertEqual(server.ended(), Left(0))
        self.assertEqual(self.query("SELECT * FROM token"), [])

    def test_words_that_make_no_order(self):
        self.init()
        self.serve()
        rows = [
            ("an unknown word", ("peer-add", "acme")),
            ("a word of another command", ("batch", "acme")),
            ("the word that migrates", ("migrate",)),
            ("the word that migrates, and a file", ("migrate", "register.db")),
            ("no field", ("tenant-add",)),
            ("a field too many", ("tenant-add", "acme", "bolt")),
            ("a field too few", NETWORK[:-1]),
            ("a network with options", ("network-add", "acme", "office", *options())),
            ("a word in capitals", ("TENANT-ADD", "acme")),
            ("an empty word", ("", "acme")),
            ("an empty field", ("tenant-add", "")),
            ("a field with a blank", ("tenant-add", "ac me")),
            ("a field that is a blank", ("tenant-add", " ")),
            ("a right that is none", ("token-grant", "acme", "write", "new")),
            ("two rights", ("token-grant", "acme", "read", "full", "new")),
            ("a field with a line's end", ("tenant-add", "acme\n")),
            ("4,097 bytes in all", ("tenant-add", 4_085 * "x")),
        ]
        for name, order in rows:
            with self.subTest(name):
                self.assertEqual(send(self.socket, order), refused("bad_order"))
        with self.subTest("4,096 bytes in all"):
            self.assertEqual(send(self.socket, ("tenant-add", 4_084 * "x")), refused("bad_field name"))

    def test_a_token_among_the_words(self):
        """Every user of the machine could see it. As the command on a file does, nothing is done, and nothing read."""
        self.init(ACME)
        self.do(GRANT)
        before = self.rows()
        folder = os.open(self.folder, os.O_RDONLY)
        self.addCleanup(os.close, folder)
        server = self.serve(count=1)
        whole = [["token-grant", "acme", "secret"], ["token-grant", "acme", "Read"], ["token-grant", "acme", "read", "secret"], ["token-grant", "acme", "secret", "read"]]
        for words in [*whole, ["token-end", "abc"], ["--digest", SECOND, "token-grant", "acme"], ["token-end", "--", "--digest", SECOND]]:
            for path in [self.socket, self.path("none")]:
                with self.subTest(words=words, path=path):
                    self.assertEqual(run(["send", path, *words], stdin=folder), refused("bad_order"))
                    self.assertEqual(run([words[0], self.db, *words[1:]], stdin=folder).status, 2)
        server.send(LIST)
        self.assertEqual(server.ended(), Left(0))
        self.assertEqual(self.rows(), before)

    def test_options_of_other_words(self):
        """None is sent as a field."""
        self.init(ACME)
        self.do(NETWORK)
        before = self.rows()
        server = self.serve(count=1)
        hexes = ["--digest", SECOND]
        rows = [["tenant-add", "--json"], ["--json", "tenant-add"], ["tenant-add", "bolt", "--json"], ["token-grant", "--json"], ["token-grant", "acme", "--json"]]
        rows += [["token-end", "--json"], ["token-end", "--json", *hexes], ["network-end", "acme", "--json"], ["network-end", "acme", "office", "--json"]]
        rows += [["token-grant", "acme", "read", "--json"], ["backup", "--json"], ["backup", self.path("copy.db"), "--json"], ["status", "--json"]]
        network, right = ["network-add", "acme", "lab"], ["--right", "read"]
        rows += [["tenant-add", *right], ["network-end", "acme", *right], ["token-grant", "acme", "full", *right], ["token-end", *right], [*network, *right]]
        rows += [[*network, *options(), *right], ["network-end", "acme", "office", *options()], [*network, *OFFICE.values(), *options()], [*network[:2], *options()]]
        rows += [[*network, *options()[:at], *options()[at + 2:]] for at in range(0, 10, 2)]
        rows += [[*words, *hexes] for words in [["tenant-add"], ["tenant-add", "bolt"], ["network-end", "acme", "office"], ["status"], ["show"], ["show", "acme"], ["show", "--json"]]]
        for words in rows:
            with self.subTest(words=words):
                self.assertEqual(run(["send", self.socket, *words], b"secret"), refused("bad_order"))
        self.assertEqual(run(["send", self.socket, "tenant-add", "--json", "--", "--json"]), refused("bad_order"))
        server.send(LIST)
        self.assertEqual(server.ended(), Left(0))
        self.assertEqual(self.rows(), before)

    def test_names_like_options(self):
        """Behind `--`, as for the command on a file."""
        self.init()
        self.serve()
        for name in ["-x", "--json", "--digest"]:
            with self.subTest(name):
                self.assertEqual(run(["send", self.socket, "tenant-add", "--", name]), DONE)

    def test_nobody_serves(self):
        self.init(ACME)
        gone = self.path("gone")
        with Server(self.db, orders=gone) as server:
            server.process.kill()
            server.process.wait()
        rows = [("no socket", self.path("none")), ("a socket that a killed service left", gone), ("a file", self.db), ("a folder", str(self.folder))]
        for name, path in [*rows, ("no path", ""), ("a long path", self.path(200 * "x"))]:
            with self.subTest(name):
                self.assertEqual(send(path, ("tenant-add", "bolt")), failed("device"))
        self.assertEqual(self.query("SELECT name FROM tenant"), [("acme",)])

    def test_standard_input(self):
        self.init(ACME)
        self.serve()
        # A folder as standard input fails to be read.
        folder = os.open(self.folder, os.O_RDONLY)
        try:
            self.assertEqual(send(self.socket, ("tenant-add", "bolt"), stdin=folder), DONE)
            self.assertEqual(send(self.socket, ("token-grant", "acme", ""), stdin=folder), failed("device"))
            self.assertEqual(send(self.socket, ("token-end", "--digest", SECOND), stdin=folder), refused("no_such_token"))
        finally:
            os.close(folder)


class ByDigest(Sending):
    """`wgr token-end DB --digest HEX`."""

    def setUp(self):
        super().setUp()
        self.init(ACME)
        self.do(GRANT, ("token-grant", "acme", "second"))

    def test_it_ends_one_token(self):
        for name, text in [("in small letters", SECOND), ("in capitals", SECOND.upper())]:
            with self.subTest(name):
                self.assertEqual(command(self.db, ("token-end", "--digest", text)), DONE)
                self.assertEqual(self.query("SELECT digest FROM token"), [(DIGEST,)])
                self.assertEqual(command(self.db, ("token-end", "--digest", text)), refused("no_such_token"))
                self.grant("acme", b"second")

    def test_other_texts(self):
        before = self.rows()
        for text in ["", " ", "ab", SECOND[1:], f"{SECOND}0", f"{SECOND[1:]}g", f"{SECOND}\n", f" {SECOND}", f"0x{SECOND[2:]}", 64 * "é", "second"]:
            for database in [self.db, self.path("none.db")]:
                with self.subTest(text=text, database=database):
                    self.assertEqual(command(database, ("token-end", "--digest", text)), refused("bad_field digest"))
        self.assertEqual(self.rows(), before)

    def test_standard_input_is_not_read(self):
        folder = os.open(self.folder, os.O_RDONLY)
        try:
            for due in [DONE, refused("no_such_token")]:
                self.assertEqual(run(["token-end", self.db, "--digest", SECOND], stdin=folder), due)
        finally:
            os.close(folder)
