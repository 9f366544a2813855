"""dist/wgr-end-token: tokens whose text is lost or leaked are ended, and nothing else is changed."""

import fcntl
import hashlib
import json
import os
import re
import shutil
import sqlite3
from contextlib import closing
from pathlib import Path

from program import Left
from register_file import BUSY
from serving import PEERS, TOKEN, done, key, network_add, order, peer, refused, request
from shipped import BEFORE, OTHER, Shipped, rows_of
from test_batch import batch

# The tenants, and their tokens.
TOKENS = {"acme": [TOKEN, "acme-2", "acme-reads"], "bolt": ["bolt-1"], "corp": []}
# Those that only read.
READERS = ["acme-reads"]
DIGESTS = {token: hashlib.sha256(token.encode()).hexdigest() for tokens in TOKENS.values() for token in tokens}
NOBODYS = hashlib.sha256(b"nobody").hexdigest()

# By name: the words, and the tokens that they end.
ENDINGS = [
    ("one of two tokens", ["--digest", DIGESTS[TOKEN]], [TOKEN]),
    ("a digest in capital letters", ["--digest", DIGESTS["acme-2"].upper()], ["acme-2"]),
    ("the only token of its tenant", ["--digest", DIGESTS["bolt-1"]], ["bolt-1"]),
    ("one that only reads", ["--digest", DIGESTS["acme-reads"]], ["acme-reads"]),
    ("all tokens of a tenant", ["--tenant", "acme"], [TOKEN, "acme-2", "acme-reads"]),
    ("the one token of a tenant", ["--tenant", "bolt"], ["bolt-1"]),
]

# By name: the words, the status, and the end of what is printed.
REFUSED = [
    ("a digest that none has", ["--digest", NOBODYS], 1, f"no token has the SHA-256 {NOBODYS}"),
    ("a tenant that isn't there", ["--tenant", "dune"], 1, "there is no tenant dune"),
    ("no tenant's name", ["--tenant", ""], 1, "there is no tenant "),
    ("a tenant without a token", ["--tenant", "corp"], 1, "corp has no token"),
    ("a list of a tenant that isn't there", ["--list", "--tenant", "dune"], 1, "there is no tenant dune"),
    ("a list of no tenant's name", ["--list", "--tenant", ""], 1, "there is no tenant "),
    *(
        (name, ["--digest", text], 2, "argument --digest: a SHA-256 has 64 hex digits")
        for name, text in [
            ("63 digits", NOBODYS[1:]),
            ("65 digits", f"{NOBODYS}0"),
            ("a digit that is none", f"{NOBODYS[1:]}g"),
            ("a blank between", f"{NOBODYS[:31]}  {NOBODYS[33:]}"),
            ("a line's end behind", f"{NOBODYS}\n"),
            ("a token's text", TOKEN),
            ("no digest", ""),
        ]
    ),
    ("nothing to do", [], 2, "one of --digest, --tenant and --list is needed"),
    ("a digest and a tenant", ["--digest", DIGESTS[TOKEN], "--tenant", "acme"], 2, "--digest takes neither --tenant nor --list"),
    ("a digest and a list", ["--digest", DIGESTS[TOKEN], "--list"], 2, "--digest takes neither --tenant nor --list"),
    ("a service and a list", ["--orders", "orders", "--list"], 2, "--orders doesn't take --list"),
]


# The words of a grant that gives another right than the full one.
RIGHT = {token: ["--right", "read"] for token in READERS}


def dump(path):
    """All rows, as Python's SQLite writes them, of a file that nobody changes."""
    with closing(sqlite3.connect(f"file:{path}?mode=ro&immutable=1", uri=True)) as link:
        return list(link.iterdump())


class Tokens(Shipped):
    """A register with these tokens and two peers."""

    def setUp(self):
        super().setUp()
        for tenant, tokens in TOKENS.items():
            if tenant != "acme":
                order("tenant-add", self.database, tenant)
            for token in tokens:
                if token != TOKEN:
                    order("token-grant", self.database, tenant, *RIGHT.get(token, []), token=token)
        network_add(self.database, "bolt", "lab", "10.9.0.0/24", port="7")
        messages = [request("POST", PEERS, {"key": key(number)}) for number in [1, 2]]
        self.assertEqual(batch(self.database, 0, messages).out.count(b" 200 OK"), 2)
        # What each case begins with.
        self.before = Path(self.database).read_bytes()

    def opening(self, server):
        """The tokens that open the service, at their next request."""
        replies = {token: server.ask("GET", "/networks", token=token) for token in DIGESTS}
        unknown = refused(401, "unknown_token")
        self.assertTrue(all(reply == unknown or b" 200 OK" in reply for reply in replies.values()), replies)
        return [token for token, reply in replies.items() if reply != unknown]


class EndToken(Tokens):
    def end(self, *words):
        return self.run_script("wgr-end-token", self.database, *words)

    def ended(self, *words):
        """Ends tokens, and gives the path of the register as it was."""
        left = self.end(*words)
        found = re.fullmatch(r"done; (.*) is the register as it was\n", left.out.decode())
        self.assertEqual((left.status, left.err, found is not None), (0, b"", True), left)
        return found[1]

    def are_good(self):
        """The tokens that open a service on the register."""
        server = self.serve()
        found = self.opening(server)
        server.process.kill()
        server.process.wait()
        return found

    def test_endings(self):
        """The token ends, the others go on, all other rows are the same, and the register as it was is kept."""
        rows, mode = dump(self.database), os.stat(self.database).st_mode
        for name, words, tokens in ENDINGS:
            with self.subTest(name):
                Path(self.database).write_bytes(self.before)
                self.assertEqual(self.are_good(), list(DIGESTS))
                kept = self.ended(*words)
                digests = [f"X'{DIGESTS[token].upper()}'" for token in tokens]
                due = [line for line in rows if not any(digest in line for digest in digests)]
                # One that only reads has a row more.
                self.assertEqual(len(due), len(rows) - len(tokens) - len({*tokens} & {*READERS}))
                self.assertEqual(dump(self.database), due)
                self.assertTrue(Path(kept).read_bytes() == self.before)
                self.assertEqual([os.stat(path).st_mode for path in [self.database, kept]], [mode, mode])
                self.assertEqual(self.are_good(), [token for token in DIGESTS if token not in tokens])

    def test_it_leaves_what_the_order_leaves(self):
        """The rows are those that `wgr token-end` leaves where the text is at hand, and the token can be granted anew."""
        for token in ["acme-2", *READERS]:
            with self.subTest(token):
                Path(self.database).write_bytes(self.before)
                order("token-end", self.database, token=token)
                due = dump(self.database)
                Path(self.database).write_bytes(self.before)
                self.ended("--digest", DIGESTS[token])
                self.assertEqual(dump(self.database), due)
                order("token-grant", self.database, "corp", token=token)
                self.assertEqual(self.are_good(), list(DIGESTS))
                self.assertEqual(rows_of(self.database, "SELECT count(*) FROM reader"), [(0 if token in READERS else len(READERS),)])

    def test_refusals(self):
        """The file is the same, byte for byte, and nothing is left beside it."""
        names = self.names(".")
        for name, words, status, told in REFUSED:
            with self.subTest(name):
                left = self.end(*words)
                self.assertEqual((left.status, left.out), (status, b""))
                # What is no command line is printed after the words that would be one.
                begins = "wgr-end-token: " if status == 1 else "usage: "
                self.assertTrue(left.err.decode().startswith(begins), left.err)
                self.assertTrue(left.err.decode().endswith(f": {told}\n"), left.err)
                self.assert_untouched(self.before, names)

    def test_wgr_judges_the_copy(self):
        """Where it opens the register and refuses the copy, nothing is changed."""
        real = (self.bin / "wgr").resolve()
        self.stand_in("wgr", f'[[ $2 == "$DB" ]] && exec {real} "$@"; echo "wgr: not_good" >&2; exit 1')
        names = self.names(".")
        for words in [["--digest", DIGESTS[TOKEN]], ["--tenant", "bolt"]]:
            with self.subTest(words):
                self.assertEqual(self.end(*words), Left(1, b"", b"wgr-end-token: wgr refuses the change: wgr: not_good\n"))
                self.assert_untouched(self.before, names)

    def test_what_a_killed_service_left(self):
        """Its log has a peer that the file lacks, and the peer stays."""
        server = self.serve()
        self.assertEqual(server.ask("POST", PEERS, {"key": key(3)}), done(peer(3, 3, "10.8.0.4/32")))
        server.process.kill()
        server.process.wait()
        self.assertTrue(Path(self.database).read_bytes() == self.before)
        self.ended("--digest", DIGESTS["acme-2"])
        left = batch(self.database, 0, [request("GET", PEERS)])
        self.assertEqual(left.out.count(b'"number"'), 3)

    def test_a_register_that_is_served(self):
        self.serve()
        shut = f"{self.database} can't be opened: wgr: store: {BUSY}"
        for words, told in [
            (["--tenant", "acme"], shut),
            (["--digest", DIGESTS[TOKEN]], shut),
            (["--list"], f"another program has {self.database} open"),
        ]:
            with self.subTest(words):
                self.assertEqual(self.end(*words), Left(1, b"", f"wgr-end-token: {told}\n".encode()))

    def test_another_program_that_reads_it(self):
        """It holds the shared lock of SQLite, and came behind wgr's look at the register."""
        self.stand_in("wgr", "exit 0")
        names = self.names(".")
        with open(self.database, "rb") as file:
            fcntl.lockf(file, fcntl.LOCK_SH, 510, 0x4000_0002)
            told = f"wgr-end-token: another program has {self.database} open\n"
            self.assertEqual(self.end("--tenant", "acme"), Left(1, b"", told.encode()))
        self.assert_untouched(self.before, names)

    def test_the_list(self):
        lines = sorted((tenant, DIGESTS[token]) for tenant, tokens in TOKENS.items() for token in tokens)
        names = self.names(".")
        for name, words, of in [("all", [], TOKENS), ("one tenant's", ["--tenant", "acme"], ["acme"]), ("none", ["--tenant", "corp"], [])]:
            with self.subTest(name):
                ends = {DIGESTS[token]: " read" for token in READERS}
                text = "".join(f"{tenant} {digest}{ends.get(digest, '')}\n" for tenant, digest in lines if tenant in of)
                self.assertEqual(self.end("--list", *words), Left(0, text.encode()))
                self.assert_untouched(self.before, names)
        with self.subTest("of a copy, while the register is served"):
            shutil.copy(self.database, self.folder / "copy.db")
            self.serve()
            self.assertEqual(self.run_script("wgr-end-token", "copy.db", "--list").out.count(b"\n"), len(lines))
        with self.subTest("no file"):
            self.assertEqual(self.run_script("wgr-end-token", "none.db", "--list"), Left(1, b"", b"wgr-end-token: there is no file none.db\n"))

    def test_versions_that_are_not_known(self):
        """Neither tables of another version, nor what another version of wgr may say of a tenant or a token."""
        for version, why in [(9, OTHER), (2, BEFORE.format(self.database)), (1, BEFORE.format(self.database))]:
            with closing(sqlite3.connect(self.database)) as link:
                link.execute("UPDATE meta SET version = ?", [version])
                link.commit()
            # The empty log that wgr leaves beside each file that it has opened.
            Path(f"{self.database}-wal").touch()
            before, names = Path(self.database).read_bytes(), self.names(".")
            for words in [["--list"], ["--tenant", "acme"], ["--digest", DIGESTS[TOKEN]]]:
                with self.subTest(words, version=version):
                    told = f"wgr-end-token: {self.database} can't be opened: {why}\n"
                    self.assertEqual(self.end(*words), Left(1, b"", told.encode()))
                    self.assert_untouched(before, names)
        Path(self.database).write_bytes(self.before)
        tenant = {"name": "acme", "tokens": [NOBODYS], "networks": []}
        others = [("a tenant", {"until": 1}), ("a token", {"tokens": [{"digest": NOBODYS, "reads": True}]}), ("a reader", {"readers": [{"digest": NOBODYS}]})]
        for name, more in others:
            self.stand_in("wgr", f"echo '{json.dumps({'tenants': [tenant | more]})}'")
            for words, of in [(["--list"], self.database), (["--tenant", "acme"], "acme"), (["--tenant", "acme", "--orders", "orders"], "acme")]:
                with self.subTest(name, words=words):
                    told = f"wgr-end-token: wgr shows {of} in a form that this tool doesn't know: one of the two is of another version\n"
                    self.assertEqual(self.end(*words), Left(1, b"", told.encode()))
                    self.assert_untouched(self.before, names)


class ByTheService(Tokens):
    """With --orders the running service ends the tokens, and says which there are; a copy isn't read."""

    def setUp(self):
        super().setUp()
        shutil.copy(self.database, self.folder / "copy.db")
        self.copied = self.copy()
        self.server = self.serve(orders=self.folder / "orders")

    def copy(self):
        return (self.folder / "copy.db").read_bytes()

    def end(self, *words):
        return self.run_script("wgr-end-token", "copy.db", "--orders", "orders", *words)

    def test_endings(self):
        """The tokens close at once, the others stay open, and the copy is only read."""
        for name, words, tokens in ENDINGS:
            with self.subTest(name):
                self.assertEqual(self.opening(self.server), list(DIGESTS))
                self.assertEqual(self.end(*words), Left(0, b"done\n"))
                self.assertEqual(self.opening(self.server), [token for token in DIGESTS if token not in tokens])
                for token in tokens:
                    tenant = next(tenant for tenant, of in TOKENS.items() if token in of)
                    right = ["read"] if token in READERS else []
                    self.assertEqual(self.run_script("wgr", "send", "orders", "token-grant", tenant, *right, text=token), Left(0, b"done\n"))
        self.assertEqual(self.copy(), self.copied)

    def test_one_that_has_ended_since(self):
        self.assertEqual(self.run_script("wgr", "send", "orders", "token-end", text=TOKEN), Left(0, b"done\n"))
        self.assertEqual(self.end("--tenant", "acme"), Left(0, b"done\n"))
        self.assertEqual(self.opening(self.server), ["bolt-1"])
        told = f"wgr-end-token: {DIGESTS[TOKEN]} isn't ended: wgr: no_such_token\n"
        self.assertEqual(self.end("--digest", DIGESTS[TOKEN]), Left(1, b"", told.encode()))

    def test_a_token_that_the_copy_lacks(self):
        """It was granted after the copy, or is granted while the others end."""
        self.assertEqual(self.run_script("wgr", "send", "orders", "token-grant", "acme", text="later"), Left(0, b"done\n"))
        real = (self.bin / "wgr").resolve()
        granted = f'printf meanwhile | {real} send "$2" token-grant acme >/dev/null'
        self.stand_in("wgr", f'[[ "$*" != *token-end* || -e $ROOM/granted ]] || {{ touch $ROOM/granted; {granted}; }}\nexec {real} "$@"')
        self.assertEqual(self.run_script("wgr-end-token", "--orders", "orders", "--tenant", "acme"), Left(0, b"done\n"))
        self.assertTrue((self.folder / "granted").exists())
        for token in [*TOKENS["acme"], "later", "meanwhile"]:
            with self.subTest(token):
                self.assertEqual(self.server.ask("GET", "/networks", token=token), refused(401, "unknown_token"))

    def test_a_name_that_begins_with_a_hyphen(self):
        for order in ["tenant-add", "token-grant"]:
            self.assertEqual(self.run_script("wgr", "send", "orders", order, "--", "-x", text="hyphen"), Left(0, b"done\n"))
        self.assertEqual(self.run_script("wgr-end-token", "--orders", "orders", "--tenant=-x"), Left(0, b"done\n"))
        self.assertEqual(self.server.ask("GET", "/networks", token="hyphen"), refused(401, "unknown_token"))

    def test_refusals(self):
        rows = [
            ("a tenant that isn't there", ["--tenant", "dune"], "there is no tenant dune"),
            ("a tenant without a token", ["--tenant", "corp"], "corp has no token"),
            ("no tenant's name", ["--tenant", ""], "the service doesn't show : wgr: bad_order"),
            ("a digest that none has", ["--digest", NOBODYS], f"{NOBODYS} isn't ended: wgr: no_such_token"),
            ("no service", ["--orders", "none", "--tenant", "bolt"], "the service doesn't show bolt: wgr: device"),
            ("no service for a digest", ["--orders", "none", "--digest", DIGESTS[TOKEN]], f"{DIGESTS[TOKEN]} isn't ended: wgr: device"),
        ]
        for name, words, told in rows:
            with self.subTest(name):
                self.assertEqual(self.end(*words), Left(1, b"", f"wgr-end-token: {told}\n".encode()))
        self.assertEqual(self.opening(self.server), list(DIGESTS))
