"""Words of the command line that no command gets: help, the version, and mistakes."""

import unittest
from pathlib import Path

from program import Left, run
from version import version

DATA = Path(__file__).parent / "data"

# The words, and the file that has the text.
HELP = [
    ("--help", ["--help"], "wgr_help.txt"),
    ("-h", ["-h"], "wgr_help.txt"),
    ("help", ["help"], "wgr_help.txt"),
    ("plan --help", ["plan", "--help"], "plan_help.txt"),
    ("plan -h", ["plan", "-h"], "plan_help.txt"),
    ("help plan", ["help", "plan"], "plan_help.txt"),
    ("behind the pool", ["plan", "10.8.0.0/24", "--help"], "plan_help.txt"),
    ("help help", ["help", "help"], "help_help.txt"),
    ("init --help", ["init", "--help"], "init_help.txt"),
    ("migrate --help", ["migrate", "--help"], "migrate_help.txt"),
    ("tenant-add --help", ["tenant-add", "--help"], "tenant_add_help.txt"),
    ("token-grant --help", ["token-grant", "--help"], "token_grant_help.txt"),
    ("token-end --help", ["token-end", "--help"], "token_end_help.txt"),
    ("network-add --help", ["network-add", "--help"], "network_add_help.txt"),
    ("network-end --help", ["network-end", "--help"], "network_end_help.txt"),
    ("orders --help", ["orders", "--help"], "orders_help.txt"),
    ("show --help", ["show", "--help"], "show_help.txt"),
    ("batch --help", ["batch", "--help"], "batch_help.txt"),
    ("serve --help", ["serve", "--help"], "serve_help.txt"),
    ("send --help", ["send", "--help"], "send_help.txt"),
    ("help network-add", ["help", "network-add"], "network_add_help.txt"),
]

NETWORK = ["network-add", "a.db", "acme", "office", "--pool", "10.8.0.0/24", "--host", "h"]
NETWORK += ["--port", "1", "--key", "k", "--capacity", "1"]

# The words, and a part of what standard error says.
MISTAKES = [
    ("no word", [], b"requires a subcommand"),
    ("an unknown command", ["plane"], b"unrecognized subcommand 'plane'"),
    ("a command that is near another", ["bach", "a.db"], b"tip: a similar subcommand exists: 'batch'"),
    ("an option that is near another", [*NETWORK, "--capasity", "1"], b"tip: a similar argument exists: '--capacity'"),
    ("no pool", ["plan"], b"  <POOL>\n\nUsage: wgr plan <POOL>\n"),
    ("a word too many", ["plan", "10.8.0.0/24", "more"], b"unexpected argument 'more' found"),
    ("no database", ["init"], b"  <DB>\n\nUsage: wgr init <DB>\n"),
    ("two databases", ["init", "a.db", "b.db"], b"unexpected argument 'b.db' found"),
    ("no database to migrate", ["migrate"], b"  <DB>\n\nUsage: wgr migrate <DB>\n"),
    ("two databases to migrate", ["migrate", "a.db", "b.db"], b"unexpected argument 'b.db' found"),
    ("a command that is near migrate", ["migrat", "a.db"], b"tip: a similar subcommand exists: 'migrate'"),
    ("no tenant", ["tenant-add", "a.db"], b"  <NAME>\n\nUsage: wgr tenant-add <DB> <NAME>\n"),
    ("a token among the words", ["token-end", "a.db", "abc"], b"unexpected argument 'abc' found"),
    ("a right without a value", ["token-grant", "a.db", "acme", "--right"], b"a value is required for '--right <R>'"),
    ("a right twice", ["token-grant", "a.db", "acme", "--right", "read", "--right", "read"], b"'--right <R>' cannot be used multiple times"),
    ("a right of another order", ["tenant-add", "a.db", "acme", "--right", "read"], b"unexpected argument '--right' found"),
    ("a right among the words", ["token-grant", "a.db", "acme", "read"], b"unexpected argument 'read' found"),
    ("a digest without a value", ["token-end", "a.db", "--digest"], b"a value is required for '--digest <HEX>'"),
    ("two files of orders", ["orders", "a.db", "b", "c"], b"unexpected argument 'c' found"),
    ("two tenants", ["show", "a.db", "b", "c"], b"unexpected argument 'c' found"),
    ("--json twice", ["show", "a.db", "--json", "--json"], b"'--json' cannot be used multiple times"),
    ("no word of an order", ["send", "s"], b"  <WORD>...\n\nUsage: wgr send <PATH> <WORD>...\n"),
    ("no pool of a network", NETWORK[:4] + NETWORK[6:], b"  --pool <P>\n"),
    ("a pool twice", [*NETWORK, "--pool", "10.9.0.0/24"], b"'--pool <P>' cannot be used multiple times"),
    ("an option without a value", NETWORK[:-1], b"a value is required for '--capacity <N>'"),
    ("an unknown option", [*NETWORK, "--mtu", "1420"], b"unexpected argument '--mtu' found"),
    ("an unknown flag", ["--quiet"], b"unexpected argument '--quiet' found"),
]

NO_TEXT = [
    ("the only word", [b"\xff"]),
    ("the command", [b"pl\xe4n", b"10.8.0.0/24"]),
    ("the pool", [b"plan", b"10.8.0.0/24\xff"]),
]


class CommandLine(unittest.TestCase):
    maxDiff = None

    def test_help(self):
        for name, words, file in HELP:
            with self.subTest(name):
                self.assertEqual(run(words), Left(0, (DATA / file).read_bytes()))

    def test_version(self):
        for word in ["--version", "-V"]:
            with self.subTest(word):
                self.assertEqual(run([word]), Left(0, f"wgr {version()}\n".encode()))

    def test_mistakes(self):
        for name, words, part in MISTAKES:
            with self.subTest(name):
                left = run(words)
                self.assertEqual((left.status, left.out), (2, b""))
                self.assertIn(part, left.err)

    def test_words_that_are_not_utf8(self):
        told = b"wgr: the command line is not UTF-8\n"
        for name, words in NO_TEXT:
            with self.subTest(name):
                self.assertEqual(run(words), Left(2, b"", told))
