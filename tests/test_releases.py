"""Registers that the released programs of earlier versions make are migrated, and then answer as those programs do.

The programs are those of this repository's history: without it, as in an archive, the test is skipped.
"""

import lzma
import re
import subprocess
import unittest
from pathlib import Path

import program
from earlier import EARLIER, make, rows_of, unpack
from faulty import scratch
from program import Left, run
from register_file import DONE
from serving import SERVER_KEY, Server, key, request
from test_batch import batch
from test_migrate import ANSWERS, ASKED, NOW, SHOWN

TOP = Path(__file__).resolve().parent.parent
PEERS = "/networks/office/peers"
ORDERS = [
    (["tenant-add", "acme"], b""),
    (["tenant-add", "bolt"], b""),
    (["token-grant", "acme"], b"abc"),
    (["token-grant", "bolt"], b"xyz"),
    (["network-add", "acme", "office", "--pool", "10.8.0.0/24", "--host", "vpn.example.net", "--port", "51820", "--key", SERVER_KEY, "--capacity", "250"], b""),
    (["network-add", "bolt", "lab", "--pool", "fd00:8::/64", "--host", "2001:db8::1", "--port", "51821", "--key", SERVER_KEY, "--capacity", "4096"], b""),
]
DUMP = (
    f"(none)\t{SERVER_KEY}\t51821\toff\n{key(4)}\t(none)\t(none)\tfd00:8::7/128,10.0.0.0/8\t1700000000\t1024\t2048\t25\n"
    f"{key(5)}\t(none)\t(none)\t(none)\t0\t0\t0\toff\n"
)
# They make the tenants' peers that ASKED is about.
REQUESTS = [
    request("POST", PEERS, {"key": key(1), "label": "laptop"}),
    request("POST", f"{PEERS}/1/routes", {"prefix": "192.168.4.0/24"}),
    request("POST", f"{PEERS}/1/routes", {"prefix": "fd00:4::/64"}),
    request("POST", PEERS, {"key": key(2), "address": "10.8.0.20", "end": 4000000000, "keepalive": 25}),
    request("POST", PEERS, {"key": key(3), "label": "phone", "end": 100}),
    request("POST", f"{PEERS}/3/routes", {"prefix": "192.168.5.0/24"}),
    request("POST", "/networks/lab/dump", DUMP.encode(), token="xyz"),
]


def git(*words):
    """What git prints of this repository; nothing where it isn't one."""
    try:
        return subprocess.run(["git", "-C", TOP, *words], capture_output=True, check=True).stdout
    except (OSError, subprocess.CalledProcessError):
        return b""


def releases():
    """The last commit of each release whose registers have to be migrated, by its version."""
    found = {}
    for commit in git("log", "--reverse", "--format=%H", "--", "dist/release/RELEASE").decode().split():
        version = re.search(rb"(?m)^version (\d+\.\d+\.\d+)$", git("show", f"{commit}:dist/release/RELEASE"))
        if version and tuple(map(int, version[1].split(b"."))) < (0, 8, 0):
            found[version[1].decode()] = commit
    return found


class Releases(unittest.TestCase):
    maxDiff = None

    def setUp(self):
        self.folder = Path(self.enterContext(scratch()))
        self.db = str(self.folder / "register.db")
        self.present = program.path
        self.addCleanup(setattr, program, "path", self.present)

    def use(self, version, commit):
        """The released program takes the place of the one under test."""
        path = self.folder / version
        if not path.exists():
            path.write_bytes(lzma.decompress(git("show", f"{commit}:dist/release/wgr-linux-x86_64.xz")))
            path.chmod(0o700)
        program.path = str(path)

    def make(self):
        for end in ["", "-wal"]:
            Path(f"{self.db}{end}").unlink(missing_ok=True)
        self.assertEqual(run(["init", self.db]), DONE)
        for (word, *words), text in ORDERS:
            self.assertEqual(run([word, self.db, *words], text), DONE)

    def is_migrated(self):
        """By the program under test, which then answers what the former one did."""
        program.path = self.present
        self.assertEqual(run(["show", self.db]), EARLIER)
        self.assertEqual(run(["migrate", self.db]), DONE)
        rows = rows_of(self.db)
        self.assertEqual((rows["meta"], rows["second"], rows["reader"]), ([(3,)], [], []))
        self.assertEqual(run(["show", self.db]), Left(0, SHOWN))
        self.assertEqual(batch(self.db, NOW, ASKED), Left(0, ANSWERS.read_bytes()))

    def test_each(self):
        found = releases()
        if not found:
            self.skipTest("without the history of this repository")
        for version, commit in found.items():
            with self.subTest(version):
                self.use(version, commit)
                self.assertEqual(run(["--version"]), Left(0, f"wgr {version}\n".encode()))
                self.make()
                self.assertEqual(batch(self.db, 7, REQUESTS).out.count(b" 200 OK"), len(REQUESTS))
                kept = Path(self.db).read_bytes()
                self.assertEqual(batch(self.db, NOW, ASKED), Left(0, ANSWERS.read_bytes()))
                Path(self.db).write_bytes(kept)
                self.is_migrated()
            with self.subTest(version, left="a log, by a service that was killed"):
                self.use(version, commit)
                self.make()
                with Server(self.db, now=7) as server:
                    for message in REQUESTS:
                        self.assertIn(b" 200 OK", server.send(message))
                self.assertGreater(Path(f"{self.db}-wal").stat().st_size, 4_096)
                self.is_migrated()

    def test_the_second_version(self):
        """No release has it; its rows are those that release 0.2.0 left."""
        first = str(self.folder / "first.db")
        unpack(first)
        make(self.db, 2, first)
        self.is_migrated()


if __name__ == "__main__":
    unittest.main()
