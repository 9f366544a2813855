"""The scripts take the files that the service has opened: behind a link, removed or replaced meanwhile; and whatever ends a copy,
the service goes on."""

import os
import re
import shutil
import signal
import sqlite3
import subprocess
import time
from contextlib import closing

from keys import numbered_keys
from program import LIMIT, Left, in_time, run
from serving import PEERS, done
from shipped import DIST, Shipped, is_stopped, rows_of

KEYS = numbered_keys(9)
NUMBERS = "SELECT id & 1048575 FROM peer ORDER BY id"


class OpenFiles(Shipped):
    def setUp(self):
        super().setUp()
        # The register is behind a link in another folder, which leads to another link.
        real, self.link = self.folder / "real", self.folder / "link.db"
        real.mkdir()
        os.rename(self.database, real / "register.db")
        self.database = str(real / "register.db")
        os.symlink("register.db", real / "name.db")
        os.symlink("real/name.db", self.link)

    def add(self, server, *numbers):
        for number in numbers:
            self.assertIn(b" 200 OK", server.ask("POST", PEERS, {"key": KEYS[number]}))

    def back_up(self, *words, register=None):
        return self.run_script("wgr-backup", "--register", register or self.link, *words, "copies")

    def numbers(self, path):
        return [number for (number,) in rows_of(path, NUMBERS)]


class Links(OpenFiles):
    def test_copies(self):
        """Each has what was acknowledged, which is in the log beside the file; a log beside a link is none of it."""
        server = self.serve(database=str(self.link), orders=self.folder / "orders")
        self.add(server, 1, 2, 3)
        frozen = ["--process", server.process.pid]
        for words, other in [(frozen, None), ([*frozen, "--orders", "orders"], None), (frozen, "link.db-wal"), (frozen, "real/name.db-wal")]:
            with self.subTest(words, other=other):
                if other:
                    (self.folder / other).write_bytes(b"an old log")
                self.assertEqual(self.back_up(*words).status, 0)
                self.assertEqual(self.numbers(self.copies()[-1]), [1, 2, 3])
                self.assertFalse(is_stopped(server.process))

    def test_a_link_that_leads_elsewhere_now(self):
        server = self.serve(database=str(self.link))
        other = self.folder / "other.db"
        shutil.copy(self.database, other)
        self.link.unlink()
        self.link.symlink_to(other)
        told = f"wgr-backup: process {server.process.pid} doesn't have {other} open\n"
        self.assertEqual(self.back_up("--process", server.process.pid), Left(1, b"", told.encode()))
        self.assertEqual(self.names(), [])

    def test_a_log_that_is_not_the_services(self):
        """As of a file that was moved under it: nothing is copied."""
        server = self.serve(database=str(self.link))
        self.add(server, 1)
        os.rename(f"{self.database}-wal", self.folder / "moved")
        shutil.copy(self.folder / "moved", f"{self.database}-wal")
        left = self.back_up("--process", server.process.pid)
        self.assertEqual((left.status, left.out, b" was removed or replaced " in left.err), (1, b"", True), left.err)
        self.assertEqual((self.names(), is_stopped(server.process)), ([], False))

    def test_what_changes_a_register(self):
        """The file is changed that the link leads to, and the link stays."""
        words = ["wgr-change-network", self.link, "acme", "office", "--capacity", "77"]
        told = self.run_script(*words).out.decode()
        self.assertRegex(told, rf"^done; {re.escape(self.database)}\.until-\S+ is the register as it was\n$")
        self.assertEqual(rows_of(self.database, "SELECT capacity FROM network"), [(77,)])
        self.assertTrue(self.link.is_symlink())

    def test_what_reads_a_copy(self):
        """A log beside the file itself, with changes that the file lacks, is seen."""
        with closing(sqlite3.connect(self.database)) as link:
            link.execute("PRAGMA wal_autocheckpoint = 0")
            link.execute("UPDATE network SET capacity = 78")
            link.commit()
            told = f"wgr-end-token: {self.link} has a log beside it: wgr show {self.link} puts it into the file\n"
            self.assertEqual(self.run_script("wgr-end-token", self.link, "--list").err, told.encode())


class Removed(OpenFiles):
    """What the message says is followed, and the copy has all that was acknowledged, also after that."""

    def rescue(self, server):
        left = self.back_up("--process", server.process.pid)
        self.assertEqual((left.status, left.out, self.names()), (1, b"", []))
        found = re.search(r"was removed or replaced while process \d+ has it open: copy (/proc/\d+/fd/\d+) (/proc/\d+/fd/\d+) before the service ends", left.err.decode())
        self.assertIsNotNone(found, left.err)
        self.add(server, 3)
        server.process.send_signal(signal.SIGSTOP)
        by_name = sorted(found.groups(), key=lambda file: os.readlink(file).removesuffix(" (deleted)").endswith("-wal"))
        for file, name in zip(by_name, ["rescued.db", "rescued.db-wal"]):
            shutil.copyfile(file, self.folder / name)
        server.process.send_signal(signal.SIGCONT)
        self.assertEqual(run(["show", str(self.folder / "rescued.db")]).status, 0)
        self.assertEqual(self.numbers(self.folder / "rescued.db"), [1, 2, 3])

    def begin(self):
        server = self.serve(database=str(self.link))
        self.add(server, 1, 2)
        return server

    def test_both_removed(self):
        server = self.begin()
        for end in ["", "-wal"]:
            os.unlink(f"{self.database}{end}")
        self.rescue(server)

    def test_moved_and_replaced(self):
        server = self.begin()
        aside = self.folder / "aside"
        aside.mkdir()
        for end in ["", "-wal"]:
            os.rename(f"{self.database}{end}", aside / f"register.db{end}")
        shutil.copy(aside / "register.db", self.database)
        self.rescue(server)

    def test_the_log_removed(self):
        server = self.begin()
        os.unlink(f"{self.database}-wal")
        self.rescue(server)


class Killed(OpenFiles):
    def begin(self, copying, script=None):
        """A service that is frozen by a copy under way, of which this is done at first."""
        server = self.serve(database=str(self.link))
        self.stand_in("cp", f'touch "$ROOM/copying"; {copying}')
        # What watches over the service leaves the script's group late, as on a busy host.
        self.stand_in("setsid", f'sleep 0.3; exec {shutil.which("setsid")} "$@"')
        if script:
            self.stand_in("wgr-backup", script)
        (self.folder / "process").write_text(str(server.process.pid))
        words = ["wgr-backup", "--register", str(self.link), "--process", str(server.process.pid), "copies"]
        copying = subprocess.Popen(words, env=self.known, cwd=self.folder, stderr=subprocess.PIPE, start_new_session=True)
        self.addCleanup(copying.communicate)
        self.assertTrue(in_time((self.folder / "copying").exists))
        (self.folder / "copying").unlink()
        return server, copying

    def test_a_copy_that_is_killed(self):
        for name, kill in [("the script", os.kill), ("its group", os.killpg)]:
            with self.subTest(name):
                server, copying = self.begin("exec sleep 30 2>/dev/null")
                self.assertTrue(is_stopped(server.process))
                kill(copying.pid, signal.SIGKILL)
                began = time.monotonic()
                self.assertTrue(in_time(lambda: not is_stopped(server.process)))
                self.assertLess(time.monotonic() - began, 25)
                self.assertEqual(server.ask("GET", PEERS), done({"peers": []}))
                self.assertEqual(self.copies(), [])
                server.__exit__()

    def test_a_copy_that_takes_too_long(self):
        text = (DIST / "wgr-backup").read_text()
        self.assertIn("\nlongest=50\n", text)
        thawed = f"while grep -q '^State:.*stopped' /proc/$(cat $ROOM/process)/status; do sleep 0.05; done"
        server, copying = self.begin(thawed, text.replace("\nlongest=50\n", "\nlongest=1\n"))
        self.assertTrue(in_time(lambda: not is_stopped(server.process)))
        self.assertEqual(server.ask("GET", PEERS), done({"peers": []}))
        told = copying.communicate(timeout=LIMIT)[1]
        self.assertEqual((copying.returncode, told), (1, f"wgr-backup: process {server.process.pid} was thawed while it was copied\n".encode()))
        self.assertEqual(self.names(), [])
