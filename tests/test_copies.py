"""dist/wgr-backup: copies of a register while it serves, and what a copy is good for."""

import itertools
import os
import re
import signal
import socket
import sqlite3
import subprocess
import threading
import unittest
from contextlib import closing
from datetime import datetime, timedelta, timezone

from earlier import make
from faulty import WHOLE, tell
from keys import key_text, numbered_keys
from program import LIMIT, Left, in_time
from serving import PEERS, done, request
from shipped import DIST, SYSTEMCTL, Shipped, is_stopped, rows_of
from tools import needs

COPIES = 100 if WHOLE else 5
HELD = "SELECT id & 1048575, hex(lo), until FROM peer JOIN allowed ON allowed.peer = peer.id"


class Load(threading.Thread):
    """A client that changes the network without a pause, and notes which peers are there after each change."""

    def __init__(self, server):
        super().__init__(daemon=True)
        self.server, self.stopped, self.failed = server, False, None
        # What each change leaves of its peer; how many were asked for, and how many acknowledged.
        self.left, self.asked, self.acknowledged = [], 0, 0

    def changes(self):
        """Each change's request, the peer's number and what it leaves of it: some are renewed, and one of three goes soon, and
        the others once the network may be full, for however long a copy may take."""
        for number in itertools.count(1):
            yield "POST", PEERS, {"key": key_text(number.to_bytes(4, "big") + bytes(28)), "address": address_of(number)}, number, 0
            if number % 3 == 0:
                end = 4_000_000_000 + number
                yield "POST", f"{PEERS}/{number - 1}/lease", {"end": end}, number - 1, end
                for gone in [number - 2, *(old for old in [number - 5002, number - 5001] if old > 0)]:
                    yield "DELETE", f"{PEERS}/{gone}", None, gone, None

    def has_left(self, rows, least, most):
        """Whether these are the peers after some number of changes, from the least to the most."""
        found, held = {number: (low, end) for number, low, end in rows}, {}
        for count, (number, end) in enumerate([*self.left[:most], (None, None)]):
            if count >= least and found == held:
                return True
            if end is None:
                held.pop(number, None)
            else:
                held[number] = (hex_of(address_of(number)), end)
        return False

    def run(self):
        try:
            for method, path, body, number, end in self.changes():
                if self.stopped:
                    return
                self.left.append((number, end))
                self.asked += 1
                reply = self.server.send(request(method, path, body))
                if not reply.startswith(b"HTTP/1.1 200 "):
                    raise AssertionError(reply)
                self.acknowledged += 1
        except Exception as error:
            self.failed = error


def address_of(number):
    """That of another one again, which has gone long since."""
    return f"10.8.{number // 250 % 250}.{number % 250 + 2}"


def hex_of(address):
    return (24 * "0") + bytes(map(int, address.split("."))).hex().upper()


class Copies(Shipped):
    def back_up(self, *words, **known):
        return self.run_script("wgr-backup", "--register", self.database, *words, "copies", **known)

    def copy_under_load(self, server, *words):
        """Each copy has what was acknowledged before it, and is the register after some number of changes."""
        load = Load(server)
        load.start()
        pauses, before = [], 0
        for turn in range(COPIES):
            with self.subTest(turn, words=words):
                if turn == 0:
                    # The log is about to be put into the file, and the copy takes long: if the service went on
                    # meanwhile, the file would be copied before that and the log after it.
                    self.assertTrue(in_time(lambda: os.path.getsize(f"{self.database}-wal") > 4_000_000 or load.failed))
                    self.stand_in("cp", '/bin/cp "$@"; sleep 0.2')
                else:
                    (self.bin / "cp").unlink(missing_ok=True)
                    self.assertTrue(in_time(lambda: load.acknowledged > before + 20 or load.failed))
                before = load.acknowledged
                left = self.back_up(*words)
                asked = load.asked
                self.assertEqual((left.status, left.err), (0, b""))
                pauses.append(int(re.search(rb"paused for (\d+) ms", left.out)[1]))
                copy = self.copies()[-1]
                self.assertEqual(left.out.split(b":")[0].decode(), f"copies/{copy.name}")
                self.assertEqual(self.run_script("wgr", "show", copy).status, 0)
                self.assertTrue(load.has_left(rows_of(copy, HELD), before, asked))
        load.stopped = True
        load.join()
        self.assertIsNone(load.failed)
        self.assertEqual(len(self.copies()), COPIES)
        self.assertEqual([name for name in self.names(".") if "copy" in name], [])
        tell("copies", COPIES, f"during {load.acknowledged} changes, the longest pause but the first {max(pauses[1:])} ms")
        self.assertIn(f"at most {max(pauses)} ms\n".encode(), left.out)

    def make_a_large_network(self):
        self.run_script("wgr", "network-end", self.database, "acme", "office")
        words = ["--pool", "10.8.0.0/16", "--host", "h", "--port", "1", "--key", numbered_keys(1)[0].replace("A", "Q", 1), "--capacity", "4096"]
        self.run_script("wgr", "network-add", self.database, "acme", "office", *words)

    def test_copies_under_load(self):
        self.make_a_large_network()
        server = self.serve()
        self.copy_under_load(server, "--process", server.process.pid)

    def test_copies_by_the_service_under_load(self):
        self.make_a_large_network()
        self.copy_under_load(self.serve(orders=self.folder / "orders"), "--orders", "orders")

    def test_a_copy_that_ran_on_is_none(self):
        """The process is let go on in the middle of the copy."""
        server = self.serve()
        self.stand_in("cp", f'kill -CONT {server.process.pid}; exec /bin/cp "$@"')
        left = self.back_up("--process", server.process.pid)
        self.assertEqual(left, Left(1, b"", f"wgr-backup: process {server.process.pid} was thawed while it was copied\n".encode()))
        self.assertEqual(self.names(), [])

    def test_the_service_goes_on(self):
        """Whatever ends the copy: a disk without room, a copy that wgr refuses, a signal."""
        real = os.readlink(self.bin / "wgr")
        rows = [
            ("no room", "cp", "echo 'cp: No space left on device' >&2; exit 1", "reg.db can't be copied"),
            ("a copy that is cut", "cp", '/bin/cp "$@"; truncate -s 30000 "${@: -1}"', "the copy is bad: wgr: store"),
            ("a bad copy", "wgr", "echo 'wgr: not_good' >&2; exit 1", "the copy is bad: wgr: not_good"),
        ]
        server = self.serve()
        for name, command, text, told in rows:
            with self.subTest(name):
                self.stand_in("cp", 'exec /bin/cp "$@"')
                self.stand_in("wgr", f'exec {real} "$@"')
                self.stand_in(command, text)
                left = self.back_up("--process", server.process.pid)
                self.assertEqual((left.status, told.encode() in left.err), (1, True), left.err)
                self.assertFalse(is_stopped(server.process))
                self.assertEqual(self.names(), [])
        with self.subTest("a signal"):
            self.stand_in("cp", 'until [[ -e $ROOM/go ]]; do sleep 0.02; done; exec /bin/cp "$@"')
            words = ["wgr-backup", "--register", self.database, "--process", str(server.process.pid), "copies"]
            running = subprocess.Popen(words, env=self.known, cwd=self.folder, stderr=subprocess.PIPE)
            self.assertTrue(in_time(lambda: is_stopped(server.process)))
            running.send_signal(signal.SIGTERM)
            (self.folder / "go").touch()
            self.assertEqual((running.wait(LIMIT), running.stderr.read()), (1, b""))
            running.stderr.close()
            self.assertFalse(is_stopped(server.process))
            self.assertEqual(self.names(), [])
        self.assertEqual(server.ask("GET", PEERS), done({"peers": []}))

    def test_two_at_a_time(self):
        """One waits for the other, since otherwise one would let the service go on in the middle of the other."""
        server = self.serve()
        self.stand_in("cp", '/bin/cp "$@"; sleep 0.1')
        words = ["wgr-backup", "--register", self.database, "--process", str(server.process.pid), "copies"]
        both = [subprocess.Popen(words, env=self.known, cwd=self.folder, stdout=subprocess.DEVNULL) for _ in range(2)]
        self.assertEqual([each.wait(LIMIT) for each in both], [0, 0])
        self.assertEqual(len(self.copies()), 2)

    def test_the_name_is_the_moment_of_the_freeze(self):
        server = self.serve()
        self.stand_in("cat", 'sleep 0.3; exec /bin/cat "$@"')
        before = datetime.now(timezone.utc)
        self.assertEqual(self.back_up("--process", server.process.pid).status, 0)
        named = datetime.strptime(self.copies()[0].name, "%Y%m%dT%H%M%S.%fZ.db").replace(tzinfo=timezone.utc)
        self.assertGreater(named - before, timedelta(seconds=0.3))

    def test_the_unit_is_frozen(self):
        server = self.serve()
        self.stand_in("systemctl", SYSTEMCTL)
        (self.folder / "main").write_text(str(server.process.pid))
        left = self.back_up()
        self.assertEqual((left.status, left.err), (0, b""))
        asked = (self.folder / "asked").read_text().splitlines()
        self.assertEqual([line for line in asked if "MainPID" not in line], [
            "is-active --quiet wgr.service", "freeze wgr.service",
            "show --property FreezerState --value wgr.service", "thaw wgr.service",
        ])
        with self.subTest("a unit that can't be thawed"):
            self.stand_in("systemctl", SYSTEMCTL.replace('kill -CONT "$main"', "exit 1"))
            self.assertEqual(self.back_up(), Left(1, b"", b"wgr-backup: wgr.service can't be thawed\n"))
            server.process.send_signal(signal.SIGCONT)
            self.assertEqual(len(self.copies()), 1)
            self.stand_in("systemctl", SYSTEMCTL)
        with self.subTest("another unit has the file"):
            (self.folder / "main").write_text(str(os.getpid()))
            self.assertEqual(self.back_up(), Left(1, b"", f"wgr-backup: wgr.service doesn't have {self.database} open\n".encode()))
            self.assertFalse(is_stopped(server.process))

    def here(self):
        """wgr-backup, for which the socket of the unit wgr.service is the file `orders`, and that of wgr@eu1 `orders-eu1`."""
        text = (DIST / "wgr-backup").read_text().replace("=/run/wgr/orders", f"={self.folder}/orders")
        return text.replace("=/run/wgr-${name#wgr@}/orders", f"={self.folder}/orders-${{name#wgr@}}")

    def test_the_service_makes_the_copy(self):
        """At the socket of the unit; nothing is frozen, and what it wrote beside the register is gone."""
        self.stand_in("systemctl", SYSTEMCTL)
        self.stand_in("wgr-backup", self.here())
        server = self.serve(orders=self.folder / "orders")
        (self.folder / "main").write_text(str(server.process.pid))
        server.ask("POST", PEERS, {"key": numbered_keys(1)[0]})
        for name in ["reg.db.copy", "reg.db.copy-wal"]:
            (self.folder / name).write_text("what a killed copy left")
        before = self.names(".")
        left = self.back_up()
        self.assertEqual((left.status, left.err), (0, b""))
        (copy,) = self.copies()
        self.assertRegex(left.out.decode(), rf"^copies/{copy.name}: paused for \d+ ms, at most \d+ ms\n$")
        self.assertEqual(rows_of(copy, "SELECT id & 1048575 FROM peer"), [(1,)])
        self.assertEqual(set(before) - set(self.names(".")), {"reg.db.copy", "reg.db.copy-wal"})
        self.assertEqual(self.names(), [copy.name, "pauses"])
        self.assertEqual((os.stat(copy).st_mode & 0o777, os.stat(copy).st_uid), (0o600, os.geteuid()))
        asked = (self.folder / "asked").read_text()
        self.assertNotIn("freeze", asked)
        with self.subTest("another unit has the file"):
            (self.folder / "main").write_text(str(os.getpid()))
            self.assertEqual(self.back_up(), Left(1, b"", f"wgr-backup: wgr.service doesn't have {self.database} open\n".encode()))
            self.assertEqual(len(self.copies()), 1)

    def test_the_socket_of_a_unit(self):
        """Only that of the unit whose register is copied."""
        self.stand_in("wgr-backup", self.here())
        self.stand_in("systemctl", SYSTEMCTL.replace("wgr.service", "wgr@eu1"))
        server = self.serve(orders=self.folder / "orders-eu1")
        (self.folder / "main").write_text(str(server.process.pid))
        for place, (words, is_frozen) in enumerate([(["--unit", "wgr@eu1"], False), (["--process", server.process.pid], True)]):
            with self.subTest(words):
                self.stand_in("cp", f'[[ $1 != --reflink=auto ]] || grep "^State" /proc/{server.process.pid}/status >"$ROOM/state"; exec /bin/cp "$@"')
                left = self.back_up(*words)
                self.assertEqual((left.status, left.err, len(self.copies())), (0, b"", place + 1))
                self.assertEqual("stopped" in (self.folder / "state").read_text(), is_frozen)

    def test_a_service_that_makes_no_copy(self):
        """It says why, and the copy is made as of a service without a socket."""
        server = self.serve()
        server.ask("POST", PEERS, {"key": numbered_keys(1)[0]})
        real = os.readlink(self.bin / "wgr")
        rows = [
            ("an earlier version", "echo 'wgr: bad_order' >&2; exit 2", "wgr: bad_order"),
            ("no room", "echo 'wgr: device' >&2; exit 1", "wgr: device"),
            ("one that hangs", "exit 124", "no answer"),
            ("one that writes it elsewhere", "echo done; exit", "done"),
        ]
        with socket.socket(socket.AF_UNIX) as left:
            left.bind(str(self.folder / "orders"))
        for place, (name, text, told) in enumerate(rows):
            with self.subTest(name):
                self.stand_in("wgr", f'[[ $1 != send ]] || {{ {text}; }}\nexec {real} "$@"')
                left = self.back_up("--orders", "orders", "--process", server.process.pid)
                self.assertEqual((left.status, left.err), (0, f"wgr-backup: the service at orders makes no copy: {told}\n".encode()))
                self.assertEqual(rows_of(self.copies()[-1], "SELECT id & 1048575 FROM peer"), [(1,)])
                self.assertEqual(len(self.copies()), place + 1)
        self.assertFalse(is_stopped(server.process))

    @needs("sqlite3")
    def test_the_socket_of_a_stopped_service(self):
        with socket.socket(socket.AF_UNIX) as left:
            left.bind(str(self.folder / "orders"))
        left = self.back_up("--orders", "orders")
        self.assertEqual((left.status, left.err), (0, b"wgr-backup: the service at orders makes no copy: wgr: device\n"))
        self.assertEqual(len(self.copies()), 1)
        with self.subTest("another program has the file"):
            self.serve()
            left = self.back_up("--orders", "orders")
            self.assertEqual((left.status, b"database is locked" in left.err), (1, True), left.err)

    def test_a_copy_of_the_service_that_is_bad(self):
        self.serve(orders=self.folder / "orders")
        real = os.readlink(self.bin / "wgr")
        self.stand_in("wgr", f'[[ $1 != show ]] || {{ echo "wgr: not_good" >&2; exit 1; }}\nexec {real} "$@"')
        before = self.names(".")
        self.assertEqual(self.back_up("--orders", "orders"), Left(1, b"", b"wgr-backup: the copy is bad: wgr: not_good\n"))
        self.assertEqual((self.names(), self.names(".")), ([], sorted([*before, "copies"])))

    @needs("sqlite3")
    def test_an_earlier_version(self):
        """It is no bad copy, and is told so; once it is migrated it is copied."""
        self.stand_in("systemctl", SYSTEMCTL)
        register = self.folder / "present.db"
        os.rename(self.database, register)
        make(self.database, 1, register)
        told = f"wgr-backup: {self.database} is of an earlier version: wgr migrate {self.database} takes it to this one\n"
        self.assertEqual(self.back_up(), Left(1, b"", told.encode()))
        self.assertEqual(self.names(), [])
        self.assertEqual(self.run_script("wgr", "migrate", self.database), Left(0, b"done\n"))
        self.assertEqual(self.back_up().status, 0)
        self.assertEqual(rows_of(self.copies()[-1], "SELECT version FROM meta"), [(3,)])

    @needs("sqlite3")
    def test_a_stopped_register_is_copied_too(self):
        self.stand_in("systemctl", SYSTEMCTL)
        with self.subTest("with a log that a kill left"):
            server = self.serve()
            server.ask("POST", PEERS, {"key": numbered_keys(1)[0]})
            server.process.kill()
            server.process.wait()
            self.assertEqual(self.back_up().status, 0)
            self.assertEqual(rows_of(self.copies()[-1], "SELECT id & 1048575 FROM peer"), [(1,)])
        with self.subTest("one that another program has open"):
            self.serve()
            left = self.back_up()
            self.assertEqual((left.status, b"database is locked" in left.err), (1, True), left.err)
            self.assertEqual(len(self.copies()), 1)

    @needs("sqlite3")
    def test_copies_are_kept_by_age(self):
        self.stand_in("systemctl", SYSTEMCTL)
        folder = self.folder / "copies"
        folder.mkdir()
        now = datetime.now(timezone.utc)
        names = {days: f"{now - timedelta(days=days):%Y%m%dT%H%M%S.000Z}" for days in [1, 2.9, 3.1, 400]}
        for name in names.values():
            (folder / f"{name}.db").touch()
        (folder / "mine.db").touch()
        (folder / "pauses").write_text("".join(f"{name} 7\n" for name in names.values()))
        with self.subTest("none goes where the copy fails"):
            with closing(sqlite3.connect(self.database)) as link:
                link.execute("UPDATE network SET capacity = 4097")
                link.commit()
            self.assertEqual(self.back_up("--keep", "3"), Left(1, b"", b"wgr-backup: the copy is bad: wgr: not_good\n"))
            self.assertEqual(len(self.names()), 6)
        with closing(sqlite3.connect(self.database)) as link:
            link.execute("UPDATE network SET capacity = 4096")
            link.commit()
        self.assertEqual(self.back_up("--keep", "3").status, 0)
        kept = [f"{names[days]}.db" for days in [2.9, 1]]
        (made,) = set(self.names()) - {*kept, "mine.db", "pauses"}
        self.assertEqual(self.names(), [*kept, made, "mine.db", "pauses"])
        self.assertEqual([line.split()[0] for line in (folder / "pauses").read_text().splitlines()], [names[1], names[2.9], made[:-3]])

    def test_refusals(self):
        server = self.serve()
        pid = server.process.pid
        (self.folder / "file").touch()
        rows = [
            ("no folder", ["wgr-backup"], 2, "wgr-backup [OPTION ..] FOLDER"),
            ("an option that there isn't", ["wgr-backup", "--now", "copies"], 2, "--keep DAYS"),
            ("no register", ["wgr-backup", "--register", "none.db", "copies"], 1, "there is no register none.db"),
            ("days", ["wgr-backup", "--register", self.database, "--keep", "x", "copies"], 1, "--keep takes a number of days, and not 'x'"),
            ("a file in the folder's place", ["wgr-backup", "--register", self.database, "--process", pid, "file"], 1, "file can't be made"),
            ("a stranger", ["wgr-backup", "--register", self.database, "--process", os.getpid(), "copies"], 1, f"process {os.getpid()} doesn't have"),
        ]
        for name, words, status, told in rows:
            with self.subTest(name):
                left = self.run_script(*words)
                self.assertEqual((left.status, left.out, told.encode() in left.err), (status, b"", True), left.err)
                self.assertEqual([name for name in self.names() if name.endswith(".db")], [])


if __name__ == "__main__":
    unittest.main()
