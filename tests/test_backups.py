"""`backup` over the socket of a service: the copy that it makes, what it refuses, and copies under load."""

import os
import shutil
import socket
import stat
import threading
from pathlib import Path

from faulty import KILL, KILLED, ONCE, Faulty, needs_faults, tell
from program import Left, in_time, run
from register_file import DONE, OFFICE, failed, refused
from sending import Sending, answered, line, send, tell_line
from serving import LIST, PEERS, Server, done, key, peer, request
from test_copies import HELD, Load
from test_orders import ACME, GRANT, IN_TURN, NETWORK

COPIED = (0, "done")
# What may have a name.
THINGS = ["file", "folder", "link", "loose"]
# Copies under load.
COPIES = 100


class Backing(Sending):
    def setUp(self):
        super().setUp()
        self.copy = self.path("copy.db")

    def back_up(self, file=None):
        """What is answered."""
        return tell_line(self.socket, ("backup", file or self.copy))

    def names(self):
        """Names in the folder that begin as the copy's."""
        return sorted(path.name for path in self.folder.glob("copy.db*"))

    def put(self, kind, path):
        """Something of this kind at the path."""
        if kind == "folder":
            os.mkdir(path)
        elif kind == "file":
            Path(path).write_bytes(bytes(300_000))
        else:
            os.symlink({"link": self.db, "loose": self.path("none")}[kind], path)

    def things(self):
        """Each name in the folder, and what has it."""
        kinds = {stat.S_IFREG: "file", stat.S_IFDIR: "folder", stat.S_IFLNK: "link", stat.S_IFSOCK: "socket"}
        return {(path.name, kinds[stat.S_IFMT(path.lstat().st_mode)]) for path in self.folder.iterdir()}

    def joined(self, copy=None):
        """All rows of a copy, which `wgr show` opens and tests, and puts its log into the file."""
        copy = copy or self.copy
        left = run(["show", copy])
        self.assertEqual((left.status, left.err), (0, b""))
        alone = f"{copy}.alone"
        shutil.copyfile(copy, alone)
        try:
            return self.rows(alone)
        finally:
            os.unlink(alone)


class Copies(Backing):
    def test_before_any_change(self):
        """The log has no change yet."""
        self.init(ACME)
        self.serve()
        self.assertEqual(self.back_up(), COPIED)
        self.assertEqual(self.joined()["tenant"], [(1, "acme")])

    def test_after_each_change(self):
        """The next copy has each order that was acknowledged: its rows are those that the commands on a file leave."""
        self.init()
        sent = self.path("sent.db")
        shutil.copy(self.db, sent)
        self.serve(sent)
        for place, order in enumerate(IN_TURN):
            with self.subTest(" ".join(order)):
                self.do(order)
                self.assertEqual(send(self.socket, order), DONE)
                copy = self.path(f"copy{place}.db")
                self.assertEqual(self.back_up(copy), COPIED)
                self.assertEqual(self.joined(copy), self.rows())

    def test_requests_and_an_end(self):
        """A copy has each change of a request, and stays as it was."""
        self.init(ACME)
        self.do(GRANT, NETWORK)
        server = self.serve(count=4)
        for number in [1, 2]:
            self.assertEqual(server.send(request("POST", PEERS, {"key": key(number)})), done(peer(number, number, f"10.8.0.{number + 1}/32")))
        self.assertEqual(self.back_up(), COPIED)
        self.assertEqual(server.send(request("DELETE", f"{PEERS}/1")), done({"revoked": 1}))
        self.assertEqual([row[0] & 0xFFFFF for row in self.joined()["peer"]], [1, 2])
        second = self.path("second.db")
        self.assertEqual(self.back_up(second), COPIED)
        server.send(LIST)
        self.assertEqual(server.ended(), Left(0))
        self.assertEqual(self.joined(second), self.rows())

    def test_sqlite_opens_it(self):
        """Both files together, which no `wgr` has opened."""
        self.init(ACME)
        self.serve()
        self.assertEqual(send(self.socket, ("tenant-add", "bolt")), DONE)
        self.assertEqual(self.back_up(), COPIED)
        self.assertEqual(self.query("SELECT name FROM tenant", self.copy), [("acme",), ("bolt",)])
        self.assertEqual(self.query("PRAGMA integrity_check", self.copy), [("ok",)])

    def test_it_is_served(self):
        """As a register that is restored."""
        self.init(ACME)
        self.do(GRANT, NETWORK)
        server = self.serve()
        added = done(peer(1, 1, "10.8.0.2/32"))
        self.assertEqual(server.send(request("POST", PEERS, {"key": key(1)})), added)
        self.assertEqual(self.back_up(), COPIED)
        again = self.serve(self.copy, orders=None)
        self.assertEqual(again.send(LIST), done({"peers": [peer(1, 1, "10.8.0.2/32")]}))

    def test_the_files(self):
        """Their names, their modes, and by `wgr send`; the register's own files stay what they are."""
        self.init(ACME)
        before = os.umask(0)
        try:
            self.serve()
        finally:
            os.umask(before)
        self.assertEqual(send(self.socket, ("tenant-add", "bolt")), DONE)
        own = {path: Path(path).read_bytes() for path in [self.db, f"{self.db}-wal"]}
        self.assertEqual(send(self.socket, ("backup", self.copy)), DONE)
        self.assertEqual(self.names(), ["copy.db", "copy.db-wal"])
        for name in self.names():
            self.assertEqual(stat.S_IMODE(os.lstat(self.path(name)).st_mode), 0o600, name)
        self.assertEqual({path: Path(path).read_bytes() for path in own}, own)
        self.assertEqual([(self.folder / name).read_bytes() for name in self.names()], [*own.values()])

    def test_files_with_names_of_parts(self):
        """They stay, whatever they are."""
        self.init(ACME)
        self.serve()
        self.assertEqual(send(self.socket, ("tenant-add", "bolt")), DONE)
        for place, ends in enumerate([[".part"], [".part-wal"], [".part0"], [".part0-wal"], [".part0", ".part1-wal", ".part2"]]):
            for kind in THINGS:
                with self.subTest(ends=ends, kind=kind):
                    copy = self.path(f"copy{place}-{kind}.db")
                    for end in ends:
                        self.put(kind, copy + end)
                    before = self.things()
                    self.assertEqual(self.back_up(copy), COPIED)
                    self.assertEqual(set(self.things() - before), {(Path(copy).name, "file"), (f"{Path(copy).name}-wal", "file")})
                    self.assertLessEqual(before, self.things())
                    self.assertEqual([row[1] for row in self.joined(copy)["tenant"]], ["acme", "bolt"])

    def test_one_name_each(self):
        self.init(ACME)
        self.serve()
        self.assertEqual(self.back_up(), COPIED)
        for name in self.names():
            self.assertEqual(os.lstat(self.path(name)).st_nlink, 1, name)


class Refused(Backing):
    """No copy is made, nothing of its name is left, and the service goes on."""

    def setUp(self):
        super().setUp()
        self.init(ACME)
        self.serve()
        self.assertEqual(send(self.socket, ("tenant-add", "bolt")), DONE)

    def test_a_file_that_is_there(self):
        Path(self.path("file")).write_bytes(b"text")
        Path(self.path("empty")).touch()
        os.mkdir(self.path("folder"))
        os.symlink(self.path("file"), self.path("link"))
        with socket.socket(socket.AF_UNIX) as left:
            left.bind(self.path("left"))
        self.assertEqual(self.back_up(), COPIED)
        before = {path.name: path.read_bytes() for path in self.folder.iterdir() if path.is_file()}
        rows = [*("file", "empty", "folder", "link", "left", "orders", "copy.db"), "register.db", "register.db-wal"]
        for name in rows:
            with self.subTest(name):
                self.assertEqual(self.back_up(self.path(name)), (2, "file_exists"))
                self.assertEqual(send(self.socket, ("backup", self.path(name))), refused("file_exists"))
        self.assertEqual({path.name: path.read_bytes() for path in self.folder.iterdir() if path.is_file()}, before)
        for kind in THINGS:
            with self.subTest("a log that is there", kind=kind):
                copy = self.path(f"beside-{kind}")
                self.put(kind, f"{copy}-wal")
                for end in [".part", ".part-wal", ".part0", ".part0-wal"]:
                    self.put(kind, copy + end)
                things = self.things()
                self.assertEqual(self.back_up(copy), (2, "file_exists"))
                self.assertEqual(self.things(), things)
        self.assertEqual((os.listdir(self.path("folder")), os.readlink(self.path("link"))), ([], self.path("file")))
        self.assertEqual(tell_line(self.socket, ("tenant-add", "bolt")), (2, "name_held"))

    def test_relative_paths(self):
        here = os.listdir()
        for text in ["copy.db", "./copy.db", "../copy.db", "~/copy.db", "-"]:
            with self.subTest(text):
                self.assertEqual(self.back_up(text), (2, "bad_field file"))
        self.assertEqual(os.listdir(), here)

    def test_where_no_file_can_be(self):
        Path(self.path("file")).touch()
        rows = [
            ("no folder", self.path("none/copy.db")),
            ("a file as folder", self.path("file/copy.db")),
            ("the register as folder", f"{self.db}/copy.db"),
            ("a long name", self.path(256 * "x")),
            ("a name that is too long with what is behind it", self.path(255 * "x")),
            ("a folder of the kernel's", "/proc/copy.db"),
            ("a long path", "/" + 90 * f"{40 * 'x'}/" + "copy.db"),
        ]
        before = sorted(os.listdir(self.folder))
        for name, path in rows:
            with self.subTest(name):
                self.assertEqual(self.back_up(path), (1, "device"))
                self.assertEqual(send(self.socket, ("backup", path)), failed("device"))
                self.assertEqual(sorted(os.listdir(self.folder)), before)
        self.assertEqual(self.back_up(), COPIED)
        self.assertEqual([row[1] for row in self.joined()["tenant"]], ["acme", "bolt"])


@needs_faults()
class Faults(Backing):
    """Each call that syncs or names a file fails in turn, or the service is killed before it."""

    def faulty(self):
        return self.enterContext(Faulty())

    def start(self, faulty):
        return self.enterContext(faulty.serve(self.db, orders=self.socket))

    def test_calls_that_fail(self):
        self.init(ACME)
        faulty = self.faulty()
        self.start(faulty)
        self.assertEqual(send(self.socket, ("tenant-add", "bolt")), DONE)
        faulty.arm()
        self.assertEqual(self.back_up(), COPIED)
        total = faulty.calls
        # Each of the three files is synced, and their folder before and behind its names, which are two calls.
        self.assertGreaterEqual(total, 7)
        before = self.things()
        for call in range(total):
            with self.subTest(call):
                copy = self.path(f"copy{call}.db")
                faulty.arm(call=call, how=ONCE)
                answer = self.back_up(copy)
                faulty.disarm()
                if answer == COPIED:
                    # What failed is that a part was taken away.
                    self.assertEqual([row[1] for row in self.joined(copy)["tenant"]], ["acme", "bolt"])
                    self.assertEqual(self.things() - before, {(f"copy{call}.db{end}", "file") for end in ["", "-wal", ".part0-wal"]})
                else:
                    self.assertEqual((answer, self.things() - before), ((1, "device"), set()))
                    self.assertEqual(self.back_up(copy), COPIED)
                    self.assertEqual([row[1] for row in self.joined(copy)["tenant"]], ["acme", "bolt"])
                before = self.things()
        self.assertEqual(send(self.socket, ("tenant-add", "cato")), DONE)

    def test_stops(self):
        """What has the copy's name is all of it, and each file has one name; and the next service makes one where there is none."""
        self.init(ACME)
        faulty = self.faulty()
        server = self.start(faulty)
        faulty.arm()
        self.assertEqual(self.back_up(), COPIED)
        total = faulty.calls
        server.__exit__()
        there = set()
        for call in range(total):
            with self.subTest(call):
                copy = self.path(f"copy{call}.db")
                server = self.start(faulty)
                self.assertEqual(send(self.socket, ("tenant-add", f"t{call}")), DONE)
                faulty.arm(call=call, how=KILL)
                self.assertEqual(answered(self.socket, line(("backup", copy))), b"")
                self.assertEqual(server.ended().status, KILLED)
                faulty.disarm()
                self.assertEqual({path.lstat().st_nlink for path in self.folder.iterdir()}, {1})
                due = ["acme", *(f"t{number}" for number in range(call + 1))]
                there.add(os.path.lexists(copy))
                if os.path.lexists(copy):
                    self.assertEqual([row[1] for row in self.joined(copy)["tenant"]], due)
                with Server(self.db, orders=self.socket):
                    if os.path.lexists(copy) or os.path.lexists(f"{copy}-wal"):
                        self.assertEqual(self.back_up(copy), (2, "file_exists"))
                        for end in ["", "-wal"]:
                            Path(copy + end).unlink(missing_ok=True)
                    self.assertEqual(self.back_up(copy), COPIED)
                self.assertEqual([row[1] for row in self.joined(copy)["tenant"]], due)
        self.assertEqual(there, {False, True})


class Orders(threading.Thread):
    """An operator who adds tenants without a pause, over the socket."""

    def __init__(self, path):
        super().__init__(daemon=True)
        self.path, self.stopped, self.failed = path, False, None
        # How many were asked for, and how many acknowledged.
        self.asked, self.acknowledged = 0, 0

    def run(self):
        try:
            while not self.stopped:
                self.asked += 1
                answer = tell_line(self.path, ("tenant-add", f"t{self.asked}"))
                if answer != COPIED:
                    raise AssertionError(answer)
                self.acknowledged += 1
        except Exception as error:
            self.failed = error


class UnderLoad(Backing):
    def test_copies_under_load(self):
        """Each has what was acknowledged before it was asked for, and is the register after some number of changes."""
        self.init(ACME)
        self.do(GRANT, ("network-add", "acme", "office", "10.8.0.0/16", "h", "1", OFFICE["key"], "4096"))
        load, orders = Load(self.serve()), Orders(self.socket)
        threads = [load, orders]
        for thread in threads:
            thread.start()
        before = [0, 0]
        for turn in range(COPIES):
            with self.subTest(turn):
                # Something is done between any two.
                self.assertTrue(in_time(lambda: all(thread.failed or thread.acknowledged > count for thread, count in zip(threads, before))))
                before = [thread.acknowledged for thread in threads]
                self.assertEqual(self.back_up(), COPIED)
                asked = [thread.asked for thread in threads]
                self.assertEqual(run(["show", self.copy, "acme"]).status, 0)
                self.assertTrue(load.has_left(self.query(HELD, self.copy), before[0], asked[0]))
                tenants = [name for (name,) in self.query("SELECT name FROM tenant ORDER BY id", self.copy)]
                self.assertEqual(tenants, ["acme", *(f"t{number}" for number in range(1, len(tenants)))])
                self.assertTrue(before[1] < len(tenants) <= asked[1] + 1, (before[1], len(tenants), asked[1]))
                for name in self.names():
                    os.unlink(self.path(name))
        for thread in threads:
            thread.stopped = True
            thread.join()
            self.assertIsNone(thread.failed)
        tell("copies over the socket", COPIES, f"during {load.acknowledged} requests and {orders.acknowledged} orders")
