"""Which files `backup` copies: behind links, removed or replaced under the service, two copies at once; and the register's own
files, which are no copy's."""

import os
import shutil
import threading

from program import run
from register_file import DONE
from sending import send, tell_line
from serving import Server
from test_backups import COPIED, Backing
from test_orders import ACME


class Links(Backing):
    """A register that a link leads to: SQLite has its log beside the file itself."""

    def setUp(self):
        super().setUp()
        os.mkdir(self.path("real"))
        self.real = self.path("real/r.db")
        self.link = self.path("r.db")
        self.assertEqual(run(["init", self.real]), DONE)

    def do_three(self):
        for name in ["acme", "bolt", "cato"]:
            self.assertEqual(send(self.socket, ("tenant-add", name)), DONE)

    def assert_whole(self, copy=None):
        self.assertEqual([row[1] for row in self.joined(copy)["tenant"]], ["acme", "bolt", "cato"])

    def test_links(self):
        os.symlink("real", self.path("folder"))
        os.symlink("real/r.db", self.link)
        os.symlink(self.link, self.path("further.db"))
        for place, path in enumerate([self.link, self.path("further.db"), self.path("folder/r.db"), os.path.relpath(self.link)]):
            with self.subTest(path):
                copy = self.path(f"copy{place}.db")
                with Server(path, orders=self.socket):
                    if place == 0:
                        self.do_three()
                    self.assertEqual(self.back_up(copy), COPIED)
                    self.assert_whole(copy)

    def test_an_old_log_beside_the_link(self):
        os.symlink("real/r.db", self.link)
        with Server(self.real, orders=self.socket):
            self.assertEqual(send(self.socket, ("tenant-add", "acme")), DONE)
            shutil.copy(f"{self.real}-wal", f"{self.link}-wal")
        os.truncate(self.real, 0)
        os.unlink(f"{self.real}-wal")
        self.assertEqual(run(["init", self.real]), DONE)
        self.serve(self.link)
        self.do_three()
        self.assertEqual(self.back_up(), COPIED)
        self.assert_whole()

    def test_a_link_that_changes(self):
        """It leads to another register by now: the copy is of the one that is served."""
        os.symlink("real/r.db", self.link)
        self.serve(self.link)
        self.do_three()
        self.init()
        os.unlink(self.link)
        os.symlink(self.db, self.link)
        self.assertEqual(self.back_up(), COPIED)
        self.assert_whole()


class Gone(Backing):
    """The register's files were removed, replaced or moved under the service."""

    def setUp(self):
        super().setUp()
        self.init(ACME)
        self.serve()
        self.assertEqual(send(self.socket, ("tenant-add", "bolt")), DONE)

    def assert_whole(self):
        self.assertEqual(self.back_up(), COPIED)
        self.assertEqual([row[1] for row in self.joined()["tenant"]], ["acme", "bolt"])

    def test_removed(self):
        os.unlink(self.db)
        os.unlink(f"{self.db}-wal")
        for name in [self.db, f"{self.db}-wal", f"{self.db}-journal", f"{self.db}-shm"]:
            self.assertEqual(self.back_up(name), (2, "file_exists"), name)
        self.assert_whole()

    def test_one_removed(self):
        os.unlink(f"{self.db}-wal")
        self.assert_whole()

    def test_replaced(self):
        other = self.path("other.db")
        self.assertEqual(run(["init", other]), DONE)
        for end in ["", "-wal"]:
            os.rename(other + end, self.db + end)
        self.assert_whole()

    def test_moved(self):
        os.rename(self.db, self.path("other.db"))
        self.assertEqual(self.back_up(), (1, "device"))
        self.assertEqual(self.names(), [])


class Own(Backing):
    """No name makes a copy one of the register's own files, or takes one of them for a part."""

    def test_names_of_the_register(self):
        for name in ["r", "r-wal", "r-shm", "r-journal", "r.part", "r.part-wal", "r.part0", "r.part0-wal"]:
            with self.subTest(name):
                self.setUp()
                register = self.path(name)
                self.assertEqual(run(["init", register]), DONE)
                server = self.serve(register)
                self.assertEqual(send(self.socket, ("tenant-add", "acme")), DONE)
                due = COPIED if name.startswith("r.part") else (2, "file_exists")
                self.assertEqual(self.back_up(self.path("r")), due)
                self.assertEqual(send(self.socket, ("tenant-add", "bolt")), DONE)
                server.process.kill()
                server.process.wait()
                self.assertEqual([row[1] for row in self.joined(register)["tenant"]], ["acme", "bolt"])

    def test_files_beside_the_register(self):
        """SQLite would take one for the register's journal, and not open it."""
        self.init(ACME)
        server = self.serve()
        os.symlink(self.folder, self.path("here"))
        for end in ["-journal", "-shm", "-wal"]:
            for name in [self.db, self.path("here/register.db"), self.path(f"here/../{self.folder.name}/register.db")]:
                with self.subTest(name + end):
                    self.assertEqual(self.back_up(name + end), (2, "file_exists"))
        self.assertEqual(sorted(os.listdir(self.folder)), ["here", "orders", "register.db", "register.db-wal"])
        os.mkdir(self.path("apart"))
        self.assertEqual(self.back_up(self.path("apart/register.db-journal")), COPIED)
        server.process.kill()
        server.process.wait()
        self.serve(orders=self.path("again"))


class AtOnce(Backing):
    """Two services copy to one file: one is refused, and the copy is the other's."""

    def test_one_is_refused(self):
        sockets = {}
        for name in ["acme", "bolt"]:
            path, sockets[name] = self.path(f"{name}.db"), self.path(f"{name}.orders")
            self.assertEqual(run(["init", path]), DONE)
            self.serve(path, orders=sockets[name])
            for number in range(20):
                self.assertEqual(tell_line(sockets[name], ("tenant-add", f"{name}{number}")), COPIED)
        for turn in range(30):
            with self.subTest(turn):
                copy, told, barrier = self.path(f"copy{turn}.db"), {}, threading.Barrier(2)

                def ask(name):
                    barrier.wait()
                    told[name] = tell_line(sockets[name], ("backup", copy))

                threads = [threading.Thread(target=ask, args=[name]) for name in sockets]
                for thread in threads:
                    thread.start()
                for thread in threads:
                    thread.join()
                self.assertEqual(sorted(told.values()), [COPIED, (2, "file_exists")])
                [winner] = [name for name in sockets if told[name] == COPIED]
                self.assertEqual({row[1] for row in self.joined(copy)["tenant"]}, {f"{winner}{number}" for number in range(20)})
                left = {path.name for path in self.folder.glob(f"copy{turn}.db*")}
                self.assertLessEqual(left, {f"copy{turn}.db", f"copy{turn}.db-wal"})
