"""dist/wgr-figures over a running service: the networks' figures are of a copy that it makes, of which nothing is left."""

import fcntl
import json
import os
import re
import subprocess
import time
import unittest

from figured import DUMP, FIGURES, MOMENT, SERVICE, Figured, figures_of
from program import LIMIT, Left, in_time
from serving import PEERS, SERVER_KEY, TOKEN, key, request
from shipped import ANOTHER, OLD

WORDS = ["wgr-figures", "--status", "orders", "--state", "state.json", "copies", "wgr.prom"]
OFFICE, LAB = '{tenant="acme",network="office"}', '{tenant="bolt",network="lab"}'
HANDSHAKE, REPORT = "wgr_network_last_handshake_timestamp_seconds", "wgr_network_last_report_timestamp_seconds"
# The leases of two of three peers are over by now.
NOW = FIGURES | {f"wgr_network_peers{OFFICE}": 1, f"wgr_network_expired_peers{OFFICE}": 2}
REPORTS = {f"{REPORT}{OFFICE}": MOMENT - 60, f"{REPORT}{LAB}": 0}
# In place of the program: what it does in place of a copy, where $4 is the file.
INSTEAD = 'if [[ $3 == backup ]]; then {}; fi\nexec {} "$@"'


class Running(Figured):
    def start(self):
        self.server = self.serve(orders=self.folder / "orders")

    def figures(self, left=Left(0), words=WORDS):
        self.assertEqual(self.run_script(*words), left)
        return figures_of(self.folder / "wgr.prom")

    def ask(self, method, path, body=None):
        self.assertIn(b" 200 OK", self.server.send(request(method, path, body)))

    def beside(self):
        """What a copy has left beside the socket."""
        return [name for name in self.names(".") if "wgr-figures" in name]


class Fresh(Running):
    def test_figures_of_the_service(self):
        with self.subTest("without a service, those of the copy are written"):
            told = b"wgr-figures: the service at orders makes no copy: wgr: device\n"
            figures = self.figures(Left(1, b"", told))
            figures.pop("wgr_copy_size_bytes")
            self.assertEqual(figures, FIGURES | REPORTS)
        self.start()
        for message in [request("GET", PEERS), request("GET", PEERS, token="no")]:
            self.server.send(message)
        self.assertEqual(self.run_script("wgr", "send", "orders", "tenant-add", "bolt").status, 2)
        before = time.time()
        figures = self.figures()
        for name in ["wgr_copy_size_bytes", "wgr_service_start_time_seconds"]:
            self.assertGreater(figures.pop(name), 0)
        self.assertTrue(before <= figures.pop("wgr_figures_timestamp_seconds") <= time.time())
        due = NOW | SERVICE | REPORTS
        due.pop("wgr_figures_timestamp_seconds")
        self.assertEqual(figures, due)
        with self.subTest("their kinds"):
            lines = (self.folder / "wgr.prom").read_text().splitlines()
            self.assertEqual(lines.count("# TYPE wgr_service_requests_total counter"), 1)
            self.assertIn("# TYPE wgr_service_peers gauge", lines)
        with self.subTest("a label for the register"):
            figures = self.figures(words=[*WORDS[:1], "--register", "eu1", *WORDS[1:]])
            self.assertEqual(figures['wgr_service_requests_total{register="eu1",status="401"}'], 1)
            self.assertEqual(figures['wgr_network_last_report_timestamp_seconds{register="eu1",tenant="bolt",network="lab"}'], 0)

    def test_what_was_just_done(self):
        """A change shows without another copy of wgr-backup, also where there has never been one."""
        self.start()
        self.ask("POST", PEERS, {"key": key(5)})
        self.assertEqual(self.run_script("wgr", "send", "orders", "network-end", "bolt", "lab"), Left(0, b"done\n"))
        due = {
            "wgr_networks": 1, f"wgr_network_peers{OFFICE}": 2, f"wgr_network_expired_peers{OFFICE}": 0,
            f"wgr_network_numbers_given{OFFICE}": 5, "wgr_copy_timestamp_seconds": MOMENT,
        }
        figures = self.figures()
        self.assertEqual({name: figures[name] for name in due}, due)
        self.assertNotIn(f"wgr_network_peers{LAB}", figures)
        for folder in ["bin", "none"]:
            with self.subTest("no copies", folder=folder):
                figures = self.figures(words=[*WORDS[:-2], folder, WORDS[-1]])
                self.assertEqual({name: figures[name] for name in due}, due | {"wgr_copy_timestamp_seconds": 0})
                self.assertNotIn("wgr_copy_size_bytes", figures)

    def test_nothing_is_left(self):
        """Of this run, and of one that was killed; what has another's name stays."""
        own = ["wgr-figures.db", *(f"wgr-figures.db{end}" for end in ["-wal", "-shm", "-journal", ".part0", ".part0-wal", ".part17"])]
        others = ["my-wgr-figures.db", "wgr-figures.dbs", "reg.db.copy", "reg.db.copy.part0"]
        for name, running in [("a service that is down", False), ("one that runs", True)]:
            with self.subTest(name):
                for file in [*own, *others]:
                    (self.folder / file).write_text("left")
                if running:
                    self.start()
                self.assertEqual(self.run_script(*WORDS).status, 0 if running else 1)
                self.assertEqual(self.beside(), ["my-wgr-figures.db", "wgr-figures.dbs"])
                self.assertEqual({(self.folder / file).read_text() for file in others}, {"left"})
        for file in others:
            (self.folder / file).unlink()
        with self.subTest("a run that is killed"):
            before, program = self.names("."), os.readlink(self.bin / "wgr")
            self.stand_in("wgr", INSTEAD.format(f'{program} "$@"; touch bin/copied; sleep 60', program))
            with subprocess.Popen(WORDS, cwd=self.folder, env=self.known, start_new_session=True) as running:
                self.assertTrue(in_time(lambda: (self.bin / "copied").exists() or running.poll() is not None))
                self.assertIsNone(running.poll())
                os.killpg(running.pid, 9)
            self.assertEqual(self.beside(), ["wgr-figures.db", "wgr-figures.db-wal"])
            self.stand_in("wgr", f'exec {program} "$@"')
            self.figures()
            self.assertEqual(self.names("."), before)

    def test_a_service_that_makes_no_copy(self):
        """The newest copy of wgr-backup is read, and it is told why; the service's own figures are there."""
        self.start()
        program = os.readlink(self.bin / "wgr")
        rows = [
            ("no room", "echo 'wgr: device' >&2; exit 1", "wgr: device"),
            ("no message", "exit 3", "status 3"),
            ("no file", "echo done; exit", "unable to open database file"),
            ("no register", "echo some text that is none >$4; echo done; exit", "no register: file is not a database"),
            ("another version", "sqlite3 $4 'create table meta (version); insert into meta values (9)'; exit", ANOTHER),
            ("an earlier version", "sqlite3 $4 'create table meta (version); insert into meta values (1)'; exit", OLD),
        ]
        for name, instead, why in rows:
            with self.subTest(name):
                self.stand_in("wgr", INSTEAD.format(instead, program))
                figures = self.figures(Left(1, b"", f"wgr-figures: the service at orders makes no copy: {why}\n".encode()))
                for name in ["wgr_copy_size_bytes", "wgr_service_start_time_seconds"]:
                    self.assertGreater(figures.pop(name), 0)
                self.assertEqual({name: figures[name] for name in FIGURES}, FIGURES)
                self.assertEqual((figures["wgr_service_peers"], self.beside()), (3, []))
        with self.subTest("no answer"):
            self.stand_in("wgr", "exec sleep 60")
            asked = "import sys; sys.path.append(sys.argv[1]); import wgr_copies; print(wgr_copies.send('orders', 'status', seconds=0.1))"
            left = self.run_script("python3", "-B", "-c", asked, os.path.dirname(self.run_script("which", "wgr-figures").out.decode()))
            self.assertEqual(left, Left(0, b"(None, 'no answer within 0.1 s')\n"))

    def test_two_at_a_time(self):
        """A run waits for what has the folder's lock, as another run and wgr-backup have it."""
        self.start()
        folder = os.open(self.folder, os.O_RDONLY)
        self.addCleanup(os.close, folder)
        fcntl.flock(folder, fcntl.LOCK_EX)
        (self.folder / "wgr-figures.db").write_text("another run's")
        with subprocess.Popen(WORDS, cwd=self.folder, env=self.known) as running:
            time.sleep(1)
            self.assertEqual((running.poll(), self.beside()), (None, ["wgr-figures.db"]))
            fcntl.flock(folder, fcntl.LOCK_UN)
            self.assertEqual(running.wait(LIMIT), 0)
        self.assertEqual(self.beside(), [])


class Reports(Running):
    """When a network's server last reported."""

    def dump(self, handshake, received, of=1):
        line = f"{key(of)}\t(none)\t(none)\t10.8.0.2/32\t{handshake}\t{received}\t6\toff\n"
        self.ask("POST", "/networks/office/dump", (DUMP.partition("\n")[0] + "\n" + line).encode())

    def report(self, left=Left(0)):
        return self.figures(left)[f"{REPORT}{OFFICE}"]

    def changed(self, what):
        """The figure of a run that sees this."""
        what()
        before = int(time.time())
        found = self.report()
        self.assertTrue(before <= found <= time.time(), found)
        return found

    def test_reports(self):
        self.start()
        self.ask("POST", PEERS, {"key": key(6)})
        with self.subTest("the first run knows the handshake alone"):
            self.assertEqual([self.report(), self.report()], [MOMENT - 60] * 2)
        with self.subTest("bytes, or an earlier handshake"):
            self.changed(lambda: self.dump(MOMENT - 60, 7))
            seen = self.changed(lambda: self.dump(MOMENT - 90, 7))
        with self.subTest("nothing new, and the same reported again"):
            self.dump(MOMENT - 90, 7)
            self.assertEqual(self.report(), seen)
        with self.subTest("a service that is down, for which an older copy stands in, and is there again"):
            self.server.__exit__()
            self.assertEqual(self.report(Left(1, b"", b"wgr-figures: the service at orders makes no copy: wgr: device\n")), seen)
            self.start()
            self.assertEqual(self.report(), seen)
        with self.subTest("a peer's first"):
            seen = self.changed(lambda: self.dump(0, 0, of=6))
        with self.subTest("peers that come and go, which is no report"):
            time.sleep(1)
            self.ask("POST", PEERS, {"key": key(7)})
            self.assertEqual(self.report(), seen)
            self.ask("DELETE", f"{PEERS}/5")
            self.assertEqual(self.report(), seen)
            self.assertEqual(self.report(), seen)
            self.changed(lambda: self.dump(MOMENT - 90, 8))
        with self.subTest("a later handshake"):
            later = int(time.time()) + 1000
            self.dump(later, 9)
            self.assertEqual(self.report(), later)
        with self.subTest("no peer that was reported is left"):
            self.ask("DELETE", f"{PEERS}/1")
            self.assertEqual(self.report(), 0)

    def test_the_state(self):
        """It has digests of what was reported and nothing else; one that can't be read is begun anew."""
        self.start()
        self.report()
        text = (self.folder / "state.json").read_text()
        [(name, kept)] = json.loads(text).items()
        self.assertEqual((name, kept["peers"], kept["changed"]), ("acme/office", 1, 0))
        self.assertRegex(kept["statuses"], "^[0-9a-f]{64}$")
        for secret in [TOKEN, "ba7816bf", str(MOMENT - 60), *[key(number) for number in range(1, 10)], SERVER_KEY]:
            self.assertNotRegex(text, rf"(?<![a-z]){re.escape(secret)}")
        (self.folder / "state.json").write_text(text[:40])
        self.assertEqual(self.report(), MOMENT - 60)
        self.assertEqual((self.folder / "state.json").read_text(), text)
        with self.subTest("no folder"):
            words = [*WORDS[:3], "--state", "none/state.json", *WORDS[5:]]
            told = b"wgr-figures: none/state.json can't be written: No such file or directory\n"
            self.assertEqual(self.figures(Left(1, b"", told), words)[f"{HANDSHAKE}{OFFICE}"], MOMENT - 60)
        with self.subTest("none"):
            self.assertNotIn(f"{REPORT}{OFFICE}", self.figures(words=[*WORDS[:3], *WORDS[5:]]))


if __name__ == "__main__":
    unittest.main()
