"""dist/wgr-figures over a copy, and dist/wgr-probe: each way of being ill is seen."""

import http.server
import json
import os
import re
import shutil
import socketserver
import sqlite3
import threading
import unittest
from contextlib import closing
from pathlib import Path

from earlier import make
from faulty import ONCE, Faulty, needs_faults
from figured import FIGURES, NAME, Figured, figures_of
from program import Left
from register_file import BUSY, failed
from serving import PEERS, TOKEN, free_port, key, request
from shipped import OLD, SYSTEMCTL, Shipped
from tools import needs


class Figures(Figured):
    def test_figures(self):
        # An older copy, and files that are none, don't count.
        for name in ["20250101T000000.000Z.db", "mine.db"]:
            (self.folder / "copies" / name).touch()
        self.assertEqual(self.run_script("wgr-figures", "copies", "wgr.prom"), Left(0))
        figures = figures_of(self.folder / "wgr.prom")
        self.assertEqual(figures.pop("wgr_copy_size_bytes"), os.path.getsize(self.database))
        self.assertEqual(figures, FIGURES)
        with self.subTest("no key, no token"):
            text = (self.folder / "wgr.prom").read_text()
            for secret in [TOKEN, "ba7816bf", *[key(number) for number in range(1, 10)]]:
                self.assertNotRegex(text, rf"(?<![a-z]){re.escape(secret)}")
        with self.subTest("a label for the register"):
            self.assertEqual(self.run_script("wgr-figures", "--register", "eu1", "copies", "wgr.prom"), Left(0))
            self.assertEqual(figures_of(self.folder / "wgr.prom")['wgr_networks{register="eu1"}'], 2)

    @needs("promtool")
    def test_prometheus_reads_them(self):
        self.serve(orders=self.folder / "orders")
        self.assertEqual(self.run_script("wgr-figures", "--status", "orders", "--state", "state", "copies", "wgr.prom"), Left(0))
        self.run_script("wgr-probe", "http://127.0.0.1:1", "--register", self.database, "--figures", "probe.prom")
        for name in ["wgr.prom", "probe.prom"]:
            with self.subTest(name):
                told = self.run_script("promtool", "check", "metrics", text=(self.folder / name).read_text())
                self.assertEqual(told, Left(0))

    def test_the_file_is_written_at_once(self):
        """Who has the old file open reads all of it; where nothing is written, it stays."""
        self.run_script("wgr-figures", "copies", "wgr.prom")
        text = (self.folder / "wgr.prom").read_text()
        with open(self.folder / "wgr.prom") as reader:
            self.assertEqual(self.run_script("wgr-figures", "--register", "eu1", "copies", "wgr.prom"), Left(0))
            self.assertEqual(reader.read(), text)
        now = (self.folder / "wgr.prom").read_text()
        self.assertNotEqual(now, text)
        self.assertEqual(os.stat(self.folder / "wgr.prom").st_mode & 0o777, 0o644)
        rows = [
            ("no copies", ["bin", "wgr.prom"], "there is no copy in bin"),
            ("nor a service", ["--status", "orders", "bin", "wgr.prom"], "there is no copy in bin, and the service at orders makes no copy: wgr: device"),
            ("no folder", ["copies", "none/wgr.prom"], "none/wgr.prom can't be written: No such file or directory"),
            ("a name that isn't read", ["copies", "wgr.txt"], "the node exporter reads files whose names end in .prom alone"),
        ]
        (self.folder / "logged").mkdir()
        shutil.copy(self.database, self.folder / f"logged/{NAME}.db")
        (self.folder / f"logged/{NAME}.db-wal").write_bytes(bytes(57))
        rows.append(("a copy with a log", ["logged", "wgr.prom"], f"logged/{NAME}.db has a log beside it: wgr show logged/{NAME}.db puts it into the file"))
        (self.folder / "other").mkdir()
        (self.folder / f"other/{NAME}.db").touch()
        (self.folder / "before").mkdir()
        make(self.folder / f"before/{NAME}.db", 1, self.database)
        rows.append(("a copy of an earlier version", ["before", "wgr.prom"], f"before/{NAME}.db is {OLD}"))
        rows.append(("no register", ["other", "wgr.prom"], f"other/{NAME}.db is no register: no such table: meta"))
        for name, words, told in rows:
            with self.subTest(name):
                self.assertEqual(self.run_script("wgr-figures", *words), Left(1, b"", f"wgr-figures: {told}\n".encode()))
                self.assertEqual((self.folder / "wgr.prom").read_text(), now)
        self.assertEqual([name for name in self.names(".") if "prom" in name], ["wgr.prom"])


class Probe(Shipped):
    def probe(self, place, *words):
        """The status, the line but its moment, and the figures."""
        words = ["wgr-probe", place, "--register", self.database, "--figures", "probe.prom", *words]
        left = self.run_script(*words)
        self.assertEqual(left.err, b"")
        found = re.fullmatch(r"(well|ill) at \d{4}-\d\d-\d\dT\d\d:\d\d:\d\dZ after \d+\.\d{3} s: (.*)\n", left.out.decode())
        figures = figures_of(self.folder / "probe.prom")
        self.assertEqual(figures["wgr_probe_success"], found[1] == "well")
        return left.status, found[2], figures["wgr_probe_http_status_code"]

    def place(self, server):
        return f"http://127.0.0.1:{server.port}"

    def test_well(self):
        self.assertEqual(self.probe(self.place(self.serve())), (0, "the answer is 401", 401))

    @needs_faults()
    def test_a_sync_that_failed(self):
        """The service answers 503 and ends, and a new start mends it."""
        with Faulty() as faulty:
            with faulty.serve(self.database) as server:
                faulty.arm(call=5, how=ONCE)
                self.assertIn(b" 503 ", server.send(request("POST", PEERS, {"key": key(1)})))
                faulty.disarm()
                self.assertEqual(server.ended().status, 1)
                self.assertEqual(self.probe(self.place(server)), (1, "no answer: Connection refused", 0))
            self.assertEqual(self.probe(self.place(self.serve())), (0, "the answer is 401", 401))

    def test_no_answer(self):
        port = free_port()
        with self.subTest("nobody listens"):
            self.assertEqual(self.probe(f"http://127.0.0.1:{port}"), (1, "no answer: Connection refused", 0))
        with self.subTest("it hangs"):
            server = self.serve()
            server.process.send_signal(19)
            self.assertEqual(self.probe(self.place(server), "--timeout", "0.5"), (1, "no answer: timed out", 0))

    def test_a_register_that_is_not_served(self):
        """The file is held, or its rows aren't good: the service doesn't start, and no copy is made."""
        self.stand_in("systemctl", SYSTEMCTL)
        rows = [
            ("held", failed("store", BUSY), b"database is locked"),
            ("rows that aren't good", failed("not_good"), b"the copy is bad: wgr: not_good"),
        ]
        with closing(sqlite3.connect(self.database)) as link:
            link.execute("PRAGMA locking_mode = EXCLUSIVE")
            link.execute("UPDATE network SET port = 0")
            link.commit()
            for name, told, refused in rows:
                with self.subTest(name):
                    port = free_port()
                    words = ["wgr", "serve", self.database, f"127.0.0.1:{port}", "--count", "1"]
                    self.assertEqual(self.run_script(*words), told)
                    self.assertEqual(self.probe(f"http://127.0.0.1:{port}"), (1, "no answer: Connection refused", 0))
                    left = self.run_script("wgr-backup", "--register", self.database, "copies")
                    self.assertEqual((left.status, refused in left.err, self.copies()), (1, True, []), left.err)
                link.close()

    @unittest.skipUnless(os.geteuid() == 0, "mounts need root")
    @needs("unshare", "mount", "curl")
    def test_a_full_disk(self):
        """The service reads on and answers 401, so the room is looked at too."""
        script = """
            set -e
            mount -t tmpfs -o size=500k none disk
            cp reg.db disk
            wgr serve disk/reg.db 127.0.0.1:$1 --count 100 >told &
            until [[ -s told ]]; do sleep 0.01; done
            dd if=/dev/zero of=disk/rest bs=4k 2>/dev/null || true
            curl -s -H 'Authorization: Bearer abc' -d "{\\"key\\":\\"$2\\"}" "http://127.0.0.1:$1/networks/office/peers"
            wgr-probe "http://127.0.0.1:$1" --register disk/reg.db --figures full.prom || echo "status $?"
            rm disk/rest
            wgr-probe "http://127.0.0.1:$1" --register disk/reg.db --least 0.05 && echo "status $?"
            curl -s -H 'Authorization: Bearer abc' -d "{\\"key\\":\\"$2\\"}" "http://127.0.0.1:$1/networks/office/peers"
            kill %1
        """
        (self.folder / "disk").mkdir()
        left = self.run_script("unshare", "-m", "bash", "-c", script, "bash", free_port(), key(1))
        self.assertEqual((left.status, left.err), (0, b"wgr: unavailable\n"))
        refused, ill, status, well, again, added = re.sub(rb"at .* s: ", b"", left.out.replace(b"}", b"}\n", 1)).decode().splitlines()
        self.assertEqual([refused, status, well, again], ['{"error":"unavailable"}', "status 1", "well the answer is 401", "status 0"])
        self.assertEqual(json.loads(added)["key"], key(1))
        self.assertEqual(ill, "ill the disk of disk/reg.db has 0 bytes left")
        figures = figures_of(self.folder / "full.prom")
        self.assertEqual((figures["wgr_probe_success"], figures["wgr_register_disk_free_bytes"]), (0, 0))

    def test_whom_it_asks_and_how(self):
        """Over a socket of the file system, with a token that is another each time; other answers are ill."""
        seen, answers = [], [(401, b'{"error":"unknown_token"}'), (401, b"<html>"), (200, b'{"networks":[]}'), (503, b"{}")]

        class Stub(http.server.BaseHTTPRequestHandler):
            def do_GET(self):
                seen.append((self.path, self.headers["Authorization"]))
                status, body = answers[len(seen) - 1]
                self.send_response(status)
                self.end_headers()
                self.wfile.write(body)

            def address_string(self):
                return "a socket"

            def log_message(self, *_):
                pass

        with socketserver.UnixStreamServer(str(self.folder / "socket"), Stub) as stub:
            threading.Thread(target=stub.serve_forever, args=[0.02], daemon=True).start()
            for due in [(0, "the answer is 401", 401), (1, "the answer is 401", 401), (1, "the answer is 200", 200), (3, "the answer is 503", 503)]:
                self.assertEqual(self.probe(f"unix:{self.folder}/socket"), due)
            stub.shutdown()
        self.assertEqual({path for path, _ in seen}, {"/networks"})
        tokens = {token for _, token in seen}
        self.assertEqual(len(tokens), len(answers))
        for token in tokens:
            self.assertRegex(token, r"^Bearer [!-~]{32,128}$")


if __name__ == "__main__":
    unittest.main()
