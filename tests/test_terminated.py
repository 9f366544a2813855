"""SIGTERM, by which systemd stops the service, while it answers: the rows are those of whole requests."""

import shutil
import signal
import sqlite3
import tempfile
import time
import unittest
from contextlib import closing
from pathlib import Path

from keys import numbered_keys
from program import LIMIT
from serving import SERVER_KEY, Server, network_add, order, read_all, request

COUNT = 2_000
STOPS = 24
LINES = "".join(f"{name}\t(none)\t(none)\t10.64.{number // 250}.{number % 250 + 2}/32\t0\t0\t0\toff\n" for number, name in enumerate(numbered_keys(COUNT)))
DUMP = request("POST", "/networks/office/dump", f"(none)\t{SERVER_KEY}\t51820\toff\n{LINES}".encode())
ANSWERED = b"HTTP/1.1 200 OK\r\n"


class Terminated(unittest.TestCase):
    def setUp(self):
        self.folder = Path(self.enterContext(tempfile.TemporaryDirectory()))
        base = str(self.folder / "base.db")
        order("init", base)
        order("tenant-add", base, "acme")
        order("token-grant", base, "acme", token="abc")
        network_add(base, "acme", "office", "10.64.0.0/20")

    def stop(self, seconds):
        """What is answered to a dump where the signal comes so long after it was sent, the seconds that this took, and the peers."""
        for old in self.folder.glob("reg.db*"):
            old.unlink()
        for name in self.folder.glob("base.db*"):
            shutil.copy(name, self.folder / name.name.replace("base", "reg"))
        with Server(str(self.folder / "reg.db")) as server, server.connect() as link:
            link.sendall(DUMP)
            start = time.monotonic()
            if seconds is None:
                answer = read_all(link)
                seconds = time.monotonic() - start
            else:
                time.sleep(seconds)
                server.process.send_signal(signal.SIGTERM)
                try:
                    answer = read_all(link)
                except ConnectionResetError:
                    answer = b""
            server.process.send_signal(signal.SIGTERM)
            self.assertEqual(server.process.wait(LIMIT), -signal.SIGTERM)
        # An order puts what the log has into the file.
        order("tenant-add", str(self.folder / "reg.db"), "next")
        with closing(sqlite3.connect(self.folder / "reg.db")) as rows:
            return answer, seconds, rows.execute("select count(*) from peer").fetchone()[0]

    def test_a_dump(self):
        answer, whole, peers = self.stop(None)
        self.assertTrue(answer.startswith(ANSWERED))
        self.assertEqual(peers, COUNT)
        left = []
        for place in range(STOPS):
            answer, _, peers = self.stop(1.2 * whole * place / STOPS)
            with self.subTest(place=place):
                self.assertIn(peers, {0, COUNT})
                if answer:
                    self.assertEqual(peers, COUNT)
            left.append(peers)
        self.assertIn(0, left)
