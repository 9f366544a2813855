"""dist/wgr-probe with --unit: a service that hangs is told from one that works on, is stopped or doesn't run, and its files are
looked at. A script takes the place of systemd."""

import http.server
import os
import re
import shutil
import signal
import subprocess
import sys
import threading
from contextlib import contextmanager
from pathlib import Path

from program import in_time
from serving import free_port
from shipped import Shipped

SYSTEMCTL = 'cat "$ROOM/shown"'
# What a process does, and its state of proc(5) by then.
STATES = {"hangs": "S", "works on": "R", "waits for its disk": "D"}
# Listens, and then does what its second word says.
LISTENS = """
import ctypes, os, socket, sys, time
process = os.getpid()
with socket.create_server(("127.0.0.1", int(sys.argv[1]))) as listener:
    print("listening", flush=True)
    while True:
        # A process whose child has its memory (CLONE_VFORK) is in the state of one that waits for a disk.
        if sys.argv[2] == "waits for its disk" and ctypes.CDLL(None).syscall(56, 0x4000 | 17, 0, 0, 0, 0) == 0:
            while os.getppid() == process:
                time.sleep(0.05)
            break
        if sys.argv[2] == "hangs":
            time.sleep(999)
"""


class Answers(http.server.BaseHTTPRequestHandler):
    def do_GET(self):
        self.send_response(self.server.status)
        self.end_headers()
        self.wfile.write(b'{"error":"unknown_token"}')

    def log_message(self, *_):
        pass


def state_of(process):
    return Path(f"/proc/{process.pid}/stat").read_text().rpartition(") ")[2][0]


@contextmanager
def answering(status):
    """The place of a server that answers each request so."""
    with http.server.ThreadingHTTPServer(("127.0.0.1", 0), Answers) as server:
        server.status = status
        threading.Thread(target=server.serve_forever, args=[0.02], daemon=True).start()
        yield f"http://127.0.0.1:{server.server_port}"
        server.shutdown()


class Probe(Shipped):
    def setUp(self):
        super().setUp()
        self.stand_in("systemctl", SYSTEMCTL)
        self.server = self.serve()
        self.place = f"http://127.0.0.1:{self.server.port}"
        self.show()

    def show(self, process=None, **values):
        shown = {"ActiveState": "active", "FreezerState": "running", "MainPID": process or self.server.process.pid, **values}
        (self.folder / "shown").write_text("".join(f"{name}={value}\n" for name, value in shown.items()))

    def probe(self, *places, register=None, timeout="60"):
        """The status, and what is said behind the time."""
        words = ["wgr-probe", "--unit", "wgr.service", "--timeout", timeout, "--register", register or self.database]
        left = self.run_script(*words, *(places or [self.place]))
        self.assertEqual(left.err, b"")
        return left.status, re.fullmatch(r"(?:well|ill) at \S+ after \S+ s: (.*)\n", left.out.decode())[1]

    def test_states(self):
        self.assertEqual(self.probe(), (0, "the answer is 401"))
        for name, values, told in [
            ("stopped", {"ActiveState": "inactive", "MainPID": 0}, "wgr.service is inactive"),
            ("failed", {"ActiveState": "failed", "MainPID": 0}, "wgr.service is failed"),
            ("starting", {"ActiveState": "activating"}, "wgr.service is activating"),
            ("frozen", {"FreezerState": "frozen"}, "wgr.service is frozen"),
        ]:
            with self.subTest(name):
                self.show(**values)
                self.assertEqual(self.probe(), (1, told))

    def test_no_answer(self):
        with self.subTest("it is stopped"):
            self.server.process.send_signal(signal.SIGSTOP)
            self.assertTrue(in_time(lambda: state_of(self.server.process) == "T"))
            self.assertEqual(self.probe(timeout="1"), (1, "no answer: timed out, and it is stopped"))
            self.server.process.send_signal(signal.SIGCONT)
        for does, status in [("hangs", 3), ("works on", 1), ("waits for its disk", 1)]:
            with self.subTest(does):
                port = free_port()
                with subprocess.Popen([sys.executable, "-c", LISTENS, str(port), does], stdout=subprocess.PIPE) as process:
                    self.assertEqual(process.stdout.readline(), b"listening\n")
                    self.assertTrue(in_time(lambda: state_of(process) == STATES[does]))
                    self.show(process.pid)
                    left = self.run_script("wgr-probe", "--unit", "wgr.service", "--timeout", "1", f"http://127.0.0.1:{port}")
                    process.kill()
                self.assertEqual((left.status, f"no answer: timed out, and it {does}\n".encode() in left.out), (status, True), left)

    def test_files(self):
        link = self.folder / "link.db"
        link.symlink_to(self.database)
        self.server.ask("GET", "/networks")
        self.assertEqual(self.probe(register=link), (0, "the answer is 401"))
        log, aside = f"{self.database}-wal", self.folder / "aside"
        aside.mkdir()

        def told(path):
            return 1, f"{path} is gone or another file than the service has open"

        with self.subTest("the log is gone"):
            os.rename(log, aside / "reg.db-wal")
            self.assertEqual(self.probe(register=link), told(log))
        with self.subTest("another log"):
            shutil.copy(aside / "reg.db-wal", log)
            self.assertEqual(self.probe(register=link), told(log))
        with self.subTest("another register"):
            os.rename(self.database, aside / "reg.db")
            shutil.copy(aside / "reg.db", self.database)
            self.assertEqual(self.probe(register=link), told(self.database))
        with self.subTest("none"):
            for path in [self.database, log]:
                os.unlink(path)
            self.assertEqual(self.probe(), told(self.database))

    def test_several_places(self):
        """Where one of them is well, a restart of the service doesn't mend the other."""
        nobody = f"http://127.0.0.1:{free_port()}"
        with answering(503) as ill, answering(401) as well:
            for places, status, told in [
                ([well, self.place], 0, "the answer is 401"),
                ([well, ill], 1, f"{ill}: the answer is 503"),
                ([nobody, self.place], 1, f"{nobody}: no answer: Connection refused"),
                ([ill, nobody], 3, f"{ill}: the answer is 503"),
                ([ill], 3, "the answer is 503"),
            ]:
                with self.subTest(places):
                    self.assertEqual(self.probe(*places), (status, told))
