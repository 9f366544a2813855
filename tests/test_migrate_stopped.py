"""`wgr migrate` where it can't be done: in a folder that can't be written, on a full disk, beside another one; and by SIGTERM."""

import hashlib
import os
import signal
import subprocess
import time
from pathlib import Path

import program
from earlier import copy, make, remove, rows_of
from program import LIMIT, in_time
from register_file import BUSY, DENIED, DONE, FULL, failed, put
from serving import make_register
from test_migrate import Migrations
from test_register_faults import bound_by_modes
from tools import needs

# Peers of a register whose migration takes long enough to be met on its way.
COUNT = 4_000
STOPS = 12
# On a disk of its own that is full but for what the words say; the name of the folder and the register are given.
ON_A_FULL_DISK = """
mount -t tmpfs -o size=512k,mode=700 full "$1"
cp "$2" "$1/register.db"
cat /dev/zero >"$1/rest" 2>/dev/null || true
for turn in full room; do
    status=0
    "$0" migrate "$1/register.db" || status=$?
    echo "$status $(sha256sum <"$1/register.db")"
    rm -f "$1/rest"
done
cp "$1/register.db" "$2.after"
"""


class Stopped(Migrations):
    def setUp(self):
        super().setUp()
        self.good = make_register(self.folder)

    def fill(self):
        """A large register of the first version."""
        peers = [(1 << 20 | number, 1, number.to_bytes(32, "big"), "", 0, 0, None, None, None) for number in range(1, COUNT + 1)]
        addresses = [(0x0A08 << 16 | number + 1).to_bytes(16, "big") for number in range(1, COUNT + 1)]
        put(self.good, "peer", peers)
        put(self.good, "allowed", [(1, 4, address, 32, address, peer[0], "address") for address, peer in zip(addresses, peers, strict=True)])
        self.change_good("UPDATE network SET lo = x'0000000000000000000000000a080000', length = 16, next = 5000")
        make(self.db, 1, self.good)
        copy(self.db, self.path("base.db"))

    def change_good(self, *statements):
        self.db, kept = self.good, self.db
        self.change(*statements)
        self.db = kept

    def start(self):
        return subprocess.Popen([program.path, "migrate", self.db], stdout=subprocess.PIPE, stderr=subprocess.PIPE)

    def is_held(self):
        """Whether a program has a lock on the file, by the list of the system's, which has its inode."""
        end = f":{os.stat(self.db).st_ino}"
        return any(word.endswith(end) for line in Path("/proc/locks").read_text().splitlines() for word in line.split())

    def test_a_folder_that_may_not_be_written(self):
        """The log can't be made."""
        make(self.db, 1, self.good)
        before = Path(self.db).read_bytes()
        os.chmod(self.folder, 0o500)
        try:
            self.assertEqual(self.migrate(prepare=bound_by_modes), failed("store", DENIED))
        finally:
            os.chmod(self.folder, 0o700)
        self.assertEqual(Path(self.db).read_bytes(), before)
        self.assertEqual(self.migrate(), DONE)

    @needs("unshare", "mount", root=True)
    def test_a_full_disk(self):
        make(self.db, 1, self.good)
        before = rows_of(self.db)
        digest = hashlib.sha256(Path(self.db).read_bytes()).hexdigest()
        (self.folder / "disk").mkdir()
        words = ["unshare", "-m", "bash", "-ec", ON_A_FULL_DISK, program.path, self.path("disk"), self.db]
        told = subprocess.run(words, capture_output=True, text=True, check=True, timeout=LIMIT)
        first, second, third = told.stdout.splitlines()
        self.assertEqual((first, second, third[:2], told.stderr), (f"1 {digest}  -", "done", "0 ", f"wgr: store\nwgr: {FULL}\n"))
        self.assertEqual(rows_of(f"{self.db}.after"), {**before, "second": [], "reader": [], "meta": [(3,)]})

    def start_and_stop(self):
        """A migration that is stopped on its way, while it has the file. On a busy machine it may end before: then it is another one."""
        for _ in range(20):
            remove(self.db)
            copy(self.path("base.db"), self.db)
            process = self.start()
            self.assertTrue(in_time(lambda: self.is_held() or process.poll() is not None))
            process.send_signal(signal.SIGSTOP)
            if self.is_held():
                return process
            process.send_signal(signal.SIGCONT)
            self.assertEqual(process.communicate(timeout=LIMIT), (b"done\n", b""))
        self.fail("it has no lock on the file")

    def test_beside_another_one(self):
        """The second is refused, and the first is done."""
        self.fill()
        with self.start_and_stop() as first:
            self.assertEqual(self.migrate(), failed("store", BUSY))
            first.send_signal(signal.SIGCONT)
            self.assertEqual(first.communicate(timeout=LIMIT), (b"done\n", b""))
        self.assertEqual(rows_of(self.db)["meta"], [(3,)])

    def test_sigterm(self):
        """At moments from its start to its end: the register is of the one version or the other, with all rows, and is migrated then."""
        self.fill()
        before = rows_of(self.db)
        began = time.monotonic()
        self.assertEqual(self.migrate(), DONE)
        whole = time.monotonic() - began
        due = rows_of(self.db)
        for place in range(STOPS):
            remove(self.db)
            copy(self.path("base.db"), self.db)
            with self.subTest(place=place), self.start() as process:
                time.sleep(1.2 * whole * place / (STOPS - 1))
                process.terminate()
                self.assertIn(process.wait(LIMIT), [0, -signal.SIGTERM])
                rows = rows_of(self.db)
                self.assertTrue(rows in ([before, due] if process.returncode else [due]), "its rows are those of neither version")
                self.assertEqual(self.migrate(), DONE)
                self.assertTrue(rows_of(self.db) == due)
