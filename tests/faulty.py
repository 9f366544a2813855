"""Runs of the program in which a call of the C library fails: one that takes memory, reads or writes a
file, uses a socket or reads the clock.

`faulty.c` is compiled and preloaded into the program; what it shall do, and what it has seen, is in a file
that both map. Where no C compiler is there, the tests that want it are skipped.
"""

import atexit
import functools
import mmap
import os
import shutil
import signal
import struct
import subprocess
import tempfile
from pathlib import Path

import program
import tools
from serving import Server

# The C compilers, in the order in which they are taken; the last is the toolchain's.
COMPILERS = ["cc", "gcc", "clang", "/opt/rattle/toolchain/bin/clang"]
FIELDS = [
    *["armed", "growth", "growths", "refused", "lasting", "call", "calls", "met", "how"],
    *["receive", "receives", "receive_most", "send", "sends", "send_most", "send_zero", "clock"],
    *["file_read", "file_reads", "file_read_once"],
]
# Numbers of a call of which none is that one.
NONE = {"growth": -1, "call": -1, "receive": -1, "send": -1, "file_read": -1}
# What the call of that number meets: the program is killed before it; it is killed once half is written;
# the call fails; it fails, and so does each one after it; half is written, and the call says so; half is
# written, and each one after it fails.
KILL, TORN, ONCE, ON, SHORT, FULL = range(1, 7)
# What the clock does: it can't be read, or it gives a time before 1970.
FAILS, EARLY = 1, 2
KILLED = -signal.SIGKILL
# Whether each number is tried, which takes minutes.
WHOLE = os.environ.get("WGR_ALL") == "1"


def tell(name, count, what):
    """Says how many were tried, where each was."""
    if WHOLE:
        print(f"{name}: {count} {what}", flush=True)


def compiler():
    return next(filter(None, map(shutil.which, COMPILERS)), None)


def needs_faults():
    """Skips a test where no C compiler is there, and says which packages bring one."""
    return (lambda test: test) if compiler() else tools.needs("cc")


def scratch():
    """A folder, in memory where there is one, that goes with the block."""
    return tempfile.TemporaryDirectory(dir="/dev/shm" if os.access("/dev/shm", os.W_OK) else None)


@functools.cache
def library():
    """The library's path; it is compiled once."""
    folder = tempfile.TemporaryDirectory()
    atexit.register(folder.cleanup)
    path = f"{folder.name}/faulty.so"
    source = Path(__file__).resolve().parent / "faulty.c"
    words = ["-O1", "-Wall", "-Werror", "-shared", "-fPIC", "-nostdlib"]
    if compiler() == COMPILERS[-1]:
        words.append("-fuse-ld=lld")
    subprocess.run([compiler(), *words, "-o", path, source], check=True)
    return path


class Faulty:
    """The state that a program and the test both have, until the block ends."""

    def __enter__(self):
        self.folder = scratch()
        path = f"{self.folder.name}/state"
        Path(path).write_bytes(bytes(8 * len(FIELDS)))
        with open(path, "r+b") as file:
            self.map = mmap.mmap(file.fileno(), 0)
        self.cells = memoryview(self.map).cast("q")
        self.environment = os.environ | {"LD_PRELOAD": library(), "WGR_FAULTY": path}
        return self

    def __exit__(self, *_):
        self.cells.release()
        self.map.close()
        self.folder.cleanup()

    def __getattr__(self, name):
        return self.cells[FIELDS.index(name)]

    def arm(self, **wanted):
        """Counts from 0 from here on, and lets this fail; without fields, nothing fails."""
        self.disarm()
        for place, name in enumerate(FIELDS[1:], 1):
            self.cells[place] = wanted.get(name, NONE.get(name, 0))
        self.cells[0] = 1

    def disarm(self):
        self.cells[0] = 0

    def run(self, words, text=b"", record=None, **wanted):
        """Runs the program, in which this fails."""
        self.arm(**wanted)
        environment = self.environment | ({"WGR_RECORD": record} if record else {})
        given = subprocess.run(
            [program.path, *words], input=text, stdout=subprocess.PIPE, stderr=subprocess.PIPE,
            timeout=program.LIMIT, env=environment,
        )
        self.disarm()
        return program.Left(given.returncode, given.stdout, given.stderr)

    def serve(self, database, **words):
        """A service in which calls may fail, once the state is armed."""
        self.disarm()
        server = Server(database, **words)
        server.environment = self.environment
        return server


def recorded(path):
    """What a run wrote: kind, number of the open file, place, bytes. `o` opens, `w` writes, `t` cuts, `s` syncs, `a` prints or sends."""
    text, place, found = Path(path).read_bytes(), 0, []
    while place < len(text):
        kind, file, where, length = struct.unpack_from("4q", text, place)
        place += 32
        found.append((chr(kind), file, where, text[place : place + length]))
        place += length
    return found
