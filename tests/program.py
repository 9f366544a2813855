"""The program under test, and what a run of it leaves."""

import resource
import signal
import subprocess
import time
from typing import NamedTuple

# The program's path; `tests/run` sets it.
path = ""

# Seconds that a run may take, and in which what is waited for has to come, on however slow a machine.
LIMIT = 120


class Left(NamedTuple):
    """What a run leaves; a stream that was not a pipe has nothing here."""

    status: int
    out: bytes = b""
    err: bytes = b""


def run(words, text=b"", stdin=None, stdout=subprocess.PIPE, stderr=subprocess.PIPE, prepare=None):
    """Runs the program with these words and this text on standard input, or with other streams.

    `prepare` is called in the new process before the program. Signals are as a shell leaves them.
    """
    given = {"input": text} if stdin is None else {"stdin": stdin}
    done = subprocess.run(
        [path, *words],
        stdout=stdout,
        stderr=stderr,
        timeout=LIMIT,
        preexec_fn=prepare,
        **given,
    )
    return Left(done.returncode, done.stdout or b"", done.stderr or b"")


def in_time(is_so, seconds=LIMIT):
    """Whether this comes to be so in time."""
    end = time.monotonic() + seconds
    while not is_so():
        if time.monotonic() > end:
            return False
        time.sleep(0.01)
    return True


def without_room():
    """Lets a program write to no file past its first 4,096 bytes, in place of `prepare`."""
    signal.signal(signal.SIGXFSZ, signal.SIG_IGN)
    resource.setrlimit(resource.RLIMIT_FSIZE, (4096, 4096))
