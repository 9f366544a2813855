"""The programs that the benchmarks run: how they are found, built, run and timed."""

import os
import shutil
import subprocess
import sys
import time
from pathlib import Path
from tempfile import TemporaryFile
from typing import NamedTuple

BENCH = Path(__file__).resolve().parent
MADE = BENCH / "out"
SCRIPTS = BENCH.parent / "tools/program.bash"


class Left(NamedTuple):
    """What a run leaves."""

    status: int
    out: bytes
    err: bytes


def find(words):
    """The program that is timed, and the words that are left. Where none is named, it is the one that ./wgr runs."""
    if words and "/" in words[0]:
        program = Path(words[0]).resolve()
        if not program.exists():
            sys.exit(f"{program} is missing")
        return program, words[1:]
    asked = 'set -u; speaker=bench; source "$0"; find_program'
    found = subprocess.run(["bash", "-c", asked, SCRIPTS], stdout=subprocess.PIPE, text=True)
    if found.returncode != 0:
        sys.exit("bench: there is no program to time: run ./build first, or name one")
    return Path(found.stdout.rstrip("\n")), words


def build(name):
    """A program of bench/baseline, built where it is older than a file there."""
    program, folder = MADE / name, BENCH / "baseline"
    newest = max(source.stat().st_mtime for source in folder.glob("*.rs"))
    if not program.exists() or program.stat().st_mtime < newest:
        MADE.mkdir(exist_ok=True)
        subprocess.run(["rustc", "--edition", "2021", "-O", "-o", program, folder / f"{name}.rs"], check=True)
    return program


def copy(database, path):
    """Copies a register to the disk, so that no program that is timed has to wait for that."""
    for old in path.parent.glob(f"{path.name}*"):
        old.unlink()
    shutil.copyfile(database, path)
    with open(path, "rb+") as file:
        os.fsync(file.fileno())


def run(words, text=b"", folder=None):
    """What the program leaves on this standard input, and its wall clock in milliseconds."""
    with TemporaryFile() as given, TemporaryFile() as out, TemporaryFile() as err:
        given.write(text)
        given.seek(0)
        start = time.perf_counter()
        # With a timeout it would look only now and then whether the program has ended.
        status = subprocess.run(words, stdin=given, stdout=out, stderr=err, cwd=folder).returncode
        spent = (time.perf_counter() - start) * 1000
        out.seek(0)
        err.seek(0)
        return Left(status, out.read(), err.read()), spent


def run_batch(program, database, now, requests, folder):
    """What `batch` prints for these requests, which are in files of this folder, and its time."""
    # Short names, since the words of a program have to fit into some 2 MB.
    names = [str(place) for place in range(len(requests))]
    for name, request in zip(names, requests):
        (folder / name).write_bytes(request)
    left, spent = run([program, "batch", database, "--now", str(now), *names], folder=folder)
    if left.status != 0:
        sys.exit(f"{program} batch: status {left.status}, {left.err[:300]!r}")
    return left.out, spent
