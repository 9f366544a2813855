"""Runs two programs on the same key lines, compares what they print, and prints their best times."""

import base64
import hashlib
import os
import subprocess
import sys
import time
from tempfile import TemporaryFile

SIZES = (1024, 2048, 4096)
POOLS = ("10.0.0.0/8", "fd00::/64")
TOO_MANY = 4097


def key_lines(folder, count):
    """A file of `count` distinct keys, the same on each machine."""
    path = os.path.join(folder, f"keys-{count}")
    with open(path, "wb") as file:
        for index in range(count):
            digest = hashlib.sha256(b"key %d" % index).digest()
            file.write(base64.b64encode(digest) + b"\n")
    return path


def run(program, pool, keys):
    """What the program prints, its status, and its wall clock in seconds."""
    with open(keys, "rb") as stdin, TemporaryFile() as out, TemporaryFile() as err:
        start = time.perf_counter()
        with subprocess.Popen(
            [program, "plan", pool], stdin=stdin, stdout=out, stderr=err, close_fds=False
        ) as started:
            status = started.wait()
        spent = time.perf_counter() - start
        out.seek(0)
        err.seek(0)
        return (out.read(), err.read(), status), spent


def best(programs, pool, keys, runs):
    """The answer and the best time in ms of each program, run in turn so that both meet the same machine."""
    answers = [run(program, pool, keys)[0] for program in programs]
    fastest = [float("inf") for _ in programs]
    for _ in range(runs):
        for index, program in enumerate(programs):
            answer, spent = run(program, pool, keys)
            if answer != answers[index]:
                sys.exit(f"{program} prints one thing and then another")
            fastest[index] = min(fastest[index], spent * 1000)
    return answers, fastest


def compare(pool, keys, ours, theirs):
    for name, one, other in zip(("standard output", "standard error", "the status"), ours, theirs):
        if one != other:
            sys.exit(f"the programs differ in {name} on {pool}, {keys}")


def growth(now, before):
    return f"{now / before:10.2f}" if before else " " * 10


def main(program, baseline, folder, runs):
    print(f"best of {runs} runs, wall clock of the whole process in ms; growth over half as many keys")
    print(f"{'pool':<12}{'keys':>6}{'wgr':>10}{'growth':>10}{'plain':>10}{'growth':>10}{'wgr/plain':>11}")
    for pool in POOLS:
        before = (0, 0)
        for count in SIZES:
            keys = key_lines(folder, count)
            answers, (our_time, their_time) = best((program, baseline), pool, keys, runs)
            compare(pool, keys, *answers)
            print(
                f"{pool:<12}{count:>6}{our_time:10.2f}{growth(our_time, before[0])}"
                f"{their_time:10.2f}{growth(their_time, before[1])}{our_time / their_time:11.2f}"
            )
            before = (our_time, their_time)
        keys = key_lines(folder, TOO_MANY)
        compare(pool, keys, run(program, pool, keys)[0], run(baseline, pool, keys)[0])
    print("outputs: the same, byte for byte, also where key 4097 is refused")


main(*sys.argv[1:4], int(sys.argv[4]))
