"""What the benchmarks of `wgr serve` ask of two programs in turn, and how long each takes for a request."""

import socket
import subprocess
import sys
from pathlib import Path
from tempfile import TemporaryDirectory
from typing import NamedTuple

import programs
import register

SIZES = (1024, 4096)
# Peers that are added while it is timed, the last ones of their network.
ADDED = 64
# Seconds that a batch of requests may take, and a server to end.
LIMIT = 300
OFFICE = register.Network(1)
# Networks of a register of which first requests are asked: one before it is timed, and the others in turn.
FIRST = 5


class Session(NamedTuple):
    """What is asked of one server: by case the requests and their status, which are timed, and one before them.

    Each network has so many peers, at every address, at every second one, or so.
    """

    cases: dict
    peers: int
    before: bytes
    networks: int = 1
    every: int = 1


def first_session(name, peers, ask, status=200, every=1, second=None):
    """A session of the first request on networks, and of the second one where it has a name too."""
    before, *others = [ask(register.Network(number, FIRST, every)) for number in range(1, FIRST + 1)]
    cases = {case: (status, others) for case in (name, second) if case}
    return Session(cases, peers, before, FIRST, every)


def first_sessions(size):
    """Requests on networks that the server hasn't asked before. Each peer that is added is the last of its network."""
    yield first_session("first file", size, lambda it: it.peer_file(1))
    yield first_session("first owner", size, lambda it: it.owner(1, size), second="second owner")
    yield first_session("first owner, routed", size, lambda it: it.owner(2, size))
    yield first_session("first owner, none", size, lambda it: it.unowned(), status=404)
    yield first_session("first add, dense", size - 1, lambda it: it.add(size))
    yield first_session("first add, sparse", size - 1, lambda it: it.add(size), every=2)


def sessions(size):
    """What is asked of one server each."""
    asked = {
        "unknown token": (401, [OFFICE.listed(token="stranger")] * 64),
        "owner": (200, [OFFICE.owner(number, size) for number in range(1, size + 1, size // 16 + 1)]),
        "list": (200, [OFFICE.listed()] * 16),
        "file, made": (200, [OFFICE.server_file()]),
        "file, kept": (200, [OFFICE.server_file()] * 16),
    }
    yield from first_sessions(size)
    # The list loads the network.
    yield Session(asked, size, OFFICE.listed())
    start = size - ADDED
    added = {"add": (200, [OFFICE.add(number) for number in range(start + 1, size + 1)])}
    yield Session(added, start, OFFICE.listed())
    numbers = range(1, size + 1)
    adopted = {
        "adopt": (200, [OFFICE.adoption(numbers, size)]),
        "adopt the same": (200, [OFFICE.adoption(numbers, size)]),
        "adopt again": (200, [OFFICE.adoption(numbers, size, later=60)]),
    }
    yield Session(adopted, 0, OFFICE.listed())


def free_port():
    with socket.socket() as probe:
        probe.bind(("127.0.0.1", 0))
        return probe.getsockname()[1]


def framed(texts):
    return b"".join(b"%d\n%b" % (len(text), text) for text in texts)


def unframed(whole):
    texts = []
    while whole:
        length, _, rest = whole.partition(b"\n")
        texts.append(rest[: int(length)])
        whole = rest[int(length) :]
    return texts


def drive(folder, port, requests):
    """The replies, and the milliseconds of one request."""
    asked, answered = folder / "requests", folder / "replies"
    asked.write_bytes(framed(requests))
    words = [programs.MADE / "drive", str(port), asked, answered]
    done = subprocess.run(words, stdout=subprocess.PIPE, timeout=LIMIT)
    if done.returncode != 0:
        sys.exit("a connection failed")
    return unframed(answered.read_bytes()), float(done.stdout) / len(requests)


def serve(program, folder, path, batches):
    """The replies and the time of each batch, asked of one server on the file."""
    port, count = free_port(), sum(len(batch) for batch in batches)
    words = [program, "serve", path, f"127.0.0.1:{port}", "--count", str(count)]
    with subprocess.Popen(words, stdout=subprocess.PIPE) as server:
        try:
            if server.stdout.readline() != b"listening\n":
                sys.exit(f"{program} doesn't listen")
            left = [drive(folder, port, batch) for batch in batches]
            if server.wait(LIMIT) != 0:
                sys.exit(f"{program} ends with {server.returncode}")
        finally:
            server.kill()
    return left


def run(program, database, session):
    """The replies of a fresh server by case, their times, and the rows that it leaves."""
    with TemporaryDirectory(dir=programs.MADE) as name:
        folder = Path(name)
        path = folder / "register.db"
        programs.copy(database, path)
        batches = [[session.before], *(requests for _, requests in session.cases.values())]
        left = serve(program, folder, path, batches)[1:]
        rows = register.rows(path)
    replies = {case: done[0] for case, done in zip(session.cases, left)}
    return replies, {case: done[1] for case, done in zip(session.cases, left)}, rows


def check(cases, ours, theirs):
    """Ends the benchmark where a reply isn't of its status, or the programs differ."""
    for case, (due, _) in cases.items():
        if not all(reply.startswith(b"HTTP/1.1 %d " % due) for reply in theirs[0][case]):
            sys.exit(f"{case}: a reply is another than {due}")
        if ours[0][case] != theirs[0][case]:
            sys.exit(f"{case}: the replies differ")
    if ours[2] != theirs[2]:
        sys.exit(f"{', '.join(cases)}: the rows that are left differ")


def times(pair, databases, session, rounds):
    """The best times of both programs by case, which take turns so that both meet the same machine."""
    best = {case: [float("inf")] * len(pair) for case in session.cases}
    for _ in range(rounds):
        left = [run(program, database, session) for program, database in zip(pair, databases)]
        check(session.cases, *left)
        for case in session.cases:
            best[case] = [min(old, new[1][case]) for old, new in zip(best[case], left)]
    return best


def measure(pair, size, rounds, is_earlier=False):
    """The best times of each case at this size. The second program may need tables of the first version."""
    best = {}
    for session in sessions(size):
        with TemporaryDirectory(dir=programs.MADE) as folder:
            databases = Path(folder) / "made.db", Path(folder) / "other.db"
            made = session.networks, session.peers, session.every
            register.make(databases[0], *made)
            register.make(databases[1], *made, is_earlier)
            best |= times(pair, databases, session, rounds)
    return best
