"""A stop at each write: the program is killed at each call that writes, cuts or syncs a file, or the call fails.

After each stop the register opens, its rows are those after what was acknowledged, with or without one event
more, the one under way or one that was answered `unavailable`; and what follows is answered on them. A stop
of the machine is made from the record of a run: of what was written since the last sync, all is lost, or each
byte is the old or the new one. A run takes each call, and one way of failing for each; `WGR_ALL=1` takes all.
"""

import random
import shutil
import unittest
from concurrent.futures import ThreadPoolExecutor
from pathlib import Path

from earlier import make_logged
from faulty import FULL, KILL, KILLED, ON, ONCE, SHORT, TORN, WHOLE, Faulty, needs_faults, recorded, scratch, tell
from program import Left
from register_file import DONE, OFFICE, STORE, options
from serving import Server, key, request
from test_batch import replies
from test_growths import PEERS, THREE, UNAVAILABLE, files, make_base, rows

HOW = {KILL: "killed", TORN: "torn", ONCE: "fails once", ON: "fails from then on", SHORT: "short", FULL: "full"}
NOW = 100
LOOK = request("GET", PEERS)
# Those who follow upon a stop.
FOLLOWING = [LOOK, request("GET", "/networks"), request("GET", "/networks", token="xyz"), request("POST", PEERS, {"key": key(77)})]
# What `batch` and `serve` are asked in turn: a dump, a prefix that goes to another peer, a reading, an end, a
# refusal, and a new peer. The first of them finds that the lease of peer 3 is over.
ASKED = [
    request("POST", "/networks/office/dump", THREE),
    request("POST", f"{PEERS}/2/routes", {"prefix": "192.168.4.0/24"}),
    LOOK,
    request("DELETE", f"{PEERS}/1"),
    request("DELETE", f"{PEERS}/1"),
    request("POST", PEERS, {"key": key(8)}),
]
CHANGES = {0, 1, 3, 5}
ORDERS = {
    "tenant-add": ("tenant-add", ["cato"], b""),
    "token-grant": ("token-grant", ["acme"], b"new"),
    "token-grant of one that only reads": ("token-grant", ["acme", "--right", "read"], b"new"),
    "token-end": ("token-end", [], b"xyz"),
    "token-end of one that only reads": ("token-end", [], b"reads"),
    "network-add": ("network-add", ["acme", "more", *options(**{**OFFICE, "pool": "10.10.0.0/24", "port": "51822"})], b""),
    "network-end": ("network-end", ["acme", "office"], b""),
}


class Order:
    """A word that does one thing, and says `done`."""

    count = 1
    following = ["tenant-add", "next"]
    # Whether most of its calls are those of the orders.
    shares = True

    def __init__(self, base, word, words=(), text=b""):
        self.base, self.word, self.words, self.text = base, word, words, text
        self.known = {}

    def reset(self, path):
        for end in ["", "-wal"]:
            Path(path + end).unlink(missing_ok=True)
            if self.base and Path(self.base + end).exists():
                shutil.copyfile(self.base + end, path + end)

    def do(self, faulty, path, events, **wanted):
        """Does these events; gives what is printed."""
        if events:
            return faulty.run([self.word, path, *self.words], self.text, **wanted)

    def told(self, left):
        """What may have been done, where a run told this."""
        if left == DONE or left == Left(KILLED, b"done\n"):
            return {(0,)}
        return {(), (0,)} if left in [Left(KILLED), *STORE] else set()

    def is_answered(self, faulty, path, left):
        """Whether the replies are those that are due where what was answered `unavailable` wasn't asked."""
        return True

    def noted(self, told):
        """The same of a run that was stopped when these bytes had been told."""
        return {(0,)} if b"done\n" in told else {(), (0,)}

    def follows(self, faulty, path):
        """What those who follow are answered, and the rows then."""
        word, *words = self.following
        return faulty.run([word, path, *words]), rows(path)

    def due(self, faulty, path, events):
        """What follows where these events alone were done."""
        if events not in self.known:
            self.reset(path)
            self.do(faulty, path, events)
            self.known[events] = self.follows(faulty, path)
        return self.known[events]


class Init(Order):
    """A stop may leave no register; then it can be made."""

    shares = False

    def follows(self, faulty, path):
        return faulty.run(["init", path]), *super().follows(faulty, path)


class Migrate(Order):
    """Takes a register of an earlier version to the present one. A stop leaves the one or the other, and `migrate`
    again ends at the present one."""

    shares = False

    def follows(self, faulty, path):
        word, *words = self.following
        # The program tells the version, before Python's SQLite opens the file.
        before = faulty.run([word, path, *words])
        return before, faulty.run(["migrate", path]), *super().follows(faulty, path)


class Batch(Order):
    """Several requests, whose replies come at the end."""

    count, shares = len(ASKED), False

    def __init__(self, base):
        super().__init__(base, "batch")
        self.answers = {}

    def do(self, faulty, path, events, **wanted):
        if events:
            asked = files(faulty.folder.name, [ASKED[place] for place in events])
            return faulty.run(["batch", path, "--now", str(NOW), *asked], **wanted)

    def follows(self, faulty, path):
        asked = files(faulty.folder.name, FOLLOWING, "next")
        return faulty.run(["batch", path, "--now", str(NOW), *asked]), rows(path)

    def given(self, left):
        return replies(left.out)

    def is_answered(self, faulty, path, left):
        given = self.given(left)
        asked = tuple(place for place, reply in enumerate(given) if reply != UNAVAILABLE)
        if asked not in self.answers:
            self.reset(path)
            alone = Batch.do(self, faulty, path, asked)
            self.answers[asked] = replies(alone.out) if alone else []
        return self.answers[asked] == [given[place] for place in asked]

    def told(self, left):
        if left == Left(KILLED):
            return self.noted(b"")
        if left in STORE:
            return {()}
        given = replies(left.out)
        if left.err or len(given) != self.count or left.status != (UNAVAILABLE in given) and left.status != KILLED:
            return set()
        return self.answered(given)

    def answered(self, given):
        """What may have been done where these replies were given: all that was answered, and one thing more."""
        sure = tuple(place for place, reply in enumerate(given) if reply != UNAVAILABLE)
        last = max(CHANGES.intersection(sure), default=-1)
        late = {place for place in range(last + 1, len(given)) if given[place] == UNAVAILABLE}
        return {sure} | {(*sure, place) for place in late}

    def noted(self, told):
        every = tuple(range(self.count))
        return {every} if told else {every[:place] for place in range(self.count + 1)}


class Serve(Batch):
    """The same requests over connections, each answered at once."""

    def do(self, faulty, path, events, **wanted):
        """Gives the replies that came, and how the service ended."""
        if not wanted and events != tuple(range(self.count)):
            return super().do(faulty, path, events)
        faulty.arm(**wanted)
        server = Server(path, count=self.count, now=NOW)
        server.environment = faulty.environment
        try:
            server.__enter__()
        except AssertionError as why:
            told, err = why.args[0]
            return None, Left(server.ended().status, told, err)
        given = []
        try:
            for place in events:
                given.append(server.send(ASKED[place]))
        except OSError:
            pass
        left = server.ended()
        faulty.disarm()
        return [reply for reply in given if reply], left

    def given(self, left):
        return left[0] or []

    def told(self, left):
        given, end = left
        if given is None:
            # It did not open the register, and was asked nothing.
            return {()} if end in [*STORE, Left(KILLED)] else set()
        if end == Left(KILLED):
            return self.answered(given) | self.under_way(given)
        # It had its count of connections, or ended behind an answer after which the store was shut.
        noted = given.count(UNAVAILABLE) * b"wgr: unavailable\n"
        is_whole = len(given) == self.count and end == Left(0, b"", noted)
        is_shut = given[-1:] == [UNAVAILABLE] and end == Left(1, b"", noted + b"wgr: store\n")
        return self.answered(given) if is_whole or is_shut else set()

    def under_way(self, given):
        done = tuple(place for place, reply in enumerate(given) if reply != UNAVAILABLE)
        return {(*done, len(given))} if len(given) < self.count else set()

    def noted(self, told):
        given = replies(told.removeprefix(b"listening\n"))
        return self.answered(given) | self.under_way(given)


def states(record, path):
    """What files a stop of the machine may leave: for each place in a run's record, what was told by then, and
    of each file its bytes as they were last synced and as they were written, or nothing where there is none.
    """
    synced = {name: Path(name).read_bytes() if Path(name).exists() else None for name in [path, f"{path}-wal"]}
    written, opened, told, found = dict(synced), {}, b"", []
    for kind, file, place, text in record:
        if kind in "wts":
            found.append((told, dict(synced), dict(written)))
        name = opened.get(file)
        if kind == "o":
            opened[file] = text.decode()
            if written.get(text.decode(), b"") is None:
                written[text.decode()] = b""
        elif kind == "a":
            told += text
        elif name not in synced:
            # A folder is synced, and what was made in it is there.
            synced = {each: b"" if now is not None and synced[each] is None else synced[each] for each, now in written.items()}
        elif kind == "w":
            whole = written[name].ljust(place, b"\0")
            written[name] = whole[:place] + text + whole[place + len(text) :]
        elif kind == "t":
            written[name] = written[name][:place].ljust(place, b"\0")
        else:
            synced[name] = written[name]
    return [*found, (told, dict(synced), dict(written))]


# Bytes that are 0 or 255, of any.
SIDES = bytes(255 * (byte & 1) for byte in range(256))


def mixed(pick, old, new):
    """Bytes that are old or new, by sectors or one by one; the length is any between."""
    if old == new or new is None:
        return new
    old = old or b""
    length = pick.randint(min(len(old), len(new)), max(len(old), len(new)))
    step = pick.choice([1, 512])
    sides = pick.randbytes(length // step + 1).translate(SIDES)
    side = int.from_bytes(b"".join(bytes([each]) * step for each in sides)[:length] if step > 1 else sides[:length])
    old, new = (int.from_bytes(text.ljust(length, b"\0")[:length]) for text in [old, new])
    return (old ^ (old ^ new) & side).to_bytes(length)


def leave(path, files_left):
    for name, text in files_left.items():
        Path(name).unlink(missing_ok=True)
        if text is not None:
            Path(name).write_bytes(text)


def make_logged_base(folder):
    """A register whose log has commits that its file hasn't: its service was killed."""
    base = make_base(folder)
    with Server(base, now=7) as server:
        server.send(request("POST", PEERS, {"key": key(60)}))
        server.send(request("POST", f"{PEERS}/1/routes", {"prefix": "192.168.60.0/24"}))
    assert Path(f"{base}-wal").stat().st_size > 8_192
    return base


def is_due(word, faulty, path, allowed, follows):
    """Whether what follows is what is due after one of the lists of events."""
    return any(follows == word.due(faulty, path, events) for events in sorted(allowed, key=len))


def each_of(word, turn, total, step=1):
    """The calls to stop at. The orders have most of their calls in common, so each has a quarter of its own."""
    step = 4 if word.shares else step
    return range(total) if WHOLE else range(turn % step, total, step)


def stop_calls(word, turn):
    """Stops a word at each of its calls; gives what was wrong, and how many stops there were."""
    wrong, count, events = [], 0, tuple(range(word.count))
    with Faulty() as faulty:
        path = f"{faulty.folder.name}/run.db"
        word.reset(path)
        # A number without a way to fail.
        word.do(faulty, path, events, call=0)
        for number in each_of(word, turn, faulty.calls):
            for how in HOW if WHOLE else [1 + (number + turn) % len(HOW)]:
                word.reset(path)
                left = word.do(faulty, path, events, call=number, how=how)
                count += faulty.met > 0
                allowed = word.told(left)
                if not (is_due(word, faulty, path, allowed, word.follows(faulty, path)) and word.is_answered(faulty, path, left)):
                    wrong.append(f"call {number} {HOW[how]}: {left}, {allowed}")
    return wrong, count


def stop_machine(word, turn):
    """Stops the machine before each call of a word, and after all; gives the same."""
    wrong, count, pick = [], 0, random.Random(turn)
    with Faulty() as faulty:
        path, record = f"{faulty.folder.name}/run.db", f"{faulty.folder.name}/record"
        word.reset(path)
        faulty.environment["WGR_RECORD"] = record
        before = {name: Path(name).read_bytes() if Path(name).exists() else None for name in [path, f"{path}-wal"]}
        word.do(faulty, path, tuple(range(word.count)))
        del faulty.environment["WGR_RECORD"]
        leave(path, before)
        stopped = states(recorded(record), path)
        for place in each_of(word, turn, len(stopped), 3):
            told, synced, written = stopped[place]
            for mix in range(20) if WHOLE else [place // 3 % 2]:
                left = {name: mixed(pick, synced[name], written[name]) if mix else synced[name] for name in synced}
                leave(path, left)
                allowed = word.noted(told)
                if not is_due(word, faulty, path, allowed, word.follows(faulty, path)):
                    wrong.append(f"before call {place}, {'mixed' if mix else 'lost'}: {told[-40:]}, {allowed}")
                count += 1
    return wrong, count


class EachStop:
    """Stops of each of the words that `words` gives by their names. A class below this is a test."""

    maxDiff = None

    def each(self, stop):
        with scratch() as folder, ThreadPoolExecutor(2) as pool:
            words = self.words(make_logged_base(folder))
            stopped = {name: pool.submit(stop, word, turn) for turn, (name, word) in enumerate(words.items())}
            for name, future in stopped.items():
                wrong, count = future.result()
                tell(name, count, "stops")
                with self.subTest(name, stops=count):
                    self.assertEqual(wrong[:5], [])
                    self.assertGreater(count, 6)

    def test_each_call(self):
        self.each(stop_calls)

    def test_the_machine(self):
        self.each(stop_machine)


@needs_faults()
class Stops(EachStop, unittest.TestCase):
    def words(self, base):
        orders = {name: Order(base, *order) for name, order in ORDERS.items()}
        migrations = {}
        for version in [1, 2]:
            earlier = f"{base}.{version}"
            make_logged(earlier, version, base, "INSERT INTO tenant VALUES (3, 'dune')", "DELETE FROM token WHERE tenant = 2")
            migrations[f"migrate from version {version}"] = Migrate(earlier, "migrate")
        return {"init": Init(None, "init"), "batch": Batch(base), "serve": Serve(base)} | migrations | orders
