"""Orders over a service's socket where a stop or want of memory comes: all is done that was acknowledged, or nothing.

As `test_stops.py` and `test_growths.py` do with the commands; the rows that are due are those that the commands leave.
"""

import itertools
import shutil
import unittest
from contextlib import suppress
from pathlib import Path

from faulty import KILLED, WHOLE, Faulty, needs_faults, scratch, tell
from program import Left
from register_file import STORE
from sending import answered, command, line
from serving import Server
from test_growths import LOOK, NOW, make_base, rows
from test_stops import ORDERS, EachStop, Order

DONE, NO_MEMORY = b"0 done\n", b"1 no_memory\n"
STRIDE = 1 if WHOLE else 23


def sent(word, words, text):
    """The order in the form of its line."""
    return (word, *(each for each in words if not each.startswith("--")), *([text.decode()] if text else []))


SENT = {name: sent(*order) for name, order in ORDERS.items()}


class Sent(Order):
    """An order over the socket of a service, and a request behind it, which is the last."""

    def do(self, faulty, path, events, **wanted):
        """Gives what is answered to the order, and how the service ended; without a fault, the command does it."""
        if not wanted and not faulty.environment.get("WGR_RECORD"):
            return super().do(faulty, path, events)
        faulty.arm(**wanted)
        socket = f"{faulty.folder.name}/orders"
        server = Server(path, count=1, now=NOW, orders=socket)
        server.environment = faulty.environment
        try:
            server.__enter__()
        except AssertionError as why:
            told, err = why.args[0]
            return None, Left(server.ended().status, told, err)
        answer = b""
        # It may have been killed, or have ended.
        with suppress(OSError):
            answer = answered(socket, line(sent(self.word, self.words, self.text)))
            server.send(LOOK)
        left = server.ended()
        faulty.disarm()
        return answer, left

    def told(self, left):
        answer, end = left
        if answer is None:
            # It did not open the register, and was given nothing.
            return {()} if end in [*STORE, Left(KILLED)] else set()
        if answer == DONE:
            return {(0,)}
        return {(), (0,)} if answer == b"1 store\n" or answer == b"" and end.status == KILLED else set()


@needs_faults()
class Stops(EachStop, unittest.TestCase):
    def words(self, base):
        return {f"{name} over a socket": Sent(base, *order) for name, order in ORDERS.items()}


@needs_faults()
class Growths(unittest.TestCase):
    """Each growth of memory refused in turn, from the order's coming to its answer."""

    maxDiff = None

    def setUp(self):
        self.folder = self.enterContext(scratch())
        self.base, self.path, self.socket = make_base(self.folder), f"{self.folder}/run.db", f"{self.folder}/orders"
        self.faulty = self.enterContext(Faulty())

    def start(self):
        shutil.copyfile(self.base, self.path)
        Path(f"{self.path}-wal").unlink(missing_ok=True)
        self.server = self.enterContext(self.faulty.serve(self.path, count=1, now=NOW, orders=self.socket))

    def end(self):
        """The rows, once it has ended by a request."""
        self.server.send(LOOK)
        self.assertEqual(self.server.ended().status, 0)
        return rows(self.path)

    def give(self, text, growth):
        """The answer where this growth is refused, and whether it was."""
        self.faulty.arm(growth=growth)
        answer = answered(self.socket, text)
        met = self.faulty.refused
        self.faulty.disarm()
        return answer, met

    def sweep(self, order, due):
        """How many growths were refused; `due` are the rows once the order is done."""
        count = 0
        self.start()
        for growth in itertools.count(0, STRIDE):
            answer, met = self.give(line(order), growth)
            count += met > 0
            if answer == DONE:
                self.assertEqual(self.end(), due, f"growth {growth}")
                if not met:
                    return count
                self.start()
            else:
                # Nothing is done, and the next one finds it so.
                self.assertIn(answer, [NO_MEMORY, b""], f"growth {growth}")

    def test_growths(self):
        for word, order in SENT.items():
            with self.subTest(word):
                plain = f"{self.folder}/plain.db"
                shutil.copyfile(self.base, plain)
                self.assertEqual(command(plain, order), Left(0, b"done\n"))
                count = self.sweep(order, rows(plain))
                tell(f"{word} over a socket", count, "growths refused")
                self.assertGreater(count, 0)
