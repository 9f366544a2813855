"""Each read of the database's files fails in turn, and so do all after it.

What was asked is then done, or `store` is told, and not that memory is wanting or that the rows aren't good;
and all rows are as before. Behind it the same is done. Of a small register no page is read again once it is
open, so the rows of a large one are read too.
"""

import shutil
import sqlite3
import unittest
from concurrent.futures import ThreadPoolExecutor
from contextlib import closing
from pathlib import Path

from earlier import make
from faulty import WHOLE, Faulty, needs_faults, scratch
from keys import numbered_keys
from program import Left
from register_file import DONE, STORE, failed, network_row, put
from serving import SERVER_KEY, key, make_register, network_add, request
from test_batch import batch
from test_growths import ADD, ASKED, FOLLOWING, LOOK, MORE, NOW, ORDERS, UNAVAILABLE, files, make_base, rows

WORDS = {name: ORDERS[name][:2] for name in ["a tenant", "a token", "a token that only reads", "an end of a token that only reads", "a network", "an end of a full network"]}
NOBODYS = FOLLOWING[1].replace(b"abc", b"no")
# Requests, each alone: a reading, a change, and one that no register is asked.
REQUESTS = {"a list": LOOK, "a new peer": ADD, "the networks": FOLLOWING[1], "a token of nobody": NOBODYS, "a token that only reads": ASKED["a new peer with a token that only reads"]}
# The same on a network of which no page is kept, where the first two read only the rows that they need.
LARGE = {
    "an owner": request("GET", "/networks/large/owner/10.9.0.9"),
    "a new peer": request("POST", "/networks/large/peers", {"key": key(1)}),
    "a list": request("GET", "/networks/large/peers"),
}
# A run takes each so many-th read of a file that a request on it makes.
STRIDE = 1 if WHOLE else 11


def pool(place):
    """One of the pools of four addresses in 10.0.0.0/8, of which none is the first network's."""
    return f"10.{16 + (place >> 14)}.{place >> 6 & 255}.{place % 64 * 4}/30"


def make_large(folder):
    """A register with more pages than are kept in memory, and a network of 2,000 peers with a route each."""
    base = make_register(folder)
    network_add(base, "acme", "large", "10.9.0.0/20", port="51821")
    lines = [f"(none)\t{SERVER_KEY}\t51820\toff\n"]
    for place, of in enumerate(numbered_keys(2_000), 2):
        at = f"{place // 256}.{place % 256}/32"
        lines.append(f"{of}\t(none)\t(none)\t10.9.{at},172.16.{at}\t0\t0\t0\toff\n")
    left = batch(base, NOW, [request("POST", "/networks/large/dump", "".join(lines).encode())])
    assert b"HTTP/1.1 200 OK" in left.out, left.out[:200]
    put(base, "network", [network_row(place, 1, f"n{place}", pool(place), f"{240 * 'h'}{place}", 1) for place in range(3, 16_300)])
    return base


class Reads(unittest.TestCase):
    def fresh(self, faulty, base):
        path = f"{faulty.folder.name}/run.db"
        for end in ["", "-wal"]:
            Path(path + end).unlink(missing_ok=True)
        if base:
            shutil.copyfile(base, path)
        return path

    def sweep(self, base, words, text=b"", asked=()):
        """The reads at which something that isn't due came, and how often `store` was told."""
        wrong, told = [], 0
        with Faulty() as faulty:

            def run(**wanted):
                path = self.fresh(faulty, base)
                named = files(faulty.folder.name, asked) if asked else []
                left = faulty.run([words[0], path, *words[1:], *named], text, **wanted)
                return left, path, named

            ample, path, _ = run()
            after, total = rows(path), faulty.file_reads
            path = self.fresh(faulty, base)
            before = rows(path) if base else None
            for number in range(total):
                left, path, named = run(file_read=number)
                due = {ample: after, **dict.fromkeys(STORE, before)}
                if asked:
                    due[Left(1, UNAVAILABLE)] = before
                if left not in due or rows(path) != due[left]:
                    wrong.append((number, left))
                elif left != ample:
                    told += left in STORE
                    again = faulty.run([words[0], path, *words[1:], *named], text)
                    if (again, rows(path)) != (ample, after):
                        wrong.append((number, "again", again))
        return wrong, told

    @needs_faults()
    def test_each_read(self):
        with scratch() as folder, ThreadPoolExecutor() as pool:
            base = make_base(folder)
            cases = {name: (base, words, text) for name, (words, text) in WORDS.items()}
            cases |= {name: (base, ["batch", "--now", str(NOW)], b"", [asked]) for name, asked in REQUESTS.items()}
            cases["a register"] = (None, ["init"])
            for version in [1, 2]:
                make(f"{folder}/earlier-{version}.db", version, base)
                cases[f"a migration of version {version}"] = (f"{folder}/earlier-{version}.db", ["migrate"])
            outcomes = {name: pool.submit(self.sweep, *case) for name, case in cases.items()}
            for name, outcome in outcomes.items():
                with self.subTest(name):
                    wrong, told = outcome.result()
                    self.assertEqual(wrong, [])
                    self.assertGreater(told, 0)

    @needs_faults()
    def test_reads_of_rows(self):
        with scratch() as folder, Faulty() as faulty:
            base = make_register(folder)
            # More pages than are kept in memory.
            rows = [network_row(place, 1, f"n{place}", pool(place), f"{240 * 'h'}{place}", 1) for place in range(2, 16_300)]
            put(base, "network", rows)
            self.assertEqual(faulty.run(["tenant-add", self.fresh(faulty, base), "cato"]), DONE)
            total = faulty.file_reads
            # Of tables of no version no row is read.
            path = self.fresh(faulty, base)
            with closing(sqlite3.connect(path)) as file, file:
                file.execute("UPDATE meta SET version = 9")
            self.assertEqual(faulty.run(["tenant-add", path, "cato"]), failed("not_a_register"))
            opened = faulty.file_reads
            self.assertGreater(total, opened + 100)
            for quarters in range(4):
                with self.subTest(quarters=quarters):
                    read = opened + 1 + (total - opened) * quarters // 4
                    left = faulty.run(["tenant-add", self.fresh(faulty, base), "cato"], file_read=read)
                    self.assertIn(left, STORE)

    @needs_faults()
    def test_reads_of_requests(self):
        with scratch() as folder, Faulty() as faulty:
            base = make_large(folder)
            before = rows(base)

            def run(message, **wanted):
                path = self.fresh(faulty, base)
                left = faulty.run(["batch", path, "--now", str(NOW), *files(faulty.folder.name, [message])], **wanted)
                return left, rows(path)

            run(NOBODYS)
            opened = faulty.file_reads
            for name, message in LARGE.items():
                ample, total = run(message), faulty.file_reads
                self.assertIn(b"HTTP/1.1 200 OK", ample[0].out)
                with self.subTest(name):
                    self.assertGreater(total, opened)
                    found = [run(message, file_read=read) for read in range(opened, total, STRIDE)]
                    self.assertEqual([left for left in found if left not in [ample, (Left(1, UNAVAILABLE), before)]], [])
                    self.assertIn((Left(1, UNAVAILABLE), before), found)
