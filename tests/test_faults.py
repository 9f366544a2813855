"""Streams that fail: input that breaks off, output that is full or closed. And want of memory."""

import fcntl
import os
import resource
import signal
import socket
import tempfile
import unittest
from contextlib import contextmanager

from keys import K0, numbered_keys
from program import Left, run

PLAN = ["plan", "10.8.0.0/30"]
TWICE = f"{K0}\n{K0}\n".encode()
ROW = f"1\t{K0}\t10.8.0.2/32\n".encode()
DEVICE = Left(1, b"", b"wgr: device\n")
NO_MEMORY = Left(1, b"", b"wgr: no_memory\n")


def run_with_room(room, words, text):
    """Runs with a file as standard output that takes `room` bytes; gives what is left, and the file's bytes."""

    def limit():
        # Without it the signal ends the program at such a write.
        signal.signal(signal.SIGXFSZ, signal.SIG_IGN)
        resource.setrlimit(resource.RLIMIT_FSIZE, (room, room))

    with tempfile.TemporaryFile() as out:
        left = run(words, text, stdout=out, prepare=limit)
        out.seek(0)
        return left, out.read()


@contextmanager
def breaking_off(text):
    """A stream that gives `text`, and then fails as a connection that was reset."""
    stream, peer = socket.socketpair()
    with stream, peer:
        peer.sendall(text)
        # A peer that goes without having read what it was sent resets the connection.
        stream.sendall(b"unread")
        peer.close()
        yield stream


@contextmanager
def in_single_bytes(text):
    """A stream of which each read gives one byte."""
    reader, writer = os.pipe2(os.O_DIRECT)
    with open(reader, "rb") as stream:
        fcntl.fcntl(writer, fcntl.F_SETPIPE_SZ, len(text) * 4096)
        for byte in text:
            os.write(writer, bytes([byte]))
        os.close(writer)
        yield stream


@contextmanager
def without_reader():
    """A pipe to write to that nobody reads."""
    reader, writer = os.pipe()
    os.close(reader)
    with open(writer, "wb") as stream:
        yield stream


@contextmanager
def full():
    with open("/dev/full", "wb", buffering=0) as stream:
        yield stream


@contextmanager
def directory():
    stream = os.open("/", os.O_RDONLY)
    try:
        yield stream
    finally:
        os.close(stream)


def with_memory(kib):
    """To be called in the new process, which then gets no more memory than this for its data."""
    return lambda: resource.setrlimit(resource.RLIMIT_DATA, (kib << 10, kib << 10))


def close(stream):
    """To be called in the new process, which then has no such stream."""
    return lambda: os.close(stream)


class Reading(unittest.TestCase):
    def test_input_that_breaks_off(self):
        # Of all of the key too, nothing is printed: its end has not been seen.
        for count in range(len(K0) + 1):
            with self.subTest(count=count), breaking_off(K0[:count].encode()) as stdin:
                self.assertEqual(run(PLAN, stdin=stdin), DEVICE)

    def test_a_directory(self):
        with directory() as stdin:
            self.assertEqual(run(PLAN, stdin=stdin), DEVICE)

    def test_no_input(self):
        self.assertEqual(run(PLAN, prepare=close(0)), DEVICE)

    def test_single_bytes(self):
        with in_single_bytes(K0.encode()) as stdin:
            self.assertEqual(run(PLAN, stdin=stdin), Left(0, ROW))


class Writing(unittest.TestCase):
    def test_output_that_is_full_in_the_row(self):
        # The second line is refused, which isn't told before the first row is written.
        for room in range(59):
            with self.subTest(room=room):
                left, out = run_with_room(room, PLAN, TWICE)
                self.assertEqual((left, out), (DEVICE, ROW[:room]))

    def test_room_for_the_row(self):
        left, out = run_with_room(59, PLAN, TWICE)
        self.assertEqual((left, out), (Left(2, b"", b"wgr: line 2: key_held 1\n"), ROW))

    def test_output_that_takes_nothing(self):
        for name, stream in [("full", full), ("closed", without_reader)]:
            for words in [PLAN, ["--help"], ["--version"]]:
                with self.subTest(name, words=words), stream() as stdout:
                    self.assertEqual(run(words, K0.encode(), stdout=stdout), DEVICE)

    def test_no_output(self):
        for words in [PLAN, ["--help"], ["--version"]]:
            with self.subTest(words=words):
                self.assertEqual(run(words, K0.encode(), prepare=close(1)), DEVICE)


class Telling(unittest.TestCase):
    def test_standard_error_that_takes_nothing_keeps_the_status(self):
        cases = [
            ("a bad pool", ["plan", "10.8.0.0"], b"", 2, b""),
            ("a refused line", PLAN, TWICE, 2, ROW),
            ("a mistake", ["plane"], b"", 2, b""),
            ("not UTF-8", [b"\xff"], b"", 2, b""),
        ]
        for error, stream in [("full", full), ("closed", without_reader)]:
            for name, words, text, status, out in cases:
                with self.subTest(name, error=error), stream() as stderr:
                    self.assertEqual(run(words, text, stderr=stderr), Left(status, out))
            with self.subTest("a fault", error=error), stream() as stderr, directory() as stdin:
                self.assertEqual(run(PLAN, stdin=stdin, stderr=stderr), Left(1))
        for name, words, text, status, out in cases:
            with self.subTest(name, error="none"):
                self.assertEqual(run(words, text, prepare=close(2)), Left(status, out))


class Memory(unittest.TestCase):
    def test_want_of_memory_leaves_nothing(self):
        words, text = ["plan", "10.0.0.0/8"], "\n".join(numbered_keys(4096)).encode()
        whole = run(words, text)
        answers = set()
        # From too little memory for this plan to more than enough, in KiB.
        for room in range(512, 8192, 128):
            with self.subTest(room=room):
                left = run(words, text, prepare=with_memory(room))
                self.assertTrue(left in (NO_MEMORY, whole), (left.status, len(left.out), left.err))
                answers.add(left)
        self.assertEqual((whole.status, len(answers)), (0, 2))

    def test_want_of_memory_for_the_words(self):
        # Only once all words are there is the one found that isn't UTF-8, or too much.
        little = with_memory(512)
        self.assertEqual(run(PLAN, K0.encode(), prepare=little), Left(0, ROW))
        words = [*PLAN, *["x" * 100_000] * 10]
        for name, last, told in [
            ("a word too many", b"x", b"error: unexpected argument 'xxxxx"),
            ("not UTF-8", b"\xff", b"wgr: the command line is not UTF-8\n"),
        ]:
            with self.subTest(name):
                self.assertEqual(run([*words, last], K0.encode(), prepare=little), NO_MEMORY)
                left = run([*words, last], K0.encode())
                self.assertEqual((left.status, left.out), (2, b""))
                self.assertTrue(left.err.startswith(told), left.err[:100])
