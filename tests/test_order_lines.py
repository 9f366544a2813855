"""Lines of orders: raw bytes over the socket of a service, and by `wgr orders` from a file and from standard input."""

import hashlib
import os
import shutil
from pathlib import Path

from keys import K0
from program import Left, run
from register_file import BUSY, DAMAGED, DIGEST, OFFICE, S, failed
from sending import Sending, answered, line, tell
from serving import LIST
from test_register import REFUSALS

BAD = b"2 bad_order\n"
OFFICE_LINE = f"network-add acme office {' '.join(OFFICE.values())}\n".encode()
LONGEST = b"tenant-add " + 4_084 * b"x" + b"\n"

# By name: the bytes, what is answered, and whether that is once they have come, though the client could send more.
LINES = [
    ("nothing", b"", BAD, False),
    ("a line's end alone", b"\n", BAD, True),
    ("a blank", b" \n", BAD, True),
    ("no line's end", b"tenant-add bolt", BAD, False),
    ("no line's end behind a token", b"token-end ab", BAD, False),
    ("no line's end behind a token that a tenant has", b"token-end abc", BAD, False),
    ("a word cut", b"tenant-a", BAD, False),
    ("no field", b"tenant-add\n", BAD, True),
    ("an empty field", b"tenant-add \n", b"2 bad_field name\n", True),
    ("two blanks", b"tenant-add  bolt\n", BAD, True),
    ("a blank before", b" tenant-add bolt\n", BAD, True),
    ("a blank behind", b"tenant-add bolt \n", BAD, True),
    ("a tab between", b"tenant-add\tbolt\n", BAD, True),
    ("two blanks before a token", b"token-grant acme  new\n", b"2 bad_field right\n", True),
    ("a token with a blank", b"token-end a b c\n", BAD, True),
    ("a field too many", b"tenant-add bolt more\n", BAD, True),
    ("a token too few", b"token-grant acme\n", BAD, True),
    ("a token too many", b"token-grant acme new more\n", b"2 bad_field right\n", True),
    ("a right in capitals", b"token-grant acme Read new\n", b"2 bad_field right\n", True),
    ("a right with more behind", b"token-grant acme reader new\n", b"2 bad_field right\n", True),
    ("a right behind the token", b"token-grant acme new read\n", b"2 bad_field right\n", True),
    ("a right before the tenant", b"token-grant read acme new\n", b"2 bad_field right\n", True),
    ("a right as an option", b"token-grant acme --right read new\n", BAD, True),
    ("a token too many behind a right", b"token-grant acme read new more\n", BAD, True),
    ("a right of a malformed tenant", b"token-grant Acme Read new\n", b"2 bad_field tenant\n", True),
    ("a malformed right and a malformed token", b"token-grant acme Read \x7f\n", b"2 bad_field right\n", True),
    ("a malformed token behind a right", b"token-grant acme read \x7f\n", b"2 bad_field token\n", True),
    ("no token behind a right", b"token-grant acme read \n", b"2 bad_field token\n", True),
    ("a token that a tenant has, with another right", b"token-grant acme read abc\n", b"2 digest_held\n", True),
    ("a token for nobody, with a right", b"token-grant bolt read new\n", b"2 no_such_tenant\n", True),
    ("a token that a tenant has, for nobody", b"token-grant bolt read abc\n", b"2 no_such_tenant\n", True),
    ("a field too few of a network", OFFICE_LINE.replace(b" 4096\n", b"\n"), BAD, True),
    ("a field too many of a network", OFFICE_LINE.replace(b"\n", b" 1\n"), BAD, True),
    ("a name too few", b"network-end acme\n", BAD, True),
    ("an unknown word", b"peer-add bolt\n", BAD, True),
    ("a word of the command line", b"init register.db\n", BAD, True),
    ("the word that migrates", b"migrate register.db\n", BAD, True),
    ("the word that migrates alone", b"migrate\n", BAD, True),
    ("a word in capitals", b"Tenant-add bolt\n", BAD, True),
    ("a word with more behind", b"tenant-added bolt\n", BAD, True),
    ("a register before the name", b"tenant-add register.db bolt\n", BAD, True),
    ("another option", b"token-end --tenant acme\n", BAD, True),
    ("a digest behind another word", b"token-grant --digest " + DIGEST.hex().encode() + b" acme\n", b"2 bad_field right\n", True),
    ("no UTF-8", b"tenant-add \xff\n", BAD, True),
    ("a letter cut", b"tenant-add \xc3\n", BAD, True),
    ("half a pair of UTF-16", b"tenant-add \xed\xa0\x80\n", BAD, True),
    ("a line's end before", b"\ntenant-add bolt\n", BAD, True),
    ("4,096 bytes", LONGEST, b"2 bad_field name\n", True),
    ("4,097 bytes", LONGEST.replace(b"x\n", b"xx\n"), BAD, True),
    ("4,096 bytes without a line's end", LONGEST.replace(b"\n", b"x"), BAD, True),
    ("a mebibyte", 1_048_576 * b"x", BAD, True),
    ("a carriage return", b"tenant-add bolt\r\n", b"2 bad_field name\n", True),
    ("a carriage return behind a token", b"token-end abc\r\n", b"2 bad_field token\n", True),
    ("a zero byte", b"tenant-add bo\0lt\n", b"2 bad_field name\n", True),
    ("a letter of two bytes", "tenant-add é\n".encode(), b"2 bad_field name\n", True),
    ("a token of 129 bytes", b"token-end " + 129 * b"a" + b"\n", b"2 bad_field token\n", True),
    ("a digest of 63 digits", b"token-end --digest " + DIGEST.hex()[1:].encode() + b"\n", b"2 bad_field digest\n", True),
    ("a digest that nobody has", b"token-end --digest " + 32 * b"0f" + b"\n", b"2 no_such_token\n", True),
    ("no digest, but a token", b"token-end --digest\n", b"2 no_such_token\n", True),
]
# The same of lines that are done.
DONE = [
    ("more behind it", b"tenant-add cato\ntenant-add dune\n", b"0 done\n", True),
    ("more that is no line", b"tenant-add eris\n" + 9_000 * b"\xff", b"0 done\n", True),
    ("a name that begins with a hyphen", b"tenant-add -x\n", b"0 done\n", True),
    ("a token that is an option", b"token-grant acme --digest\n", b"0 done\n", True),
    ("the end of that token", b"token-end --digest\n", b"0 done\n", True),
    ("a token that only reads", b"token-grant acme read new\n", b"0 done\n", True),
    ("its end", b"token-end new\n", b"0 done\n", True),
    ("a token that is a right's word", b"token-grant acme read\n", b"0 done\n", True),
    ("one with a right's word that only reads", b"token-grant acme read full\n", b"0 done\n", True),
    ("their ends", b"token-end read\n", b"0 done\n", True),
    ("and", b"token-end full\n", b"0 done\n", True),
    ("a digest in capitals", b"token-end --digest " + DIGEST.hex().upper().encode() + b"\n", b"0 done\n", True),
]


class Raw(Sending):
    def setUp(self):
        super().setUp()
        self.init(("tenant-add", "acme"))
        self.grant("acme")
        self.before = self.rows()

    def end(self, server):
        server.send(LIST)
        self.assertEqual(server.ended(), Left(0))

    def test_lines_that_do_nothing(self):
        server = self.serve(count=1)
        for name, text, due, at_once in LINES:
            for closes in [True, False] if at_once else [True]:
                with self.subTest(name, closes=closes):
                    self.assertEqual(answered(self.socket, text, closes), due)
        self.end(server)
        self.assertEqual(self.rows(), self.before)

    def test_lines_that_are_done(self):
        server = self.serve(count=1)
        for name, text, due, _ in DONE:
            with self.subTest(name):
                self.assertEqual(answered(self.socket, text, False), due)
        self.end(server)
        self.assertEqual(self.query("SELECT name FROM tenant ORDER BY name"), [("-x",), ("acme",), ("cato",), ("eris",)])
        self.assertEqual(self.query("SELECT digest FROM token UNION ALL SELECT digest FROM reader"), [])

    def test_bytes_that_come_one_at_a_time(self):
        server = self.serve(count=1)
        for text, due in [(b"tenant-add bolt\n", b"0 done\n"), (OFFICE_LINE, b"0 done\n"), (b"tenant-add  x\n", BAD)]:
            with self.subTest(text):
                self.assertEqual(tell(self.socket, *(bytes([byte]) for byte in text)), due)
        self.end(server)

    def test_a_line_that_is_cut(self):
        """At every length: what is no whole line does nothing."""
        server = self.serve(count=1)
        for text in [OFFICE_LINE, b"token-end abc\n"]:
            for length in range(len(text)):
                with self.subTest(text=text, length=length):
                    self.assertEqual(tell(self.socket, text[:length], close=True), BAD)
        self.end(server)
        self.assertEqual(self.rows(), self.before)


class FromFiles(Sending):
    """`wgr orders`: each line is answered by a line, and none stops the others."""

    def setUp(self):
        super().setUp()
        self.init(("tenant-add", "acme"))
        self.grant("acme")

    def orders(self, text, **streams):
        """What it leaves of lines in a file, after the same of a copy by standard input."""
        copy, file = self.path("copy.db"), Path(self.path("orders.txt"))
        shutil.copy(self.db, copy)
        file.write_bytes(text)
        given = run(["orders", copy], text)
        left = run(["orders", self.db, str(file)])
        self.assertEqual(left, given)
        self.assertEqual(self.rows(copy), self.rows())
        return left

    def test_each_line(self):
        """As over a socket, but for those that are none or several in a file, where a line may be of any length."""
        for name, text, due, _ in LINES:
            due = b"2 bad_field name\n" if name == "4,097 bytes" else due
            if text and text.find(b"\n") in [-1, len(text) - 1]:
                with self.subTest(name):
                    before = self.rows()
                    self.assertEqual(self.orders(text), Left(2, due))
                    self.assertEqual(self.rows(), before)

    def test_none_stops_the_others(self):
        lines = [
            (b"tenant-add bolt\n", b"0 done\n"),
            (b"tenant-add bolt\n", b"2 name_held\n"),
            (b"\n", BAD),
            (b"tenant-add  x\n", BAD),
            (OFFICE_LINE, b"0 done\n"),
            (b"network-add bolt lab 10.8.0.0/25 h 1 " + S.encode() + b" 9\n", b"2 pool_overlaps acme office\n"),
            (9_000 * b"x" + b"\n", BAD),
            (LONGEST, b"2 bad_field name\n"),
            (b"\xff\n", BAD),
            (b"token-grant bolt second\n", b"0 done\n"),
            (b"token-grant bolt read third\n", b"0 done\n"),
            (b"token-grant bolt full third\n", b"2 digest_held\n"),
            (b"token-end abc\n", b"0 done\n"),
            (b"token-end abc\n", b"2 no_such_token\n"),
            (b"token-end --digest " + hashlib.sha256(b"second").hexdigest().encode() + b"\n", b"0 done\n"),
            (b"network-end acme office\n", b"0 done\n"),
            (b"network-add bolt lab 10.8.0.0/25 h 1 " + K0.encode() + b" 9\n", b"0 done\n"),
            (b"tenant-add cato", BAD),
        ]
        left = self.orders(b"".join(text for text, _ in lines))
        self.assertEqual(left, Left(2, b"".join(due for _, due in lines)))
        self.assertEqual(self.query("SELECT name FROM tenant ORDER BY name"), [("acme",), ("bolt",)])
        self.assertEqual(self.query("SELECT name FROM network"), [("lab",)])
        third = [(hashlib.sha256(b"third").digest(),)]
        self.assertEqual([self.query(f"SELECT digest FROM {table}") for table in ["token", "reader"]], [third, third])

    def test_the_status_is_the_greatest(self):
        rows = [
            ("no line", b"", 0, b""),
            ("one that is done", b"tenant-add a\n", 0, b"0 done\n"),
            ("two that are done", b"tenant-add b\ntenant-add c\n", 0, 2 * b"0 done\n"),
            ("one that is refused before one that is done", b"tenant-add a\ntenant-add d\n", 2, b"2 name_held\n0 done\n"),
            ("one that is refused behind one that is done", b"tenant-add e\ntenant-add a\n", 2, b"0 done\n2 name_held\n"),
            ("no order", b"x\n", 2, BAD),
        ]
        for name, text, status, out in rows:
            with self.subTest(name):
                self.assertEqual(self.orders(text), Left(status, out))

    def test_each_refusal(self):
        for name, orders, words, text, why in REFUSALS:
            with self.subTest(name):
                super().setUp()
                self.init(*orders)
                order = [*(word for word in words if not word.startswith("--")), *([text.decode()] if text else [])]
                self.assertEqual(self.orders(line(order)), Left(2, f"2 {why}\n".encode()))

    def test_1000_orders(self):
        lines, due = [], []
        for number in range(250):
            pool = f"10.{number}.0.0/24"
            lines += [f"tenant-add t{number}", f"token-grant t{number} token-{number}"]
            lines += [f"network-add t{number} office {pool} vpn.example.net {number + 1} {S} 9", f"tenant-add t{number}"]
            due += ["0 done", "0 done", "0 done", "2 name_held"]
        left = self.orders("".join(f"{each}\n" for each in lines).encode())
        self.assertEqual(left, Left(2, "".join(f"{each}\n" for each in due).encode()))
        counts = [self.query(f"SELECT count(*) FROM {table}")[0][0] for table in ["tenant", "token", "network"]]
        self.assertEqual(counts, [251, 251, 250])

    def test_registers_that_are_not_opened(self):
        Path(self.path("text.db")).write_bytes(b"text")
        good, self.db = self.db, self.path("bad.db")
        shutil.copy(good, self.db)
        self.change("UPDATE token SET tenant = 7")
        bad, self.db = self.db, good
        rows = [("no file", self.path("none.db"), ["not_a_register"]), ("no database", self.path("text.db"), ["store", DAMAGED]), ("rows that aren't good", bad, ["not_good"])]
        for name, database, lines in rows:
            with self.subTest(name):
                self.assertEqual(run(["orders", database], b"tenant-add bolt\n"), failed(*lines))
        with self.subTest("a register that is served"):
            self.serve()
            self.assertEqual(run(["orders", self.db], b"tenant-add bolt\n"), failed("store", BUSY))
        self.assertFalse(os.path.exists(self.path("none.db")))

    def test_files_that_are_not_read(self):
        before = self.rows()
        for name, path in [("no file", self.path("none")), ("a folder", str(self.folder))]:
            with self.subTest(name):
                self.assertEqual(run(["orders", self.db, path]), failed("device"))
        folder = os.open(self.folder, os.O_RDONLY)
        try:
            with self.subTest("a folder as standard input"):
                self.assertEqual(run(["orders", self.db], stdin=folder), failed("device"))
        finally:
            os.close(folder)
        self.assertEqual(self.rows(), before)

    def test_answers_that_are_not_printed(self):
        with open("/dev/full", "wb") as full:
            self.assertEqual(run(["orders", self.db], b"tenant-add bolt\n", stdout=full), failed("device"))
