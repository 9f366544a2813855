"""`wgr plan POOL`: the rows that it prints, worked out by hand, and what it refuses."""

import ipaddress
import unittest

from keys import K0, K1, K2, K3, numbered_keys
from program import Left, run

# What is printed of K0 alone: 59 bytes.
FIRST_ROW = b"1\tAAAAAAAAAAAAAAAAAAAAAAAAAAAAAAAAAAAAAAAAAAA=\t10.8.0.2/32\n"


def refused(line, why, out=b""):
    """What is left where a line is refused, and `out` is printed of those before it."""
    return Left(2, out, b"wgr: line %d: %s\n" % (line, why))


# The pool, the lines, the rows, and what standard error says.
ROWS = [
    (
        "the lowest addresses, in the order of the lines",
        "10.8.0.0/29",
        [K2, K0],
        [("1", K2, "10.8.0.2/32"), ("2", K0, "10.8.0.3/32")],
        "",
    ),
    ("IPv6", "2001:db8::/48", [K1], [("1", K1, "2001:db8::2/128")], ""),
    (
        "the smallest IPv4 pool is full",
        "10.8.0.0/30",
        [K0, K1],
        [("1", K0, "10.8.0.2/32")],
        "wgr: line 2: pool_full\n",
    ),
    (
        "a key twice",
        "10.8.0.0/29",
        [K0, K0],
        [("1", K0, "10.8.0.2/32")],
        "wgr: line 2: key_held 1\n",
    ),
    (
        "the smallest IPv6 pool is full",
        "fd00::/126",
        [K1, K2, K3],
        [("1", K1, "fd00::2/128"), ("2", K2, "fd00::3/128")],
        "wgr: line 3: pool_full\n",
    ),
    (
        "the last addresses of IPv6",
        "ffff:ffff:ffff:ffff:ffff:ffff:ffff:fffc/126",
        [K1, K2, K3],
        [
            ("1", K1, "ffff:ffff:ffff:ffff:ffff:ffff:ffff:fffe/128"),
            ("2", K2, "ffff:ffff:ffff:ffff:ffff:ffff:ffff:ffff/128"),
        ],
        "wgr: line 3: pool_full\n",
    ),
    (
        "a line that is no key",
        "10.8.0.0/30",
        [K0, "xyz"],
        [("1", K0, "10.8.0.2/32")],
        "wgr: line 2: bad_field key\n",
    ),
    (
        "the lines after a refused one have no effect",
        "10.8.0.0/29",
        [K0, "xyz", K1, K0],
        [("1", K0, "10.8.0.2/32")],
        "wgr: line 2: bad_field key\n",
    ),
    (
        "32 bytes of 255",
        "10.8.0.0/29",
        ["//////////////////////////////////////////8="],
        [],
        "wgr: line 1: server_key\n",
    ),
]

# The pool, and what standard error says.
POOLS = [
    ("an address", "10.8.0.0", "wgr: bad_pool\n"),
    ("host bits", "10.8.0.1/24", "wgr: bad_pool\n"),
    ("IPv4, too long", "10.8.1.0/31", "wgr: bad_pool\n"),
    ("IPv4, too short", "10.0.0.0/7", "wgr: bad_pool\n"),
    ("IPv6, too long", "fd00::/127", "wgr: bad_pool\n"),
    ("IPv6, too short", "fd00::/47", "wgr: bad_pool\n"),
    ("IPv6, host bits", "fd00::1/126", "wgr: bad_pool\n"),
    ("no text", "", "wgr: bad_field pool\n"),
    ("no address", "x", "wgr: bad_field pool\n"),
    ("no length of IPv4", "10.8.0.0/33", "wgr: bad_field pool\n"),
    ("a length with a zero before it", "10.8.0.0/08", "wgr: bad_field pool\n"),
    ("a blank at the end", "10.8.0.0/24 ", "wgr: bad_field pool\n"),
]

ROW_0 = f"1\t{K0}\t10.8.0.2/32\n".encode()
ROW_1 = f"2\t{K1}\t10.8.0.3/32\n".encode()

# Texts, and what they leave: which line is refused shows what counts as a line.
LINE_ENDS = [
    ("no text has no line", "", Left(0)),
    ("a newline alone is an empty line", "\n", refused(1, b"bad_field key")),
    ("the last line needs no newline", K0, Left(0, ROW_0)),
    ("no line follows the last newline", f"{K0}\n", Left(0, ROW_0)),
    ("two lines", f"{K0}\n{K1}", Left(0, ROW_0 + ROW_1)),
    ("a carriage return is part of its line", f"{K0}\r\n{K1}", refused(1, b"bad_field key")),
    ("also on the last line", f"{K0}\n{K1}\r\n", refused(2, b"bad_field key", ROW_0)),
    ("a carriage return ends no line", f"{K0}\r{K1}\n", refused(1, b"bad_field key")),
    ("empty lines at the beginning", f"\n\n{K0}\n\n", refused(1, b"bad_field key")),
    ("an empty line between two", f"{K0}\n\n{K1}\n", refused(2, b"bad_field key", ROW_0)),
    ("an empty line at the end", f"{K0}\n{K1}\n\n", refused(3, b"bad_field key", ROW_0 + ROW_1)),
]

# What follows a line with K0, and is no key.
NO_KEYS = [
    ("a carriage return behind", K1.encode() + b"\r\n"),
    ("a blank behind", K1.encode() + b" \n"),
    ("a tab behind", K1.encode() + b"\t\n"),
    ("a NUL behind", K1.encode() + b"\0\n"),
    ("more padding", K1.encode() + b"=\n"),
    ("an empty line", b"\n"),
    ("no padding", K1.encode()[:43]),
    ("without its first character", K1.encode()[1:]),
    ("unused bits that aren't zero", b"AAAAAAAAAAAAAAAAAAAAAAAAAAAAAAAAAAAAAAAAAAB=\n"),
    ("a NUL", b"AAAAAAAAAAAAAAAAAAAAAAAAAAAAAAAAAAAAAAAAAA\0=\n"),
    ("a byte that is no UTF-8", b"\xffAAAAAAAAAAAAAAAAAAAAAAAAAAAAAAAAAAAAAAAAAA=\n"),
    ("a hyphen, of the alphabet of URLs", b"-AAAAAAAAAAAAAAAAAAAAAAAAAAAAAAAAAAAAAAAAAA=\n"),
    ("underscores, of the alphabet of URLs", b"__________________________________________8=\n"),
    ("33 bytes", b"AQEBAQEBAQEBAQEBAQEBAQEBAQEBAQEBAQEBAQEBAQEB\n"),
    ("1 MiB without a newline", b"A" * (1 << 20)),
]


class Plan(unittest.TestCase):
    maxDiff = 2000

    def test_rows(self):
        for name, pool, lines, rows, error in ROWS:
            with self.subTest(name):
                text = "".join(f"{line}\n" for line in lines)
                out = "".join("\t".join(row) + "\n" for row in rows)
                left = run(["plan", pool], text.encode())
                self.assertEqual(left, Left(2 if error else 0, out.encode(), error.encode()))

    def test_line_ends(self):
        for name, text, left in LINE_ENDS:
            with self.subTest(name):
                self.assertEqual(run(["plan", "10.8.0.0/29"], text.encode()), left)

    def test_the_row(self):
        self.assertEqual(run(["plan", "10.8.0.0/30"], K0.encode()), Left(0, FIRST_ROW))

    def test_no_keys(self):
        for name, line in NO_KEYS:
            with self.subTest(name):
                left = run(["plan", "10.8.0.0/29"], K0.encode() + b"\n" + line)
                self.assertEqual(left, refused(2, b"bad_field key", FIRST_ROW))

    def test_pools_that_do_not_serve(self):
        for name, pool, error in POOLS:
            with self.subTest(name):
                self.assertEqual(run(["plan", pool], K0.encode()), Left(2, b"", error.encode()))

    def test_more_than_10_megabytes(self):
        keys = numbered_keys(4096)
        text = "".join(f"{key}\n" for key in keys * 64).encode()
        self.assertGreater(len(text), 11_000_000)
        left = run(["plan", "10.0.0.0/8"], text)
        self.assertEqual((left.status, left.err), (2, b"wgr: line 4097: key_held 1\n"))
        self.assertEqual(left.out.count(b"\n"), 4096)

    def test_4096_peers_at_most(self):
        keys = numbered_keys(4097)
        left = run(["plan", "10.0.0.0/8"], "\n".join(keys).encode())
        rows = left.out.decode().splitlines()
        self.assertEqual((left.status, left.err), (2, b"wgr: line 4097: capacity_reached\n"))
        self.assertEqual(rows[0], "1\tAAAAAQAAAAAAAAAAAAAAAAAAAAAAAAAAAAAAAAAAAAA=\t10.0.0.2/32")
        self.assertEqual(rows[-1], "4096\tAAAQAAAAAAAAAAAAAAAAAAAAAAAAAAAAAAAAAAAAAAA=\t10.0.16.1/32")
        first = ipaddress.ip_address("10.0.0.1")
        wanted = [f"{n}\t{key}\t{first + n}/32" for n, key in enumerate(keys[:4096], 1)]
        self.assertEqual(rows, wanted)
