"""A long run of random events, hostile bytes among them, through `serve` and `batch` in turn, against a plain register.

Three tenants ask, and the operator gives orders, on one register. Each reply, and what each order tells, has
to be that of the register of `plain.py`, byte for byte. A service is killed now and then, or ends by itself.
A run takes 5,000 events, `WGR_ALL=1` 100,000; `WGR_SEED=N` takes others.
"""

import os
import re
import unittest

from faulty import WHOLE, scratch, tell
from plain import Register, digest_of
from plain_messages import is_open
from program import Left, run
from serving import SERVER_KEY, Server, key, request
from test_batch import batch, replies
from test_worlds import NAMES, TENANTS, Script

EVENTS, SEGMENT = 100_000 if WHOLE else 5_000, 100
# Bytes that mean something to a reader of heads, of JSON, of dumps or of addresses, and some that mean nothing.
HOSTILE = [b"\0", b"\r", b"\n", b"\r\n", b"\r\n\r\n", b" ", b"\t", b":", b"/", b".", b",", b'"', b"\\", b"{", b"}", b"[", b"\x7f", b"\x80", b"\xff"]
HOSTILE += [b"0", b"9", b"-", b"+", b"e", b"%2f", b"?", b"#", b"\xc3\xa9", b"\xed\xa0\x80", b"null", b"true", b"\\ud800", b"(none)", b"off"]
FIELDS = [
    b"Transfer-Encoding: chunked", b"Content-Length: 2", b"Content-Length: 99999999999999999999", b"content-length:0", b"Authorization: Bearer acme-0",
    b"authorization:bearer  bolt-0", b"X:", b"X: \xff", b" folded", b"X : y", b"Expect: 100-continue", b"Host: a\r\nHost: b", 33 * b"X: y\r\n" + b"X: y", b"X: " + 8_200 * b"y",
]
VALUES = [None, True, -1, 0, 1, 1.0, 2e2, 2**53 - 1, 2**53, 2**64, 10**30, "", "x", [], {}, "10.8.0.3", "fd00::3", "0.0.0.0/0", "::/0", "10.8.0.3/33", "\u00e9", "\0"]
MEMBERS = ["key", "label", "address", "end", "keepalive", "prefix", "extra", ""]


def rarely(pick, usual, others, share=0.1):
    """One of the usual, or now and then one of the others."""
    return pick.choice(others if pick.random() < share else usual)


class Hostile(Script):
    """Events of which some are spoilt; most ask with a token, of a network and of a peer that are there."""

    def __init__(self, seed, plain):
        super().__init__(seed)
        self.plain = plain

    def whom(self):
        """A token, a network's name, and the network or nothing."""
        tokens = [f"{tenant}-{place}" for tenant in TENANTS for place in range(3)]
        known = [token for token in tokens if digest_of(token.encode()) in self.plain.tokens]
        token = rarely(self.random, known or tokens, [*tokens, None, "", "nobody", 129 * "x"])
        networks = self.plain.tenants.get(token.partition("-")[0], {}) if token else {}
        name = rarely(self.random, sorted(networks) or NAMES, [*NAMES, "none", "", "Lab", 33 * "x"], 0.05)
        return token, name, networks.get(name)

    def body(self, name):
        """A method, a path, and a body with members that no path has together, or of other forms."""
        pick = self.random.choice
        method, path, body = self.asked(name)
        members = body if isinstance(body, dict) else {}
        return method, path, members | {pick(MEMBERS): pick(VALUES) for _ in range(self.random.randrange(3))}

    def dump(self, name):
        """A dump, with numbers at their limits, and now and then a field that is of no form."""
        pick, few = self.random.choice, lambda usual, others: rarely(self.random, usual, others, 0.02)
        lines = [f"(none)\t{few([SERVER_KEY], ['(none)', key(8)])}\t{few(['0', '51820'], ['65536', ''])}\t{few(['off', '0x1'], ['', ' '])}"]
        for _ in range(self.random.randrange(5)):
            prefixes = [pick([f"{self.address()}/32", f"{self.address()}/{self.random.randrange(33)}", "fd00:1::5", "::/0"]) for _ in range(1 + self.random.randrange(3))]
            counts = [few(["0", "7", str(2**63), 20 * "9"], ["", 21 * "0", "-1"]) for _ in range(3)]
            allowed = few([",".join(prefixes), "(none)"], ["", "10.8.0.3/33", "10.8.0.3,"])
            ends = [few(["(none)", key(3)], ["", "x"]), few(["(none)", "[::1]:9"], [""]), allowed, *counts, few(["off", "25", "0", "65535"], ["65536", "on"])]
            lines.append("\t".join([few([key(of) for of in range(12)], [SERVER_KEY, "x"]), *ends]))
        return "POST", f"/networks/{name}/dump", ("\n".join(lines) + few(["", "\n"], ["\n\n", "\r\n"])).encode()

    def message(self):
        """The bytes of a request: most are whole, the others cut, doubled, or with bytes of others between."""
        kind, (token, name, network) = self.random.random(), self.whom()
        method, path, body = (self.asked if kind < 0.75 else self.dump if kind < 0.85 else self.body)(name)
        if network and network.peers and self.random.random() < 0.8:
            path = re.sub("(?<=/peers/)[0-9]+", str(self.random.choice(sorted(network.peers))), path)
        text = request(method, path, body, token)
        for _ in range(self.random.choice([0, 0, 0, 0, 1, 2])):
            text = self.spoilt(text)
        return text

    def disturbed(self, text):
        """Texts that are this one cut or doubled, or with bytes of others in it."""
        place, length = self.random.randrange(len(text) + 1), self.random.randrange(1, 9)
        front, back = text[:place], text[place:]
        return [
            front,
            front + self.random.choice(HOSTILE) + back,
            front + self.random.choice(HOSTILE) + back[1:],
            front + back[length:],
            front + back[:length] + back,
            front + self.random.randbytes(length) + back,
            back + front,
            text + text,
        ]

    def spoilt(self, text):
        lines = text.split(b"\r\n")
        lines.insert(1 + self.random.randrange(3), self.random.choice(FIELDS))
        ends = [text.replace(b"\r\n", b"\n"), b"\r\n\n" + text, b"\r\n".join(lines)]
        return self.random.choice(self.disturbed(text) + ends)


class LongRun(unittest.TestCase):
    def test_random_events(self):
        seed = int(os.environ.get("WGR_SEED", "1"))
        with self.subTest(f"WGR_SEED={seed}"), scratch() as folder:
            self.database, self.plain = f"{folder}/run.db", Register()
            self.script = Hostile(seed, self.plain)
            self.seen, self.random = set(), self.script.random
            self.assertEqual(run(["init", self.database]).out, b"done\n")
            for tenant in TENANTS:
                self.order(["tenant-add", tenant], b"")
                self.order(["token-grant", tenant], f"{tenant}-0".encode())
            for place in range(EVENTS // SEGMENT):
                for _ in range(3):
                    words, _, token = self.script.order()
                    self.order(words, token)
                # Moments mostly rise, as leases end by them.
                now = max(0, place * SEGMENT // 2 - self.random.choice([0, 0, 0, 500]))
                asked = [self.script.message() for _ in range(SEGMENT - 3)]
                (self.by_batch if place % 2 else self.by_serve)(now, asked)
            self.look_at_all()
            # The script reaches what it should compare.
            self.assertLessEqual({200, 400, 401, 403, 404, 405, 409, 411, 413}, {int(reply[9:12]) for reply in self.seen})
            self.assertGreater(len({reply.partition(b'{"error":"')[2].partition(b'"')[0] for reply in self.seen}), 19)
            tell("random events", EVENTS, f"compared, {len(self.seen)} replies differ")

    def order(self, words, token):
        word, *values = words
        fixed = 1 if word == "token-grant" else 2
        options = {name.removeprefix("--"): value for name, value in zip(values[fixed::2], values[fixed + 1 :: 2])}
        options |= {name: int(options[name]) for name in ["port", "capacity"] if name in options}
        why = self.plain.order(word, *values[:fixed], text=token, **options)
        due = Left(2, b"", f"wgr: {why}\n".encode()) if why else Left(0, b"done\n")
        self.assertEqual(run([word, self.database, *words[1:]], token), due, words)

    def compare(self, now, message, reply):
        due = self.plain.answer(now, message)
        if reply != due:
            self.fail(f"at {now}\n{message!r}\ngave {reply!r}\nand not {due!r}")
        self.seen.add(reply)

    def by_batch(self, now, asked):
        left = batch(self.database, now, asked)
        self.assertEqual((left.status, left.err), (0, b""))
        for message, reply in zip(asked, replies(left.out), strict=True):
            self.compare(now, message, reply)

    def by_serve(self, now, asked):
        ends = self.random.random() < 0.5
        with Server(self.database, count=len(asked) if ends else 10_000, now=now) as server:
            for message in asked:
                place = self.random.randrange(len(message) + 1) if self.random.random() < 0.1 else 0
                self.compare(now, message, server.send(message[:place], message[place:], close=is_open(message)))
            if ends:
                self.assertEqual(server.ended(), Left(0))

    def look_at_all(self):
        """At moment 0 all peers are live, those too whose lease is over."""
        asked = [request("GET", "/networks", token=f"{tenant}-{place}") for tenant in TENANTS for place in range(3)]
        for tenant in TENANTS:
            token = next((f"{tenant}-{place}" for place in range(3) if self.is_known(f"{tenant}-{place}")), "nobody")
            asked += [request("GET", f"/networks/{name}/peers", token=token) for name in NAMES]
        self.by_batch(0, asked)

    def is_known(self, token):
        return not self.plain.answer(0, request("GET", "/networks", token=token)).startswith(b"HTTP/1.1 401")
