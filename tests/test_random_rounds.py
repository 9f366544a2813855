"""Rounds of wgr-sync whose replies are spoilt at random, while peers come, go and end: `WGR_SEED=N` takes others."""

import json
import os
import random
import re
import time
import unittest

from following import TOOLS
from rounds import All, Networks
from spoilt import MOVED, PAGE, body_of, with_body, without_length
from tools import needs

# Of each network its rounds, and whether one process makes all of them.
NETWORKS = [(13, False), (13, False), (13, False), (8, True), (8, True)]
# What both replies say of a peer.
HELD = re.compile(rb'(?<=PublicKey = )[^\n]+|(?<=AllowedIPs = )[^\n]+|(?<="key":")[^"]+|(?<="address":")[^"]+|(?<="routes":\[)[^\]]+')


def cut(chance, earlier, true):
    body = body_of(true)[: chance.randrange(len(body_of(true)))]
    return true.partition(b"\r\n\r\n")[0] + b"\r\n\r\n" + body if chance.random() < 0.5 else without_length(true, body)


def flipped(chance, earlier, true):
    """A bit of what both say is another, or the highest of any byte: with other bits a reply may be true for all one knows."""
    body = bytearray(body_of(true))
    held = [place for found in HELD.finditer(body) for place in range(*found.span())]
    if held and chance.random() < 0.5:
        body[chance.choice(held)] ^= 1 << chance.randrange(7)
    else:
        body[chance.randrange(len(body))] ^= 0x80
    return with_body(true, bytes(body))


def mixed(chance, earlier, true):
    """Lines of the file, or of the list what is between two commas, are swapped, come twice or are missing."""
    between = b"\n" if b"[Interface]" in true else b","
    parts = body_of(true).split(between)
    one, other = chance.randrange(len(parts)), chance.randrange(len(parts))
    how = chance.choice(["swapped", "twice", "missing"])
    if how == "swapped":
        parts[one], parts[other] = parts[other], parts[one]
    else:
        parts[one : one + 1] = [parts[one]] * 2 if how == "twice" else []
    return with_body(true, between.join(parts))


def late(chance, earlier, true):
    yield true[: len(true) // 2]
    time.sleep(chance.random())
    yield true[len(true) // 2 :]


# By a name, what makes of a true reply the one that is sent.
FAULTS = {
    "cut": cut,
    "flipped": flipped,
    "mixed": mixed,
    "earlier": lambda chance, earlier, true: chance.choice(earlier),
    "late": late,
    "a page": lambda chance, earlier, true: PAGE,
    "elsewhere": lambda chance, earlier, true: MOVED,
    "reset": lambda chance, earlier, true: None,
}


class Course:
    """Random rounds of one network."""

    def __init__(self, test, it, seed, rounds):
        self.test, self.it, self.rounds = test, it, rounds
        self.chance, self.story = random.Random(seed), []
        # When leases end by the register, and by the list that the last good round took.
        self.ends, self.known = {}, self.taken()

    def run(self):
        try:
            for _ in range(self.rounds):
                self.step()
        except Exception as error:
            error.add_note("\n".join(self.story[-20:]))
            raise

    def taken(self):
        return {peer["key"]: peer["end"] for peer in json.loads(body_of(self.it.between.given["peers"]))["peers"]}

    def happen(self):
        """The register is asked for a change."""
        now, listed = int(time.time()), self.it.listed()
        end = self.chance.choice([0, now + self.chance.randrange(1, 5)])
        what, prefix = self.chance.random(), f"172.16.{self.chance.randrange(9)}.0/24"
        key = self.chance.choice(list(listed)) if len(listed) > 4 else None
        if key is None or what < 0.3:
            key = self.it.add(end=end)
            self.ends[key] = end
        elif what < 0.5:
            self.it.ask("DELETE", f"peers/{listed[key]['number']}")
        elif what < 0.8:
            self.it.ask("POST", f"peers/{listed[key]['number']}/lease", {"end": end})
            self.ends[key] = end
        elif what < 0.9:
            self.it.ask("POST", f"peers/{listed[key]['number']}/routes", {"prefix": prefix})
        else:
            self.it.ask("POST", "unroute", {"prefix": prefix})
        self.story.append(f"{what:.1f} {key} {end} {prefix}")

    def happen_between(self):
        """So, between the file and the list."""

        def before(method, path):
            if path.endswith("/peers"):
                self.it.between.before = lambda method, path: None
                self.happen()

        self.it.between.before = before

    def spoil(self):
        end, name, is_once = self.chance.choice(["quick", "peers"]), self.chance.choice(list(FAULTS)), self.chance.random() < 0.3
        self.story.append(f"{name}: {end}{' once' if is_once else ''}")

        def made(true):
            if is_once:
                self.it.between.spoil = {}
            return FAULTS[name](self.chance, self.it.between.earlier[end], true)

        self.it.between.spoil = {end: made}

    def step(self):
        for _ in range(self.chance.randrange(4)):
            self.happen()
        self.spoil()
        if self.chance.random() < 0.3:
            self.happen_between()
        before, begin = self.it.look(), time.time()
        done = self.it.round()
        self.it.mend()
        self.story.append(f"{done.returncode} {done.stderr}")
        self.test.statuses.append(done.returncode)
        if done.returncode == 0:
            self.has_followed(begin)
        else:
            self.has_stayed(before, begin)
        if self.chance.random() < 0.6:
            self.heal()

    def heal(self):
        begin = time.time()
        done = self.it.round()
        if "state/many" in done.stderr:
            (self.it.net.folder / "state/many").touch()
            done = self.it.round()
        self.story.append(f"good: {done.returncode} {done.stderr}")
        self.test.assertEqual(done.returncode, 0)
        self.has_followed(begin)

    def has_followed(self, begin):
        """All is as the register says, but for peers whose lease ends just now, or is over by the list that was taken."""
        look, due, self.known, now = self.it.look(), self.it.due(), self.taken(), time.time()
        near = {key for key, end in self.ends.items() if begin - 1 <= end <= now + 1}
        near |= {key for key, end in self.known.items() if 0 < end <= now}
        self.test.assertEqual(look.without(*near)[:3], due.without(*near)[:3])
        if not near:
            self.test.assertEqual(look.routes, due.routes)

    def has_stayed(self, before, begin):
        """Nothing has changed, but that those have gone whose lease is over by the list that was last taken."""
        now, look = time.time(), self.it.look()
        over = {key for key, end in self.known.items() if 0 < end <= begin}
        near = {key for key, end in self.known.items() if begin < end <= now}
        self.test.assertEqual(look.without(*near), before.without(*over, *near))


@needs(*TOOLS, root=True)
class Chance(Networks):
    def follow_at_random(self, it, seed, rounds, is_one_process):
        if is_one_process:
            it.all = All(it)
        Course(self, it, seed, rounds).run()

    def test_random_rounds(self):
        seed, self.statuses = os.environ.get("WGR_SEED", "1"), []
        rows = [(f"WGR_SEED={seed}, network {number}", f"{seed} {number}", *how) for number, how in enumerate(NETWORKS)]
        self.share(self.follow(len(NETWORKS)), rows, self.follow_at_random)
        with self.subTest("many of the rounds have failed, and many haven't"):
            self.assertGreater(min(self.statuses.count(0), self.statuses.count(1)), 5)


if __name__ == "__main__":
    unittest.main()
