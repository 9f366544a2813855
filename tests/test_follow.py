"""wgr-sync and wgr-net: an interface follows its network, and nothing that ended comes back."""

import fcntl
import os
import subprocess
import time
import unittest
from pathlib import Path

import program
from following import DIST, TOOLS, OneNetwork, inside, private_key, public_key, run
from keys import key_text
from serving import TOKEN, reply
from tools import needs

# Replies that are no file of a server, and others that are no list of peers.
FILE = reply(200, b"[Interface]\nAddress = 10.8.0.1/24\nListenPort = 51820\n", "text/plain")
LIST = reply(200, {"peers": []})
NO_REPLIES = [
    ("a file that is cut", "quick", FILE.replace(b"Content-Length: 5", b"Content-Length: 9")),
    ("no file", "quick", b""),
    ("the store has failed", "quick", reply(503, {"error": "unavailable"})),
    ("the token has ended", "quick", reply(401, {"error": "unknown_token"})),
    ("a page", "quick", reply(200, b"<html>Log in first</html>", "text/html")),
    ("an empty file", "quick", reply(200, b"", "text/plain")),
    ("a line that no file has", "quick", reply(200, b"[Interface]\nAddress = 10.8.0.1/24\nPostUp = true\n", "text/plain")),
    ("a list that is cut", "peers", LIST.replace(b"Content-Length: 1", b"Content-Length: 9")),
    ("no list", "peers", reply(200, b"<html>Log in first</html>", "text/html")),
    ("the store has failed meanwhile", "peers", reply(503, {"error": "unavailable"})),
]


def wait_until(second):
    while time.time() < second:
        time.sleep(0.02)


@needs(*TOOLS, root=True)
class Rounds(OneNetwork):
    def test_revoked_and_expired_peers_stay_away(self):
        stays, (revoked, _), (expires, _) = self.add(), self.add(), self.add()
        self.net.sync()
        self.assertEqual((self.net.peers(), len(self.net.peers())), (self.registered(), 3))
        self.ask("DELETE", f"peers/{revoked}")
        end = int(time.time()) + 5
        self.ask("POST", f"peers/{expires}/lease", {"end": end})
        wait_until(end)
        for number in range(10):
            with self.subTest(number):
                self.net.sync()
                self.assertEqual((self.registered(), self.net.peers()), ({stays[1]}, {stays[1]}))
        with self.subTest("what the interface saw is reported"):
            self.assertEqual(self.ask("GET", "peers")["peers"][0]["status"], {"handshake": 0, "received": 0, "sent": 0})

    def test_a_proxy_that_refuses_at_first(self):
        """As where a host asks it for several networks at once: each request is asked again."""
        _, key = self.add()
        refusal = b"HTTP/1.1 429 Too Many Requests\r\nRetry-After: 1\r\nContent-Length: 0\r\nConnection: close\r\n\r\n"
        seen = set()

        def refuse_once(method, path):
            self.between.instead = {} if path in seen else {path.rpartition("/")[2]: refusal}
            seen.add(path)

        self.between.before = refuse_once
        self.assertEqual(self.net.sync().returncode, 0)
        self.assertEqual((len(seen), len(self.between.asked), self.net.peers()), (4, 8, {key}))

    def test_a_peer_that_is_revoked_before_the_report(self):
        (_, stays), (revoked, _) = self.add(), self.add()
        self.revoke_before_the_report(revoked)
        self.assertIn("the next round reports", self.net.sync().stderr)
        self.assertEqual(self.registered(), {stays})
        self.net.sync()
        self.assertEqual((self.registered(), self.net.peers()), ({stays}, {stays}))

    def test_a_peer_that_is_added_by_hand(self):
        """One that gets on the interface between the file and the report isn't reported, and the others are."""
        _, stays = self.add()
        self.net.sync()
        other, folder = public_key(private_key()), self.folder / "programs"
        folder.mkdir()
        wg = run("bash", "-c", "type -P wg").stdout.strip()
        added = f'[[ $1 != addconf ]] || {wg} set "$2" peer {other} allowed-ips 10.8.0.9/32'
        (folder / "wg").write_text(f'#!/bin/bash\n{wg} "$@" && {added}\n')
        (folder / "wg").chmod(0o755)
        _, new = self.add()
        told = self.net.sync(environment={"PATH": f"{folder}:{os.environ['PATH']}"})
        self.assertEqual((told.stderr, self.registered(), self.net.peers()), ("", {stays, new}, {stays, new, other}))

    def test_leases_end_while_the_register_is_away(self):
        (_, stays), (number, ends) = self.add(), self.add()
        _, later = self.add(end=int(time.time()) + 3600)
        self.net.write("url", f"http://127.0.0.1:{self.register.port}/networks/office")
        began = time.monotonic()
        self.net.sync()
        # Such a round, and more, fits in before the lease ends, however slow the machine is.
        end = int(time.time() + 5 + 4 * (time.monotonic() - began))
        self.ask("POST", f"peers/{number}/lease", {"end": end})
        self.net.sync()
        self.assertEqual(self.net.peers(), {stays, later, ends})
        self.register.__exit__()
        wait_until(end)
        self.assertIn("cannot ask the register", self.net.sync(allowed=(1,)).stderr)
        self.assertEqual(self.net.peers(), {stays, later})

    def test_replies_that_change_nothing(self):
        self.add()
        self.net.sync()
        self.add()
        before = self.net.state_of_interface(), self.net.kept()
        for name, path, given in NO_REPLIES:
            with self.subTest(name):
                self.between.instead = {path: given}
                self.assertIn("cannot ask the register", self.net.sync(allowed=(1,)).stderr)
                self.assertEqual((self.net.state_of_interface(), self.net.kept()), before)
        with self.subTest("a reply that is good again"):
            self.between.instead = {}
            self.net.sync()
            self.assertEqual(self.net.peers(), self.registered())

    def routes(self):
        told = [run("ip", "-n", self.net.name, family, "route", "show", "dev", self.net.name).stdout for family in ["-4", "-6"]]
        return {line.split()[0] for line in "".join(told).splitlines()} - {"10.8.0.0/24", "fe80::/64"}

    def test_routes_come_and_go(self):
        self.add()
        prefixes = ["192.168.7.0/24", "0.0.0.0/0", "fd00:7::/64", "192.0.2.7/32"]
        for prefix in prefixes:
            self.ask("POST", "peers/1/routes", {"prefix": prefix})
        self.net.sync()
        by_hand = ["203.0.113.0/24", "dev", self.net.name]
        run("ip", "-n", self.net.name, "route", "add", *by_hand)
        with self.subTest("added"):
            self.assertEqual(self.routes(), {"10.8.0.2", "192.168.7.0/24", "default", "fd00:7::/64", "192.0.2.7", "203.0.113.0/24"})
        for prefix in prefixes:
            self.ask("POST", "unroute", {"prefix": prefix})
        self.net.sync()
        with self.subTest("taken away, but for the one that was added by hand"):
            self.assertEqual(self.routes(), {"10.8.0.2", "203.0.113.0/24"})

    def test_one_round_at_a_time(self):
        self.add()
        (self.net.folder / "state").mkdir()
        with (self.net.folder / "state/lock").open("w") as lock:
            fcntl.flock(lock, fcntl.LOCK_EX)
            words = [DIST / "wgr-sync", self.net.name, self.net.folder]
            with subprocess.Popen(words) as second:
                time.sleep(1)
                self.assertEqual((self.between.asked, second.poll()), ([], None))
                fcntl.flock(lock, fcntl.LOCK_UN)
                self.assertEqual(second.wait(program.LIMIT), 0)
        self.assertEqual(self.net.peers(), self.registered())

    def test_files_that_are_missing_or_wrong(self):
        for name, text in [("url", "office"), ("token", "two words"), ("key", "abc"), ("key", None)]:
            with self.subTest(name, text=text):
                file = self.net.folder / name
                kept = file.read_text()
                file.unlink() if text is None else file.write_text(text)
                told = self.net.sync(allowed=(1,)).stderr
                self.assertIn(f"{self.net.folder}/{name}", told)
                file.write_text(kept)
        with self.subTest("another server's key"):
            self.net.write("key", run("wg", "genkey").stdout.strip())
            self.assertIn("not that of the network", self.net.sync(allowed=(1,)).stderr)


@needs(*TOOLS, root=True)
class OfIPv6(OneNetwork):
    pool = "fd00:8::/64"

    def test_a_round(self):
        self.add()
        self.ask("POST", "peers/1/routes", {"prefix": "::/0"})
        for number in range(2):
            with self.subTest(number):
                self.assertEqual(self.net.sync().stderr, "")
                [peer] = self.ask("GET", "peers")["peers"]
                self.assertEqual(peer["status"], {"handshake": 0, "received": 0, "sent": 0})
        told = run("ip", "-n", self.net.name, "-6", "route", "show", "proto", "77").stdout
        self.assertEqual({line.split()[0] for line in told.splitlines()}, {"default", "fd00:8::2"})
        self.assertIn(" fd00:8::1/64 ", run("ip", "-n", self.net.name, "address").stdout)
        _, stays = self.add()
        self.revoke_before_the_report(1)
        self.net.sync()
        self.assertEqual(self.registered(), {stays})


# Peers of a large network: with WGR_ALL=1 as many as there may be.
MANY = 4096 if os.environ.get("WGR_ALL") else 300


@needs(*TOOLS, root=True)
class Large(OneNetwork):
    pool = "10.8.0.0/16"

    def test_rounds_of_many_peers(self):
        """So many peers with a route each."""
        lines = [f"(none)\t{self.net.public}\t51820\toff"]
        for number in range(MANY):
            high, low = divmod(number, 256)
            prefixes = f"10.8.{high + 1}.{low}/32,172.{16 + high}.{low}.0/24"
            lines.append(f"{key_text(number.to_bytes(32, 'little'))}\t(none)\t(none)\t{prefixes}\t0\t0\t0\t25")
        self.assertEqual(len(self.ask("POST", "dump", "".join(f"{line}\n" for line in lines).encode())["added"]), MANY)
        for number in range(2):
            with self.subTest(number):
                self.assertEqual(self.net.sync().stderr, "")
                self.assertEqual(self.net.peers(), self.registered())
        self.assertEqual(len(run("ip", "-n", self.net.name, "route", "show", "proto", "77").stdout.splitlines()), 2 * MANY)
        self.assertNotIn(None, [peer["status"] for peer in self.ask("GET", "peers")["peers"]])


@needs(*TOOLS, root=True)
class Secrets(OneNetwork):
    """The token, the private key and a preshared key are no words of a process, and the keys don't leave the machine."""

    def watch(self):
        """Programs that write their words to a file, in place of those that wgr-sync calls, as its PATH finds them."""
        folder = self.folder / "programs"
        folder.mkdir()
        for name in ["wg", "ip", "nsenter", "sh"]:
            path = run("bash", "-c", f"type -P {name}").stdout.strip()
            (folder / name).write_text(f'#!/bin/bash\nprintf "%s\\n" "$0 $*" >>{self.folder}/words\nexec {path} "$@"\n')
            (folder / name).chmod(0o755)
        return {"PATH": f"{folder}:{os.environ['PATH']}"}

    def words_now(self):
        """The words of all processes."""
        found = []
        for place in Path("/proc").glob("[0-9]*/cmdline"):
            try:
                found.append(place.read_bytes().replace(b"\0", b" ").decode(errors="replace"))
            except OSError:
                pass
        return "\n".join(found)

    def test_no_secret_in_words_or_messages(self):
        # A token that no other text has.
        token = run("wg", "genkey").stdout.strip()
        preshared = run("wg", "genpsk").stdout.strip()
        self.register.__exit__()
        run(self.register_program(), "token-grant", self.database, "acme", text=token)
        self.between.register = self.register = self.serve(self.database)
        self.net.write("token", token)
        _, key = self.add()
        self.net.sync()
        inside(self.net.name, "wg", "set", self.net.name, "peer", key, "preshared-key", "/dev/stdin", text=preshared)
        self.between.asked.clear()
        self.add()
        seen = []
        self.between.before = lambda method, path: seen.append(self.words_now())
        self.net.sync(environment=self.watch())
        words = "\n".join([*seen, (self.folder / "words").read_text()])
        for name, secret in [("the token", token), ("the private key", self.net.private), ("a preshared key", preshared)]:
            with self.subTest(name):
                self.assertNotIn(secret, words)
        with self.subTest("the words are those of a round"):
            self.assertIn("wg addconf", words)
            self.assertEqual((len(seen), "dist/wgr-sync" in seen[-1]), (4, True))
        sent = b"".join(self.between.asked).decode()
        with self.subTest("what is sent"):
            self.assertIn(f"\n{key}\t(none)\t(none)\t", sent)
            self.assertNotIn(self.net.private, sent)
            self.assertNotIn(preshared, sent)

    def register_program(self):
        return self.register.process.args[0]


class Words(unittest.TestCase):
    def test_names(self):
        for script, words, folder in [("wgr-net", ["up"], []), ("wgr-sync", [], ["/tmp"])]:
            for name in ["", "-a", "A", "a/b", "a.b", "../a", 16 * "a"]:
                with self.subTest(script, name=name):
                    told = run(DIST / script, *words, name, *folder, allowed=(2,))
                    self.assertIn(f"usage: {script}", told.stderr)

    @needs("shellcheck")
    def test_shellcheck(self):
        for script in ["wgr-net", "wgr-listens"]:
            with self.subTest(script):
                self.assertEqual(run("shellcheck", DIST / script, allowed=None).stdout, "")
