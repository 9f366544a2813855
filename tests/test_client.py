"""dist/wgr-client: a tenant's peers, with keys made locally, over a service that may lose a reply."""

import json
import os
import re
import shutil
import socket
import subprocess
import threading
import time
import unittest
from pathlib import Path

from program import LIMIT, Left, in_time
from serving import PEERS, SERVER_KEY, TOKEN, order, refused
from shipped import Shipped
from tools import needs

FILE = """[Interface]
PrivateKey = {private}
Address = 10.8.0.{last}/32

[Peer]
PublicKey = {server}
AllowedIPs = 10.8.0.0/24
Endpoint = vpn.example.net:51820
PersistentKeepalive = 25
"""


# What wg-quick reads of a file: its own settings, then what it passes on to wg.
PARSER = """
source <(sed '/^if .*# -eq 1/,$d; /^auto_su$/d' "$(command -v wg-quick)")
parse_options "$1"
echo "$INTERFACE|${ADDRESSES[*]}|${DNS[*]}|${DNS_SEARCH[*]}|$MTU"
echo "$WG_CONFIG"
"""
NO_ENTRY = "argument --dns: {!r} is neither an address nor a host name"
NO_MTU = "argument --mtu: {!r} is no number from 576 to 65535"


class Proxy:
    """Between a client and the service: of each connection in turn, what it does with the reply."""

    def __init__(self, server, acts):
        self.server, self.acts = server, list(acts)
        self.listener = socket.create_server(("127.0.0.1", 0))
        self.port = self.listener.getsockname()[1]
        threading.Thread(target=self.run, daemon=True).start()

    def run(self):
        while True:
            try:
                link, _ = self.listener.accept()
            except OSError:
                return
            with link:
                # It passes on where the client stopped, too.
                reply = self.server.send(self.read_request(link), close=True)
                link.sendall((self.acts.pop(0) if self.acts else lambda reply: reply)(reply))

    def read_request(self, link):
        text = b""
        while not re.search(rb"\r\n\r\n", text) or len(text.partition(b"\r\n\r\n")[2]) < self.length(text):
            part = link.recv(65_536)
            if not part:
                break
            text += part
        return text

    def length(self, text):
        found = re.search(rb"(?i)content-length: (\d+)", text)
        return int(found[1]) if found else 0

    def close(self):
        # A thread that waits for a connection would have the port for good.
        self.listener.shutdown(socket.SHUT_RDWR)
        self.listener.close()


def lost(_):
    return b""


def bad_gateway(_):
    return b"HTTP/1.1 502 Bad Gateway\r\nContent-Length: 6\r\nConnection: close\r\n\r\n<html>"


def redirected(_):
    return b"HTTP/1.1 307 Temporary Redirect\r\nLocation: http://127.0.0.1:1/\r\nContent-Length: 0\r\nConnection: close\r\n\r\n"


def unavailable(_):
    return refused(503, "unavailable")


def too_many(_):
    return b"HTTP/1.1 429 Too Many Requests\r\nConnection: close\r\n\r\n" + b'{"error":"too_many_requests"}'


def unknown(_):
    return refused(401, "unknown_token")


def read_only(_):
    return refused(403, "read_only")


class Client(Shipped):
    def setUp(self):
        super().setUp()
        self.server = self.serve()
        self.url = f"http://127.0.0.1:{self.server.port}"
        (self.folder / "token").write_text(f"{TOKEN}\n")

    def client(self, *words, url=None, **known):
        known = known or {"WGR_TOKEN_FILE": str(self.folder / "token")}
        return self.run_script("wgr-client", "--url", url or self.url, *words, **known)

    def peers(self):
        return json.loads(self.server.ask("GET", PEERS).partition(b"\r\n\r\n")[2])["peers"]

    def public(self, private):
        return subprocess.run(["wg", "pubkey"], input=private, capture_output=True, text=True, check=True).stdout.strip()

    def check_file(self, number):
        """The file is the service's with the private key that belongs to the peer's public one, and its owner's alone."""
        path = self.folder / "laptop.conf"
        private = re.search("PrivateKey = (.*)\n", path.read_text())[1]
        self.assertEqual(path.read_text(), FILE.format(private=private, last=number + 1, server=SERVER_KEY))
        self.assertEqual(os.stat(path).st_mode & 0o777, 0o600)
        self.assertEqual(self.peers()[-1]["key"], self.public(private))
        self.assertEqual([name for name in self.names(".") if "laptop" in name], ["laptop.conf"])

    def without_sleep(self, url, *words):
        """What the client leaves if it doesn't sleep between its tries."""
        script = Path(__file__).resolve().parent.parent / "dist/wgr-client"
        text = f"""
import runpy, sys, time
time.sleep = lambda _: None
sys.argv = ["wgr-client", "--url", {url!r}, *{words!r}]
runpy.run_path({str(script)!r}, run_name="__main__")
"""
        return self.run_script("python3", "-c", text, WGR_TOKEN_FILE=str(self.folder / "token"))

    def through(self, acts, *words):
        """The same if this is done with the replies."""
        proxy = Proxy(self.server, acts)
        self.addCleanup(proxy.close)
        return self.without_sleep(f"http://127.0.0.1:{proxy.port}", *words)


@needs("wg")
class Peers(Client):
    def test_a_session(self):
        networks = "office\t10.8.0.0/24\tvpn.example.net:51820\t4096\n"
        self.assertEqual(self.client("networks"), Left(0, networks.encode()))
        before = int(time.time())
        words = ["add", "office", "laptop.conf", "--label", "lap top", "--address", "10.8.0.2", "--days", "2"]
        self.assertEqual(self.client(*words), Left(0, b"peer 1: laptop.conf\n"))
        self.check_file(1)
        (one,) = self.peers()
        self.assertEqual((one["label"], one["keepalive"], 0 <= one["end"] - before - 172_800 <= 60), ("lap top", 25, True))
        listed = f"1\tlap top\t10.8.0.2/32\t{one['end']}\t{one['key']}\n".encode()
        self.assertEqual(self.client("list", "office"), Left(0, listed))
        with self.subTest("the file stays"):
            text = (self.folder / "laptop.conf").read_text()
            self.assertEqual(self.client("add", "office", "laptop.conf"), Left(1, b"", b"wgr-client: laptop.conf is there already\n"))
            self.assertEqual(((self.folder / "laptop.conf").read_text(), len(self.peers())), (text, 1))
        self.assertEqual(self.client("revoke", "office", "1"), Left(0, b"revoked peer 1\n"))
        self.assertEqual(self.peers(), [])
        self.assertEqual(self.client("revoke", "office", "1"), Left(1, b"", b"wgr-client: refused: no_such_peer\n"))
        self.assertEqual(self.client("list", "lab"), Left(1, b"", b"wgr-client: refused: no_such_network\n"))

    def test_a_token_that_only_reads(self):
        """It lists, and changes nothing: no key is left of a peer that isn't added."""
        self.server.process.kill()
        self.server.process.wait()
        order("token-grant", self.database, "acme", "--right", "read", token="reads")
        self.server = self.serve()
        self.url = f"http://127.0.0.1:{self.server.port}"
        self.assertEqual(self.client("add", "office", "laptop.conf"), Left(0, b"peer 1: laptop.conf\n"))
        (one,) = self.peers()
        told = b"wgr-client: refused: read_only: the token only reads\n"
        rows = [
            (["networks"], Left(0, b"office\t10.8.0.0/24\tvpn.example.net:51820\t4096\n")),
            (["list", "office"], Left(0, f"1\t\t10.8.0.2/32\t0\t{one['key']}\n".encode())),
            (["add", "office", "desk.conf"], Left(1, b"", told)),
            (["revoke", "office", "1"], Left(1, b"", told)),
        ]
        names = self.names(".")
        for words, due in rows:
            with self.subTest(words):
                self.assertEqual(self.client(*words, WGR_TOKEN="reads"), due)
        self.assertEqual((self.peers(), self.names(".")), ([one], names))

    def test_replies_that_are_lost(self):
        """What is asked is done once, whether the request or its reply was lost, by one run or by two."""
        rows = [
            ("the reply", [lost]),
            ("the reply of a proxy", [bad_gateway]),
            ("a part of the reply", [lambda reply: reply[:-9]]),
            ("the file's", [lambda reply: reply, lost]),
        ]
        for number, (name, acts) in enumerate(rows, 1):
            with self.subTest(name):
                proxy = Proxy(self.server, acts)
                self.addCleanup(proxy.close)
                left = self.client("add", "office", "laptop.conf", url=f"http://127.0.0.1:{proxy.port}")
                self.assertEqual(left, Left(0, f"peer {number}: laptop.conf\n".encode()))
                self.assertEqual(len(self.peers()), number)
                self.check_file(number)
                (self.folder / "laptop.conf").unlink()
        with self.subTest("of a peer that is revoked"):
            proxy = Proxy(self.server, [lost])
            self.addCleanup(proxy.close)
            self.assertEqual(self.client("revoke", "office", "4", url=f"http://127.0.0.1:{proxy.port}"), Left(0, b"revoked peer 4\n"))
        with self.subTest("a client that was stopped behind its request"):
            is_stopped = threading.Event()
            proxy = Proxy(self.server, [lambda reply: b"" if is_stopped.wait(LIMIT) else reply])
            self.addCleanup(proxy.close)
            words = ["wgr-client", "--url", f"http://127.0.0.1:{proxy.port}", "add", "office", "laptop.conf"]
            known = self.known | {"WGR_TOKEN_FILE": str(self.folder / "token")}
            before = len(self.peers())
            with subprocess.Popen(words, cwd=self.folder, env=known) as running:
                self.assertTrue(in_time(lambda: len(self.peers()) > before))
                running.kill()
            is_stopped.set()
            self.assertEqual(self.client("add", "office", "laptop.conf"), Left(0, b"peer 5: laptop.conf\n"))
            self.assertEqual(len(self.peers()), before + 1)
            self.assertEqual(self.public(re.search("PrivateKey = (.*)\n", (self.folder / "laptop.conf").read_text())[1]), self.peers()[-1]["key"])

    def test_tokens(self):
        """From a file or the environment; in no process's words; to no other place."""
        (self.folder / "wrong").write_text("xyz\n")
        (self.folder / "empty").touch()
        told = "there is no token: name its file by --token-file or WGR_TOKEN_FILE, or put it into WGR_TOKEN"
        rows = [
            ("the environment", {"WGR_TOKEN": TOKEN}, [], 0, None),
            ("a file", {"WGR_TOKEN": ""}, ["--token-file", "token"], 0, None),
            ("nobody's", {"WGR_TOKEN_FILE": "wrong"}, [], 1, "refused: unknown_token"),
            ("none", {"WGR_TOKEN": ""}, [], 1, told),
            ("an empty file", {"WGR_TOKEN_FILE": "empty"}, [], 1, told),
            ("no file", {"WGR_TOKEN_FILE": "none"}, [], 1, "none: No such file or directory"),
        ]
        for name, known, words, status, why in rows:
            with self.subTest(name):
                left = self.client(*words, "networks", **known)
                self.assertEqual((left.status, left.err), (status, f"wgr-client: {why}\n".encode() if why else b""))
        with self.subTest("the words of all processes while it works"):
            self.stand_in("wg", 'cat /proc/[0-9]*/cmdline >>"$ROOM/words"; exec /usr/bin/wg "$@"')
            long = "a-token-that-stands-nowhere-else"
            self.server.__exit__()
            self.assertEqual(self.run_script("wgr", "token-grant", self.database, "acme", text=long).status, 0)
            self.server = self.serve()
            self.url = f"http://127.0.0.1:{self.server.port}"
            self.assertEqual(self.client("add", "office", "laptop.conf", WGR_TOKEN=long).status, 0)
            words = (self.folder / "words").read_bytes()
            private = re.search("PrivateKey = (.*)\n", (self.folder / "laptop.conf").read_text())[1]
            self.assertIn(b"wgr-client", words)
            self.assertEqual((long.encode() in words, private.encode() in words), (False, False))
        with self.subTest("a redirection"):
            proxy = Proxy(self.server, [redirected])
            self.addCleanup(proxy.close)
            left = self.client("networks", url=f"http://127.0.0.1:{proxy.port}")
            self.assertEqual(left, Left(1, b"", b"wgr-client: refused: status 307\n"))

    @needs("qrencode")
    def test_a_qr_code(self):
        """It is that of the file, by qrencode, which is given it on its standard input."""
        left = self.client("add", "office", "laptop.conf", "--qr")
        shown = self.run_script("qrencode", "-t", "ansiutf8", text=(self.folder / "laptop.conf").read_text())
        self.assertEqual(left, Left(0, b"peer 1: laptop.conf\n" + shown.out))
        self.assertGreater(len(shown.out), 1000)

    def test_no_service(self):
        self.server.__exit__()
        left = self.without_sleep(self.url, "networks")
        self.assertEqual(left.status, 1)
        self.assertRegex(left.err, rb"^wgr-client: http://127.0.0.1:\d+ doesn't answer: .*Connection refused")

    def test_keys_of_refused_peers(self):
        """A refusal leaves no key, unless a peer may have it: then the same words finish what was cut off."""
        good, outside = ["add", "office", "laptop.conf"], ["add", "office", "laptop.conf", "--address", "10.9.0.1"]
        rows = [
            ("an address outside of the pool", outside, [], "refused: outside_pool", False),
            ("a label that is none", [*good, "--label", "\t"], [], "refused: bad_field, field label", False),
            ("no such network", ["add", "lab", "laptop.conf"], [], "refused: no_such_network", False),
            ("nobody's token", good, [unknown], "refused: unknown_token", False),
            ("a token that only reads", good, [read_only], "refused: read_only: the token only reads", False),
            ("a reply that is lost, then a token that only reads", good, [lost, read_only], "refused: read_only: the token only reads", True),
            ("a try that a proxy can't pass on, then a refusal behind the look for the key", outside, [bad_gateway], "refused: outside_pool", False),
            ("a reply that is lost, then a refusal before it", good, [lost, unknown], "refused: unknown_token", True),
            ("a refusal to show the file", good, [lambda reply: reply, unknown], "refused: unknown_token", True),
            ("unavailable", good, [unavailable] * 5, "refused: unavailable", True),
            ("too many requests", good, [too_many] * 5, "refused: too_many_requests", True),
            ("no reply", good, [lost] * 5, None, True),
            ("another's reply", good, [redirected], "refused: status 307", True),
        ]
        for name, words, acts, told, is_kept in rows:
            with self.subTest(name):
                left = self.through(acts, *words)
                self.assertEqual(left.status, 1)
                if told:
                    self.assertEqual(left.err, f"wgr-client: {told}\n".encode())
                self.assertEqual([name for name in self.names(".") if "laptop" in name], ["laptop.conf.key"] if is_kept else [])
                if is_kept:
                    kept = (self.folder / "laptop.conf.key").read_text()
                    with self.subTest("a refusal of another run's"):
                        self.assertEqual(self.client("add", "lab", "laptop.conf").status, 1)
                        self.assertEqual((self.folder / "laptop.conf.key").read_text(), kept)
                    self.assertEqual(self.client(*good).status, 0)
                    self.assertIn(f"PrivateKey = {kept}", (self.folder / "laptop.conf").read_text())
                    self.check_file(self.peers()[-1]["number"])
                    (self.folder / "laptop.conf").unlink()

    def test_settings_for_wg_quick(self):
        """They are in the file, and wg-quick reads them as they were meant."""
        pool, everything = "10.8.0.0/24", "0.0.0.0/0, ::/0"
        rows = [
            ("none", [], [], pool, "|||"),
            ("a name server", ["--dns", "10.8.0.1"], ["DNS = 10.8.0.1"], pool, "|10.8.0.1||"),
            (
                "servers and search domains", ["--dns", "10.8.0.1, corp.example,fd00::1,lan"],
                ["DNS = 10.8.0.1, corp.example, fd00::1, lan"], pool, "|10.8.0.1 fd00::1|corp.example lan|",
            ),
            ("the least MTU", ["--mtu", "576"], ["MTU = 576"], pool, "|||576"),
            ("the greatest", ["--mtu", "65535"], ["MTU = 65535"], pool, "|||65535"),
            ("a full tunnel", ["--full-tunnel"], [], everything, "|||"),
            (
                "all", ["--full-tunnel", "--mtu", "1280", "--dns", "1.1.1.1"],
                ["DNS = 1.1.1.1", "MTU = 1280"], everything, "|1.1.1.1||1280",
            ),
        ]
        for number, (name, words, lines, allowed, read) in enumerate(rows, 1):
            with self.subTest(name):
                self.assertEqual(self.client("add", "office", "laptop.conf", *words), Left(0, f"peer {number}: laptop.conf\n".encode()))
                text = (self.folder / "laptop.conf").read_text()
                private = re.search("PrivateKey = (.*)\n", text)[1]
                due = FILE.format(private="\n".join([private, *lines]), last=number + 1, server=SERVER_KEY).replace(pool, allowed)
                self.assertEqual(text, due)
                self.check_by_wg_quick(private, f"laptop|10.8.0.{number + 1}/32{read}", allowed)
                (self.folder / "laptop.conf").unlink()

    def check_by_wg_quick(self, private, read, allowed):
        if not shutil.which("wg-quick"):
            return
        passed = f"[Interface]\nPrivateKey = {private}\n\n[Peer]\nPublicKey = {SERVER_KEY}\nAllowedIPs = {allowed}\n"
        passed += "Endpoint = vpn.example.net:51820\nPersistentKeepalive = 25\n"
        left = self.run_script("bash", "-c", PARSER, "wg-quick", self.folder / "laptop.conf")
        self.assertEqual((left.out.decode().rstrip("\n"), left.err), (f"{read}\n{passed}".rstrip("\n"), b""))
        if os.geteuid() == 0:
            left = self.run_script("wg-quick", "strip", self.folder / "laptop.conf")
            self.assertEqual((left.out.decode().rstrip("\n"), left.err), (passed.rstrip("\n"), b""))

    def test_settings_that_are_none(self):
        """They are told before anything is asked or made."""
        entries = ["", "10.8.0.256", "1.2.3", "10.8.0.1/32", "fe80::1%eth0", "a" * 64]
        entries += [f"10.8.0.1,{name}" for name in ["", "a b", "-a", "a\nPostUp = b"]]
        rows = [(["--dns", entry], NO_ENTRY.format(entry.split(",")[-1])) for entry in entries]
        rows.append((["--dns", "corp.example"], "argument --dns: wg-quick takes search domains only with the address of a name server"))
        rows += [(["--mtu", text], NO_MTU.format(text)) for text in ["575", "65536", "", "1420.0", "-1", "1_500", "\u0661\u0664\u0662\u0660"]]
        rows.append((["--full-tunnel", "--mtu", "1279"], "argument --mtu: with --full-tunnel it is at least 1280, which IPv6 needs"))
        before = self.names(".")
        for words, told in rows:
            with self.subTest(words):
                option, *rest = words
                words = [f"{option}={rest[0]}"] if len(rest) == 1 else words
                left = self.client("add", "office", "laptop.conf", *words)
                self.assertEqual((left.status, left.out), (2, b""))
                self.assertIn(f"error: {told}\n".encode(), left.err)
                self.assertEqual((self.names("."), self.peers()), (before, []))


if __name__ == "__main__":
    unittest.main()
