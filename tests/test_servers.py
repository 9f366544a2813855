"""What a WireGuard server does by itself: starts without the register, endings of networks and tokens, what it tells."""

import json
import os
import time
import unittest
from pathlib import Path

from following import PING, TOOLS, OneNetwork, inside, private_key, public_key, run
from program import in_time
from serving import order, reply
from test_follow import wait_until
from test_namespaces import Client
from tools import needs

NO_NETWORK = reply(404, {"error": "no_such_network"})
# How the register or something before it refuses each request of a round, and what a round says to do.
REFUSALS = [
    ("the token ended", reply(401, {"error": "unknown_token"}), "401 unknown_token; put a token that is good into {folder}/token"),
    ("the network ended", NO_NETWORK, "404 no_such_network; if the network was ended, move {folder} away and systemctl disable --now wgr-sync@{name}.timer"),
    ("another service", reply(404, b"<html>", "text/html"), "404; look at {folder}/url"),
    ("the store has failed", reply(503, {"error": "unavailable"}), "503 unavailable: nothing is changed"),
]


@needs(*TOOLS, root=True)
class Starts(OneNetwork):
    """A server that starts anew, with or without the register."""

    def start_again(self, **more):
        self.net.net("down")
        self.net.net("up")
        return self.net.sync(**more)

    def links(self):
        """The port, the addresses and the routes of the interface."""
        told = inside(self.net.name, "ip", "-br", "-4", "address", "show", "dev", self.net.name).stdout, *self.net.state_of_interface()[2:]
        return inside(self.net.name, "wg", "show", self.net.name, "listen-port").stdout, *told

    def test_without_the_register(self):
        """It has what it had, but for peers whose lease ended meanwhile."""
        (_, stays), (number, ends) = self.add(), self.add()
        self.ask("POST", "peers/1/routes", {"prefix": "192.168.7.0/24"})
        began = time.monotonic()
        self.net.sync()
        self.start_again()
        # All before the lease ends fits in, however slow the machine is.
        end = int(time.time() + 8 + 4 * (time.monotonic() - began))
        self.ask("POST", f"peers/{number}/lease", {"end": end})
        self.net.sync()
        before = self.links()
        self.stop_register()
        with self.subTest("before the lease ends"):
            self.assertIn("the peers of the last good round are set", self.start_again(allowed=(1,)).stderr)
            self.assertEqual((self.links(), self.net.peers()), (before, {stays, ends}))
        wait_until(end)
        for number in range(2):
            with self.subTest("and after", number=number):
                self.start_again(allowed=(1,))
                self.assertEqual(self.net.peers(), {stays})

    def test_a_revoked_peer_stays_away(self):
        (number, _), (_, stays) = self.add(), self.add()
        self.net.sync()
        self.ask("DELETE", f"peers/{number}")
        self.net.sync()
        self.stop_register()
        self.start_again(allowed=(1,))
        self.assertEqual(self.net.peers(), {stays})

    def test_another_network_of_the_name(self):
        """What was kept of a former one, with another key, isn't set."""
        self.add()
        self.net.sync()
        self.stop_register()
        self.net.write("key", private_key())
        self.start_again(allowed=(1,))
        self.assertEqual(self.net.peers(), set())

    def preshared(self):
        lines = inside(self.net.name, "wg", "show", self.net.name, "preshared-keys").stdout.splitlines()
        return dict(line.split("\t") for line in lines)

    def test_preshared_keys(self):
        (_, first), (_, other), (_, third) = self.add(), self.add(), self.add()
        keys = [run("wg", "genpsk").stdout.strip() for _ in range(3)]
        folder = self.net.folder / "preshared"
        folder.mkdir()

        def place(key, text):
            (folder / key.replace("/", "_").replace("+", "-")).write_text(f"{text}\n")

        place(first, keys[0])
        self.net.sync()
        with self.subTest("at the first round"):
            self.assertEqual(self.preshared(), {first: keys[0], other: "(none)", third: "(none)"})
        inside(self.net.name, "wg", "set", self.net.name, "peer", third, "preshared-key", "/dev/stdin", text=keys[2])
        place(other, keys[0])
        place(first, keys[1])
        self.net.sync()
        with self.subTest("another key, a new one, and one by hand"):
            self.assertEqual(self.preshared(), {first: keys[1], other: keys[0], third: keys[2]})
        with self.subTest("after a start"):
            self.start_again()
            self.assertEqual(self.preshared(), {first: keys[1], other: keys[0], third: "(none)"})
        with self.subTest("after a start without the register"):
            self.stop_register()
            self.start_again(allowed=(1,))
            self.assertEqual(self.preshared(), {first: keys[1], other: keys[0], third: "(none)"})
        for name, text in [(first.replace("/", "_").replace("+", "-"), "short"), ("laptop", keys[0])]:
            with self.subTest("a file that is none", name=name):
                (folder / name).write_text(text)
                self.assertIn(f"{folder}/{name} isn't", self.net.sync(allowed=(1,)).stderr)
                (folder / name).unlink()


@needs(*TOOLS, "ping", root=True)
class Endpoints(OneNetwork):
    """The server begins the handshakes with peers that it knew before its start, whose own next one is two minutes away."""

    def handshakes(self):
        lines = inside(self.net.name, "wg", "show", self.net.name, "latest-handshakes").stdout.splitlines()
        return {key: int(at) for key, at in (line.split("\t") for line in lines)}

    def hears(self, key):
        return in_time(lambda: self.handshakes()[key] > 0, PING)

    def test_a_passive_peer(self):
        client = Client(self, self.net.host, 0)
        made = self.ask("POST", "peers", {"key": client.public})
        self.net.sync()
        told = self.register.ask("GET", "/networks/office/peers/1/file/wg")
        client.start(told.partition(b"\r\n\r\n")[2].decode(), [made["address"].partition("/")[0]])
        inside(client.space, "ping", "-c", "1", "-w", PING, "10.8.0.1")
        self.net.sync()
        for register in ["up", "away"]:
            with self.subTest(register=register):
                if register == "away":
                    self.stop_register()
                self.net.net("down")
                self.net.net("up")
                self.net.sync(allowed=None)
                # The client sends nothing meanwhile.
                self.assertTrue(self.hears(client.public))
                self.assertTrue(self.net.reaches(made["address"].partition("/")[0]))
                keepalive = inside(self.net.name, "wg", "show", self.net.name, "persistent-keepalive").stdout
                self.assertEqual(keepalive, f"{client.public}\toff\n")


@needs(*TOOLS, root=True)
class Told(OneNetwork):
    def test_refusals(self):
        """Each says what to do; the peers stay, however often."""
        _, key = self.add()
        self.net.sync()
        for name, given, said in REFUSALS:
            with self.subTest(name):
                self.between.instead = {"quick": given, "peers": given, "networks": given, "dump": given}
                for _ in range(2):
                    told = self.net.sync(allowed=(1,)).stderr
                    self.assertIn(said.format(folder=self.net.folder, name=self.net.name), told)
                    self.assertEqual(self.net.peers(), {key})

    def test_a_network_that_ended(self):
        """Where the operator says so, its peers are taken away after so many rounds, and a start doesn't bring them back."""
        _, key = self.add()
        self.net.sync()
        self.net.write("settings", "# Three rounds.\nended = 3")
        good = dict(self.between.instead)
        for rounds in [[NO_NETWORK, NO_NETWORK, None], [NO_NETWORK, NO_NETWORK, NO_NETWORK]]:
            for number, given in enumerate(rounds, 1):
                with self.subTest(number=number, given=given):
                    self.between.instead = {"quick": given} if given else good
                    told = self.net.sync(allowed=(1,) if given else (0,)).stderr
                    is_over = rounds[number - 1 : number] == [NO_NETWORK] and number == 3
                    self.assertEqual(("its peers are taken away" in told, self.net.peers()), (is_over, set() if is_over else {key}))
        self.net.net("down")
        self.net.net("up")
        self.net.sync(allowed=(1,))
        self.assertEqual(self.net.peers(), set())
        with self.subTest("it is there again"):
            self.between.instead = good
            self.net.sync()
            self.assertEqual(self.net.peers(), {key})

    def order(self, *words, token):
        """An order while the register isn't served."""
        self.register.__exit__()
        order(words[0], self.database, *words[1:], token=token)
        self.between.register = self.register = self.serve(self.database)

    def test_a_token_that_only_reads(self):
        """The interface follows, and no round fails; that nothing is reported is said once an hour, and for each token."""
        for token in ["reads", "other"]:
            self.order("token-grant", "acme", "--right", "read", token=token)
        state = self.net.folder / "state"
        said, hour = [], 3600
        for token, passed in [("reads", 0), ("reads", hour - 60), ("other", 0), ("other", 0), ("reads", 0), ("reads", hour + 1), ("reads", -60)]:
            self.net.write("token", token)
            if passed:
                # As though it had been said so long ago.
                mark, since = (state / "reads-only").read_text().split(" ")
                (state / "reads-only").write_text(f"{mark} {int(since) - passed}")
            self.register_add("abc")
            said.append("the token only reads" in self.net.sync().stderr)
        self.assertEqual((said, len(self.net.peers())), ([True, False, True, False, True, True, True], 7))
        self.assertEqual(self.reported(), 0)
        with self.subTest("it is granted anew, with the full right"):
            self.order("token-end", token="reads")
            self.order("token-grant", "acme", token="reads")
            self.net.sync()
            self.assertEqual(self.reported(), 0)
            (state / "reads-only").write_text(f"{mark} {int(time.time()) - hour - 1}")
            self.net.sync()
            self.assertEqual(self.reported(), 7)
        with self.subTest("what an earlier release kept, of the token alone"):
            (state / "reads-only").write_text(mark)
            (state / "reported").unlink()
            self.assertNotIn("the token only reads", self.net.sync().stderr)
            self.assertTrue((state / "reported").exists())

    def reported(self):
        """How many peers have a status."""
        told = self.register.ask("GET", "/networks/office/peers").partition(b"\r\n\r\n")[2]
        return sum(peer["status"] is not None for peer in json.loads(told)["peers"])

    def register_add(self, token):
        key = public_key(private_key())
        self.register.ask("POST", "/networks/office/peers", {"key": key}, token=token)
        return key

    def test_somebody_is_alerted(self):
        """After ten failed rounds in turn, and after each 120."""
        folder = self.folder / "programs"
        folder.mkdir()
        (folder / "systemctl").write_text(f'#!/bin/bash\necho "$*" >>{self.folder}/asked\n')
        (folder / "systemctl").chmod(0o755)
        known = {"PATH": f"{folder}:{os.environ['PATH']}", "INVOCATION_ID": "1"}
        asked, start = self.folder / "asked", f"start --no-block wgr-alert@wgr-sync@{self.net.name}.service\n"
        self.net.write("token", "wrong")
        for before, after, told in [(0, 1, ""), (8, 9, ""), (9, 10, start), (10, 11, ""), (119, 120, start), (239, 240, start)]:
            with self.subTest(after=after):
                (self.net.folder / "state").mkdir(exist_ok=True)
                (self.net.folder / "state/failures").write_text(f"{before}\n")
                asked.unlink(missing_ok=True)
                said = self.net.sync(allowed=(1,), environment=known).stderr
                self.assertEqual((asked.read_text() if asked.exists() else "", f"{after} rounds in turn have failed" in said), (told, bool(told)))
        with self.subTest("a good round begins anew"):
            self.net.write("token", "abc")
            self.net.sync(environment=known)
            self.assertEqual((self.net.folder / "state/failures").read_text(), "0\n")

    def test_figures(self):
        """In the folder of the node exporter, where it is there."""
        self.add()
        folder = Path("/var/lib/prometheus/node-exporter")
        begin = f'mount -t tmpfs tmpfs /var/lib && mkdir -p {folder} && "$@"; cat {folder}/wgr-sync-{self.net.name}.prom'
        for token, failed in [("abc", 0), ("wrong", 1), ("wrong", 2), ("abc", 0)]:
            with self.subTest(token=token, failed=failed):
                self.net.write("token", token)
                now = int(time.time())
                told = run("unshare", "--mount", "sh", "-c", begin, "sh", Path(__file__).parent.parent / "dist/wgr-sync", self.net.name, self.net.folder)
                found = dict(line.rsplit(" ", 1) for line in told.stdout.splitlines() if not line.startswith("#"))
                label = f'{{network="{self.net.name}"}}'
                self.assertEqual((found[f"wgr_sync_failed_rounds{label}"], found[f"wgr_sync_peers{label}"]), (str(failed), "1"))
                at = int(found[f"wgr_sync_last_success_timestamp_seconds{label}"])
                good = (now, time.time()) if failed == 0 else good
                self.assertTrue(good[0] <= at <= good[1], (good, at))


@needs(*TOOLS, root=True)
class Lost(OneNetwork):
    def test_an_interface_that_is_lost(self):
        """It is made again, with its peers, and so is its namespace."""
        _, key = self.add()
        self.net.sync()
        losses = [
            ("the interface", lambda: inside(self.net.name, "ip", "link", "delete", self.net.name)),
            ("the namespace", lambda: run("ip", "netns", "delete", self.net.name)),
        ]
        for name, lose in losses:
            with self.subTest(name):
                lose()
                told = self.net.sync().stderr
                self.assertIn("it is made again", told)
                self.assertEqual(self.net.peers(), {key})


if __name__ == "__main__":
    unittest.main()
