"""A day on which all fails that may: what the tunnels of customers do meanwhile is what docs/OPERATIONS.md says."""

import time
import unittest

from day import BEHIND, CUSTOMERS, HOUR, OfADay
from following import TOOLS, inside, public_key, private_key, run
from test_follow import wait_until
from tools import needs

AWAY = "nothing is changed but leases that are over"
# The steps in turn, each a function below, and whose tunnels are up behind it (x), in the order of CUSTOMERS.
#                                                steady passive preshared leased guest late till bench shelf
DAY = [
    ("networks_are_followed",                      "x     x       x        x      x     -   x    x     x"),
    ("the_register_stops",                         "x     x       x        x      x     -   x    x     x"),
    ("a_lease_ends",                               "x     x       x        -      x     -   x    x     x"),
    ("both_servers_restart_without_the_register",  "x     x       x        -      x     -   x    x     x"),
    ("the_register_is_back",                       "x     x       x        -      x     -   x    x     x"),
    ("a_peer_is_revoked_and_one_is_added",         "x     x       x        -      -     x   x    x     x"),
    ("the_token_of_the_servers_ends",              "x     x       x        -      -     x   x    x     x"),
    ("they_get_another_one",                       "x     x       x        -      -     x   x    x     x"),
    ("two_networks_end",                           "x     x       x        -      -     x   x    -     -"),
    ("both_servers_restart",                       "x     x       x        -      -     x   x    -     -"),
    ("a_lease_of_an_hour",                         "x     x       x        x      -     x   x    -     -"),
    ("two_hours_later_without_the_register",       "x     x       x        -      -     x   x    -     -"),
    ("the_clock_of_the_register_is_behind",        "x     x       x        -      -     x   x    -     -"),
    ("the_clock_of_the_server_too",                "x     x       x        x      -     x   x    -     -"),
    ("both_clocks_are_right",                      "x     x       x        -      -     x   x    -     -"),
    ("another_lease_of_an_hour",                   "x     x       x        x      -     x   x    -     -"),
    ("the_clock_is_ahead_without_a_report",        "x     x       x        -      -     x   x    -     -"),
    ("the_clock_is_right",                         "x     x       x        x      -     x   x    -     -"),
    ("the_clock_is_ahead",                         "x     x       x        -      -     x   x    -     -"),
    ("its_lease_is_gone",                          "x     x       x        -      -     x   x    -     -"),
    ("another_lease_of_an_hour",                   "x     x       x        x      -     x   x    -     -"),
    ("the_clock_of_the_server_is_ahead",           "x     x       x        -      -     x   x    -     -"),
    ("the_clock_is_right",                         "x     x       x        x      -     x   x    -     -"),
    ("a_copy_is_restored",                         "x     x       x        x      -     x   x    -     -"),
    ("the_token_is_granted_again",                 "x     x       x        -      x     -   x    x     x"),
    ("the_same_is_revoked_and_added_again",        "x     x       x        -      -     x   x    x     x"),
    ("a_copy_with_few_of_the_peers",               "x     x       x        -      -     x   x    x     x"),
    ("it_may_take_many_away",                      "x     x       x        -      x     -   x    x     x"),
    ("two_interfaces_are_lost",                    "x     x       x        -      x     -   x    x     x"),
]


@needs(*TOOLS, "ping", root=True)
class Day(OfADay):
    def test_a_day(self):
        """Each step begins where the one before has ended, so the first that fails ends the test."""
        for step, shown in DAY:
            getattr(self, step)()
            up = {name for name, mark in zip(CUSTOMERS, shown.split(), strict=True) if mark == "x"}
            self.assert_tunnels(step, up)

    def networks_are_followed(self):
        for name in CUSTOMERS:
            if name != "late":
                self.add(name)
        self.ask("office", "POST", f"peers/{self.registered('office')['steady']}/routes", {"prefix": BEHIND[0]})
        self.place_preshared_key()
        for net in self.nets.values():
            net.net("up")
        for name in ["office", "shop"]:
            self.round(name)
        self.follow_all()
        self.wait_for_rounds()
        for name in CUSTOMERS:
            if name != "late":
                self.connect(name)
        for name in ["passive", "shelf"]:
            self.let_send(name)

    def place_preshared_key(self):
        self.preshared = run("wg", "genpsk").stdout.strip()
        folder = self.nets["office"].folder / "preshared"
        folder.mkdir()
        name = self.customers["preshared"].public.replace("/", "_").replace("+", "-")
        (folder / name).write_text(f"{self.preshared}\n")

    def the_register_stops(self):
        """Shortly before a lease ends, of which the server has heard."""
        began = time.monotonic()
        self.round("office")
        self.round("shop")
        self.lease_end = int(time.time() + 5 + 4 * (time.monotonic() - began))
        self.ask("office", "POST", f"peers/{self.registered('office')['leased']}/lease", {"end": self.lease_end})
        self.round("office")
        self.wait_for_rounds()
        self.stop_register()

    def a_lease_ends(self):
        wait_until(self.lease_end)
        for name in ["office", "shop"]:
            self.round(name, fails=AWAY)
        self.assertTrue(self.says(AWAY))

    def restart_servers(self, **fails):
        self.stop_all()
        for net in self.nets.values():
            net.net("down")
            net.net("up")
        for name in ["office", "shop"]:
            self.round(name, fails=fails.get(name))
        self.follow_all()
        self.wait_for_rounds()

    def both_servers_restart_without_the_register(self):
        kept = "the peers of the last good round are set"
        self.let_rest("passive", "shelf")
        self.restart_servers(office=kept, shop=kept)
        self.assertTrue(self.says(kept))

    def the_register_is_back(self):
        self.start_register()
        self.copy_register()
        self.round("office")
        self.round("shop")

    def a_peer_is_revoked_and_one_is_added(self):
        self.revoke("guest")
        self.add("late")
        self.round("office")
        if "late" not in self.files:
            self.connect("late")

    def the_token_of_the_servers_ends(self):
        self.send("token-end", token="acme-servers")
        for _ in range(2):
            self.round("office", fails=f"401 unknown_token; put a token that is good into {self.nets['office'].folder}/token")
        self.round("shop")
        self.assertTrue(self.says(f"401 unknown_token; put a token that is good into {self.folder}/two/{self.nets['lab'].name}/token"))

    def they_get_another_one(self):
        self.send("token-grant", "acme", token="acme-others")
        for name in ["office", "lab"]:
            self.nets[name].write("token", "acme-others")
        self.round("office")
        self.wait_for_rounds()

    def two_networks_end(self):
        """One server is to keep the peers, as without a word, and the other to take them away after two rounds."""
        self.nets["shop"].write("settings", "ended = keep")
        self.nets["lab"].write("settings", "ended = 2")
        self.send("network-end", "bolt", "shop")
        self.send("network-end", "acme", "lab")
        for _ in range(3):
            self.round("shop", fails="404 no_such_network; if the network was ended, move ")
        self.assertTrue(self.says("404 no_such_network"))
        self.assertTrue(self.says("it has ended, and its peers are taken away"))

    def both_servers_restart(self):
        self.restart_servers(shop="404 no_such_network")

    def lease(self, hours):
        """Adds the peer until then, with its key and its address, so that its file stays the same."""
        self.add("leased", end=self.began + hours * HOUR)
        self.round("office")
        self.connect_again("leased")

    def a_lease_of_an_hour(self):
        self.lease(1)

    def two_hours_later_without_the_register(self):
        self.stop_register()
        self.hours = 2
        self.round("office", fails=AWAY)

    def the_clock_of_the_register_is_behind(self):
        """It shows the peer again. The server ends leases by its own clock."""
        self.set_clocks(0, 2)
        self.assertIn("leased", self.registered("office"))
        for _ in range(2):
            self.assertIn("1 of the register's peers aren't set: by the clock of this machine their lease is over", self.round("office"))

    def the_clock_of_the_server_too(self):
        self.set_clocks(0, 0)
        self.round("office")
        self.connect_again("leased")

    def both_clocks_are_right(self):
        self.set_clocks(2, 2)
        self.round("office")

    def another_lease_of_an_hour(self):
        self.lease(3)

    def the_clock_is_ahead_without_a_report(self):
        """A report is a change, which deletes peers whose lease looks over."""
        self.set_clocks(4, 2)
        self.betweens["one"].instead = {"dump": b""}
        self.round("office", fails="cannot report to the register")
        self.betweens["one"].instead = {}

    def the_clock_is_right(self):
        self.set_clocks(2, 2)
        self.assertIn("leased", self.registered("office"))
        self.round("office")
        self.connect_again("leased")

    def the_clock_is_ahead(self):
        self.set_clocks(4, 2)
        self.round("office")

    def its_lease_is_gone(self):
        self.set_clocks(2, 2)
        self.assertNotIn("leased", self.registered("office"))
        self.round("office")

    def the_clock_of_the_server_is_ahead(self):
        self.set_clocks(2, 4)
        for _ in range(2):
            self.round("office")

    def restore(self):
        """The copy from before a peer was revoked, two networks were ended, and the servers got their token."""
        self.restore_register()
        self.hours = 0
        self.round("office", fails="401 unknown_token")

    def a_copy_is_restored(self):
        self.restore()

    def the_token_is_granted_again(self):
        """And the one that had been ended is ended again."""
        self.ask("office", "GET", "peers", token="acme-servers")
        self.send("token-end", token="acme-servers")
        self.send("token-grant", "acme", token="acme-others")
        self.round("office")
        self.round("shop")
        # Of the network that had ended, the server knows no endpoint.
        self.wait_for_rounds()
        for name in ["guest", "bench", "shelf"]:
            self.connect_again(name)
        self.let_send("shelf")

    def the_same_is_revoked_and_added_again(self):
        self.a_peer_is_revoked_and_one_is_added()
        self.connect_again("late")

    def a_copy_with_few_of_the_peers(self):
        """Four of twelve: nothing is changed."""
        self.peers_without_tunnels = {public_key(private_key()) for _ in range(8)}
        for key in self.peers_without_tunnels:
            self.ask("office", "POST", "peers", {"key": key})
        self.round("office")
        self.restore()
        self.send("token-grant", "acme", token="acme-others")
        for _ in range(2):
            self.round("office", fails="9 of 12 peers would lose their tunnels: if that is right, touch ")
        self.assertLess(self.peers_without_tunnels, self.nets["office"].peers())

    def it_may_take_many_away(self):
        (self.nets["office"].folder / "state/many").touch()
        self.round("office")
        self.assertFalse((self.nets["office"].folder / "state/many").exists())
        self.assertFalse(self.peers_without_tunnels & self.nets["office"].peers())
        self.connect_again("guest")

    def two_interfaces_are_lost(self):
        """Each round keeps where the peers were before it."""
        self.round("office")
        for name in ["office", "lab"]:
            inside(self.nets[name].name, "ip", "link", "delete", self.nets[name].name)
        self.assertIn("it is made again", self.round("office"))
        self.assertTrue(self.says("it is made again"))


if __name__ == "__main__":
    unittest.main()
