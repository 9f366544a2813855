"""The register's replies that a WireGuard server follows, which are taken whole or not at all."""

import ipaddress
import json
import re

from wgr_asking import NoReply
from wgr_interface import Peer

# The lines that the register's file may have.
LINE = re.compile(
    r"|\[Interface\]|(\[Peer\])|Address = ([0-9a-f.:/]+)|ListenPort = ([0-9]{1,5})|PublicKey = ([A-Za-z0-9+/]{43}=)"
    r"|AllowedIPs = ([0-9a-f.:/]+(?:, [0-9a-f.:/]+)*)|PersistentKeepalive = ([0-9]{1,5})"
)


class File:
    """A server's file, as the register writes it."""

    def __init__(self, told):
        self.text = told.decode(errors="replace")
        self.address = self.port = self.last = None
        self.peers = {}
        lines = [LINE.fullmatch(line) for line in self.text.split("\n")]
        if not self.text.startswith("[Interface]\n") or not self.text.endswith("\n") or None in lines:
            raise NoReply("the reply is no file of a server")
        for found in lines:
            self.read_line(*found.groups())
        if self.address is None or self.port is None or not self.is_good():
            raise NoReply("the reply is no file of a server")

    def is_good(self):
        """Whether all addresses and prefixes are some."""
        try:
            for text in [self.address, *(prefix for peer in self.peers.values() for prefix in peer.prefixes)]:
                ipaddress.ip_interface(text)
        except ValueError:
            return False
        return True

    def read_line(self, begins, address, port, key, prefixes, keepalive):
        if begins:
            self.last = Peer(frozenset())
        elif address:
            self.address = address
        elif port:
            self.port = int(port)
        elif self.last is None:
            return
        elif key:
            self.peers[key] = self.last
        elif prefixes:
            self.last.prefixes = frozenset(prefixes.split(", "))
        elif keepalive:
            self.last.keepalive = int(keepalive)


def members(told, name, what):
    """The objects of a reply's one list."""
    try:
        found = json.loads(told)[name]
        if all(isinstance(one, dict) for one in found):
            return found
    except (ValueError, KeyError, TypeError):
        pass
    raise NoReply(f"the reply is no list of {what}")


def peers_of_list(told):
    return {peer.get("key"): peer for peer in members(told, "peers", "peers")}


def networks_of_list(told):
    """The public key of each network's server, by name."""
    return {network.get("name"): network.get("server") for network in members(told, "networks", "networks")}


def are_the_same(file, listed):
    """Whether both replies have the same peers. Otherwise one is cut or old, or a change came in between."""
    try:
        return {key: (peer.prefixes, peer.keepalive) for key, peer in file.peers.items()} == {
            key: (frozenset([peer["address"], *peer["routes"]]), peer["keepalive"]) for key, peer in listed.items() if peer["end"] >= 0
        }
    except (KeyError, TypeError):
        return False
