"""One round of one network: its interface takes what the register says, once that is known to be right."""

import fcntl
import hashlib
import ipaddress
import json
import os
import subprocess
import sys
import time
from contextlib import contextmanager
from dataclasses import replace
from pathlib import Path
from urllib.parse import urlsplit

from wgr_asking import Deadline, NoReply, Refused
from wgr_interface import Failed, Gone, Interface, Peer, Wanted, carry_out, change_of, missing
from wgr_kept import NUMBER, Kept
from wgr_replies import File, are_the_same, networks_of_list, peers_of_list
from wgr_settings import Fault, Settings, ordinary_interface, read_preshared

# Seconds in which the register has to give the file and the list, and to take the report.
ASKING = 20
# How often both are asked for, where a change came in between.
TRIES = 3
# Of so many peers or more, no round takes away more than half unless the operator says so.
CLIFF = 5
# Those whose lease ends within so many seconds don't count.
SOON = 60
# After so many seconds a token that only reads tries to report again: it may have been granted anew, with the full right.
TRY_AGAIN = 3600
# What the register answers where a token is good, and the network isn't there.
ENDED = (404, "no_such_network")


class Network:
    """A network that this machine follows. `say` tells the operator something."""

    publics = {}

    def __init__(self, name, folder, state, say):
        self.name, self.folder, self.kept, self.say = name, Path(folder), Kept(state), say
        self.told = self.read = None

    @contextmanager
    def alone(self):
        """One round at a time. Where the lock can't be made, as on a full disk, the round goes on without."""
        lock = None
        try:
            self.kept.folder.mkdir(mode=0o700, parents=True, exist_ok=True)
            lock = open(self.kept.folder / "lock", "w")
        except OSError as error:
            self.say(f"cannot write to {self.kept.folder}: {error.strerror}")
        if lock is None:
            yield
            return
        with lock:
            fcntl.flock(lock, fcntl.LOCK_EX)
            yield

    def place(self):
        """Where its register is; nothing as long as the operator hasn't said it well."""
        try:
            return urlsplit((self.folder / "url").read_text().strip()).netloc
        except (OSError, ValueError):
            return ""

    def interface(self):
        ordinary = ordinary_interface(self.folder)
        return Interface(ordinary) if ordinary else Interface(self.name, self.name)

    def end_leases(self):
        """Ends the tunnels of those peers whose lease is over by this machine's clock."""
        over = self.kept.over(time.time())
        interface = self.interface()
        if over and interface.is_there():
            try:
                interface.remove_peers(over)
            except Failed as failed:
                raise Fault(f"cannot end the tunnels of peers whose lease is over: {failed}") from None

    def follow(self, links):
        """A round. It returns how many peers the interface has by it, or a fault says why that isn't so."""
        self.end_leases()
        self.settings = Settings(self.folder)
        self.preshared = read_preshared(self.folder)
        self.seen = self.look()
        deadline, began = Deadline(ASKING), time.time()
        try:
            file, listed = self.fetch(links, deadline)
            wanted = self.wanted(file, self.running(file, listed, began))
            change = change_of(self.interface().name, wanted, self.seen)
            if change:
                self.check(links, deadline, change)
        except (NoReply, Refused) as why:
            self.go_without(why)
        if change and self.settings.peers == "own":
            self.keep_both(listed)
        self.carry_out(change, wanted)
        self.keep(file, listed)
        self.report(links, deadline, file)
        return len(wanted.peers)

    def look(self):
        interface = self.interface()
        try:
            return interface.look()
        except Gone as gone:
            if not interface.space:
                raise Fault(str(gone)) from None
            self.say(f"{gone}: it is made again")
            self.make_again()
        except Failed as failed:
            raise Fault(f"cannot look at the interface: {failed}") from None
        try:
            return interface.look()
        except (Gone, Failed) as failed:
            raise Fault(f"{failed}: systemctl restart wgr-net@{self.name} makes it") from None

    def make_again(self):
        """The unit of wgr-net does it, so that a wireguard-go is a process of that one, and not where it was stopped."""
        if "INVOCATION_ID" in os.environ:
            words = ["systemctl", "try-reload-or-restart", f"wgr-net@{self.name}.service"]
        else:
            words = [Path(sys.argv[0]).resolve().parent / "wgr-net", "again", self.name]
        try:
            done = subprocess.run(words, stdin=subprocess.DEVNULL, capture_output=True, text=True, timeout=60)
        except (OSError, subprocess.TimeoutExpired) as error:
            raise Fault(f"{words[0]}: {error}") from None
        if done.returncode != 0:
            self.say(done.stderr.strip())

    def ask(self, links, method, path, deadline, body=None):
        link = links.to(self.settings.url, self.settings.certificates)
        return link.ask(method, path, self.settings.token, deadline, body)

    def fetch(self, links, deadline):
        """The server's file and the list, which have the same peers."""
        path = self.settings.path
        for _ in range(TRIES):
            told = [self.ask(links, "GET", f"{path}/{what}", deadline) for what in ["server/quick", "peers"]]
            # What is the same as before isn't read again.
            if told != self.told:
                file, listed = File(told[0]), peers_of_list(told[1])
                if not are_the_same(file, listed):
                    continue
                self.told, self.read = told, (file, listed)
            return self.read
        raise NoReply("the file and the list don't have the same peers")

    def running(self, file, listed, now):
        """The keys of the file's peers, but for those whose lease is over here: else each round would end them and set them again."""
        keys = [key for key in file.peers if not 0 < listed[key]["end"] <= now]
        if len(keys) < len(file.peers):
            self.say(f"{len(file.peers) - len(keys)} of the register's peers aren't set: by the clock of this machine their lease is over")
        return keys

    def wanted(self, file, keys):
        """What the interface should have: these peers of the file."""
        settings, seen = self.settings, self.seen
        if settings.ordinary and seen.private not in (None, settings.private):
            raise Fault(f"the key of {settings.ordinary} isn't that in {self.folder}/key")
        peers = {key: replace(file.peers[key], preshared=self.preshared.get(key)) for key in keys}
        others = seen.peers.keys() - peers.keys()
        peers_off = others & self.mine()
        self.refuse_others(peers, others - peers_off)
        ours = {"all": seen.addresses, "own": seen.addresses & {self.kept.read("address")}, "none": set()}[settings.addresses]
        addresses = set() if settings.addresses == "none" else {file.address}
        port = file.port if settings.port == "follow" else None
        return Wanted(settings.private, port, peers, peers_off, addresses, set(missing(ours, addresses)), self.routes_of(peers))

    def mine(self):
        """The peers of the interface that aren't somebody else's: all, or those that a round has set."""
        return self.seen.peers.keys() & (self.seen.peers if self.settings.peers == "all" else self.kept.ends()).keys()

    def refuse_others(self, peers, others):
        """A prefix leads to one peer of an interface, so it isn't taken from one that somebody else has set."""
        held = {prefix: key for key in others for prefix in self.seen.peers[key].prefixes}
        for peer in peers.values():
            for prefix in peer.prefixes & held.keys():
                raise Fault(f"{prefix} leads to the peer {held[prefix]}, which isn't the register's")

    def routes_of(self, peers):
        prefixes = {prefix for peer in peers.values() for prefix in peer.prefixes}
        spaces = self.settings.routes
        return prefixes if spaces is None else {prefix for prefix in prefixes if lies_in(prefix, spaces)}

    def check(self, links, deadline, change):
        """Refuses to change the interface by another network's key, or to take away most of its peers."""
        place, _, name = self.settings.path.rpartition("/")
        if networks_of_list(self.ask(links, "GET", place, deadline)).get(name) != self.public():
            raise Fault("the key is not that of the network")
        # The register's clock may be a little ahead.
        over = self.kept.over(time.time() + SOON)
        mine, off = len(self.mine()), len(set(change.removed).difference(over))
        if mine >= CLIFF and 2 * off > mine and not self.kept.has("many"):
            raise Fault(f"{off} of {mine} peers would lose their tunnels: if that is right, touch {self.kept.folder}/many")

    def public(self):
        """The public key, which wg computes once."""
        private = self.settings.private
        if private not in self.publics:
            done = subprocess.run(["wg", "pubkey"], input=f"{private}\n", capture_output=True, text=True)
            self.publics[private] = done.stdout.strip()
        return self.publics[private]

    def carry_out(self, change, wanted):
        """On an interface that had none of the peers, as after a start, the server begins the handshakes."""
        is_new = not self.seen.peers.keys() & wanted.peers.keys()
        try:
            carry_out(self.interface(), change, self.kept.endpoints() if is_new else {})
        except Failed as failed:
            raise Fault(str(failed)) from None

    def keep_both(self, listed):
        """Beside others' peers, those that a round sets or takes away have to be known, also where it is cut off."""
        ends = {**self.kept.ends(), **{key: peer["end"] for key, peer in listed.items()}}
        try:
            self.kept.write("ends", text_of_ends(ends))
        except OSError as error:
            raise Fault(f"cannot write to {self.kept.folder}, so nothing is changed: {error.strerror}") from None

    def keep(self, file, listed):
        """Keeps what a start without the register needs. Endpoints that weren't heard since a start stay as they were."""
        seen = {key: peer.endpoint for key, peer in self.seen.peers.items() if peer.endpoint}
        known = {key: at for key, at in {**self.kept.endpoints(), **seen}.items() if key in file.peers}
        texts = {
            # First: a peer without an end isn't set again.
            "ends": text_of_ends({key: peer["end"] for key, peer in listed.items()}),
            "server.conf": file.text,
            "address": file.address,
            "public": self.public(),
            "endpoints": "".join(f"{key}\t{at}\n" for key, at in sorted(known.items())),
        }
        try:
            for name, text in texts.items():
                self.kept.write(name, text)
            self.kept.remove("many")
            self.kept.remove("ended")
        except OSError as error:
            self.say(f"cannot write to {self.kept.folder}, so leases end only while the register can be asked: {error.strerror}")

    def go_without(self, why):
        """The register can't be asked. A network that ended may lose its peers; an interface without any takes those that were kept."""
        if isinstance(why, Refused) and (why.status, why.error) == ENDED and self.has_ended():
            done = "it has ended, and its peers are taken away"
        elif self.restore():
            done = "the peers of the last good round are set"
        else:
            done = "nothing is changed but leases that are over"
        raise Fault(f"cannot ask the register: {why}{self.advice(why)}: {done}")

    def advice(self, why):
        if not isinstance(why, Refused):
            return ""
        if why.status == 401:
            return f"; put a token that is good into {self.folder}/token"
        if (why.status, why.error) == ENDED:
            ends = f"move {self.folder} away and systemctl disable --now wgr-sync@{self.name}.timer wgr-net@{self.name}"
            return f"; if the network was ended, {ends}, else look at {self.folder}/url"
        return f"; look at {self.folder}/url" if why.status in range(300, 500) and why.status != 429 else ""

    def has_ended(self):
        """Whether the register has said so for so many rounds as the operator wants; then the peers are taken away."""
        count = self.kept.number("ended") + 1
        try:
            self.kept.write("ended", f"{count}\n")
        except OSError as error:
            self.say(f"cannot write to {self.kept.folder}: {error.strerror}")
        if self.settings.ended is None or count < self.settings.ended:
            return False
        nothing = Wanted(None, None, {}, self.mine(), set(), set(), set())
        self.carry_out(change_of(self.interface().name, nothing, self.seen), nothing)
        for name in ["server.conf", "ends"]:
            self.kept.remove(name)
        return True

    def restore(self):
        """Sets the peers of the last good round whose lease isn't over, on an interface that has none."""
        try:
            file = File(self.kept.read("server.conf").encode())
        except NoReply:
            return False
        # What was kept may be another network's, which had this name before.
        if self.mine() or self.kept.read("public") != self.public():
            return False
        over = set(self.kept.over(time.time()))
        wanted = self.wanted(file, [key for key in file.peers if key in self.kept.ends() and key not in over])
        change = change_of(self.interface().name, wanted, self.seen)
        self.carry_out(change, wanted)
        return bool(change)

    def report(self, links, deadline, file):
        """What the interface saw, in a form that can't add a peer, whatever ended since: a line of a known key gives its
        status and nothing else. In place of its prefixes, each has the server's address: that of a key which is no longer
        known would lead to a new peer, and refuses the whole."""
        mark = hashlib.sha256(self.settings.token.encode()).hexdigest()
        if self.only_reads(mark):
            return
        address = ipaddress.ip_network(file.address.partition("/")[0])
        lines = [f"(none)\t{self.public()}\t{file.port}\toff\n"]
        for key in file.peers:
            seen = self.seen.peers.get(key, Peer(frozenset()))
            lines.append(f"{key}\t(none)\t(none)\t{address}\t{seen.handshake}\t{seen.received}\t{seen.sent}\toff\n")
        text = "".join(lines).encode()
        digest = hashlib.sha256(text).hexdigest()
        if self.kept.read("reported") == digest:
            return
        try:
            told = json.loads(self.ask(links, "POST", f"{self.settings.path}/dump", deadline, text))
            if told.get("added") != []:
                raise NoReply(f"it has added {told.get('added')}")
        except Refused as refused:
            self.note_refused(refused, mark)
        except (NoReply, ValueError, AttributeError) as why:
            raise Fault(f"cannot report to the register: {why}") from None
        else:
            self.note("reported", digest)

    def only_reads(self, mark):
        """Whether the register has said so of this token within an hour."""
        told, _, since = self.kept.read("reads-only").partition(" ")
        return told == mark and bool(NUMBER.fullmatch(since)) and 0 <= time.time() - int(since) < TRY_AGAIN

    def note_refused(self, refused, mark):
        if refused.status == 403:
            self.say("the token only reads, so nothing is reported: one with the full right reports handshakes too")
            self.note("reads-only", f"{mark} {int(time.time())}")
        elif refused.error == "wrong_server":
            raise Fault("the key is not that of the network")
        elif refused.status == 409:
            self.say("a peer ended meanwhile: the next round reports")
        else:
            raise Fault(f"cannot report to the register: {refused}")

    def note(self, name, text):
        """Keeps what only saves work."""
        try:
            self.kept.write(name, text)
        except OSError:
            pass


def text_of_ends(ends):
    return "".join(f"{end} {key}\n" for key, end in ends.items())


def lies_in(prefix, spaces):
    prefix = ipaddress.ip_network(prefix)
    return any(prefix.version == space.version and prefix.subnet_of(space) for space in spaces)
