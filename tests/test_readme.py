"""The commands of README.md and the whole of docs/TUTORIAL.md, word for word: each machine is a network namespace with a shell in it."""

import os
import queue
import re
import shutil
import subprocess
import tempfile
import threading
import time
import unittest
from pathlib import Path

import program
from commands import TOP, blocks_of, commands_of, is_printed
from tools import needs

END = "-- end of a command --"
# The name of the server, which the page has, and its address on the cable to each client.
NAME = "vpn.example.net"
# Programs that the pages call, and whose words are looked at.
PROGRAMS = ["curl", "wg", "ip", "jq", "awk", "sed", "grep", "tail", "cat", "tee", "nsenter", "sqlite3", "base64"]
CABLES = {"laptop": ("192.0.2.1", "192.0.2.2"), "desk": ("192.0.2.5", "192.0.2.6")}


def blocks(text):
    """Each block of a text, as commands with what is printed below them."""
    return [list(commands_of(block)) for place, block in enumerate(text.split("```\n")) if place % 2]


def section(page, heading):
    """What a page has below a heading."""
    return (TOP / page).read_text().partition(f"\n## {heading}\n")[2].partition("\n## ")[0]


class Machine:
    """A network namespace, and a shell in it that sees files of its own in place of some of the system's."""

    def __init__(self, name, folder):
        self.space = f"wgr-{name}-{os.getpid() % 10_000:04}"
        subprocess.run(["ip", "netns", "add", self.space], check=True)
        known = os.environ | {"WG_QUICK_USERSPACE_IMPLEMENTATION": "wireguard-go"}
        self.shell = subprocess.Popen(
            ["ip", "netns", "exec", self.space, "bash"],
            cwd=folder,
            env=known,
            stdin=subprocess.PIPE,
            stdout=subprocess.PIPE,
            stderr=subprocess.STDOUT,
            text=True,
            bufsize=1,
        )
        self.lines = queue.Queue()
        threading.Thread(target=self.listen, daemon=True).start()
        self.run("ip link set lo up; mkdir -p /run/wireguard /run/netns")
        self.run("mount -t tmpfs tmpfs /run/wireguard; mount -t tmpfs tmpfs /run/netns")

    def listen(self):
        for line in self.shell.stdout:
            self.lines.put(line)

    def run(self, command):
        """Runs a command, and gives what is printed until it ends."""
        self.shell.stdin.write(f"{command}\necho '{END}'\n")
        told = self.told(lambda lines: lines and lines[-1].endswith(f"{END}\n")).removesuffix(f"{END}\n")
        # A reply has no newline at its end.
        return told + "\n" if told and told[-1] != "\n" else told

    def told(self, is_enough):
        """What is printed from now on until that is enough."""
        lines, end = [], time.monotonic() + program.LIMIT
        while not is_enough(lines):
            lines.append(self.lines.get(timeout=max(0.1, end - time.monotonic())))
        return "".join(lines)

    def end(self):
        self.shell.stdin.close()
        self.shell.wait(program.LIMIT)
        left = subprocess.run(["ip", "netns", "pids", self.space], capture_output=True, text=True).stdout.split()
        subprocess.run(["kill", *left] if left else ["true"], check=False)
        subprocess.run(["ip", "netns", "del", self.space], check=True)


class Page(unittest.TestCase):
    maxDiff = None

    def machine(self, name):
        made = Machine(name, self.folder)
        self.addCleanup(made.end)
        return made

    def setUp(self):
        self.folder = Path(self.enterContext(tempfile.TemporaryDirectory()))
        os.symlink(program.path, self.folder / "wgr")
        os.symlink(TOP / "dist", self.folder / "dist")
        self.server = self.machine("server")
        self.server.run(f"PATH={self.watched()}:$PATH")

    def watched(self):
        """A folder with programs that write their words to a file and then are what they should be."""
        folder = self.folder / "programs"
        folder.mkdir()
        for name in filter(shutil.which, PROGRAMS):
            (folder / name).write_text(f'#!/bin/bash\nprintf "%s\\n" "$0 $*" >>{self.folder}/words\nexec {shutil.which(name)} "$@"\n')
            (folder / name).chmod(0o755)
        return folder

    def no_secret_was_a_word(self, secrets):
        """Of the files with these names, which the page's commands have left in this folder."""
        words = (self.folder / "words").read_text()
        self.assertIn("/peers/1/file/quick", words)
        for path in secrets:
            with self.subTest(path):
                self.assertNotIn((self.folder / path).read_text().strip(), words)

    def follow(self, machine, commands):
        for command, printed in commands:
            with self.subTest(command):
                told = machine.run(command)
                if command.endswith("&") and not told:
                    # What runs on prints it once it is ready.
                    told = machine.told(lambda lines: "".join(lines) == printed)
                self.assertTrue(is_printed(printed, told), (printed, told))


@needs("ip", "wg", "curl", root=True)
class Readme(Page):
    def test_the_session(self):
        """In a home of its own: no secret is left where the clone would be."""
        home = self.folder / "home"
        home.mkdir()
        self.server.run(f"HOME={home}")
        before = {*self.folder.iterdir(), self.folder / "words"}
        (session,) = blocks(section("README.md", "A first session"))
        self.follow(self.server, session)
        self.server.run("kill %1; wait")
        self.assertEqual({*self.folder.iterdir()}, before)
        self.no_secret_was_a_word([f"home/wgr-session/{name}" for name in ["acme.token", "server.private", "laptop.private"]])


@needs("ip", "wg", "wg-quick", "wireguard-go", "ping", "curl", "jq", "nsenter", root=True)
class Tutorial(Page):
    def setUp(self):
        super().setUp()
        self.clients = {name: self.machine(name) for name in CABLES}
        for name, (here, there) in CABLES.items():
            client = self.clients[name]
            ends = [name, "netns", self.server.space, "type", "veth", "peer", "name", "eth0", "netns", client.space]
            subprocess.run(["ip", "link", "add", *ends], check=True)
            self.server.run(f"ip address add {here}/30 dev {name}; ip link set {name} up")
            client.run(f"ip address add {there}/30 dev eth0; ip link set eth0 up")
            client.run(f"echo {here} {NAME} > {name}.hosts; mount --bind {name}.hosts /etc/hosts")

    def wait_for_handshakes(self):
        """Waits until each client has told the server where it is, by its first keepalive."""
        end = time.monotonic() + program.LIMIT
        while re.search(r"\t0$", self.server.run("ip netns exec office wg show office latest-handshakes"), re.MULTILINE):
            self.assertLess(time.monotonic(), end)
            time.sleep(0.1)

    def test_the_page(self):
        *of_server, of_laptop, plan = blocks((TOP / "docs/TUTORIAL.md").read_text())
        for commands in [*of_server, plan]:
            self.follow(self.server, commands)
        for name, client in self.clients.items():
            client.run(f"wg-quick up ./{name}.conf")
        self.wait_for_handshakes()
        self.follow(self.clients["laptop"], of_laptop)
        self.server.run("kill %1; wait; dist/wgr-net down office")
        self.no_secret_was_a_word(["acme.token", "server.private", "laptop.private", "desk.private"])


class Install(unittest.TestCase):
    def test_the_commands(self):
        """They are the first of docs/OPERATIONS.md, which test_operations.py runs."""
        (commands,) = blocks(section("README.md", "Install"))
        (followed, *_) = blocks_of("docs/OPERATIONS.md")["Installing"]
        self.assertEqual(commands, [*commands_of(followed)][: len(commands)])


class Left(unittest.TestCase):
    def test_keys_are_ignored(self):
        """What the sessions leave, where they are tried at the top of the clone, isn't committed by `git add -A`."""
        left = ["acme.token", "acme.header", "register.db", "register.db-wal", "server.private", "laptop.conf", "office/key", "office/token"]
        asked = subprocess.run(["git", "check-ignore", "--no-index", *left], cwd=TOP, capture_output=True, text=True)
        self.assertEqual(asked.stdout.split(), left, asked.stderr)
