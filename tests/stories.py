"""Hosts on which blocks of commands of docs/OPERATIONS.md are followed, word for word.

A command is run as the page has it, in a root's shell of its own for each block. VERSION is the release's version, and
the newest copies take the place of those that the page names, in their order.
"""

import json
import re
import shutil
import tempfile
import time
import unittest
from pathlib import Path

import program
from commands import blocks_of, commands_of, is_printed
from fronts import make_certificate
from hosts import Host
from test_package import release

PAGE = blocks_of("docs/OPERATIONS.md")
COPY = re.compile(r"\d{8}T\d{6}\.\d{3}Z\.db")
# Commands of the system that say what they do, of which the page shows nothing.
TALK = re.compile(r"(apt install|nginx -t|systemctl enable|systemctl disable) ")
URL = "https://wgr.example.net"
# The story that runs each block, by the block's heading and its place below it.
FOLLOWED = {
    ("Installing", 0): "package",
    ("Installing", 1): "by hand",
    ("Upgrading", 0): "package",
    ("Upgrading", 1): "by hand",
    ("From an installation by hand to the package", 0): "by hand",
    ("Migrating a register", 0): "package",
    ("TLS and slow clients", 0): "package",
    ("TLS and slow clients", 1): "by hand",
    ("TLS and slow clients", 2): "by hand",
    ("Several registers on one host", 0): "by hand",
    ("Orders", 0): "package",
    ("A customer gets a token", 0): "package",
    ("A server's token", 0): "by hand",
    ("A tenant gets a network", 0): "package",
    ("Rotating a token", 0): "package",
    ("A lost or leaked token", 0): "package",
    ("A token for curl", 0): "package",
    ("Backup and restore", 0): "package",
    ("To restore", 0): "package",
    ("To restore", 1): "package",
    ("Audit: who had which address when", 0): "package",
    ("Audit: who had which address when", 1): "package",
    ("Monitoring: health, figures and alerts", 0): "package",
    ("Monitoring: health, figures and alerts", 1): "package",
    ("The clock", 0): "package",
    ("The clock", 1): "package",
    ("Changing a network", 0): "package",
    ("Changing a network", 1): "package",
    ("Failover to a second host", 0): "package",
    ("Failover to a second host", 1): "package",
    ("Reading the file", 0): "by hand",
    ("A server that follows its network", 0): "by hand",
    ("The Internet behind a network", 0): "by hand",
    ("Preshared keys, certificates and settings", 0): "package",
    ("An ordinary interface by hand", 0): "package",
    ("Taking over an existing WireGuard server", 0): "package",
    ("Taking over an existing WireGuard server", 1): "package",
    ("A page for tenants", 0): "by hand",
    ("A page for tenants", 1): "by hand",
}


def blocks_of_story(story):
    return {block for block, by in FOLLOWED.items() if by == story}


class Story(unittest.TestCase):
    """Hosts on which blocks of the page are followed."""

    maxDiff = None

    def setUp(self):
        self.folder = Path(self.enterContext(tempfile.TemporaryDirectory()))
        self.folder.chmod(0o711)
        self.followed = set()
        self.host = self.start("first")
        make_certificate(self.folder)

    def start(self, name):
        host = Host(self.folder / name)
        self.addCleanup(host.stop)
        host.start()
        return host

    def copies(self, host):
        return sorted((host.folder / "backups/wgr").glob("*.db"))

    def follow(self, heading, place=0, folder="/root", host=None):
        """Runs the commands of a block, each of which has to print what the page has below it."""
        host = host or self.host
        self.followed.add((heading, place))
        block = PAGE[heading][place].replace("VERSION", release()["version"])
        with host.shell(folder) as shell:
            for command, printed in commands_of(block):
                newest = self.copies(host)[-len(COPY.findall(command)) :]
                command = COPY.sub(lambda _: newest.pop(0).name, command)
                left = shell.run(command)
                self.assertEqual(left.status, 0, (command, left))
                if not TALK.match(command):
                    self.assertEqual(left.err, "", command)
                    self.assertTrue(is_printed(printed, left.out), (command, printed, left.out))

    def do(self, *commands, folder="/root", host=None):
        """Runs commands of the story that no block has, and gives what the last one prints."""
        with (host or self.host).shell(folder) as shell:
            for command in commands:
                left = shell.run(command)
                self.assertEqual(left.status, 0, (command, left))
        return left.out

    def order(self, *orders):
        """Orders of the operator to the running service."""
        self.do(*(f"wgr send /run/wgr/orders {order}" for order in orders))

    def ask(self, path, body=None, method="", header="acme.header"):
        """The status of a reply, and its JSON. The request goes through the proxy."""
        data = f"-d '{json.dumps(body)}'" if body is not None else ""
        told = self.do(f"curl -s -w ' %{{http_code}}' -H @{header} {data} {method and '-X ' + method} {URL}{path}")
        text, _, status = told.rpartition(" ")
        return int(status), json.loads(text)

    def trust(self):
        """Puts the certificate of the proxy where the host's programs find the ones that they trust."""
        shutil.copy(self.folder / "wgr.crt", self.host.inside("/root/authority.crt"))
        self.do("mkdir -p /etc/ssl/certs", "mv authority.crt /etc/ssl/certs/ca-certificates.crt")

    def use_program(self, path, host=None):
        """Puts the program under test in the place of the released one."""
        host = host or self.host
        shutil.copy(program.path, host.folder / "program")
        self.do(f"install -m 755 /run/hosts/{host.folder.name}/program {path}", "systemctl try-restart wgr", host=host)

    def main_process(self):
        return self.host.show("wgr.service", "MainPID")

    def wait_until(self, is_so):
        end = time.monotonic() + program.LIMIT
        while not is_so():
            self.assertLess(time.monotonic(), end)
            time.sleep(0.05)
