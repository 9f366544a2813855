"""The example of each word's help, run by a shell one after the other, and what it prints."""

import os
import subprocess
import tempfile
import unittest
from pathlib import Path

import program
from serving import free_port
from tools import needs

# In an order in which each finds what it needs; `serve`, which doesn't end by itself, has a test of its own.
WORDS = ["plan", "init", "migrate", "tenant-add", "token-grant", "network-add", "show", "orders", "batch", "token-end", "network-end"]


def example_of(word):
    """The commands of the word's example, each in one text, and what the last of them prints."""
    told = subprocess.run([program.path, word, "--help"], capture_output=True, text=True, timeout=program.LIMIT)
    lines = [line[2:] for line in told.stdout.partition("\nExample:\n")[2].rstrip("\n").split("\n")]
    commands, printed = [], []
    for line in lines:
        if line.startswith("$ "):
            commands.append(line[2:])
        elif commands[-1].endswith("\\"):
            commands[-1] += f"\n{line}"
        else:
            printed.append(line)
    return commands, "\n".join(printed)


class Examples(unittest.TestCase):
    maxDiff = None

    def setUp(self):
        self.folder = Path(self.enterContext(tempfile.TemporaryDirectory()))
        os.symlink(program.path, self.folder / "wgr")
        self.known = os.environ | {"PATH": f"{self.folder}:{os.environ['PATH']}"}

    def shell(self, command):
        return subprocess.run(
            ["bash", "-c", command],
            cwd=self.folder,
            env=self.known,
            capture_output=True,
            text=True,
            timeout=program.LIMIT,
        )

    @needs("openssl", "wg")
    def test_words(self):
        self.shell("wg genkey >server.key")
        for word in WORDS:
            with self.subTest(word):
                commands, printed = example_of(word)
                told = [self.shell(command) for command in commands]
                self.assertEqual([(it.returncode, it.stderr) for it in told], [(0, "")] * len(told))
                if word == "show":
                    # The register of its example has more entries.
                    self.assertEqual([line.split()[:1] for line in told[-1].stdout.splitlines()[:2]], [line.split()[:1] for line in printed.splitlines()[:2]])
                elif printed:
                    self.assertEqual(told[-1].stdout.rstrip("\n"), printed)
                else:
                    # Its token is nobody's, so the reply is one of the refusals.
                    self.assertEqual(told[-1].stdout.splitlines()[0], "HTTP/1.1 401 Unauthorized")

    def test_serve(self):
        self.shell("wgr init register.db")
        (command,), printed = example_of("serve")
        self.assertIn(":8080 ", command)
        serving = subprocess.Popen(
            ["bash", "-c", "exec " + command.replace(":8080 ", f":{free_port()} ")],
            cwd=self.folder,
            env=self.known,
            stdout=subprocess.PIPE,
            text=True,
        )
        with serving:
            try:
                self.assertEqual(serving.stdout.readline().rstrip("\n"), printed)
            finally:
                serving.kill()
