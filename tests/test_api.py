"""The examples of docs/API.md, run one after the other by a shell with curl."""

import os
import subprocess
import tempfile
import unittest
from pathlib import Path

from serving import TOKEN, Server, make_register
from tools import needs

PAGE = Path(__file__).resolve().parent.parent / "docs" / "API.md"


def examples():
    """Each command of the page with the lines that are printed below it."""
    found = []
    for place, block in enumerate(PAGE.read_text().split("```\n")):
        if place % 2:
            for command in block.split("$ ", 1)[1].split("\n$ "):
                line, _, printed = command.partition("\n")
                found.append((line, printed.rstrip("\n")))
    return found


@needs("curl")
class Page(unittest.TestCase):
    maxDiff = None

    def test_examples(self):
        with tempfile.TemporaryDirectory() as folder, Server(make_register(folder)) as server:
            known = os.environ | {"TOKEN": TOKEN, "URL": f"http://127.0.0.1:{server.port}"}
            for line, printed in examples():
                with self.subTest(line):
                    told = subprocess.run(
                        ["bash", "-c", line], cwd=folder, env=known, capture_output=True
                    )
                    self.assertEqual(told.stdout.decode().rstrip("\n"), printed)
