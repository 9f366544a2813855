"""What is released with the program has its version."""

import json
import unittest
from pathlib import Path

from program import Left, run
from version import version

TOP = Path(__file__).resolve().parent.parent

# A file that says which version it is of, and where.
VERSIONS = [
    ("the man page", "dist/wgr.8", lambda text: text.partition("\n.Os wgr ")[2].partition("\n")[0]),
    ("the OpenAPI page", "docs/openapi.yaml", lambda text: json.loads(text)["info"]["version"]),
    ("the release", "dist/release/RELEASE", lambda text: text.partition("version ")[2].partition("\n")[0]),
]


class Release(unittest.TestCase):
    def test_versions(self):
        with self.subTest("the program"):
            self.assertEqual(run(["--version"]), Left(0, f"wgr {version()}\n".encode()))
        for name, path, find in VERSIONS:
            with self.subTest(name):
                self.assertEqual(find((TOP / path).read_text()), version())
