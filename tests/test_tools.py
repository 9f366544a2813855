"""The tools of dist/: their scripts are clean, their units well-formed, and their options those of the man page."""

import re
import shutil
import subprocess
import tempfile
import unittest
from pathlib import Path

from shipped import DIST
from tools import needs

PYTHON = ["change-network", "client", "end-token", "figures", "free-pool", "history", "probe"]

UNITS = ["wgr-backup.service", "wgr-backup.timer", "wgr-figures.service", "wgr-figures.timer", "wgr-probe.service", "wgr-probe.timer"]


class Tools(unittest.TestCase):
    @needs("shellcheck")
    def test_shellcheck(self):
        told = subprocess.run(["shellcheck", DIST / "wgr-backup", DIST / "wgr-clock"], capture_output=True, text=True)
        self.assertEqual((told.returncode, told.stdout), (0, ""))

    @needs("systemd-analyze")
    def test_the_units(self):
        units = [DIST / name for name in UNITS]
        with tempfile.TemporaryDirectory() as folder:
            # Their programs and man pages need not be installed where the tests run.
            for unit in [*units, DIST / "wgr.service"]:
                text = re.sub(r"(?m)^(Exec\w+=-?)/usr/local/\S+", rf"\1{shutil.which('true')}", unit.read_text())
                (Path(folder) / unit.name).write_text(re.sub(r"Documentation=.*\n", "", text))
            told = subprocess.run(["systemd-analyze", "verify", *(Path(folder) / unit.name for unit in units)], capture_output=True, text=True)
            # It says of an unknown key what it is, and is content.
            self.assertEqual((told.returncode, [line for line in told.stderr.splitlines() if "wgr" in line]), (0, []))

    @needs("mandoc")
    def test_the_page(self):
        told = subprocess.run(["mandoc", "-T", "lint", "-W", "warning", DIST / "wgr-tools.8"], capture_output=True, text=True)
        self.assertEqual((told.returncode, told.stdout), (0, ""))

    def test_the_options_are_those_of_the_page(self):
        page = (DIST / "wgr-tools.8").read_text()
        for name in ["backup", *PYTHON]:
            with self.subTest(name):
                helped = subprocess.run([DIST / f"wgr-{name}", "--help"], capture_output=True, text=True)
                self.assertEqual((helped.returncode, helped.stderr), (0, ""))
                synopsis = page.partition(f"\n.Nm wgr-{name}\n.Op")[2].partition("\n.Nm")[0].partition("\n.Sh")[0]
                told = {f"--{option}" for option in re.findall(r"Fl -([\w-]+)", synopsis)}
                self.assertEqual(set(re.findall(r"(?m)^ +(?:-h, )?(--[\w-]+)", helped.stdout)) - {"--help"}, told)


if __name__ == "__main__":
    unittest.main()
