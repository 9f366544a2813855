"""The scripts of dist/, run as an operator does, with the program under test as their `wgr`."""

import os
import sqlite3
import subprocess
import sys
import unittest
from contextlib import closing
from pathlib import Path

import program
from faulty import scratch
from program import Left
from serving import Server, make_register

DIST = Path(__file__).resolve().parent.parent / "dist"

# What the scripts say of a file that wgr doesn't open since its tables are of no version, or of an earlier one.
OTHER = "wgr: not_a_register: it is another file, or has tables of another version"
BEFORE = "wgr: not_a_register: its tables are of an earlier version, and wgr migrate {} takes them to this one"
# And of one that they read by themselves.
ANOTHER = "no register whose tables have version 3"
OLD = "a register of an earlier version, which wgr migrate takes to this one"
NEW = "a register of a later wgr, with second pools"

# In place of systemd: `wgr.service` is the process whose number is in the file `main`. It notes what it is asked.
SYSTEMCTL = """
echo "$*" >>"$ROOM/asked"
main=$(cat "$ROOM/main" 2>/dev/null)
is_stopped() {
    local state
    state=$(<"/proc/$main/stat") && [[ ${state##*) } == T* ]]
}
case "$1 $2 $3" in
    'is-active --quiet wgr.service') [[ -n $main ]] ;;
    'freeze wgr.service ') kill -STOP "$main" && until is_stopped; do :; done ;;
    'thaw wgr.service ') kill -CONT "$main" ;;
    'show --property MainPID') echo "$main" ;;
    'show --property FreezerState') if is_stopped; then echo frozen; else echo running; fi ;;
    'start wgr '* | 'stop wgr '*) source "$ROOM/$1" ;;
    'enable --now wgr-http.socket') source "$ROOM/start" ;;
    *) exit 1 ;;
esac
"""


class Shipped(unittest.TestCase):
    """A folder with a register, and with commands in place of those of the system."""

    maxDiff = None

    def setUp(self):
        self.folder = Path(self.enterContext(scratch()))
        self.database = make_register(self.folder)
        self.bin = self.folder / "bin"
        self.bin.mkdir()
        os.symlink(program.path, self.bin / "wgr")
        # The tests' own Python, without what is installed for it: the scripts need its standard library alone.
        self.stand_in("python3", f'exec {sys.executable} -S "$@"')
        self.known = os.environ | {"PATH": f"{self.bin}:{DIST}:{os.environ['PATH']}", "ROOM": str(self.folder), "DB": self.database}

    def stand_in(self, name, text):
        """A command of this name that the scripts find before the system's."""
        path = self.bin / name
        # What a link leads to must not be written.
        path.unlink(missing_ok=True)
        path.write_text(f"#!/bin/bash\n{text}\n")
        path.chmod(0o755)

    def run_script(self, *words, text="", **known):
        """What a script, or another command, leaves."""
        done = subprocess.run(
            [str(word) for word in words], input=text.encode(), capture_output=True,
            env=self.known | known, cwd=self.folder, timeout=program.LIMIT,
        )
        return Left(done.returncode, done.stdout, done.stderr)

    def serve(self, database=None, **words):
        return self.enterContext(Server(database or self.database, **words))

    def copies(self, folder="copies"):
        return sorted((self.folder / folder).glob("*.db"))

    def names(self, folder="copies"):
        """All that is there, hidden files too."""
        return sorted(path.name for path in (self.folder / folder).iterdir()) if (self.folder / folder).exists() else []

    def assert_untouched(self, before, names):
        """The register is the same file, byte for byte, and these are all names beside it."""
        # The difference of two such files would take minutes to print.
        self.assertTrue(Path(self.database).read_bytes() == before, "the register is changed")
        self.assertEqual(self.names("."), names)


def rows_of(path, sql):
    """What Python's SQLite reads of a file that nobody changes."""
    with closing(sqlite3.connect(f"file:{path}?mode=ro&immutable=1", uri=True)) as link:
        return link.execute(sql).fetchall()


def is_stopped(process):
    return Path(f"/proc/{process.pid}/stat").read_text().rpartition(") ")[2].startswith("T")
