"""tests/run itself: what it counts and prints of tests that are made on the spot."""

import shutil
import subprocess
import sys
import tempfile
import unittest
from pathlib import Path

HERE = Path(__file__).resolve().parent

MADE = {
    "test_rows.py": """
import unittest

class Rows(unittest.TestCase):
    def test_a_table(self):
        for number in [1, 2, 3]:
            with self.subTest("a row", number=number):
                self.assertNotEqual(number, 2)

    def test_a_good_table(self):
        for number in [1, 3]:
            with self.subTest("a row", number=number):
                self.assertNotEqual(number, 2)

    def test_alone(self):
        pass
""",
    "test_kinds.py": """
import unittest
import program

class Kinds(unittest.TestCase):
    def test_the_program(self):
        self.assertRegex(program.path, "/true$")

    def test_error(self):
        raise OSError("an error")

    @unittest.skip("a reason")
    def test_skipped(self):
        pass

    @unittest.expectedFailure
    def test_unexpected(self):
        pass

class Unready(unittest.TestCase):
    @classmethod
    def setUpClass(cls):
        raise OSError("nothing is ready")

    def test_never(self):
        pass
""",
}
BROKEN = {"test_broken.py": "import nothing_of_this_name\n"}

# The files that there are, the names, the status, the last line, and what else is printed.
RUNS = [
    ("all", MADE, [], 1, "6 passed, 4 failed, 1 skipped", ["(number=2)", "an error", "test_unexpected", "nothing is ready", "1 skipped: a reason"]),
    ("a file", MADE, ["test_rows"], 1, "5 passed, 1 failed, 0 skipped", ["(number=2)"]),
    ("a test", MADE, ["Rows.test_alone"], 0, "1 passed, 0 failed, 0 skipped", []),
    ("two names", MADE, ["test_alone", "test_the_program"], 0, "2 passed, 0 failed, 0 skipped", []),
    ("a skipped one", MADE, ["test_skipped"], 0, "0 passed, 0 failed, 1 skipped", ["1 skipped: a reason"]),
    ("no such name", MADE, ["nobody"], 1, "tests/run: no test has such a name", []),
    ("a file that can't be read", BROKEN, [], 1, "0 passed, 1 failed, 0 skipped", ["nothing_of_this_name"]),
]


class Runner(unittest.TestCase):
    def test_an_earlier_python(self):
        script = "import runpy, sys; sys.version_info = (3, 10); runpy.run_path(sys.argv[1], run_name='__main__')"
        ran = subprocess.run([sys.executable, "-c", script, HERE / "run", "nobody"], stdout=subprocess.PIPE, stderr=subprocess.STDOUT, text=True)
        self.assertEqual((ran.returncode, ran.stdout), (1, "tests/run: Python 3.11 or later is needed\n"))

    def test_runs(self):
        for name, files, names, status, last, printed in RUNS:
            with self.subTest(name), tempfile.TemporaryDirectory() as folder:
                for own in ["run", "program.py", "tools.py"]:
                    shutil.copy(HERE / own, folder)
                for file, text in files.items():
                    (Path(folder) / file).write_text(text)
                words = [f"{folder}/run", "/bin/true", *names]
                ran = subprocess.run(words, stdout=subprocess.PIPE, stderr=subprocess.STDOUT, text=True)
                self.assertEqual((ran.returncode, ran.stdout.splitlines()[-1]), (status, last), ran.stdout)
                for text in printed:
                    self.assertIn(text, ran.stdout)
