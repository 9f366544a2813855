"""docs/ARCHITECTURE.md says what is in the tree, the picture of the crates is that of crates.txt, and tools/rules names what is there."""

import re
import subprocess
import unittest
from pathlib import Path

TOP = Path(__file__).resolve().parent.parent
CRATES = TOP / "crates"
PAGE = (TOP / "docs/ARCHITECTURE.md").read_text()
PAGES = [*TOP.glob("*.md"), *TOP.glob("*/*.md"), *CRATES.glob("*/README.md")]
# For each crate those that it names.
USES = {name: uses.split() for name, uses in re.findall(r"(?m)^(\w+):(.*)$", (TOP / "crates.txt").read_text())}


def section(heading):
    return PAGE.partition(f"\n## {heading}\n")[2].partition("\n## ")[0]


def crates_listed():
    """The crates of the page's list, each with what it says of it."""
    return re.findall(r"(?m)^- \[`(\w+)`\]\([^)]*\): (.*)$", section("The crates"))


def unfound(place):
    """The names before a path in brackets that are not in this file, of each such path of a place."""
    lost = []
    for names, path in re.findall(r"(\w+(?:, \w+)*) \(([\w/.-]+/[\w/.-]+)\)", place):
        file = TOP / path if path.startswith("dist/") else CRATES / path
        text = file.read_text() if file.exists() else ""
        lost += [(name, path) for name in names.split(", ") if not re.search(rf"\b{name}\b", text)]
    return lost


def lost_files(place):
    """The files of a crate that a place names behind it, and paths of the tree, that are not there."""
    crate = re.match(r"(wgr_\w+)\b.*?: ", place)
    names = re.findall(r"[\w-]+(?:/[\w.-]+)*\.(?:rt|antt|py)\b|\b(?:dist|tests|docs|bench|tools)/[\w/.-]*\w", place)
    known = [it for part in ("src", "specs", "proofs") for it in (CRATES / crate[1] / part).rglob("*")] if crate else []
    return [it for it in names if not any(str(file).endswith(f"/{it}") for file in known) and not any((top / it).exists() for top in (TOP, CRATES)) and not [*CRATES.rglob(f"*/{it}")]]


def printed(tool):
    return subprocess.run([TOP / "tools" / tool], capture_output=True, text=True, check=True).stdout


class Architecture(unittest.TestCase):
    maxDiff = None

    def test_the_picture(self):
        """It has the nodes and edges that Graphviz is given, with their colours, and the legend. Where they are is Graphviz's own."""
        given, drawn = printed("picture"), (TOP / "docs/crates.svg").read_text()
        nodes = re.findall(r'(?m)^(\w+) \[fillcolor="(.*)"\]$', given)
        edges = [(f"{one}&#45;&gt;{other}", "none") for one, other in re.findall(r"(?m)^(\w+) -> (\w+)$", given)]
        self.assertEqual([name for name, _ in nodes], list(USES))
        shapes = re.findall(r'<title>(.*)</title>\n<path fill="([^"]*)"', drawn)
        self.assertEqual(sorted(shapes), sorted(nodes + edges), "run tools/picture | dot -Tsvg > docs/crates.svg")
        colours, kinds = zip(*re.findall(r'bgcolor="(\S+)"[^>]*></td><td[^>]*>([^<]+)</td>', given))
        self.assertEqual(re.findall(r'<polygon fill="(#\w+)"', drawn), list(colours))
        self.assertEqual(re.findall(r"<text[^>]*>([^<]*)</text>", drawn)[: len(kinds)], list(kinds))

    def test_each_crate_has_a_row(self):
        self.assertEqual([name for name, _ in crates_listed()], list(USES))
        self.assertEqual(sorted(USES), sorted(path.parent.name for path in CRATES.glob("*/src")))

    def test_the_program_has_the_crates_that_are_said(self):
        used, todo = set(), ["wgr_prog"]
        while todo:
            name = todo.pop()
            used.add(name)
            todo += [it for it in USES[name] if it in USES and it not in used]
        [said] = re.findall(r"(?m)^All are in the program but (.*?):", PAGE)
        self.assertEqual(sorted(re.findall(r"`(\w+)`", said)), sorted(set(USES) - used))

    def test_crates_name_what_they_cite(self):
        """Each line of crates.txt has the crates that the files of its crate cite, and no others."""
        known = {name for uses in USES.values() for name in uses}
        for crate, uses in USES.items():
            files = [it for part in ("src", "specs", "proofs") for it in (CRATES / crate / part).rglob("*.*t")]
            words = {word for it in files for word in re.findall(r"\w+", re.sub(r"(?m)(--|//).*$", "", it.read_text()))}
            with self.subTest(crate):
                self.assertEqual(sorted(set(uses) - words), [])
                cited = {word for it in files for word in re.findall(r"\bRattle\.(\w+)", it.read_text())} & known
                self.assertEqual(sorted(cited - {crate, *uses}), [])

    def test_files_are_there(self):
        lost = []
        for page in PAGES:
            for path in sorted(set(re.findall(r"\bwgr_\w+/(?:src|specs|proofs|edits|must-fail)/[\w/]+\.\w+", page.read_text()))):
                if not (CRATES / path).exists():
                    lost.append((str(page.relative_to(TOP)), path))
        self.assertEqual(lost, [])

    def test_steps_are_there(self):
        """The contracts by which a crate's step is made are in the code or in a crate's laws."""
        code = "\n".join(it.read_text() for it in CRATES.glob("*/src/**/*.rt"))
        steps = [(crate, said.partition(" Step: ")[2]) for crate, said in crates_listed() if " Step: " in said]
        self.assertGreater(len(steps), 20)
        lost = []
        for crate, step in steps:
            words = {part for name in re.findall(r"`([\w:]+)`", step) for part in name.split("::")}
            self.assertTrue(words, crate)
            lost += [(crate, word) for word in sorted(words) if not re.search(rf"\b{word}\b", code) and word != "sqlite"]
        self.assertEqual(lost, [])

    def test_rules_are_where_they_are_said_to_be(self):
        entries = printed("rules")
        rules = [it for it in entries.splitlines() if re.match(r" .*\(\w+/.*\)", it)]
        self.assertGreater(len(rules), 90)
        self.assertEqual([lost for rule in rules for lost in unfound(rule)], [])

    def test_what_changes_with_what_is_there(self):
        places = [it.strip() for it in printed("rules").partition("\na new command ")[2].splitlines() if it.startswith(" ")]
        self.assertGreater(len(places), 40)
        self.assertEqual([(place, lost_files(place)) for place in places if lost_files(place)], [])

    def test_rules_are_found(self):
        """By words, in any order and case; none is a failure."""
        found = subprocess.run([TOP / "tools/rules", "ADDRESS", "owner"], capture_output=True, text=True)
        self.assertEqual((found.returncode, found.stdout.splitlines()[0]), (0, "the owner of an address"))
        self.assertEqual([it for it in found.stdout.splitlines() if "owner" not in it], [])
        self.assertEqual(subprocess.run([TOP / "tools/rules", "no such rule"], capture_output=True, text=True).returncode, 1)

    def test_the_paths_name_what_is_there(self):
        files = [*CRATES.glob("*/src/**/*.rt"), *CRATES.glob("*/specs/**/*.antt")]
        known = {it.name for it in files} | {word for it in files for word in re.findall(r"\w+", it.read_text())}
        for heading, least in [("The path of one request", 40), ("The path of one order", 40), ("The path of a migration", 6)]:
            words = re.findall(r"`([^`]+)`", section(heading))
            self.assertGreaterEqual(len(words), least)
            names = [name for word in words for name in ([Path(word).name] if word.endswith(".rt") else re.findall(r"\w+", word))]
            self.assertEqual(sorted(set(names) - known), [])

    def test_each_file_has_a_subject(self):
        files = [line for line in printed("files").splitlines() if line.startswith(" ")]
        self.assertEqual(len(files), len(list(CRATES.glob("*/src/**/*.rt"))))
        self.assertEqual([line for line in files if len(line.split()) < 2], [])
