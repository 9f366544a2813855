"""The pages: their links lead somewhere, and the tests and wrong edits that they name are there."""

import re
import unittest
from pathlib import Path

TOP = Path(__file__).resolve().parent.parent
CRATES = sorted(it.parent.name for it in TOP.glob("crates/*/src"))
PAGES = [*TOP.glob("*.md"), *TOP.glob("*/*.md"), *TOP.glob("crates/*/README.md")]


def anchors(page):
    """The anchors of a page's headings."""
    for heading in re.findall(r"(?m)^#+ (.*)$", page.read_text()):
        yield re.sub(r"[^\w -]", "", heading.lower()).replace(" ", "-")


def named_tests(line):
    """The tests that a line names, each with its file: those behind a file are of that file."""
    file = None
    for word in re.findall(r"`([^`]+)`", line):
        if re.search(r"\.\w+$", word):
            file = word if re.fullmatch(r"test_\w+\.py", word) else None
            if file:
                yield file, ""
        elif file and re.fullmatch(r"(test|an?)_\w+|[A-Z]\w+", word):
            yield file, word


def rows(page):
    """The rows of a page's tables of wrong edits: of each the edits, and what has seen them."""
    place = None
    for line in page.read_text().splitlines():
        cells = [cell.strip() for cell in line.strip("|").split(" | ")]
        if cells[0] == "Wrong edit":
            place = cells.index("Seen by")
        elif not line.startswith("|"):
            place = None
        elif place and line.startswith("| "):
            yield re.findall(r"`(\w+)`", cells[0]), cells[place] if place < len(cells) else ""


def rust_tests(cell):
    """The tests of crates that a cell names, each with its file."""
    file = None
    for word in re.findall(r"`([^`]+)`", cell):
        if re.search(r"\.\w+$", word):
            file = word if word.endswith(".rt") else None
            if file:
                yield file, ""
        elif file:
            yield file, word


def heads_of(name, code):
    """The heads of the functions with this name, each with its contract: they end where a body or the next function begins."""
    return "".join(re.findall(rf"(?ms)^ *(?:pub )?fn {name}\b.*?(?=^ *{{|{{}}$|^ *(?:pub )?fn |\Z)", code))


class Pages(unittest.TestCase):
    maxDiff = None

    def test_links(self):
        lost = []
        for page in PAGES:
            for link in re.findall(r"\]\((?!http)([^)]+)\)", page.read_text()):
                path, _, anchor = link.partition("#")
                target = (page.parent / path).resolve() if path else page
                if not target.exists() or anchor and anchor not in anchors(target):
                    lost.append((page.name, link))
        self.assertEqual(lost, [])

    def test_tests_are_there(self):
        lost = []
        for page in PAGES:
            for file, name in {pair for line in page.read_text().splitlines() for pair in named_tests(line)}:
                path = TOP / "tests" / file
                if not path.exists() or name and not re.search(rf"\b(def|class) {name}\b", path.read_text()):
                    lost.append((page.name, file, name))
        self.assertEqual(lost, [])

    def test_each_file_of_the_tests_has_a_row(self):
        """Beside those that have tests, in the page's first table."""
        table = (TOP / "tests/README.md").read_text().partition("| File |")[2].partition("\n\n")[0]
        named = [name for line in table.splitlines() for name in re.findall(r"`([^`]+)`", line.split(" | ")[0])]
        files = [it.name + "/" * it.is_dir() for it in (TOP / "tests").iterdir() if not it.name.startswith(("test_", "__pycache__"))]
        self.assertEqual(sorted(named), sorted(set(files) - {"README.md"}))

    def test_each_crate_has_a_page(self):
        pages = {it.parent.name: it.read_text() for it in TOP.glob("crates/*/README.md")}
        self.assertEqual(sorted(pages), CRATES)
        for crate, text in pages.items():
            with self.subTest(crate):
                self.assertTrue(text.startswith(f"# `{crate}`\n"))
                self.assertLessEqual(len(text.splitlines()), 60)

    def test_edits_are_there(self):
        lost, count = [], 0
        for page in TOP.glob("crates/*/README.md"):
            for edits, _ in rows(page):
                count += len(edits)
                lost += [(page.parent.name, edit) for edit in edits if len([*page.parent.glob(f"*/{edit}.edit")]) != 1]
        self.assertEqual(lost, [])
        self.assertGreater(count, 100)

    def test_what_sees_edits_is_there(self):
        """A test of a crate is in its own files, in those of wgr_tests or in those of wgr_stops."""
        lost = []
        for page in TOP.glob("crates/*/README.md"):
            for edits, cell in rows(page):
                for file, name in rust_tests(cell):
                    places = [TOP / f"crates/{it}/src/{file}" for it in (page.parent.name, "wgr_tests", "wgr_stops")]
                    texts = [it.read_text() for it in places if it.is_file()]
                    if not any(not name or re.search(rf"\bfn {name}\(", text) for text in texts):
                        lost.append((page.parent.name, edits, file, name))
        self.assertEqual(lost, [])

    def test_names_are_there(self):
        """Each name that a crate's page has in backticks is in the sources, or is a file's."""
        files = [it for it in TOP.glob("crates/*/*/**/*") if it.suffix in (".rt", ".antt", ".edit") and "/out/" not in str(it)]
        files += [*TOP.glob("tests/*"), *TOP.glob("tools/*"), *TOP.glob("bench/*"), *TOP.glob("dist/*"), *TOP.glob("docs/*"), *TOP.glob("*")]
        files = [it for it in files if it.is_file() and it.suffix != ".xz"]
        known = {it.stem for it in files} | {it.parent.name for it in files}
        for it in files:
            known |= set(re.findall(r"\w+", it.read_text(errors="replace"))) if it.suffix != ".md" else set()
        lost = []
        for page in TOP.glob("crates/*/README.md"):
            for words in re.findall(r"`([^`]+)`", page.read_text()):
                lost += [(page.parent.name, it) for it in re.findall(r"[A-Za-z_]\w+", words) if it not in known]
        self.assertEqual(lost, [])

    def test_names_of_contracts_are_there(self):
        """A row of calls names functions, types and clauses of the crate's own code."""
        lost = []
        for page in TOP.glob("crates/*/README.md"):
            code = "\n".join(it.read_text() for it in page.parent.glob("src/**/*.rt"))
            for line in page.read_text().splitlines():
                if line.startswith("| `") and "`)" in line.split(" | ")[0]:
                    names = re.findall(r"`([\w:]+)`", line.split(" | ")[0])
                    words = {part for name in names for part in name.split("::")}
                    lost += [(page.parent.name, word) for word in sorted(words) if not re.search(rf"\b{word}\b", code)]
        self.assertEqual(lost, [])

    def test_promises_are_there(self):
        """Each promise of PROMISES.md is carried by functions of the files to which they link, with these clauses."""
        lines = [it for it in (TOP / "docs/PROMISES.md").read_text().splitlines() if re.search(r"^\| .*\.rt\)", it)]
        self.assertGreater(len(lines), 20)
        lost = []
        for line in lines:
            for name, path, clauses in re.findall(r"\[`([\w:]+)`\]\(\.\./(crates/[^)]+)\)(?: \(([^)]*)\))?", line):
                heads = heads_of(name.rpartition("::")[2], (TOP / path).read_text())
                lost += [] if heads else [(line, name)]
                lost += [(line, it) for it in re.findall(r"`(\w+)`", clauses) if f"ensures {it} {{" not in heads]
            self.assertRegex(line, r"\| \[`[^|]*\|$")
        self.assertEqual(lost, [])

    def test_the_first_page_is_short(self):
        """And most of it is for those who use the program."""
        lines = (TOP / "README.md").read_text().splitlines()
        self.assertLessEqual(len(lines), 120)
        self.assertGreater(lines.index("## What is proved"), len(lines) * 2 / 3)
