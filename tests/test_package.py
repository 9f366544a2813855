"""The Debian package of the released program that tools/package makes; test_server_package.py has the other one."""

import gzip
import hashlib
import os
import re
import shutil
import subprocess
import tarfile
import tempfile
import unittest
from pathlib import Path

from test_pages import anchors
from tools import needs

TOP = Path(__file__).resolve().parent.parent
DIST = TOP / "dist"
RELEASE = DIST / "release/RELEASE"
DOCUMENTS = "usr/share/doc/wgr"
# A link of a page, outside of which an installed page is as it is here.
LINK = re.compile(rb"\[([^\]]*)\]\((?!\w+:|#)[^)\s]+\)")
ARCHITECTURES = {"wgr": "amd64", "wgr-server": "all"}

TOOLS = [f"wgr-{name}" for name in ["backup", "change-network", "client", "clock", "end-token", "figures", "free-pool", "history", "probe"]]
TOOL_UNITS = [f"wgr-{name}.{kind}" for name in ["backup", "clock", "clock@", "figures", "probe"] for kind in ["service", "timer"]]

# Each file of the package and the file of the repository that it is, the program and what is made of others apart.
COPIED = {
    "usr/lib/sysusers.d/wgr.conf": DIST / "debian/sysusers",
    "usr/lib/tmpfiles.d/wgr.conf": DIST / "debian/tmpfiles",
    "usr/share/bash-completion/completions/wgr": DIST / "wgr.bash-completion",
    "usr/share/lintian/overrides/wgr": DIST / "debian/lintian-overrides",
    f"{DOCUMENTS}/README.Debian": DIST / "debian/README.Debian",
    f"{DOCUMENTS}/README.md": TOP / "README.md",
    f"{DOCUMENTS}/SECURITY.md": TOP / "SECURITY.md",
    f"{DOCUMENTS}/examples/nginx.conf": DIST / "nginx.conf",
    f"{DOCUMENTS}/examples/haproxy.cfg": DIST / "haproxy.cfg",
    **{f"usr/lib/wgr/{name}": DIST / name for name in ["wgr-listens", "wgr-net", "wgr-sync"]},
    **{f"{DOCUMENTS}/docs/{page.name}": page for page in (TOP / "docs").iterdir()},
    f"{DOCUMENTS}/examples/prometheus-alerts.yml": DIST / "prometheus-alerts.yml",
    **{f"usr/share/wgr/{module.name}": module for module in DIST.glob("wgr_*.py")},
    **{f"usr/share/wgr/page/{file.name}": file for file in (DIST / "page").iterdir()},
    **{f"usr/share/man/man8/{name}.gz": DIST / name for name in ["wgr.8", "wgr-net.8", "wgr-sync.8", "wgr-tools.8"]},
    # The scripts, and their man page under the name of each.
    **{f"usr/bin/{name}": DIST / name for name in TOOLS},
    **{f"usr/share/man/man8/{name}.8.gz": DIST / "wgr-tools.8" for name in TOOLS},
}
SERVICES = ["wgr", "wgr@", "wgr-alert@", "wgr-haproxy", "wgr-http", "wgr-http@", "wgr-net@", "wgr-space", "wgr-space@", "wgr-sync", "wgr-sync@"]
UNITS = [*(f"{name}.service" for name in SERVICES), "wgr-haproxy.socket", "wgr-http.socket", "wgr-http@.socket", "wgr-sync@.timer"]
MADE = {
    *(f"usr/lib/systemd/system/{name}" for name in TOOL_UNITS),
    "usr/bin/wgr",
    *(f"usr/lib/systemd/system/{name}" for name in UNITS),
    f"{DOCUMENTS}/changelog.gz",
    f"{DOCUMENTS}/copyright",
}

# Fields of the control file that have one value; those of the version, the size and the C library are below.
FIELDS = [("Package", "wgr"), ("Architecture", "amd64"), ("Section", "net"), ("Priority", "optional")]

# The words behind `wgr`, the last one under the cursor, and what it may be, in a folder with the files `register.db` and
# `request`. Bash splits words at `=` and `:`.
FILES = ["register.db", "request"]
COMPLETED = [
    ("part of a word", ["token"], ["token-grant", "token-end"]),
    ("a word's help", ["help", "se"], ["serve", "send"]),
    ("no word behind a word's help", ["help", "serve", ""], []),
    ("the register", ["init", ""], FILES),
    ("the register to migrate", ["migrate", ""], FILES),
    ("nothing behind the register to migrate", ["migrate", "register.db", ""], []),
    ("part of migrate", ["mi"], ["migrate"]),
    ("part of a file", ["serve", "reg"], ["register.db"]),
    ("no tenant", ["token-grant", "register.db", ""], []),
    ("a right", ["token-grant", "register.db", "acme", "--right", ""], ["full", "read"]),
    ("part of a right", ["token-grant", "--right", "r"], ["read"]),
    ("a right behind =", ["token-grant", "--right", "=", "f"], ["full"]),
    ("a right at =", ["token-grant", "--right", "="], ["full", "read"]),
    ("the register behind a right", ["token-grant", "--right", "read", ""], FILES),
    ("nothing behind a right", ["token-grant", "register.db", "acme", "--right", "read", ""], []),
    ("the right of an order that is sent", ["send", "orders", "token-grant", "acme", ""], ["full", "read"]),
    ("no tenant of it", ["send", "orders", "token-grant", ""], []),
    ("no right of another order", ["send", "orders", "network-end", "acme", ""], []),
    ("the files of batch", ["batch", "register.db", ""], FILES),
    ("the register behind an option", ["network-add", "--port", "51820", ""], FILES),
    ("the register behind an option with =", ["serve", "--count", "=", "9", ""], FILES),
    ("the register behind a key", ["network-add", "--key", "AAAA", "=", ""], FILES),
    ("no value of an option", ["batch", "--now", ""], []),
    ("no value behind =", ["serve", "--now", "=", ""], []),
    ("an option's part", ["network-add", "register.db", "acme", "office", "--po"], ["--pool", "--port"]),
    ("an option behind an address", ["serve", "register.db", "[::1]", ":", "8080", "--c"], ["--count"]),
    ("the file of orders", ["orders", "register.db", ""], FILES),
    ("the socket of send", ["send", ""], FILES),
    ("the order of send", ["send", "orders", "network"], ["network-add", "network-end"]),
    ("the reading of send", ["send", "orders", "s"], ["show", "status"]),
    ("the reading behind --", ["send", "orders", "--", "b"], ["backup"]),
    ("the file of a copy", ["send", "orders", "backup", ""], FILES),
    ("no field of an order", ["send", "orders", "tenant-add", ""], []),
    ("no tenant of a reading", ["show", "register.db", ""], []),
    ("the register behind --json", ["show", "--json", ""], FILES),
    ("no file of plan", ["plan", ""], []),
    ("a word that there isn't", ["peer-add", ""], []),
]

# What tools/package refuses to pack: how a copy of the repository is damaged, and the message.
REFUSED = [
    ("a damaged archive", lambda top: flip(top / "dist/release/wgr-linux-x86_64.xz"), b"can't be unpacked"),
    ("another program", lambda top: sub(top / "dist/release/RELEASE", r"(?m)^program .*", "program " + 64 * "0"), b"isn't the program of"),
    ("no entry for the version", lambda top: sub(top / "CHANGELOG.md", r"(?m)^## .*\n", ""), b"CHANGELOG.md has no line '## "),
    ("no release", lambda top: (top / "dist/release/RELEASE").unlink(), b"RELEASE is missing"),
]


def flip(file):
    text = bytearray(file.read_bytes())
    text[len(text) // 2] ^= 1
    file.write_bytes(text)


def sub(file, pattern, text):
    file.write_text(re.sub(pattern, text, file.read_text()))


def release():
    """The fields of RELEASE, by name."""
    return dict(line.split(" ", 1) for line in RELEASE.read_text().splitlines())


def make(folder, top=TOP, name="wgr", **environment):
    """What tools/package leaves, and a package's path. The package's modes don't come from the user's umask."""
    done = subprocess.run([top / "tools/package", folder], capture_output=True, env={**os.environ, **environment}, umask=0o077)
    return done, Path(folder) / f"{name}_{release()['version']}_{ARCHITECTURES[name]}.deb"


class Made(unittest.TestCase):
    """Tests over one package, and its files below `self.files`."""

    name = "wgr"

    @classmethod
    def setUpClass(cls):
        folder = cls.enterClassContext(tempfile.TemporaryDirectory())
        done, cls.package = make(folder, name=cls.name)
        if done.returncode != 0:
            raise AssertionError(done.stderr)
        cls.files = Path(folder) / "files"
        subprocess.run(["dpkg-deb", "-x", cls.package, cls.files], check=True)

    def read(self, path):
        text = (self.files / path).read_bytes()
        return gzip.decompress(text) if path.endswith(".gz") else text

    def field(self, name):
        return subprocess.run(["dpkg-deb", "-f", self.package, name], check=True, capture_output=True, text=True).stdout.rstrip("\n")


class Common:
    """What is so of each package."""

    units = []

    def test_owners_and_modes(self):
        listed = subprocess.run(["dpkg-deb", "--fsys-tarfile", self.package], check=True, stdout=subprocess.PIPE).stdout
        with tempfile.TemporaryFile() as file:
            file.write(listed)
            file.seek(0)
            for entry in tarfile.open(fileobj=file):
                with self.subTest(entry.name):
                    is_run = entry.isdir() or entry.name.startswith(("./usr/bin/", "./usr/lib/wgr/"))
                    mode = 0o777 if entry.issym() else 0o755 if is_run else 0o644
                    self.assertEqual((entry.uid, entry.gid, entry.mode), (0, 0, mode))

    def test_units(self):
        for name in self.units:
            with self.subTest(name):
                unit = self.read(f"usr/lib/systemd/system/{name}").decode()
                # Nothing else of it differs from the one that is installed by hand.
                self.assertEqual(unit, (DIST / name).read_text().replace("/usr/local/", "/usr/"))
                for program in re.findall(r"(?m)^Exec\w+=[+-]*(/usr/(?:bin|lib)/wgr\S*)", unit):
                    self.assertTrue(os.access(self.files / program[1:], os.X_OK), program)

    def test_the_changelog(self):
        entries, here = {}, None
        for line in (TOP / "CHANGELOG.md").read_text().splitlines():
            if line.startswith("## "):
                here = entries.setdefault(line[3:].partition(", ")[0], []) if ", " in line else []
            elif line.startswith("- "):
                here.append(line[2:])
        parts = re.findall(r"(?ms)^wgr \((.*?)\) unstable; urgency=medium\n\n(.*?)\n -- (.*?)  (.*?)\n", self.read(f"usr/share/doc/{self.name}/changelog.gz").decode())
        self.assertEqual(parts[0][0], release()["version"])
        told = {version: [" ".join(item.split()) for item in text.split("  * ")[1:]] for version, text, _, _ in parts}
        self.assertEqual(told, entries)
        self.assertEqual({maintainer for _, _, maintainer, _ in parts}, {self.field("Maintainer")})

    def test_the_copyright(self):
        told = self.read(f"usr/share/doc/{self.name}/copyright").decode()
        notice = (TOP / "NOTICE").read_text()
        apache = notice.index("\nLicense: Apache-2.0\n ")
        self.assertTrue(told.startswith(notice[:apache]))
        self.assertIn("/usr/share/common-licenses/Apache-2.0", told[apache:])
        self.assertNotIn("TERMS AND CONDITIONS", told[apache:])

    def test_the_same_again(self):
        with tempfile.TemporaryDirectory() as folder:
            done, package = make(folder, name=self.name, TZ="Asia/Tokyo", LC_ALL="C.UTF-8")
            self.assertEqual(done.returncode, 0, done.stderr)
            self.assertEqual(package.read_bytes(), self.package.read_bytes())

    @needs("lintian")
    def test_lintian(self):
        told = subprocess.run(["lintian", "--allow-root", "--fail-on", "error,warning", self.package], capture_output=True, text=True)
        self.assertEqual((told.returncode, told.stdout), (0, ""), told.stderr)


@unittest.skipUnless(RELEASE.is_file(), "there is no release")
@needs("dpkg-deb", "xz")
class Package(Common, Made):
    units = UNITS

    def test_files(self):
        there = {str(path.relative_to(self.files)) for path in self.files.rglob("*") if not path.is_dir()}
        self.assertEqual(there, MADE | COPIED.keys())
        for path, source in COPIED.items():
            with self.subTest(path):
                # But for where links lead.
                self.assertEqual(LINK.sub(rb"\1", self.read(path)), LINK.sub(rb"\1", source.read_bytes()))
        with self.subTest("the program"):
            self.assertEqual(hashlib.sha256(self.read("usr/bin/wgr")).hexdigest(), release()["program"])

    def test_links(self):
        """Each link of an installed page leads to a file of the package, and to a heading if it names one."""
        pages = sorted((self.files / DOCUMENTS).rglob("*.md"))
        links = [(page, link.decode()) for page in pages for link in re.findall(rb"\]\((?!\w+:)([^)\s]+)\)", page.read_bytes())]
        self.assertGreater(len(links), 100)
        lost = []
        for page, link in links:
            path, _, anchor = link.partition("#")
            target = page.parent / path if path else page
            if not target.is_file() or anchor and anchor not in anchors(target):
                lost.append((page.name, link))
        self.assertEqual(lost, [])
        with self.subTest("a page that the package doesn't have"):
            self.assertIn(" dist/README.md,", self.read(f"{DOCUMENTS}/docs/DECISIONS.md").decode())
        for name, link in [("the proxy", "](examples/nginx.conf)"), ("a man page", "](../../man/man8/wgr.8.gz)"), ("the changelog", "](changelog.gz)"), ("the licences", "](copyright)"), ("a tool", "](../../../bin/wgr-client)")]:
            with self.subTest(name):
                self.assertIn(link, self.read(f"{DOCUMENTS}/README.md").decode() + self.read(f"{DOCUMENTS}/SECURITY.md").decode())

    def test_fields(self):
        needed = max(tuple(map(int, found.split(b"."))) for found in re.findall(rb"GLIBC_([0-9]+(?:\.[0-9]+)+)", self.read("usr/bin/wgr")))
        sizes = [1 if path.is_dir() or path.is_symlink() else -(-path.stat().st_size // 1024) for path in [self.files / "usr", *self.files.rglob("usr/**/*")]]
        for name, value in FIELDS + [("Version", release()["version"]), ("Installed-Size", str(sum(sizes)))]:
            with self.subTest(name):
                self.assertEqual(self.field(name), value)
        with self.subTest("Depends"):
            self.assertIn(f"libc6 (>= {'.'.join(map(str, needed))})", self.field("Depends").split(", "))
        with self.subTest("Maintainer"):
            self.assertRegex(self.field("Maintainer"), r"^[\w ]+ <[\w.]+@[\w.]+>$")

    def test_the_units_of_the_tools(self):
        for name in TOOL_UNITS:
            with self.subTest(name):
                unit = self.read(f"usr/lib/systemd/system/{name}").decode()
                for path in re.findall(r"(?m)^Exec\w+=(/usr/bin/wgr\S*)", unit):
                    self.assertTrue(os.access(self.files / path[1:], os.X_OK), path)
                self.assertEqual(unit.replace("/usr/bin/wgr", "/usr/local/bin/wgr"), (DIST / name).read_text())
                # A unit that it names is in the package too.
                for other in re.findall(r"\bwgr[\w-]*\.(?:service|timer)", unit):
                    self.assertTrue((self.files / "usr/lib/systemd/system" / other).exists(), other)

    @unittest.skipUnless(os.geteuid() == 0, "mounts need root")
    @needs("unshare", "mount")
    def test_the_tools_run(self):
        """They find what they have in common where the package has it."""
        script = 'mount -t overlay overlay -o "lowerdir=$0/usr:/usr" /usr && for tool; do "$tool" --help || exit; done'
        ran = subprocess.run(["unshare", "-m", "bash", "-c", script, self.files, *TOOLS], capture_output=True, text=True)
        self.assertEqual((ran.returncode, ran.stderr), (0, ""))
        # wgr-backup and wgr-clock say it in other words.
        self.assertEqual(ran.stdout.count("usage: "), len(TOOLS) - 2)

    def test_releases_that_are_refused(self):
        for name, damage, told in REFUSED:
            with self.subTest(name), tempfile.TemporaryDirectory() as folder:
                top = Path(folder) / "top"
                for part in ["tools", "dist", "docs"]:
                    shutil.copytree(TOP / part, top / part)
                for page in ["README.md", "SECURITY.md", "CHANGELOG.md", "NOTICE"]:
                    shutil.copy(TOP / page, top)
                damage(top)
                done, package = make(folder, top)
                self.assertEqual((done.returncode, package.exists()), (1, False))
                self.assertIn(told, done.stderr)


class Root(Made):
    """A folder in the place of the root, into which packages are installed."""

    def setUp(self):
        self.root = Path(self.enterContext(tempfile.TemporaryDirectory()))
        for name in ["etc", "var/lib/dpkg/info", "var/lib/dpkg/updates", "var/lib/dpkg/triggers"]:
            (self.root / name).mkdir(parents=True)
        for name in ["status", "available"]:
            (self.root / "var/lib/dpkg" / name).touch()

    def dpkg(self, *words):
        # The folder has no C library and no systemd, so the scripts run outside of it, with DPKG_ROOT.
        words = ["dpkg", f"--root={self.root}", "--force-script-chrootless", "--force-depends", "--force-unsafe-io", "--log=/dev/null", *words]
        done = subprocess.run(words, capture_output=True, text=True)
        self.assertEqual(done.returncode, 0, done.stderr)
        return done.stdout

    def left(self):
        """What is there but dpkg's own files, those in which the system keeps its users, and the folders of both."""
        own = ["var/lib/dpkg/", "etc/passwd", "etc/group", "etc/shadow", "etc/gshadow", "etc/.pwd.lock"]
        paths = [str(path.relative_to(self.root)) for path in self.root.rglob("*")]
        there = {path for path in paths if not any(path.startswith(name) for name in own)}
        return there - {"etc", "var", "var/lib", "var/lib/dpkg", "var/lib/systemd"}


@unittest.skipUnless(RELEASE.is_file(), "there is no release")
@unittest.skipUnless(os.geteuid() == 0, "dpkg needs root")
@needs("dpkg", "dpkg-deb", "xz", "systemd-sysusers", "systemd-tmpfiles", "deb-systemd-helper")
class Installed(Root):
    """The package installed, and taken away again."""

    def test_an_installation(self):
        self.dpkg("-i", self.package)
        with self.subTest("the program runs"):
            ran = subprocess.run([self.root / "usr/bin/wgr", "--version"], capture_output=True, text=True)
            self.assertEqual((ran.returncode, ran.stdout), (0, f"wgr {release()['version']}\n"))
        users = [line.split(":") for line in (self.root / "etc/passwd").read_text().splitlines()]
        user = next(fields for fields in users if fields[0] == "wgr")
        with self.subTest("the user"):
            self.assertEqual(user[5:], ["/var/lib/wgr", "/usr/sbin/nologin"])
        with self.subTest("its folder"):
            folder = (self.root / "var/lib/wgr").stat()
            self.assertEqual((folder.st_uid, folder.st_gid, folder.st_mode & 0o777), (int(user[2]), int(user[3]), 0o700))
        with self.subTest("the service is not enabled"):
            self.assertEqual({path for path in self.left() if path.startswith("etc")}, {"etc/wgr"})
        with self.subTest("nobody but root reads keys"):
            self.assertEqual((self.root / "etc/wgr").stat().st_mode & 0o777, 0o700)

    def test_what_is_told_of_a_migration(self):
        """What to do, where the release before is one whose registers must be migrated."""
        self.assertNotIn("migrate", self.dpkg("-i", self.package))
        for version, is_told in [("0.7.1", True), ("0.8.0~beta", True), ("0.8.0", False), ("0.10.0", False)]:
            with self.subTest(version):
                made = self.root / "made"
                subprocess.run(["dpkg-deb", "-R", self.package, made], check=True)
                sub(made / "DEBIAN/control", r"(?m)^Version: .*", f"Version: {version}")
                subprocess.run(["dpkg-deb", "-Znone", "--root-owner-group", "-b", made, self.root / "made.deb"], check=True, capture_output=True)
                shutil.rmtree(made)
                self.dpkg("-i", self.root / "made.deb")
                self.assertEqual("sudo -u wgr wgr migrate /var/lib/wgr/register.db" in self.dpkg("-i", self.package), is_told)

    def test_a_purge_leaves_the_register(self):
        register, key = ["var/lib/wgr/register.db", "var/lib/wgr/register.db-wal"], ["etc/wgr/vpn1/key"]
        for name, files in [("without a register", []), ("with one", register), ("with a network's key", key)]:
            with self.subTest(name):
                self.dpkg("-i", self.package)
                for file in files:
                    (self.root / file).parent.mkdir(exist_ok=True)
                    (self.root / file).write_text("kept")
                for name in ["wgr-figures", "wgr-sync"]:
                    (self.root / "var/lib" / name).mkdir()
                    (self.root / "var/lib" / name / "state").touch()
                self.dpkg("-i", self.package)
                self.dpkg("-r", "wgr")
                self.dpkg("-P", "wgr")
                folders = {str(folder) for file in files for folder in Path(file).parents} - {"var/lib", "var", "etc", "."}
                self.assertEqual(self.left(), {*files, *folders})
                for file in files:
                    self.assertEqual((self.root / file).read_text(), "kept")
                    (self.root / file).unlink()


@needs("bash")
class Completion(unittest.TestCase):
    def complete(self, words):
        """What the word under the cursor may be, the last of these behind `wgr`."""
        script = 'source "$1" && COMP_WORDS=(wgr "${@:2}") COMP_CWORD=$(($# - 1)) && _wgr && printf "%s\\n" "${COMPREPLY[@]}"'
        with tempfile.TemporaryDirectory() as folder:
            for name in FILES:
                (Path(folder) / name).touch()
            ran = subprocess.run(["bash", "-euc", script, "bash", DIST / "wgr.bash-completion", *words], cwd=folder, capture_output=True, text=True)
        self.assertEqual((ran.returncode, ran.stderr), (0, ""))
        return ran.stdout.split()

    def test_words(self):
        for name, words, wanted in COMPLETED:
            with self.subTest(name):
                self.assertEqual(sorted(self.complete(words)), sorted(wanted))

    def test_words_and_options_are_those_of_the_help(self):
        """The help texts in `data/` are what the program prints (test_command_line.py)."""
        data = TOP / "tests/data"
        words = re.findall(r"(?m)^  ([a-z-]+)  ", (data / "wgr_help.txt").read_text().partition("Options:")[0])
        with self.subTest("words"):
            self.assertEqual(sorted(self.complete([""])), sorted([*words, "--help", "--version"]))
        for word in set(words) - {"help"}:
            with self.subTest(word):
                told = (data / f"{word.replace('-', '_')}_help.txt").read_text()
                options = re.findall(r"(?m)^ +(?:-\w, )?(--[a-z]+)", told.partition("\nOptions:\n")[2].partition("\n\n")[0])
                self.assertEqual(sorted(self.complete([word, "--"])), sorted(options))
