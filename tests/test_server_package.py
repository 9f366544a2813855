"""The Debian package wgr-server that tools/package makes: what a WireGuard server needs to follow the register."""

import os
import re
import subprocess
import unittest

from test_package import DIST, RELEASE, Common, Made, Root, release
from tools import needs

DOCUMENTS = "usr/share/doc/wgr-server"
SCRIPTS = ["wgr-net", "wgr-sync"]
UNITS = ["wgr-alert@.service", "wgr-net@.service", "wgr-sync.service", "wgr-sync@.service", "wgr-sync@.timer"]


def imported(paths):
    """The modules of dist/ that these files import, and those that these import in turn."""
    found = set()
    for path in paths:
        names = re.findall(r"(?m)^\s*(?:import|from) (wgr_\w+)", path.read_text())
        found |= {*names, *imported([DIST / f"{name}.py" for name in names])}
    return found


# Each file of the package and the file of the repository that it is, the units and what is made of others apart.
COPIED = {
    **{f"usr/lib/wgr/{name}": DIST / name for name in SCRIPTS},
    **{f"usr/share/wgr/{name}.py": DIST / f"{name}.py" for name in imported([DIST / name for name in SCRIPTS])},
    **{f"usr/share/man/man8/{name}.8.gz": DIST / f"{name}.8" for name in SCRIPTS},
    f"{DOCUMENTS}/README.Debian": DIST / "debian/server/README.Debian",
}
MADE = {*(f"usr/lib/systemd/system/{name}" for name in UNITS), f"{DOCUMENTS}/changelog.gz", f"{DOCUMENTS}/copyright"}
FIELDS = {"Package": "wgr-server", "Source": "wgr", "Architecture": "all", "Conflicts": "wgr", "Replaces": "wgr"}


@unittest.skipUnless(RELEASE.is_file(), "there is no release")
@needs("dpkg-deb", "xz")
class Package(Common, Made):
    name, units = "wgr-server", UNITS

    def there(self):
        return {str(path.relative_to(self.files)) for path in self.files.rglob("*") if not path.is_dir()}

    def test_files(self):
        self.assertEqual(self.there(), MADE | COPIED.keys())
        for path, source in COPIED.items():
            with self.subTest(path):
                self.assertEqual(self.read(path), source.read_bytes())

    def test_fields(self):
        for name, value in {**FIELDS, "Version": release()["version"]}.items():
            with self.subTest(name):
                self.assertEqual(self.field(name), value)
        for name in ["iproute2", "systemd", "wireguard-tools"]:
            with self.subTest(name):
                self.assertIn(name, self.field("Depends").split(", "))

    def test_units_that_are_named(self):
        """Those that a unit names are in the package too."""
        for name in UNITS:
            for other in re.findall(r"\bwgr[\w-]*@?(?=[\w@%-]*\.(?:service|timer))", self.read(f"usr/lib/systemd/system/{name}").decode()):
                with self.subTest(name, other=other):
                    self.assertTrue(any(unit.startswith(other) for unit in UNITS), other)

    @unittest.skipUnless(os.geteuid() == 0, "mounts need root")
    @needs("unshare", "mount")
    def test_the_scripts_find_their_modules(self):
        """Each is run without words, and says what it wants."""
        mount = 'mount -t overlay overlay -o "lowerdir=$0/usr:/usr" /usr && mount -t tmpfs tmpfs /usr/local && exec "$1"'
        for name in SCRIPTS:
            with self.subTest(name):
                ran = subprocess.run(["unshare", "-m", "bash", "-c", mount, self.files, f"/usr/lib/wgr/{name}"], capture_output=True, text=True)
                self.assertEqual((ran.returncode, ran.stdout), (2, ""), ran.stderr)
                self.assertIn(f"usage: {name}", ran.stderr)


@unittest.skipUnless(RELEASE.is_file(), "there is no release")
@unittest.skipUnless(os.geteuid() == 0, "dpkg needs root")
@needs("dpkg", "dpkg-deb", "xz", "systemd-sysusers", "systemd-tmpfiles", "deb-systemd-helper")
class Installed(Root):
    """Installed in the place of the root, taken away again, and replaced by the package wgr, which is made beside it."""

    name = "wgr-server"
    kept = ["etc/wgr/vpn1/key", "var/lib/wgr-sync/vpn1/server.conf"]

    def put(self):
        """What an operator and the rounds leave on a server."""
        for name in self.kept:
            (self.root / name).parent.mkdir(parents=True)
            (self.root / name).write_text("kept")

    def installed(self):
        """The state of each package that dpkg knows."""
        told = subprocess.run(["dpkg-query", f"--admindir={self.root}/var/lib/dpkg", "-W", "-f", "${Package} ${db:Status-Status}\n"], capture_output=True, text=True)
        return dict(line.split() for line in told.stdout.splitlines())

    def test_an_installation(self):
        self.dpkg("-i", self.package)
        with self.subTest("nothing is enabled, and nobody but root reads keys"):
            self.assertEqual({path for path in self.left() if path.startswith("etc")}, {"etc/wgr"})
            self.assertEqual((self.root / "etc/wgr").stat().st_mode & 0o777, 0o700)
        with self.subTest("a purge leaves nothing"):
            self.dpkg("-P", "wgr-server")
            self.assertEqual(self.left(), set())

    def test_a_purge_leaves_keys(self):
        self.dpkg("-i", self.package)
        self.put()
        before = self.left()
        self.dpkg("-i", self.package)
        self.assertEqual(self.left(), before)
        self.dpkg("-r", "wgr-server")
        self.assertTrue(all((self.root / name).exists() for name in self.kept))
        self.dpkg("-P", "wgr-server")
        self.assertEqual(self.left(), {"etc/wgr", "etc/wgr/vpn1", "etc/wgr/vpn1/key"})

    def test_one_replaces_the_other(self):
        """Not both are installed, and nothing of the second is lost, even by a purge of the first."""
        wgr = next(self.package.parent.glob("wgr_*.deb"))
        files = {name: dpkg_files(package) for name, package in [("wgr", wgr), ("wgr-server", self.package)]}
        self.assertEqual([path for path in files["wgr-server"] - files["wgr"] if "/doc/" not in path], [])
        self.put()
        for first, second in [("wgr", "wgr-server"), ("wgr-server", "wgr")]:
            with self.subTest(second):
                self.dpkg("-i", {"wgr": wgr, "wgr-server": self.package}[first])
                self.dpkg("-i", {"wgr": wgr, "wgr-server": self.package}[second])
                self.assertEqual(self.installed()[second], "installed")
                self.assertNotEqual(self.installed().get(first), "installed")
                self.dpkg("-P", first)
                self.assertEqual([path for path in files[second] if not os.path.lexists(self.root / path)], [])
                self.assertTrue(all((self.root / name).exists() for name in self.kept))


def dpkg_files(package):
    told = subprocess.run(["dpkg-deb", "-c", package], check=True, capture_output=True, text=True).stdout
    return {line.split(None, 5)[5].partition(" -> ")[0].removeprefix("./") for line in told.splitlines() if line[0] != "d"}
