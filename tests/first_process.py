"""systemd as the first process of namespaces of its own, over units of dist/ as they are shipped.

Its processes, network and mounts are its own; `/etc` is a copy, and `/run`, `/var/lib`, `/var/log` and `/usr/local` are
new and in memory.
"""

import itertools
import os
import shutil
import subprocess
import time
import unittest
from pathlib import Path

import program

DIST = Path(__file__).resolve().parent.parent / "dist"
SYSTEMD = "/lib/systemd/systemd"
GROUPS = next((Path(path) for path in ["/sys/fs/cgroup/unified", "/sys/fs/cgroup"] if Path(path, "cgroup.procs").exists()), None)
APART = ["unshare", "--fork", "--kill-child", "--pid", "--mount", "--uts", "--ipc", "--net", "--cgroup", "--propagation", "private"]
TARGETS = ["sysinit", "basic", "shutdown", "sockets", "timers", "paths", "slices", "multi-user", "network", "network-online", "network-pre", "time-sync"]
NUMBERS = itertools.count()

# What becomes the first process, with the folder of the test and the program.
BEGIN = f"""
set -e
mount --make-rshared /
mount -t proc proc /proc
mount -t cgroup2 cgroup2 /sys/fs/cgroup
for folder in /run /usr/local /var/lib /var/log; do mount -t tmpfs -o mode=755 tmpfs "$folder"; done
mkdir -p /run/lock /run/netns /run/etc /var/lib/private /var/lib/wgr /usr/local/bin /usr/local/lib/wgr /usr/local/share/wgr
cp -a /etc/. /run/etc
mount --bind /run/etc /etc
mkdir -m 700 /etc/wgr
echo 'wgr:x:990:990::/var/lib/wgr:/usr/sbin/nologin' >> /etc/passwd
echo 'wgr:x:990:' >> /etc/group
chown wgr:wgr /var/lib/wgr
chmod 700 /var/lib/wgr
install -m 755 "$2" /usr/local/bin/wgr
install -m 755 {DIST}/wgr-clock /usr/local/bin
cp -p -r "$1"/lib/. /usr/local/lib/wgr
cp "$1"/share/* /usr/local/share/wgr
ip link set lo up
exec env -i PATH="$PATH" container=test SYSTEMD_UNIT_PATH="$1/units" SYSTEMD_LOG_TARGET=null {SYSTEMD} --system --show-status=no
"""


def needs_systemd(test):
    """Skips a test where systemd can't be started so."""
    if os.geteuid() == 0 and GROUPS is not None and os.access(GROUPS, os.W_OK) and os.path.exists(SYSTEMD) and shutil.which("ip"):
        if subprocess.run([*APART, "sh", "-c", "mount -t cgroup2 cgroup2 /sys/fs/cgroup"], capture_output=True).returncode == 0:
            return test
    return unittest.skip("systemd as the first process of namespaces needs root, control groups and Debian's packages systemd and iproute2")(test)


class System:
    """One such systemd, from `start` to `stop`: `units` and `scripts` are files of dist/, `drop_ins` texts by unit."""

    text = BEGIN

    def __init__(self, folder, units, scripts=("wgr-listens",), drop_ins=None):
        self.folder = Path(folder)
        self.units, self.begin = self.folder / "units", self.folder / "begin"
        for place in ["units", "lib", "share"]:
            (self.folder / place).mkdir()
        for name in scripts:
            shutil.copy(DIST / name, self.folder / "lib")
        for module in DIST.glob("wgr_*.py"):
            shutil.copy(module, self.folder / "share")
        for name in TARGETS:
            shutil.copy(f"/lib/systemd/system/{name}.target", self.units)
        (self.units / "default.target").write_text("[Unit]\nRequires=basic.target\nAfter=basic.target\n")
        for name in units:
            shutil.copy(DIST / name, self.units)
        for name, text in (drop_ins or {}).items():
            place = self.units / f"{name}.d"
            place.mkdir()
            (place / "test.conf").write_text(text)

    def start(self):
        self.group = GROUPS / f"wgr-test-{os.getpid()}-{next(NUMBERS)}"
        self.group.mkdir()
        joined = ["bash", "-c", 'echo $$ > "$0/cgroup.procs"; exec "$@"', str(self.group), *APART]
        with self.begin.open("w") as told:
            self.outer = subprocess.Popen(
                [*joined, "bash", "-c", self.text, "bash", str(self.folder), program.path], stdin=subprocess.DEVNULL, stdout=told, stderr=told
            )
        end = time.monotonic() + program.LIMIT
        while not self.is_up():
            if time.monotonic() > end or self.outer.poll() is not None:
                raise AssertionError(f"systemd doesn't start: {self.begin.read_text()}")
            time.sleep(0.02)

    def is_up(self):
        """Whether the first process is systemd by now, and answers."""
        children = Path(f"/proc/{self.outer.pid}/task/{self.outer.pid}/children").read_text().split()
        self.first = children[0] if children else None
        if not children or os.path.realpath(f"/proc/{self.first}/exe") != os.path.realpath(SYSTEMD):
            return False
        return self.run("systemctl", "is-system-running", allowed=None).stdout.strip() in ["running", "degraded"]

    def stop(self):
        self.outer.kill()
        self.outer.wait()
        for _ in range(500):
            try:
                for place in [*sorted((path for path in self.group.rglob("*") if path.is_dir()), reverse=True), self.group]:
                    place.rmdir()
                return
            except OSError:
                time.sleep(0.01)

    def run(self, *words, allowed=(0,), text=None, user=None):
        """Runs a command inside, as root or as another user."""
        as_user = ["setpriv", f"--reuid={user}", f"--regid={user}", "--init-groups"] if user else []
        words = ["nsenter", "-t", self.first, "-a", *as_user, *map(str, words)]
        done = subprocess.run(words, input=text, capture_output=True, text=True, timeout=program.LIMIT)
        assert allowed is None or done.returncode in allowed, (words, done)
        return done

    def order(self, *words, register="/var/lib/wgr/register.db", text=None):
        """An order on the register, as its user."""
        done = self.run("/usr/local/bin/wgr", words[0], register, *words[1:], text=text, user="wgr")
        assert done.stdout == "done\n", done

    def send(self, *words, service="wgr", text=None, **more):
        """An order to a running service, as root or as another user."""
        return self.run("/usr/local/bin/wgr", "send", f"/run/{service}/orders", *words, text=text, **more)

    def make_register(self, token, register="/var/lib/wgr/register.db"):
        self.order("init", register=register)
        self.order("tenant-add", "acme", register=register)
        self.order("token-grant", "acme", register=register, text=token)

    def show(self, unit, *names):
        """Properties of a unit, in the order of these names."""
        told = self.run("systemctl", "show", unit, *(f"--property={name}" for name in names)).stdout
        found = dict(line.split("=", 1) for line in told.splitlines())
        return tuple(found[name] for name in names)

    def processes(self, unit):
        """The ids of a unit's processes, outside of its namespaces."""
        place = self.group / "system.slice" / unit / "cgroup.procs"
        return [int(line) for line in place.read_text().split()] if place.exists() else []
