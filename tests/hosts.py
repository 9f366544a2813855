"""A host that begins as Debian leaves it, on which root runs the commands of a page.

It is a systemd in namespaces of its own. What is written to `/etc`, `/usr` and `/var` stays in memory; `/root`, `/tmp`
and `/usr/local` begin empty, and no unit is there but those that are named.
"""

import fcntl
import os
import select
import shutil
import subprocess
import unittest
from pathlib import Path

import program
from first_process import System, needs_systemd
from program import Left
from tools import needs

TOP = Path(__file__).resolve().parent.parent
# What an installation takes from a checkout.
CHECKOUT = ["dist", "docs", "tools", "CHANGELOG.md", "NOTICE", "README.md", "SECURITY.md"]
# Units of Debian that the page has to do with.
UNITS = ["dbus.service", "dbus.socket", "nginx.service", "wg-quick.target", "wg-quick@.service"]
PATH = "/usr/local/sbin:/usr/local/bin:/usr/sbin:/usr/bin:/sbin:/bin"

# What becomes the first process, with the folder of the host, which is named as the host is.
BEGIN = """
set -e
mount --make-rshared /
mount -t proc proc /proc
mount -t cgroup2 cgroup2 /sys/fs/cgroup
mount -t tmpfs -o mode=755 tmpfs /run
mkdir -p /run/lock /run/netns /run/hosts
mount --bind "$(dirname "$1")" /run/hosts
for folder in etc usr var; do
    mkdir -p "/run/over/$folder"/{upper,work}
    mount -t overlay overlay -o "lowerdir=/$folder,upperdir=/run/over/$folder/upper,workdir=/run/over/$folder/work" "/$folder"
done
for folder in /etc/systemd/system /root /tmp /usr/lib/systemd/system /usr/local; do
    mount -t tmpfs -o mode=755 tmpfs "$folder"
done
chmod 1777 /tmp
here=/run/hosts/$(basename "$1")
mount --bind "$here/backups" /var/backups
mount --bind "$here/dpkg" /var/lib/dpkg
cp -r "$here"/units/. /usr/lib/systemd/system
cp -r "$here/checkout" /root/wgr
mkdir -p /usr/local/bin /usr/local/lib /var/log/nginx
# The images of containers let no package start a service.
rm -f /usr/sbin/policy-rc.d
: >/etc/fstab
echo "${here##*/}" >/etc/hostname
printf '%s\n' "127.0.0.1 localhost ${here##*/} wgr.example.net" >/etc/hosts
ip link set lo up
exec env -i PATH="$PATH" container=test SYSTEMD_LOG_TARGET=null /lib/systemd/systemd --system --show-status=no
"""


OVERLAY = "mount -t tmpfs tmpfs /run && mkdir /run/upper /run/work && mount -t overlay overlay -o lowerdir=/usr,upperdir=/run/upper,workdir=/run/work /usr"


def can_overlay():
    """Whether what is written to a folder of the system can be kept in memory."""
    return os.geteuid() == 0 and subprocess.run(["unshare", "--mount", "sh", "-c", OVERLAY], capture_output=True).returncode == 0


def copy_packages(folder):
    """What dpkg knows, once no other program changes it: below the overlay it could change at any time."""
    with open("/var/lib/dpkg/lock-frontend", "a") as lock:
        fcntl.lockf(lock, fcntl.LOCK_EX)
        shutil.copytree("/var/lib/dpkg", folder, symlinks=True)


def needs_host(*programs):
    """Skips a test where such a host can't be made, or some of these programs are missing."""

    def decide(test):
        test = unittest.skipUnless(can_overlay(), "a host that begins as Debian leaves it needs root and overlays")(test)
        return needs("dbus-daemon", "nginx", "nsenter", "wg-quick", *programs, root=True)(needs_systemd(test))

    return decide


class Host(System):
    """One such host, from `start` to `stop`; its `folder` is all that it shares with the machine, and with other hosts."""

    text = BEGIN

    def __init__(self, folder):
        Path(folder).mkdir()
        super().__init__(folder, [], scripts=[])
        for name in UNITS:
            shutil.copy(f"/lib/systemd/system/{name}", self.units)
        (self.folder / "backups").mkdir()
        for name in CHECKOUT:
            place = TOP / name
            if place.is_dir():
                shutil.copytree(place, self.folder / "checkout" / name, symlinks=True)
            else:
                shutil.copy(place, self.folder / "checkout" / name)

    def start(self):
        copy_packages(self.folder / "dpkg")
        super().start()
        self.run("systemctl", "start", "dbus.socket", "dbus.service")

    def stop(self):
        if hasattr(self, "outer"):
            super().stop()

    def inside(self, path):
        """A path as the processes inside see it."""
        return Path(f"/proc/{self.first}/root{path}")

    def shell(self, folder="/root"):
        return Shell(self, folder)


class Shell:
    """Root's shell on the host, in a folder, until the block ends."""

    def __init__(self, host, folder):
        self.host = host
        known = ["env", "-i", f"PATH={PATH}", "HOME=/root", "USER=root", "LC_ALL=C.UTF-8"]
        words = ["nsenter", "-t", host.first, "-a", *known, "bash", "-c", 'cd "$0" && exec bash', folder]
        self.process = subprocess.Popen(words, stdin=subprocess.PIPE, stdout=subprocess.PIPE, text=True)

    def __enter__(self):
        return self

    def __exit__(self, *_):
        self.process.communicate(timeout=program.LIMIT)

    def run(self, command):
        """What a command leaves, which finds nothing on standard input."""
        self.process.stdin.write(f"{{ {command}\n}} </dev/null >/run/shell.out 2>/run/shell.err; echo $?\n")
        self.process.stdin.flush()
        # The package alone takes a slow machine a minute.
        ready, _, _ = select.select([self.process.stdout], [], [], 5 * program.LIMIT)
        assert ready, f"{command} doesn't end"
        status = self.process.stdout.readline()
        assert status, f"{command} ends the shell"
        return Left(int(status), *(self.host.inside(f"/run/shell.{end}").read_text() for end in ["out", "err"]))
