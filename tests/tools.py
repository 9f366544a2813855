"""Programs that some tests need, and the Debian packages that bring them."""

import importlib.util
import os
import shutil
import unittest

PACKAGES = {
    "curl": "curl",
    "nginx": "nginx",
    "openssl": "openssl",
    "mandoc": "mandoc",
    "wg": "wireguard-tools",
    "wg-quick": "wireguard-tools",
    "wireguard-go": "wireguard-go",
    "ip": "iproute2",
    "ping": "iputils-ping",
    "iptables": "iptables",
    "sqlite3": "sqlite3",
    "systemd-analyze": "systemd",
    "systemd-sysusers": "systemd",
    "systemd-tmpfiles": "systemd",
    "deb-systemd-helper": "init-system-helpers",
    "dpkg": "dpkg",
    "dpkg-deb": "dpkg",
    "xz": "xz-utils",
    "lintian": "lintian",
    "bash": "bash",
    "jq": "jq",
    "nsenter": "util-linux",
    "shellcheck": "shellcheck",
    "haproxy": "haproxy",
    "cc": "gcc",
    "jsonschema": "python3-jsonschema",
    "openapi_spec_validator": "python3-openapi-spec-validator",
    "promtool": "prometheus",
    "qrencode": "qrencode",
    "rsync": "rsync",
    "dbus-daemon": "dbus",
    "sudo": "sudo",
    "apt": "apt",
    "unshare": "util-linux",
    "mount": "mount",
    "chromium": "chromium",
    "chromedriver": "chromium-driver",
    "zbarimg": "zbar-tools",
}


# The packages whose programs are missing, by the reason that a skipped test gives.
MISSING = {}


def needs(*programs, root=False):
    """Skips a test where some of the programs are missing, and says which packages bring them."""
    missing = [name for name in programs if not shutil.which(name)]
    if missing:
        reason = f"without {', '.join(missing)}"
        MISSING[reason] = {PACKAGES[name] for name in missing}
        return unittest.skip(reason)
    if root and (os.geteuid() != 0 or not os.path.exists("/dev/net/tun")):
        return unittest.skip("network namespaces need root and /dev/net/tun")
    return lambda test: test


def needs_module(name):
    """Skips a test where Python has no such module, and says which package brings it."""
    if importlib.util.find_spec(name):
        return lambda test: test
    reason = f"without Python's {name}"
    MISSING[reason] = {PACKAGES[name]}
    return unittest.skip(reason)


def tell_skipped(reasons):
    """Lines on the tests that were skipped for these reasons: how many for each, and the missing packages."""
    lines = [f"{reasons.count(reason)} skipped: {reason}" for reason in sorted(set(reasons))]
    packages = sorted(set().union(*(MISSING.get(reason, ()) for reason in reasons)))
    if packages:
        lines.append(f"the skipped tests want these Debian packages: apt-get install {' '.join(packages)}")
    return lines
