"""The package of a WireGuard server, on a host that begins as Debian leaves it."""

import unittest

from hosts import needs_host
from stories import Story
from test_package import ARCHITECTURES, RELEASE, release


@unittest.skipUnless(RELEASE.is_file(), "there is no release")
@needs_host("apt", "dpkg-deb", "wg", "wireguard-go", "xz")
class OnAServer(Story):
    """The package of a WireGuard server, which has no register."""

    unit = r"system-wgr\x2dnet.slice/wgr-net@office.service"

    def units(self):
        """Those that run, by name."""
        return self.do("systemctl list-units --plain --no-legend --state=active 'wgr*' | cut -d ' ' -f 1").split()

    def start_networks(self):
        self.do("systemctl start wgr-net@office wgr-net@lab wgr-sync@office.timer")
        for name in ["office", "lab"]:
            self.do(f"ip -n {name} link show dev {name}")

    def test_the_story(self):
        self.do("tools/package /tmp", folder="/root/wgr")
        version = release()["version"]
        install = {name: f"apt-get -y install /tmp/{name}_{version}_{kind}.deb" for name, kind in ARCHITECTURES.items()}
        self.do(install["wgr-server"])
        self.assertEqual(self.do("find /etc/systemd/system -name 'wgr*'"), "")
        with self.subTest("it can follow"):
            self.start_networks()
        with self.subTest("the other package replaces it, and its networks start again"):
            self.do(install["wgr"])
            self.assertEqual(self.do("dpkg-query -W -f '${db:Status-Abbrev}${Package} ' 'wgr*'"), "ii wgr rc wgr-server ")
            self.start_networks()
        with self.subTest("and back"):
            self.do(install["wgr-server"])
            self.start_networks()
        with self.subTest("an upgrade leaves the tunnels"):
            [before] = self.host.processes(self.unit)
            self.do(f"dpkg -i /tmp/wgr-server_{version}_all.deb")
            self.assertEqual(self.host.processes(self.unit), [before])
        with self.subTest("a removal ends all of it"):
            self.do("apt-get -y purge wgr-server")
            self.assertEqual((self.units(), self.do("ip netns")), ([], ""))
