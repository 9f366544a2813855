"""docs/OPERATIONS.md: its blocks of commands for an installation by hand, on a host that begins as Debian leaves it."""

import re
import shutil
import unittest

from fronts import QRCODE
from hosts import needs_host
from serving import key
from stories import PAGE, URL, Story, blocks_of_story
from test_package import RELEASE, TOOLS

# The unit that leads from a network's namespace to the Internet.
OUT = "/etc/systemd/system/acme-office-out.service"


@unittest.skipUnless(RELEASE.is_file(), "there is no release")
@needs_host("apt", "curl", "dpkg-deb", "haproxy", "iptables", "jq", "openssl", "ping", "sqlite3", "sudo", "wg", "wireguard-go", "xz")
class ByHand(Story):
    def test_the_story(self):
        self.install()
        self.put_haproxy_before_it()
        self.give_a_token()
        self.serve_the_page()
        self.follow_a_network()
        self.serve_another_register()
        self.upgrade()
        self.change_to_the_package()
        self.assertEqual(self.followed, blocks_of_story("by hand"))

    def install(self):
        self.follow("Installing", 1, "/root/wgr")
        self.assertEqual(self.host.show("wgr.service", "ActiveState", "UnitFileState"), ("active", "enabled"))
        self.use_program("/usr/local/bin/wgr")
        self.do(*(f"{tool} --help" for tool in TOOLS))

    def put_haproxy_before_it(self):
        self.trust()
        for name, there in [("wgr.crt", "fullchain.pem"), ("wgr.key", "privkey.pem")]:
            shutil.copy(self.folder / name, self.host.inside("/root/wgr") / there)
        self.follow("TLS and slow clients", 1, "/root/wgr")

    def give_a_token(self):
        self.do("printf abc > acme.token", "printf 'Authorization: Bearer abc\\n' > acme.header")
        self.order("tenant-add acme", "token-grant acme < acme.token")
        self.follow("A server's token")
        self.assertEqual(self.ask("/networks"), (200, {"networks": []}))
        self.do("wgr-backup copies", "cp copies/*.db copy.db")
        self.follow("TLS and slow clients", 2)

    def serve_the_page(self):
        self.assertEqual(self.ask("/page/")[0], 404)
        self.follow("A page for tenants", 0, "/root/wgr")
        self.do("mkdir /etc/systemd/system/wgr-haproxy.service.d")
        text = PAGE["A page for tenants"][1]
        # Without the library HAProxy wouldn't start, as the page says.
        self.host.inside("/etc/systemd/system/wgr-haproxy.service.d/override.conf").write_text(text if QRCODE.exists() else re.sub(".*WGR_QRCODE.*", "", text))
        self.followed.add(("A page for tenants", 1))
        told = self.do("systemctl daemon-reload", "systemctl restart wgr-haproxy", f"curl -s {URL}/page/ {URL}/page/page.js {URL}/page/qrcode.js")
        self.assertIn("<title>WireGuard networks</title>", told)
        self.assertEqual("QR Code Generator for JavaScript" in told, QRCODE.exists())
        self.do("rm -r /etc/systemd/system/wgr-haproxy.service.d", "systemctl daemon-reload", "systemctl restart wgr-haproxy")

    def follow_a_network(self):
        self.follow("A server that follows its network")
        public = self.do("wg pubkey < /etc/wgr/acme-office/key").strip()
        self.order(f"network-add acme office 10.8.0.0/24 vpn.example.net 51820 {public} 250")
        self.assertEqual(self.ask("/networks/office/peers", {"key": key(1), "label": "laptop"})[0], 200)
        # The timer's own first round may be under way, and may have asked before.
        peers = ["systemctl start wgr-sync@acme-office || true", "ip netns exec acme-office wg show acme-office peers"]
        self.wait_until(lambda: self.do(*peers).split() == [key(1)])
        # Its token only reads.
        self.assertTrue((self.host.inside("/var/lib/wgr-sync/acme-office/reads-only")).exists())
        self.give_it_a_way_out()
        self.do("systemctl stop wgr-net@acme-office")
        self.assertNotIn("acme-office-out", self.do("ip link"))
        self.do("systemctl disable acme-office-out", f"rm {OUT}")
        self.assertEqual(self.host.show("wgr-sync@acme-office.timer", "ActiveState", "UnitFileState"), ("inactive", "enabled"))
        self.do("wgr-backup copies", 'cp "$(ls copies/*.db | tail -n 1)" register.db')
        self.follow("Reading the file")

    def give_it_a_way_out(self):
        """The host has no route to the network's addresses, so what comes back has been masqueraded."""
        self.host.inside(OUT).write_text(PAGE["The Internet behind a network"][0])
        self.followed.add(("The Internet behind a network", 0))
        self.do("systemctl daemon-reload", "systemctl enable --now acme-office-out")
        ping = "ip netns exec acme-office ping -c 1 -W 5 -I 10.8.0.1 172.31.255.1"
        self.assertIn(" 1 received", self.do(ping))
        with self.host.shell() as shell:
            self.assertEqual(shell.run(f"ip netns exec acme-office iptables -t nat -F && {ping.replace('-W 5', '-W 1')}").status, 1)

    def serve_another_register(self):
        self.follow("Several registers on one host")
        self.assertEqual(self.host.show("wgr@eu1.service", "ActiveState", "UnitFileState"), ("active", "enabled"))
        told = self.do("curl -s --unix-socket /run/wgr-http-eu1.sock -H @acme.header http://wgr/networks")
        self.assertEqual(told, '{"error":"unknown_token"}')
        told = self.do("wgr-backup --unit wgr@eu1 --register /var/lib/wgr/eu1/register.db copies-of-eu1")
        self.assertRegex(told, "^copies-of-eu1/.*: paused for [0-9]+ ms")

    def upgrade(self):
        before = self.main_process()
        self.follow("Upgrading", 1, "/root/wgr")
        self.assertEqual(self.host.show("wgr.service", "ActiveState"), ("active",))
        self.assertNotEqual(self.main_process(), before)
        self.assertEqual(self.ask("/networks")[0], 200)

    def change_to_the_package(self):
        self.do("tools/package /tmp", folder="/root/wgr")
        self.follow("From an installation by hand to the package")
        self.assertEqual(self.host.show("wgr.service", "ActiveState", "FragmentPath"), ("active", "/lib/systemd/system/wgr.service"))
        self.assertEqual(self.do("readlink /proc/$(systemctl show -P MainPID wgr)/exe"), "/usr/bin/wgr\n")
        self.assertEqual(self.ask("/networks/office/peers")[0], 200)
        with self.subTest("nothing else is left of the one by hand"):
            self.assertEqual(self.do("find /usr/local /etc/systemd/system -name '*wgr*' -not -path '*.wants/*'"), "")
