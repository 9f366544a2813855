"""docs/OPERATIONS.md: where its head leads, and its blocks of commands with the package, on hosts that begin as Debian leaves them."""

import hashlib
import json
import shutil
import time
import unittest

from commands import TOP
from hosts import needs_host
from serving import key, request
from stories import FOLLOWED, PAGE, URL, Story, blocks_of_story
from test_package import RELEASE, release

# What a reader who is new to the program looks for first, and where on the page, or from it, that is.
QUESTIONS = [
    ("how a customer gets a token", "#a-customer-gets-a-token"),
    ("how a lost token is ended", "#a-lost-or-leaked-token"),
    ("how an existing server is taken over", "#taking-over-an-existing-wireguard-server"),
    ("what happens when two customers ask at once", "#when-two-customers-ask-at-once"),
    ("how yesterday's backup is restored", "#to-restore"),
    ("what status 2 means", "#statuses-and-what-to-do"),
    ("which addresses a /29 gives", "#what-a-29-gives"),
    ("how TLS is put before the service", "#tls-and-slow-clients"),
    ("who is the operator", "#orders"),
    ("power loss, a full disk", "#one-program-one-file"),
    ("what is proved", "../README.md#what-is-proved"),
    ("what is only tested", "../README.md#what-is-only-tested"),
    ("what is neither", "../README.md#what-is-neither"),
]
# In place of the SSH to the second host: its folder of copies is that of the first one here.
SSH = """#!/bin/bash
[[ $1 == standby ]] || exit 255
exec unshare -m bash -c 'mount --bind /run/hosts/standby/backups /var/backups && exec "$@"' "$@"
"""


class Page(unittest.TestCase):
    def test_questions(self):
        """The head of the page leads to each answer in one step. README.md leads to that head."""
        head = (TOP / "docs/OPERATIONS.md").read_text().partition("\n## ")[0]
        for question, link in QUESTIONS:
            with self.subTest(question):
                self.assertIn(f"[{question}]({link})", head)

    def test_each_block_is_followed(self):
        self.assertEqual({(heading, place) for heading, blocks in PAGE.items() for place in range(len(blocks))}, FOLLOWED.keys())


@unittest.skipUnless(RELEASE.is_file(), "there is no release")
@needs_host("apt", "curl", "dpkg-deb", "jq", "openssl", "rsync", "sqlite3", "sudo", "wg", "wireguard-go", "xz")
class ByPackage(Story):
    def test_the_story(self):
        self.install()
        self.put_nginx_before_it()
        self.give_a_token()
        self.take_over_a_server()
        self.load_the_file()
        self.let_it_follow()
        self.probe()
        self.keep_a_history()
        self.restore()
        self.set_the_clock()
        self.change_a_network()
        self.rotate_the_key()
        self.end_tokens()
        self.lose_the_host()
        self.upgrade()
        self.remove()
        self.assertEqual(self.followed, blocks_of_story("package"))

    def install(self):
        self.follow("Installing", 0, "/root/wgr")
        self.assertEqual(self.host.show("wgr.service", "ActiveState", "UnitFileState"), ("active", "enabled"))
        self.use_program("/usr/bin/wgr")

    def put_nginx_before_it(self):
        self.trust()
        for name in ["wgr.crt", "wgr.key"]:
            shutil.copy(self.folder / name, self.host.inside("/etc/nginx"))
        self.do("systemctl start nginx")
        self.follow("TLS and slow clients", 0, "/root/wgr")
        # nginx may listen there only after the reload has ended.
        self.wait_until(lambda: "<title>WireGuard networks</title>" in self.do(f"curl -s {URL}/page/ || true"))

    def give_a_token(self):
        """The service runs on."""
        before = self.main_process()
        self.follow("Orders")
        self.follow("A customer gets a token")
        self.assertEqual(self.main_process(), before)
        self.follow("A token for curl")

    def take_over_a_server(self):
        """The dump of a running interface with three peers."""
        private = self.do("umask 077", "wg genkey > wg0.key", "cat wg0.key").strip()
        parts = [f"[Interface]\nPrivateKey = {private}\nListenPort = 51820\nAddress = 10.8.0.1/24\n"]
        parts += [f"[Peer]\nPublicKey = {key(number)}\nAllowedIPs = 10.8.0.{number + 1}/32\n" for number in [1, 2, 3]]
        self.do("mkdir -p -m 700 /etc/wireguard")
        self.host.inside("/etc/wireguard/wg0.conf").write_text("\n".join(parts))
        self.do("systemctl enable --now wg-quick@wg0")
        self.do("wg show wg0 public-key > office.public")
        self.follow("A tenant gets a network")
        self.follow("Taking over an existing WireGuard server")
        # The dump has the peers in no order.
        self.assertEqual({peer["address"]: peer["key"] for peer in self.peers()}, {f"10.8.0.{number + 1}/32": key(number) for number in [1, 2, 3]})

    def load_the_file(self):
        """Of the server, by hand: the interface keeps its key and a preshared one, and loses a peer that the register doesn't have."""
        key_of = "wg show wg0 private-key"
        before = self.do("wg genpsk > preshared", f"wg set wg0 peer {key(1)} preshared-key preshared", f"wg set wg0 peer {key(8)}", key_of)
        self.follow("An ordinary interface by hand")
        self.assertEqual(self.do(key_of), before)
        self.assertEqual(set(self.do("wg show wg0 peers").split()), {key(1), key(2), key(3)})
        self.assertIn(f"{key(1)}\t{self.do('cat preshared')}", self.do("wg show wg0 preshared-keys"))

    def let_it_follow(self):
        """The interface of the server is another now, with the same key and peers; rounds keep a preshared key."""
        self.do("install -d -m 700 /etc/wgr/acme-office", "cd /etc/wgr/acme-office", "umask 077", "cp /root/wg0.key key", "cp /root/acme.token token", f"echo {URL}/networks/office > url")
        self.do(f"wg set wg0 peer {key(1)} endpoint 192.0.2.1:4711")
        self.host.inside("/etc/wgr/acme-office/settings").write_text(PAGE["Preshared keys, certificates and settings"][0])
        self.followed.add(("Preshared keys, certificates and settings", 0))
        self.follow("Taking over an existing WireGuard server", 1)
        self.do("systemctl start wgr-sync@acme-office")
        show = "ip netns exec acme-office wg show acme-office"
        self.assertEqual(set(self.do(f"{show} peers").split()), {key(1), key(2), key(3)})
        self.assertIn(f"{key(1)}\t192.0.2.1:4711\n", self.do(f"{show} endpoints"))
        self.do("wg genpsk > preshared", f"ip netns exec acme-office wg set acme-office peer {key(2)} preshared-key preshared", "systemctl start wgr-sync@acme-office")
        self.assertIn(f"{key(2)}\t{self.do('cat preshared')}", self.do(f"{show} preshared-keys"))
        self.do("systemctl disable --now wgr-sync@acme-office.timer", "systemctl stop wgr-net@acme-office")

    def peers(self):
        status, told = self.ask("/networks/office/peers")
        self.assertEqual(status, 200)
        return told["peers"]

    def add(self, number, **members):
        status, told = self.ask("/networks/office/peers", {"key": key(number), **members})
        self.assertEqual((status, told["number"]), (200, number))

    def probe(self):
        self.follow("Monitoring: health, figures and alerts", 0)
        # `systemctl edit` puts what is written in its editor there.
        self.do("mkdir -p /etc/systemd/system/wgr-probe.service.d /var/lib/prometheus/node-exporter")
        self.host.inside("/etc/systemd/system/wgr-probe.service.d/override.conf").write_text(PAGE["Monitoring: health, figures and alerts"][1])
        self.followed.add(("Monitoring: health, figures and alerts", 1))
        figures = self.do("systemctl daemon-reload", "systemctl start wgr-probe", "cat /var/lib/prometheus/node-exporter/wgr-probe.prom")
        self.assertIn("\nwgr_probe_success 1\n", figures)

    def keep_a_history(self):
        for number in [4, 5, 6]:
            self.add(number)
        self.follow("Backup and restore")
        self.add(7, label="laptop", keepalive=25)
        self.assertEqual(self.ask("/networks/office/peers/7/routes", {"prefix": "192.168.4.0/24"})[0], 200)
        self.follow("Backup and restore")
        self.follow("Audit: who had which address when", 0)
        self.follow("Audit: who had which address when", 1)

    def restore(self):
        for number in [1, 2]:
            with self.subTest("a restore, and once more", number=number):
                self.add(8)
                self.follow("To restore", 0)
                self.assertEqual([peer["number"] for peer in self.peers()], [1, 2, 3, 4, 5, 6, 7])
        with self.subTest("the registers are aside"):
            self.do("cp -r /var/lib/wgr/aside.* .")
            asked = "for file in aside.*/register.db; do sqlite3 $file 'select max(id & 1048575) from peer'; done"
            self.assertEqual(self.do(asked), "8\n8\n")
        self.follow("To restore", 1)

    def set_the_clock(self):
        """Of the host, which was off for two days; then the clock is as far ahead, and a change deletes a peer too early."""
        self.do("systemctl stop wgr-clock.timer wgr-clock")
        self.host.inside("/var/lib/wgr/clock").write_text(f"{int(time.time()) - 172_800}\n")
        with self.host.shell() as shell:
            self.assertEqual(shell.run("systemctl restart wgr").status, 1)
        self.follow("The clock", 0)
        self.add(8, end=int(time.time()) + 86_400)
        self.assertEqual(self.ask("/networks/office/peers/8/routes", {"prefix": "192.168.5.0/24"})[0], 200)
        self.do("wgr-backup /var/backups/wgr", "systemctl stop wgr")
        message = request("POST", "/networks/office/peers", {"key": key(9)}, token=self.do("cat acme.token").strip())
        self.host.inside("/tmp/message").write_bytes(message)
        self.do(f"sudo -u wgr wgr batch /var/lib/wgr/register.db --now {int(time.time()) + 172_800} /tmp/message", "systemctl start wgr", "wgr-backup /var/backups/wgr")
        self.follow("The clock", 1)

    def change_a_network(self):
        self.follow("Changing a network", 0)
        [network] = self.ask("/networks")[1]["networks"]
        self.assertEqual((network["endpoint"], network["capacity"]), ("vpn2.example.net:51820", 500))
        self.follow("Changing a network", 1)

    def rotate_the_key(self):
        """Of a server, by the words of the page: the interface follows with the new one."""
        make = "umask 077; wg genkey > key.new; wg pubkey < key.new"
        self.assertIn(f"`{make}`", (TOP / "docs/OPERATIONS.md").read_text())
        # The timer would make a round of its own a second later, perhaps between the two keys.
        self.do("systemctl start wgr-sync@acme-office")
        public = self.do("cd /etc/wgr/acme-office", make).strip()
        self.do("systemctl stop wgr", f"sudo -u wgr wgr-change-network /var/lib/wgr/register.db acme office --key {public}", "systemctl start wgr")
        self.do("cd /etc/wgr/acme-office", "mv key.new key", "systemctl start wgr-sync@acme-office")
        self.assertEqual(self.do("ip netns exec acme-office wg show acme-office public-key").strip(), public)
        self.do("systemctl stop wgr-net@acme-office")

    def end_tokens(self):
        """The second token is the one whose SHA-256 the page has."""
        self.do("mv acme.token acme.token.old", "mv acme.header old.header")
        self.do("printf abc > acme.token", "printf 'Authorization: Bearer abc\\n' > acme.header")
        self.order("token-grant acme < acme.token")
        self.follow("Rotating a token")
        self.assertEqual([self.ask("/networks", header=header)[0] for header in ["old.header", "acme.header"]], [401, 200])
        self.assertEqual(self.do("tr -d '\\n' < acme.token | sha256sum").split()[0], hashlib.sha256(b"abc").hexdigest())
        self.follow("A lost or leaked token")
        self.assertEqual(self.ask("/networks"), (401, {"error": "unknown_token"}))
        self.order("token-grant acme < acme.token.old", "token-grant acme < acme.token")
        self.do("wgr-backup copies", "wgr-end-token copies/*.db --tenant acme --orders /run/wgr/orders")
        self.assertEqual([self.ask("/networks", header=header)[0] for header in ["old.header", "acme.header"]], [401, 401])
        self.order("token-grant acme < acme.token.old")
        self.do("mv old.header acme.header")

    def lose_the_host(self):
        standby = self.start("standby")
        package = next(self.host.inside("/tmp").glob("wgr_*.deb"))
        shutil.copy(package, standby.inside("/tmp"))
        self.do(f"apt install /tmp/{package.name}", host=standby)
        self.use_program("/usr/bin/wgr", host=standby)
        self.host.inside("/usr/local/bin/ssh").write_text(SSH)
        self.do("chmod 755 /usr/local/bin/ssh")
        self.follow("Failover to a second host", 0)
        before = self.peers()
        self.do("systemctl disable --now wgr")
        self.follow("Failover to a second host", 1, host=standby)
        token = f"Authorization: Bearer {self.do('cat acme.token.old').strip()}"
        told = self.do(f"curl -s --unix-socket /run/wgr-http.sock -H '{token}' http://wgr/networks/office/peers", host=standby)
        self.assertEqual(json.loads(told)["peers"], before)
        self.do("systemctl enable --now wgr")

    def upgrade(self):
        """To a package that differs in its version alone."""
        version = release()["version"]
        place = f"/tmp/wgr_{version}_amd64.deb"
        self.do(
            f"dpkg-deb -R {place} /tmp/package",
            f"sed -i 's/^Version: .*/Version: {version}+later/' /tmp/package/DEBIAN/control",
            f"dpkg-deb -Znone --root-owner-group -b /tmp/package {place}",
        )
        before = self.main_process()
        self.follow("Upgrading", 0)
        self.assertEqual(self.do("dpkg-query -W -f '${Version}' wgr"), f"{version}+later")
        self.assertEqual(self.host.show("wgr.service", "ActiveState"), ("active",))
        self.assertNotEqual(self.main_process(), before)
        self.assertEqual(self.ask("/networks")[0], 200)
        before = self.main_process()
        with self.subTest("a service of a release whose registers must be migrated first runs on"):
            self.have_installed("0.7.1")
            self.assertIn("sudo -u wgr wgr migrate /var/lib/wgr/register.db", self.do(f"apt-get -y install {place}"))
            self.assertEqual((self.main_process(), self.ask("/networks")[0]), (before, 200))
        self.have_installed("0.7.1")
        self.follow("Migrating a register")
        self.assertEqual(self.do("dpkg-query -W -f '${Version}' wgr"), f"{version}+later")
        self.assertNotEqual(self.main_process(), before)
        self.assertEqual(self.ask("/networks")[0], 200)

    def have_installed(self, version):
        """Lets dpkg take what is installed for another version."""
        self.do(f"sed -i '/^Package: wgr$/,/^$/s/^Version: .*/Version: {version}/' /var/lib/dpkg/status")

    def remove(self):
        """What it stops and what it keeps."""
        self.do("systemctl enable --now wgr-backup.timer wgr-probe.timer", "apt-get -y remove wgr")
        self.assertEqual(self.do("systemctl list-units --plain --no-legend --state=active 'wgr*'"), "")
        self.do("apt-get -y purge wgr", "getent passwd wgr", "test -e /var/lib/wgr/register.db", "test -e /etc/wgr/acme-office/key")
        self.assertEqual(self.do("find /etc/systemd/system -name 'wgr*' -path '*.wants/*'"), "")
