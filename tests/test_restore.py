"""docs/OPERATIONS.md on copies and tokens: its commands, from a backup to a second host, and a smaller file."""

import json
import os
import re
import shutil
import signal
import unittest

from commands import blocks_of, commands_of, is_printed
from program import Left, run
from register_file import DONE, failed
from serving import PEERS, Server, done, free_port, key, peer, refused, request
from shipped import DIST, SYSTEMCTL, Shipped, rows_of
from test_batch import batch
from tools import needs

PAGE = blocks_of("docs/OPERATIONS.md")
COPY = re.compile(r"\d{8}T\d{6}\.\d{3}Z\.db")

# In the systemctl of SYSTEMCTL: the service of the folder $HOST.
START = """
: >"$ROOM/told"
wgr serve "$HOST/lib/register.db" "127.0.0.1:$PORT" --count 1000 --orders "$HOST/orders" >"$ROOM/told" 2>&1 </dev/null &
echo $! >"$ROOM/main"
until [[ -s $ROOM/told ]]; do sleep 0.01; done
"""
STOP = """
kill "$main"
# Whoever is its parent by now may leave a zombie for a while.
while state=$(cat "/proc/$main/stat" 2>/dev/null) && [[ ${state##*) } != Z* ]]; do sleep 0.01; done
rm "$ROOM/main"
"""


def commands(heading):
    """The commands of a part of the page, each with what is printed below it."""
    return [pair for block in PAGE[heading] for pair in commands_of(block)]


class Page(Shipped):
    def setUp(self):
        super().setUp()
        self.port = free_port()
        for name, text in [("systemctl", SYSTEMCTL), ("wgr-backup", (DIST / "wgr-backup").read_text())]:
            self.stand_in(name, self.here(text, "first"))
        for name, text in [("start", START), ("stop", STOP)]:
            (self.folder / name).write_text(text)
        for host in ["first", "standby"]:
            for name in ["lib", "copies"]:
                (self.folder / host / name).mkdir(parents=True)
        for name in ["reg.db", "reg.db-wal"]:
            os.rename(self.folder / name, self.folder / "first/lib" / name.replace("reg", "register"))
        self.addCleanup(self.stop)

    def stop(self):
        if (self.folder / "main").exists():
            # It is no child of the tests.
            os.kill(int((self.folder / "main").read_text()), signal.SIGKILL)

    def here(self, text, host):
        """A text of the page for a host that is a folder."""
        room = self.folder / host
        for there, here in [
            ("standby:/var/backups/wgr", f"{self.folder}/standby/copies"),
            ("/root/drill", f"{room}/drill"),
            ("/var/lib/wgr", f"{room}/lib"),
            ("/var/backups/wgr", f"{room}/copies"),
            ("/var/log", f"{room}"),
            ("/run/wgr/orders", f"{room}/orders"),
            ("unix:/run/wgr-http.sock", f"http://127.0.0.1:{self.port}"),
            (" -o wgr -g wgr", ""),
            ("sudo -u wgr ", ""),
        ]:
            text = text.replace(there, here)
        return text

    def follow(self, pairs, host="first"):
        """Runs these commands on the host. The newest copies take the place of the page's, in their order."""
        for command, printed in pairs:
            with self.subTest(command):
                newest = self.copies(f"{host}/copies")[-len(COPY.findall(command)) :]
                command = COPY.sub(lambda _: newest.pop(0).name, command)
                known = {"HOST": str(self.folder / host), "PORT": str(self.port)}
                left = self.run_script("bash", "-c", self.here(command, host), **known)
                self.assertEqual((left.status, left.err), (0, b""))
                self.assertTrue(is_printed(self.here(printed, host), left.out.decode()), (printed, left.out))

    def ask(self, *words):
        """The reply of the service that the page's command has started."""
        server = Server("none")
        server.port = self.port
        return server.ask(*words)

    def test_a_restore(self):
        start = [("systemctl start wgr", "")]
        self.follow(start)
        first, second = peer(1, 1, "10.8.0.2/32"), peer(2, 2, "10.8.0.3/32")
        self.assertEqual(self.ask("POST", PEERS, {"key": key(1)}), done(first))
        self.follow(commands("Backup and restore"))
        self.assertEqual(self.ask("POST", PEERS, {"key": key(2)}), done(second))
        self.follow(commands("To restore"))
        self.assertEqual(self.ask("GET", PEERS), done({"peers": [first]}))
        with self.subTest("the register is aside"):
            [aside] = (self.folder / "first/lib").glob("aside.*/register.db")
            self.assertIn(b'"number":2', batch(aside, 0, [request("GET", PEERS)]).out)
        with self.subTest("the drill is cleared away"):
            self.assertFalse((self.folder / "first/drill").exists())

    @needs("rsync")
    def test_a_second_host(self):
        copy, *take_over = commands("Failover to a second host")
        self.follow([("systemctl start wgr", "")])
        peers = []
        for number in [1, 2, 3]:
            peers.append(peer(number, number, f"10.8.0.{number + 1}/32"))
            self.assertEqual(self.ask("POST", PEERS, {"key": key(number)}), done(peers[-1]))
            if number < 3:
                left = self.run_script("bash", "-c", self.here(copy[0], "first"))
                self.assertEqual((left.status, left.err), (0, b""))
        # The first host is lost, and what came after its last copy with it.
        os.kill(int((self.folder / "main").read_text()), signal.SIGKILL)
        shutil.rmtree(self.folder / "first")
        self.follow(take_over, "standby")
        self.assertEqual(self.ask("GET", PEERS), done({"peers": peers[:2]}))
        self.assertEqual(self.ask("POST", PEERS, {"key": key(4)}), done(peer(3, 4, "10.8.0.4/32")))

    @needs("jq")
    def test_a_history(self):
        self.follow([("systemctl start wgr", "")])
        backup = [*commands("Backup and restore")]
        for number in range(1, 8):
            if number == 7:
                self.follow(backup)
            self.ask("POST", PEERS, {"key": key(number), **({"label": "laptop", "keepalive": 25} if number == 7 else {})})
        self.ask("POST", f"{PEERS}/7/routes", {"prefix": "192.168.4.0/24"})
        self.follow([*backup, *commands("Audit: who had which address when")])
        line = json.loads((self.folder / "first/wgr-history.jsonl").read_text())
        self.assertEqual((line["number"], line["key"], line["routes"]), (7, key(7), ["192.168.4.0/24"]))

    @needs("sqlite3")
    def test_a_network_that_is_changed(self):
        self.follow([("systemctl start wgr", ""), *commands("Monitoring: health, figures and alerts"), *commands("Backup and restore")])
        self.follow(commands("Changing a network"))
        (network,) = json.loads(self.ask("GET", "/networks").partition(b"\r\n\r\n")[2])["networks"]
        self.assertEqual((network["endpoint"], network["capacity"]), ("vpn2.example.net:51820", 500))
        with self.subTest("the register as it was"):
            (kept,) = (self.folder / "first/lib").glob("register.db.until-*")
            self.assertEqual(rows_of(kept, "SELECT host, capacity FROM network"), [("vpn.example.net", 4096)])

    def test_a_new_customer(self):
        """The page's tenant is another here, since the register has `acme` already."""
        pairs = [(re.sub(r"\bacme\b", "bolt", command), printed) for command, printed in commands("A customer gets a token")]
        self.follow([("systemctl start wgr", ""), *pairs])
        token = (self.folder / "bolt.token").read_text().strip()
        self.assertEqual(self.ask("GET", "/networks", None, token), done({"networks": []}))

    def test_a_lost_token(self):
        self.follow([("systemctl start wgr", "")])
        self.assertIn(b" 200 OK", self.ask("GET", "/networks"))
        self.follow(commands("A lost or leaked token"))
        self.assertEqual(self.ask("GET", "/networks"), refused(401, "unknown_token"))

    @needs("sqlite3")
    def test_smaller_file(self):
        """The rows copied into a new register make a smaller file. `VACUUM` leaves one that isn't opened, whose rows can be copied so."""
        database = str(self.folder / "first/lib/register.db")
        lines = [f"(none)\t{key(9)}\t51820\toff\n"]
        lines += [f"{key(number)}\t(none)\t(none)\t10.8.0.{number}/32\t0\t0\t0\toff\n" for number in range(10, 210)]
        batch(database, 0, [request("POST", "/networks/office/dump", "".join(lines).encode())])
        batch(database, 0, [request("DELETE", f"{PEERS}/{number}") for number in range(2, 200)])
        shown = batch(database, 0, [request("GET", PEERS)])
        self.assertEqual(shown.out.count(b'"number"'), 2)
        before, tables = os.path.getsize(database), ["tenant", "token", "network", "peer", "allowed", "reader"]
        rows = [rows_of(database, f"SELECT * FROM {table}") for table in tables]
        for vacuumed in [False, True]:
            with self.subTest(vacuumed):
                if vacuumed:
                    self.assertEqual(self.run_script("sqlite3", database, "VACUUM"), Left(0))
                    self.assertEqual(batch(database, 0, [request("GET", PEERS)]), failed("not_a_register"))
                smaller = str(self.folder / f"smaller{vacuumed}.db")
                self.assertEqual(run(["init", smaller]), DONE)
                copies = "".join(f"INSERT INTO {table} SELECT * FROM old.{table};" for table in tables)
                self.assertEqual(self.run_script("sqlite3", smaller, f"ATTACH '{database}' AS old; {copies}"), Left(0))
                self.assertLess(os.path.getsize(smaller), before)
                self.assertEqual(batch(smaller, 0, [request("GET", PEERS)]), shown)
                self.assertEqual([rows_of(smaller, f"SELECT * FROM {table}") for table in tables], rows)


if __name__ == "__main__":
    unittest.main()
