"""dist/wgr-clock and its units: a clock that has jumped is told, lets no service start, and is accepted by the operator."""

import os
import resource
import shutil
import signal
import subprocess
import tempfile
import time
import unittest
from functools import partial
from pathlib import Path

from first_process import DIST, System, needs_systemd
from program import in_time
from serving import TOKEN, free_port
from shipped import Shipped
from tools import needs

DAY = 86_400
# By how many seconds the kept moment is ahead of the clock, and what is told of the clock.
JUMPS = [
    (-DAY - 1, f"{DAY + 1} s ahead of"),
    (-DAY, None),
    (-60, None),
    (0, None),
    (10, None),
    (11, "11 s behind"),
    (40_000_000_000, "40000000000 s behind"),
]
# What isn't a kept moment, by name: a text, or what makes it.
BAD = {
    "empty": b"",
    "a part": b"17959",
    "a whole one without its end": b"1795910230",
    "two": b"1795910230\n1795910230\n",
    "a line more": b"1795910230\n\n",
    "zero": b"0\n",
    "a zero before it": b"01795910230\n",
    "a blank": b" 1795910230\n",
    "a negative one": b"-1795910230\n",
    "a fraction": b"1795910230.5\n",
    "twelve digits": b"179591023000\n",
    "a word": b"now\n",
    "zeros of a disk": bytes(11),
    "a link to a moment": lambda file: file.symlink_to("../moment"),
    "a link to nothing": lambda file: file.symlink_to("nothing"),
    "a pipe": os.mkfifo,
}
USAGES = [[], ["check"], ["check", "a", "b"], ["set", "a"], ["checks", "a"], ["", "a"]]
UNITS = ["wgr", "wgr@", "wgr-space", "wgr-space@", "wgr-alert@", "wgr-clock", "wgr-clock@"]
# What fails soon, and an alert that can be counted.
DROP_INS = {
    "wgr.service": "[Unit]\nStartLimitBurst=4\n[Service]\nRestartSec=10ms\n",
    "wgr@.service": "[Service]\nRestartSec=10ms\n[Unit]\nStartLimitBurst=1000\n",
    "wgr-clock.service": "[Unit]\nStartLimitBurst=1000\n",
    "time-sync.target": "[Unit]\nWants=sets-the-clock.service\n",
    "wgr-alert@.service": "[Service]\nDynamicUser=no\nExecStart=\nExecStart=/bin/sh -c 'echo %i >>/run/alerts'\n",
}
# In the place of systemd-time-wait-sync.
SETS_THE_CLOCK = "[Unit]\nBefore=time-sync.target\n[Service]\nType=oneshot\nRemainAfterExit=yes\nExecStart=/bin/sh -c 'sleep 2; touch /run/is-set'\n"


def text_of(moment):
    return time.strftime("%Y-%m-%dT%H:%M:%SZ", time.gmtime(moment))


def refusal(how, now, kept, folder):
    right = "it is right" if how.endswith("behind") else "the host was off that long"
    return f"the clock is {how} the kept moment: it says {text_of(now)}, and {folder}/clock has {text_of(kept)}. Set the clock, or if {right}: wgr-clock accept {folder}/register.db"


class Kept(Shipped):
    """A register's folder, and the moment that is kept there."""

    def setUp(self):
        super().setUp()
        self.folder = self.folder / "eu1"
        self.folder.mkdir()
        self.register, self.kept = self.folder / "register.db", self.folder / "clock"
        shutil.copy(self.database, self.register)

    def wgr_clock(self, word, register=None):
        """The status, and what is said behind the script's name."""
        left = self.run_script("wgr-clock", word, register or self.register)
        self.assertEqual(left.out, b"")
        return left.status, left.err.decode().removeprefix("wgr-clock: ").removesuffix("\n")

    def within_a_second(self, ahead, act):
        """What this does with a moment that is kept so far ahead of the clock, and the clock's second, in which all of it was done."""
        while True:
            # It is begun behind the second's start, since bash takes a clock that is some milliseconds behind.
            while not 0.05 < time.time() % 1 < 0.7:
                time.sleep(0.01)
            now = int(time.time())
            self.kept.write_text(f"{now + ahead}\n")
            done = act()
            if int(time.time()) == now:
                return done, now

    def test_jumps(self):
        for ahead, how in JUMPS:
            for word in ["check", "keep", "accept"]:
                with self.subTest(word, ahead=ahead):
                    done, now = self.within_a_second(ahead, partial(self.wgr_clock, word))
                    refused = how is not None and word != "accept"
                    self.assertEqual(done, (1, refusal(how, now, now + ahead, self.folder)) if refused else (0, ""))
                    self.assertEqual(self.kept.read_text(), f"{now + ahead if refused or word == 'check' else now}\n")

    def test_no_moment(self):
        self.assertEqual(self.wgr_clock("check"), (0, ""))
        self.assertEqual(self.names("."), ["register.db"])
        for word in ["keep", "accept"]:
            with self.subTest(word):
                before = int(time.time())
                self.assertEqual(self.wgr_clock(word), (0, ""))
                self.assertTrue(before <= int(self.kept.read_text()) <= time.time())
                self.assertEqual((self.names("."), self.kept.stat().st_mode & 0o777), (["clock", "register.db"], 0o644))
                self.kept.unlink()

    def test_what_is_no_moment(self):
        (self.folder / "../moment").write_text(f"{int(time.time())}\n")
        told = 1, f"{self.kept} has no moment that was kept. If the clock is right: wgr-clock accept {self.register}"
        for name, text in BAD.items():
            with self.subTest(name):
                self.kept.unlink(missing_ok=True)
                text(self.kept) if callable(text) else self.kept.write_bytes(text)
                before = self.kept.lstat()
                for word in ["check", "keep"]:
                    self.assertEqual(self.wgr_clock(word), told)
                after = self.kept.lstat()
                self.assertEqual((after.st_ino, after.st_mtime_ns), (before.st_ino, before.st_mtime_ns))
                self.assertEqual(self.wgr_clock("accept"), (0, ""))
                self.assertEqual(self.wgr_clock("check"), (0, ""))
                self.assertEqual(self.register.read_bytes(), Path(self.database).read_bytes())
        with self.subTest("a folder"):
            self.kept.unlink()
            self.kept.mkdir()
            self.assertEqual([self.wgr_clock(word) for word in ["check", "keep"]], [told, told])
            self.assertEqual((self.wgr_clock("accept")[0], self.names(".")), (1, ["clock", "register.db"]))

    def test_a_disk_that_is_full(self):
        """The former moment stays, and nothing is left beside it."""

        def no_room():
            signal.signal(signal.SIGXFSZ, signal.SIG_IGN)
            resource.setrlimit(resource.RLIMIT_FSIZE, (0, 0))

        former = f"{int(time.time()) - 60}\n"
        self.kept.write_text(former)
        for word in ["keep", "accept"]:
            with self.subTest(word):
                done = subprocess.run([DIST / "wgr-clock", word, self.register], capture_output=True, text=True, preexec_fn=no_room)
                self.assertEqual((done.returncode, done.stderr.splitlines()[-1]), (1, f"wgr-clock: {self.kept} can't be written"))
                self.assertEqual((self.kept.read_text(), self.names(".")), (former, ["clock", "register.db"]))

    def test_the_moment_is_put_there_at_once(self):
        """Who has the former one open reads all of it."""
        former = f"{int(time.time()) - 60}\n"
        self.kept.write_text(former)
        with self.kept.open() as reader:
            self.assertEqual(self.wgr_clock("keep"), (0, ""))
            self.assertEqual(reader.read(), former)

    def test_registers(self):
        """Each folder has a moment of its own, and of a link it is the one in which the link is."""
        other = self.folder.parent / "eu2"
        other.mkdir()
        (other / "register.db").symlink_to(self.register)
        self.kept.write_text(f"{int(time.time()) + 3600}\n")
        self.assertEqual(self.wgr_clock("check")[0], 1)
        self.assertEqual(self.wgr_clock("keep", other / "register.db"), (0, ""))
        self.assertTrue((other / "clock").exists())
        with self.subTest("by a path from here"):
            status, told = self.wgr_clock("check", "register.db")
            self.assertEqual((status, told.endswith(f"wgr-clock accept {self.register}")), (1, True), told)
        with self.subTest("none"):
            for word in ["check", "keep", "accept"]:
                self.assertEqual(self.wgr_clock(word, other / "none.db"), (1, f"no register can be seen at {other}/none.db"))

    def test_words(self):
        for words in USAGES:
            with self.subTest(words):
                left = self.run_script("wgr-clock", *words)
                self.assertEqual((left.status, left.out, b"wgr-clock accept REGISTER" in left.err), (2, b"", True))
        self.assertEqual(self.run_script("wgr-clock", "--help").status, 0)
        self.assertEqual(self.names("."), ["register.db"])

    def test_the_probe(self):
        server = self.serve(self.register)
        words = ["wgr-probe", f"http://127.0.0.1:{server.port}", "--register", self.register]

        def probe(*more):
            left = self.run_script(*words, *more)
            self.assertEqual(left.err, b"")
            return left.status, left.out.decode().partition(" s: ")[2].removesuffix("\n")

        with self.subTest("no moment"):
            self.assertEqual(probe(), (0, "the answer is 401"))
        for ahead, status, due in [
            (3600, 1, r"the clock is 3[56]\d\d s behind the kept moment: .* wgr-clock accept \S+"),
            (-2 * DAY, 1, r"the clock is 172[89]\d\d s ahead of the kept moment: .* wgr-clock accept \S+"),
            (-60, 0, "the answer is 401"),
        ]:
            with self.subTest(ahead):
                self.kept.write_text(f"{int(time.time()) + ahead}\n")
                self.assertEqual(probe()[0], status)
                self.assertRegex(probe()[1], f"^{due}$")
        self.kept.write_text("x\n")
        with self.subTest("a service that doesn't answer is told first"):
            words[1] = f"http://127.0.0.1:{free_port()}"
            self.assertEqual(probe(), (1, "no answer: Connection refused"))


@needs_systemd
@needs("nsenter")
class Units(unittest.TestCase):
    def setUp(self):
        units = [*(f"{name}.service" for name in UNITS), "wgr-clock.timer", "wgr-clock@.timer"]
        self.system = System(self.enterContext(tempfile.TemporaryDirectory()), units, drop_ins=DROP_INS)
        (self.system.units / "sets-the-clock.service").write_text(SETS_THE_CLOCK)
        self.addCleanup(self.system.stop)
        self.system.start()

    def inside(self, path):
        return Path(f"/proc/{self.system.first}/root{path}")

    def keep(self, status=0, unit="wgr-clock"):
        self.system.run("systemctl", "start", unit, allowed=[status])

    def jump(self, ahead, folder="/var/lib/wgr"):
        """As though the clock had jumped: by so much the moment that was kept is ahead of it."""
        self.inside(f"{folder}/clock").write_text(f"{int(time.time()) + ahead}\n")

    def alerts(self, *names):
        """Waits for these alerts, and finds no others."""
        told = []

        def are_told():
            told[:] = self.inside("/run/alerts").read_text().split() if self.inside("/run/alerts").exists() else []
            return told == list(names)

        self.assertTrue(in_time(are_told), told)

    def wait_for(self, state, unit="wgr"):
        self.assertTrue(in_time(lambda: self.system.show(unit, "ActiveState") == (state,)), self.system.show(unit, "ActiveState"))

    def test_a_start(self):
        system = self.system
        with self.subTest("without a register nothing is kept, and nothing fails"):
            self.keep()
            self.assertEqual(system.show("wgr-clock", "ActiveState", "ConditionResult"), ("inactive", "no"))
        system.make_register(TOKEN)
        system.run("systemctl", "start", "wgr")
        with self.subTest("the service starts the timer, which goes on when it is stopped"):
            self.assertEqual(system.show("wgr-clock.timer", "ActiveState"), ("active",))
            timers = system.run("systemctl", "show", "wgr-clock.timer", "--property=TimersMonotonic").stdout
            self.assertIn("OnUnitActiveUSec=1min ", timers)
            system.run("systemctl", "stop", "wgr-clock.timer")
            system.run("systemctl", "try-restart", "wgr")
            self.assertEqual(system.show("wgr-clock.timer", "ActiveState"), ("active",))
            system.run("systemctl", "stop", "wgr")
            self.assertEqual(system.show("wgr-clock.timer", "ActiveState"), ("active",))
        with self.subTest("the moment is the service's own file"):
            self.keep()
            self.assertLess(abs(time.time() - int(self.inside("/var/lib/wgr/clock").read_text())), 30)
            self.assertEqual(system.run("stat", "-c", "%U %a", "/var/lib/wgr/clock").stdout, "wgr 644\n")
        for name, ahead in [("behind", 3600), ("ahead", -2 * DAY)]:
            with self.subTest("a clock that has jumped lets it fail, and somebody is told", clock=name):
                self.inside("/run/alerts").write_text("")
                self.jump(ahead)
                system.run("systemctl", "start", "wgr", allowed=[1])
                self.wait_for("failed")
                self.assertEqual(system.processes("wgr.service"), [])
                self.alerts("wgr")
            with self.subTest("until the operator accepts it", clock=name):
                system.run("/usr/local/bin/wgr-clock", "accept", "/var/lib/wgr/register.db")
                system.run("systemctl", "reset-failed", "wgr")
                system.run("systemctl", "start", "wgr")
                self.keep()
                system.run("systemctl", "stop", "wgr")

    def test_a_clock_that_is_being_set(self):
        """The service, and who keeps the moment, wait for it."""
        self.system.make_register(TOKEN)
        for unit in ["wgr", "wgr-clock"]:
            with self.subTest(unit):
                self.system.run("systemctl", "stop", "wgr", "time-sync.target", "sets-the-clock")
                self.system.run("rm", "-f", "/run/is-set")
                self.system.run("systemctl", "start", unit)
                self.assertTrue(self.inside("/run/is-set").exists())

    def test_several_registers(self):
        """One that can't start is tried until its clock is right; the other one serves."""
        for name in ["eu1", "eu2"]:
            self.system.run("install", "-d", "-o", "wgr", "-g", "wgr", "-m", "700", f"/var/lib/wgr/{name}")
            self.system.make_register(TOKEN, register=f"/var/lib/wgr/{name}/register.db")
            self.keep(unit=f"wgr-clock@{name}")
        self.jump(3600, folder="/var/lib/wgr/eu1")
        self.system.run("systemctl", "start", "wgr@eu2")
        self.system.run("systemctl", "start", "wgr@eu1", allowed=[1])
        self.keep(1, "wgr-clock@eu1")
        self.keep(0, "wgr-clock@eu2")
        self.alerts("wgr-clock@eu1")
        time.sleep(0.5)
        self.assertIn(self.system.show("wgr@eu1", "ActiveState")[0], ["activating", "deactivating"])
        self.jump(0, folder="/var/lib/wgr/eu1")
        self.wait_for("active", "wgr@eu1")
        self.assertEqual(self.system.show("wgr-clock@eu1.timer", "ActiveState"), ("active",))
        self.alerts("wgr-clock@eu1")

    def test_alerts(self):
        """One for each time that the clock has jumped, and the service goes on."""
        self.system.make_register(TOKEN)
        self.system.run("systemctl", "start", "wgr")
        [process] = self.system.processes("wgr.service")
        told = []
        for ahead in [3600, -2 * DAY]:
            self.keep()
            self.jump(ahead)
            told.append("wgr-clock")
            for _ in range(3):
                self.keep(1)
                self.alerts(*told)
            self.assertEqual(self.system.show("wgr-clock", "ActiveState"), ("failed",))
            self.jump(0)
        self.keep()
        time.sleep(0.5)
        self.alerts(*told)
        self.assertEqual(self.system.processes("wgr.service"), [process])
