"""What the tools that read a register have in common: in a copy, as wgr-backup makes it, or at the running service."""

import base64
import ipaddress
import json
import re
import shutil
import sqlite3
import subprocess
import tempfile
from datetime import datetime, timezone
from pathlib import Path

from wgr_figures import fail

# The version of the tables that the tools read by themselves, and those that `wgr migrate` takes to it.
VERSION, EARLIER = 3, (1, 2)
# Whether there is a row that only a later wgr writes, and that the tools don't know.
LATER = "SELECT EXISTS (SELECT * FROM second)"
# What `wgr show --json` says of a tenant, also where one of its tokens only reads, and of a network.
TENANT = {"name", "tokens", "networks"}
TENANTS = [TENANT, TENANT | {"readers"}]
NETWORK = {"name", "pool", "host", "port", "server", "capacity", "peers", "routes"}
# A log with this header alone has nothing that isn't in the database's file.
EMPTY_LOG = 56
# As wgr-backup names a copy.
NAME = re.compile(r"\d{8}T\d{6}\.\d{3}Z\.db")


def has_log(path):
    """Whether the log beside the file has changes that the file lacks. Where a link leads to it, that is beside the file itself."""
    log = Path(f"{Path(path).resolve()}-wal")
    return log.exists() and log.stat().st_size > EMPTY_LOG


def uri_of(path):
    """For SQLite: the copy is only read, no file is made beside it, and no lock is taken."""
    return f"{Path(path).resolve().as_uri()}?mode=ro&immutable=1"


def expect_copy(path):
    """Ends where there is no copy, or one whose log has more than the file."""
    if not Path(path).is_file():
        fail(f"there is no copy {path}")
    if has_log(path):
        fail(f"{path} has a log beside it: wgr show {path} puts it into the file")


def open_copy(path):
    """The copy as a database."""
    expect_copy(path)
    link = sqlite3.connect(uri_of(path), uri=True)
    why = fault_of(link)
    if why:
        fail(f"{path} is {why}")
    return link


def show_copy(path, *words):
    """What `wgr show --json` prints of a copy; or nothing, and why. The copy is only read: the program gets one of its own."""
    expect_copy(path)
    with tempfile.TemporaryDirectory() as folder:
        own = Path(folder) / "copy.db"
        try:
            shutil.copyfile(path, own)
        except OSError as error:
            fail(f"{path} can't be copied: {error.strerror}")
        shown, why = ask("show", own, "--json", *words)
    return shown, explain(why, path)


def explain(why, path):
    """Why wgr doesn't open a file, in one line; its own message doesn't say that there may be a register of another version."""
    if why == "wgr: not_a_register":
        return f"{why}: it is another file, or has tables of another version"
    # Its second line says that the tables are of an earlier version.
    if why and why.startswith("wgr: not_a_register\n"):
        return f"wgr: not_a_register: its tables are of an earlier version, and wgr migrate {path} takes them to this one"
    # That of a failed store says what is wrong with the file.
    return why.replace("\nwgr: ", ": ") if why else why


def is_known(tenant):
    """Whether no more is said of a tenant than the tools read: another version may have more, such as a second pool."""
    tokens, networks = [*tenant["tokens"], *tenant.get("readers", [])], tenant["networks"]
    return set(tenant) in TENANTS and all(isinstance(token, str) for token in tokens) and all(set(network) == NETWORK for network in networks)


def tenants_in(shown, place):
    """The tenants that `show --json` printed of a place."""
    tenants = json.loads(shown)["tenants"]
    if not all(map(is_known, tenants)):
        fail(f"wgr shows {place} in a form that this tool doesn't know: one of the two is of another version")
    return tenants


def fault_of(link):
    """Why the tools don't read a database; nothing where they do."""
    try:
        versions = link.execute("SELECT version FROM meta").fetchall()
        if versions == [(VERSION,)] and link.execute(LATER).fetchone() != (0,):
            return "a register of a later wgr, with second pools"
    except sqlite3.Error as error:
        return f"no register: {error}"
    if versions in [[(version,)] for version in EARLIER]:
        return "a register of an earlier version, which wgr migrate takes to this one"
    return None if versions == [(VERSION,)] else f"no register whose tables have version {VERSION}"


def ask(*words, text=None, seconds=None):
    """What wgr prints at these words, and nothing; or nothing, and why."""
    given = {"stdin": subprocess.DEVNULL} if text is None else {"input": text}
    try:
        told = subprocess.run(["wgr", *words], capture_output=True, text=True, timeout=seconds, **given)
    except FileNotFoundError:
        return None, "wgr isn't installed"
    except subprocess.TimeoutExpired:
        return None, f"no answer within {seconds} s"
    return (told.stdout, None) if told.returncode == 0 else (None, told.stderr.strip() or f"status {told.returncode}")


def send(orders, *words, seconds=None):
    """What the service at a socket answers to an order or a reading, and nothing; or nothing, and why."""
    return ask("send", orders, *words, seconds=seconds)


def newest(folder):
    """The newest copy in a folder of wgr-backup; nothing where there is none."""
    return max((path for path in Path(folder).glob("*.db") if NAME.fullmatch(path.name)), default=None)


def moment_of(path):
    """When the copy was made, as its name says; nothing where its name is another."""
    name = Path(path).name
    if not NAME.fullmatch(name):
        return None
    return datetime.strptime(name, "%Y%m%dT%H%M%S.%fZ.db").replace(tzinfo=timezone.utc)


def address_text(family, kept):
    """An address, which a column keeps as 16 bytes, IPv4 in the last four."""
    return str(ipaddress.IPv4Address(kept[12:]) if family == 4 else ipaddress.IPv6Address(kept))


def prefix_text(family, kept, length):
    return f"{address_text(family, kept)}/{length}"


def key_text(key):
    return base64.b64encode(key).decode()


def endpoint_text(host, port):
    return f"[{host}]:{port}" if ":" in host else f"{host}:{port}"
