"""Registers' files with networks of many peers, and requests to these, the same on each machine."""

import base64
import hashlib
import re
import sqlite3
from ipaddress import ip_address, ip_network
from pathlib import Path

# Where the pools lie, one behind the other, and the routes apart from them.
POOLS = ip_network("10.0.0.0/12")
ROUTES = int(ip_address("10.16.0.0"))
ROUTE_LENGTH = 24
MAKING = Path(__file__).resolve().parent.parent / "crates/wgr_schema/src/making.rt"

# How the tables begin that the first version hasn't got.
LATER_TABLES = ("CREATE TABLE second ", "CREATE TABLE reader ")

CAPACITY = 4096
PORT = 51820


def digest(text):
    return hashlib.sha256(text.encode()).digest()


def key_text(key):
    return base64.b64encode(key).decode()


SERVER_KEY = digest("server")


def address_bytes(number):
    return number.to_bytes(16, "big")


def route_start(number, count):
    """The first address of the prefix that leads to the peer of this number, of so many; they come in no order."""
    return ROUTES + (number * 421 % count << 32 - ROUTE_LENGTH)


def route(number, count):
    return ip_network((route_start(number, count), ROUTE_LENGTH))


def status(number):
    """What an interface last showed of the peer: of each third one nothing."""
    return (None, None, None) if number % 3 == 0 else (1_700_000_000 + number, 1024 * number, 2048 * number)


class Network:
    """The network of this number, from 1 on, of so many, and requests of its tenant, who has no other.

    Its peers have every address from the first one on that may be given, or every second one and so on.
    """

    def __init__(self, number, networks=1, every=1):
        self.number, self.every = number, every
        self.length = POOLS.prefixlen + (networks - 1).bit_length()
        self.low = int(POOLS[0]) + (number - 1 << 32 - self.length)
        self.tenant = f"tenant-{number}"
        self.token = f"token-{number}"

    def address(self, number):
        """The address of the peer of this number; they rise."""
        return self.low + 2 + self.every * (number - 1)

    def key(self, number):
        return digest(f"peer {self.number} {number}")

    def row(self, peers):
        place = [self.number, self.number, "office", 4, address_bytes(self.low), self.length]
        return [*place, f"vpn-{self.number}.example.net", PORT, SERVER_KEY, CAPACITY, peers + 1]

    def peer_row(self, number):
        keepalive = 25 if number % 2 else 0
        own = [self.row_id(number), self.number, self.key(number), f"peer {number}", 0, keepalive]
        return [*own, *status(number)]

    def row_id(self, number):
        return (self.number << 20) + number

    def allowed_row(self, number, start, length, kind):
        last = start + (1 << 32 - length) - 1
        return [self.number, 4, address_bytes(start), length, address_bytes(last), self.row_id(number), kind]

    def allowed_rows(self, peers):
        for number in range(1, peers + 1):
            yield self.allowed_row(number, self.address(number), 32, "address")
            yield self.allowed_row(number, route_start(number, peers), ROUTE_LENGTH, "route")

    def request(self, method, path, body=None, token=None):
        lines = [f"{method} {path} HTTP/1.1", "Host: wgr", f"Authorization: Bearer {token or self.token}"]
        if body is not None:
            lines.append(f"Content-Length: {len(body)}")
        return "\r\n".join([*lines, "", body or ""]).encode()

    def ask(self, method, path, body=None, name="office", **others):
        return self.request(method, f"/networks/{name}/{path}", body, **others)

    def listed_networks(self):
        return self.request("GET", "/networks")

    def listed(self, **others):
        return self.ask("GET", "peers", **others)

    def server_file(self):
        return self.ask("GET", "server/quick")

    def owner(self, number, peers):
        """Who owns the peer's own address, or for each second one an address of its route."""
        asked = self.address(number) if number % 2 else route_start(number, peers) + 7
        return self.ask("GET", f"owner/{ip_address(asked)}")

    def unowned(self):
        """Who owns an address that no prefix has, of the family with the more lengths."""
        return self.ask("GET", "owner/fd00::7")

    def peer_file(self, number):
        return self.ask("GET", f"peers/{number}/file/wg")

    def add(self, number):
        return self.ask("POST", "peers", f'{{"key":"{key_text(self.key(number))}"}}')

    def dump_line(self, number, count, later):
        """A peer with its address, a route that it takes from the one before, and one of its own.

        The first has none of its own, so that there are no more routes than peers. It was seen so many seconds later.
        """
        allowed = [f"{ip_address(self.address(number))}/32", "0.0.0.0/0"]
        if number > 1:
            allowed.append(str(route(number, count)))
        seen = f"{1_700_000_000 + number + later}\t{1024 * number}\t{2048 * number}"
        return f"{key_text(self.key(number))}\t(none)\t198.51.100.7:40000\t{','.join(allowed)}\t{seen}\t25\n"

    def adoption(self, numbers, count, later=0):
        lines = [self.dump_line(number, count, later) for number in numbers]
        return self.ask("POST", "dump", f"(none)\t{key_text(SERVER_KEY)}\t{PORT}\toff\n{''.join(lines)}")


def row_count(networks, peers):
    """How many rows such a register has: of the version, of entries, of peers with an address and a route."""
    return 1 + 3 * networks + 3 * networks * peers


def insert(database, table, rows):
    rows = iter(rows)
    first = next(rows, None)
    if first is None:
        return
    statement = f"INSERT INTO {table} VALUES ({', '.join('?' * len(first))})"
    database.execute(statement, first)
    database.executemany(statement, rows)


def make_tables(path, is_earlier=False):
    """A register without entries, whose tables are made by the texts with which `wgr` makes them.

    Of the first version, the last two tables are left out.
    """
    database = sqlite3.connect(path)
    database.execute("PRAGMA journal_mode = WAL")
    for text in re.findall(r'"((?:CREATE|INSERT) [^"]*)"', MAKING.read_text(encoding="utf-8")):
        if not (is_earlier and text.startswith(LATER_TABLES)):
            database.execute(text)
    if is_earlier:
        database.execute("UPDATE meta SET version = 1")
    return database


def make(path, networks, peers, every=1, is_earlier=False):
    """Makes a register of so many networks, each of a tenant of its own and with so many peers.

    Each peer has a route.
    """
    database = make_tables(path, is_earlier)
    all_networks = [Network(number, networks, every) for number in range(1, networks + 1)]
    numbers = range(1, peers + 1)
    insert(database, "tenant", ([it.number, it.tenant] for it in all_networks))
    insert(database, "token", ([digest(it.token), it.number] for it in all_networks))
    insert(database, "network", (it.row(peers) for it in all_networks))
    insert(database, "peer", (it.peer_row(number) for it in all_networks for number in numbers))
    insert(database, "allowed", (row for it in all_networks for row in it.allowed_rows(peers)))
    database.commit()
    database.close()


def rows(path):
    """All rows of the register but its version and the index's. Of the first version, the last two tables have none."""
    database = sqlite3.connect(path)
    there = {name for name, in database.execute("SELECT name FROM sqlite_schema WHERE type = 'table'")}
    tables = ("tenant", "token", "network", "peer", "allowed", "second", "reader")
    ask = {table: f"SELECT * FROM {table}" for table in tables if table in there}
    found = [sorted(database.execute(ask[table]), key=repr) if table in ask else [] for table in tables]
    database.close()
    return found
