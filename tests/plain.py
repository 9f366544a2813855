"""A plain register in memory: what each request and each order is to be answered, by docs/SPECIFICATION.md.

It is as slow as it is plain, and has no code of the program: addresses are Python's, and so is JSON.
"""

import base64
import hashlib
import json
import re

import plain_messages
import serving
from plain_network import MOST_NUMBER, Network, Refused, is_full, prefix_of

# A part of a path; a target beyond ASCII has no path.
NAME = "([!-.0-~]+)"
PEER = rf"/networks/{NAME}/peers/([1-9][0-9]{{0,6}})"
# Each path's form, and its methods with what they ask.
PATHS = [
    ("/networks", {"GET": "networks"}),
    (rf"/networks/{NAME}/peers", {"GET": "peers", "POST": "add"}),
    (PEER, {"DELETE": "revoke"}),
    (f"{PEER}/address", {"POST": "move"}),
    (f"{PEER}/routes", {"POST": "route"}),
    (f"{PEER}/lease", {"POST": "renew"}),
    (f"{PEER}/file/(wg|quick)", {"GET": "peer_file"}),
    (rf"/networks/{NAME}/unroute", {"POST": "unroute"}),
    (rf"/networks/{NAME}/dump", {"POST": "adopt"}),
    (rf"/networks/{NAME}/owner/{NAME}", {"GET": "owner"}),
    (rf"/networks/{NAME}/server/(wg|quick)", {"GET": "server_file"}),
]
MEMBERS = {
    "add": ["key", "label", "address", "end", "keepalive"],
    "move": ["address"],
    "route": ["prefix"],
    "renew": ["end"],
    "unroute": ["prefix"],
}
# What changes a network, which a token that only reads may not ask.
CHANGES = {"add", "revoke", "move", "route", "renew", "unroute", "adopt"}
MOST_END, MOST_COUNT = 2**53 - 1, 2**63 - 1


def asked_of(method, target):
    for form, methods in PATHS:
        found = re.fullmatch(form, target)
        if found and all(int(number) <= MOST_NUMBER for number in found.groups()[1:2] if form.startswith(PEER)):
            if method not in methods:
                raise Refused(405, "wrong_method", allow=", ".join(methods))
            return methods[method], found.groups()
    raise Refused(404, "no_such_path")


def bad(name):
    return Refused(400, "bad_field", field=name)


def number_of(text):
    """A whole number as serde_json reads it: below zero, or above 64 bits, it is none; beyond a float, no JSON."""
    value = int(text) if len(text) < 400 else float(text)
    if abs(value) > 1.7e308:
        raise ValueError(text)
    return value if 0 <= value < 2**64 and text != "-0" else float(value)


def float_of(text):
    if float(text) in (float("inf"), float("-inf")):
        raise ValueError(text)
    return float(text)


def no_constant(text):
    raise ValueError(text)


def json_of(body):
    try:
        text = body.decode()
        value = json.loads(text, parse_int=number_of, parse_float=float_of, parse_constant=no_constant) if text[:1] != "\ufeff" else None
        json.dumps(value, ensure_ascii=False).encode()
    except (ValueError, RecursionError):
        raise bad("body") from None
    return value


def body_of(what, body):
    """The members of a body, in the order in which they are tested."""
    value, found = json_of(body), {}
    if not isinstance(value, dict) or set(value) - set(MEMBERS[what]):
        raise bad("body")
    for name in MEMBERS[what]:
        if name in value:
            found[name] = member_of(name, value[name])
        elif name in ("key", "prefix") or (what, name) == ("renew", "end"):
            raise bad(name)
    return found


def is_key(text):
    found = re.fullmatch("[A-Za-z0-9+/]{43}=", text)
    return bool(found) and base64.b64encode(base64.b64decode(text)).decode() == text


def member_of(name, given):
    whole = isinstance(given, int) and not isinstance(given, bool)
    if name in ("end", "keepalive"):
        if whole and given <= {"end": MOST_END, "keepalive": 65_535}[name]:
            return given
    elif isinstance(given, str):
        if name == "key" and is_key(given) or name == "label" and re.fullmatch("[ -~]{0,64}", given):
            return given
        prefix = prefix_of(given)
        if name == "prefix" and prefix:
            return prefix[0]
        if name == "address" and prefix and is_full(prefix[0]):
            return prefix[1]
    raise bad(name)


SOME, DIGITS = "[!-\xff]{1,256}", "[0-9]{1,20}"


def is_key_or_none(text):
    return text == "(none)" or is_key(text)


def is_port(text):
    return bool(re.fullmatch("[0-9]{1,5}", text)) and int(text) <= 65_535


def is_some(text):
    return bool(re.fullmatch(SOME, text))


def is_count(text):
    return bool(re.fullmatch(DIGITS, text))


def are_prefixes(text):
    return text == "(none)" or all(map(prefix_of, text.split(",")))


def is_keepalive(text):
    return text == "off" or is_port(text)


INTERFACE = [is_key_or_none, is_key_or_none, is_port, is_some]
LINE = [is_key, is_key_or_none, is_some, are_prefixes, is_count, is_count, is_count, is_keepalive]


def dump_of(body):
    """The interface's key, and the lines: number, key, prefixes, status and keepalive."""
    text = body.decode("latin-1")
    rows = [line.split("\t") for line in text.removesuffix("\n").split("\n")]
    for number, row in enumerate(rows, 1):
        forms = INTERFACE if number == 1 else LINE
        for place, form in enumerate(forms):
            if place >= len(row) or not form(row[place]):
                raise Refused(400, "bad_dump", line=number, field=place + 1)
        if len(row) > len(forms):
            raise Refused(400, "bad_dump", line=number, field=len(forms) + 1)
    return rows[0][1], [line_of(number, row) for number, row in enumerate(rows[1:], 2)]


def line_of(number, row):
    prefixes = [] if row[3] == "(none)" else [prefix_of(text)[0] for text in row[3].split(",")]
    counts = [min(int(text), MOST_COUNT) for text in row[4:7]]
    status = dict(zip(["handshake", "received", "sent"], counts))
    return number, row[0], prefixes, status, 0 if row[7] == "off" else int(row[7])


def digest_of(token):
    return hashlib.sha256(token).digest()


class Register:
    def __init__(self):
        # Each token's tenant, and the tokens that only read.
        self.tenants, self.tokens, self.readers = {}, {}, set()

    def answer(self, now, text):
        """The reply to a message."""
        try:
            method, target, token, body = plain_messages.read(text)
            what, words = asked_of(method, target)
            if token is None:
                raise Refused(401, "unknown_token")
            return self.asked(now, digest_of(token), what, words, self.form(what, words, body))
        except Refused as why:
            if why.name == "wrong_method":
                return serving.wrong_method(why.facts["allow"])
            return why.reply

    def form(self, what, words, body):
        """What the body or the path's address say."""
        if what == "adopt":
            return dict(zip(["interface", "lines"], dump_of(body)))
        if what == "owner":
            found = prefix_of(words[1])
            if not found:
                raise bad("address")
            return {"address": found[1]}
        return body_of(what, body) if what in MEMBERS else {}

    def asked(self, now, digest, what, words, members):
        if digest not in self.tokens:
            raise Refused(401, "unknown_token")
        if what in CHANGES and digest in self.readers:
            raise Refused(403, "read_only")
        networks = self.tenants[self.tokens[digest]]
        if what == "networks":
            return serving.done({"networks": [self.shown(name, networks[name]) for name in sorted(networks)]})
        if words[0] not in networks:
            raise Refused(404, "no_such_network")
        live = networks[words[0]].live(now)
        number = [int(words[1])] if len(words) > 1 and words[1].isdigit() else []
        if what == "peers":
            return serving.done({"peers": [live.shown(each) for each in sorted(live.peers)]})
        if what == "owner":
            return serving.done({"number": live.owner(members["address"])})
        if what in ("server_file", "peer_file"):
            return getattr(live, what)(*number, words[-1])
        given = getattr(live, what)(now, *number, **members)
        networks[words[0]] = live
        if what == "unroute" or isinstance(given, int):
            given = live.shown(given)
        return serving.done(given)

    def shown(self, name, network):
        return {
            "capacity": network.capacity, "endpoint": network.endpoint, "name": name,
            "pool": str(network.pool), "server": network.server,
        }

    def order(self, word, *words, text=b"", **options):
        """Why an order is refused; nothing where it is done."""
        token = {"digest": digest_of(text)} if word.startswith("token") else {}
        return getattr(self, word.replace("-", "_"))(*words, **token, **options)

    def tenant_add(self, name):
        if name in self.tenants:
            return "name_held"
        self.tenants[name] = {}

    def token_grant(self, tenant, digest, right="full"):
        if tenant not in self.tenants:
            return "no_such_tenant"
        if digest in self.tokens:
            return "digest_held"
        self.tokens[digest] = tenant
        if right == "read":
            self.readers.add(digest)

    def token_end(self, digest):
        if digest not in self.tokens:
            return "no_such_token"
        del self.tokens[digest]
        self.readers.discard(digest)

    def network_add(self, tenant, name, pool, host, port, key, capacity):
        if tenant not in self.tenants:
            return "no_such_tenant"
        if name in self.tenants[tenant]:
            return "name_held"
        prefix, address = prefix_of(pool)
        least, most = {4: (8, 30), 6: (48, 126)}[prefix.version]
        if prefix[0] != address or not least <= prefix.prefixlen <= most:
            return "bad_pool"
        for other, networks in sorted(self.tenants.items()):
            for each, network in sorted(networks.items()):
                if network.pool.version == prefix.version and network.pool.overlaps(prefix):
                    return f"pool_overlaps {other} {each}"
        if any((network.host, network.port) == (host, port) for networks in self.tenants.values() for network in networks.values()):
            return "port_held"
        self.tenants[tenant][name] = Network(prefix, host, port, key, capacity)

    def network_end(self, tenant, name):
        if tenant not in self.tenants:
            return "no_such_tenant"
        if name not in self.tenants[tenant]:
            return "no_network"
        del self.tenants[tenant][name]
