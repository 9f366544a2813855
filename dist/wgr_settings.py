"""What the operator says of a network that a WireGuard server follows: files of its folder."""

import ipaddress
import os
import re
from pathlib import Path

URL = re.compile(r"https?://[^\s/?#@]+(/[^\s?#]+)?/networks/[a-z0-9-]+")
TOKEN = re.compile(r"[!-~]{1,128}")
KEY = re.compile(r"[A-Za-z0-9+/]{43}=")
INTERFACE = re.compile(r"[A-Za-z0-9_=+.-]{1,15}")
LINE = re.compile(r"\s*([a-z]+)\s*=\s*(.*?)\s*")
ROUNDS = range(1, 100_001)


class Fault(Exception):
    """Why a round has failed, in words for the operator."""


def read_line(path, form, what):
    """The one line of a file."""
    try:
        text = path.read_text().strip()
    except (OSError, ValueError) as error:
        raise Fault(f"cannot read {path}: {getattr(error, 'strerror', None) or error}") from None
    if not form.fullmatch(text):
        raise Fault(f"{path} isn't {what}")
    return text


def lines_of(path):
    """The names and values of a file of settings, in turn, which may be missing."""
    try:
        text = path.read_text()
    except FileNotFoundError:
        return
    except (OSError, ValueError) as error:
        raise Fault(f"cannot read {path}: {getattr(error, 'strerror', None) or error}") from None
    for number, line in enumerate(text.splitlines(), 1):
        line = line.partition("#")[0]
        if not line.strip():
            continue
        found = LINE.fullmatch(line)
        if not found:
            raise Fault(f"{path}, line {number}: it isn't NAME = VALUE")
        yield number, *found.groups()


def one_of(*words):
    def read(text):
        if text not in words:
            raise ValueError(f"it is one of {', '.join(words)}")
        return text

    return read


def interface_of(text):
    if not INTERFACE.fullmatch(text) or text in [".", ".."]:
        raise ValueError("it is the name of an interface")
    return text


def routes_of(text):
    """The space within which prefixes get routes, or nothing for all of them."""
    if text in ["all", "none"]:
        return None if text == "all" else []
    try:
        return [ipaddress.ip_network(prefix.strip()) for prefix in text.split(",")]
    except ValueError:
        raise ValueError("it is all, none, or prefixes with commas between them") from None


def rounds_of(text):
    if text == "keep":
        return None
    if not text.isdecimal() or int(text) not in ROUNDS:
        raise ValueError(f"it is keep, or a number of rounds from {ROUNDS[0]} to {ROUNDS[-1]}")
    return int(text)


READERS = {
    "interface": interface_of,
    "peers": one_of("all", "own"),
    "addresses": one_of("all", "own", "none"),
    "routes": routes_of,
    "port": one_of("follow", "keep"),
    "ended": rounds_of,
}


class Settings:
    def __init__(self, folder):
        self.url = read_line(folder / "url", URL, "the address of a network")
        self.token = read_line(folder / "token", TOKEN, "a token")
        self.private = read_line(folder / "key", KEY, "a private key")
        certificates = folder / "ca"
        self.certificates = str(certificates) if certificates.exists() else None
        self.path = "/" + self.url.split("/", 3)[3]
        said = {}
        for number, name, text in lines_of(folder / "settings"):
            if name not in READERS:
                raise Fault(f"{folder}/settings, line {number}: there is no setting {name}")
            try:
                said[name] = READERS[name](text)
            except ValueError as error:
                raise Fault(f"{folder}/settings, line {number}: {name}: {error}") from None
        self.ordinary = said.get("interface")
        # Beside others on an ordinary interface, only what is the register's is changed unless the operator says more.
        self.peers = said.get("peers", "own" if self.ordinary else "all")
        self.addresses = said.get("addresses", "own" if self.ordinary else "all")
        self.routes = said.get("routes", [] if self.ordinary else None)
        self.port = said.get("port", "keep" if self.ordinary else "follow")
        self.ended = said.get("ended")


def ordinary_interface(folder):
    """The interface that the settings name, or nothing. Faults in other lines don't count."""
    try:
        for _, name, text in lines_of(folder / "settings"):
            if name == "interface" and INTERFACE.fullmatch(text):
                return text
    except Fault:
        pass
    return None


def read_preshared(folder):
    """The preshared keys by public key, each in a file whose name is that key, with _ for / and - for +."""
    try:
        names = os.listdir(folder / "preshared")
    except FileNotFoundError:
        return {}
    except OSError as error:
        raise Fault(f"cannot read {folder}/preshared: {error.strerror}") from None
    found = {}
    for name in names:
        key = name.replace("_", "/").replace("-", "+")
        if not KEY.fullmatch(key):
            raise Fault(f"{folder}/preshared/{name} isn't named as a public key, with _ for / and - for +")
        found[key] = read_line(folder / "preshared" / name, KEY, "a preshared key")
    return found
