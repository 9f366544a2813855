"""What is left to a quiet tenant beside others that ask for the dearest requests as fast as they may."""

import http.client
import json
import ssl
import subprocess
import sys
import time
from contextlib import ExitStack
from pathlib import Path
from typing import NamedTuple

import register

NOISE = Path(__file__).resolve().parent.parent / "tests/noise.py"
PEERS = 4096
# Tenants, the last of which is the quiet one; connections of each that is noisy; seconds between two requests of the quiet one.
TENANTS, CLIENTS, PAUSE = 4, 16, 0.02
NETWORKS = [register.Network(number, TENANTS) for number in range(1, TENANTS + 1)]


class Times(NamedTuple):
    """Of the quiet tenant's requests, in milliseconds."""

    median: float
    p99: float
    most: float


def asked(path, token, method="GET", body=None):
    return {"method": method, "path": f"/networks/office/{path}", "token": token, "body": body}


def dump(network, later):
    return network.adoption(range(1, PEERS + 1), PEERS, later).decode().partition("\r\n\r\n")[2]


def dearest(network, token):
    """A dump, the list, a peer's file and the server's, in turn."""
    dumps = [asked("dump", token, "POST", dump(network, later)) for later in (60, 120)]
    others = [asked(path, token) for path in ("peers", "peers/7/file/quick", "server/quick")]
    return [request for one in dumps for request in (one, *others)]


def kinds():
    """By name, the requests of each that is noisy: with its own token, with none, and with another one each time."""
    own = [dearest(network, network.token) for network in NETWORKS[:-1]]
    none, wrong = (dearest(NETWORKS[0], token) for token in (None, True))
    return {
        "nobody": [],
        "one tenant": own[:1],
        "three tenants": own,
        "one without a token": [none],
        "three without a token": [none] * 3,
        "one with wrong tokens": [wrong],
        "three with wrong tokens": [wrong] * 3,
    }


def ask_quietly(port, seconds):
    """The milliseconds of each of the quiet tenant's requests for a peer's file, over one connection as long as it is kept."""
    network, spent, link, end = NETWORKS[-1], [], None, time.monotonic() + seconds
    while time.monotonic() < end:
        began = time.monotonic()
        link = link or http.client.HTTPSConnection("127.0.0.1", port, timeout=60, context=ssl._create_unverified_context(), source_address=("127.0.0.9", 0))
        link.request("GET", "/networks/office/peers/7/file/quick", headers={"Authorization": f"Bearer {network.token}"})
        reply = link.getresponse()
        reply.read()
        if reply.status != 200:
            sys.exit(f"the quiet tenant is answered {reply.status}")
        spent.append((time.monotonic() - began) * 1000)
        if reply.will_close:
            link.close()
            link = None
        time.sleep(PAUSE)
    return sorted(spent)


def measure(folder, port, noisy, seconds):
    """The times of the quiet tenant beside these, each at an address of its own."""
    with ExitStack() as stack:
        for number, requests in enumerate(noisy):
            file = folder / f"noise{number}"
            file.write_text(json.dumps(requests))
            words = [sys.executable, NOISE, str(port), f"127.0.0.{number + 2}", str(seconds + 2), str(CLIENTS), file]
            stack.enter_context(subprocess.Popen(words, stdout=subprocess.DEVNULL))
        time.sleep(1 if noisy else 0)
        spent = ask_quietly(port, seconds)
    return Times(spent[len(spent) // 2], spent[len(spent) * 99 // 100], spent[-1])
