"""Clients that ask as fast as they may, as `python3 noise.py PORT SOURCE SECONDS CLIENTS REQUESTS`: how often each status came, as JSON.

REQUESTS is a file of JSON: a list of requests that each client makes in turn, as {"method", "path", "token", "body"}.
A token that is true is another one at each request, and one that is null is none. The clients connect from the address
SOURCE to 127.0.0.1, and none waits before it asks again, whatever it was answered.
"""

import http.client
import json
import secrets
import ssl
import sys
import threading
import time
from collections import Counter


def fields_of(token):
    if token is None:
        return {}
    return {"Authorization": f"Bearer {secrets.token_urlsafe(32) if token is True else token}"}


def ask_on(link, requests, turn, counts):
    """One request; whether the connection may be used again."""
    request = requests[turn % len(requests)]
    link.request(request["method"], request["path"], request["body"], fields_of(request["token"]))
    reply = link.getresponse()
    reply.read()
    counts[reply.status] += 1
    return not reply.will_close


def make_noise(port, source, end, requests, turn, counts):
    context, link = ssl._create_unverified_context(), None
    while time.monotonic() < end:
        link = link or http.client.HTTPSConnection("127.0.0.1", port, timeout=60, context=context, source_address=(source, 0))
        try:
            goes_on = ask_on(link, requests, turn, counts)
        except (OSError, http.client.HTTPException) as error:
            counts[type(error).__name__] += 1
            goes_on = False
        if not goes_on:
            link.close()
            link = None
        turn += 1


def main():
    port, source, seconds, clients = int(sys.argv[1]), sys.argv[2], float(sys.argv[3]), int(sys.argv[4])
    with open(sys.argv[5]) as file:
        requests = json.load(file)
    end, counts = time.monotonic() + seconds, Counter()
    threads = [threading.Thread(target=make_noise, args=(port, source, end, requests, turn, counts)) for turn in range(clients)]
    for thread in threads:
        thread.start()
    for thread in threads:
        thread.join()
    print(json.dumps(counts))


if __name__ == "__main__":
    main()
