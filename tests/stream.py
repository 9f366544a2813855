"""Requests at an even pace to 127.0.0.1:443, as `python3 stream.py LOCK SECONDS`: what was answered, as JSON.

Three kinds take turns: a reading with a token, one with a token that nobody has, and a new peer that is there already.
A change holds the lock LOCK, so that whoever has it knows that none is being made.
"""

import fcntl
import json
import socket
import ssl
import sys
import threading
import time

PACE = 0.05
TRUST = ssl._create_unverified_context()
PEER = b'{"key":"AQEBAQEBAQEBAQEBAQEBAQEBAQEBAQEBAQEBAQEBAQE="}'
LIST, NEW = b"GET /networks HTTP/1.1\r\n", b"POST /networks/office/peers HTTP/1.1\r\nContent-Length: %d\r\n" % len(PEER)
KINDS = [("reading", LIST, b"abc", b""), ("stranger", LIST, b"nobodys", b""), ("change", NEW, b"abc", PEER)]


def status(message):
    """The status that is answered, or what went wrong."""
    try:
        with TRUST.wrap_socket(socket.create_connection(("127.0.0.1", 443), timeout=60)) as link:
            link.sendall(message)
            reply = b""
            while part := link.recv(65_536):
                reply += part
        return reply[9:12].decode() if reply.startswith(b"HTTP/1.1 ") else repr(reply)
    except OSError as error:
        return repr(error)


def ask(lock, number, answers):
    kind, line, token, body = KINDS[number % len(KINDS)]
    message = line + b"Host: wgr\r\nConnection: close\r\nAuthorization: Bearer " + token + b"\r\n\r\n" + body
    began = time.monotonic()
    with open(lock) as file:
        if kind == "change":
            fcntl.flock(file, fcntl.LOCK_SH)
        answers.append((kind, status(message), time.monotonic() - began))


def main():
    lock, seconds = sys.argv[1], float(sys.argv[2])
    answers, asking, began = [], [], time.monotonic()
    for number in range(int(seconds / PACE)):
        time.sleep(max(0, began + number * PACE - time.monotonic()))
        asking.append(threading.Thread(target=ask, args=(lock, number, answers)))
        asking[-1].start()
    for one in asking:
        one.join()
    print(json.dumps(answers))


if __name__ == "__main__":
    main()
