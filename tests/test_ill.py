"""A service that is ill says so: a line for each 503, and its end after a fault that shut the store."""

import json
from contextlib import suppress

from faulty import ON, ONCE, Faulty, needs_faults
from program import Left
from sending import answered
from serving import LIST, NOBODY, PEERS, Serving, done, key, peer, refused, request
from test_batch import batch

UNAVAILABLE = refused(503, "unavailable")
LINE = b"wgr: unavailable\n"


def add(number):
    return request("POST", PEERS, {"key": key(number)})


@needs_faults()
class Reported(Serving):
    """Each reply 503 is reported by a line, and nothing else is."""

    def test_want_of_memory(self):
        with Faulty() as faulty, faulty.serve(self.database, count=60) as server:
            replies = [server.send(LIST)]
            for growth in range(58):
                faulty.arm(growth=growth)
                replies.append(server.send(LIST))
                faulty.disarm()
            replies.append(server.send(LIST))
            self.assertEqual(set(replies), {NOBODY, UNAVAILABLE})
            self.assertEqual((replies[0], replies[-1]), (NOBODY, NOBODY))
            self.assertEqual(server.ended(), Left(0, b"", replies.count(UNAVAILABLE) * LINE))

    def test_a_disk_that_takes_nothing(self):
        """Writes fail, and then they don't."""
        with Faulty() as faulty, faulty.serve(self.database, count=5) as server:
            self.assertEqual(server.send(add(1)), done(peer(1, 1, "10.8.0.2/32")))
            faulty.arm(call=0, how=ONCE)
            self.assertEqual(server.send(add(2)), UNAVAILABLE)
            faulty.disarm()
            self.assertEqual(server.send(LIST), done({"peers": [peer(1, 1, "10.8.0.2/32")]}))
            self.assertEqual(server.send(add(3)), done(peer(2, 3, "10.8.0.3/32")))
            self.assertEqual(server.send(b"", close=True), refused(400, "truncated"))
            self.assertEqual(server.ended(), Left(0, b"", LINE))


@needs_faults()
class Shut(Serving):
    """A sync that failed: the request gets its 503, and the service ends, so that it is started anew."""

    def lasts(self, server):
        """Lets the next change's last call, which is its sync, fail."""
        self.faulty.arm()
        self.assertEqual(server.send(add(2)), done(peer(2, 2, "10.8.0.3/32")))
        return {"call": self.faulty.calls - 1, "how": ONCE}

    def serve(self, **words):
        self.faulty = self.enterContext(Faulty())
        server = self.enterContext(self.faulty.serve(self.database, **words))
        # The first change makes the log.
        self.assertEqual(server.send(add(1)), done(peer(1, 1, "10.8.0.2/32")))
        return server

    def after(self):
        """The keys of the peers that the next start has."""
        left = batch(self.database, 7, [LIST])
        self.assertEqual((left.status, left.err), (0, b""))
        return [found["key"] for found in json.loads(left.out.partition(b"\r\n\r\n")[2])["peers"]]

    def test_a_request(self):
        server = self.serve()
        self.faulty.arm(**self.lasts(server))
        self.assertEqual(server.send(add(3)), UNAVAILABLE)
        self.assertEqual(server.ended(), Left(1, b"", LINE + b"wgr: store\n"))
        self.faulty.disarm()
        # The change whose sync failed may be found done.
        self.assertIn(self.after(), [[key(1), key(2)], [key(1), key(2), key(3)]])

    def test_a_client_that_waits(self):
        """It is answered nothing, and its request isn't done."""
        server = self.serve()
        wanted = self.lasts(server)
        with server.connect() as first, server.connect() as second:
            # Whoever has sent something first is served first.
            first.sendall(add(3)[:1])
            server.has_read(first)
            second.sendall(add(4))
            self.faulty.arm(**wanted)
            first.sendall(add(3)[1:])
            self.assertEqual(server.ended(), Left(1, b"", LINE + b"wgr: store\n"))
            with suppress(ConnectionResetError):
                self.assertEqual(second.recv(1), b"")
        self.faulty.disarm()
        self.assertNotIn(key(4), self.after())

    def test_the_last_connection(self):
        """The status is 1, though all its connections were answered."""
        server = self.serve(count=3)
        self.faulty.arm(**self.lasts(server))
        self.assertEqual(server.send(add(3)), UNAVAILABLE)
        self.assertEqual(server.ended(), Left(1, b"", LINE + b"wgr: store\n"))

    def test_an_order(self):
        """It is answered that the store failed, and the service ends as behind a request."""
        path = f"{self.database}.orders"
        server = self.serve(orders=path)
        self.faulty.arm()
        self.assertEqual(answered(path, b"tenant-add bolt\n"), b"0 done\n")
        self.faulty.arm(call=self.faulty.calls - 1, how=ONCE)
        self.assertEqual(answered(path, b"tenant-add cato\n"), b"1 store\n")
        self.assertEqual(server.ended(), Left(1, b"", b"wgr: unavailable\nwgr: store\n"))

    def test_a_write_that_fails_shuts_nothing(self):
        server = self.serve(count=3)
        self.faulty.arm(call=0, how=ON)
        self.assertEqual(server.send(add(2)), UNAVAILABLE)
        self.faulty.disarm()
        self.assertEqual(server.send(LIST), done({"peers": [peer(1, 1, "10.8.0.2/32")]}))
        self.assertEqual(server.ended(), Left(0, b"", LINE))
