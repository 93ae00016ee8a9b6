#!/usr/bin/env python3
"""Talks to a running daemon by the 16 peers that a socket has at once, and checks that each gets just the replies to its own requests.

    bench/peers.py [--socket PATH] [--seconds N] [--seed N]

The socket's user or group needs Devices=modify,list and Policy=list. First 16 peers connect, and each is answered; a 17th has to wait,
and is answered once another has gone. Then for N seconds 4 peers ask in bursts and at last close their own direction, 4 send a
byte at a time, 4 vanish amid a line and come back, 2 send nonsense, and 2 ask for lists and read the replies late. At last one peer
more is answered. The devices mustn't change meanwhile; nothing is asked for that changes them or the rules. Exit status 0 where all held.
Needs Python 3.9.
"""

import argparse
import random
import socket
import sys
import threading
import time

PATIENCE = 30


class Wrong(Exception):
    pass


class Peer:
    def __init__(self, path):
        self.socket = socket.socket(socket.AF_UNIX)
        self.socket.settimeout(PATIENCE)
        self.socket.connect(path)
        self.rest = b""

    def send(self, data):
        self.socket.sendall(data)

    def line(self):
        """The next line; nothing at the end of the connection."""
        while b"\n" not in self.rest:
            got = self.socket.recv(65536)
            if not got:
                if self.rest:
                    raise Wrong("the connection ended within a line: %r" % self.rest)
                return None
            self.rest += got
        line, _, self.rest = self.rest.partition(b"\n")
        return line

    def reply(self):
        first = self.line()
        if first is None or not first.startswith(b"ok "):
            return first
        return b"\n".join([first] + [self.line() or b"(nothing)" for _ in range(int(first[3:]))])

    def ask(self, request):
        self.send(request + b"\n")
        return self.reply()

    def close(self):
        self.socket.close()


class Try:
    def __init__(self, path, seconds, seed):
        self.path, self.seconds, self.seed = path, seconds, seed
        self.answered, self.turned_away, self.vanished = [0] * 16, 0, 0
        self.wrong, self.lock = [], threading.Lock()
        peer = Peer(path)
        self.lists = {request: peer.ask(request) for request in (b"list-devices", b"list-rules")}
        self.leave([peer])
        for request, reply in self.lists.items():
            self.expect("%s is answered" % request.decode(), reply.startswith(b"ok "), reply)

    def expect(self, what, holds, seen=""):
        if not holds:
            with self.lock:
                self.wrong.append("%s: %r" % (what, seen))

    def request(self, chance, number):
        """A request, and what it has to be answered. No two are refused in one way."""
        kind = chance.randrange(4)
        if kind < 2:
            request = (b"list-devices", b"list-rules")[kind]
            return request, self.lists[request]
        if kind == 2:
            return b"allow-device %d" % number, b"refused 4 no-device %d" % number
        filler = b"a" * (1 + number % 1000)
        return b"get-parameter %s x" % filler, b"refused 1 bad-request %d" % (15 + len(filler))

    def requests(self, k, chance, count):
        with self.lock:
            before = self.answered[k]
        return [self.request(chance, 10**9 + k * 10**7 + before + i) for i in range(count)]

    def check(self, k, peer, asked, sort):
        for request, want in asked:
            got = peer.reply()
            self.expect("%s peer %d asked %r" % (sort, k, request[:40]), got == want, (got or b"the end")[:80])
            self.answered[k] += 1

    # ---- the sorts of peers

    def bursts(self, k, chance, until):
        peer = Peer(self.path)
        while time.monotonic() < until:
            asked = self.requests(k, chance, chance.randrange(1, 20))
            peer.send(b"".join(request + b"\n" for request, _ in asked))
            self.check(k, peer, asked, "bursts")
        self.last_words(k, chance, peer)
        peer.close()

    def last_words(self, k, chance, peer):
        """Asks, and closes its own direction: the replies come, and then the end."""
        asked = self.requests(k, chance, 5)
        peer.send(b"".join(request + b"\n" for request, _ in asked))
        peer.socket.shutdown(socket.SHUT_WR)
        self.check(k, peer, asked, "last words of")
        self.expect("peer %d meets the end behind its last reply" % k, peer.line() is None)

    def slow(self, k, chance, until):
        peer = Peer(self.path)
        while time.monotonic() < until:
            asked = self.requests(k, chance, 1)
            for byte in asked[0][0] + b"\n":
                peer.send(bytes([byte]))
                time.sleep(0.002)
            self.check(k, peer, asked, "slow")
        peer.close()

    def vanishing(self, k, chance, until):
        while time.monotonic() < until:
            peer = Peer(self.path)
            try:
                for _ in range(chance.randrange(3)):
                    peer.ask(b"list-rules") or self.away()
                peer.send(b"list-devices"[:chance.randrange(1, 12)])
                if chance.randrange(2):
                    peer.send(b"\nlist-rules\nlist")
                if chance.randrange(2):
                    peer.socket.shutdown(socket.SHUT_WR)
            except (BrokenPipeError, ConnectionResetError):
                self.away()
            peer.close()
            with self.lock:
                self.vanished += 1
            time.sleep(chance.random() / 50)

    def away(self):
        with self.lock:
            self.turned_away += 1

    def nonsense(self, k, chance, until):
        peer = Peer(self.path)
        while time.monotonic() < until:
            lines = [chance.randbytes(chance.randrange(200)).replace(b"\n", b" ") for _ in range(chance.randrange(1, 10))]
            peer.send(b"".join(line + b"\n" for line in lines))
            for line in lines:
                got = peer.reply()
                self.expect("nonsense peer %d sent %r" % (k, line), (got or b"").startswith(b"refused 1 bad-request "), got)
                self.answered[k] += 1
        peer.close()

    def late(self, k, chance, until):
        peer = Peer(self.path)
        while time.monotonic() < until:
            asked = self.requests(k, chance, 50)
            peer.send(b"".join(request + b"\n" for request, _ in asked))
            time.sleep(0.5)
            self.check(k, peer, asked, "late")
        peer.close()

    # ---- the whole

    def leave(self, peers):
        """Closes the connections, and waits until the daemon has seen that they ended."""
        for peer in peers:
            peer.close()
        time.sleep(0.5)

    def places(self):
        peers = [Peer(self.path) for _ in range(16)]
        for k, peer in enumerate(peers):
            got = peer.ask(b"allow-device %d" % (10**6 + k))
            self.expect("peer %d of 16 is answered" % k, got == b"refused 4 no-device %d" % (10**6 + k), got)
        more = Peer(self.path)
        more.send(b"list-rules\n")
        more.socket.settimeout(2)
        try:
            self.expect("the 17th waits", False, more.line())
        except TimeoutError:
            pass
        more.socket.settimeout(PATIENCE)
        self.leave([peers.pop()])
        got = more.reply()
        self.expect("the 17th is answered once another has gone", got == self.lists[b"list-rules"], got)
        self.leave(peers + [more])

    def run_one(self, k, sort, until):
        try:
            sort(k, random.Random(self.seed * 16 + k), until)
        except (OSError, Wrong) as fault:
            self.expect("peer %d (%s)" % (k, sort.__name__), False, str(fault))

    def all_at_once(self):
        until = time.monotonic() + self.seconds
        sorts = [self.bursts] * 4 + [self.slow] * 4 + [self.nonsense] * 2 + [self.late] * 2 + [self.vanishing] * 4
        threads = [threading.Thread(target=self.run_one, args=(k, sort, until)) for k, sort in enumerate(sorts)]
        for thread in threads:
            thread.start()
        for thread in threads:
            thread.join()
        time.sleep(0.5)

    def run(self):
        self.places()
        self.all_at_once()
        peer = Peer(self.path)
        got = peer.ask(b"list-devices")
        self.expect("a peer that comes at last is answered", got == self.lists[b"list-devices"], got)
        asking = self.answered[:12]
        self.expect("each of the 12 that stayed is answered", min(asking) > 0, min(asking))
        print("%d requests answered in %g s, %d to %d of each of 12 peers; %d connections vanished, %d of them turned away"
              % (sum(asking), self.seconds, min(asking), max(asking), self.vanished, self.turned_away))
        for wrong in self.wrong[:20]:
            print("WRONG " + wrong)
        print("%d wrong" % len(self.wrong))
        return 1 if self.wrong else 0


def main():
    words = argparse.ArgumentParser(description=__doc__, formatter_class=argparse.RawDescriptionHelpFormatter)
    words.add_argument("--socket", default="/run/usbguard/root.socket")
    words.add_argument("--seconds", type=float, default=10)
    words.add_argument("--seed", type=int, default=1)
    given = words.parse_args()
    return Try(given.socket, given.seconds, given.seed).run()


if __name__ == "__main__":
    sys.exit(main())
