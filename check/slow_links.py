#!/usr/bin/env python3
"""Reads replies so slowly that they hold a server's workers, and looks when the server ends them.

    check/slow_links.py PROGRAM [--rates 10 40] [--workers 4] [--mebibytes 16] [--seconds 400]

For each rate, in KB a second, a server has as many slow clients as workers, all at the same time. Each asks for so many MiB,
with segments and a window as over a real link, and reads on at its rate; one more client asks then for a sample and waits. A
reply may take 60 seconds and 60 more for each MiB that the system has taken, which is more than the client has: so clients below
some 17 KB a second have to be ended in some minutes, faster ones never, and what they get has to be right. When a connection is
ended is seen by the sockets that the server has open, since its client goes on with what the system had taken. It is run by
hand: it takes as long as --seconds says. The last line is `N passed, M failed`.
"""
from __future__ import annotations

import argparse
import array
import http.client
import socket
import subprocess
import sys
import tempfile
import threading
import time
from collections.abc import Callable
from pathlib import Path

from results import Results, words_of

ASK = "/mod_visus?action=boxquery&dataset=n&box="
SEGMENT, WINDOW = 1_400, 16_384
EACH_MEBIBYTE = 60
AT = 3 * 4
"""Where the sample lies among all that the further client asks for."""
WAKE = 0.1
BEFORE_THE_END = 5
"""So many seconds before the slow clients leave, nobody looks any more whether the server ends them."""


class SlowClient(threading.Thread):
    """Asks for all samples, and reads so many bytes a second until its connection ends, or until it is enough."""

    def __init__(self, port: int, path: str, rate: int, seconds: float, wanted: bytes) -> None:
        super().__init__(daemon=True)
        self.rate, self.seconds, self.wanted = rate, seconds, wanted
        self.link = socket.socket()
        self.link.setsockopt(socket.IPPROTO_TCP, socket.TCP_MAXSEG, SEGMENT)
        self.link.setsockopt(socket.SOL_SOCKET, socket.SO_RCVBUF, WINDOW)
        self.link.connect(("127.0.0.1", port))
        self.link.sendall(f"GET {path} HTTP/1.1\r\nHost: n\r\n\r\n".encode())
        self.got = bytearray()
        self.start()

    def run(self) -> None:
        start, is_ended = time.monotonic(), False
        while not is_ended and not self.is_whole() and time.monotonic() - start < self.seconds:
            time.sleep(WAKE)
            room = int((time.monotonic() - start) * self.rate) - len(self.got)
            try:
                piece = self.link.recv(room) if room > 0 else None
            except OSError:
                piece = b""
            if piece is not None:
                self.got += piece
                is_ended = not piece
        self.link.close()

    def body(self) -> bytes:
        """What came behind the head."""
        return bytes(self.got.partition(b"\r\n\r\n")[2])

    def is_whole(self) -> bool:
        """Whether all samples came."""
        return len(self.got) > len(self.wanted) and len(self.body()) == len(self.wanted)


def sockets_of(server: subprocess.Popen[bytes]) -> int:
    """How many sockets a server has open."""
    count = 0
    for place in Path(f"/proc/{server.pid}/fd").iterdir():
        try:
            count += str(place.readlink()).startswith("socket:")
        except OSError:
            pass
    return count


class Ends(threading.Thread):
    """Looks when each of some connections is ended that a server has."""

    def __init__(self, server: subprocess.Popen[bytes], links: int, seconds: float) -> None:
        super().__init__(daemon=True)
        self.server, self.links, self.seconds = server, links, seconds
        self.others = sockets_of(server)
        self.ends: list[float] = []

    def run(self) -> None:
        start = time.monotonic()
        while time.monotonic() - start < self.seconds and len(self.ends) < self.links:
            time.sleep(WAKE)
            ended = self.others + self.links - sockets_of(self.server)
            self.ends += [time.monotonic() - start] * (ended - len(self.ends))


class Waiting(threading.Thread):
    """A client that comes behind the slow ones."""

    def __init__(self, port: int, seconds: float) -> None:
        super().__init__(daemon=True)
        self.port, self.seconds, self.found, self.spent = port, seconds, None, 0.0
        self.start()

    def run(self) -> None:
        start = time.monotonic()
        link = http.client.HTTPConnection("127.0.0.1", self.port, timeout=self.seconds)
        try:
            link.request("GET", ASK + "3+3+0+0+0+0", headers={"Connection": "close"})
            self.found = link.getresponse().read()
        except OSError:
            pass
        self.spent = time.monotonic() - start
        link.close()


class Try:
    """A server and its slow clients."""

    def __init__(self, given: argparse.Namespace, dataset: Path, rate: int, whole: str, samples: bytes) -> None:
        words = [given.program, "serve", str(dataset), "127.0.0.1:0", "--workers", str(given.workers)]
        self.rate, self.samples = rate, samples
        self.server = subprocess.Popen(words, stdout=subprocess.DEVNULL, stderr=subprocess.PIPE)
        port = int(self.server.stderr.readline().decode().split(",")[0].rsplit(":", 1)[1])
        time.sleep(1)
        self.ends = Ends(self.server, given.workers, given.seconds - BEFORE_THE_END)
        self.clients = [SlowClient(port, whole, rate * 1000, given.seconds, samples) for _ in range(given.workers)]
        time.sleep(1)
        self.ends.start()
        self.waiting = Waiting(port, given.seconds)

    def end(self, hold: Callable[[str, bool], None]) -> None:
        """Waits for all, prints what came of it, and compares."""
        for client in self.clients:
            client.join()
        self.waiting.join()
        self.ends.join()
        self.server.kill()
        self.server.wait()
        self.server.stderr.close()
        name, ends, count = f"{self.rate} KB/s", self.ends.ends, len(self.clients)
        most = max(len(client.body()) for client in self.clients)
        when = f", after {ends[0]:.0f} to {ends[-1]:.0f} s" if ends else ""
        print(f"{name}: {len(ends)} of {count} ended{when}; a client had at most {most >> 10:,} KiB; "
              f"the next client waited {self.waiting.spent:.0f} s")
        hold(f"{name}: what came is right", all(self.samples.startswith(client.body()) for client in self.clients))
        if self.rate * 1000 * EACH_MEBIBYTE < 2 ** 20 * 0.9:
            hold(f"{name}: all are ended", len(ends) == count)
            hold(f"{name}: the next client", self.waiting.found == self.samples[AT:AT + 4])
        else:
            hold(f"{name}: none is ended", not ends or all(client.is_whole() for client in self.clients))


def main() -> int:
    parser = words_of(__doc__)
    parser.add_argument("--rates", type=int, nargs="*", default=[10, 40])
    parser.add_argument("--workers", type=int, default=4)
    parser.add_argument("--mebibytes", type=int, default=16)
    parser.add_argument("--seconds", type=float, default=400)
    given = parser.parse_args()
    results = Results()
    count = given.mebibytes << 18
    sides = (256, 256, count >> 16)
    bits = (sides[2] - 1).bit_length()
    samples = array.array("I", range(count)).tobytes()
    box = " ".join(f"0 {side - 1}" for side in sides)
    whole = ASK + "+".join(f"0+{side - 1}" for side in sides)
    with tempfile.TemporaryDirectory() as folder:
        top = Path(folder)
        dataset, raw = top / "n.idx", top / "n.raw"
        raw.write_bytes(samples)
        texts = [box, "n uint32", "V" + "01" * (8 - bits) + "012" * bits, "16", "16", "./%02x.bin", "0 9 time%04d/", "0"]
        subprocess.run([given.program, "convert", str(dataset), str(raw), *texts], check=True)
        tries = [Try(given, dataset, rate, whole, samples) for rate in given.rates]
        for each in tries:
            each.end(results.hold)
    return results.status()


if __name__ == "__main__":
    sys.exit(main())
