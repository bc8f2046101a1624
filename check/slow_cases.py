"""Peers that hold a server, up to a minute, and the links behind them.

A server answers one link after the other, so the link behind one that is held is answered when that one has ended.
"""
from __future__ import annotations

import socket
import threading
import time
from collections.abc import Callable, Sequence
from dataclasses import dataclass

from differences import difference
from heads import plain_head
from server import MOST_REPLIES, Site, replies
from server_cases import ANYWHERE, Bench, Shelf, boxes_of, empty_shelf, large_shelf, small_shelf
from serving import Address, Leaves, Link, Peer

SILENCE = 10
"""The seconds after which a link ends on which no byte comes or goes."""
GREATEST_PAUSE = 60
"""The seconds after which a link ends on which nothing was written."""
SLACK = 15
"""The seconds by which a busy machine may be late."""
EARLY = 0.5


@dataclass
class Holder:
    """A peer that sends its pieces with a pause behind each and then stays, so that the link behind it has to wait."""
    pieces: list[bytes]
    pause: float
    least: float
    most: float
    reads: bool = True


class Held:
    """The link of a peer that holds a server."""

    def __init__(self, address: Address, holder: Holder) -> None:
        self.holder = holder
        self.received = bytearray()
        self.is_over = threading.Event()
        self.socket = socket.socket()
        if not holder.reads:
            self.socket.setsockopt(socket.SOL_SOCKET, socket.SO_RCVBUF, 4_096)
        self.socket.connect(address)
        jobs = [self.send] + ([self.receive] if holder.reads else [])
        self.threads = [threading.Thread(target=job) for job in jobs]
        for thread in self.threads:
            thread.start()

    def send(self) -> None:
        """Sends the pieces, as long as somebody takes them."""
        for piece in self.holder.pieces:
            try:
                self.socket.sendall(piece)
            except OSError:
                return
            if self.is_over.wait(self.holder.pause):
                return

    def receive(self) -> None:
        """Reads to the end."""
        try:
            while piece := self.socket.recv(2**16):
                self.received += piece
        except OSError:
            pass

    def end(self) -> bytes:
        """Leaves, and gives all that has come."""
        self.is_over.set()
        if not self.holder.reads:
            self.receive()
        self.socket.close()
        for thread in self.threads:
            thread.join()
        return bytes(self.received)


def hold(bench: Bench, shelf: Shelf, holder: Holder) -> None:
    """Plays a peer that holds the server, and a link of a right head behind it."""
    behind = Link([plain_head(shelf.right_target(bench.random))], leaves=Leaves.SERVED)

    def talk(address: Address, site: Site) -> tuple[list[str], Sequence[int]]:
        start = time.monotonic()
        held = Held(address, holder)
        wants = replies(site, behind.sent())[0][0]
        came = Peer(address, behind, len(b"".join(wants))).run(holder.most + SLACK)
        seconds = time.monotonic() - start
        found = list(difference("replies of the link behind", b"".join(wants), came.received))
        if not holder.least <= seconds <= holder.most:
            found.append(f"the link behind ended after {seconds:.1f} seconds, not {holder.least} to {holder.most}")
        differences, counts = held_differences(site, holder, held.end())
        return found + differences, [count + len(wants) for count in counts]

    # (by one worker, for which the link behind has to wait)
    bench.serve_peers([b"serve", shelf.path, ANYWHERE], 2, talk)


def held_differences(site: Site, holder: Holder, received: bytes) -> tuple[list[str], Sequence[int]]:
    """Where what a holder got differs, and the numbers of its replies that are right; without reading it lost some."""
    wants = replies(site, b"".join(holder.pieces))[0][0]
    whole = b"".join(wants)
    if holder.reads:
        return list(difference("replies of the link that holds", whole, received)), [len(wants)]
    if not whole.startswith(received) or received == whole:
        return [f"the link that never reads got {len(received)} bytes, not a front of {len(whole)}"], [0]
    return [], range(len(received) // len(wants[0]), len(wants) + 1)


# The kinds of cases


def silent(bench: Bench) -> None:
    """A peer that sends nothing."""
    hold(bench, small_shelf(bench), Holder([], 0, SILENCE - EARLY, SILENCE + SLACK))


def silent_in_a_head(bench: Bench) -> None:
    """A peer that sends a head and a part of one, and then nothing."""
    shelf = small_shelf(bench)
    sent = plain_head(shelf.right_target(bench.random)) + b"GET /mod_visus"
    hold(bench, shelf, Holder([sent], 0, SILENCE - EARLY, SILENCE + SLACK))


def trickling(bench: Bench) -> None:
    """A peer that sends a byte a second of a head that does not end."""
    pieces = [b"G", b"E", b"T", b" ", b"/", *[b"a"] * 200]
    hold(bench, small_shelf(bench), Holder(pieces, 1, GREATEST_PAUSE - EARLY, GREATEST_PAUSE + SLACK))


def trickling_behind(bench: Bench) -> None:
    """A peer that sends a whole head, and then an empty line a second."""
    shelf = small_shelf(bench)
    pieces = [plain_head(shelf.right_target(bench.random)), *[b"\n"] * 200]
    hold(bench, shelf, Holder(pieces, 1, GREATEST_PAUSE - EARLY, GREATEST_PAUSE + SLACK))


def in_pauses(bench: Bench) -> None:
    """A peer that sends heads with pauses that are nearly too long."""
    shelf = small_shelf(bench)
    pieces = [plain_head(shelf.right_target(bench.random)) for _ in range(9)]
    least = 8 * (SILENCE - 2) + SILENCE
    hold(bench, shelf, Holder(pieces, SILENCE - 2, least - EARLY, least + SLACK))


def never_reading(bench: Bench) -> None:
    """A peer that asks for many large answers and reads nothing."""
    texts = [b"0 63 0 63", b"a uint8[64]", b"V" + b"01" * 6, b"8", b"4", b"%03x", b"0 1 t%01d/"]
    shelf = empty_shelf(bench, texts, [0])
    heads = boxes_of(b"v", [b"0+63+0+63"])
    hold(bench, shelf, Holder(heads * 400, 0, SILENCE - EARLY, GREATEST_PAUSE + SLACK, reads=False))


def largest(bench: Bench) -> None:
    """An answer of 2^28 bytes, of a step that does not stand."""
    sent = boxes_of(b"v", [b"0+4194303+0+0&time=5", b"1+4194304+0+0&time=7", b"0+4194304+0+0&time=5"])
    hold(bench, large_shelf(bench), Holder(sent, 0, 0, 4 * GREATEST_PAUSE))


def many_heads(bench: Bench) -> None:
    """A peer that sends more heads than are replied to on a link."""
    sent = b"GET / HTTP/1.1\n\n" * (MOST_REPLIES + 5)
    hold(bench, small_shelf(bench), Holder([sent], 0, 0, 4 * GREATEST_PAUSE))


def staying(bench: Bench) -> None:
    """A peer that gets a reply that closes, and stays."""
    hold(bench, small_shelf(bench), Holder([b"\0"], 0, 0, GREATEST_PAUSE + SLACK))


def trickling_to_the_closed(bench: Bench) -> None:
    """A peer that gets a reply that closes, and goes on to send a byte a second."""
    hold(bench, small_shelf(bench), Holder([b"\0", *[b"a"] * 200], 1, 0, GREATEST_PAUSE + SLACK))


def flooding_the_closed(bench: Bench) -> None:
    """A peer that gets a reply that closes, and goes on to send, a little more than is dropped, without a pause."""
    pieces = [b"\0" + b"a" * 60_000, *[b"a" * 100] * 200]
    hold(bench, small_shelf(bench), Holder(pieces, 0.05, 0, GREATEST_PAUSE + SLACK))


KINDS: list[Callable[[Bench], None]] = [
    silent, silent_in_a_head, trickling, trickling_behind, in_pauses, never_reading, largest, many_heads,
    staying, trickling_to_the_closed, flooding_the_closed,
]
"""The kinds of slow cases, which run side by side."""


def draw_case(bench: Bench, number: int) -> str:
    """Makes and runs a slow case, and gives the name of its kind."""
    KINDS[number](bench)
    return KINDS[number].__name__
