"""A server that runs, and the peers that talk to it over sockets of this machine."""
from __future__ import annotations

import re
import resource
import select
import socket
import struct
import subprocess
import tempfile
import threading
import time
from collections import deque
from collections.abc import Callable, Iterator, Sequence
from concurrent.futures import ThreadPoolExecutor
from dataclasses import dataclass, replace
from enum import Enum
from typing import BinaryIO

from differences import difference
from server import Site, replies

SECONDS = 30
"""How long a peer waits for its replies, and everybody for a server that has to end."""
LISTENING = re.compile(rb"^  listening on (?:\[([^\]]*)\]|([^\s:\[]*)):([0-9]+), (.*)\n", re.MULTILINE)
Address = tuple[str, int]
Talk = Callable[[Address, Site], tuple[list[str], Sequence[int]]]
"""What talks over the links of a server: it gives where they differ, and the numbers of replies that are right."""


@dataclass
class Ended:
    """How a run ended."""
    status: int
    output: bytes
    errors: bytes


def limit_memory(memory: int) -> None:
    """Lets this process have so many bytes of address space."""
    resource.setrlimit(resource.RLIMIT_AS, (memory, resource.RLIM_INFINITY))


def read_back(file: BinaryIO) -> bytes:
    """What was written to a file."""
    file.seek(0)
    return file.read()


class Server:
    """A run of `serve`, which is killed where it has not ended when its block is left."""

    def __init__(self, line: Sequence[bytes], folder: bytes, sink: bytes | None = None,
                 memory: int = resource.RLIM_INFINITY) -> None:
        self.output = open(sink, "wb") if sink else tempfile.TemporaryFile()
        self.is_read_back = sink is None
        self.process = subprocess.Popen(line, cwd=folder, stdin=subprocess.DEVNULL, stdout=self.output,
                                        stderr=subprocess.PIPE, preexec_fn=lambda: limit_memory(memory))
        self.errors = b""
        self.address: Address | None = None
        self.said = threading.Event()
        self.listener = threading.Thread(target=self.read_errors, daemon=True)
        self.listener.start()

    def __enter__(self) -> Server:
        return self

    def __exit__(self, *_: object) -> None:
        self.process.kill()
        self.process.wait()
        self.listener.join()
        self.process.stderr.close()
        self.output.close()

    def read_errors(self) -> None:
        """Reads standard error to its end, and tells when the server listens or has closed it."""
        for line in self.process.stderr:
            self.errors += line
            if LISTENING.search(line):
                self.said.set()
        self.said.set()

    def listening_differences(self, said: bytes) -> Iterator[str]:
        """Waits until the server says where it listens, and gives where what it says behind that differs."""
        self.said.wait(SECONDS)
        match = LISTENING.search(self.errors)
        if match is None:
            yield f"the server does not say where it listens, but {self.errors!r}"
        else:
            self.address = (match[1] or match[2]).decode(), int(match[3])
            yield from difference("line of the address", said, match[4])

    def end(self, seconds: float = SECONDS) -> Ended | None:
        """How the server ended; None where it did not."""
        try:
            status = self.process.wait(seconds)
        except subprocess.TimeoutExpired:
            return None
        self.listener.join()
        return Ended(status, read_back(self.output) if self.is_read_back else b"", self.errors)


class Leaves(Enum):
    """How a peer leaves."""
    AT_ONCE = "it shuts its side behind its last byte"
    SERVED = "it shuts its side when its replies have come"
    BROKEN = "it breaks the link when its replies have come"


@dataclass
class Link:
    """What a peer does: it sends its pieces, with pauses between them, reads what comes meanwhile, and leaves."""
    pieces: list[bytes]
    pause: float = 0
    leaves: Leaves = Leaves.AT_ONCE
    before: Callable[[], None] | None = None
    """What is done before the link is made."""
    unreadable: bool = False
    """Whether the files of the dataset have lost their blocks."""

    def sent(self) -> bytes:
        """All bytes that the peer sends."""
        return b"".join(self.pieces)


@dataclass
class Came:
    """What came to a peer, and whether the server ended the link."""
    received: bytes
    ended: bool


class Peer:
    """One link from its start to its end."""

    def __init__(self, address: Address, link: Link, wanted: int) -> None:
        self.link = link
        self.wanted = wanted
        self.pieces = deque(piece for piece in link.pieces if piece)
        self.received = bytearray()
        self.has_shut = False
        self.next_send = 0.0
        self.socket = socket.create_connection(address, SECONDS)
        self.socket.setsockopt(socket.IPPROTO_TCP, socket.TCP_NODELAY, 1)
        self.socket.setblocking(False)

    def send(self) -> None:
        """Sends what goes of the next piece."""
        piece = self.pieces.popleft()
        try:
            count = self.socket.send(piece)
        except BlockingIOError:
            count = 0
        except OSError:
            self.pieces.clear()
            return
        if count < len(piece):
            self.pieces.appendleft(piece[count:])
        else:
            self.next_send = time.monotonic() + self.link.pause

    def receive(self) -> bool:
        """Takes what has come; false where the server has ended the link."""
        try:
            piece = self.socket.recv(2**18)
        except BlockingIOError:
            return True
        except OSError:
            return False
        self.received += piece
        return piece != b""

    def shut(self) -> None:
        """Shuts this side."""
        self.has_shut = True
        try:
            self.socket.shutdown(socket.SHUT_WR)
        except OSError:
            pass

    def turn(self) -> bool:
        """One turn of sending and receiving; false where the server has ended the link."""
        wait = self.next_send - time.monotonic()
        may_send = bool(self.pieces) and wait <= 0
        waiting = max(0, wait) if self.pieces else 1
        readable, writable, _ = select.select([self.socket], [self.socket] if may_send else [], [], waiting)
        if writable:
            self.send()
        return self.receive() if readable else True

    def hear(self, count: int) -> bytes:
        """Reads until so many bytes have come, or the server has ended the link, and gives all that has come."""
        deadline = time.monotonic() + SECONDS
        while len(self.received) < count and time.monotonic() < deadline:
            if select.select([self.socket], [], [], 1)[0] and not self.receive():
                break
        return bytes(self.received)

    def is_served(self) -> bool:
        """Whether all was sent, and the replies have come."""
        return not self.pieces and len(self.received) >= self.wanted

    def run(self, seconds: float = SECONDS) -> Came:
        """Talks until the server ends the link."""
        deadline = time.monotonic() + seconds
        with self.socket:
            while time.monotonic() < deadline:
                if self.link.leaves is Leaves.BROKEN and self.is_served():
                    self.socket.setsockopt(socket.SOL_SOCKET, socket.SO_LINGER, struct.pack("ii", 1, 0))
                    return Came(bytes(self.received), True)
                leaves_now = self.is_served() if self.link.leaves is Leaves.SERVED else not self.pieces
                if leaves_now and not self.has_shut:
                    self.shut()
                if not self.turn():
                    return Came(bytes(self.received), True)
        return Came(bytes(self.received), False)


Replies = list[list[bytes]]
"""The lists of replies that are right for a link: one, or two where the page leaves a corner open."""


def open_link(address: Address, site: Site, link: Link) -> tuple[Peer, Replies]:
    """Makes a link, and gives its peer with the replies that should come to it."""
    if link.before is not None:
        link.before()
    lists, closes = replies(site.without_blocks() if link.unreadable else site, link.sent())
    if closes or len(lists) > 1:
        link = replace(link, leaves=Leaves.AT_ONCE)
    return Peer(address, link, sum(map(len, lists[0]))), lists


def talk_over(place: int, peer: Peer, lists: Replies) -> tuple[list[str], int]:
    """Lets a peer talk to the end of its link; where what came differs, and the number of its replies."""
    wants = [b"".join(each) for each in lists]
    came = peer.run()
    found = [] if came.received in wants else list(difference("replies", wants[0], came.received))
    if not came.ended:
        found.append(f"the link did not end in {SECONDS} seconds")
    if found:
        link = peer.link
        shown = f"link {place}, {len(link.pieces)} pieces, {link.leaves.value}: sent {link.sent()[:2_000]!r}"
        return [shown, *found], 0
    return [], len(lists[wants.index(came.received)])


def play_links(address: Address, site: Site, links: Sequence[Link]) -> tuple[list[str], list[int]]:
    """Plays links one after the other up to the first that differs; where, and the number of all replies."""
    count = 0
    for place, link in enumerate(links):
        found, of_link = talk_over(place, *open_link(address, site, link))
        if found:
            return found, []
        count += of_link
    return [], [count]


def play_together(address: Address, site: Site, links: Sequence[Link]) -> tuple[list[str], list[int]]:
    """Makes all links and sends on each before any is read, then talks over all of them at the same time; where they differ, and
    the number of all replies."""
    opened = [open_link(address, site, link) for link in links]
    for peer, _ in opened:
        peer.turn()
    with ThreadPoolExecutor(len(opened)) as pool:
        ended = list(pool.map(lambda numbered: talk_over(numbered[0], *numbered[1]), enumerate(opened)))
    return [line for found, _ in ended for line in found], [sum(of_link for _, of_link in ended)]


def play_in_turns(address: Address, site: Site, links: Sequence[Link]) -> tuple[list[str], list[int]]:
    """Makes all links, sends a head on each and reads its reply, then the next on each, so that a server has to serve all of them
    at the same time; where they differ, and the number of all replies.

    Each piece of a link is a head whose reply does not close; all links have as many."""
    peers = [Peer(address, link, 0) for link in links]
    wants = [b""] * len(peers)
    try:
        for heads in zip(*(link.pieces for link in links)):
            for place, (peer, head) in enumerate(zip(peers, heads)):
                wants[place] += replies(site, head)[0][0][0]
                peer.send()
            came = [peer.hear(len(want)) for peer, want in zip(peers, wants)]
            if came != wants:
                return [f"{len(peers)} links at the same time, the last heads {b''.join(heads)[:2_000]!r}",
                        *(line for want, got in zip(wants, came) for line in difference("replies", want, got))], []
        ended = [peer.run() == Came(want, True) for peer, want in zip(peers, wants)]
    finally:
        for peer in peers:
            peer.socket.close()
    return [f"link {place} ends otherwise" for place, is_right in enumerate(ended) if not is_right], [sum(
        len(link.pieces) for link in links)]
