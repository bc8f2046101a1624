#!/usr/bin/env python3
"""Holds a server's memory: links that send very many long heads, and links that ask for very large answers.

    check/memory.py PROGRAM [--links 64]

First each link sends heads with targets of 8,000 bytes until the server ends it, which it has to do behind 8 MiB; the server
stays below 1 GiB. Then each link asks for an answer of 2^28 bytes of a server that may have 4 GiB of address space; each
reply is whole or a 503, and the server stays. A good client asks meanwhile, and each of its replies is right. The reference
is not used. The last line is `N passed, M failed`. Takes about a minute.
"""
import http.client
import resource
import selectors
import socket
import subprocess
import sys
import tempfile
import threading
import time
from pathlib import Path

from results import status_of, words_of

SECONDS = 120
WORKERS = 64
SIDES = (256, 128, 128)
SAMPLE = 64
LARGEST = 2 ** 28
GOOD = bytes(range(SAMPLE))
MOST_READ = 8 * 2 ** 20
MOST_SENT = 4 * MOST_READ
GIB = 2 ** 30
HEAD = b"GET /" + b"a" * 7_999 + b" HTTP/1.1\r\n\r\n"
ASK = "/mod_visus?action=boxquery&dataset=n&box="
WHOLE = ASK + "+".join(f"0+{side - 1}" for side in SIDES)
SMALL = ASK + "5+5+7+7+9+9"


class Server:
    """A server that is killed when its block is left."""

    def __init__(self, program, dataset, memory=resource.RLIM_INFINITY):
        words = [program, "serve", str(dataset), "127.0.0.1:0", "--workers", str(WORKERS)]
        self.process = subprocess.Popen(words, stdout=subprocess.DEVNULL, stderr=subprocess.PIPE,
                                        preexec_fn=lambda: resource.setrlimit(resource.RLIMIT_AS, (memory, memory)))

    def __enter__(self):
        line = self.process.stderr.readline().decode()
        self.address = "127.0.0.1", int(line.split(",")[0].rsplit(":", 1)[1])
        return self

    def __exit__(self, *_):
        self.process.kill()
        self.process.wait()
        self.process.stderr.close()

    def most_memory(self):
        """The most bytes of memory that it has had at a time."""
        lines = Path(f"/proc/{self.process.pid}/status").read_text().splitlines()
        return next(int(line.split()[1]) * 1024 for line in lines if line.startswith("VmHWM:"))


class Flood:
    """A link that sends heads and drops the replies, until the server ends it."""

    def __init__(self, address):
        self.socket = socket.create_connection(address, SECONDS)
        self.socket.setblocking(False)
        self.sent = self.received = 0
        self.text = HEAD * 8

    def turn(self, events):
        """Sends and receives what goes; false where the server has ended the link, or enough was sent."""
        try:
            if events & selectors.EVENT_READ:
                count = len(self.socket.recv(2 ** 18))
                self.received += count
                if count == 0:
                    return False
            if events & selectors.EVENT_WRITE:
                self.sent += self.socket.send(self.text[self.sent % len(HEAD):])
        except BlockingIOError:
            pass
        except OSError:
            return False
        return self.sent < MOST_SENT


def flood(server, links):
    """Plays such links side by side; gives them, and whether the server has ended each in time."""
    floods = [Flood(server.address) for _ in range(links)]
    selector = selectors.DefaultSelector()
    for each in floods:
        selector.register(each.socket, selectors.EVENT_READ | selectors.EVENT_WRITE, each)
    end = time.monotonic() + SECONDS
    while selector.get_map() and time.monotonic() < end and server.most_memory() < 2 * GIB:
        for key, events in selector.select(1):
            if not key.data.turn(events):
                selector.unregister(key.fileobj)
    ended = not selector.get_map() and all(each.sent < MOST_SENT for each in floods)
    for each in floods:
        each.socket.close()
    return floods, ended


def ask(address, target):
    """The status of a reply to a question over a link of its own, and its body."""
    link = http.client.HTTPConnection(*address, timeout=SECONDS)
    link.request("GET", target, headers={"Connection": "close"})
    reply = link.getresponse()
    body = reply.read()
    link.close()
    return reply.status, body


class GoodClient(threading.Thread):
    """Asks for a few samples, again and again."""

    def __init__(self, address, wanted):
        super().__init__(daemon=True)
        self.address, self.wanted = address, wanted
        self.is_over = threading.Event()
        self.right, self.wrong, self.longest = 0, [], 0.0

    def run(self):
        while not self.is_over.wait(0.05):
            start = time.monotonic()
            try:
                found = ask(self.address, SMALL)
            except OSError as error:
                found = error
            self.longest = max(self.longest, time.monotonic() - start)
            if found in self.wanted:
                self.right += 1
            else:
                self.wrong.append(found)

    def end(self):
        """Leaves, and gives what was wrong."""
        self.is_over.set()
        self.join()
        return self.wrong[:3] if self.right else ["no reply"]


def ask_for_all(address, links):
    """The status and the number of bytes of each reply to questions for all samples, asked side by side."""
    found = []

    def one():
        try:
            status, body = ask(address, WHOLE)
            found.append((status, len(body)))
        except (OSError, http.client.HTTPException) as error:
            found.append((repr(error), 0))

    threads = [threading.Thread(target=one) for _ in range(links)]
    for thread in threads:
        thread.start()
    for thread in threads:
        thread.join()
    return found


def convert(program, top):
    """A dataset of 2^28 bytes, and the reply to the good client."""
    raw, dataset = top / "n.raw", top / "n.idx"
    with open(raw, "wb") as file:
        file.truncate(LARGEST)
        file.seek(SAMPLE * (5 + SIDES[0] * (7 + SIDES[1] * 9)))
        file.write(GOOD)
    box = " ".join(f"0 {side - 1}" for side in SIDES)
    words = [program, "convert", dataset, raw, box, "a uint8[64]", "V0" + "012" * 7, "12", "64", "./%03x.bin", "0 9 time%01d/", "0"]
    subprocess.run([str(word) for word in words], check=True, timeout=SECONDS)
    return dataset, (200, GOOD)


def main():
    parser = words_of(__doc__)
    parser.add_argument("--links", type=int, default=WORKERS)
    given = parser.parse_args()
    results = []

    def hold(what, is_so, said=""):
        results.append(bool(is_so))
        print("passed:" if is_so else "failed:", what, said)

    with tempfile.TemporaryDirectory() as folder:
        dataset, wanted = convert(given.program, Path(folder))
        with Server(given.program, dataset) as server:
            client = GoodClient(server.address, [wanted])
            client.start()
            floods, ended = flood(server, given.links)
            wrong, most = client.end(), server.most_memory()
            hold("links of long heads end behind 8 MiB", ended, f"at most {max(each.sent for each in floods):,} bytes were sent")
            hold("the server stays below 1 GiB", most < GIB, f"{most >> 20} MiB")
            hold("a good client is answered meanwhile", not wrong, f"{client.right} times, within {client.longest:.1f} s {wrong or ''}")
        with Server(given.program, dataset, 4 * GIB) as server:
            client = GoodClient(server.address, [wanted, (503, b"NoMemory\n")])
            client.start()
            found = ask_for_all(server.address, given.links)
            wrong = client.end()
            whole, refused = found.count((200, LARGEST)), found.count((503, len(b"NoMemory\n")))
            hold("replies of 2^28 bytes are whole or 503", whole + refused == given.links and whole, f"{whole} whole, {refused} refused")
            hold("a good client is answered meanwhile", not wrong, f"{client.right} times, within {client.longest:.1f} s {wrong or ''}")
            hold("the server stays", server.process.poll() is None and ask(server.address, SMALL) == wanted,
                 f"{server.most_memory() >> 20} MiB")
    return status_of(results)


if __name__ == "__main__":
    sys.exit(main())
