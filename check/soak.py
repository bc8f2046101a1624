#!/usr/bin/env python3
"""Asks a server of many workers random questions over kept links for a minute, and looks at every byte.

    check/soak.py PROGRAM [--seconds 60] [--settle 10] [--links 64] [--questions 256] [--workers 64] [--cache 256]
        [--steps 16] [--seed 1] [--ingest]

The dataset has 16 steps of 64^3 samples of four bytes, 64 blocks of 16 KiB each: sample n of step t in row-major order is
n + t * 2^18. Each link asks for random boxes between random levels of random steps, one question after another, and after so
many questions the next one takes its place. What a reply with status 200 has is compared with the samples that the format
says; the cache is smaller than the data. With --ingest the server gathers a further revision of a step meanwhile, whose
samples are n + (t + 1000) * 2^18. The memory of the server is looked at each second; it runs with MALLOC_ARENA_MAX=1, as
docs/SERVING.md advises for many workers, unless the environment says otherwise.

How many requests there were is said, and how many of them were answered wrong. What is held is that each link asked ten times
at least, that no byte was wrong, that no link ended early, that the memory did not grow by more than a tenth behind the first
seconds (--settle, which says nothing where it is as long as the run), and how the server ended. The last line is
`N passed, M failed`.
"""
import array
import os
import random
import socket
import subprocess
import sys
import tempfile
import threading
import time
from collections import Counter
from multiprocessing import Process, Queue
from pathlib import Path

from results import Results, words_of

AXES, DIGITS, SIDE = 3, 6, 64
VOLUME = SIDE ** AXES
LEVELS = AXES * DIGITS
AGAIN = 1000
"""What is added to a step's number in the samples of the revision that is gathered while the server runs."""
PROCESSES = 4
LINKS_A_SECOND = 8
LEAST_ASKED = 10
"""How many requests there have to be at least for each link that asks at the same time."""


def samples(step):
    """The bytes of a raw volume whose samples are counted on from those of the steps before."""
    return array.array("I", ((step * VOLUME + n) % 2 ** 32 for n in range(VOLUME))).tobytes()


def convert(program, dataset, raw, step):
    """Writes a step."""
    texts = ["0 63 0 63 0 63", "n uint32", "V" + "012" * DIGITS, "12", "16", "./%02x.bin", "0 99 time%04d/", str(step)]
    subprocess.run([program, "convert", str(dataset), str(raw), *texts], check=True, timeout=60)


def strides(level):
    """How far the points of at most this level lie from each other on each axis. The digits of the mask are 0, 1, 2 in turn."""
    counts = [0] * AXES
    for digit in range(level, LEVELS):
        counts[digit % AXES] += 1
    return [2 ** count for count in counts]


def points_on(box, steps):
    """The coordinates on each axis that lie in a box and on these strides."""
    return [range(-(-low // step) * step, high + 1, step) for (low, high), step in zip(box, steps)]


def wanted(box, low, high, step):
    """The bytes of the samples of a box whose level is at least the first and at most the second one."""
    xs, ys, zs = points_on(box, strides(high))
    coarse = strides(low - 1) if low else None
    found = array.array("I")
    base = step * VOLUME
    for z in zs:
        for y in ys:
            row = base + (z * SIDE + y) * SIDE
            if coarse and z % coarse[2] == 0 and y % coarse[1] == 0:
                found.extend((row + x) % 2 ** 32 for x in xs if x % coarse[0])
            else:
                found.extend((row + x) % 2 ** 32 for x in xs)
    return found.tobytes()


def question(chance, steps):
    """A random box of at most 4,096 points, levels, and a step."""
    box = []
    for _ in range(AXES):
        extent = chance.choice([1, 1, 4, 16])
        low = chance.randrange(SIDE - extent + 1)
        box.append((low, low + extent - 1))
    if chance.random() < 0.3:
        box, high = [(0, SIDE - 1)] * AXES, chance.randrange(13)
    else:
        high = chance.choice([LEVELS, LEVELS, chance.randrange(LEVELS + 1)])
    return box, chance.choice([0, 0, chance.randrange(high + 1)]), high, chance.randrange(steps)


def head_of(box, low, high, step):
    """The head that asks this."""
    bounds = "+".join(f"{low}+{high}" for low, high in box)
    return (f"GET /mod_visus?action=boxquery&dataset=n&box={bounds}&fromh={low}&toh={high}&time={step} "
            "HTTP/1.1\r\nHost: n\r\n\r\n").encode()


def read_reply(link, kept):
    """The status, the number of the post and the body of the next reply, and what was read behind it."""
    while b"\r\n\r\n" not in kept:
        piece = link.recv(65536)
        if not piece:
            raise EOFError
        kept += piece
    head, kept = kept.split(b"\r\n\r\n", 1)
    lines = head.split(b"\r\n")
    fields = {name.lower(): value for name, value in (line.split(b": ", 1) for line in lines[1:])}
    length = int(fields[b"content-length"])
    pieces, have = [kept], len(kept)
    while have < length:
        piece = link.recv(1 << 20)
        if not piece:
            raise EOFError
        pieces.append(piece)
        have += len(piece)
    kept = b"".join(pieces)
    return int(lines[0].split()[1]), int(fields.get(b"visus-post", b"-1")), kept[:length], kept[length:]


def talk(address, chance, steps, end, questions, found):
    """Asks over one link after another until the time is over."""
    while time.monotonic() < end:
        talk_once(address, chance, steps, end, questions, found)


def talk_once(address, chance, steps, end, questions, found):
    """Asks so many questions over one link, or fewer where the time is over."""
    try:
        with socket.create_connection(address, timeout=60) as link:
            found["links"] += 1
            kept = b""
            for _ in range(questions):
                if time.monotonic() >= end:
                    break
                box, low, high, step = question(chance, steps)
                link.sendall(head_of(box, low, high, step))
                status, post, body, kept = read_reply(link, kept)
                found[status] += 1
                found["bytes"] += len(body)
                of = step if post < steps else step + AGAIN
                if post >= steps:
                    found["of the new revision"] += 1
                if status != 200 or body != wanted(box, low, high, of):
                    found["wrong"] += 1
            link.shutdown(socket.SHUT_WR)
            while link.recv(65536):
                pass
    except (OSError, EOFError) as error:
        found[f"ended: {type(error).__name__}"] += 1


def talk_all(address, seed, links, steps, end, questions, queue):
    """Some links side by side, in a process of their own."""
    counts = [Counter() for _ in range(links)]
    threads = [threading.Thread(target=talk, args=(address, random.Random(f"{seed}-{i}"), steps, end, questions, counts[i]))
               for i in range(links)]
    for thread in threads:
        thread.start()
    for thread in threads:
        thread.join()
    queue.put(sum(counts, Counter()))


def resident(process):
    """How many KiB of memory a process has."""
    for line in Path(f"/proc/{process.pid}/status").read_text().splitlines():
        if line.startswith("VmRSS"):
            return int(line.split()[1])
    return 0


def main():
    parser = words_of(__doc__)
    for name, value in (("seconds", 60), ("settle", 10), ("links", 64), ("questions", 256), ("workers", 64), ("cache", 256),
                        ("steps", 16), ("seed", 1)):
        parser.add_argument(f"--{name}", type=int, default=value)
    parser.add_argument("--ingest", action="store_true")
    given = parser.parse_args()
    with tempfile.TemporaryDirectory() as folder:
        top = Path(folder)
        dataset, raw, again = top / "n.idx", top / "n.raw", top / "again.raw"
        for step in range(given.steps):
            raw.write_bytes(samples(step))
            convert(given.program, dataset, raw, step)
        new = given.steps // 2
        again.write_bytes(samples(new + AGAIN))
        # as many links as are asked over, and empty ones up to these
        links = given.links * given.seconds * LINKS_A_SECOND
        words = [given.program, "serve", str(dataset), "127.0.0.1:0", "--cache", str(given.cache),
                 "--workers", str(given.workers), "--links", str(links)]
        if given.ingest:
            words += ["--ingest", str(new), "--raw", str(again)]
        environment = {"MALLOC_ARENA_MAX": "1"} | os.environ
        with subprocess.Popen(words, stdout=subprocess.PIPE, stderr=subprocess.PIPE, env=environment) as server:
            try:
                line = server.stderr.readline().decode()
                address = ("127.0.0.1", int(line.split(",")[0].rsplit(":", 1)[1]))
                end = time.monotonic() + given.seconds
                queue = Queue()
                shares = [given.links // PROCESSES + (i < given.links % PROCESSES) for i in range(PROCESSES)]
                askers = [Process(target=talk_all, args=(address, f"{given.seed}-{i}", share, given.steps, end,
                                                         given.questions, queue))
                          for i, share in enumerate(shares)]
                for asker in askers:
                    asker.start()
                memory = []
                while time.monotonic() < end:
                    time.sleep(1)
                    memory.append(resident(server))
                found = sum((queue.get(timeout=120) for _ in askers), Counter())
                for asker in askers:
                    asker.join()
                for _ in range(links - found["links"]):
                    socket.create_connection(address, timeout=60).close()
                output, _ = server.communicate(timeout=60)
            finally:
                server.kill()
    asked = sum(count for key, count in found.items() if isinstance(key, int))
    early = sum(count for key, count in found.items() if str(key).startswith("ended"))
    settled = memory[min(given.settle, len(memory) - 1)]
    grew = max(memory) > settled * 1.1
    print("server:", output.decode().strip(), "status", server.returncode)
    print("by status:", {key: count for key, count in sorted(found.items(), key=str)})
    print("memory in KiB by the second:", memory[0], "..", settled, "..", memory[-1], "most", max(memory))
    print(f"{asked} requests, {found['wrong']} wrong, {early} links ended early, {asked / given.seconds:.0f} a second")
    results = Results()
    results.hold("enough requests", asked >= LEAST_ASKED * given.links)
    results.hold("every byte", found["wrong"] == 0)
    results.hold("the ends of the links", early == 0)
    results.hold("the memory", not grew)
    results.hold("the end of the server", server.returncode == 0 and output == f"links {links} replies {asked}\n".encode())
    return results.status()


if __name__ == "__main__":
    sys.exit(main())
