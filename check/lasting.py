#!/usr/bin/env python3
"""Holds what a running server says on standard error, and what it outlives.

    check/lasting.py PROGRAM [--slow]

A limit of open files that is lowered while clients come, and raised again; files of a served timestep that are taken away and
put back; a whole folder that is taken away; a timestep that is published meanwhile; a standard error that is closed, full, or
read by nobody; and, where `strace` is there to give the system's answers in its place, each error of `accept` that passes by
itself, and some that do not. Every line that the server writes is compared. `--slow` adds a limit that stays low for more than
a minute. It does not use the reference. The last line is `N passed, M failed`.
"""
from __future__ import annotations

import array
import contextlib
import errno
import http.client
import os
import resource
import shutil
import socket
import subprocess
import sys
import tempfile
import threading
import time
from collections.abc import Callable, Iterator
from dataclasses import dataclass, field
from pathlib import Path

from results import Results, words_of

SECONDS = 30
SIDE = 16
SAMPLES = SIDE ** 3
TEXTS = [" ".join([f"0 {SIDE - 1}"] * 3), "n uint32", "V" + "012" * 4, "4", "1", "./%02x.bin", "0 9 time%04d/"]
"""A dataset of 16^3 samples of four bytes in 256 blocks, each in a file of its own, with ten timesteps."""
GONE = os.strerror(errno.ENOENT) + f" (os error {errno.ENOENT})"
MANY = os.strerror(errno.EMFILE) + f" (os error {errno.EMFILE})"
FAILED = 500, b"StoreFault\n"
MOST_NAMED = 64
PASSING = ("ENETDOWN", "EPROTO", "ENOPROTOOPT", "EHOSTDOWN", "ENONET", "EHOSTUNREACH", "EOPNOTSUPP", "ENETUNREACH",
           "EMFILE", "ENFILE", "ENOBUFS", "ENOMEM", "ECONNABORTED")
"""What accept(2) says to take like "try again", and what comes where the system lacks something."""
LASTING = ("EINVAL", "EBADF", "EPERM")


def address_to_point(place: int) -> tuple[int, int, int]:
    """The point at a place of the hierarchical order of 12 digits, of which the first names axis 0."""
    if place == 0:
        return 0, 0, 0
    level = place.bit_length()
    address = ((place - (1 << (level - 1))) * 2 + 1) << (12 - level)
    point = [0, 0, 0]
    for digit in range(12):
        bit = address >> (11 - digit) & 1
        point[digit % 3] = point[digit % 3] * 2 + bit
    return point[0], point[1], point[2]


def target(place: int, step: int = 0) -> str:
    """The question for the sample at this place of the hierarchical order."""
    box = "+".join(f"{at}+{at}" for at in address_to_point(place))
    return f"/mod_visus?action=boxquery&dataset=n&box={box}&time={step}"


def wanted(place: int, first: int = 0) -> bytes:
    """That sample: each is its own number in row-major order, counted from the first one."""
    x, y, z = address_to_point(place)
    return array.array("I", [first + x + SIDE * (y + SIDE * z)]).tobytes()


def ask(port: int, path: str) -> tuple[int, bytes]:
    """The status of a reply over a connection of its own, and its body."""
    link = http.client.HTTPConnection("127.0.0.1", port, timeout=SECONDS)
    try:
        link.request("GET", path, headers={"Connection": "close"})
        reply = link.getresponse()
        return reply.status, reply.read()
    finally:
        link.close()


class Asking(threading.Thread):
    """A client that asks once and waits for its reply."""

    def __init__(self, port: int, path: str) -> None:
        super().__init__(daemon=True)
        self.port, self.path, self.found = port, path, None
        self.start()

    def run(self) -> None:
        with contextlib.suppress(OSError, http.client.HTTPException):
            self.found = ask(self.port, self.path)


class Server:
    """A server, with what it writes to standard error, as it comes."""

    def __init__(self, program: str, dataset: Path, *words: str, before: tuple[str, ...] = ()) -> None:
        self.words = [*before, program, "serve", str(dataset), "127.0.0.1:0", *words]
        self.lines: list[str] = []

    def __enter__(self) -> Server:
        self.process = subprocess.Popen(self.words, stdout=subprocess.PIPE, stderr=subprocess.PIPE, stdin=subprocess.DEVNULL)
        first = self.process.stderr.readline().decode()
        self.port = int(first.split(",")[0].rsplit(":", 1)[1])
        self.reading = threading.Thread(target=self.read, daemon=True)
        self.reading.start()
        return self

    def read(self) -> None:
        """Keeps each line."""
        for line in self.process.stderr:
            self.lines.append(line.decode().rstrip("\n"))

    def __exit__(self, *_: object) -> None:
        self.process.kill()
        self.process.wait()
        self.reading.join()

    def is_there(self) -> bool:
        """Whether it has not ended."""
        return self.process.poll() is None

    def comes(self, count: int) -> bool:
        """Whether so many lines come, and no more in the half second behind them."""
        until = time.monotonic() + SECONDS
        while len(self.lines) < count and time.monotonic() < until:
            time.sleep(0.02)
        time.sleep(0.5)
        return len(self.lines) == count

    def rests(self, workers: int) -> None:
        """Waits until as many threads wait for a connection."""
        tasks = Path(f"/proc/{self.process.pid}/task")
        until = time.monotonic() + SECONDS
        while time.monotonic() < until:
            waiting = sum("inet_csk_accept" in (task / "wchan").read_text() for task in tasks.iterdir())
            if waiting >= workers:
                return
            time.sleep(0.02)

    def may_open(self, count: int) -> None:
        """Lets it have so many files open, from now on."""
        _, most = resource.prlimit(self.process.pid, resource.RLIMIT_NOFILE)
        resource.prlimit(self.process.pid, resource.RLIMIT_NOFILE, (count, most))


@dataclass
class Bench:
    """The program, and the dataset that is served, whose timestep 0 is there."""
    program: str
    top: Path
    hold: Callable[[str, bool], None]
    dataset: Path = field(init=False)
    raw: Path = field(init=False)

    def __post_init__(self) -> None:
        self.dataset, self.raw = self.top / "n.idx", self.top / "n.raw"
        self.raw.write_bytes(array.array("I", range(SAMPLES)).tobytes())
        words = [self.program, "convert", str(self.dataset), str(self.raw), *TEXTS, "0"]
        subprocess.run(words, check=True, timeout=SECONDS)

    def file(self, block: int) -> Path:
        """The file of a block of timestep 0."""
        return self.top / "time0000" / f"{block:02x}.bin"

    def serve(self, *words: str, before: tuple[str, ...] = ()) -> Server:
        """A server of the dataset."""
        return Server(self.program, self.dataset, *words, before=before)


@contextlib.contextmanager
def away(path: Path) -> Iterator[None]:
    """A file or a folder that is not there meanwhile."""
    other = path.with_name(path.name + ".away")
    path.rename(other)
    try:
        yield
    finally:
        other.rename(path)


def too_many_open_files(bench: Bench) -> None:
    """A limit of open files that is low while twice as many clients come as there are workers."""
    workers, clients = 3, 9
    with bench.serve("--workers", str(workers)) as server:
        server.rests(workers)
        server.may_open(3)
        asking = [Asking(server.port, "/other") for _ in range(clients)]
        time.sleep(2.5)
        answered = sum(client.found is not None for client in asking)
        bench.hold("clients wait while no file can be opened", workers <= answered < clients)
        bench.hold("no worker ends of that", server.is_there() and not server.lines)
        server.may_open(1000)
        for client in asking:
            client.join(SECONDS)
        bench.hold("all are answered then", all(client.found == (404, b"OtherPath\n") for client in asking))
        held = [socket.create_connection(("127.0.0.1", server.port), SECONDS) for _ in range(workers - 1)]
        bench.hold("all workers are there", ask(server.port, target(16)) == (200, wanted(16)))
        for link in held:
            link.close()
        bench.hold("nothing was said", server.comes(0))


def files_that_are_gone(bench: Bench) -> None:
    """Files of a timestep that several workers ask for while they are away."""
    with bench.serve("--workers", "4", "--cache", "1") as server:
        for turn, block in enumerate((3, 200, 3)):
            path, place = bench.file(block), block * 16
            with away(path):
                asking = [Asking(server.port, target(place)) for _ in range(20)]
                for client in asking:
                    client.join(SECONDS)
                found = {client.found for client in asking}
                # where the file was there before, a worker may still have it open, and the cache its block
                right = {FAILED, (200, wanted(place))} if turn == 2 else {FAILED}
                bench.hold(f"replies for block {block}", found <= right)
                bench.hold("others meanwhile", ask(server.port, target(17 * 16)) == (200, wanted(17 * 16)))
            bench.hold(f"block {block} again", ask(server.port, target(place)) == (200, wanted(place)))
        bench.hold("one line for each file", server.comes(2))
        lines = [f"  cannot read {bench.file(block)}: {GONE}" for block in (3, 200)]
        bench.hold("the lines of the files", server.lines == lines)
        bench.hold("the server goes on", server.is_there())


def a_folder_that_is_gone(bench: Bench) -> None:
    """More files away than are named."""
    with bench.serve("--workers", "2", "--cache", "1") as server:
        with away(bench.top / "time0000"):
            for _ in range(2):
                found = [ask(server.port, target(block * 16)) for block in range(1, 101)]
            bench.hold("replies without the folder", found.count(FAILED) >= len(found) - 2)
        bench.hold("so many lines and one more", server.comes(MOST_NAMED + 1))
        named = {line for line in server.lines if line.startswith("  cannot read /") and line.endswith(GONE)}
        bench.hold("each names another file", len(named) == MOST_NAMED)
        bench.hold("the last line", server.lines[-1:] == ["  cannot read further files, which are not named"])
        bench.hold("the folder again", ask(server.port, target(48)) == (200, wanted(48)))


def a_published_step(bench: Bench) -> None:
    """Timesteps that are published meanwhile, for the first time and again."""
    late = bench.top / "late.raw"
    late.write_bytes(array.array("I", range(7, SAMPLES + 7)).tobytes())
    for step, folder in ((7, "time0007"), (7, "time0007.r1"), (0, "time0000.r1")):
        with bench.serve("--ingest", str(step), "--raw", str(late)) as server:
            bench.hold(f"one line of {folder}", server.comes(1))
            bench.hold(f"the line of {folder}", server.lines == [f"  published the step in {folder}"])
            bench.hold(f"what {folder} has", ask(server.port, target(5, step)) == (200, wanted(5, 7)))
    shutil.rmtree(bench.top / "time0000.r1")


def free_port() -> int:
    """A port at which nobody listens."""
    with socket.create_server(("127.0.0.1", 0)) as taken:
        return taken.getsockname()[1]


def an_error_output_that_takes_nothing(bench: Bench) -> None:
    """A standard error that is closed, full, or read by nobody. Each has to change no reply, also where a file that the server
    has opened last, or a connection, would take its place: with one file less the other places are free."""
    ends = {"closed": "2>&-", "full": "2>/dev/full", "unread": "2> >(:)", "closed, as the input is": "<&- 2>&-"}
    for name, end in ends.items():
        for files in (256, 255):
            with away(bench.file(255)) if files == 255 else contextlib.nullcontext():
                replies_without_error_output(bench, f"standard error is {name}, of {files} files", end)


def replies_without_error_output(bench: Bench, name: str, end: str) -> None:
    """Replies of a server whose standard error is so, while files are away."""
    port = free_port()
    command = f'exec "$0" serve "$1" 127.0.0.1:{port} --cache 1 --links 9 {end}'
    words = ["bash", "-c", command, bench.program, str(bench.dataset)]
    process = subprocess.Popen(words, stdout=subprocess.PIPE, stdin=subprocess.DEVNULL)
    found: list[tuple[int, bytes]] = []
    with contextlib.suppress(OSError, http.client.HTTPException):
        wait_for(port, process)
        for gone in (9, 10):
            with away(bench.file(gone)):
                found += [ask(port, target(gone * 16)) for _ in range(2)]
            found += [ask(port, target(block * 16)) for block in (20, 21)]
        found.append(ask(port, target(9 * 16)))
    right = [FAILED, FAILED, *((200, wanted(block * 16)) for block in (20, 21))]
    bench.hold(f"replies where {name}", found == [*right, *right, (200, wanted(9 * 16))])
    with contextlib.suppress(subprocess.TimeoutExpired):
        process.wait(5)
    process.kill()
    output = process.communicate()[0]
    bench.hold(f"the end where {name}", (process.returncode, output) == (0, b"links 9 replies 9\n"))


def wait_for(port: int, process: subprocess.Popen[bytes]) -> None:
    """Waits until a server listens at the port, without a connection to it."""
    until = time.monotonic() + SECONDS
    here = f":{port:04X} 00000000:0000 0A"
    while here not in Path("/proc/net/tcp").read_text() and process.poll() is None and time.monotonic() < until:
        time.sleep(0.02)


def answers_of_the_system(bench: Bench) -> None:
    """What `accept` answers in place of a connection, four times, given by strace."""
    strace = shutil.which("strace")
    tried = strace and subprocess.run([strace, "-o", os.devnull, "true"], capture_output=True, check=False).returncode == 0
    if not tried:
        print("strace is not there: errors of accept but EMFILE are not tried")
        return
    for name in (*PASSING, *LASTING):
        code = getattr(errno, name)
        inject = f"inject=accept4:error={name}:when=2..5"
        before = (strace, "-D", "-f", "-qq", "-o", os.devnull, "-e", "trace=accept4", "-e", inject)
        with bench.serve("--links", "2", before=before) as server:
            first = ask(server.port, "/other")
            if name in PASSING:
                bench.hold(f"a client behind {name}", (first, ask(server.port, "/other")) == ((404, b"OtherPath\n"),) * 2)
                status, lines = 0, []
            else:
                reason = f"127.0.0.1:0: {os.strerror(code)} (os error {code})"
                status, lines = 12, [f"  a worker thread has ended: {reason}", "idxtool: door fault", f"  {reason}"]
            try:
                server.process.wait(SECONDS)
            except subprocess.TimeoutExpired:
                bench.hold(f"the end behind {name}", False)
            server.reading.join(SECONDS)
            bench.hold(f"status and lines behind {name}", (server.process.returncode, server.lines) == (status, lines))


def too_many_for_a_minute(bench: Bench) -> None:
    """A limit of open files that stays low: after a minute without a connection the workers end, and say so."""
    with bench.serve("--workers", "2") as server:
        server.rests(2)
        server.may_open(3)
        first = [Asking(server.port, "/other") for _ in range(2)]
        start = time.monotonic()
        try:
            server.process.wait(120)
        except subprocess.TimeoutExpired:
            bench.hold("it ends", False)
        spent = time.monotonic() - start
        server.reading.join(SECONDS)
        reason = f"127.0.0.1:0: {MANY}"
        bench.hold("the first ones are answered", all(client.found == (404, b"OtherPath\n") for client in first))
        bench.hold(f"after a minute ({spent:.0f} s)", 60 <= spent < 75)
        bench.hold("the lines of both workers", server.lines == [f"  a worker thread has ended: {reason}"] * 2
                   + ["idxtool: door fault", f"  {reason}"])


TRIALS = (too_many_open_files, files_that_are_gone, a_folder_that_is_gone, a_published_step, an_error_output_that_takes_nothing,
          answers_of_the_system)


def main() -> int:
    parser = words_of(__doc__)
    parser.add_argument("--slow", action="store_true", help="adds a limit that stays low for more than a minute")
    given = parser.parse_args()
    results = Results()
    for trial in TRIALS + ((too_many_for_a_minute,) if given.slow else ()):
        with tempfile.TemporaryDirectory() as folder:
            try:
                trial(Bench(given.program, Path(folder), results.hold))
            except (OSError, http.client.HTTPException) as error:
                results.hold(f"{trial.__name__}: {error!r}", False)
    return results.status()


if __name__ == "__main__":
    sys.exit(main())
