#!/usr/bin/env python3
"""Runs the program on real files, folders and connections that change while it runs, or stand in its way.

    check/files.py PROGRAM

Headers with ends of lines of both kinds and of odd lengths are read. A conversion is stopped while it writes a timestep, and
meanwhile another one asks for the same timestep, its folder is exchanged or taken, or it is killed; others have no room for
what they write. Clients leave before their answer has come, or go on to send behind it. Blocks lie behind the first 2^32 bytes of files
with holes. The last line is `N passed, M failed`. It does not use the reference.
"""
from __future__ import annotations

import os
import resource
import shutil
import signal
import socket
import struct
import subprocess
import sys
import tempfile
import time
from collections.abc import Iterator
from pathlib import Path

from messages import CONVERT, RAW, SMALL, Case, header, is_right
from results import Results, words_of

SECONDS = 60
TRIES = 30
"""How often a conversion is begun until one is stopped in time."""
SIDE = 256
LARGE = [" ".join([f"0 {SIDE - 1}"] * 3), "n uint32", "V" + "012" * 8, "16", "16", "./%02x.bin", "0 9 time%04d/"]
"""A dataset of 64 MiB and 16 files a timestep."""
ODD_ENDS = (b"passed over\r\n (version) \n6\n\n(box)\r\n0 3 0 3\r\n(fields)\r\n p 1*float64 +\n\n\tv 3*float64\r\n(bits)\n"
            b"V0101\n(bitsperblock)\n2\n(blocksperfile)\n2\n(filename_template)\n./%01x.bin\r\n(note)")
OF_PIDX = (b"(version)\r\n6\r\n(box)\r\n0 63 0 63 0 63 0 0 0 0\r\n(fields)\r\np 1*float64 +\r\nv 3*float64\r\n(bits)\r\n"
           b"V012012012012012012\r\n(bitsperblock)\r\n15\r\n(blocksperfile)\r\n256\r\n(filename_template)\r\n"
           b"./out/%02x/%04x.bin\r\n(time)\r\n0 10 time%09d/\r\n")
BAD_HEAD = (b"HTTP/1.1 400 Bad Request\r\nContent-Type: text/plain\r\nContent-Length: 8\r\nConnection: close\r\n\r\n"
            b"BadHead\n")


def summary(box: str, mask: str, numbers: tuple[int, int, int], steps: str, *fields: str) -> bytes:
    """The lines of `info`; the numbers are of bits a block, blocks a file, and blocks."""
    bits, per_file, blocks = numbers
    return "".join(f"{line}\n" for line in (
        "version 6", f"axes {len(box.split()) // 2}", f"box {box}", f"bits {mask}", f"levels {len(mask) - 1}",
        f"bitsperblock {bits}", f"blocksperfile {per_file}", f"blocks {blocks}", f"steps {steps}",
        *(f"field {each}" for each in fields))).encode()


def of_headers() -> Iterator[Case]:
    """Headers of odd lines, and at the greatest length and above it."""
    fields = "p float64 8", "v float64[3] 24"
    yield Case("odd ends of lines", ["info", "v.idx"], 0, "", {"v.idx": ODD_ENDS},
               output=summary("0 3 0 3", "V0101", (2, 2, 4), "none", *fields))
    yield Case("a header of PIDX", ["info", "v.idx"], 0, "", {"v.idx": OF_PIDX},
               output=summary("0 63 0 63 0 63", "V" + "012" * 6, (15, 256, 8), "0 10", *fields))
    yield Case("two carriage returns", ["info", "v.idx"], 2, "idxtool: header line 2 NotText\n",
               {"v.idx": b"(a)\r\n\r\r\n\1"}, is_front=True)
    whole = header(*SMALL) + b"(note)\n"
    for length, status, errors in ((65_536, 0, ""), (65_537, 2, "idxtool: header line 0 OverLimit\n"),
                                   (100_000, 2, "idxtool: header line 0 OverLimit\n")):
        yield Case(f"a header of {length} bytes", ["info", "v.idx"], status, errors,
                   {"v.idx": whole.ljust(length, b"x")}, is_front=status != 0)


def of_places() -> Iterator[Case]:
    """Plain files in the places of folders."""
    yield Case("a plain file in the place of a timestep", CONVERT, 5,
               "idxtool: store fault\n  time0000: something stands there already\n",
               {"r.raw": RAW, "time0000": b"plain"}, after={"time0000": b"plain", "v.idx": header(*SMALL)})
    yield Case("a plain file above a timestep", [*CONVERT[:8], "./a/%01x.bin", *CONVERT[9:]], 5,
               "idxtool: store fault\n  a/time0000: Not a directory (os error 20)\n",
               {"r.raw": RAW, "a": b"plain"}, after={"a": b"plain"})


class Folder:
    """A folder in which the program runs."""

    def __init__(self, program: str, top: Path) -> None:
        self.program = program
        self.top = top
        self.step, self.staged, self.lock = (top / f"time0000{end}" for end in ("", ".part", ".lock"))

    def run(self, *words: str, most: int | None = None) -> tuple[int, bytes, str]:
        """The status, the output and the errors of a run, which may write files of no more than so many bytes."""
        limit = None if most is None else lambda: resource.setrlimit(resource.RLIMIT_FSIZE, (most, most))
        # (the signal of that limit stays ignored, as it is here, so that the write fails)
        ended = subprocess.run([self.program, *words], cwd=self.top, stdin=subprocess.DEVNULL, capture_output=True,
                               timeout=SECONDS, check=False, preexec_fn=limit, restore_signals=most is None)
        return ended.returncode, ended.stdout, ended.stderr.decode()

    def convert(self, number: int = 0) -> tuple[int, bytes, str]:
        """Writes a timestep of the large dataset."""
        return self.run("convert", "v.idx", "r.raw", *LARGE, str(number))

    def stopped(self) -> subprocess.Popen[bytes]:
        """A conversion that is stopped while it writes the first timestep, some files of which are staged."""
        for _ in range(TRIES):
            for left in (self.step, self.staged):
                shutil.rmtree(left, ignore_errors=True)
            self.lock.unlink(missing_ok=True)
            writing = subprocess.Popen([self.program, "convert", "v.idx", "r.raw", *LARGE, "0"], cwd=self.top,
                                       stdin=subprocess.DEVNULL, stdout=subprocess.PIPE, stderr=subprocess.PIPE)
            while writing.poll() is None and not has_files(self.staged):
                time.sleep(0.0002)
            if stops(writing) and has_files(self.staged) and not self.step.exists():
                return writing
            kill(writing)
        raise RuntimeError("no conversion could be stopped while it writes")


def has_files(folder: Path) -> bool:
    """Whether a file is in a folder of the folder."""
    try:
        return any(os.listdir(inner) for inner in folder.iterdir())
    except FileNotFoundError:
        return False


def stops(process: subprocess.Popen[bytes]) -> bool:
    """Stops a process; false where it has ended before."""
    process.send_signal(signal.SIGSTOP)
    if process.returncode is not None:
        return False
    _, status = os.waitpid(process.pid, os.WUNTRACED)
    if os.WIFSTOPPED(status):
        return True
    process.returncode = os.waitstatus_to_exitcode(status)
    return False


def kill(process: subprocess.Popen[bytes]) -> None:
    """Ends a process, stopped or not, where it has not ended."""
    process.kill()
    process.communicate()


def goes_on(process: subprocess.Popen[bytes]) -> tuple[int, bytes, str]:
    """Lets a process that was stopped go on to its end."""
    process.send_signal(signal.SIGCONT)
    output, errors = process.communicate(timeout=SECONDS)
    return process.returncode, output, errors.decode()


def refused(reason: str) -> tuple[int, bytes, str]:
    """How a conversion ends that the dataset refuses."""
    return 5, b"", f"idxtool: store fault\n  {reason}\n"


def files_of(folder: Path) -> dict[str, bytes]:
    """The files of a timestep, with their bytes."""
    return {path.name: path.read_bytes() for path in folder.iterdir()} if folder.is_dir() else {}


def hold_stopped(at: Folder, results: Results) -> None:
    """What is done while a conversion writes a timestep."""
    hold = results.hold
    (at.top / "r.raw").write_bytes(struct.pack("<256I", *range(256)) * (SIDE ** 3 // 256))
    hold("a whole conversion", at.convert() == (0, b"", ""))
    wanted = files_of(at.step)
    hold("the files of it", len(wanted) == 16 and nothing_staged(at))
    first = at.stopped()
    busy = refused("time0000.lock: another run is writing this step")
    hold("the same timestep beside it", at.convert() == busy and not at.step.exists())
    hold("another timestep beside it", at.convert(1) == (0, b"", "") and files_of(at.top / "time0001") == wanted)
    hold("it goes on behind these", goes_on(first) == (0, b"", "") and files_of(at.step) == wanted and nothing_staged(at))
    kill(at.stopped())
    hold("no timestep behind one that was killed", not at.step.exists() and at.staged.is_dir())
    hold("it is written again", at.convert() == (0, b"", "") and files_of(at.step) == wanted and nothing_staged(at))
    third = at.stopped()
    at.step.mkdir()
    hold("a folder that came meanwhile", goes_on(third) == refused("time0000: something stands there already"))
    hold("it stays as it is", at.step.is_dir() and not files_of(at.step))
    hold("nothing of it is left", nothing_staged(at))
    fourth = at.stopped()
    own = next(at.staged.iterdir())
    own.rename(at.staged / "taken")
    status, _, errors = goes_on(fourth)
    hold("a staged folder that was taken away", status == 5 and errors.startswith("idxtool: store fault\n  time0000")
         and errors.endswith(": another run has taken away what this run staged\n"))
    hold("it is no timestep", not at.step.exists() and [path.name for path in at.staged.iterdir()] == ["taken"])


def nothing_staged(at: Folder) -> bool:
    """Whether nothing is staged of the first timestep, and nobody says that it is being written."""
    return not at.staged.exists() and not at.lock.exists()


def hold_room(at: Folder, results: Results) -> None:
    """Files for which there is no room, and folders that cannot be made."""
    hold = results.hold
    (at.top / "r.raw").write_bytes(RAW)
    full = "File too large (os error 27)"
    hold("no room for a header", at.run(*CONVERT, most=10) == refused(f"v.idx: {full}"))
    hold("no part of a header", sorted(path.name for path in at.top.iterdir()) == ["r.raw"])
    (at.top / "v.idx").write_bytes(header(*SMALL))
    status, _, errors = at.run(*CONVERT, most=100)
    front, end = "idxtool: store fault\n  ", f": {full}\n"
    path = errors.removeprefix(front).removesuffix(end)
    hold("no room for a file", status == 5 and errors == front + path + end and path.startswith("time0000.part/"))
    hold("no timestep without it", not at.step.exists() and not (at.top / path).exists())
    hold("room for it", at.run(*CONVERT) == (0, b"", "") and at.run("check", "v.idx", "0")[0] == 0)
    (at.top / "a").symlink_to("nowhere")
    words = ["convert", "w.idx", *CONVERT[2:8], "./a/%01x.bin", *CONVERT[9:]]
    hold("a link to nowhere above a timestep", at.run(*words) == refused("a: File exists (os error 17)"))
    os.truncate(at.top / "v.idx", 2 ** 36)
    status, _, errors = at.run("info", "v.idx")
    hold("a header of 2^36 bytes", status == 2 and errors.startswith("idxtool: header line 0 OverLimit\n"))


class Server:
    """A run of `serve` that ends after so many connections."""

    def __init__(self, at: Folder, dataset: str, links: int) -> None:
        words = [at.program, "serve", dataset, "127.0.0.1:0", "--links", str(links)]
        self.process = subprocess.Popen(words, cwd=at.top, stdout=subprocess.PIPE, stderr=subprocess.PIPE)

    def __enter__(self) -> Server:
        line = self.process.stderr.readline().decode()
        self.port = int(line.split(",")[0].rsplit(":", 1)[1])
        return self

    def __exit__(self, *_: object) -> None:
        kill(self.process)

    def client(self, sent: bytes) -> socket.socket:
        """A client that has sent these bytes."""
        client = socket.create_connection(("127.0.0.1", self.port), SECONDS)
        client.sendall(sent)
        return client

    def end(self) -> tuple[int, bytes]:
        """The status and the output once it has ended."""
        output, _ = self.process.communicate(timeout=SECONDS)
        return self.process.returncode, output


def rest_of(client: socket.socket) -> bytes:
    """All that comes to a client, up to the end of its connection, which is then closed."""
    with client:
        return b"".join(iter(lambda: client.recv(2 ** 16), b""))


def hold_clients(at: Folder, results: Results) -> None:
    """Clients that still send when they are refused, and that leave before their answer has come."""
    with Server(at, "v.idx", 1) as server:
        results.hold("a reply to a client that still sends", rest_of(server.client(b"\0" + b"a" * 20_000)) == BAD_HEAD)
        results.hold("the line behind it", server.end() == (0, b"links 1 replies 1\n"))
    ask = b"GET /mod_visus?action=boxquery&dataset=v&box=0+255+0+255+0+%d HTTP/1.0\r\n\r\n"
    with Server(at, "v.idx", 2) as server:
        gone = server.client(ask % 255)
        gone.recv(1)
        gone.setsockopt(socket.SOL_SOCKET, socket.SO_LINGER, struct.pack("ii", 1, 0))
        gone.close()
        reply = rest_of(server.client(ask % 0))
        wanted = struct.pack("<256I", *range(256)) * SIDE
        results.hold("the client behind one that left", reply.startswith(b"HTTP/1.1 200 OK\r\n") and reply.endswith(wanted))
        status, output = server.end()
        results.hold("the end behind one that left", status == 0 and output.startswith(b"links 2 replies "))


FAR_TABLE, FAR_ROW, FAR_SIZE, FAR_PLACE = 120, 80, 4, 124
"""Of the first file of the small dataset: the length of its table, where its row 1 begins, and the size and place of that block."""
FAR = ((2 ** 32 + FAR_PLACE, 95), (2 ** 32, 91), (2 ** 32 - 2, 88), (2 ** 32 + 2 ** 31 + 7, 88), (2 ** 36 + 1, 91))
"""Where the block is put, and the first byte of the file that is another one then: in the low word of the row, or the high one."""
NOWHERE = (2 ** 32 + FAR_PLACE, 2 ** 63 + FAR_PLACE, 2 ** 64 - FAR_SIZE, 2 ** 64 - 1)
"""Places that no file has whose length is that of the table and the two blocks, of which some are right without their high word."""


def put_far(file: Path, whole: bytes, place: int, length: int) -> None:
    """Puts a file whose block of row 1 lies at a place, as far as that is inside its length; what stood there is all ones."""
    row = struct.pack(">2I", place % 2 ** 32, place >> 32)
    near = whole[:FAR_ROW + 8] + row + whole[FAR_ROW + 16:FAR_PLACE] + b"\xff" * FAR_SIZE
    with open(file, "wb") as out:
        out.write(near)
        if place < length:
            out.seek(place)
            out.write(whole[FAR_PLACE:])
        out.truncate(length)


def hold_far(at: Folder, results: Results) -> None:
    """Blocks behind the first 2^32 bytes of a file, or across them, and rows that name such places where there are none."""
    (at.top / "r.raw").write_bytes(RAW)
    results.hold("a small conversion", at.run(*CONVERT) == (0, b"", ""))
    file, query = at.step / "0.bin", ("query", "v.idx", "0", "a", "0 3 0 3", "0", "4")
    whole = file.read_bytes()
    for place, wrong in FAR:
        put_far(file, whole, place, place + FAR_SIZE)
        results.hold(f"a block at {place}", at.run(*query) == (0, RAW, ""))
        status, _, errors = at.run("check", "v.idx", "0")
        results.hold(f"a check of one at {place}", (status, errors.split("\n")[0]) == (
            16, f"idxtool: not same file 0 at {wrong} Byte"))
        with Server(at, "v.idx", 1) as server:
            reply = rest_of(server.client(b"GET /mod_visus?action=boxquery&dataset=v&box=0+3+0+3 HTTP/1.0\r\n\r\n"))
            results.hold(f"a reply out of one at {place}", reply.endswith(b"\r\n\r\n" + RAW))
        put_far(file, whole, place, place + FAR_SIZE - 1)
        hold_outside(at, query, f"a block at {place} that is cut off", results)
    for place in NOWHERE:
        put_far(file, whole, place, len(whole))
        hold_outside(at, query, f"no block at {place}", results)


def hold_outside(at: Folder, query: tuple[str, ...], name: str, results: Results) -> None:
    """A row that names a place outside of its file is refused."""
    status, output, errors = at.run(*query)
    results.hold(name, (status, output, errors.split("\n")[0]) == (10, b"", "idxtool: table file 0 row 1 OutsideFile"))


def main() -> int:
    """Runs all; 1 where anything is wrong."""
    program = os.path.abspath(words_of(__doc__).parse_args().program)
    results = Results()
    for case in (*of_headers(), *of_places()):
        results.hold(case.name, is_right(program, case))
    with tempfile.TemporaryDirectory() as name:
        hold_room(Folder(program, Path(name)), results)
    with tempfile.TemporaryDirectory() as name:
        large = Folder(program, Path(name))
        hold_stopped(large, results)
        large.convert()
        hold_clients(large, results)
    with tempfile.TemporaryDirectory() as name:
        hold_far(Folder(program, Path(name)), results)
    return results.status()


if __name__ == "__main__":
    sys.exit(main())
