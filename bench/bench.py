#!/usr/bin/env python3
"""Ratios: how many times as long idxtool takes as other programs that end with the same bytes, in turns within one run.

    bench.py [--size small|large] [--only convert,cut,query,serve] [--rounds N] [--folder FOLDER]

`convert` stands beside a plain C program (plain.c), a numpy program (numpy_program.py) and `cp` of the raw volume; `cut` and
`query` beside the same two and `cat` of as many bytes; `serve` beside nginx with files of the same bytes. Before a case is
timed the bytes of all its programs are compared; a case that differs gets no time, and the exit status is 1. The first round is not
counted; each ratio is the median of the rounds' ratios. The program is `idxtool` on the PATH, or what the environment variable
IDXTOOL says; PYTHON is the Python that has numpy (else /usr/bin/python3).
"""
from __future__ import annotations

import argparse
import os
import resource
import shutil
import signal
import socket
import statistics
import subprocess
import sys
import tempfile
import threading
import time
from collections.abc import Callable
from contextlib import ExitStack
from dataclasses import dataclass
from pathlib import Path

HERE = Path(__file__).resolve().parent
PYTHON = os.environ.get("PYTHON", "/usr/bin/python3")
SECONDS = 300


@dataclass(frozen=True)
class Volume:
    """A volume of one field: samples along axes 0, 1 and 2, and the bits and blocks of its files."""
    name: str
    counts: tuple[int, int, int]
    kind: str
    size: int
    bits: int

    def bytes(self) -> int:
        """The bytes of its samples."""
        return self.counts[0] * self.counts[1] * self.counts[2] * self.size

    def numbers(self) -> list[str]:
        """The words by which the other programs know it."""
        return [str(each) for each in (*self.counts, self.size, self.bits, 256)]

    def box(self) -> str:
        """Its box as idxtool reads it."""
        return " ".join(f"0 {count - 1}" for count in self.counts)

    def mask(self) -> str:
        """Its guessed mask: from the finest digit leftward in rounds, from the last axis to the first."""
        left, text = [(count - 1).bit_length() for count in self.counts], ""
        while any(left):
            for axis in (2, 1, 0):
                if left[axis]:
                    text, left[axis] = f"{axis}{text}", left[axis] - 1
        return f"V{text}"

    def levels(self) -> int:
        """The digits of its mask."""
        return len(self.mask()) - 1


VOLUMES = {
    "small": [Volume("64^3 float32", (64, 64, 64), "float32", 4, 12), Volume("128^3 uint8", (128, 128, 128), "uint8", 1, 16)],
    "large": [Volume("256^3 uint8", (256, 256, 256), "uint8", 1, 16), Volume("256^3 float32", (256, 256, 256), "float32", 4, 16)],
}


@dataclass(frozen=True)
class Time:
    """What a run took: milliseconds on the clock, and of processors."""
    wall: float
    processor: float


def timed(words: list[str], output: "Path | None" = None) -> Time:
    """The time of a whole process, from its start to its end; its output goes to a file. It has to end with 0."""
    before = resource.getrusage(resource.RUSAGE_CHILDREN)
    with open(output or os.devnull, "wb") as out:
        begin = time.perf_counter()
        process = subprocess.Popen(words, stdin=subprocess.DEVNULL, stdout=out)
        late = threading.Timer(SECONDS, process.kill)
        late.start()
        status = process.wait()  # a wait with a timeout looks only now and then, at times that double
        wall = time.perf_counter() - begin
        late.cancel()
    if status != 0:
        raise subprocess.CalledProcessError(status, words)
    after = resource.getrusage(resource.RUSAGE_CHILDREN)
    return Time(1000 * wall, 1000 * (after.ru_utime + after.ru_stime - before.ru_utime - before.ru_stime))


def fill(path: Path, count: int) -> None:
    """A file of bytes that are not random, and not all the same."""
    pattern = bytes((31 * place + place // 251) % 256 for place in range(2 ** 16))
    with path.open("wb") as file:
        for start in range(0, count, len(pattern)):
            file.write(pattern[start // 65536 % 97:][:count - start])
            file.write(pattern[:start // 65536 % 97][:max(0, count - file.tell())])


def files_of(folder: Path) -> dict[str, bytes]:
    """The files of a timestep, by the number in their names."""
    return {path.stem.lstrip("0"): path.read_bytes() for path in folder.iterdir()}


class Bench:
    """The cases, one after the other, in a folder of their own."""

    def __init__(self, tool: str, folder: Path, rounds: int) -> None:
        self.tool, self.folder, self.rounds = tool, folder, rounds
        self.plain = folder / "plain"
        self.same = self.different = 0
        subprocess.run(["cc", "-std=gnu11", "-O3", "-o", self.plain, HERE / "plain.c"], check=True, timeout=SECONDS)

    def compare(self, what: str, are_same: bool) -> bool:
        """Counts a comparison of bytes."""
        self.same += are_same
        self.different += not are_same
        if not are_same:
            print(f"{what}: the programs give different bytes")
        return are_same

    def line(self, what: str, count: int, runs: "dict[str, Callable[[], Time]]") -> None:
        """Runs the programs in turns, idxtool first, and prints its time and the ratios."""
        rounds = [{name: run() for name, run in runs.items()} for _ in range(self.rounds + 1)][1:]
        first = next(iter(runs))
        ratios = []
        for name in list(runs)[1:]:
            wall, processor = (statistics.median(getattr(each[first], key) / max(getattr(each[name], key), 1e-3) for each in rounds)
                               for key in ("wall", "processor"))
            ratios.append(f"{wall:.2f}{f' ({processor:.2f})' if processor else ''} of {name}")
        mine = statistics.median(each[first].wall for each in rounds)
        print(f"| {what} | {count:,} | {mine:.1f} ms | {', '.join(ratios)} |", flush=True)

    def convert(self, volume: Volume, ranks: int) -> None:
        """One timestep out of a raw volume."""
        raw, numbers = self.raw(volume), volume.numbers()
        mine, plain, other, copy = (self.folder / name for name in ("mine", "plain-files", "numpy-files", "copy"))
        words = [self.tool, "convert", str(mine / "v.idx"), str(raw), volume.box(), f"a {volume.kind}", "auto", numbers[4], "256",
                 "./%06x.bin", "0 0 t%01d/", "0", "--ranks", str(ranks)]

        def run(words: list[str], *gone: Path) -> Time:
            for each in gone:
                shutil.rmtree(each, ignore_errors=True)
            return timed(words)

        runs = {
            "idxtool": lambda: run(words, mine),
            "C": lambda: run([str(self.plain), "convert", str(raw), str(plain), *numbers], plain),
            "numpy": lambda: run([PYTHON, str(HERE / "numpy_program.py"), "convert", str(raw), str(other), *numbers], other),
            "cp": lambda: run(["cp", str(raw), str(copy)]),
        }
        for each in runs.values():
            each()
        files = files_of(mine / "t0")
        what = f"convert {volume.name}, ranks: {ranks}"
        if self.compare(what, files == files_of(plain) == files_of(other)):
            self.line(what, volume.bytes(), runs)

    def raw(self, volume: Volume) -> Path:
        """The raw volume, made once."""
        path = self.folder / f"{volume.name.replace(' ', '-')}.raw"
        if not path.exists():
            fill(path, volume.bytes())
        return path

    def dataset(self, volume: Volume) -> tuple[Path, Path]:
        """The dataset, written by idxtool once: its header, and the folder of its timestep."""
        folder = self.folder / volume.name.replace(" ", "-")
        if not folder.exists():
            subprocess.run([self.tool, "convert", folder / "v.idx", self.raw(volume), volume.box(), f"a {volume.kind}", "auto",
                            str(volume.bits), "256", "./%06x.bin", "0 0 t%01d/", "0"], check=True, timeout=SECONDS)
        return folder / "v.idx", folder / "t0"

    def part(self, volume: Volume, what: str, box: "tuple[tuple[int, int], ...]", low: int, high: int, only: list[str]) -> None:
        """The samples of a box between two levels, out of the dataset (`query`) and out of the raw volume (`cut`)."""
        region = " ".join(f"{first} {last}" for first, last in box)
        asked = [*(str(end) for pair in box for end in pair), str(low), str(high)]
        other = [PYTHON, str(HERE / "numpy_program.py")]
        if "query" in only:
            header, folder = self.dataset(volume)
            self.compared(f"query {volume.name}, {what}", {
                "idxtool": [self.tool, "query", str(header), "0", "a", region, str(low), str(high)],
                "C": [str(self.plain), "query", str(folder), *volume.numbers(), *asked],
                "numpy": [*other, "query", str(folder), *volume.numbers(), *asked]})
        if "cut" in only:
            raw, numbers = str(self.raw(volume)), volume.numbers()[:4]
            self.compared(f"cut {volume.name}, {what}", {
                "idxtool": [self.tool, "cut", raw, str(volume.size), volume.box(), volume.mask(), region, str(low), str(high)],
                "C": [str(self.plain), "cut", raw, *numbers, *asked],
                "numpy": [*other, "cut", raw, *numbers, *asked]})

    def compared(self, what: str, words: dict[str, list[str]]) -> None:
        """Programs whose outputs have to be the same, and `cat` of as many bytes."""
        outputs = {name: self.folder / f"{name}.out" for name in (*words, "cat")}
        for name, each in words.items():
            timed(each, outputs[name])
        found = [outputs[name].read_bytes() for name in words]
        (self.folder / "answer").write_bytes(found[0])
        words["cat"] = ["cat", str(self.folder / "answer")]
        if self.compare(what, all(each == found[0] for each in found)):
            self.line(what, len(found[0]), {name: lambda name=name: timed(words[name], outputs[name]) for name in words})

    def serve(self, volume: Volume, nginx: str) -> None:
        """Replies over one kept connection, out of cached blocks, beside files that nginx sends."""
        header, _ = self.dataset(volume)
        middle, last = volume.counts[2] // 2, volume.levels()
        line = f"box=0+{volume.counts[0] - 1}+0+{volume.counts[1] - 1}+{middle}+{middle}"
        questions = {"a point": "box=3+3+5+5+7+7", "a slice, a quarter": f"{line}&toh={last - 6}", "a slice": line}
        with ExitStack() as ends:
            server = subprocess.Popen([self.tool, "serve", header, "127.0.0.1:0", "--cache", "4096"], stderr=subprocess.PIPE)
            ends.callback(lambda: (server.kill(), server.communicate()))
            assert server.stderr is not None
            port = int(server.stderr.readline().decode().split(",")[0].rsplit(":", 1)[1])
            front = self.nginx(ends, nginx)
            for what, question in questions.items():
                target = f"/mod_visus?action=boxquery&dataset=v&{question}"
                body = reply_of(port, target)
                (self.folder / "www").mkdir(exist_ok=True)
                (self.folder / "www" / "body").write_bytes(body)
                asked = subprocess.run([self.tool, "query", header, "0", "a", *self.words_of(question, last)],
                                       stdout=subprocess.PIPE, check=True, timeout=SECONDS).stdout
                what = f"serve {volume.name}, {what}, 1,000 times"
                if self.compare(what, body == asked == reply_of(front, "/body") and len(body) > 0):
                    self.line(what, len(body), {"idxtool": lambda: self.asked(port, target),
                                                "nginx": lambda: self.asked(front, "/body")})

    def words_of(self, question: str, last: int) -> list[str]:
        """The words of `query` for what a target asks."""
        box, _, level = question.removeprefix("box=").partition("&toh=")
        return [box.replace("+", " "), "0", level or str(last)]

    def asked(self, port: int, target: str) -> Time:
        """The time of a thousand replies, which is milliseconds when it is microseconds for each one. No processor time."""
        ended = subprocess.run([self.plain, "ask", str(port), "1000"], input=target.encode(), capture_output=True, check=True,
                               timeout=SECONDS)
        return Time(float(ended.stdout), 0)

    def nginx(self, ends: ExitStack, nginx: str) -> int:
        """Starts one process of nginx over files; gives its port."""
        with socket.socket() as one:
            one.bind(("127.0.0.1", 0))
            port = one.getsockname()[1]
        user = "user root;" if os.geteuid() == 0 else ""
        paths = "".join(f"{each}_temp_path {self.folder}/{each};" for each in ("client_body", "proxy", "fastcgi", "uwsgi", "scgi"))
        (self.folder / "nginx.conf").write_text(
            f"{user} daemon off; master_process off; pid {self.folder}/nginx.pid; events {{}} http {{ access_log off; sendfile on;"
            f" tcp_nopush on; keepalive_requests 10000000; {paths}"
            f" server {{ listen 127.0.0.1:{port}; root {self.folder}/www; }} }}\n")
        process = subprocess.Popen([nginx, "-c", self.folder / "nginx.conf", "-e", self.folder / "nginx.log"])
        ends.callback(lambda: (process.send_signal(signal.SIGTERM), process.wait(SECONDS)))
        for _ in range(200):
            try:
                socket.create_connection(("127.0.0.1", port), 1).close()
                break
            except OSError:
                time.sleep(0.05)
        return port


def reply_of(port: int, target: str) -> bytes:
    """The body of a reply."""
    from urllib.request import urlopen
    with urlopen(f"http://127.0.0.1:{port}{target}", timeout=SECONDS) as reply:
        return reply.read()


def machine() -> str:
    """The processors and the memory of this machine, and how busy it is."""
    lines = Path("/proc/cpuinfo").read_text().splitlines()
    names = [line.partition(":")[2].strip() for line in lines if line.startswith("model name")]
    name = names[0] if names else "of an unknown name"
    memory = os.sysconf("SC_PAGE_SIZE") * os.sysconf("SC_PHYS_PAGES") / 2 ** 30
    return f"{os.cpu_count()} processors ({name}), {memory:.0f} GiB of memory, a load of {os.getloadavg()[0]:.1f} at the start"


def main() -> int:
    parser = argparse.ArgumentParser(description=__doc__, formatter_class=argparse.RawDescriptionHelpFormatter)
    parser.add_argument("--size", choices=sorted(VOLUMES), default="large")
    parser.add_argument("--only", default="convert,cut,query,serve")
    parser.add_argument("--rounds", type=int, default=7)
    parser.add_argument("--folder", type=Path, help="where the scratch folder is made, which takes up to 500 MB")
    given = parser.parse_args()
    only = given.only.split(",")
    tool = shutil.which(os.environ.get("IDXTOOL") or "idxtool")
    nginx = shutil.which("nginx", path=os.environ.get("PATH", "") + ":/usr/sbin")
    if tool is None:
        sys.exit("there is no idxtool on the PATH, and IDXTOOL names none")
    print(f"{machine()}; {given.rounds} rounds.\n")
    print("| case | bytes | idxtool | times as long on the clock (of processors) |\n|---|---|---|---|")
    with tempfile.TemporaryDirectory(dir=given.folder) as folder:
        bench = Bench(os.path.abspath(tool), Path(folder), given.rounds)
        for volume in VOLUMES[given.size]:
            whole = tuple((0, count - 1) for count in volume.counts)
            middle, last = tuple((count // 2, count // 2) for count in volume.counts), volume.levels()
            if "convert" in only:
                for ranks in (1, 4):
                    bench.convert(volume, ranks)
            bench.part(volume, "a point", middle, 0, last, only)
            bench.part(volume, "a slice across axis 2, a quarter", (*whole[:2], middle[2]), 0, last - 6, only)
            bench.part(volume, "a slice across axis 2", (*whole[:2], middle[2]), 0, last, only)
            bench.part(volume, "a slice across axis 0", (middle[0], *whole[1:]), 0, last, only)
            eighth = tuple((0, count // 2 - 1) for count in volume.counts)
            bench.part(volume, "the last level of an eighth", eighth, last, last, only)
            bench.part(volume, "all", whole, 0, last, only)
            if "serve" in only and nginx is None:
                print("serve: not timed, since there is no nginx")
            elif "serve" in only:
                bench.serve(volume, nginx)
    print(f"{bench.same} passed, {bench.different} failed")
    return 1 if bench.different else 0


if __name__ == "__main__":
    sys.exit(main())
