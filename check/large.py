#!/usr/bin/env python3
"""Converts a volume that is larger than the memory that a conversion keeps for samples on their way, by one rank and by four.

    check/large.py PROGRAM

The volume has 512 by 512 by 1200 samples of one byte, 300 MiB of random bytes; its box ends between two powers of two. The files
of four ranks have to be those of one, byte for byte. Questions for the two halves of the box have to give the raw volume back,
and one for a coarse level its samples. The raw volume may not be read more than twice over: a window that is read for one piece
holds samples of its neighbours too.

Before, a volume of 768 MiB, all zeros in a file with holes, is converted by one rank and by four. A batch of pieces has 256 MiB of samples
at most, and while the next one is read those of the last one may still have their memory: no conversion may take 640 MiB. One that
reads the whole volume at once takes more than 768. The last line is `N passed, M failed`.
"""
import hashlib
import os
import shutil
import subprocess
import sys
import tempfile
from pathlib import Path

from results import Results, words_of

SIDE, DEPTH = 512, 1200
VOLUME = SIDE * SIDE * DEPTH
MASK = "V22" + "012" * 9
LEVELS = len(MASK) - 1
WIDE, HIGH = 1024, 768
MOST_MEMORY = 640 * 2 ** 20


def words(program, dataset, raw, ranks, side=SIDE, depth=DEPTH, mask=MASK):
    """The words of a conversion."""
    box = f"0 {side - 1} 0 {side - 1} 0 {depth - 1}"
    texts = [box, "n uint8", mask, "16", "64", "./%04x.bin", "0 0 time%04d/", "0"]
    return [program, "convert", str(dataset), str(raw), *texts, "--ranks", str(ranks)]


def converted(argv):
    """Whether a conversion ends with 0 and says nothing, how many bytes it read, and the most bytes of memory that it had at a time."""
    with subprocess.Popen(argv, stdin=subprocess.DEVNULL, stdout=subprocess.DEVNULL, stderr=subprocess.PIPE) as run:
        text = run.stderr.read()
        os.waitid(os.P_PID, run.pid, os.WEXITED | os.WNOWAIT)
        counts = dict(line.split(": ") for line in Path(f"/proc/{run.pid}/io").read_text().splitlines())
        _, status, used = os.wait4(run.pid, 0)
        run.returncode = os.waitstatus_to_exitcode(status)
    return run.returncode == 0 and not text, int(counts["rchar"]), used.ru_maxrss * 1024


def sums(folder):
    """A sum of each file of the timestep."""
    return {file.name: hashlib.sha256(file.read_bytes()).hexdigest() for file in sorted(folder.glob("*"))}


def answer(program, dataset, first, last, level):
    """The answer to a question for some planes up to a level, or nothing."""
    region = f"0 {SIDE - 1} 0 {SIDE - 1} {first} {last}"
    asked = subprocess.run([program, "query", str(dataset), "0", "n", region, "0", str(level)], capture_output=True, timeout=120)
    return asked.stdout if asked.returncode == 0 else None


def coarse(raw, step):
    """The samples of every STEP-th place on each axis."""
    planes = (raw[z * SIDE * SIDE:(z + 1) * SIDE * SIDE] for z in range(0, DEPTH, step))
    return b"".join(plane[y * SIDE:(y + 1) * SIDE:step] for plane in planes for y in range(0, SIDE, step))


def hold_memory(program, top, results):
    """Holds how much memory conversions of a volume take that is three times as large as a batch."""
    raw = top / "wide.raw"
    with raw.open("wb") as file:
        file.truncate(WIDE * WIDE * HIGH)
    for ranks in (1, 4):
        is_done, _, memory = converted(words(program, top / "wide.idx", raw, ranks, WIDE, HIGH, "auto"))
        results.hold(f"the end of {ranks} ranks with a larger volume", is_done)
        results.hold(f"the memory of {ranks} ranks, {memory >> 20} MiB", memory < MOST_MEMORY)
        shutil.rmtree(top / "time0000", ignore_errors=True)
    raw.unlink()


def main():
    program = words_of(__doc__).parse_args().program
    results = Results()
    with tempfile.TemporaryDirectory() as folder:
        top = Path(folder)
        # First, since the system counts what this program had before it began another as the other's.
        hold_memory(program, top, results)
        raw = top / "n.raw"
        raw.write_bytes(os.urandom(VOLUME))
        files = {}
        dataset = top / "n.idx"
        for ranks in (4, 1):
            shutil.rmtree(top / "time0000", ignore_errors=True)
            is_done, read, _ = converted(words(program, dataset, raw, ranks))
            results.hold(f"the end of {ranks} ranks", is_done)
            results.hold(f"what {ranks} ranks read", VOLUME <= read <= 2 * VOLUME + 2 ** 24)
            files[ranks] = sums(top / "time0000")
        results.hold("the files of 4 ranks", len(files[1]) > 4 and files[4] == files[1])
        bytes_ = raw.read_bytes()
        half = DEPTH // 2
        for first in (0, half):
            wanted = bytes_[first * SIDE * SIDE:(first + half) * SIDE * SIDE]
            results.hold(f"the planes from {first} on", answer(program, dataset, first, first + half - 1, LEVELS) == wanted)
        results.hold("a coarse level", answer(program, dataset, 0, DEPTH - 1, LEVELS - 12) == coarse(bytes_, 16))
    return results.status()


if __name__ == "__main__":
    sys.exit(main())
