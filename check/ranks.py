#!/usr/bin/env python3
"""Converts a volume of real size by several numbers of ranks, and looks at whether the files are the same.

    check/ranks.py PROGRAM [--side 256]

The volume has SIDE^3 samples of four bytes, each its own number in row-major order. The file of one rank is held against
what the format says of it: its length, and the samples of a coarse slice; those of the others against it, byte for byte.
No run may take fresh memory for more than half as many bytes again as the volume has, and 8 MiB and 2 MiB for each rank: what
was freed serves again, but the C library keeps it for each thread, and how the threads meet is by chance.
A conversion whose standard error is a terminal has to say there how far it is, at least once, and to take the line away at the
end, and so has a check of what was converted. The first line is due after a tenth of a second: so these write and read 512 MiB, of
which each block holds the samples of one plane, all zeros, and is otherwise outside the box, where a check looks at each byte.
The last line is `N passed, M failed`.
"""
import array
import os
import pty
import re
import resource
import subprocess
import sys
import tempfile
from pathlib import Path

from results import Results, words_of

RANKS = (1, 2, 3, 4, 8)
BLOCK_BITS = 16
SHOWN_SIDE = 1024
SHOWN_MASK = "V" + "01" * 5 + "2" * 6 + "01" * 5
"""The extents of a plane whose conversion and check show how far they are, and its mask: each block has 63 other planes too."""
SHOWN_BYTES = 8 * 2 ** (len(SHOWN_MASK) - 1)



def words(program, dataset, raw, side, ranks):
    """The words of a conversion into one file."""
    digits = (side - 1).bit_length()
    box = " ".join([f"0 {side - 1}"] * 3)
    blocks = 2 ** (3 * digits - BLOCK_BITS)
    texts = [box, "n float32", "V" + "012" * digits, str(BLOCK_BITS), str(blocks), "./%04x.bin", "0 9 time%04d/", "0"]
    return [program, "convert", str(dataset), str(raw), *texts, "--ranks", str(ranks)]


def slice_words(program, dataset, side):
    """The words that ask for every fourth sample on two axes in the middle of the third."""
    digits = (side - 1).bit_length()
    region = f"0 {side - 1} 0 {side - 1} {side // 2} {side // 2}"
    return [program, "query", str(dataset), "0", "n", region, "0", str(3 * digits - 6)]


def slice_of(side):
    """The bytes of that slice."""
    plane = side // 2 * side * side
    rows = range(0, side, 4)
    return array.array("I", [plane + y * side + x for y in rows for x in rows]).tobytes()


def fresh_pages():
    """How many pages of memory the programs that have ended took for the first time, or again."""
    return resource.getrusage(resource.RUSAGE_CHILDREN).ru_minflt


def shown(argv):
    """What a run writes to a terminal, and whether it ended with 0."""
    master, slave = pty.openpty()
    with subprocess.Popen(argv, stdin=subprocess.DEVNULL, stdout=subprocess.DEVNULL, stderr=slave) as run:
        os.close(slave)
        text = b""
        try:
            while piece := os.read(master, 65536):
                text += piece
        except OSError:
            # the terminal is gone once nobody writes to it
            pass
        status = run.wait(timeout=120)
    os.close(master)
    return text, status == 0


def shown_words(program, dataset, raw):
    """The words of a conversion of the plane into one file, and the length of the file."""
    with open(raw, "wb") as file:
        file.truncate(8 * SHOWN_SIDE ** 2)
    blocks = SHOWN_BYTES // 8 >> BLOCK_BITS
    box = f"0 {SHOWN_SIDE - 1} 0 {SHOWN_SIDE - 1} 0 0"
    texts = [box, "n float64", SHOWN_MASK, str(BLOCK_BITS), str(blocks), "./%04x.bin", "0 9 time%04d/", "0"]
    return [program, "convert", str(dataset), str(raw), *texts], 40 + 40 * blocks + SHOWN_BYTES


def says_how_far(text, first):
    """Whether a line of work on one file was shown, then once or more how far that was, never less than before, then nothing."""
    line = rb"\r  ([01]) of 1 files, ([0-9]+) of ([0-9]+) MiB, [0-9]+ MiB/s\x1b\[K"
    if not (text.startswith(first) and re.fullmatch(rb"(%s)+\r\x1b\[K" % line, text[len(first):])):
        return False
    lines = [tuple(map(int, found)) for found in re.findall(line, text)]
    whole = SHOWN_BYTES >> 20
    return all(done <= whole == of for _, done, of in lines) and lines == sorted(lines)


def main():
    parser = words_of(__doc__)
    parser.add_argument("--side", type=int, default=256, help="a power of two from 64")
    given = parser.parse_args()
    side = given.side
    blocks = side ** 3 >> BLOCK_BITS
    results = Results()
    with tempfile.TemporaryDirectory() as folder:
        top = Path(folder)
        raw = top / "n.raw"
        raw.write_bytes(array.array("I", range(side ** 3)).tobytes())
        first = None
        for ranks in RANKS:
            dataset = top / f"of{ranks}" / "n.idx"
            dataset.parent.mkdir()
            before = fresh_pages()
            run = subprocess.run(words(given.program, dataset, raw, side, ranks), capture_output=True, timeout=120)
            fresh = (fresh_pages() - before) * resource.getpagesize()
            files = {file.name: file.read_bytes() for file in sorted((dataset.parent / "time0000").glob("*"))}
            if first is None:
                first = files
                length = 40 + 40 * blocks + 4 * side ** 3
                results.hold("the file's length", [len(bytes_) for bytes_ in files.values()] == [length])
                asked = subprocess.run(slice_words(given.program, dataset, side), capture_output=True, timeout=120)
                results.hold("a coarse slice", asked.returncode == 0 and asked.stdout == slice_of(side))
            results.hold(f"the memory of {ranks} ranks", fresh <= 6 * side ** 3 + 2 ** 23 + ranks * 2 ** 21)
            results.hold(f"the files of {ranks} ranks", run.returncode == 0 and not run.stderr and files == first)
        dataset, raw = top / "shown" / "n.idx", top / "shown.raw"
        dataset.parent.mkdir()
        converting, length = shown_words(given.program, dataset, raw)
        text, is_done = shown(converting)
        first = f"  converting {raw} into {dataset}, 1 ranks".encode()
        results.hold("the line on a terminal", is_done and says_how_far(text, first))
        check = [given.program, "check", str(dataset), "0"]
        asked = subprocess.run(check, capture_output=True, timeout=120)
        same = b"same files 1 bytes %d\n" % length
        results.hold("a check", asked.returncode == 0 and not asked.stderr and asked.stdout == same)
        text, is_done = shown(check)
        results.hold("the line of a check", is_done and says_how_far(text, f"  checking step 0 of {dataset}".encode()))
    return results.status()


if __name__ == "__main__":
    sys.exit(main())
