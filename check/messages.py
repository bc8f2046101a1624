#!/usr/bin/env python3
"""Runs the program where something is wrong, and compares all that it writes to standard error, word for word.

    check/messages.py PROGRAM

Each case has a folder of its own, with the files that it names. Beside wrong words and headers these are files that are none,
an output that nobody reads, addresses that nobody can listen at, and what an earlier run left. What `--help` prints is help.txt,
byte by byte, and that has the words of each command as README.md has them, and each of its statuses. The last line is
`N passed, M failed`. It does not use the reference.
"""
from __future__ import annotations

import os
import re
import socket
import subprocess
import sys
import tempfile
from collections.abc import Iterator
from dataclasses import dataclass, field
from pathlib import Path

from results import status_of, words_of

SECONDS = 60
KEYS = ("version", "box", "fields", "bits", "bitsperblock", "blocksperfile", "filename_template", "time")
SMALL = ("6", "0 3 0 3", "a uint8", "V0101", "2", "2", "./%01x.bin", "0 9 time%04d/")
"""A dataset of four by four samples of one byte, in blocks of four and files of two blocks, with ten timesteps."""
CUT = ["1", "0 3 0 3", "V0101", "0 3 0 3", "0", "2"]
"""The words of `cut` behind the raw volume, which ask for four samples."""
CONVERT = ["convert", "v.idx", "r.raw", *SMALL[1:], "0"]
RAW = bytes(range(16))
HELP = "  idxtool --help says more\n"
HELP_TEXT = (Path(__file__).parent / "help.txt").read_bytes()
README = Path(__file__).resolve().parent.parent / "README.md"
QUOTE = '  a box is one word: quote it, as "0 63 0 63"\n'
MASK_FAULT = "the bits are not V and 1 to 40 digits that each name an axis of the box\n"
GONE = "No such file or directory (os error 2)"
NO_FILES = (("/dev/null/source.raw", "Not a directory (os error 20)"), (".", "not a regular file"),
            ("/dev/null", "not a regular file"), ("pipe", "not a regular file"))
"""What is no regular file, or cannot be looked at, and why. Nobody writes to the pipe: who opened it would wait for ever."""
NO_ADDRESSES = (("192.0.2.1:0", "Cannot assign requested address (os error 99)"),
                ("localhost:80", "not a socket address, as 127.0.0.1:8080 or [::1]:8080"),
                ("127.0.0.1", "not a socket address, as 127.0.0.1:8080 or [::1]:8080"))


def header(*texts: str) -> bytes:
    """The text of a header with these values, key by key."""
    return "".join(f"({key})\n{text}\n" for key, text in zip(KEYS, texts)).encode()


def with_text(place: int, text: str) -> list[str]:
    """The words of a conversion of which one is another."""
    return [*CONVERT[:place], text, *CONVERT[place + 1:]]


@dataclass
class Case:
    """A run: its words, the files that are there before, its status and what it writes to standard error."""
    name: str
    words: list[str]
    status: int
    errors: str
    files: dict[str, bytes] = field(default_factory=dict)
    folders: list[str] = field(default_factory=list)
    output: bytes | None = None
    """What it writes to standard output, where that is compared."""
    after: dict[str, bytes | None] = field(default_factory=dict)
    """Files that are there in the end with these bytes, or are not there."""
    is_unread: bool = False
    """Standard output is a pipe that nobody reads."""
    is_front: bool = False
    """Only the front of what it writes to standard error is compared."""


def of_words() -> Iterator[Case]:
    """Words that are wrong or missing, and words that ask for a text."""
    region = ("  expected REGION, a box of 2 to 5 axes, one quoted word as \"0 63 0 63 10 10\": "
              "pairs `lo hi`, axis 0 first, no lo above its hi\n")
    box = ("  expected BOX, the box that the raw volume fills, one quoted word as \"0 63 0 63 0 63\": "
           "two to five pairs `lo hi`, at most 2^30 bytes in all, "
           "whose upper ends have at most 40 binary digits in all\n")
    address = "  expected ADDRESS, as 127.0.0.1:8080: 1 to 4096 printable characters, not beginning with -\n"
    split = ["cut", "r.raw", "1", "0", "3", "0", "3", "V0101", "0", "3", "0", "3", "0", "2"]
    yield Case("a split box of cut", split, 1, "idxtool: usage at 3\n  word 3 is `0`\n" + box + QUOTE + HELP)
    split = ["query", "v.idx", "0", "a", "0", "3", "0", "3", "0", "2"]
    yield Case("a split box of query", split, 1, "idxtool: usage at 4\n  word 4 is `0`\n" + region + QUOTE + HELP)
    yield Case("no address", ["serve", "v.idx"], 1, "idxtool: usage at 2\n  word 2 is missing\n" + address + HELP)
    time = "  expected TIME, the number of a step: a number of 1 to 19 digits\n"
    yield Case("no timestep", ["check", "v.idx"], 1, "idxtool: usage at 2\n  word 2 is missing\n" + time + HELP)
    end = "  expected the end of the words: check DATASET TIME\n"
    yield Case("a word too many", ["check", "v.idx", "0", "a"], 1, "idxtool: usage at 3\n  word 3 is `a`\n" + end + HELP)
    dataset = "  expected DATASET, the path of the header file: 1 to 4096 printable characters, not beginning with -\n"
    yield Case("control characters", ["info", "a\n\a\33[2J\x85\xe9.idx"], 1,
               "idxtool: usage at 1\n  word 1 is `a\\n\\x07\\x1b[2J\\u{85}\xe9.idx`\n" + dataset + HELP)
    yield Case("the version", ["--version"], 0, "", output=b"idxtool 0.1.0\n")
    yield Case("help", ["--help"], 0, "", output=HELP_TEXT)
    command = "  expected a command: cut, info, convert, query, check, serve or drill\n"
    yield Case("help and a word", ["--help", "cut"], 1, "idxtool: usage at 0\n  word 0 is `--help`\n" + command + HELP)


def missing_in_help() -> Iterator[str]:
    """What README.md says of words and statuses, and help.txt does not."""
    readme, text = README.read_text(), " ".join(HELP_TEXT.decode().split())
    headings = "".join(line for line in readme.splitlines() if line.startswith("### `idxtool"))
    synopses = [*re.findall(r"`([^`]*)`", headings), "idxtool --help", "idxtool --version"]
    statuses = re.findall(r"^\| ([0-9]+) \| (?:`idxtool|none)", readme, re.MULTILINE)
    if len(synopses) < 9 or len(statuses) < 14:
        yield "the commands and statuses of README.md are not found"
    listed = text.partition("Exit statuses: ")[2]
    yield from (synopsis for synopsis in synopses if f"{synopsis} " not in text)
    yield from (f"status {status}" for status in statuses if f" {status} " not in f" {listed}")


def of_headers() -> Iterator[Case]:
    """Headers that words ask for, or that are there, with what would do."""
    room = ("the file name template has no room for the number of the last file\n"
            "  its marks need 2 hexadecimal digits together, as ./%02x.bin has them\n")
    begin = "idxtool: header line 7 BadMask\n"
    yield Case("a wrong mask of words", with_text(5, "V05"), 2,
               begin + "  the header of these words, MASK: " + MASK_FAULT)
    wrong = header(*SMALL[:3], "V05", *SMALL[4:])
    yield Case("a wrong mask of a header", ["info", "v.idx"], 2, begin + "  v.idx: " + MASK_FAULT, {"v.idx": wrong})
    begin = "idxtool: header line 13 TemplateTooSmall\n"
    yield Case("a small template of words", with_text(5, "V0101010101"), 2,
               begin + "  the header of these words, TEMPLATE: " + room)
    small = header(*SMALL[:3], "V0101010101", *SMALL[4:7])
    yield Case("a small template of a header", ["info", "v.idx"], 2, begin + "  v.idx: " + room, {"v.idx": small})
    yield Case("a box outside of its mask", with_text(3, "0 4 0 3"), 2,
               "idxtool: header line 3 BoxOutsideMask\n  the header of these words, BOX: "
               "an upper end of the box has more binary digits than the bits give its axis\n"
               "  the bits V00101 have room for this box\n")
    yield Case("too many timesteps", with_text(9, "0 4096 time%04d/"), 2,
               "idxtool: header line 15 OverLimit\n  the header of these words, TIME: "
               "a value is over a limit, or the text has more than 65536 bytes\n  there are at most 4096 steps\n")


def of_runs() -> Iterator[Case]:
    """Right words over files for which there is no answer."""
    yield Case("all is well", ["cut", "r.raw", *CUT], 0, "", {"r.raw": RAW}, output=bytes([0, 2, 8, 10]))
    yield Case("a short raw volume", CONVERT, 3,
               "idxtool: raw size want 16 found 15\n  r.raw: not the bytes that these samples take\n", {"r.raw": RAW[:15]})
    folders = ["time0000", *(f"time0000.r{number}" for number in range(1, 256))]
    yield Case("all revisions", CONVERT, 6,
               "idxtool: published 0\n  v.idx: all 256 revisions of the step stand; remove the folder of the last one\n",
               {"v.idx": header(*SMALL), "r.raw": RAW}, folders)
    yield Case("a timestep that is not there", ["query", "v.idx", "5", "a", "0 3 0 3", "0", "2"], 7,
               "idxtool: not published 5\n  v.idx: the step has not been written, or is none of its steps\n",
               {"v.idx": header(*SMALL)})
    for number, options in enumerate((["--raw", "r", "--ingest", "7"], ["--ingest", "7", "--raw", "a b"])):
        name = ("r", "a b")[number]
        yield Case(f"no raw volume {number}", ["serve", "v.idx", "127.0.0.1:0", *options], 4,
                   f"idxtool: raw fault\n  {name}: {GONE}\n", {"v.idx": header(*SMALL)})


def of_checks() -> Iterator[Case]:
    """Files of a timestep that are right, and files that are not, each with what stands there and what is wanted."""
    plain, partial, point = header(*SMALL), header(*SMALL[:1], "0 2 0 2", *SMALL[2:]), header(*SMALL[:1], "0 0 0 0", *SMALL[2:])
    first, second = table_file([0, 2, 8, 10, 1, 9, 3, 11]), table_file([4, 5, 12, 13, 6, 7, 14, 15])
    alone = first[:80] + bytes(40) + bytes([7, 0, 0, 0])

    def case(name: str, text: bytes, files: dict[str, bytes], place: str, wrong: str) -> Case:
        return Case(name, ["check", "v.idx", "0"], 16, f"idxtool: not same file {place}\n  v.idx, {wrong}\n",
                    {"v.idx": text, **files}, output=b"")

    def step(one: bytes, other: bytes, folder: str = "time0000") -> dict[str, bytes]:
        return {f"{folder}/0.bin": one, f"{folder}/2.bin": other}

    yield Case("a right timestep", ["check", "v.idx", "0"], 0, "", {"v.idx": plain, **step(first, second)},
               output=b"same files 2 bytes 256\n")
    yield case("a byte of a table", plain, step(first[:59] + b"\5" + first[60:], second), "0 at 59 Byte",
               "time0000/0.bin: at byte 59 stands 05, wanted is 04")
    yield case("a byte before the rows", plain, step(first, b"\377" + second[1:]), "2 at 0 Byte",
               "time0000/2.bin: at byte 0 stands ff, wanted is 00")
    yield case("row-major order", plain, step(first[:63] + b"\20" + first[64:], second), "0 at 63 Byte",
               "time0000/0.bin: at byte 63 stands 10, wanted is 00")
    files = step(table_file([0, 2, 6, 8, 1, 7, 0, 1]), table_file([3, 4, 0, 0, 5, 0, 0, 0]))
    yield case("a byte outside of the box", partial, files, "0 at 127 Byte",
               "time0000/0.bin: at byte 127 stands 01, wanted is 00")
    yield case("a file that was cut short", plain, step(first[:124], second), "0 at 124 Byte",
               "time0000/0.bin: it ends at byte 124")
    yield case("a byte too many", plain, step(first, second + b"\0"), "2 at 128 Byte", "time0000/2.bin: it should end at byte 128")
    yield case("a file that is not there", plain, {"time0000/0.bin": first}, "2 at 0 Missing", "time0000/2.bin: it is not there")
    yield case("a file that nobody writes", point, step(alone, alone), "2 at 0 Extra", "time0000/2.bin: it should not be there")
    again = {**step(first, second), **step(first, second[:-1], "time0000.r1")}
    yield case("a newer revision", plain, again, "2 at 127 Byte", "time0000.r1/2.bin: it ends at byte 127")
    gone = "the step has not been written, or is none of its steps, or it has no (time)\n"
    yield Case("a timestep that is not there to be checked", ["check", "v.idx", "5"], 7,
               "idxtool: not published 5\n  v.idx: " + gone, {"v.idx": plain})
    yield Case("a header without a time", ["check", "v.idx", "0"], 7, "idxtool: not published 0\n  v.idx: " + gone,
               {"v.idx": header(*SMALL[:-1])})
    yield Case("a folder in place of a file", ["check", "v.idx", "0"], 5,
               "idxtool: store fault\n  time0000/0.bin: not a regular file\n", {"v.idx": plain}, ["time0000", "time0000/0.bin"])


def of_files() -> Iterator[Case]:
    """Files that are none, and what an earlier run left."""
    for path, reason in NO_FILES:
        yield Case(f"no raw volume at {path}", ["cut", path, *CUT], 4, f"idxtool: raw fault\n  {path}: {reason}\n")
        yield Case(f"no header at {path}", ["info", path], 5, f"idxtool: store fault\n  {path}: {reason}\n")
    yield Case("a raw volume in a folder that is not there", ["cut", "gone/r.raw", *CUT], 4,
               f"idxtool: raw fault\n  gone/r.raw: {GONE}\n")
    yield Case("a header in a folder that is not there", ["info", "gone/v.idx"], 2,
               "idxtool: header line 1 MissingKey\n", is_front=True)
    yield Case("an output that nobody reads", ["cut", "r.raw", *CUT], 9,
               "idxtool: sink fault\n  standard output: Broken pipe (os error 32)\n", {"r.raw": RAW}, is_unread=True)
    step = {"time0000/0.bin": table_file([0, 2, 8, 10, 1, 9, 3, 11]),
            "time0000/2.bin": table_file([4, 5, 12, 13, 6, 7, 14, 15])}
    staged = {"v.idx.part0": b"of another run"}
    yield Case("an empty header", CONVERT, 0, "", {"r.raw": RAW, "v.idx": b"", **staged}, output=b"",
               after={"v.idx": header(*SMALL), **staged, "v.idx.part1": None, **step})
    left = {"time0000.part/x/y/left.bin": b"left", "time0000.part/left.bin": b"left"}
    yield Case("a timestep that was left", CONVERT, 0, "", {"r.raw": RAW, **left}, output=b"",
               after={"time0000/x/y/left.bin": None, "time0000/left.bin": None, "time0000.part": None, "time0000.lock": None, **step})
    late = {"time0000/0.bin": b"first", "time0000.part/left.bin": b"left", "time0000.part/own/x/left.bin": b"left", "time0000.lock": b"",
            "time0000.r1/0.bin": b"second", "time0000.r1.part/own/left.bin": b"left", "time0000.r2.part/own/left.bin": b"left"}
    yield Case("what earlier revisions left", CONVERT, 0, "", {"r.raw": RAW, **late}, output=b"",
               after={"time0000/0.bin": b"first", "time0000.part": None, "time0000.part/left.bin": None, "time0000.lock": None,
                      "time0000.r1/0.bin": b"second", "time0000.r1.part": None, "time0000.r2.part": None, "time0000.r2.lock": None,
                      **{path.replace("0000", "0000.r2"): content for path, content in step.items()}})
    for end in ("part", "lock"):
        put = {f"time0000.{end}": b"plain"} if end == "part" else {}
        yield Case(f"something else in place of time0000.{end}", CONVERT, 5,
                   f"idxtool: store fault\n  time0000.{end}: something stands there already\n",
                   {"r.raw": RAW, **put}, [] if put else ["time0000.lock"])


def table_file(samples: list[int]) -> bytes:
    """A file of two blocks of four samples: ten words for the front, ten for each block, and the blocks."""
    rows = [[0] * 10, [0, 0, 120, 0, 4, 0, 0, 0, 0, 0], [0, 0, 124, 0, 4, 0, 0, 0, 0, 0]]
    return b"".join(word.to_bytes(4, "big") for row in rows for word in row) + bytes(samples)


def of_addresses(taken: str) -> Iterator[Case]:
    """Addresses that nobody can listen at, of which one is in use."""
    for address, reason in (*NO_ADDRESSES, (taken, "Address already in use (os error 98)")):
        yield Case(f"no address {address}", ["serve", "v.idx", address], 12,
                   f"idxtool: door fault\n  {address}: {reason}\n", {"v.idx": header(*SMALL)})


def put_files(case: Case, folder: Path) -> None:
    """Writes what is there before a case, and the pipe."""
    os.mkfifo(folder / "pipe")
    for name in case.folders:
        (folder / name).mkdir()
    for name, content in case.files.items():
        (folder / name).parent.mkdir(parents=True, exist_ok=True)
        (folder / name).write_bytes(content)


def run(program: str, case: Case, folder: Path) -> subprocess.CompletedProcess[bytes]:
    """Runs the program in its folder."""
    words = [program, *case.words]
    if not case.is_unread:
        return subprocess.run(words, cwd=folder, stdin=subprocess.DEVNULL, capture_output=True, timeout=SECONDS, check=False)
    reader, writer = os.pipe()
    os.close(reader)
    try:
        return subprocess.run(words, cwd=folder, stdin=subprocess.DEVNULL, stdout=writer, stderr=subprocess.PIPE,
                              timeout=SECONDS, check=False)
    finally:
        os.close(writer)


def differences(case: Case, came: subprocess.CompletedProcess[bytes], folder: Path) -> Iterator[str]:
    """Where a run differs from what is wanted."""
    if came.returncode != case.status:
        yield f"status {came.returncode}, not {case.status}"
    errors = came.stderr.decode()
    if errors != case.errors and not (case.is_front and errors.startswith(case.errors)):
        yield f"standard error\n{errors}  and not\n{case.errors}"
    if case.output is not None and came.stdout != case.output:
        yield f"standard output {came.stdout!r}, not {case.output!r}"
    for name, content in case.after.items():
        path = folder / name
        if (path.read_bytes() if path.is_file() else None) != content:
            yield f"the file {name}"


def is_right(program: str, case: Case) -> bool:
    """Runs a case and prints where it differs."""
    with tempfile.TemporaryDirectory() as name:
        folder = Path(name)
        put_files(case, folder)
        found = list(differences(case, run(program, case, folder), folder))
    for each in found:
        print(f"{case.name}: {each}")
    return not found


def main() -> int:
    """Runs all cases; 1 where any failed."""
    program = os.path.abspath(words_of(__doc__).parse_args().program)
    missing = list(missing_in_help())
    for each in missing:
        print(f"help.txt: missing is {each}")
    with socket.create_server(("127.0.0.1", 0)) as listener:
        taken = f"127.0.0.1:{listener.getsockname()[1]}"
        cases = [*of_words(), *of_headers(), *of_runs(), *of_checks(), *of_files(), *of_addresses(taken)]
        results = [is_right(program, case) for case in cases]
    return status_of([not missing, *results])


if __name__ == "__main__":
    sys.exit(main())
