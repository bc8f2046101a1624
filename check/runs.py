#!/usr/bin/env python3
"""Holds what is wanted of the stored table of runs against the reference.

    check/runs.py [--least 900]

`crates/idx_test_runs` does the runs of its table `stdin` over forms in memory, and `stdout` is what is wanted of it. Here each run is
worked out once more by the reference, in a folder with the header, the files and the raw volume that the table has: its status and
the line of its cause, its output, its header and its files; of one that serves also what is written to each connection. A run that
ends with the fault of an object whose call was made to fail is not compared, since the reference counts no calls; neither is what
a connection gets that breaks, or that comes while a timestep is gathered, nor what files hold of more than 2^18 points, through all
of which the reference goes. So many runs have to be left to compare. The last line is
`N passed, M failed`, of the runs that are compared.
"""
from __future__ import annotations

import argparse
import os
import re
import sys
import tempfile
from collections import deque
from collections.abc import Iterator, Sequence
from dataclasses import dataclass, field
from itertools import groupby
from pathlib import Path

import commands
import server
from commands import Outcome
from reference import HeaderFault, Refusal, count_of_points, parse_header
from results import status_of

CRATE = Path(__file__).resolve().parent.parent / "crates" / "idx_test_runs"
FAULTS = {4: (b"raw",), 5: (b"bay", b"draft", b"reader"), 9: (b"sink",), 12: (b"door",)}
"""For each status of a fault the objects of which a call may have failed."""
ESCAPES = {b"n": b"\n", b"r": b"\r", b"t": b"\t", b"0": b"\0"}
MOST_POINTS = 2**18
DATASET, RAW = b"v.idx", b"r.raw"


# What a table says


def hex_bytes(text: bytes) -> bytes:
    """Bytes in hexadecimal digits, with `.N` for N bytes that are 0."""
    return b"".join(bytes(int(part[1:])) if part.startswith(b".") else bytes.fromhex(part.decode()) for part in text.split())


def plain_bytes(text: bytes) -> bytes:
    """The bytes of a text with escapes."""
    def plain(match: re.Match[bytes]) -> bytes:
        return bytes.fromhex(match[1][1:].decode()) if len(match[1]) == 3 else ESCAPES.get(match[1], match[1])
    return re.sub(rb"\\(x[0-9a-f]{2}|.)", plain, text, flags=re.DOTALL)


def is_printed(printed: bytes, wanted: bytes) -> bool:
    """Whether these bytes are printed so, as a text or in hexadecimal digits."""
    try:
        return wanted in (plain_bytes(printed), hex_bytes(printed))
    except ValueError:
        return wanted == plain_bytes(printed)


@dataclass
class Door:
    """Where connections come in: the bytes of each, and whether a call of one of them fails."""
    links: list[bytes] = field(default_factory=list)
    breaks: bool = False

    def add(self, sent: bytes) -> None:
        """More bytes on the last connection."""
        self.links[-1] += sent


@dataclass
class Setting:
    """What the rows say since the last case began."""
    name: bytes
    words: list[bytes] = field(default_factory=list)
    raw: bytes = b""
    header: bytes | None = None
    folders: set[bytes] = field(default_factory=set)
    files: dict[bytes, bytes] = field(default_factory=dict)
    fails: dict[bytes, int] = field(default_factory=dict)
    doors: list[Door] = field(default_factory=list)

    def row(self, word: bytes, rest: bytes) -> None:
        """What a row adds."""
        first, _, behind = rest.partition(b" ")
        if word == b"words":
            self.words = rest.split(b"|")
        elif word == b"raw":
            self.raw = bytes((int(first) + place) % 256 for place in range(int(behind)))
        elif word == b"samples":
            self.raw = hex_bytes(rest)
        elif word == b"header":
            self.header = rest.replace(b"|", b"\n")
        elif word == b"file":
            path, _, content = behind.partition(b" ")
            self.folders.add(first)
            self.files[path] = hex_bytes(content)
        elif word == b"fails":
            self.fails[first] = int(behind)
        elif word == b"door":
            self.doors.append(Door())
        elif word == b"link":
            self.doors[-1].links.append(b"")
            self.doors[-1].breaks |= int(first) > 0
        elif word in (b"head", b"heads"):
            count, text = (1, rest) if word == b"head" else (int(first), behind)
            self.doors[-1].add((text.replace(b"|", b"\r\n") + b"\r\n\r\n") * count)
        elif word in (b"part", b"bytes"):
            self.doors[-1].add(hex_bytes(rest) if word == b"bytes" else behind.replace(b"|", b"\r\n") * int(first))
        elif word not in (b"raws", b"readers", b"pieces", b"counts", b"entries"):
            raise ValueError(f"no row of a table: {word!r}")


@dataclass
class Printed:
    """What is wanted of a run: the lines that are printed of it, by their first word."""
    name: bytes
    lines: list[tuple[bytes, bytes]] = field(default_factory=list)

    def of(self, word: bytes) -> list[bytes]:
        """What stands behind a word on each line that begins with it."""
        return [rest for first, rest in self.lines if first == word]

    def status(self) -> tuple[int, bytes]:
        """The status, and the line of the cause."""
        status, _, line = self.of(b"status")[0].partition(b" ")
        return int(status), line

    def files(self) -> dict[bytes, bytes]:
        """The files behind those that stood."""
        rows = (rest.split(b" ", 2) for rest in self.of(b"file"))
        return {path: hex_bytes(content[0] if content else b"") for _, path, *content in rows}

    def folders(self) -> set[bytes]:
        """The folders of these files."""
        return {rest.split(b" ", 1)[0] for rest in self.of(b"file")}


def printed_runs(text: bytes) -> deque[Printed]:
    """All runs that are printed."""
    runs: deque[Printed] = deque()
    for line in text.splitlines():
        word, _, rest = line.partition(b" ")
        if word == b"==":
            runs.append(Printed(rest))
        else:
            runs[-1].lines.append((word, rest))
    return runs


# What the reference says


def put(setting: Setting, folder: bytes) -> None:
    """Writes what is there before a run."""
    for name in setting.folders:
        os.makedirs(os.path.join(folder, name), exist_ok=True)
    contents = {**setting.files, RAW: setting.raw, **({} if setting.header is None else {DATASET: setting.header})}
    for path, content in contents.items():
        whole = os.path.join(folder, path)
        os.makedirs(os.path.dirname(whole), exist_ok=True)
        with open(whole, "wb") as file:
            file.write(content)


def with_own_paths(words: Sequence[bytes]) -> list[bytes]:
    """Right words, with the paths at which the header and the raw volume are put."""
    places = {b"cut": [RAW], b"convert": [DATASET, RAW], b"drill": [words[1]]}.get(words[0], [DATASET])
    return [words[0], *places, *words[1 + len(places):]]


Lists = list[list[bytes]]
"""The lists of replies that are right for a connection."""


@dataclass
class Wanted:
    """What the reference says of a run: how it ends, and for each door with connections the replies that are right for each."""
    outcome: Outcome
    replies: dict[int, list[Lists]] = field(default_factory=dict)


def served(setting: Setting, folder: bytes) -> Wanted | None:
    """What comes of a run that serves; None where the reference cannot say it."""
    words = with_own_paths(setting.words)
    options = dict(zip(words[3::2], words[4::2]))
    try:
        site = server.open_site(words, folder)
    except Refusal as refusal:
        return Wanted(Outcome(refusal.status, b"idxtool: " + refusal.line.encode()))
    if not setting.doors:
        return Wanted(Outcome(12, b"idxtool: door fault"))
    site.name = setting.words[1].rpartition(b"/")[2].removesuffix(b".idx")
    doors = setting.doors[:int(options.get(b"--workers", b"1"))]
    fails = [setting.fails.get(b"door%d" % place, 99) <= len(door.links) + 1 for place, door in enumerate(doors)]
    if any(fails) or any(door.breaks for door in doors) or options.keys() & {b"--ingest", b"--links"}:
        return None
    lists = {place: [server.replies(site, sent)[0] for sent in door.links] for place, door in enumerate(doors) if door.links}
    counts = [len(each[0]) for of_door in lists.values() for each in of_door]
    return Wanted(Outcome(output=b"links %d replies %d\n" % (len(counts), sum(counts))), lists)


def is_large(setting: Setting) -> bool:
    """Whether there may be files of a dataset with so many points that the reference takes long."""
    try:
        header = parse_header(setting.header or b"")
    except HeaderFault:
        return False
    return count_of_points(header.box) > MOST_POINTS and (bool(setting.files) or header.time is None)


def wanted_of(setting: Setting, folder: bytes) -> Wanted | None:
    """What the reference says of a run; None where it cannot say it."""
    place = commands.usage_fault(setting.words)
    if place is not None:
        return Wanted(Outcome(1, b"idxtool: usage at %d" % place))
    if is_large(setting):
        return None
    put(setting, folder)
    if setting.words[0] == b"serve":
        return served(setting, folder)
    return Wanted(commands.run(with_own_paths(setting.words), folder))


# The comparison


def differences(setting: Setting, want: Wanted, came: Printed, folder: bytes) -> Iterator[str]:
    """Where what is wanted of a run differs from what the reference says."""
    outcome = want.outcome
    status, line = came.status()
    if (status, line) != (outcome.status, (outcome.line or b"").removeprefix(b"idxtool: ")):
        yield f"status {outcome.status} {outcome.line} is right, {status} {line} stands there"
    if not is_printed(b"".join(came.of(b"out")), outcome.output):
        yield f"the output is {outcome.output[:80]!r}"
    files = {os.path.relpath(path, folder): content for path, content in outcome.files.items()}
    header = files.pop(DATASET, setting.header)
    if [header] * (header != setting.header) != list(map(plain_bytes, came.of(b"header"))):
        yield f"the header is {header}"
    if came.files() != files:
        yield f"the files are {sorted(files)}, with their bytes"
    if came.of(b"a"):
        yield "no file that stood is changed"
    yield from link_differences(want, came)


def link_differences(want: Wanted, came: Printed) -> Iterator[str]:
    """Where what connections get differs."""
    handed = {place: came.of(b"door%d" % place) for place in range(len(came.lines)) if came.of(b"door%d" % place)}
    if handed != {place: [b"handed %d" % len(links)] for place, links in want.replies.items()}:
        yield f"the doors hand out {[len(links) for links in want.replies.values()]} connections"
    links = [lists for of_door in want.replies.values() for lists in of_door]
    shown = came.of(b"link")
    if len(shown) != len(links):
        yield f"{len(links)} connections come back"
    for place, (lists, text) in enumerate(zip(links, shown)):
        if plain_bytes(text) not in map(in_short, lists):
            yield f"connection {place} gets {in_short(lists[0])[:300]!r}"


def in_short(replies: Sequence[bytes]) -> bytes:
    """Replies, of which four equal ones or more in a row stand once, behind how many they are."""
    groups = ((reply, len(list(equal))) for reply, equal in groupby(replies))
    return b"".join(b"%d times %s" % (count, reply) if count >= 4 else reply * count for reply, count in groups)


def is_fault(setting: Setting, came: Printed) -> bool:
    """Whether a run ends with the fault of an object of which a call was made to fail, or serves with a reader that may fail."""
    kinds = (b"reader",) if setting.words[:1] == [b"serve"] and came.status()[0] == 0 else FAULTS.get(came.status()[0], ())
    return any(name.startswith(kinds) for name in setting.fails)


def leave(setting: Setting, header: bytes | None, folders: set[bytes], files: dict[bytes, bytes]) -> None:
    """Keeps what a run leaves for the next one."""
    setting.header = setting.header if header is None else header
    setting.folders |= folders
    setting.files |= files


class Table:
    """The runs of the table, one after the other."""

    def __init__(self, runs: deque[Printed]) -> None:
        self.runs = runs
        self.setting = Setting(b"")
        self.passed: list[bool] = []
        self.others = 0
        self.tried: list[bytes] = []
        """How the names of those runs begin that are done once for each call that fails."""

    def left(self) -> deque[Printed]:
        """The runs that are printed and not looked at yet, behind those of which a call fails."""
        while self.runs and self.runs[0].name.startswith(tuple(self.tried)):
            self.runs.popleft()
        return self.runs

    def next_printed(self) -> Printed:
        """What is wanted of the next run."""
        came = self.left().popleft()
        if came.name != self.setting.name:
            raise ValueError(f"the run {came.name!r} is printed in the place of {self.setting.name!r}")
        return came

    def run(self, is_shown: bool) -> None:
        """Compares a run; where the header is shown behind it, that too."""
        setting, came = self.setting, self.next_printed()
        shown = came.lines.pop() if is_shown else None
        with tempfile.TemporaryDirectory() as name:
            folder = os.fsencode(name)
            want = wanted_of(setting, folder)
            found = [] if want is None else list(differences(setting, want, came, folder))
        if want is None or found and is_fault(setting, came):
            self.others += 1
        else:
            self.passed.append(not found)
            for each in found:
                print(f"{setting.name.decode()}: {each}")
        headers = list(map(plain_bytes, came.of(b"header")))
        leave(setting, headers[0] if headers else None, came.folders(), came.files())
        if shown is not None:
            self.passed.append(shown[0] == b"header" and plain_bytes(shown[1]) == setting.header)

    def quiet(self) -> None:
        """Does a run of which nothing is printed."""
        with tempfile.TemporaryDirectory() as name:
            folder = os.fsencode(name)
            want = wanted_of(self.setting, folder)
            files = {os.path.relpath(path, folder): content for path, content in want.outcome.files.items()}
        header = files.pop(DATASET, None)
        leave(self.setting, header, {path.partition(b"/")[0] for path in files}, files)


def compare(rows: Sequence[bytes], runs: deque[Printed]) -> Table:
    """Compares all runs of a table."""
    table = Table(runs)
    for place, row in enumerate(rows):
        word, _, rest = row.partition(b" ")
        if word == b"case":
            table.setting = Setting(rest)
        elif word == b"run":
            table.run(rows[place + 1:place + 2] == [b"show"])
        elif word == b"quiet":
            table.quiet()
        elif word in (b"each", b"alike"):
            table.tried.append(table.setting.name + b": ")
        elif row.strip() and word not in (b"#", b"show"):
            table.setting.row(word, rest)
    return table


def main() -> int:
    """Compares; 1 where anything differs, or where too little could be compared."""
    parser = argparse.ArgumentParser(description=__doc__, formatter_class=argparse.RawDescriptionHelpFormatter)
    parser.add_argument("--least", type=int, default=900, help="how many runs have to be compared at least")
    least = parser.parse_args().least
    table = compare((CRATE / "stdin").read_bytes().split(b"\n"), printed_runs((CRATE / "stdout").read_bytes()))
    left = table.left()
    if left:
        print(f"{left[0].name.decode()}: it is printed behind the last run")
    print(f"{len(table.passed)} runs compared, {table.others} end with a fault or beside another run")
    if len(table.passed) < least:
        print(f"fewer than {least} runs could be compared")
    return status_of([*table.passed, not left, len(table.passed) >= least])


if __name__ == "__main__":
    sys.exit(main())
