#!/usr/bin/env python3
"""Changes each byte of small files once, and looks at what `check` and `query` say of it.

    check/bytes.py PROGRAM

The files of small timesteps of two to five axes, with boxes that their masks do not fill and with several fields, are right as
they are written. Then of each file each byte is another one once, each front is all that is left of it, and it has one byte more.
What `check` says of each is what `reference.py` says of it, word for word: a byte of a sample of the box may be any, and every
other one is found. The same files with row-major blocks are asked for all samples of their last field, as they are and with each
byte another one once: the answer, or the row that is wrong, is what `reference.py` says. The last line is `N passed, M failed`.
"""
from __future__ import annotations

import os
import subprocess
import sys
import tempfile
from collections.abc import Iterator
from itertools import product
from pathlib import Path

import commands
import reference
from results import Results, words_of

REST = [b"./%01x.bin", b"0 9 time%04d/"]
DATASETS = (
    [b"0 2 0 2", b"a uint8", b"V0101", b"2", b"2", *REST],
    [b"1 3 0 2", b"a uint8 + b uint16[2]", b"V0101", b"1", b"4", *REST],
    [b"0 2 0 1 0 1", b"a uint8 + b uint16 + c uint8[3]", b"V0120", b"2", b"2", *REST],
    [b"0 1 0 1 0 1 1 3", b"a uint16", b"V33012", b"3", b"4", *REST],
    [b"0 1 0 1 0 0 0 1 0 1", b"a uint8", b"V01234", b"2", b"8", *REST],
)
"""The seven texts of each dataset."""
STEP = 3
SECONDS = 60


def changed(whole: bytes) -> Iterator[tuple[str, bytes]]:
    """A file as it is, and with each byte another one; each with a name."""
    yield "as it is", whole
    for place, byte in enumerate(whole):
        yield f"byte {place}", whole[:place] + bytes([byte ^ (1 << place % 8)]) + whole[place + 1:]


def resized(whole: bytes) -> Iterator[tuple[str, bytes]]:
    """A file cut short at each place, and with one byte more; each with a name."""
    for length in range(len(whole)):
        yield f"{length} bytes", whole[:length]
    yield "a byte more", whole + b"\0"


def is_right(program: str, folder: str, words: list[bytes]) -> bool:
    """Whether the program says of a folder what the reference says."""
    want = commands.run(words, os.fsencode(folder))
    came = subprocess.run([os.fsencode(program), *words], cwd=folder, stdin=subprocess.DEVNULL, capture_output=True,
                          timeout=SECONDS, check=False)
    line = came.stderr.split(b"\n")[0] if came.stderr else None
    return (came.returncode, line, came.stdout) == (want.status, want.line, want.output)


def asking(texts: list[bytes], command: bytes) -> list[bytes]:
    """The words that check a timestep, or ask for all samples of its last field."""
    header = reference.parse_header(reference.header_words(texts))
    rest = [header.fields[-1].name, texts[0], b"0", b"%d" % len(header.mask)] if command == b"query" else []
    return [command, b"v.idx", b"%d" % STEP, *rest]


def results(program: str, folder: str, texts: list[bytes], command: bytes) -> Iterator[tuple[str, bool]]:
    """What a command says of each change of each file of a dataset. Those that are asked have row-major blocks."""
    header, words = reference.parse_header(reference.header_words(texts)), asking(texts, command)
    top, flags = Path(folder), 16 if command == b"query" else 0
    (top / "v.idx").write_bytes(reference.header_words(texts))
    raw = bytes(1 + place % 255 for place in range(reference.volume_size(header)))
    files = {top / os.fsdecode(reference.file_path(header, STEP, file)): reference.file_bytes(header, file, raw, flags)
             for file in reference.files_of_step(header)}
    for path, whole in files.items():
        path.parent.mkdir(exist_ok=True)
        path.write_bytes(whole)
    for path, whole in files.items():
        for name, content in [*changed(whole), *(resized(whole) if command == b"check" else ())]:
            path.write_bytes(content)
            yield f"{command.decode()}, {texts[1].decode()}, {path.name}, {name}", is_right(program, folder, words)
        path.write_bytes(whole)


def main() -> None:
    """Tries all changes of all files."""
    program = os.path.abspath(words_of(__doc__).parse_args().program)
    found = Results()
    for texts, command in product(DATASETS, (b"check", b"query")):
        with tempfile.TemporaryDirectory() as folder:
            for name, result in results(program, folder, texts, command):
                found.hold(name, result)
    sys.exit(found.status())


if __name__ == "__main__":
    main()
