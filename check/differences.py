"""What stands in folders, and where texts and folders differ, for a person to read."""
from __future__ import annotations

import os
import shlex
import stat
from collections.abc import Iterator
from itertools import dropwhile
from pathlib import Path

STAGED = b".part"
"""How the name of a folder ends in which an unfinished conversion leaves what it has staged."""

Tree = dict[bytes, bytes]
"""The paths in a folder, each with the bytes of the file, or with what else stands there."""

FOLDER, PIPE, LINK = b"<folder>", b"<pipe>", b"<link>"


def what_stands(path: bytes) -> bytes:
    """The bytes of a regular file, or what else stands at a path."""
    mode = os.lstat(path).st_mode
    if stat.S_ISREG(mode):
        return Path(os.fsdecode(path)).read_bytes()
    if stat.S_ISLNK(mode):
        return LINK + os.readlink(path)
    return FOLDER if stat.S_ISDIR(mode) else PIPE


def tree(folder: bytes) -> Tree:
    """What stands below a folder."""
    found: Tree = {}
    for at, folders, files in os.walk(folder):
        for name in folders + files:
            path = os.path.join(at, name)
            found[os.path.relpath(path, folder)] = what_stands(path)
    return found


def with_files(before: Tree, folder: bytes, files: dict[bytes, bytes]) -> Tree:
    """A tree with further files, and with the folders that they need."""
    after = dict(before)
    for path, content in files.items():
        place = os.path.relpath(path, folder)
        after[place] = content
        while place := os.path.dirname(place):
            after[place] = FOLDER
    return after


def without_path(content: Tree, folder: bytes, path: bytes | None) -> Tree:
    """A tree without a path and what stands below it, where one is given."""
    if path is None:
        return content
    gone = os.path.relpath(path, folder)
    return {place: what for place, what in content.items() if place != gone and not place.startswith(gone + b"/")}


def put_tree(folder: bytes, content: Tree) -> None:
    """Writes a tree into a folder, for a person who wants to see the case."""
    for path, what in sorted(content.items()):
        whole = os.path.join(folder, path)
        if what == FOLDER:
            os.makedirs(whole, exist_ok=True)
        elif what == PIPE:
            os.mkfifo(whole)
        elif what.startswith(LINK):
            os.symlink(what.removeprefix(LINK), whole)
        else:
            os.makedirs(os.path.dirname(whole), exist_ok=True)
            Path(os.fsdecode(whole)).write_bytes(what)


def quoted(word: bytes) -> str:
    """A word as bash reads it."""
    if all(0x20 <= byte <= 0x7E for byte in word):
        return shlex.quote(word.decode())
    plain = [0x20 <= byte <= 0x7E and byte not in b"'\\" for byte in word]
    return "$'" + "".join(chr(byte) if as_it_is else f"\\x{byte:02x}" for byte, as_it_is in zip(word, plain)) + "'"


def short(content: bytes | None) -> str:
    """Some bytes, for a person."""
    if content is None:
        return "nothing"
    return repr(content[:200])[1:] + ("" if len(content) <= 200 else f".. of {len(content)} bytes")


def difference(what: str, want: bytes | None, came: bytes | None) -> Iterator[str]:
    """A line where two texts differ."""
    if want == came:
        return
    where = ""
    if want is not None and came is not None:
        place = next((at for at, (a, b) in enumerate(zip(want, came)) if a != b), min(len(want), len(came)))
        where = f" (from byte {place} on, {len(want)} bytes wanted, {len(came)} came)" if place > 0 else ""
    yield f"{what}: want {short(want)}, came {short(came)}{where}"


def tree_differences(want: Tree, came: Tree) -> Iterator[str]:
    """The paths where two trees differ."""
    for path in sorted(want.keys() | came.keys()):
        yield from difference(f"file {quoted(path)}", want.get(path), came.get(path))


def error_differences(want: bytes | None, came: bytes, may_begin_early: bool) -> Iterator[str]:
    """Where standard error differs: its first line, the ends of its lines and the two spaces before further ones.

    Where it may begin early, such further lines may also stand before the first one.
    """
    lines = came.split(b"\n")
    if lines.pop() != b"":
        yield f"standard error does not end with a line feed: {short(came)}"
    if may_begin_early:
        lines = list(dropwhile(is_further_line, lines))
    yield from difference("first line of standard error", want, lines[0] if lines else None)
    for line in lines[1:]:
        if not is_further_line(line):
            yield f"a further line of standard error does not begin with two spaces: {short(line)}"


def is_further_line(line: bytes) -> bool:
    """Whether a line of standard error is not the one of the cause."""
    return line.startswith(b"  ")


def without_staged(content: Tree) -> Tree:
    """A tree without what unfinished conversions leave."""
    return {path: what for path, what in content.items() if not any(part.endswith(STAGED) for part in path.split(b"/"))}
