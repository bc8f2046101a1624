#!/usr/bin/env python3
"""Runs `convert` in folders that take all bytes and refuse them late, as a file server does whose disk or quota is full.

    check/late_errors.py PROGRAM

The folder is one of FUSE (Debian's packages `python3-fusepy` and `libfuse2`; where they, /dev/fuse or the right to mount are
missing, nothing is tried there, and a line says so). It takes each write, and answers ENOSPC or EDQUOT where a file is closed or
synced, and then has none of its bytes. A conversion ends with 5 and the system's reason, and no timestep and no header appears;
in a folder that refuses nothing it ends with 0. By strace it is seen that no file is synced on a local disk, and that each is
where it is not. The last line is `N passed, M failed`.
"""
from __future__ import annotations

import errno
import fcntl
import os
import re
import subprocess
import sys
import tempfile
import time
from collections.abc import Iterator
from contextlib import contextmanager
from pathlib import Path

from messages import CONVERT, RAW, SMALL, header
from results import Results, why_no_strace, words_of

SECONDS = 60
PACKAGES = "/usr/lib/python3/dist-packages"
"""Where Debian's packages for Python are."""
REASONS = {"ENOSPC": "No space left on device (os error 28)", "EDQUOT": "Disk quota exceeded (os error 122)"}
FILES = 2
"""How many files a timestep of `CONVERT` has."""


def serve(place: str, store: str, refusal: str) -> None:
    """Mounts what is in one folder at another, and answers until it is unmounted. Files that are closed or synced are refused."""
    sys.path.append(PACKAGES)
    import fusepy

    refused = getattr(errno, refusal, 0)

    class Late(fusepy.Operations):
        """The files of a folder, which takes bytes and may refuse them later."""

        def __call__(self, name, path, *words):
            paths = [store + word if isinstance(word, str) else word for word in words]
            return super().__call__(name, store + path, *(paths if name in ("rename", "link") else words))

        def getattr(self, path, handle=None):
            found = os.lstat(path)
            return {key: getattr(found, key) for key in ("st_mode", "st_nlink", "st_size", "st_uid", "st_gid", "st_mtime", "st_ctime")}

        def readdir(self, path, handle):
            return [".", "..", *os.listdir(path)]

        def create(self, path, mode, _=None):
            return os.open(path, os.O_RDWR | os.O_CREAT | os.O_EXCL, mode)

        def open(self, path, flags):
            return os.open(path, flags & ~os.O_APPEND)

        def read(self, path, size, offset, handle):
            return os.pread(handle, size, offset)

        def write(self, path, data, offset, handle):
            return os.pwrite(handle, data, offset)

        def truncate(self, path, length, handle=None):
            os.truncate(path, length)

        def mkdir(self, path, mode):
            os.mkdir(path, mode)

        def rmdir(self, path):
            os.rmdir(path)

        def unlink(self, path):
            os.unlink(path)

        def rename(self, new, old):
            os.rename(new, old)

        def link(self, new, old):
            os.link(old, new)

        def release(self, path, handle):
            os.close(handle)

        def flush(self, path, handle):
            self.refuse(handle)

        def fsync(self, path, _, handle):
            self.refuse(handle)

        def refuse(self, handle):
            """Has none of the bytes that were written."""
            if refused and is_for_writing(handle) and os.fstat(handle).st_size > 0:
                os.ftruncate(handle, 0)
                raise fusepy.FuseOSError(refused)

    def is_for_writing(handle):
        """Whether a file is open for writing."""
        return fcntl.fcntl(handle, fcntl.F_GETFL) & os.O_ACCMODE != os.O_RDONLY

    fusepy.FUSE(Late(), place, foreground=True, nothreads=True, nonempty=True)


@contextmanager
def mounted(top: Path, refusal: str) -> Iterator[tuple[Path, Path] | None]:
    """A folder that refuses late, and where its files are in truth; none where it cannot be mounted."""
    place, store = top / f"late-{refusal}", top / f"store-{refusal}"
    place.mkdir()
    store.mkdir()
    server = subprocess.Popen([sys.executable, "-B", __file__, "--serve", str(place), str(store), refusal], stdout=subprocess.PIPE,
                              stderr=subprocess.STDOUT)
    try:
        end = time.monotonic() + SECONDS
        while server.poll() is None and not place.is_mount() and time.monotonic() < end:
            time.sleep(0.01)
        yield (place, store) if server.poll() is None and place.is_mount() else None
    finally:
        subprocess.run(["umount", "--lazy", str(place)], check=False, capture_output=True)
        try:
            server.wait(timeout=5)
        except subprocess.TimeoutExpired:
            server.kill()
            server.wait()


def why_none() -> str | None:
    """Why no folder of FUSE can be tried; none where one can."""
    if not os.access("/dev/fuse", os.R_OK | os.W_OK):
        return "no /dev/fuse here"
    if not Path(PACKAGES, "fusepy.py").exists():
        return "no fusepy here (Debian's packages python3-fusepy and libfuse2)"
    return None


def convert(program: str, at: Path, *front: str) -> tuple[int, str]:
    """The status and the errors of a conversion in a folder, whose raw volume lies beside it."""
    words = [*front, program, CONVERT[0], CONVERT[1], str(at.parent / "r.raw"), *CONVERT[3:]]
    ended = subprocess.run(words, cwd=at, stdin=subprocess.DEVNULL, capture_output=True, timeout=SECONDS, check=False)
    return ended.returncode, ended.stderr.decode(errors="replace")


def names_in(store: Path) -> list[str]:
    """What is in a folder, but for files that are removed and still open, which FUSE keeps under names of its own."""
    return sorted(name for name in os.listdir(store) if not name.startswith(".fuse_hidden"))


def hold_late(program: str, top: Path, refusal: str, results: Results) -> None:
    """What a conversion does where bytes are refused late."""
    hold = results.hold
    with mounted(top, refusal) as folders:
        if folders is None:
            print(f"late_errors: {refusal}: nothing can be mounted here, so nothing is tried")
            return
        at, store = folders
        reason = REASONS[refusal]
        status, errors = convert(program, at)
        hold(f"{refusal}: a header that is refused late: {status} {errors!r}", (status, errors) == (5, f"idxtool: store fault\n  v.idx: {reason}\n"))
        hold(f"{refusal}: no header, no timestep, nothing left: {names_in(store)}", names_in(store) == [])
        (store / "v.idx").write_bytes(header(*SMALL))
        status, errors = convert(program, at)
        pattern = rf"idxtool: store fault\n  time0000\.part/[^/\n]+/[02]\.bin: {re.escape(reason)}\n"
        hold(f"{refusal}: a file that is refused late: {status} {errors!r}", status == 5 and re.fullmatch(pattern, errors) is not None)
        hold(f"{refusal}: no timestep, nothing left: {names_in(store)}", names_in(store) == ["v.idx"])


def syncs_of(program: str, at: Path) -> int | None:
    """How many calls a conversion made that sync; none where it did not end with 0."""
    log = at.parent / "syncs.log"
    status, _ = convert(program, at, "strace", "-f", "-qq", "-e", "trace=fsync,fdatasync,sync_file_range,syncfs,sync", "-o", str(log))
    return sum("sync" in line for line in log.read_text().split("\n")) if status == 0 else None


def hold_good(program: str, top: Path, results: Results) -> None:
    """What a conversion does where nothing is refused: where, and how often, it syncs."""
    hold = results.hold
    local = top / "local"
    local.mkdir()
    hold("on a local disk", convert(program, local) == (0, "") and (local / "time0000").is_dir())
    no_strace = why_no_strace()
    if no_strace:
        print(f"late_errors: {no_strace}, so it is not seen what is synced")
    else:
        hold("nothing is synced on a local disk", syncs_of(program, local) == 0)
    if why_none():
        return
    with mounted(top, "nothing") as folders:
        if folders is None:
            return
        at, store = folders
        hold("where nothing is refused", convert(program, at) == (0, "") and len(os.listdir(store / "time0000")) == FILES)
        files = {path.name: path.read_bytes() for path in (store / "time0000").iterdir()}
        hold("the same files", files == {path.name: path.read_bytes() for path in (local / "time0000").iterdir()})
        if not no_strace:
            hold("each file is synced where it may be refused late", syncs_of(program, at) == FILES)


def main() -> int:
    if len(sys.argv) == 5 and sys.argv[1] == "--serve":
        serve(*sys.argv[2:])
        return 0
    program = os.path.abspath(words_of(__doc__).parse_args().program)
    results = Results()
    with tempfile.TemporaryDirectory() as name:
        top = Path(name)
        (top / "r.raw").write_bytes(RAW)
        hold_good(program, top, results)
        why = why_none()
        if why:
            print(f"late_errors: {why}, so no bytes are refused late")
        for refusal in () if why else REASONS:
            hold_late(program, top, refusal, results)
    return results.status()


if __name__ == "__main__":
    sys.exit(main())
