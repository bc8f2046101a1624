"""Runs the program."""
from __future__ import annotations

import os
import subprocess
import tempfile
from collections.abc import Sequence
from typing import Union

from .errors import program_error

Word = Union[str, "os.PathLike[str]", int]


def program() -> str:
    """The program's path: what the environment variable IDXTOOL says, else `idxtool` on the PATH."""
    return os.environ.get("IDXTOOL") or "idxtool"


def run(*words: Word) -> bytes:
    """Runs the program with these words and gives its standard output. Raises ProgramError where it refuses."""
    ended = subprocess.run([program(), *map(str, words)], stdin=subprocess.DEVNULL, capture_output=True, check=False)
    if ended.returncode != 0:
        raise program_error(ended.returncode, ended.stderr)
    return ended.stdout


def run_into(words: Sequence[Word], out: memoryview) -> int:
    """Runs the program and puts its standard output into `out`, a writable view of bytes; gives how many there were.

    More bytes than `out` takes are counted, not kept. Raises ProgramError where the program refuses.
    """
    with tempfile.TemporaryFile() as errors:
        with subprocess.Popen([program(), *map(str, words)], stdin=subprocess.DEVNULL, stdout=subprocess.PIPE,
                              stderr=errors, bufsize=0) as process:
            assert process.stdout is not None
            count = 0
            while count < len(out):
                got = process.stdout.readinto(out[count:])  # type: ignore[attr-defined]
                if not got:
                    break
                count += got
            count += len(process.stdout.read())
        if process.returncode != 0:
            errors.seek(0)
            raise program_error(process.returncode, errors.read())
    return count
