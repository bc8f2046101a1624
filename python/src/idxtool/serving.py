"""Starts servers."""
from __future__ import annotations

import os
import re
import subprocess
from typing import Union

from .errors import program_error
from .program import program


class Server:
    """A server that runs; it ends with the `with` statement, or at `close`."""

    def __init__(self, process: "subprocess.Popen[bytes]", address: str) -> None:
        self.process = process
        self.url = f"http://{address}"
        """Its URL for `open`, as `http://127.0.0.1:8080`."""

    def __enter__(self) -> "Server":
        return self

    def __exit__(self, *_: object) -> None:
        self.close()

    def close(self) -> None:
        """Ends the server."""
        self.process.kill()
        self.process.communicate()


def serve(path: Union[str, "os.PathLike[str]"], address: str = "127.0.0.1:0", workers: int = 4, cache: int = 64) -> Server:
    """Starts `idxtool serve` for a dataset; port 0 takes a free one. Raises ProgramError where the server refuses."""
    words = [program(), "serve", str(path), address, "--workers", str(workers), "--cache", str(cache)]
    process = subprocess.Popen(words, stdin=subprocess.DEVNULL, stdout=subprocess.DEVNULL, stderr=subprocess.PIPE)
    assert process.stderr is not None
    line = process.stderr.readline()
    listening = re.fullmatch(rb"  listening on (\S+), \d+ steps of .*\n", line)
    if listening is None:
        rest = process.stderr.read()
        raise program_error(process.wait(), line + rest)
    return Server(process, listening[1].decode())
