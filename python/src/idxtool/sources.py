"""Where samples come from: the program on this machine, or a server."""
from __future__ import annotations

import http.client
import os
import threading
from dataclasses import dataclass
from pathlib import Path
from typing import Optional, Protocol, Union
from urllib.parse import urlencode, urlsplit
from urllib.request import urlopen

from .errors import MissingTimestep, OtherTypeError, server_error
from .layout import Box, Field, folder_of, header_values
from .program import run_into

SECONDS = 30
"""After how long a server that says nothing is given up."""


class Source(Protocol):
    """Something that answers questions for samples."""
    is_local: bool
    """Whether `revision` looks at the folder, and does not tell of the last answer."""

    def read_into(self, out: memoryview, field: Field, timestep: int, box: Box, low: int, high: int) -> int:
        """Puts the samples of `field` in `box` whose level is `low` to `high` into `out`; gives how many bytes there were."""

    def revision(self, timestep: int) -> Optional[int]:
        """What tells the samples that answers have now from those of a revision that is written later, for this thread."""

    def has_timestep(self, timestep: int, field: Field) -> bool:
        """Whether a timestep is there."""

    def close(self) -> None:
        """Lets go of what is held."""


def box_text(box: Box) -> str:
    """A box as the program and the server read it."""
    return " ".join(f"{low} {high}" for low, high in box)


class Program:
    """The program, over a dataset on this machine."""
    is_local = True

    def __init__(self, path: "os.PathLike[str]") -> None:
        self.path = Path(path)

    def read_into(self, out: memoryview, field: Field, timestep: int, box: Box, low: int, high: int) -> int:
        """Runs `idxtool query`. Raises ProgramError where it refuses."""
        return run_into(["query", self.path, timestep, field.name, box_text(box), low, high], out)

    def _folder(self, timestep: int) -> Optional[Path]:
        """The folder of the timestep's first revision; None where the header has no time."""
        template = folder_of(header_values(self.path.read_text()))
        return None if template is None else self.path.parent / (template % timestep)

    def revision(self, timestep: int) -> Optional[int]:
        """The number of the newest revision: the last before the first that is missing."""
        folder, number = self._folder(timestep), 0
        while folder is not None and number < 256 and folder.with_name(f"{folder.name}.r{number + 1}").is_dir():
            number += 1
        return number

    def has_timestep(self, timestep: int, field: Field) -> bool:
        """Whether the folder of the timestep's first revision is there."""
        folder = self._folder(timestep)
        return folder is None or folder.is_dir()

    def close(self) -> None:
        """Nothing is held."""


@dataclass
class Held:
    """What a process has of a server: its connection, which one thread uses at a time, and the post of its last answer."""
    connection: http.client.HTTPConnection
    lock: threading.Lock
    posts: dict[int, str]


class Link:
    """A server, asked over one connection, which is opened again where the server closed it meanwhile.

    Threads take turns, since each connection holds a worker thread of the server. A process that was forked has a
    connection of its own: bytes that two processes read of one would be mixed.
    """
    is_local = False

    def __init__(self, server: str, dataset: str, box: Box) -> None:
        parts = urlsplit(server)
        if parts.scheme not in ("http", "https") or not parts.hostname:
            raise ValueError(f"{server!r} is no URL of a server, as http://127.0.0.1:8080")
        self._make = http.client.HTTPSConnection if parts.scheme == "https" else http.client.HTTPConnection
        self._host, self._port = parts.hostname, parts.port
        self._made_of = (server, dataset, box)
        self._dataset = dataset
        self._point = tuple((low, low) for low, _ in box)
        self._held: dict[int, Held] = {}

    def __reduce__(self) -> tuple[object, ...]:
        """A copy in another process has a connection of its own."""
        return Link, self._made_of

    def _own(self) -> Held:
        """What this process holds. What it got of the process that forked it is closed here, which the other one does not notice."""
        mine = os.getpid()
        if mine not in self._held:
            self._held.setdefault(mine, Held(self._make(self._host, self._port, timeout=SECONDS), threading.Lock(), {}))
            for other in [each for each in list(self._held) if each != mine]:
                gone = self._held.pop(other, None)
                if gone is not None:
                    gone.connection.close()
        return self._held[mine]

    def _reply(self, connection: http.client.HTTPConnection, target: str) -> http.client.HTTPResponse:
        """The reply to a request; where a kept connection turns out to be closed, it is asked again over a new one."""
        kept = connection.sock is not None
        try:
            connection.request("GET", target)
            return connection.getresponse()
        except (ConnectionError, http.client.BadStatusLine):
            connection.close()
            if not kept:
                raise
            connection.request("GET", target)
            return connection.getresponse()

    def _ask(self, own: Held, out: memoryview, field: Field, timestep: int, box: Box, low: int,
             high: int) -> tuple[int, bytes, int]:
        """Asks once: the status, the body where the status is not 200, and the bytes that came into `out` where it is."""
        query: dict[str, Union[str, int]] = {
            "action": "boxquery", "dataset": self._dataset, "time": timestep, "field": field.name,
            "box": box_text(box), "fromh": low, "toh": high, "compression": "raw"}
        try:
            with self._reply(own.connection, f"/mod_visus?{urlencode(query)}") as reply:
                if reply.status != 200:
                    return reply.status, reply.read(), 0
                kind = reply.headers.get("visus-dtype", field.kind())
                if kind != field.kind():
                    raise OtherTypeError(f"the server's samples of {field.name} are {kind}, and the header says {field.kind()}")
                length, count = int(reply.headers["Content-Length"]), 0
                while count < min(length, len(out)) and (got := reply.readinto(out[count:])):
                    count += got
                if count < min(length, len(out)):
                    raise ConnectionError(f"the reply ended after {count} of {length} bytes")
                count += len(reply.read())
                own.posts[threading.get_ident()] = reply.headers.get("visus-post", "")
                return 200, b"", count
        except BaseException:
            own.connection.close()
            raise

    def read_into(self, out: memoryview, field: Field, timestep: int, box: Box, low: int, high: int) -> int:
        """Asks the server. Raises ServerError where it refuses, and OSError where the connection fails."""
        own = self._own()
        with own.lock:
            status, body, count = self._ask(own, out, field, timestep, box, low, high)
        if status != 200:
            raise server_error(status, body)
        return count

    def revision(self, timestep: int) -> Optional[int]:
        """The number of the post that this thread's last answer was taken from; None before the first one."""
        post = self._own().posts.get(threading.get_ident(), "")
        return int(post) if post else None

    def has_timestep(self, timestep: int, field: Field) -> bool:
        """Whether the server has the timestep: it is asked whether a point has a sample of level 0."""
        try:
            self.read_into(memoryview(bytearray(field.sample_bytes)), field, timestep, self._point, 0, 0)
        except MissingTimestep:
            return False
        return True

    def close(self) -> None:
        """Closes the connection, so that its worker thread can serve another one."""
        own = self._own()
        with own.lock:
            own.connection.close()


def fetch_header(url: str) -> str:
    """The text of the header at a URL; a header has at most 65,536 bytes. Raises OSError where there is none."""
    with urlopen(url, timeout=SECONDS) as reply:
        return reply.read(65_536).decode()
