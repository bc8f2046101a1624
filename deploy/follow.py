#!/usr/bin/env python3
"""Has servers behind nginx answer with what a running simulation writes. A timer of systemd calls it every two seconds:

    follow.py NAME

It looks at the folders of a dataset. Where they have something new (a timestep, a revision, or one that was taken away), it starts
new servers beside the old ones on other ports, waits until they answer, has nginx use them by one reload, and ends the old ones when
no connection of theirs is left.

Each set of servers has a folder of its own, RUN/NAME/GENERATION: a copy of the header, and for each timestep a link to its newest
revision. So all servers of a set answer the same, whatever is written while they start and also after one was started again. All that
a call has to know stands in these folders and in nginx's file: a call that was killed is continued by the next one.

The settings are words of the environment; `idxtool-follow@.service` takes them from /etc/idxtool/NAME.env.
"""
from __future__ import annotations

import errno
import fcntl
import http.client
import json
import os
import re
import shlex
import shutil
import signal
import socket
import subprocess
import sys
import time
from collections.abc import Iterator
from contextlib import contextmanager
from dataclasses import dataclass
from functools import cached_property
from pathlib import Path
from typing import Callable

MOST_SETS = 4
"""How many sets of servers there may be beside each other; a further change waits until one has ended."""
MOST_REVISIONS = 256
"""How many revisions a timestep can have."""
ASKED = 8
"""How many of the timesteps that are new each new server is asked for before nginx uses it."""
ANSWER = 30.0
"""Seconds in which the new servers have to answer."""
TAKEN = 10.0
"""Seconds in which nginx has to use a new file."""
STOPPED = 2.0
"""Seconds in which nginx, unless it runs in the foreground, stops accepting connections."""
AGAIN = 5.0
"""Seconds until what was refused is tried again where the dataset has nothing else that is new."""
GLANCE = 0.02
"""Seconds between two looks at something that is awaited."""


class Refused(Exception):
    """Why nothing was changed by this call."""


@dataclass(frozen=True)
class Settings:
    """What the environment says."""
    name: str
    dataset: Path
    servers: int
    ports: range
    options: str
    upstream: Path
    """nginx's file with the servers and the generation."""
    nginx: list[str]
    nginx_pid: Path
    systemctl: list[str]
    program: list[str]
    run: Path
    linger: float
    """Seconds after which old servers end even where a connection of theirs is left."""

    @property
    def home(self) -> Path:
        """The folder of the sets of this dataset."""
        return self.run / self.name

    @classmethod
    def of(cls, name: str, words: dict[str, str]) -> Settings:
        if not re.fullmatch(r"[A-Za-z0-9_-]+", name):
            raise Refused(f"{name!r} is no name: it has letters, digits, _ and -")
        if not words.get("DATASET"):
            raise Refused(f"DATASET is not set; /etc/idxtool/{name}.env says DATASET=/data/run.idx")
        low, _, high = words.get("PORTS", "8101-8199").partition("-")
        return cls(name, Path(words["DATASET"]), int(words.get("SERVERS", "3")), range(int(low), int(high) + 1),
                   words.get("OPTIONS", ""), Path(words.get("UPSTREAM", "/etc/nginx/conf.d/idx-upstream.conf")),
                   shlex.split(words.get("NGINX_COMMAND", "nginx")), Path(words.get("NGINX_PID", "/run/nginx.pid")),
                   shlex.split(words.get("SYSTEMCTL", "systemctl")), shlex.split(words.get("IDXTOOL", "idxtool")),
                   Path(words.get("RUN", "/run/idxtool")), float(words.get("LINGER", "120")))


def run(*words: object) -> subprocess.CompletedProcess[str]:
    """Runs a command to its end."""
    return subprocess.run(list(map(str, words)), capture_output=True, text=True, errors="replace", check=False)


def say(line: str) -> None:
    """One line for the journal."""
    print(line, file=sys.stderr, flush=True)


def wait_for(is_so: Callable[[], bool], seconds: float) -> bool:
    """Waits until something is so, at most so long, and says whether it is."""
    end = time.monotonic() + seconds
    while not is_so():
        if time.monotonic() > end:
            return False
        time.sleep(GLANCE)
    return True


def replace_file(path: Path, text: str) -> None:
    """Puts a file in the place of another at once: a reader finds the one or the other, never a part."""
    beside = path.with_name(f".{path.name}.new")
    with open(beside, "w", encoding="utf-8") as file:
        file.write(text)
        file.flush()
        os.fsync(file.fileno())
    os.replace(beside, path)


# What the dataset's folders have


@dataclass(frozen=True)
class Look:
    """What a look at a dataset found."""
    header: bytes
    corner: list[str]
    """The lower end of the box on each axis."""
    below: str
    """The folder of the timesteps, from that of the header."""
    steps: dict[int, tuple[str, str]]
    """Of each timestep that is there its folder of revision 0, and the folder of its newest revision."""
    text: str
    """All of it, and which folders these are (a folder that was made anew under its old name is another one): what is
    compared with a later look."""


def key_of(header: str, name: str) -> str | None:
    """The value of a key of a header."""
    value: list[str] | None = None
    for line in map(str.strip, header.split("\n")):
        if line.startswith("(") and line.endswith(")"):
            if value is not None:
                break
            value = [] if line == f"({name})" else None
        elif value is not None and line:
            value.append(line)
    return None if value is None else " ".join(value)


def look(settings: Settings) -> Look:
    """Looks at the header, and at which revision of each timestep is the newest."""
    told = run(*settings.program, "info", settings.dataset)
    if told.returncode:
        raise Refused(f"{settings.dataset} cannot be opened: {' '.join(told.stderr.split())}")
    header = settings.dataset.read_bytes()
    text = header.decode("utf-8", "replace")
    time_words, template = key_of(text, "time"), key_of(text, "filename_template")
    if time_words is None or template is None:
        raise Refused(f"{settings.dataset} has no timesteps: its header has no (time)")
    first, last, folder_name = time_words.split()
    box = next(line.split()[1:] for line in told.stdout.splitlines() if line.startswith("box "))
    parts = [part for part in template.split("/") if part != "."]
    below = "/".join(parts[:next(at for at, part in enumerate(parts) if "%" in part)])
    found = folders_of(settings.dataset.parent / below)
    steps: dict[int, tuple[str, str]] = {}
    for step in range(int(first), int(last) + 1):
        name = folder_name.rstrip("/") % step
        revisions = [name, *(f"{name}.r{number}" for number in range(1, MOST_REVISIONS))]
        there = next((at for at, each in enumerate(revisions) if each not in found), MOST_REVISIONS)
        if there:
            steps[step] = name, revisions[there - 1]
    facts = {"header": text, "options": settings.options, "servers": settings.servers,
             "steps": {step: [newest, *identity(found[newest])] for step, (_, newest) in steps.items()}}
    return Look(header, box[::2], below, steps, json.dumps(facts))


def folders_of(folder: Path) -> dict[str, os.DirEntry[str]]:
    """The folders in a folder, by name; none where it is not there."""
    try:
        with os.scandir(folder) as entries:
            return {entry.name: entry for entry in entries if entry.is_dir()}
    except FileNotFoundError:
        return {}


def identity(entry: os.DirEntry[str]) -> tuple[int, int]:
    """What tells a folder from one that was made later under its name."""
    try:
        status = entry.stat()
    except FileNotFoundError:
        return 0, 0
    return status.st_ino, status.st_mtime_ns


# Sets of servers


@dataclass(frozen=True)
class Set:
    """The servers of one generation: a folder with `data` (the header and the links), `ports`, `look`, and what became of it."""
    settings: Settings
    generation: int

    @property
    def folder(self) -> Path:
        return self.settings.home / str(self.generation)

    @property
    def header(self) -> Path:
        """The header that its servers read."""
        return self.folder / "data" / self.settings.dataset.name

    @cached_property
    def ports(self) -> list[int]:
        """The ports of its servers; none where it was killed before it had some."""
        return ports_in(self.folder / "ports")

    def instance(self, port: int) -> str:
        """The name of a server for systemd: `idxtool@` reads its settings under this name."""
        return f"{self.settings.name}.{self.generation}.{port}"

    def unit(self, port: int) -> str:
        return f"idxtool@{self.instance(port)}.service"

    @property
    def units(self) -> list[str]:
        return [self.unit(port) for port in self.ports]

    @property
    def is_running(self) -> bool:
        """Whether none of its servers has ended for good."""
        states = run(*self.settings.systemctl, "is-active", *self.units).stdout.split()
        return bool(states) and len(states) == len(self.ports) and not {"failed", "inactive"} & set(states)

    @property
    def mark_switched(self) -> Path:
        """A file that is there from when nginx was seen to use this set."""
        return self.folder / "switched"

    def looked(self) -> dict[str, object]:
        """What it serves, as the look at the dataset found it."""
        try:
            return dict(json.loads((self.folder / "look").read_text()))
        except (FileNotFoundError, ValueError):
            return {}

    def make(self, seen: Look, ports: list[int]) -> None:
        """Makes its folder; `ports` comes before any server, so that a later call knows which there may be."""
        below = self.header.parent / seen.below
        below.mkdir(parents=True)
        self.header.write_bytes(seen.header)
        real = (self.settings.dataset.parent / seen.below).resolve()
        for name, newest in seen.steps.values():
            (below / name).symlink_to(real / newest)
        (self.folder / "look").write_text(seen.text)
        replace_file(self.folder / "ports", " ".join(map(str, ports)))
        for port in ports:
            (self.settings.run / f"{self.instance(port)}.env").write_text(
                f"DATASET={self.header}\nADDRESS=127.0.0.1:{port}\nOPTIONS={self.settings.options}\n")

    def start(self) -> None:
        started = run(*self.settings.systemctl, "start", *self.units)
        if started.returncode:
            raise Refused(f"the new servers do not start: {' '.join(started.stderr.split())}")

    def end(self) -> None:
        """Ends its servers, then takes its folder away."""
        if self.ports:
            run(*self.settings.systemctl, "stop", *self.units)
            run(*self.settings.systemctl, "reset-failed", *self.units)
        for port in self.ports:
            (self.settings.run / f"{self.instance(port)}.env").unlink(missing_ok=True)
        shutil.rmtree(self.folder, ignore_errors=True)

    def await_answers(self, seen: Look, steps: list[int]) -> None:
        """Waits until each server answers with a point of each of these timesteps."""
        name = self.settings.dataset.name
        start = f"/mod_visus?action=boxquery&dataset={name.removesuffix('.idx')}"
        box = "+".join(f"{low}+{low}" for low in seen.corner)
        targets = [f"{start}&time={step}&box={box}" for step in steps] or [start]
        end = time.monotonic() + ANSWER
        for port, target in ((port, target) for port in self.ports for target in targets):
            while (status := status_of(port, target)) != 200 and not (status and not steps):
                if time.monotonic() > end or not self.is_running:
                    raise Refused(f"the new server {self.unit(port)} does not answer ({status}): {self.last_words()}")
                time.sleep(GLANCE)
        if not self.is_running:
            raise Refused(f"something else has a port of the new servers: {self.last_words()}")

    def last_words(self) -> str:
        """What its servers wrote about their end."""
        told = run(*self.settings.systemctl, "status", "--no-pager", "--output=cat", "--lines=5", *self.units).stdout
        lines = told.splitlines()
        first = next((at for at, line in enumerate(lines) if line.startswith("idxtool: ")), len(lines))
        return " ".join(" ".join(lines[first:first + 2]).split()) or "its journal says more"


def ports_in(file: Path) -> list[int]:
    """The ports that a set has written down."""
    try:
        return [int(port) for port in file.read_text().split()]
    except FileNotFoundError:
        return []


def status_of(port: int, target: str) -> int:
    """The status of a server's reply, 0 where it has none."""
    link = http.client.HTTPConnection("127.0.0.1", port, timeout=ANSWER)
    try:
        link.request("GET", target)
        reply = link.getresponse()
        reply.read()
        return reply.status
    except (OSError, http.client.HTTPException):
        return 0
    finally:
        link.close()


def sets_of(settings: Settings) -> list[Set]:
    """The sets that are there, the oldest first."""
    return [Set(settings, number) for number in
            sorted(int(each.name) for each in settings.home.iterdir() if each.name.isdecimal())]


def free_ports(settings: Settings) -> list[int]:
    """Ports that neither a set of any dataset has nor anything else listens at."""
    taken = {port for file in settings.run.glob("*/*/ports") for port in ports_in(file)}
    free = []
    for port in settings.ports:
        if len(free) < settings.servers and port not in taken and is_free(port):
            free.append(port)
    if len(free) < settings.servers:
        raise Refused(f"PORTS has only {len(free)} free ports of {settings.servers}")
    return free


def is_free(port: int) -> bool:
    with socket.socket() as one:
        one.setsockopt(socket.SOL_SOCKET, socket.SO_REUSEADDR, 1)
        try:
            one.bind(("127.0.0.1", port))
        except OSError as fault:
            if fault.errno != errno.EADDRINUSE:
                raise
            return False
        return True


def connected_ports() -> set[int]:
    """The ports of this machine that have a connection, of a server's side or a client's."""
    ports = set()
    for table in ("/proc/net/tcp", "/proc/net/tcp6"):
        try:
            lines = Path(table).read_text().splitlines()[1:]
        except FileNotFoundError:
            continue
        for line in lines:
            local, _, state = line.split()[1:4]
            if state not in ("06", "07", "0A"):  # in TIME_WAIT, closed, listening
                ports.add(int(local.rpartition(":")[2], 16))
    return ports


# nginx


SERVER_LINES = re.compile(r"(?m)^([ \t]*)server[ \t]+\S+?([ \t;].*)\n(?:[ \t]*server[ \t].*\n)*")
GENERATION = re.compile(r"(\$\w*generation\s*\{\s*default\s+)(\d+)")


def text_with(text: str, one: Set) -> str:
    """nginx's file with the servers of a set and its generation; all else stays."""
    found = SERVER_LINES.search(text)
    if not found or not GENERATION.search(text):
        raise Refused("UPSTREAM has no line that begins with `server`, or no generation; nginx-upstream.conf has both")
    lines = "".join(f"{found[1]}server 127.0.0.1:{port}{found[2]}\n" for port in one.ports)
    text = text[:found.start()] + lines + text[found.end():]
    return GENERATION.sub(rf"\g<1>{one.generation}", text, count=1)


def read_upstream(settings: Settings) -> tuple[str, int]:
    """nginx's file, and the generation in it."""
    try:
        text = settings.upstream.read_text(encoding="utf-8")
    except FileNotFoundError:
        raise Refused(f"there is no {settings.upstream}; copy nginx-upstream.conf there") from None
    found = GENERATION.search(text)
    return text, int(found[2]) if found else 0


def master_of(settings: Settings) -> int | None:
    """The number of nginx's first process, None where it does not run."""
    try:
        pid = int(settings.nginx_pid.read_text())
        return pid if b"nginx: master" in Path(f"/proc/{pid}/cmdline").read_bytes() else None
    except (OSError, ValueError):
        return None


def workers_of(master: int) -> dict[int, bool]:
    """nginx's processes that serve connections, and of each whether it is about to end and accepts no more."""
    workers = {}
    try:
        children = Path(f"/proc/{master}/task/{master}/children").read_text().split()
    except FileNotFoundError:
        return {}
    for pid in map(int, children):
        try:
            title = Path(f"/proc/{pid}/cmdline").read_bytes()
        except (FileNotFoundError, ProcessLookupError):
            continue
        if b"nginx: worker process" in title:  # one that has ended has no title
            workers[pid] = b"shutting down" in title
    return workers


def has_nginx_take(settings: Settings) -> bool:
    """Has nginx use its files as they stand, by one reload; False where it does not run. No process of nginx that has the files
    from before accepts a connection when one with these files does: else a client could get old samples after new ones.
    Connections that come meanwhile wait."""
    tested = run(*settings.nginx, "-t")
    if tested.returncode:
        raise Refused(f"nginx -t says: {' '.join(tested.stderr.split())}")
    with locked(settings.run / "nginx.lock", wait=True):
        master = master_of(settings)
        if master is None:
            return False
        old = set(workers_of(master))
        held = signal.pthread_sigmask(signal.SIG_BLOCK, {signal.SIGTERM, signal.SIGINT})
        try:
            stop_accepting(master)
            os.kill(master, signal.SIGHUP)
        finally:
            signal.pthread_sigmask(signal.SIG_SETMASK, held)

        def is_taken() -> bool:
            now = workers_of(master)
            return any(pid not in old and not leaves for pid, leaves in now.items()) and \
                all(leaves for pid, leaves in now.items() if pid in old)
        if not wait_for(is_taken, TAKEN):
            raise Refused("nginx did not take its files; its error log says why")
    return True


def stop_accepting(master: int) -> None:
    """Has nginx's processes accept no more connections. Two signals that wait at the same time are taken by nginx in an order of
    its own, so this one is gone when the function returns."""
    if all(workers_of(master).values()):
        return
    os.kill(master, signal.SIGWINCH)
    wait_for(lambda: not is_pending(master, signal.SIGWINCH), TAKEN)
    wait_for(lambda: all(workers_of(master).values()), STOPPED)


def is_pending(pid: int, which: signal.Signals) -> bool:
    """Whether a process has yet to take a signal."""
    try:
        sets = re.findall(r"(?m)^(?:Sig|Shd)Pnd:\s*(\S+)", Path(f"/proc/{pid}/status").read_text())
    except OSError:
        return False
    return any(int(each, 16) >> (which - 1) & 1 for each in sets)


def is_deaf(settings: Settings) -> bool:
    """Whether nginx runs and no process of it accepts connections: a call was killed before its reload, or that failed."""
    master = master_of(settings)
    return master is not None and all(workers_of(master).values())


@contextmanager
def locked(path: Path, wait: bool) -> Iterator[bool]:
    """Holds a lock, or says that another call has it."""
    with open(path, "w", encoding="utf-8") as file:
        try:
            fcntl.flock(file, fcntl.LOCK_EX | (0 if wait else fcntl.LOCK_NB))
        except BlockingIOError:
            yield False
        else:
            yield True


# One call


def switch_to(one: Set) -> None:
    """Has nginx use a set, whose servers answer. Where nginx refuses, the file from before is put back."""
    settings = one.settings
    before = settings.home / "before"
    text, generation = read_upstream(settings)
    if generation != one.generation:
        replace_file(before, text)
        replace_file(settings.upstream, text_with(text, one))
    try:
        is_taken = has_nginx_take(settings)
    except Refused:
        if before.exists():
            replace_file(settings.upstream, before.read_text(encoding="utf-8"))
            before.unlink()
        if is_deaf(settings):
            has_nginx_take(settings)
        raise
    if is_taken:
        one.mark_switched.touch()
        before.unlink(missing_ok=True)
        say(f"generation {one.generation}: nginx uses ports {' '.join(map(str, one.ports))}")
    else:
        say(f"nginx does not run; {settings.upstream} has the new servers")


def end_old(settings: Settings, sets: list[Set], current: int) -> None:
    """Ends each set but the one in nginx's file: where no connection of it is left, and no process of nginx that could still open
    one; or when it has lingered long enough."""
    others = [each for each in sets if each.generation != current]
    if not others:
        return
    master = master_of(settings)
    has_old_workers = master is not None and any(workers_of(master).values())
    connected = connected_ports()
    for each in others:
        retired = each.folder / "retired"
        if not retired.exists():
            retired.touch()
        is_idle = not has_old_workers and not connected & set(each.ports)
        lingered = time.time() - retired.stat().st_mtime
        if is_idle or lingered > settings.linger:
            each.end()
            say(f"generation {each.generation}: ended" + ("" if is_idle else f" after {settings.linger:g} seconds"))


def new_set(settings: Settings, sets: list[Set], generation: int, seen: Look) -> Set:
    """Starts a set of servers, and waits until they answer with what is new."""
    newest = max([generation, *(each.generation for each in sets)])
    one = Set(settings, max(newest + 1, int(time.time())))
    before = Set(settings, generation).looked().get("steps")
    known = before if isinstance(before, dict) else {}
    now = json.loads(seen.text)["steps"]
    new = [step for step in seen.steps if known.get(str(step)) != now[str(step)]]
    try:
        with locked(settings.run / "ports.lock", wait=True):
            one.make(seen, free_ports(settings))
        one.start()
        one.await_answers(seen, new[-ASKED:] or list(seen.steps)[-1:])
    except Refused:
        one.end()
        raise
    return one


def follow(settings: Settings) -> None:
    """Looks once, and does what there is to do."""
    sets = sets_of(settings)
    _, generation = read_upstream(settings)
    current = next((each for each in sets if each.generation == generation), None)
    if current and not current.mark_switched.exists():
        switch_to(current)
    elif is_deaf(settings):
        has_nginx_take(settings)
    end_old(settings, sets, generation)
    seen = look(settings)
    if current and current.looked() == json.loads(seen.text) and current.is_running:
        return
    refused = settings.home / "refused"
    if refused.exists() and time.time() - refused.stat().st_mtime < AGAIN:
        why, _, text = refused.read_text(encoding="utf-8").partition("\n")
        if text == seen.text:
            raise Refused(f"{why} (tried again after {AGAIN:g} seconds)")
    try:
        renew(settings, generation, seen)
    except Refused as why:
        refused.write_text(f"{why}\n{seen.text}", encoding="utf-8")
        raise


def renew(settings: Settings, generation: int, seen: Look) -> None:
    """Puts a new set in the place of a generation's."""
    sets = sets_of(settings)
    if len(sets) >= MOST_SETS:
        raise Refused(f"there is something new, but {len(sets)} sets of servers still have connections")
    one = new_set(settings, sets, generation, seen)
    switch_to(one)
    end_old(settings, sets_of(settings), one.generation)


def main(words: list[str]) -> int:
    if len(words) != 1:
        say("usage: follow.py NAME")
        return 1
    try:
        settings = Settings.of(words[0], dict(os.environ))
        settings.home.mkdir(parents=True, exist_ok=True)
        with locked(settings.home / "lock", wait=False) as is_ours:
            if is_ours:
                follow(settings)
    except (Refused, OSError) as why:
        say(f"follow.py: {why}")
        return 1
    return 0


if __name__ == "__main__":
    sys.exit(main(sys.argv[1:]))
