"""Tries follow.py as it stands: two datasets, whose timesteps are written while clients ask nginx for them all the time."""
from __future__ import annotations

import array
import http.client
import os
import random
import re
import shutil
import signal
import socket
import subprocess
import sys
import threading
import time
from contextlib import ExitStack
from dataclasses import dataclass, field
from pathlib import Path
from typing import Callable

from follow import workers_of
from trial_common import (HERE, SIDE, Trial, convert_words, fetch, free_ports, nginx_file, nginx_program, raw_of, run, site_text,
                          slice_of, target_of, upstream_file, wait_for_port)

STEPS = 10
BESIDE = 2
"""How many timesteps the second dataset gets meanwhile."""
TWICE = 3
"""The timestep that is written twice."""
SERVERS = 3
REVISIONS = 100
"""Revision R of timestep T has the samples of the raw volume T + 100 R, so that a reply tells its revision."""
SOON = 10.0
"""Seconds within which a new timestep has to be answered."""
PORTS = "18101-18199"
"""The ports of both datasets' servers."""
KILLS = 20
ONCE, KEPT = 4, 2
"""How many clients open a connection for each request, and how many keep theirs."""
BOXES = [((0, 31), (8, 23), (plane, plane)) for plane in (0, 21, 40)]
"""What clients ask for: few things, so that nginx's cache has them."""


def pause() -> float:
    """The seconds between two looks, as the timer has them."""
    found = re.search(r"(?m)^OnUnitInactiveSec=(\d+)s$", (HERE / "idxtool-follow@.timer").read_text())
    assert found is not None
    return float(found[1])


@dataclass
class Followed:
    """A dataset that follow.py follows, in a folder with all that belongs to it."""
    name: str
    tool: str
    top: Path
    """The folder of nginx, of the servers' settings and of the stand-in for systemctl."""
    front: int
    nginx: list[str]
    ports: str
    linger: str = "60"
    told: list[str] = field(default_factory=list)
    """What the calls wrote to standard error."""

    def __post_init__(self) -> None:
        self.data = self.top / self.name
        self.data.mkdir()
        self.upstream = upstream_file(self.top, [1, 2, 3], f"idx_{self.name}")

    def environment(self) -> dict[str, str]:
        return {**os.environ, "IDXTOOL": self.tool, "DATASET": str(self.data / f"{self.name}.idx"), "SERVERS": str(SERVERS),
                "OPTIONS": "--workers 16 --cache 256", "PORTS": self.ports, "UPSTREAM": str(self.upstream),
                "NGINX_COMMAND": " ".join(self.nginx), "NGINX_PID": str(self.top / "nginx.pid"), "RUN": str(self.top / "run"),
                "SYSTEMCTL": str(HERE / "stand-in.sh"), "STAND_IN": str(self.top / "stand-in"), "LINGER": self.linger}

    def start_call(self) -> subprocess.Popen[str]:
        return subprocess.Popen([sys.executable, "-B", HERE / "follow.py", self.name], env=self.environment(), text=True,
                                stdout=subprocess.DEVNULL, stderr=subprocess.PIPE)

    def call(self) -> tuple[int, str]:
        """One call of the script, as the timer makes it."""
        process = self.start_call()
        told = process.communicate(timeout=120)[1]
        self.told += told.splitlines()
        return process.returncode, told

    def write(self, step: int, revision: int = 0) -> None:
        """Has the program write a revision of a timestep."""
        (self.data / f"{step}.raw").write_bytes(raw_of(step + REVISIONS * revision).tobytes())
        ended = run(self.tool, *convert_words(self.data, step, self.name))
        assert ended.returncode == 0, ended.stderr

    def ask(self, step: int, port: "int | None" = None) -> "int | str":
        """The revision that is answered, by nginx or by one server."""
        try:
            reply = fetch(port or self.front, target_of(step, BOXES[0], 18, self.name))
        except (OSError, http.client.HTTPException) as fault:
            return repr(fault)
        return revision_of(step, BOXES[0], *reply)

    def ports_in_use(self) -> list[int]:
        """The servers that nginx's file names."""
        return [int(port) for port in re.findall(r"(?m)^\s*server 127\.0\.0\.1:(\d+)", self.upstream.read_text())]

    def differing(self, steps: int) -> dict[int, set["int | str"]]:
        """The timesteps of which the servers in nginx's file answer not all the same revision."""
        seen = {step: {self.ask(step, port) for port in self.ports_in_use()} for step in range(steps)}
        return {step: answers for step, answers in seen.items() if len(answers) != 1}

    def servers(self) -> int:
        """How many servers the stand-in for systemctl has."""
        return len(list((self.top / "stand-in").glob(f"idxtool@{self.name}.*.pid")))


def revision_of(step: int, box: tuple[tuple[int, int], ...], status: int, body: bytes) -> "int | str":
    """Which revision a reply has: -1 where the timestep is not there, a text where the reply is wrong."""
    if (status, body) == (404, b"NotPublished\n"):
        return -1
    number = array.array("I", body[:4])[0] // SIDE ** 3 if status == 200 and len(body) >= 4 else -1
    is_right = number % REVISIONS == step and body == slice_of(number, box[:2], box[2][0], 1)
    return number // REVISIONS if is_right else f"{status} {body[:20]!r}"


class Timer(threading.Thread):
    """Calls the script again and again, as the timer of systemd does."""

    def __init__(self, one: Followed) -> None:
        super().__init__()
        self.one, self.ended = one, threading.Event()

    def __enter__(self) -> "Timer":
        self.start()
        return self

    def __exit__(self, *_: object) -> None:
        self.ended.set()
        self.join()

    def run(self) -> None:
        while not self.ended.wait(pause()):
            self.one.call()


class Clients:
    """Clients that ask for what was written and what will be. What one of them has seen of a timestep, no request that begins
    later may miss."""

    def __init__(self, one: Followed, steps: int) -> None:
        self.one, self.steps = one, steps
        self.asked = self.again = self.not_yet = 0
        self.failed: list[str] = []
        self.old: list[str] = []
        self.seen = {step: -1 for step in range(steps)}
        self.lock, self.going = threading.Lock(), True
        self.threads = [threading.Thread(target=self.go, args=(seed, seed >= ONCE)) for seed in range(ONCE + KEPT)]

    def __enter__(self) -> "Clients":
        for each in self.threads:
            each.start()
        return self

    def __exit__(self, *_: object) -> None:
        self.going = False
        for each in self.threads:
            each.join()

    def go(self, seed: int, is_kept: bool) -> None:
        """Asks until the end, over one connection or over one for each request."""
        chance, link = random.Random(seed), None
        while self.going:
            step, box = chance.randrange(self.steps), chance.choice(BOXES)
            with self.lock:
                before = self.seen[step]
            try:
                reply, link = self.reply(target_of(step, box, 18, self.one.name), link)
                found = revision_of(step, box, *reply)
            except (OSError, http.client.HTTPException) as fault:
                found, link = repr(fault), None
            if not is_kept and link is not None:
                link.close()
                link = None
            self.note(step, before, found)
            time.sleep(0.01)

    def reply(self, target: str, link: "http.client.HTTPConnection | None") \
            -> tuple[tuple[int, bytes], http.client.HTTPConnection]:
        """A reply. A kept connection that turns out to be closed before it has answered is opened again, as browsers do."""
        if link is not None:
            try:
                return self.once(target, link)
            except (ConnectionResetError, BrokenPipeError, http.client.RemoteDisconnected):
                link.close()
                with self.lock:
                    self.again += 1
        return self.once(target, http.client.HTTPConnection("127.0.0.1", self.one.front, timeout=30))

    @staticmethod
    def once(target: str, link: http.client.HTTPConnection) -> tuple[tuple[int, bytes], http.client.HTTPConnection]:
        link.request("GET", target)
        got = link.getresponse()
        return (got.status, got.read()), link

    def note(self, step: int, before: int, found: "int | str") -> None:
        """Counts one reply."""
        with self.lock:
            self.asked += 1
            if isinstance(found, str):
                self.failed.append(f"{self.one.name} {step}: {found}")
                return
            self.not_yet += found < 0
            if found < before:
                self.old.append(f"{self.one.name} {step}: revision {found} after {before}")
            self.seen[step] = max(self.seen[step], found)

    def hold(self, trial: Trial, when: str) -> None:
        trial.hold(f"no request failed {when}", self.failed == [], (len(self.failed), self.failed[:3]))
        trial.hold(f"no old samples came after new ones {when}", self.old == [], (len(self.old), self.old[:3]))


def seconds_until(is_so: Callable[[], object]) -> float:
    """After how many seconds something is so; it is asked for at most twice as long as it may take."""
    start = time.monotonic()
    while not is_so() and time.monotonic() < start + 2 * SOON:
        time.sleep(0.02)
    return time.monotonic() - start


def try_writing_on(trial: Trial, one: Followed, other: Followed) -> None:
    """Ten timesteps are written one after another, one of them twice, and two of another dataset meanwhile."""
    chance, took = random.Random(1), []
    writes = [(one, step, 0) for step in range(STEPS)]
    writes.insert(7, (one, TWICE, 1))
    for step in range(BESIDE):
        writes.insert(3 + 4 * step, (other, step, 0))
    with Timer(one), Timer(other), Clients(one, STEPS) as clients, Clients(other, BESIDE) as others:
        for each, step, revision in writes:
            time.sleep(chance.random() * pause())
            each.write(step, revision)
            took.append(seconds_until(lambda: each.ask(step) == revision))
            trial.hold(f"{each.name}: revision {revision} of timestep {step} is answered soon", took[-1] < SOON, took[-1])
            trial.hold("the servers behind nginx have the same", each.differing(STEPS) == {}, each.differing(STEPS))
        gone = seconds_until(lambda: one.servers() == other.servers() == SERVERS)
        trial.hold("the old servers end", gone < SOON, (one.servers(), other.servers()))
    for each in (clients, others):
        each.hold(trial, "while timesteps were written")
    trial.hold("clients asked all the time", clients.asked > 1000 and others.asked > 1000, (clients.asked, others.asked))
    took.sort()
    print(f"{len(took)} timesteps were written while clients asked: each was answered after {took[0]:.1f} to {took[-1]:.1f} seconds, "
          f"{took[len(took) // 2]:.1f} in the middle; {clients.asked + others.asked} requests, "
          f"{len(clients.failed + others.failed)} failed, {len(clients.old + others.old)} with old samples after new ones; "
          f"{clients.again + others.again} asked again over a new connection")


MOMENTS: "list[Callable[[Followed], object]]" = [
    lambda one: one.upstream.read_bytes(),
    lambda one: all(workers_of(int((one.top / "nginx.pid").read_text())).values()),
    lambda one: set((one.top / "run" / one.name).iterdir()),
    lambda one: set((one.top / "stand-in").iterdir())]
"""What changes while a call does its work: nginx's file, whether nginx accepts connections, the folders of sets, servers."""


def kill_at(one: Followed, moment: int, seconds: float) -> None:
    """Kills a call as soon as one of the moments has come, or, of the number behind them, after some seconds."""
    look_at = MOMENTS[moment] if moment < len(MOMENTS) else lambda one: None
    before, end = look_at(one), time.monotonic() + (seconds if moment == len(MOMENTS) else SOON)
    process = one.start_call()
    while process.poll() is None and look_at(one) == before and time.monotonic() < end:
        time.sleep(0.001)
    process.kill()
    process.communicate()


def try_kills(trial: Trial, one: Followed) -> None:
    """Calls are killed at any point while clients ask; the next call goes on."""
    chance = random.Random(2)
    with Clients(one, STEPS) as clients:
        for count in range(KILLS):
            step, revision = count % STEPS, 1 + count // STEPS + (count % STEPS == TWICE)
            one.write(step, revision)
            for turn in range(3):
                kill_at(one, (3 * count + turn) % (len(MOMENTS) + 1), chance.random() * 0.6)
            one.call()
            trial.hold("the call after killed ones goes on", one.ask(step) == revision, (step, revision, one.told[-3:]))
            trial.hold("the servers behind nginx have the same", one.differing(STEPS) == {}, one.differing(STEPS))
        clients.hold(trial, "while calls were killed")
        two = [one.start_call() for _ in range(2)]
        trial.hold("of two calls at once none fails", {each.wait() for each in two} == {0})
        for each in two:
            each.communicate()
        one.write(0, 9)
        two = [one.start_call() for _ in range(2)]
        told = [each.communicate()[1] for each in two]
        trial.hold("one of two calls does the work", sorted(map(bool, told)) == [False, True] and one.ask(0) == 9, told)
    print(f"{3 * KILLS} calls were killed: {clients.asked} requests, {len(clients.failed)} failed, {len(clients.old)} with old samples")
    seconds_until(lambda: one.call() and one.servers() == SERVERS)
    trial.hold("the old servers end after killed calls", one.servers() == SERVERS, one.servers())
    sets = [each.name for each in (one.top / "run" / one.name).iterdir() if each.is_dir()]
    left = sorted(each.name for each in (one.top / "run").glob(f"{one.name}.*.env"))
    trial.hold("nothing is left of killed calls", len(sets) == 1 and len(left) == SERVERS, (sets, left))


def try_what_fails(trial: Trial, one: Followed) -> None:
    """Where something is wrong with the dataset or with nginx, the old servers stay, and a line says why."""
    header, servers = one.data / f"{one.name}.idx", one.upstream.read_text()
    text = header.read_bytes()

    def refuses(what: str, *words: str) -> None:
        status, told = one.call()
        trial.hold(f"{what}: a line says why", status == 1 and all(word in told for word in words), (status, told))
        trial.hold(f"{what}: the old servers stay", one.upstream.read_text() == servers and one.ask(1) == 2, one.ask(1))

    with Clients(one, STEPS) as clients:
        header.write_bytes(text.replace(b"(version)\n6", b"(version)\n7"))
        refuses("a wrong header", "cannot be opened", "OtherVersion")
        header.unlink()
        refuses("no header", "cannot be opened", "header line 1 MissingKey")
        header.write_bytes(text)
        shutil.copytree(one.data / "n00", one.data / "n10")
        os.truncate(one.data / "n10/00.bin", 20)
        refuses("a damaged timestep", "does not answer", "table file 0 row 0 CutShort")
        refuses("a damaged timestep, again", "table file 0 row 0 CutShort", "tried again")
        shutil.rmtree(one.data / "n10")
        trial.hold("nothing is new when it is gone", one.call()[0] == 0 and one.upstream.read_text() == servers)
        one.write(1, 3)
        extra = one.top / "broken-upstream.conf"
        extra.write_text("nonsense;\n")
        refuses("a wrong file of nginx", "nginx -t", "nonsense")
        extra.unlink()
        took = seconds_until(lambda: one.call()[0] == 0 and one.ask(1) == 3)
        trial.hold("nginx uses the new servers when it is right again", took < SOON, took)
        clients.hold(trial, "while something was wrong")


def try_lingering(trial: Trial, one: Followed) -> None:
    """An old server stays while it has a connection, but not without end."""
    one.linger = "4"
    link = socket.create_connection(("127.0.0.1", one.ports_in_use()[0]))
    one.write(2, 8)
    one.call()
    time.sleep(1)
    one.call()
    trial.hold("a connection keeps its server", one.ask(2) == 8 and one.servers() == 2 * SERVERS, one.servers())
    time.sleep(4)
    one.call()
    trial.hold("it does not keep it without end", one.servers() == SERVERS, one.servers())
    link.close()
    for port in range(3, 7):
        one.write(port, 8)
    one.linger = "60"


def try_restart(trial: Trial, one: Followed) -> None:
    """A server that systemd starts again has what the others of its set have, whatever was written meanwhile."""
    one.call()
    one.write(7, 8)
    unit = next((one.top / "stand-in").glob(f"idxtool@{one.name}.*.pid")).name.removesuffix(".pid")
    for word in ("stop", "start"):
        run(HERE / "stand-in.sh", word, unit, env=one.environment())
    for port in one.ports_in_use():
        wait_for_port(port)
    trial.hold("a server that is started again has what the others have", one.differing(STEPS) == {}, one.differing(STEPS))
    trial.hold("what was written is answered after the next call", one.call()[0] == 0 and one.ask(7) == 8, one.told[-3:])


def try_less(trial: Trial, one: Followed) -> None:
    """What was taken away is answered no more; servers that have ended are started again; nginx may be down meanwhile."""
    one.call()
    shutil.rmtree(one.data / f"n{TWICE:02}.r1")
    shutil.rmtree(one.data / "n09.r1")
    shutil.rmtree(one.data / "n09")
    one.call()
    trial.hold("a revision that was taken away is answered no more", one.ask(TWICE) == 0, one.ask(TWICE))
    trial.hold("a timestep that was taken away is answered no more", one.ask(9) == -1, one.ask(9))
    for file in (one.top / "stand-in").glob(f"idxtool@{one.name}.*.pid"):
        os.kill(int(file.read_text()), signal.SIGKILL)
    time.sleep(0.2)
    trial.hold("servers that have ended are replaced", one.call()[0] == 0 and one.ask(0) == 9, one.told[-3:])


def stop_nginx(one: Followed) -> None:
    """Ends nginx, and waits for its end."""
    pid = one.top / "nginx.pid"
    if pid.exists():
        os.kill(int(pid.read_text()), signal.SIGTERM)
        seconds_until(lambda: not pid.exists())


def try_without_nginx(trial: Trial, one: Followed) -> None:
    """While nginx does not run, its file is kept up with the dataset."""
    stop_nginx(one)
    one.write(5, 6)
    status, told = one.call()
    trial.hold("nginx may be down", status == 0 and "nginx does not run" in told, (status, told))
    run(*one.nginx)
    wait_for_port(one.front)
    trial.hold("when it starts it has the new servers", one.ask(5) == 6, one.ask(5))
    trial.hold("then all is as ever", one.call()[0] == 0 and one.ask(5) == 6 and one.call()[1] == "", one.told[-3:])
    master = int((one.top / "nginx.pid").read_text())
    os.kill(master, signal.SIGWINCH)
    seconds_until(lambda: all(workers_of(master).values()))
    trial.hold("an nginx that accepts no more does so again", one.call()[0] == 0 and one.ask(5) == 6, one.told[-3:])


def try_following(trial: Trial, tool: str, top: Path) -> None:
    """All of it, with an nginx of one's own in the folder `top`."""
    nginx = nginx_program(trial)
    if nginx is None:
        return
    for folder in (top, top / "stand-in", top / "run"):
        folder.mkdir(mode=0o755)
    fronts = free_ports(2)
    words = [nginx, "-c", str(top / "nginx.conf"), "-e", str(top / "nginx.log")]
    one, other = (Followed(name, tool, top, front, words, PORTS) for name, front in zip("nm", fronts))
    nginx_file(top, "".join(site_text(top, each.front, each.data, f"idx_{each.name}") for each in (one, other)), "on")
    with ExitStack() as ends:
        ends.callback(end_servers, top / "stand-in")
        ends.callback(stop_nginx, one)
        started = run(*words)
        trial.hold("nginx starts", started.returncode == 0, started.stderr)
        for each in (one, other):
            status, told = each.call()
            trial.hold("a dataset that is not there yet is said", status == 1 and "cannot be opened" in told, told)
            each.write(99)
            status, told = each.call()
            trial.hold("its first timestep is served", status == 0 and each.ask(99) == 0, told)
        try_writing_on(trial, one, other)
        try_kills(trial, one)
        try_what_fails(trial, one)
        try_lingering(trial, one)
        try_restart(trial, one)
        try_less(trial, one)
        try_without_nginx(trial, one)


def end_servers(folder: Path) -> None:
    """Ends the servers that are left."""
    for file in folder.glob("*.pid"):
        try:
            os.kill(int(file.read_text()), signal.SIGTERM)
        except ProcessLookupError:
            pass
