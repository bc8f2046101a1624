#!/usr/bin/env python3
"""Tries what stands in this folder; `try.sh` runs it, within a time limit. Python's own library is enough."""
from __future__ import annotations

import array
import http.client
import os
import random
import re
import shutil
import signal
import subprocess
import sys
import tempfile
import threading
import time
from contextlib import ExitStack
from dataclasses import dataclass, field
from pathlib import Path

from trial_common import (BOX, HERE, SECONDS, SIDE, Trial, convert_words, fetch, free_ports, header, nginx_file, nginx_program,
                          program, raw_of, run, site_text, slice_of, target_of, upstream_file, wait_for_port)
from trial_follow import try_following

STEPS = 8
ASKERS = 6
"""How many clients ask at the same time."""
PAUSE = 3
"""Seconds between the restarts of two servers: longer than nginx leaves a server alone that has failed (fail_timeout)."""


# What is installed


INSTALLED = {"bin/idxtool": 0o755, "share/man/man1/idxtool.1": 0o644, "share/bash-completion/completions/idxtool": 0o644,
             "share/doc/idxtool/nginx-idx.conf": 0o644, "share/doc/idxtool/nginx-upstream.conf": 0o644,
             "share/idxtool/index.html": 0o644, "lib/idxtool/follow.py": 0o755,
             "lib/systemd/system/idxtool@.service": 0o644, "lib/systemd/system/idxtool-follow@.service": 0o644,
             "lib/systemd/system/idxtool-follow@.timer": 0o644}


def files_of(folder: Path) -> dict[str, int]:
    """The files below a folder, each with its mode."""
    return {str(path.relative_to(folder)): path.stat().st_mode & 0o777 for path in folder.rglob("*") if path.is_file()}


def try_install(trial: Trial, top: Path, tool: str) -> None:
    """install.sh puts files with these modes below PREFIX, and --remove takes them away."""
    prefix, words = top / "prefix", {**os.environ, "IDXTOOL": tool}
    trial.hold("install.sh ends with 0", run(HERE / "install.sh", prefix, env=words).returncode == 0)
    trial.hold("the files below PREFIX", files_of(prefix) == INSTALLED, files_of(prefix))
    trial.hold("the program runs there", run(prefix / "bin/idxtool", "--version").stdout.startswith("idxtool "))
    unit = (prefix / "lib/systemd/system/idxtool@.service").read_text()
    trial.hold("the unit names the program", f"ExecStart={prefix}/bin/idxtool serve " in unit)
    settings = ("MALLOC_ARENA_MAX=1", "MemoryMax=", "LimitAS=")
    trial.hold("the unit limits memory", all(each in unit for each in settings))
    following = (prefix / "lib/systemd/system/idxtool-follow@.service").read_text()
    trial.hold("the unit names the script", f"ExecStart={prefix}/lib/idxtool/follow.py " in following)
    if shutil.which("systemd-analyze"):
        for name in ("idxtool@.service", "idxtool-follow@.service", "idxtool-follow@.timer"):
            seen = run("systemd-analyze", "verify", "--man=no", "--recursive-errors=no", prefix / "lib/systemd/system" / name)
            own = [line for line in seen.stderr.splitlines() if "idxtool" in line]
            trial.hold(f"systemd finds nothing wrong with {name}", seen.returncode == 0 and not own, seen.stderr)
    else:
        print("not tried: there is no systemd-analyze")
    trial.hold("a relative PREFIX is refused", run(HERE / "install.sh", "usr", env=words).returncode == 1)
    trial.hold("--remove ends with 0", run(HERE / "install.sh", "--remove", prefix, env=words).returncode == 0)
    trial.hold("nothing is left", files_of(prefix) == {}, files_of(prefix))


def try_manual(trial: Trial, tool: str) -> None:
    """The manual page has no error, and says every command and option that the program's own help says."""
    shown = run("man", "--warnings", "-l", HERE / "idxtool.1", env={**os.environ, "MANWIDTH": "200", "LC_ALL": "C.UTF-8"})
    trial.hold("man shows the page without a warning", shown.returncode == 0 and shown.stderr == "", shown.stderr)
    told = run(tool, "--help").stdout
    words = set(re.findall(r"(?m)^  idxtool ([a-z]+)", told)) | set(re.findall(r"--[a-z]+", told))
    missing = [word for word in sorted(words) if word not in shown.stdout]
    trial.hold("the page has each command and option of --help", missing == [] and len(words) > 5, missing)


def completions(tool: str, words: list[str], folder: Path) -> list[str]:
    """What bash offers for the last of some words."""
    script = ('source "$1"; shift; COMP_WORDS=("$@"); COMP_CWORD=$(($# - 1)); _idxtool; '
              'printf "%s\\n" "${COMPREPLY[@]}"')
    ended = run("bash", "-c", script, "bash", HERE / "idxtool.bash", tool, *words, cwd=folder)
    return sorted(filter(None, ended.stdout.splitlines()))


def try_completion(trial: Trial, tool: str, folder: Path) -> None:
    """Commands, files, fields and options that were not given yet are offered."""
    (folder / "other.raw").write_bytes(b"")
    start = ["serve", "n.idx", "127.0.0.1:80"]
    convert = ["convert", "n.idx", "other.raw", BOX, "n uint32", "auto", "12", "16", "./%02x.bin", "0 99 n%02d/", "0"]
    for words, wanted in (
            ([""], ["--help", "--version", "check", "convert", "cut", "drill", "info", "query", "serve"]),
            (["co"], ["convert"]),
            (["info", "n."], ["n.idx"]),
            (["check", "n."], ["n.idx"]),
            (["convert", "n.idx", "ot"], ["other.raw"]),
            ([*convert, "--"], ["--layout", "--ranks"]),
            ([*convert, "--layout", ""], ["hz", "rows"]),
            (["query", "n.idx", "0", ""], ["n"]),
            (["query", "n.idx", "0", "n", "0 1", "0", "1", "--"], ["--cache"]),
            ([*start, "--"], ["--cache", "--ingest", "--links", "--raw", "--workers"]),
            ([*start, "--cache", "64", "--"], ["--ingest", "--links", "--raw", "--workers"]),
            ([*start, "--raw", "ot"], ["other.raw"]),
            (["drill", ""], list("12345678"))):
        seen = completions(tool, words, folder)
        trial.hold(f"completion of {words}", seen == wanted, seen)


def try_package(trial: Trial, top: Path, tool: str) -> None:
    """The Debian package is installed below a root of its own and removed again; its files are all of root's."""
    if not shutil.which("dpkg-deb"):
        print("not tried: there is no dpkg-deb")
        return
    folder, root = top / "deb", top / "root"
    for each in (folder, root / "var/lib/dpkg/info", root / "var/lib/dpkg/updates"):
        each.mkdir(parents=True)
    (root / "var/lib/dpkg/status").touch()
    made = run(HERE / "deb.sh", folder, env={**os.environ, "IDXTOOL": tool})
    package = Path(made.stdout.strip())
    trial.hold("deb.sh makes a package", made.returncode == 0 and package.is_file(), made.stderr)
    owners = {line.split()[1] for line in run("dpkg-deb", "-c", package).stdout.splitlines()}
    trial.hold("all of its files are root's", owners == {"root/root"}, owners)
    version = run(tool, "--version").stdout.split()[1]
    control = run("dpkg-deb", "-f", package, "Package", "Version").stdout.split()
    trial.hold("its name and version", control == ["Package:", "idxtool", "Version:", version], control)
    dpkg = ["dpkg", f"--root={root}", "--force-depends", "--force-not-root", "--log=/dev/null"]
    put = run(*dpkg, "--install", package, env={**os.environ, "PATH": os.environ["PATH"] + ":/usr/sbin:/sbin"})
    wanted = {"usr/" + (name + ".gz" if name.endswith(".1") else name): mode for name, mode in INSTALLED.items()}
    trial.hold("dpkg installs it", put.returncode == 0 and files_below(root) == wanted, (put.stderr, files_below(root)))
    trial.hold("its program runs", run(root / "usr/bin/idxtool", "--version").returncode == 0)
    gone = run(*dpkg, "--purge", "idxtool", env={**os.environ, "PATH": os.environ["PATH"] + ":/usr/sbin:/sbin"})
    trial.hold("dpkg removes it", gone.returncode == 0 and files_below(root) == {}, (gone.stderr, files_below(root)))


def files_below(root: Path) -> dict[str, int]:
    """The files of a root but for the list of packages."""
    return {name: mode for name, mode in files_of(root).items() if not name.startswith("var/lib/dpkg/")}


# Eight timesteps side by side


def convert_environment(tool: str, folder: Path, name: str) -> dict[str, str]:
    """What convert-steps.sh wants to know for the same words."""
    return {**os.environ, "IDXTOOL": tool, "DATASET": str(folder / f"{name}.idx"), "RAW": str(folder / "%d.raw"), "BOX": BOX,
            "FIELDS": "n uint32", "BITS": "12", "PERFILE": "16", "TEMPLATE": "./%02x.bin", "TIME": f"0 99 {name}%02d/"}


def files_with_bytes(folder: Path) -> dict[str, bytes]:
    """The files of a folder with their bytes."""
    return {path.name: path.read_bytes() for path in folder.iterdir()}


def try_writing(trial: Trial, tool: str, folder: Path) -> None:
    """Eight processes write eight timesteps of a new dataset at the same time; each is right, and as if it were alone."""
    for step in range(STEPS + 1):
        (folder / f"{step}.raw").write_bytes(raw_of(step).tobytes())
    steps = "".join(f"{step}\n" for step in range(STEPS))
    beside = run("xargs", "-P", STEPS, "-n", 1, HERE / "convert-steps.sh", input=steps,
                 env=convert_environment(tool, folder, "n"))
    trial.hold("eight timesteps are written side by side by xargs", beside.returncode == 0, beside.stderr)
    for step in range(STEPS):
        got = subprocess.run([tool, "query", folder / "n.idx", str(step), "n", BOX, "0", "18"], capture_output=True, timeout=60)
        trial.hold(f"timestep {step} has its samples", got.stdout == raw_of(step).tobytes(), got.stderr)
        job = {"SLURM_ARRAY_TASK_ID": str(step), "SLURM_CPUS_PER_TASK": "2"}
        alone = run(HERE / "convert-steps.sh", env={**convert_environment(tool, folder, "alone"), **job})
        trial.hold(f"timestep {step} is written alone, as by a job of Slurm", alone.returncode == 0, alone.stderr)
        same = files_with_bytes(folder / f"n{step:02}") == files_with_bytes(folder / f"alone{step:02}")
        trial.hold(f"timestep {step} has the files that it has alone", same)
    wrong = run(HERE / "convert-steps.sh", "100", env=convert_environment(tool, folder, "n"))
    trial.hold("a refusal is the job's status", wrong.returncode == 8, wrong.stderr)


# Three servers behind nginx


class Server:
    """One server of the dataset, by the command line that the systemd unit has."""

    def __init__(self, tool: str, dataset: Path, port: int) -> None:
        unit = (HERE / "idxtool@.service").read_text()
        line = re.search(r"(?m)^ExecStart=@PREFIX@/bin/idxtool (.*)$", unit)
        assert line is not None
        values = {"${DATASET}": str(dataset), "${ADDRESS}": f"127.0.0.1:{port}", "$OPTIONS": "--workers 16 --cache 256"}
        self.words = [tool]
        for word in line[1].split():
            self.words += values[word].split() if word == "$OPTIONS" else [values.get(word, word)]
        self.start()

    def start(self) -> None:
        """Starts it, and waits until it says that it listens."""
        self.process = subprocess.Popen(self.words, stdout=subprocess.DEVNULL, stderr=subprocess.PIPE,
                                        env={**os.environ, "MALLOC_ARENA_MAX": "1"})
        assert self.process.stderr is not None
        self.line = self.process.stderr.readline().decode()

    def end(self, how: int = signal.SIGTERM) -> None:
        """Ends it, and waits for its end."""
        if self.process.poll() is None:
            self.process.send_signal(how)
        self.process.communicate()


@dataclass
class Load:
    """Clients that ask for slices at random, one after the other, and compare each byte."""
    port: int
    steps: int
    right: int = 0
    cut_off: int = 0
    """Replies that ended too early, and were asked for again: at most those under way when a server is killed."""
    wrong: list[str] = field(default_factory=list)
    going: bool = True
    lock: threading.Lock = field(default_factory=threading.Lock)

    def __enter__(self) -> "Load":
        self.threads = [threading.Thread(target=self.ask, args=(seed,)) for seed in range(ASKERS)]
        for each in self.threads:
            each.start()
        return self

    def __exit__(self, *_: object) -> None:
        self.going = False
        for each in self.threads:
            each.join(SECONDS)

    def wait_for(self, more: int) -> bool:
        """Waits until so many more right replies have come."""
        wanted, end = self.right + more, time.monotonic() + SECONDS
        while self.right < wanted and time.monotonic() < end:
            time.sleep(0.01)
        return self.right >= wanted

    def ask(self, seed: int) -> None:
        """Asks until the load ends."""
        chance = random.Random(seed)
        link = http.client.HTTPConnection("127.0.0.1", self.port, timeout=SECONDS)
        while self.going:
            step, level = chance.randrange(self.steps), chance.choice((12, 18))
            box = tuple((low, chance.randrange(low, SIDE)) for low in (chance.randrange(SIDE), chance.randrange(SIDE)))
            plane = chance.randrange(0, SIDE, 4)
            target = target_of(step, (*box, (plane, plane)), level)
            try:
                link.request("GET", target)
                reply = link.getresponse()
                status, body = reply.status, reply.read()
            except (http.client.HTTPException, OSError):
                link.close()
                with self.lock:
                    self.cut_off += 1
                continue
            is_right = status == 200 and body == slice_of(step, box, plane, 1 if level == 18 else 4)
            with self.lock:
                self.right += is_right
                if not is_right:
                    self.wrong.append(f"{target}: {status} {body[:20]!r}")
        link.close()


def try_places(trial: Trial, front: int) -> None:
    """Each timestep goes to one server, not all to the same, and what is asked for again comes out of nginx's cache."""
    places = {}
    for step in range(STEPS):
        asked = [header(front, target_of(step, ((0, 3), (0, 3), (plane, plane)), 18), "X-Server") for plane in range(4)]
        places[step] = set(asked)
    trial.hold("a timestep goes to one server", all(len(each) == 1 for each in places.values()), places)
    trial.hold("other timesteps go to others", len(set().union(*places.values())) > 1, places)
    again = []
    while len(again) < 50 and "HIT" not in again:
        again.append(header(front, target_of(0, ((1, 5), (2, 6), (3, 3)), 18), "X-Cache"))
        time.sleep(0.1)
    trial.hold("what is asked for again is kept", again[:2] == ["MISS", "MISS"] and again[-1] == "HIT", again)
    trial.hold("nothing is posted", post(front) == 403, post(front))


def post(port: int) -> int:
    """The status of a request that would change something."""
    link = http.client.HTTPConnection("127.0.0.1", port, timeout=SECONDS)
    link.request("POST", target_of(0, ((0, 0), (0, 0), (0, 0)), 0), b"x")
    status = link.getresponse().status
    link.close()
    return status


def try_serving(trial: Trial, tool: str, folder: Path) -> None:
    """One of three servers is killed under load, and started again; then all see a further timestep, one after the other."""
    nginx = nginx_program(trial)
    if nginx is None:
        return
    front, *ports = free_ports(4)
    with ExitStack() as ends:
        servers = [Server(tool, folder / "n.idx", port) for port in ports]
        for each in servers:
            ends.callback(each.end)
        told = f"  listening on 127.0.0.1:{ports[0]}, {STEPS} steps of {folder / 'n.idx'}\n"
        trial.hold("a server says where it listens", servers[0].line == told, servers[0].line)
        upstream_file(folder, ports)
        process = subprocess.Popen([nginx, "-c", nginx_file(folder, site_text(folder, front, folder)), "-e", folder / "nginx.log"],
                                   stderr=subprocess.PIPE)
        ends.callback(lambda: (process.terminate(), process.communicate(timeout=SECONDS)))
        wait_for_port(front)
        status, header = fetch(front, "/n.idx")
        trial.hold("nginx has the header", (status, header) == (200, (folder / "n.idx").read_bytes()), status)
        status, page = fetch(front, "/")
        trial.hold("nginx has the viewer", (status, page) == (200, (HERE.parent / "web/index.html").read_bytes()), status)
        trial.hold("nginx has nothing else", fetch(front, "/0.raw")[0] == 404)
        try_places(trial, front)
        with Load(front, STEPS) as load:
            trial.hold("slices are right by three servers", load.wait_for(300), load.wrong[:3])
            servers[1].end(signal.SIGKILL)
            trial.hold("slices are right by two servers", load.wait_for(300), load.wrong[:3])
            servers[1].start()
            trial.hold("slices are right by three again", load.wait_for(300), load.wrong[:3])
        trial.hold("no reply had a wrong status or byte", load.wrong == [], load.wrong[:3])
        trial.hold("at most each client had one reply cut off", load.cut_off <= ASKERS, load.cut_off)
        print(f"one of three servers was killed under load: {load.right} right replies, {load.cut_off} cut off")
        whole = ((0, SIDE - 1), (0, SIDE - 1))
        last = target_of(STEPS, (*whole, (5, 5)), 18)
        trial.hold("the next timestep is not there yet", fetch(front, last) == (404, b"NotPublished\n"))
        trial.hold("it is written", run(tool, *convert_words(folder, STEPS)).returncode == 0)
        with Load(front, STEPS) as load:
            for each in servers:
                each.end()
                each.start()
                time.sleep(PAUSE)
                trial.hold("slices are right after a restart", load.wait_for(100), load.wrong[:3])
        trial.hold("no reply was wrong meanwhile", load.wrong == [], load.wrong[:3])
        trial.hold("at most each client had one reply cut off at each restart", load.cut_off <= 3 * ASKERS, load.cut_off)
        print(f"three servers were restarted one after the other under load: {load.right} right replies, {load.cut_off} cut off")
        found = {fetch(port, last) for port in (front, *ports)}
        trial.hold("each server has the next timestep", found == {(200, slice_of(STEPS, whole, 5, 1))})


def main() -> int:
    trial, tool = Trial(), program()
    with tempfile.TemporaryDirectory() as name:
        top = Path(name)
        top.chmod(0o755)
        folder = top / "data"
        folder.mkdir()
        try_install(trial, top, tool)
        try_manual(trial, tool)
        try_package(trial, top, tool)
        try_writing(trial, tool, folder)
        try_completion(trial, tool, folder)
        try_serving(trial, tool, folder)
        try_following(trial, tool, top / "follow")
    print(f"{trial.passed} passed, {trial.failed} failed")
    return 1 if trial.failed else 0


if __name__ == "__main__":
    sys.exit(main())
