#!/usr/bin/env python3
"""Runs two `convert` of one timestep that have no lock in common, as on two machines, and stops one between any two calls.

    check/two_machines.py PROGRAM [--every 1] [--only KIND]

It is the program as it is, whose `flock` strace answers with 0 (Debian's package `strace`; without it nothing is tried, and a
line says so). A run is stopped behind a system call that touches a path, every eighth one or with `--every 1` each, and goes on
later:

- `first`: it is stopped, the other run goes from its beginning to its end, and then it goes on; with a header that stands, and
  with none;
- `second`: the other run is stopped first, once its first file is there, before its last one, or when all files are there; then
  this one is stopped, the other goes on to its end, and then this one goes on;
- `ending`: the other is stopped when all its files are there, and then this one, too; the other goes on, is stopped once more, this
  one goes on to its end, and then the other does;
- `killed`: it is killed there.

However they went: one at least ended with 0; a run that did has left a revision of its own, whole and with its own samples; the others
have ended with 5 and said why; no revision is of neither run; no name of a staged folder is taken twice. Then a third run writes the timestep with 0, as a further revision where one
stands, and nothing that was staged is left. Before that single runs are tried whose `flock` fails: where there are no locks a run goes
on without, but for an empty header, which is locked before it is replaced. The last line is `N passed, M failed`.
"""
from __future__ import annotations

import os
import re
import shutil
import signal
import subprocess
import sys
import tempfile
import time
from collections import Counter
from pathlib import Path

from results import status_of, why_no_strace, words_of

SECONDS = 120
BOX, FIELD, MASK, NAMES, TIMES = "0 7 0 7 0 7", "a uint8", "V012012012", "./%01x/%02x.bin", "0 9 time%04d/"
CALLS = "openat,statx,mkdir,rename,link,unlink,unlinkat,rmdir,readlink"
"""The system calls of the program that touch a path."""
KINDS = ["first", "first, no header yet", "second, one file", "second, some files", "second, all files", "ending", "killed"]
STORE_FAULT = 5
STAGED = (".part", ".lock")


def words(program: str, raw: Path) -> list[str]:
    """The words of a run. Its timestep has eight files, below a folder of their own."""
    return [program, "convert", "v.idx", str(raw), BOX, FIELD, MASK, "4", "4", NAMES, TIMES, "0"]


class Call:
    """A system call of a run: its name, and which one of that name it is, from 1."""

    def __init__(self, name: str, number: int, line: str) -> None:
        self.name, self.number, self.line = name, number, line

    def __str__(self) -> str:
        return f"{self.name} {self.number}"


class Run:
    """A run of the program under strace, with no lock in common with others, that is stopped behind each of one or two calls."""

    def __init__(self, top: Path, name: str, line: list[str], stops: tuple[Call, ...]) -> None:
        self.log = top.with_name(f"{top.name}-{name}.log")
        self.log.unlink(missing_ok=True)
        strace = ["strace", "-f", "-qq", "-o", str(self.log), "-e", f"trace={CALLS},flock", "-e", "inject=flock:retval=0"]
        for call in {stop.name for stop in stops}:
            first, *others = sorted(stop.number for stop in stops if stop.name == call)
            strace += ["-e", f"inject={call}:signal=STOP:when={first}" + "".join(f"+{other - first}" for other in others)]
        self.process = subprocess.Popen([*strace, *line], cwd=top, stdin=subprocess.DEVNULL, stdout=subprocess.PIPE,
                                        stderr=subprocess.PIPE)
        self.stops = 0

    def lines(self) -> list[str]:
        """What strace has said so far, whole lines alone."""
        try:
            text = self.log.read_text(errors="replace")
        except FileNotFoundError:
            return []
        return text.split("\n")[:-1]

    def is_stopped(self) -> bool:
        """Waits until the run is stopped once more, or has ended; false where it has."""
        end = time.monotonic() + SECONDS
        while time.monotonic() < end:
            if sum("--- stopped by SIGSTOP ---" in line for line in self.lines()) > self.stops:
                self.stops += 1
                return True
            if self.process.poll() is not None:
                self.stops = 0
                return False
            time.sleep(0.002)
        raise RuntimeError("a run neither stops nor ends")

    def number(self) -> int:
        """The number of the program's process, which strace writes before each line."""
        return int(self.lines()[0].split()[0])

    def goes_on(self) -> None:
        """Lets a run that is stopped go on; nothing where it has ended."""
        if self.stops > 0:
            os.kill(self.number(), signal.SIGCONT)

    def end(self) -> tuple[int, str]:
        """Lets the run go on to its end, also where it is stopped again, and gives its status and what it said."""
        self.goes_on()
        while self.is_stopped():
            self.goes_on()
        out, errors = self.process.communicate(timeout=SECONDS)
        return self.process.returncode, (out + errors).decode(errors="replace")

    def kill(self) -> None:
        """Kills a run that is stopped."""
        os.kill(self.number(), signal.SIGKILL)
        self.process.communicate(timeout=SECONDS)

    def names(self) -> list[str]:
        """The names that the run took below the folder of all: of its own folder, and of what it dropped."""
        taken = [re.search(r'(?:mkdir\(|rename\("[^"]*", )"time0000[^/"]*\.part/([^/"]+)".* = 0$', line) for line in self.lines()]
        return [found[1] for found in taken if found]

    def calls(self) -> list[Call]:
        """The system calls that the run made, in their order."""
        count: Counter[tuple[str, str]] = Counter()
        calls = []
        for line in self.lines():
            found = re.match(r"(\d+) +(\w+)\((.*)", line)
            if found and found[2] in CALLS.split(","):
                count[found[1], found[2]] += 1
                calls.append(Call(found[2], count[found[1], found[2]], found[3]))
        return calls


def files_of(folder: Path) -> dict[str, bytes] | None:
    """The files of a revision, by name; none where it does not stand."""
    if not folder.is_dir():
        return None
    return {str(path.relative_to(folder)): path.read_bytes() for path in sorted(folder.rglob("*")) if path.is_file()}


def revisions_of(top: Path) -> list[dict[str, bytes]]:
    """The files of the revisions that stand, as far as there is no gap."""
    revisions = []
    for revision in range(4):
        files = files_of(top / ("time0000" if revision == 0 else f"time0000.r{revision}"))
        if files is None:
            break
        revisions.append(files)
    return revisions


class Wanted:
    """What runs alone leave, and which calls they make."""

    def __init__(self, program: str, top: Path) -> None:
        self.program = program
        self.runs: list[Run] = []
        self.names: list[str] = []
        self.raws = [top / f"{name}.raw" for name in "abc"]
        self.files = []
        for number, raw in enumerate(self.raws):
            raw.write_bytes(bytes((at * 7 + number * 31 + at // 251) % 251 for at in range(8 ** 3)))
            alone = top / f"alone-{number}"
            alone.mkdir()
            ended = subprocess.run(words(program, raw), cwd=alone, capture_output=True, timeout=SECONDS)
            if ended.returncode != 0:
                sys.exit(f"a run alone ends with {ended.returncode}: {ended.stderr.decode(errors='replace')}")
            self.files.append(files_of(alone / "time0000"))
            self.header = (alone / "v.idx").read_bytes()

    def folder(self, top: Path, kind: str) -> Path:
        """A new folder, with a header where one stands. What the runs before took as names is noted."""
        self.names += [name for run in self.runs for name in run.names()]
        self.runs.clear()
        shutil.rmtree(top, ignore_errors=True)
        top.mkdir()
        if "no header" not in kind:
            (top / "v.idx").write_bytes(self.header)
        return top

    def run(self, top: Path, which: int, *stops: Call) -> Run:
        """A run with the volume of this number."""
        self.runs.append(Run(top, "abc"[which], words(self.program, self.raws[which]), stops))
        return self.runs[-1]


def made_files(calls: list[Call]) -> list[Call]:
    """The calls by which the files of the timestep were made."""
    return [call for call in calls if call.name == "openat" and ".bin" in call.line and "O_CREAT" in call.line and "ENOENT" not in call.line]


def halts_of(kind: str, calls: list[Call]) -> Call | None:
    """Behind which call the other run is stopped first."""
    made = made_files(calls)
    return {"second, one file": made[0], "second, some files": made[-2], "second, all files": made[-1], "ending": made[-1]}.get(kind)


def stops_of(wanted: Wanted, top: Path, kind: str) -> tuple[Call | None, list[Call]]:
    """Where the other run is stopped first, if it is, and all calls behind which one is stopped then."""
    alone = wanted.run(wanted.folder(top, kind), 0)
    alone.end()
    halt = halts_of(kind, alone.calls())
    if halt is None:
        return None, alone.calls()
    wanted.folder(top, kind)
    other = wanted.run(top, 0, halt)
    other.is_stopped()
    if kind != "ending":
        this = wanted.run(top, 1)
        this.end()
        other.end()
        return halt, this.calls()
    this = wanted.run(top, 1, halt_beside(wanted, top.with_name("beside"), halt))
    this.is_stopped()
    before = len(other.calls())
    other.end()
    this.end()
    return halt, other.calls()[before:]


def halt_beside(wanted: Wanted, top: Path, halt: Call) -> Call:
    """The call by which a run has made all its files that began while another one was stopped behind a call."""
    wanted.folder(top, "")
    other = wanted.run(top, 0, halt)
    other.is_stopped()
    this = wanted.run(top, 1)
    this.end()
    other.end()
    return made_files(this.calls())[-1]


def goes(wanted: Wanted, top: Path, kind: str, halt: Call | None, stop: Call, beside: Call | None) -> list[tuple[int, int, str]]:
    """Runs two, and gives of each that ended the number of its volume, its status and what it said."""
    if halt is None:
        this = wanted.run(top, 0, stop)
        this.is_stopped()
        if kind == "killed":
            this.kill()
            return []
        other = wanted.run(top, 1)
        return [(1, *other.end()), (0, *this.end())]
    if beside is None:
        other = wanted.run(top, 0, halt)
        other.is_stopped()
        this = wanted.run(top, 1, stop)
        this.is_stopped()
        return [(0, *other.end()), (1, *this.end())]
    other = wanted.run(top, 0, halt, stop)
    other.is_stopped()
    this = wanted.run(top, 1, beside)
    this.is_stopped()
    other.goes_on()
    other.is_stopped()
    return [(1, *this.end()), (0, *other.end())]


def wrong_in(wanted: Wanted, top: Path, kind: str, ends: list[tuple[int, int, str]]) -> list[str]:
    """What is wrong with what stands behind two runs."""
    wrong = []
    revisions = revisions_of(top)
    for which, status, said in ends:
        if status == 0 and revisions.count(wanted.files[which]) != 1:
            wrong.append(f"run {which} ended with 0, and its files stand {revisions.count(wanted.files[which])} times")
        if status not in (0, STORE_FAULT) or status == STORE_FAULT and len(said.split("\n")) < 3:
            wrong.append(f"run {which} ended with {status} and {said!r}")
    if any(files not in wanted.files[:2] for files in revisions):
        wrong.append("a revision is of neither run")
    good = sum(status == 0 for _, status, _ in ends)
    if kind != "killed" and good == 0:
        wrong.append(f"none ended with 0: {ends}")
    if kind != "killed" and len(revisions) != good:
        wrong.append(f"{good} ended with 0, and {len(revisions)} revisions stand")
    return wrong


def left_overs(top: Path) -> list[str]:
    """What is left of staged timesteps."""
    return sorted(str(path.relative_to(top)) for path in top.iterdir() if path.name.startswith("time") and path.name.endswith(STAGED))


def wrong_behind(wanted: Wanted, top: Path) -> list[str]:
    """What is wrong behind a third run, which writes the timestep, as a further revision where one stands."""
    before = len(revisions_of(top))
    third = subprocess.run(words(wanted.program, wanted.raws[2]), cwd=top, capture_output=True, timeout=SECONDS)
    wrong = []
    if third.returncode != 0 or revisions_of(top)[before:] != [wanted.files[2]]:
        wrong.append(f"a third run ended with {third.returncode} and {third.stderr.decode(errors='replace')!r}")
    if left_overs(top):
        wrong.append(f"left over: {left_overs(top)}")
    return wrong


NO_LOCKS = {"ENOLCK": "No locks available (os error 37)", "ENOSYS": "Function not implemented (os error 38)",
            "EOPNOTSUPP": "Operation not supported (os error 95)"}
"""How a system says that it has no locks."""


def ends_with(wanted: Wanted, top: Path, error: str) -> tuple[int, str]:
    """The status of a run whose `flock` fails, and what it said."""
    strace = ["strace", "-f", "-qq", "-o", str(top.with_name("flock.log")), "-e", "trace=flock", "-e", f"inject=flock:error={error}"]
    ended = subprocess.run([*strace, *words(wanted.program, wanted.raws[0])], cwd=top, capture_output=True, timeout=SECONDS)
    return ended.returncode, (ended.stdout + ended.stderr).decode(errors="replace")


def wrong_locks(wanted: Wanted, top: Path) -> list[str]:
    """What is wrong with single runs whose `flock` fails."""
    wrong = []
    for error, reason in NO_LOCKS.items():
        end = ends_with(wanted, wanted.folder(top, ""), error)
        if end != (0, "") or revisions_of(top) != [wanted.files[0]] or left_overs(top):
            wrong.append(f"{error}: {end}, left over: {left_overs(top)}")
        (wanted.folder(top, "") / "v.idx").write_bytes(b"")
        end = ends_with(wanted, top, error)
        if end != (STORE_FAULT, f"idxtool: store fault\n  v.idx: {reason}\n") or (top / "v.idx").read_bytes():
            wrong.append(f"{error} and an empty header: {end}")
    end = ends_with(wanted, wanted.folder(top, ""), "EIO")
    if end != (STORE_FAULT, "idxtool: store fault\n  time0000.lock: Input/output error (os error 5)\n") or revisions_of(top):
        wrong.append(f"EIO: {end}")
    return wrong


def main() -> int:
    parser = words_of(__doc__)
    parser.add_argument("--every", type=int, default=8, metavar="N", help="every how many calls a run is stopped")
    parser.add_argument("--only", choices=KINDS, metavar="KIND", help=", ".join(KINDS))
    asked = parser.parse_args()
    why = why_no_strace()
    if why:
        print(f"two_machines: {why}, so nothing is tried")
        return status_of([])
    program = os.path.abspath(asked.program)
    results: list[bool] = []
    with tempfile.TemporaryDirectory() as name:
        top = Path(name)
        wanted = Wanted(program, top)
        wrong = wrong_locks(wanted, top / "locks")
        results.append(not wrong)
        for text in wrong:
            print(text)
        for kind in [asked.only] if asked.only else KINDS:
            halt, stops = stops_of(wanted, top / "alone", kind)
            beside = halt_beside(wanted, top / "beside", halt) if kind == "ending" and halt else None
            count: Counter[tuple[int, ...]] = Counter()
            stops = stops[::-1][::asked.every]
            for stop in stops:
                at = wanted.folder(top / "pair", kind)
                ends = goes(wanted, at, kind, halt, stop, beside)
                wrong = wrong_in(wanted, at, kind, ends) + wrong_behind(wanted, at)
                count[tuple(status for _, status, _ in sorted(ends))] += 1
                results.append(not wrong)
                for text in wrong:
                    print(f"{kind}, stopped behind {stop} ({stop.line[:60]}): {text}")
            for statuses, times in sorted(count.items()):
                said = " and ".join(map(str, statuses)) or "nothing"
                print(f"{kind}: {times} of {len(stops)} ended with {said}")
        wanted.folder(top / "alone", "")
        twice = len(wanted.names) - len(set(wanted.names))
        print(f"{len(wanted.names)} names were taken, {twice} of them again")
        results.append(len(wanted.names) > 0 and twice == 0)
    return status_of(results)


if __name__ == "__main__":
    sys.exit(main())
