#!/usr/bin/env python3
"""Holds idxtool against the reference over real folders and links.

    check/compare.py PROGRAM [--seed 1] [--cases 300] [--served 21] [--heads 200] [--links 300] [--slow] [--keep]
    check/compare.py PROGRAM [--seed 1] --only NAME [--keep]

Each case is a folder of its own with some runs in it. Of each run standard output, the names and the bytes of all
files, the exit status and the first line on standard error are what the reference says, byte by byte, and further lines
of standard error begin with two spaces; of a run that serves also all that comes over its links. A difference is
printed with the command line that shows it, and the case goes on. The seed and the name of a case determine it. The
last line is `N passed, M failed`, of cases; the exit status is 1 where any failed.
"""
from __future__ import annotations

import argparse
import os
import resource
import shlex
import shutil
import subprocess
import sys
import tempfile
import traceback
from collections.abc import Iterator, Sequence
from concurrent.futures import ThreadPoolExecutor
from pathlib import Path
from random import Random

import cases
import commands
import drill
import reference
import server
import server_cases
import slow_cases
from differences import (Tree, difference, error_differences, put_tree, quoted, tree, tree_differences, with_files,
                         without_path, without_staged)
from results import status_of
from serving import Ended, Link, Server, Talk, limit_memory, play_links, read_back

SERVED, SLOW = "served", "slow"
SECONDS = 60
LONGEST_PRINTED = 2_000


class Case:
    """A folder, with runs of the program in it that are compared one by one."""

    def __init__(self, arguments: argparse.Namespace, name: str, at: Path) -> None:
        self.random = Random(f"{arguments.seed}/{name}")
        self.program = arguments.program
        self.name = name
        self.at = at
        self.keep = arguments.keep
        self.heads = arguments.heads
        self.links = arguments.links
        self.folder = os.fsencode(at / f"case-{name}")
        self.unfinished = False
        self.differences: list[str] = []
        self.runs = 0
        os.mkdir(self.folder)

    def run(self, words: Sequence[bytes], sink: bytes | None = None, memory: int | None = None) -> commands.Outcome:
        """Runs the program with these words, compares, and gives what the reference says.

        Where a number of bytes is given, the program has so much address space.
        """
        self.runs += 1
        before = tree(self.folder)
        want = of_sink(commands.run(words, self.folder), sink)
        came = self.start(words, sink, memory)
        found = list(self.compare(want, came, before, sink is None))
        if found:
            self.report(words, sink, found, before)
        return want

    def serve(self, words: Sequence[bytes], links: Sequence[Link], sink: bytes | None = None) -> None:
        """Runs the program as a server of these links, and compares what each gets and how the run ends."""
        self.serve_peers(words, len(links), lambda address, site: play_links(address, site, links), sink)

    def serve_short(self, words: Sequence[bytes], links: Sequence[Link], memory: int, room: int) -> None:
        """The same in so many bytes of address space, which have room for answers of so many bytes."""
        talk: Talk = lambda address, site: play_links(address, site.with_room(room), links)
        self.serve_peers(words, len(links), talk, memory=memory)

    def serve_peers(self, words: Sequence[bytes], links: int, talk: Talk, sink: bytes | None = None,
                    memory: int = resource.RLIM_INFINITY) -> None:
        """Runs the program as a server of so many links, which are talked over, and compares how the run ends."""
        self.runs += 1
        before = tree(self.folder)
        whole = [*words, b"--links", b"%d" % links]
        site = server.open_site(words, self.folder)
        with Server([os.fsencode(self.program), *whole], self.folder, sink, memory) as running:
            found = list(running.listening_differences(b"%d steps of %s" % (len(site.posts), words[1])))
            if running.address is not None:
                differences, counts = talk(running.address, site)
                found += differences or self.end_differences(running, links, counts, sink, before)
        if found:
            self.report(whole, sink, found, before)

    def end_differences(self, running: Server, links: int, counts: Sequence[int], sink: bytes | None,
                        before: Tree) -> list[str]:
        """Where the end of a server differs of whose replies there are as many as one of these counts."""
        came = running.end()
        outputs = [b"links %d replies %d\n" % (links, count) for count in counts]
        output = came.output if came is not None and came.output in outputs else outputs[0]
        return list(self.compare(of_sink(commands.Outcome(output=output), sink), came, before, sink is None, True))

    def start(self, words: Sequence[bytes], sink: bytes | None, memory: int | None) -> Ended | None:
        """Runs the program; None where it does not end."""
        line = [os.fsencode(self.program), *words]
        prepare = None if memory is None else lambda: limit_memory(memory)
        try:
            with open(sink, "wb") if sink else tempfile.TemporaryFile() as output:
                ended = subprocess.run(line, cwd=self.folder, stdin=subprocess.DEVNULL, stdout=output,
                                       stderr=subprocess.PIPE, timeout=SECONDS, check=False, preexec_fn=prepare)
                written = b"" if sink else read_back(output)
        except subprocess.TimeoutExpired:
            return None
        return Ended(ended.returncode, written, ended.stderr)

    def compare(self, want: commands.Outcome, came: Ended | None, before: Tree, has_output: bool,
                may_begin_early: bool = False) -> Iterator[str]:
        """Where a run differs from what the reference says."""
        if came is None:
            yield f"the program did not end in {SECONDS} seconds"
            return
        yield from difference("exit status", b"%d" % want.status, b"%d" % came.status)
        yield from error_differences(want.line, came.errors, may_begin_early)
        if has_output:
            yield from difference("standard output", want.output, came.output)
        self.unfinished = self.unfinished or want.unfinished
        standing = without_path(before, self.folder, want.staged)
        trees = with_files(standing, self.folder, want.files), tree(self.folder)
        yield from tree_differences(*(map(without_staged, trees) if self.unfinished else trees))

    def report(self, words: Sequence[bytes], sink: bytes | None, found: list[str], before: Tree) -> None:
        """Prints a run that differs, and keeps the folder as it was before it."""
        self.differences += found
        lines = [f"case {self.name}, run {self.runs}:"]
        if self.keep:
            kept = self.at / f"kept-{self.name}-{self.runs}"
            self.put_again(kept, words, sink, before)
            lines.append(f"  again: bash {shlex.quote(str(kept / 'run.sh'))}")
        line = shell_line(self.program, words, sink)
        lines.append(f"  {line if len(line) <= LONGEST_PRINTED else line[:LONGEST_PRINTED] + ' ..'}")
        print("\n".join(lines + [f"    {each}" for each in found]))

    def put_again(self, kept: Path, words: Sequence[bytes], sink: bytes | None, before: Tree) -> None:
        """Puts a folder with a script that runs a run again in it."""
        folder = kept / "before"
        folder.mkdir(parents=True)
        put_tree(os.fsencode(folder), before)
        moved = [word.replace(self.folder, os.fsencode(folder)) for word in words]
        line = shell_line(self.program, moved, sink)
        (kept / "run.sh").write_text(f"cd {shlex.quote(str(folder))} && {line}\n")


def shell_line(program: str, words: Sequence[bytes], sink: bytes | None) -> str:
    """The command line of a run, as bash reads it."""
    return " ".join([shlex.quote(program), *map(quoted, words)]) + (f" >{quoted(sink)}" if sink else "")


def of_sink(want: commands.Outcome, sink: bytes | None) -> commands.Outcome:
    """What a run leaves whose output goes to a sink; one that is named takes nothing."""
    if sink is not None and want.status == 0 and want.output != b"":
        return commands.Outcome(9, b"idxtool: sink fault")
    return want


def run_case(arguments: argparse.Namespace, name: str, at: Path) -> bool:
    """Runs one case and answers whether it passed."""
    case = Case(arguments, name, at)
    try:
        kind = draw_case(case, name)
    except Exception:
        print(f"{traceback.format_exc()}case {name}: the case could not be made, or the reference failed")
        return False
    finally:
        shutil.rmtree(case.folder)
    if case.differences:
        print(f"  (of the kind {kind}; the case alone: --seed {arguments.seed} --only {name} --keep)")
    return not case.differences


def draw_case(case: Case, name: str) -> str:
    """Makes and runs the case of a name, and gives its kind."""
    kind, _, number = name.rpartition("-")
    if kind == SERVED:
        return server_cases.draw_case(case, int(number))
    return slow_cases.draw_case(case, int(number)) if kind == SLOW else cases.draw_case(case)


def names_of_cases(arguments: argparse.Namespace) -> list[str]:
    """The names of the cases that are run one after the other."""
    if arguments.only is not None:
        return [arguments.only]
    plain = [str(number) for number in range(arguments.first, arguments.first + arguments.cases)]
    return plain + [f"{SERVED}-{number}" for number in range(arguments.served)]


def run_cases(arguments: argparse.Namespace, at: Path) -> list[bool]:
    """Runs the cases, and answers for each whether it passed; the slow ones run side by side."""
    passed = [run_case(arguments, name, at) for name in names_of_cases(arguments)]
    if arguments.slow and arguments.only is None:
        names = [f"{SLOW}-{number}" for number in range(len(slow_cases.KINDS))]
        with ThreadPoolExecutor(len(names)) as pool:
            passed += pool.map(lambda name: run_case(arguments, name, at), names)
    return passed


def parse_arguments() -> argparse.Namespace:
    """The words of this program."""
    parser = argparse.ArgumentParser(description="Holds idxtool against the reference.")
    parser.add_argument("program")
    parser.add_argument("--seed", type=int, default=1)
    parser.add_argument("--cases", type=int, default=300, help="the number of cases of the other commands")
    parser.add_argument("--first", type=int, default=0, help="the number of the first of these")
    parser.add_argument("--served", type=int, default=len(server_cases.KINDS), help="the number of cases of a server")
    parser.add_argument("--heads", type=int, default=200, help="the number of random heads in one of these")
    parser.add_argument("--links", type=int, default=300, help="the number of links in a row in another")
    parser.add_argument("--slow", action="store_true", help="peers too that a server waits for, for about a minute")
    parser.add_argument("--only", help="the name of the one case to run")
    parser.add_argument("--keep", action="store_true", help="keep the folders of runs that differ")
    return parser.parse_args()


def main() -> int:
    """Runs the cases; 1 where any failed."""
    arguments = parse_arguments()
    sys.stdout.reconfigure(line_buffering=True)
    arguments.program = os.path.abspath(arguments.program)
    reference.check_example()
    server.check_example()
    drill.check_example()
    at = Path(tempfile.mkdtemp(prefix="idxtool-check-"))
    passed: list[bool] = []
    try:
        passed = run_cases(arguments, at)
    finally:
        if not arguments.keep or all(passed):
            shutil.rmtree(at)
    return status_of(passed)


if __name__ == "__main__":
    sys.exit(main())
