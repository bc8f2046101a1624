#!/usr/bin/env python3
"""Refuses each allocation in turn while events are done in the world of a dataset, and looks at what comes of it.

    check/starved.py [--program PROGRAM] [--seed 1] [--seeds 10] [--events 60]

PROGRAM is the one of crates/idx_test_events. Each seed makes a random world with so many events, which are done one by one in one
run and replayed in another. The first allocation behind the reading of the table is refused in one run, the second in the next, and
so on until a run meets none. What is held of each: an event that is refused for want of memory has left the world as it was, so
that all other events are refused or done, all questions answered and all files written as the model has it where this event never
came; or there is no world, for want of memory; or what was asked for had no need of the allocation, and all is as it is with
memory; or the memory for a row or for the text was refused, and the program ends with status 1 and an error, behind nothing but the
front of what is right. Some allocations of the reading are refused too. starved.c is the library that refuses; it is compiled by
$CC, or cc; without it nothing is tried, and a line says so. The last line is `N passed, M failed`, of runs.
"""
from __future__ import annotations

import argparse
import os
import re
import shutil
import struct
import subprocess
import sys
import tempfile
from collections.abc import Iterator
from concurrent.futures import ThreadPoolExecutor
from dataclasses import dataclass, field
from functools import cache
from pathlib import Path
from random import Random

import events_cases
import events_table
from events_model import NoWorld
from events_table import Setting
from results import status_of

PROGRAM = Path(__file__).resolve().parent.parent / "crates" / "idx_test_events" / "out" / "idx_test_events"
SECONDS = 120
READING = 40
"""So many allocations of the reading of a table are refused, spread over all of it."""
AT_ONCE = 4
MOST_SHOWN = 200


@dataclass
class Came:
    """How a run ended: its status, what it printed, how many allocations it asked for, and whether one was refused."""
    status: int
    output: str
    errors: str
    calls: int
    is_refused: bool


@dataclass
class Shim:
    """The program, and the library that refuses."""
    program: Path
    library: Path

    def run(self, table: Path, call: int = 0) -> Came:
        """Does a table, with the allocation of this number refused; none where it is 0."""
        with tempfile.NamedTemporaryFile(dir=self.library.parent) as count, open(table, "rb") as rows:
            count.write(bytes(16))
            count.flush()
            environment = {**os.environ, "LD_PRELOAD": str(self.library), "STARVED_COUNT": count.name, "STARVED_CALL": str(call)}
            run = subprocess.run([self.program], stdin=rows, capture_output=True, timeout=SECONDS, check=False, env=environment)
            calls, refused = struct.unpack("2Q", Path(count.name).read_bytes())
        return Came(run.returncode, run.stdout.decode(errors="replace"), run.stderr.decode(errors="replace"), calls, refused == 1)


@dataclass
class Tried:
    """A world whose events are done by one word, and what the model says of it."""
    name: str
    setting: Setting
    word: str
    known: dict[int | None, str] = field(default_factory=dict)

    def rows(self) -> list[str]:
        """The rows of its table, of which the last one does the events."""
        return events_table.rows(self.name, self.setting, [self.word])

    def table(self, count: int | None = None) -> str:
        """The first rows of its table, or all."""
        return "".join(f"{row}\n" for row in self.rows()[:count])

    def put(self, folder: Path, count: int | None = None) -> Path:
        """Writes these rows to a file, which is always read in the same pieces."""
        path = folder / f"table{'' if count is None else count}"
        path.write_text(self.table(count))
        return path

    def wanted(self, refused: int | None) -> str:
        """What is right where the event of a place is refused for want of memory; of no event where there is none."""
        if refused not in self.known:
            self.known[refused] = self.printed(refused)
        return self.known[refused]

    def printed(self, refused: int | None) -> str:
        """The same, worked out."""
        if refused is None:
            return events_table.printed(self.table())
        world, events = self.setting.world(), self.setting.events
        said = []
        for place, event in enumerate(events):
            if place == refused:
                said.append(f"refused {place} NoMemory")
            elif not world.may(event):
                said.append(f"refused {place} NotEnabled")
            else:
                world.do(event)
                continue
            if self.word == "replay":
                break
        said += [f"stepped {len(events)}"] if self.word == "steps" else []
        said += events_table.answers(world) + (events_table.files(world) if self.setting.files else [])
        return "".join(f"{line}\n" for line in [f"== {self.name}", *said])

    def fault(self, came: Came) -> str | None:
        """What is wrong with a run of which an allocation was refused."""
        found = re.findall(r"^refused ([0-9]+) NoMemory$", came.output, re.MULTILINE)
        if came.status == 1:
            is_said = came.errors.startswith("Error: ")
            return None if is_said and self.is_front(came.output) else f"it ends with 1 otherwise: {came.errors[:MOST_SHOWN]}"
        if came.status != 0 or came.errors:
            return f"it ends with {came.status}: {came.errors[:MOST_SHOWN]}"
        if came.output == f"== {self.name}\nno world NoMemory\n":
            return None
        if len(found) > 1:
            return "more than one event is refused for want of memory"
        return None if came.output == self.wanted(int(found[0]) if found else None) else f"of event {found} it prints otherwise"

    def is_front(self, output: str) -> bool:
        """Whether a text is the front of what is right."""
        return self.wanted(None).startswith(output)


def worlds(seed: int, count: int) -> Iterator[Tried]:
    """The world of a seed, with its events one by one and replayed; none where the model has no world of it."""
    random = Random(f"starved/{seed}")
    setting = events_cases.draw_setting(random, False)
    try:
        events, done = events_cases.draw_events(random, setting, count)
    except NoWorld:
        return
    for word, listed in (("steps", events), ("replay", done)):
        setting = Setting(**{**vars(setting), "events": listed})
        yield Tried(f"{seed}", setting, word)


def try_world(shim: Shim, world: Tried) -> list[bool]:
    """Refuses each allocation of a world in turn, and says of each run whether it is right."""
    table = world.put(shim.library.parent)
    whole, reading = shim.run(table), shim.run(world.put(shim.library.parent, -1)).calls
    results = [whole.status == 0 and whole.output == world.wanted(None) and not whole.is_refused]
    if not results[0]:
        print(f"seed {world.name}, {world.word}: with memory it is not right")
        return results
    calls = [*range(1, reading, max(1, reading // READING)), *range(reading, whole.calls + 2)]
    with ThreadPoolExecutor(AT_ONCE) as pool:
        for call, came in zip(calls, pool.map(lambda call: shim.run(table, call), calls)):
            is_last = call == whole.calls + 1
            found = world.fault(came) if came.is_refused else None if is_last else "no allocation is refused"
            if is_last and came.is_refused:
                found = "a run with all allocations asks for one more"
            results.append(found is None)
            if found is not None:
                print(f"seed {world.name}, {world.word}, allocation {call}: {found}")
    return results


@cache
def compiler() -> list[str]:
    """The C compiler."""
    return (os.environ.get("CC") or "cc").split()


def main() -> int:
    """Tries; 1 where anything is wrong."""
    parser = argparse.ArgumentParser(description=__doc__, formatter_class=argparse.RawDescriptionHelpFormatter)
    parser.add_argument("--program", type=Path, default=PROGRAM)
    parser.add_argument("--seed", type=int, default=1, help="the first seed")
    parser.add_argument("--seeds", type=int, default=10, help="how many there are")
    parser.add_argument("--events", type=int, default=60, help="how many events each has")
    given = parser.parse_args()
    results: list[bool] = []
    if shutil.which(compiler()[0]) is None:
        print(f"starved: no C compiler {compiler()[0]} here, so nothing is tried")
        return status_of(results)
    with tempfile.TemporaryDirectory() as folder:
        library = Path(folder) / "starved.so"
        subprocess.run([*compiler(), "-O2", "-shared", "-fPIC", "-o", library, Path(__file__).with_suffix(".c")], check=True)
        shim = Shim(given.program.absolute(), library)
        for seed in range(given.seed, given.seed + given.seeds):
            for world in worlds(seed, given.events):
                results += try_world(shim, world)
    return status_of(results)


if __name__ == "__main__":
    sys.exit(main())
