#!/usr/bin/env python3
"""Holds the replay of events in the world of a dataset against a plain model.

    check/events.py [--program PROGRAM] [--seed 1] [--seeds 100]
    check/events.py --table SEED
    check/events.py --stored
    check/events.py --wanted

PROGRAM reads tables of worlds and of events in them, and prints which events were refused and how each question is
answered; crates/idx_test_events is that program. Each seed makes a random world with 200 events, of which the model
lets most happen; one in 20 has blocks of 16 MiB, so that a question has more than one round. The events are done one
by one, behind refusals too; they are replayed up to the first refusal; and those that may happen are replayed in a
world of their own. What is printed is compared with the model, and so is what is wanted of the stored table, which
--stored does alone, without the program; --wanted prints it, and --table prints the table of a seed. The last line is
`N passed, M failed`; the exit status is 1 where any failed.
"""
from __future__ import annotations

import argparse
import subprocess
import sys
from itertools import zip_longest
from pathlib import Path
from random import Random

import events_cases
import events_table
from events_model import NoWorld
from results import status_of

CRATE = Path(__file__).resolve().parent.parent / "crates" / "idx_test_events"
PROGRAM = CRATE / "out" / "idx_test_events"
EVENTS = 200
WIDE = 20
"""One in so many worlds has blocks so large that a question has several rounds."""
SECONDS = 120


def table_of(seed: int) -> str:
    """The table of a seed."""
    random = Random(f"events/{seed}")
    setting = events_cases.draw_setting(random, seed % WIDE == 0)
    try:
        setting.events, done = events_cases.draw_events(random, setting, EVENTS)
    except NoWorld:
        done = []
    rows = events_table.rows(f"{seed}", setting, ["steps", "replay"])
    setting.events = done
    return "".join(f"{row}\n" for row in rows + events_table.rows(f"{seed} again", setting, ["replay"]))


def difference(want: str, came: str) -> str | None:
    """The first line that differs."""
    lines = zip_longest(want.splitlines(), came.splitlines())
    places = (place for place, (one, other) in enumerate(lines, 1) if one != other)
    place = next(places, None)
    if place is None:
        return None
    one, other = ((text.splitlines() + [""] * place)[place - 1][:120] for text in (want, came))
    return f"line {place}: `{one}` is wanted, `{other}` came"


def outcome(program: Path, table: str) -> str:
    """What the program prints of a table, and why it ended otherwise than with 0."""
    run = subprocess.run([program], input=table.encode(), capture_output=True, timeout=SECONDS, check=False)
    failure = f"status {run.returncode}: {run.stderr.decode(errors='replace')}" if run.returncode != 0 else ""
    return run.stdout.decode(errors="replace") + failure


def stored() -> str:
    """The stored table."""
    return (CRATE / "stdin").read_text()


def passes(name: str, want: str, came: str) -> bool:
    """Whether two texts are the same; it says where they are not."""
    found = difference(want, came)
    if found is not None:
        print(f"{name}: {found}")
    return found is None


def parse_arguments() -> argparse.Namespace:
    """The words of this program."""
    parser = argparse.ArgumentParser(description=__doc__, formatter_class=argparse.RawDescriptionHelpFormatter)
    parser.add_argument("--program", type=Path, default=PROGRAM)
    parser.add_argument("--seed", type=int, default=1, help="the first seed")
    parser.add_argument("--seeds", type=int, default=100, help="how many there are")
    parser.add_argument("--table", type=int, help="print the table of this seed")
    parser.add_argument("--stored", action="store_true", help="compare the stored table alone")
    parser.add_argument("--wanted", action="store_true", help="print what is wanted of it")
    return parser.parse_args()


def main() -> int:
    """Compares; 1 where anything differs."""
    given = parse_arguments()
    if given.table is not None or given.wanted:
        print(table_of(given.table) if given.table is not None else events_table.printed(stored()), end="")
        return 0
    passed = [passes("the stored table", events_table.printed(stored()), (CRATE / "stdout").read_text())]
    if not given.stored:
        for seed in range(given.seed, given.seed + given.seeds):
            table = table_of(seed)
            passed.append(passes(f"seed {seed}", events_table.printed(table), outcome(given.program, table)))
    return status_of(passed)


if __name__ == "__main__":
    sys.exit(main())
