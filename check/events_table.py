"""Tables of worlds and of events in them: how they are written, and what the model says of them.

The rows are those that `crates/idx_test_events` reads; `check/README.md` says what each means and what is printed.
"""
from __future__ import annotations

from collections.abc import Sequence
from dataclasses import dataclass, field

import reference
from events_model import Ask, Event, NoWorld, World
from reference import Header


@dataclass
class Setting:
    """What a world is made of, and the events in it."""
    text: str = ""
    ranks: int = 1
    cache: int = 1
    volumes: list[tuple[int, bytes]] = field(default_factory=list)
    asks: list[Ask] = field(default_factory=list)
    events: list[Event] = field(default_factory=list)
    files: bool = False
    """Whether the written files are printed too."""

    def header(self) -> Header:
        """The dataset's header."""
        return reference.parse_header(self.text.replace("|", "\n").encode())

    def world(self) -> World:
        """A new world of this."""
        return World(self.header(), self.ranks, self.volumes, self.asks, self.cache)


# How a table is written


def ask_row(ask: Ask) -> str:
    """The row of a question."""
    ends = " ".join(str(end) for pair in ask.region for end in pair)
    return f"ask {ask.time} {ask.field} {ask.low} {ask.high} in {ends}"


def event_row(event: Event) -> str:
    """The row of an event."""
    return " ".join(map(str, event))


def rows(name: str, setting: Setting, runs: Sequence[str]) -> list[str]:
    """The rows of a world, and how its events are done."""
    return [f"world {name}", f"header {setting.text}", f"ranks {setting.ranks}", f"cache {setting.cache}",
            *(f"bytes {time} {raw.hex()}" for time, raw in setting.volumes), *map(ask_row, setting.asks),
            *map(event_row, setting.events), *(["files"] if setting.files else []), *runs]


# What a table says


def numbers(text: str) -> list[int]:
    """The numbers of a row."""
    return [int(word) for word in text.split()]


def series(factor: int, first: int, count: int) -> bytes:
    """So many bytes, each the factor more than the one before it."""
    return bytes((factor * place + first) % 256 for place in range(count))


def read_ask(text: str) -> Ask:
    """The question of a row."""
    front, _, region = text.partition(" in ")
    return Ask(*numbers(front), reference.pairs(region.encode()))


def change(setting: Setting, word: str, rest: str) -> None:
    """Changes a setting as a row says."""
    if word == "header":
        setting.text = rest
    elif word in ("ranks", "cache"):
        setattr(setting, word, int(rest))
    elif word == "volume":
        time, *formula = numbers(rest)
        setting.volumes.append((time, series(*formula)))
    elif word == "bytes":
        time, _, digits = rest.partition(" ")
        setting.volumes.append((int(time), bytes.fromhex(digits)))
    elif word == "again":
        setting.volumes += setting.volumes[-1:] * int(rest)
    elif word == "files":
        setting.files = True
    elif word == "ask":
        setting.asks.append(read_ask(rest))
    else:
        setting.events.append((word, *numbers(rest)))


# What is printed


def answers(world: World) -> list[str]:
    """How each question is answered."""
    said = ["none" if each.answer is None else each.answer.hex() or "empty" for each in world.queries]
    return [f"query {number} {answer}" for number, answer in enumerate(said)]


def files(world: World) -> list[str]:
    """The written files of each volume, rising."""
    layers = world.layers
    return [f"file {place} {reference.file_path(layers.header, each.time, file, each.revision).decode()} {each.sealed[file].hex()}"
            for place, each in enumerate(world.volumes.values()) for file in layers.files if file in each.sealed]


def replayed(world: World, events: Sequence[Event]) -> list[str]:
    """The events are done up to the first that may not happen."""
    for place, event in enumerate(events):
        if not world.may(event):
            return [f"refused {place} NotEnabled"]
        world.do(event)
    return ["ok"]


def stepped(world: World, events: Sequence[Event]) -> list[str]:
    """Each event is done that may happen."""
    refused = []
    for place, event in enumerate(events):
        if world.may(event):
            world.do(event)
        else:
            refused.append(f"refused {place} NotEnabled")
    return [*refused, f"stepped {len(events)}"]


RUNS = {"replay": replayed, "steps": stepped}


def run(setting: Setting, word: str) -> list[str]:
    """What comes of the events of a setting."""
    try:
        world = setting.world()
    except NoWorld as refusal:
        return [f"no world {refusal.kind} {{ at: {refusal.place} }}"]
    said = RUNS[word](world, setting.events) + answers(world)
    return said + (files(world) if setting.files else [])


def printed(table: str) -> str:
    """What is printed of a table."""
    setting = Setting()
    lines: list[str] = []
    for row in table.splitlines():
        word, _, rest = row.partition(" ")
        if word == "world":
            setting = Setting()
            lines.append(f"== {rest}")
        elif word in RUNS:
            lines += run(setting, word)
        elif word not in ("", "#"):
            change(setting, word, rest)
    return "".join(f"{line}\n" for line in lines)
