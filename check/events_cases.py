"""Random worlds and events in them, most of which may happen as the model has it.

Which events may happen is asked of `events_model.py` alone. A seed determines a world.
"""
from __future__ import annotations

from collections.abc import Iterator
from itertools import islice
from random import Random

import cases
import reference
from cases import chance
from events_model import Ask, Event, Layers, Query, Volume, World
from events_table import Setting
from reference import Header

MOST_POINTS = 16
MOST_FILE = 2**14
MOST_AT_ONCE = 3
"""So many questions are asked at a time."""
WORDS_OF_WRITING = ("give", "ship", "write", "publish", "abandon")
WORDS = (*WORDS_OF_WRITING, "look", "read", "fill", "answer")
NUMBERS = (2**32, 2**32 + 1, 2**63, 2**64 - 1)
"""Numbers that differ from small ones in what a cast may drop."""
WIDE = [b"0 3 0 1 0 0", b"a uint8[64]", b"V01" + b"2" * 18 + b"0", b"18", b"8", b"./%01x.bin", b"0 1 time%04d/"]
"""A dataset of eight samples in five blocks, of which four make a round."""


# What a world is made of


def draw_texts(random: Random) -> list[bytes]:
    """The seven texts of a dataset of some samples, of which a step is written in few events."""
    fewest = random.choice([1, 3, 5])
    while True:
        texts = cases.draw_dataset(random).texts(random)
        header = cases.header_of(texts)
        if header is not None and is_small(header) and len(reference.present_blocks(header)) >= fewest:
            return texts


def is_small(header: Header) -> bool:
    """Whether a step of a dataset is written in few events, and its files are small."""
    is_short = reference.file_size(header, header.blocks_per_file) <= MOST_FILE
    return is_short and 2 <= reference.count_of_points(header.box) <= MOST_POINTS


def draw_setting(random: Random, is_wide: bool) -> Setting:
    """What a world is made of; seldom it has a wrong volume or question."""
    text = reference.header_words(WIDE if is_wide else draw_texts(random)).decode().replace("\n", "|")
    setting = Setting(text, random.choice([1, 2, 3, 4, 9, 12]), random.choice([1, 2, 3, 4, 5, 64]))
    header = setting.header()
    times = [random.randint(header.time.first, header.time.last) for _ in range(2)]
    size = reference.volume_size(header)
    for _ in range(3 if is_wide else draw_count(random, header, setting.ranks)):
        setting.volumes.append((random.choice(times), random.randbytes(size)))
    setting.asks = [draw_ask(random, header, times) for _ in range(random.randint(10, 25))]
    setting.files = not is_wide
    if chance(random, 5):
        spoil_volumes(random, setting, header)
    if chance(random, 5):
        spoil_asks(random, setting, header)
    return setting


def draw_count(random: Random, header: Header, ranks: int) -> int:
    """How many volumes there are, so that they take some of the events."""
    layers = Layers(header, ranks)
    events = sum(map(len, [*layers.ranks.values(), *layers.pieces.values(), layers.files])) + 1
    return max(1, random.randint(60, 120) // events)


def draw_ask(random: Random, header: Header, times: list[int]) -> Ask:
    """A question that can be asked, often of the whole box."""
    region = header.box if chance(random, 35) else tuple(draw_pair(random, *pair) for pair in header.box)
    low, high = (0, len(header.mask)) if chance(random, 50) else draw_pair(random, 0, len(header.mask))
    time = random.choice(times) if chance(random, 97) else random.choice([header.time.last + 1, 2**64 - 1])
    return Ask(time, random.randrange(len(header.fields)), low, high, region)


def draw_pair(random: Random, low: int, high: int) -> tuple[int, int]:
    """Two numbers between two others, in order."""
    first, last = sorted(random.randint(low, high) for _ in range(2))
    return first, last


def spoil_volumes(random: Random, setting: Setting, header: Header) -> None:
    """Makes a volume a wrong one."""
    place = random.randrange(len(setting.volumes))
    time, raw = setting.volumes[place]
    wrong = [(time, raw + b"\1"), (time, raw[1:] or b"\1\2"), (header.time.last + 1, raw), (2**64 - 1, raw)]
    setting.volumes[place] = random.choice(wrong)


def spoil_asks(random: Random, setting: Setting, header: Header) -> None:
    """Makes a question a wrong one."""
    place = random.randrange(len(setting.asks))
    ask = setting.asks[place]
    low, high = header.box[-1]
    wrong = [
        ask._replace(field=len(header.fields)),
        ask._replace(field=2**32 - 1),
        ask._replace(low=1, high=0),
        ask._replace(high=len(header.mask) + 1),
        ask._replace(region=(*header.box[:-1], (low, high + 1))),
        ask._replace(region=((0, 0),) * (5 if len(header.box) < 5 else 4)),
    ]
    setting.asks[place] = random.choice(wrong)


# Events


def writing(world: World, volume: Volume) -> Iterator[Event]:
    """The events of writing a revision, those that may happen and others."""
    layers, of = world.layers, (volume.time, volume.revision)
    yield from (("give", *of, rank, piece) for piece, ranks in layers.ranks.items() for rank in sorted(ranks))
    yield from (("ship", *of, piece, file) for file in layers.files for piece in sorted(layers.pieces[file]))
    yield from (("write", *of, file) for file in layers.files)
    yield from ((word, *of) for word in ("abandon", "publish"))


def asking(number: int, question: Query) -> Iterator[Event]:
    """The events of a question, those that may happen and others."""
    yield from ((word, number) for word in ("look", "fill", "answer"))
    yield from (("read", number, block) for blocks in question.rounds for block in blocks)


def draw_writing(random: Random, world: World) -> Event | None:
    """An event of writing that may happen, mostly of the first revision that has one."""
    staged = [each for each in world.volumes.values() if each.phase == "staged"]
    if len(staged) > 1 and chance(random, 40):
        random.shuffle(staged)
    for volume in staged:
        may = [event for event in writing(world, volume) if event[0] != "abandon" and world.may(event)]
        if may:
            return may[-1] if may[-1][0] == "publish" and chance(random, 80) else random.choice(may)
    return None


def draw_asking(random: Random, world: World) -> Event | None:
    """An event that may happen of one of the first questions that have one."""
    every = ([event for event in asking(number, each) if world.may(event)] for number, each in enumerate(world.queries))
    first = list(islice(filter(None, every), MOST_AT_ONCE))
    return random.choice(random.choice(first)) if first else None


def draw_any(random: Random, world: World, before: list[Event]) -> Event:
    """An event that mostly may not happen: one again, one before its turn, or one with an odd number."""
    kind = random.randrange(5)
    if kind == 0 and before:
        return random.choice(before)
    word = random.choice(WORDS)
    is_writing = word in WORDS_OF_WRITING
    event = random.choice(list(of_volumes(world, word) if is_writing else of_questions(random, world, word)))
    return with_odd_number(random, event) if kind == 1 else event


def of_volumes(world: World, word: str) -> Iterator[Event]:
    """The events of writing with a word."""
    every = (event for volume in world.volumes.values() for event in writing(world, volume))
    return (event for event in every if event[0] == word)


def of_questions(random: Random, world: World, word: str) -> Iterator[Event]:
    """The events of questions with a word, mostly of those that are in a round."""
    asked = list(enumerate(world.queries))
    begun = [(number, each) for number, each in asked if each.missing is not None]
    chosen = begun if begun and chance(random, 80) else asked
    every = (event for number, each in chosen for event in asking(number, each))
    return (event for event in every if event[0] == word)


def with_odd_number(random: Random, event: Event) -> Event:
    """An event with another number in one place."""
    word, *numbers = event
    place = random.randrange(len(numbers))
    near = [numbers[place] + 1, max(numbers[place] - 1, 0), random.randrange(8)]
    numbers[place] = random.choice(NUMBERS) if chance(random, 20) else random.choice(near)
    return (word, *numbers)


def draw_event(random: Random, world: World, before: list[Event]) -> Event:
    """An event, which mostly may happen."""
    if chance(random, 12):
        return draw_any(random, world, before)
    if chance(random, 5):
        return ("evict", random.choice(NUMBERS) if chance(random, 5) else random.choice([0, 1, 1, 1, 2, 3]))
    if chance(random, 1):
        volume = random.choice(list(world.volumes.values()))
        return ("abandon", volume.time, volume.revision)
    draws = [draw_writing, draw_asking]
    if chance(random, 50):
        draws.reverse()
    found = draws[0](random, world) or draws[1](random, world)
    return found or draw_any(random, world, before)


def draw_events(random: Random, setting: Setting, count: int) -> tuple[list[Event], list[Event]]:
    """So many events, and those of them that may happen in their turn."""
    world = setting.world()
    events: list[Event] = []
    done: list[Event] = []
    for _ in range(count):
        events.append(draw_event(random, world, events))
        if world.may(events[-1]):
            world.do(events[-1])
            done.append(events[-1])
    return events, done
