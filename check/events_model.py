"""The world of a dataset as plain data: which of its ten events may happen, and what each leaves.

Written from what docs/MODEL.md says of events, over the addresses, files and answers of `reference.py`. It shares
nothing with the program's code. An event is a word and its numbers, as `("give", time, revision, rank, piece)`, in the
order of the rows of a table; of each word a method of `World` that begins with `may_` says where it may happen, and the
one with its name does it.
"""
from __future__ import annotations

from collections.abc import Sequence
from dataclasses import dataclass, field
from typing import NamedTuple, Union

import reference
from reference import Box, Header, Point

Event = tuple[Union[str, int], ...]
Parts = dict[int, set[int]]

MOST_PIECES = 2**6
"""A box is cut into at most so many pieces, where there is room for four of them at once."""
ROOM = 2**28
"""The bytes that four pieces may take."""
ROUND = 2**26
"""The bytes that the blocks of a round may take, where a round has more than one block."""
REVISIONS = 256
"""A timestep has at most so many revisions."""


class NoWorld(Exception):
    """Why a world is not made: which list has the first wrong item, and its place."""

    def __init__(self, kind: str, place: int) -> None:
        super().__init__(kind, place)
        self.kind = kind
        self.place = place


class Ask(NamedTuple):
    """A question: the samples of a field of a timestep in a region, between two levels."""
    time: int
    field: int
    low: int
    high: int
    region: Box


class Key(NamedTuple):
    """The name of a cached block: the number of its post, and which block of which timestep it is."""
    post: int
    time: int
    field: int
    block: int


# What lies below the events


def piece_digits(header: Header) -> int:
    """How many digits at the end of an address in Z order differ within a piece."""
    size = sum(each.sample_size() for each in header.fields)
    most = max(len(header.mask) - MOST_PIECES.bit_length() + 1, 0)
    return next((digits for digits in range(most, 0, -1) if 4 * 2**digits * size <= ROOM), 0)


def rank_of(point: Point, box: Box, ranks: int) -> int:
    """The rank that has a point: the axis of greatest extent, of equal ones the last, is cut."""
    extents = [high - low + 1 for low, high in box]
    extent = max(extents)
    axis = max(place for place, each in enumerate(extents) if each == extent)
    parts = min(ranks, extent)
    place = point[axis] - box[axis][0]
    return next(rank for rank in range(parts) if rank * extent // parts <= place < (rank + 1) * extent // parts)


class Layers:
    """A dataset that is divided into pieces and among ranks."""

    def __init__(self, header: Header, ranks: int) -> None:
        self.header = header
        self.files = reference.files_of_step(header)
        self.ranks: Parts = {}
        self.pieces: Parts = {file: set() for file in self.files}
        self.points: dict[tuple[int, int], list[Point]] = {}
        digits = piece_digits(header)
        for point in reference.points(header.box):
            piece = reference.z_address(point, header.mask) >> digits
            file = reference.file_of_block(self.block_of(point), header.blocks_per_file)
            self.ranks.setdefault(piece, set()).add(rank_of(point, header.box, ranks))
            self.pieces[file].add(piece)
            self.points.setdefault((piece, file), []).append(point)

    def block_of(self, point: Point) -> int:
        """The block in which a point has its sample."""
        return reference.hierarchical_address(point, self.header.mask) >> self.header.bits_per_block

    def deliver(self, piece: int, file: int, raw: bytes, dock: bytearray) -> None:
        """Copies the samples of a piece that a file has."""
        before = 0
        for each in self.header.fields:
            size = each.sample_size()
            for point in self.points[piece, file]:
                start = before + reference.place_in_volume(point, self.header.box) * size
                dock[start:start + size] = raw[start:start + size]
            before += reference.count_of_points(self.header.box) * size

    def block_size(self, which: int) -> int:
        """The bytes of a block of a field."""
        return self.header.fields[which].sample_size() << self.header.bits_per_block

    def rounds(self, ask: Ask) -> list[list[int]]:
        """The blocks that a question needs, rising, in rounds; one round of none where it needs none."""
        asked = reference.asked_points(ask.region, self.header.mask, ask.low, ask.high)
        needed = sorted({self.block_of(point) for point in asked})
        width = max(1, ROUND // self.block_size(ask.field))
        return [needed[start:start + width] for start in range(0, len(needed), width)] or [[]]

    def block_in(self, which: int, block: int, files: dict[int, bytes]) -> bytes:
        """The bytes of a field's block in the files of a step; zero bytes where they lack it."""
        row = reference.row_of_block(self.header, which, block, files)
        if row is None or row.size == 0:
            return bytes(self.block_size(which))
        content = files[reference.file_of_block(block, self.header.blocks_per_file)]
        return content[row.offset:row.offset + self.block_size(which)]

    def put_together(self, ask: Ask, held: dict[int, bytes]) -> bytes:
        """The samples that a question asks for, out of blocks."""
        size = self.header.fields[ask.field].sample_size()
        samples = []
        for point in reference.asked_points(ask.region, self.header.mask, ask.low, ask.high):
            address = reference.hierarchical_address(point, self.header.mask)
            start = address % 2**self.header.bits_per_block * size
            samples.append(held[self.block_of(point)][start:start + size])
        return b"".join(samples)


# A world


@dataclass
class Volume:
    """A revision of a timestep. A dock is the volume with the samples alone that were delivered for a file."""
    time: int
    revision: int
    raw: bytes
    docks: dict[int, bytearray]
    phase: str = "staged"
    given: set[tuple[int, int]] = field(default_factory=set)
    shipped: set[tuple[int, int]] = field(default_factory=set)
    sealed: dict[int, bytes] = field(default_factory=dict)


@dataclass
class Query:
    """A question with its rounds, as far as it is answered."""
    ask: Ask
    rounds: list[list[int]]
    post: int | None = None
    ended: int = 0
    missing: list[int] | None = None
    loaded: dict[int, bytes] = field(default_factory=dict)
    held: dict[int, bytes] = field(default_factory=dict)
    answer: bytes | None = None


@dataclass
class Post:
    """A published step: its timestep and its files."""
    time: int
    files: dict[int, bytes]


def is_right_volume(header: Header, before: Sequence[tuple[int, bytes]], volume: tuple[int, bytes]) -> bool:
    """Whether a volume behind others is whole, of a timestep of the dataset, and not one too many of it."""
    time, raw = volume
    if len(raw) != reference.volume_size(header) or not header.time.first <= time <= header.time.last:
        return False
    return [each[0] for each in before].count(time) < REVISIONS


def is_right_ask(header: Header, ask: Ask) -> bool:
    """Whether a question names a field, has the dataset's axes, and has a plan."""
    if ask.field >= len(header.fields) or len(ask.region) != len(header.box):
        return False
    if reference.outside_axis(header, ask.region) is not None or not reference.has_levels(header, ask.low, ask.high):
        return False
    size = reference.answer_size(header, ask.field, ask.region, ask.low, ask.high)
    return size <= reference.LARGEST_ANSWER


class World:
    """The revisions of timesteps, the published steps with the cache of their blocks, and the questions."""

    def __init__(self, header: Header, ranks: int, volumes: Sequence[tuple[int, bytes]], asks: Sequence[Ask],
                 capacity: int) -> None:
        for place, volume in enumerate(volumes):
            if not is_right_volume(header, volumes[:place], volume):
                raise NoWorld("WrongVolume", place)
        for place, ask in enumerate(asks):
            if not is_right_ask(header, ask):
                raise NoWorld("WrongAsk", place)
        self.layers = Layers(header, ranks)
        self.capacity = capacity
        self.volumes: dict[tuple[int, int], Volume] = {}
        for place, (time, raw) in enumerate(volumes):
            revision = [each[0] for each in volumes[:place]].count(time)
            docks = {file: bytearray(len(raw)) for file in self.layers.files}
            self.volumes[time, revision] = Volume(time, revision, raw, docks)
        self.board: list[Post] = []
        self.cache: list[tuple[Key, bytes]] = []
        self.queries = [Query(ask, self.layers.rounds(ask)) for ask in asks]

    def may(self, event: Event) -> bool:
        """Whether an event may happen."""
        word, *numbers = event
        return getattr(self, f"may_{word}")(*numbers)

    def do(self, event: Event) -> None:
        """Does an event that may happen."""
        word, *numbers = event
        getattr(self, str(word))(*numbers)

    # Writing

    def staged(self, time: int, revision: int) -> Volume | None:
        """The revision of a timestep that is being written, if there is one."""
        volume = self.volumes.get((time, revision))
        return volume if volume is not None and volume.phase == "staged" else None

    def may_give(self, time: int, revision: int, rank: int, piece: int) -> bool:
        """The rank has a part of the piece, and has not given it."""
        volume = self.staged(time, revision)
        return volume is not None and rank in self.layers.ranks.get(piece, ()) and (rank, piece) not in volume.given

    def give(self, time: int, revision: int, rank: int, piece: int) -> None:
        """A rank gives its part of a piece."""
        self.volumes[time, revision].given.add((rank, piece))

    def may_ship(self, time: int, revision: int, piece: int, file: int) -> bool:
        """The piece has a point in the file, all of its ranks gave it, and it was not shipped to the file."""
        volume = self.staged(time, revision)
        return (volume is not None and piece in self.layers.pieces.get(file, ())
                and all((rank, piece) in volume.given for rank in self.layers.ranks[piece])
                and (piece, file) not in volume.shipped)

    def ship(self, time: int, revision: int, piece: int, file: int) -> None:
        """A piece's samples go to the dock of a file."""
        volume = self.volumes[time, revision]
        volume.shipped.add((piece, file))
        self.layers.deliver(piece, file, volume.raw, volume.docks[file])

    def may_write(self, time: int, revision: int, file: int) -> bool:
        """All pieces of the file were shipped to it, and it was not written."""
        volume = self.staged(time, revision)
        return (volume is not None and file in self.layers.files and file not in volume.sealed
                and all((piece, file) in volume.shipped for piece in self.layers.pieces[file]))

    def write(self, time: int, revision: int, file: int) -> None:
        """A file is made of what its dock has."""
        volume = self.volumes[time, revision]
        volume.sealed[file] = reference.file_bytes(self.layers.header, file, bytes(volume.docks[file]))

    def may_publish(self, time: int, revision: int) -> bool:
        """All files were written, and no later revision of the timestep was published."""
        volume = self.staged(time, revision)
        return (volume is not None and all(file in volume.sealed for file in self.layers.files)
                and not any(each.time == time and each.revision > revision and each.phase == "published"
                            for each in self.volumes.values()))

    def publish(self, time: int, revision: int) -> None:
        """The files stand as a post, and no block of the timestep stays cached."""
        volume = self.volumes[time, revision]
        volume.phase = "published"
        self.board.append(Post(time, volume.sealed))
        self.cache = [entry for entry in self.cache if entry[0].time != time]

    def may_abandon(self, time: int, revision: int) -> bool:
        """It is being written."""
        return self.staged(time, revision) is not None

    def abandon(self, time: int, revision: int) -> None:
        """It is given up for good, and what was written of it goes."""
        volume = self.volumes[time, revision]
        volume.phase = "abandoned"
        volume.docks, volume.sealed = {}, {}

    # Asking

    def newest(self, time: int) -> int | None:
        """The number of the newest post of a timestep."""
        return max((number for number, post in enumerate(self.board) if post.time == time), default=None)

    def query_at(self, query: int) -> Query | None:
        """The question of a number."""
        return self.queries[query] if query < len(self.queries) else None

    def key_of(self, question: Query, block: int) -> Key:
        """The name that a block of a question's post has in the cache."""
        return Key(question.post, question.ask.time, question.ask.field, block)

    def may_look(self, query: int) -> bool:
        """It has no answer, is in no round and has one left, and its timestep has a post."""
        question = self.query_at(query)
        return (question is not None and question.answer is None and question.missing is None
                and question.ended < len(question.rounds) and self.newest(question.ask.time) is not None)

    def look(self, query: int) -> None:
        """In its first round the newest post is noted; blocks that are found go to the front of the cache."""
        question = self.queries[query]
        if question.post is None:
            question.post = self.newest(question.ask.time)
        missing = [block for block in question.rounds[question.ended] if not self.found(question, block)]
        if missing:
            question.missing = missing
        else:
            question.ended += 1

    def found(self, question: Query, block: int) -> bool:
        """Whether a block is cached, which the question then holds."""
        key = self.key_of(question, block)
        for place, (other, content) in enumerate(self.cache):
            if other == key:
                self.cache.insert(0, self.cache.pop(place))
                question.held[block] = content
                return True
        return False

    def may_read(self, query: int, block: int) -> bool:
        """It is the next of the missing blocks of the round."""
        question = self.query_at(query)
        if question is None or question.missing is None:
            return False
        return question.missing[len(question.loaded):][:1] == [block]

    def read(self, query: int, block: int) -> None:
        """The noted post's block is loaded."""
        question = self.queries[query]
        files = self.board[question.post].files
        question.loaded[block] = self.layers.block_in(question.ask.field, block, files)

    def may_fill(self, query: int) -> bool:
        """All missing blocks of the round were loaded."""
        question = self.query_at(query)
        return (question is not None and question.missing is not None
                and len(question.loaded) == len(question.missing))

    def fill(self, query: int) -> None:
        """The round ends; what was loaded is cached where the noted post is the newest of its timestep."""
        question = self.queries[query]
        if question.post == self.newest(question.ask.time):
            for block, content in question.loaded.items():
                self.put(self.key_of(question, block), content)
        question.held.update(question.loaded)
        question.missing, question.loaded = None, {}
        question.ended += 1

    def put(self, key: Key, content: bytes) -> None:
        """A block comes to the front of the cache, of which as many stay as it keeps."""
        others = [entry for entry in self.cache if entry[0] != key]
        self.cache = [(key, content), *others][:self.capacity]

    def may_evict(self, count: int) -> bool:
        """Always."""
        return count >= 0

    def evict(self, count: int) -> None:
        """So many of the least recently used blocks go, or all."""
        self.cache = self.cache[:max(len(self.cache) - count, 0)]

    def may_answer(self, query: int) -> bool:
        """All rounds have ended, and there is no answer."""
        question = self.query_at(query)
        return question is not None and question.answer is None and question.ended == len(question.rounds)

    def answer(self, query: int) -> None:
        """The held blocks' samples become the answer."""
        question = self.queries[query]
        question.answer = self.layers.put_together(question.ask, question.held)
