"""What a server replies to the bytes of a link, written from docs/FORMATS.md alone.

A link is a function of its bytes: `replies` gives what is written to it, however the bytes are cut into pieces. The
sections follow the page.
"""
from __future__ import annotations

import codecs
import os
import re
from collections.abc import Sequence
from dataclasses import dataclass, field
from enum import Enum
from functools import lru_cache
from urllib.parse import unquote_to_bytes

import commands
from reference import (LARGEST_ANSWER, Box, Header, answer, answer_size, asked_points, box_word, count_asked,
                       file_bytes, files_of_step, has_levels, header_words, hierarchical_address, number, outside_axis,
                       parse_header, row_of_block)

# Heads


LONGEST_HEAD = 8_192
MOST_FIELDS = 64
NAME = rb"[A-Za-z0-9!#$%&'*+\-.^_`|~]+"
LINE_END = rb"\r?\n"
FIELD = rb"(" + NAME + rb"):([^\x00-\x08\x0a-\x1f\x7f]*)" + LINE_END
ASKED = rb"(?:" + LINE_END + rb")*(?P<method>" + NAME + rb") (?P<target>[^\x00-\x20\x7f]+)"
HEAD = re.compile(ASKED + rb" HTTP/1\.(?P<minor>[01])" + LINE_END + rb"(?P<fields>(?:" + FIELD + rb")*)" + LINE_END)
VERSION_LEFT = [b"HTTP/1.1\n\n"[place:] for place in range(8)]
COMPLETIONS = [b"G / HTTP/1.1\n\n", b"\nG / HTTP/1.1\n\n", b" / HTTP/1.1\n\n", b"/ HTTP/1.1\n\n", b" HTTP/1.1\n\n",
               *VERSION_LEFT, b"\n\n", b":\n\n", b"\n"]
"""Bytes of which some make a head of each text that can become one: one for each place at which it can end."""


class Read(Enum):
    """What bytes are that do not begin with a head that is replied to by its target."""
    BAD = "BadHead"
    TOO_BIG = "HeadTooLarge"
    UNFINISHED = "unfinished"


@dataclass(frozen=True)
class Head:
    """A head with at most 64 fields."""
    method: bytes
    target: bytes
    minor: int
    fields: tuple[tuple[bytes, bytes], ...]
    length: int

    def values(self, name: bytes) -> list[bytes]:
        """The values of the fields of a name, which is given in small letters."""
        return [value.strip(b" \t") for each, value in self.fields if each.lower() == name]

    def has_body(self) -> bool:
        """Whether a body is announced."""
        lengths = self.values(b"content-length")
        return bool(self.values(b"transfer-encoding")) or any(not re.fullmatch(rb"0+", each) for each in lengths)

    def closes(self) -> bool:
        """Whether the peer wants the link to end behind the reply."""
        items = [item.strip(b" \t") for value in self.values(b"connection") for item in value.split(b",")]
        return self.minor == 0 or any(item.lower() == b"close" for item in items)


def is_utf8_so_far(text: bytes, ended: bool) -> bool:
    """Whether a text is UTF-8, or the front of such a text."""
    try:
        codecs.getincrementaldecoder("utf-8")().decode(text, ended)
    except UnicodeDecodeError:
        return False
    return True


def whole_head(match: re.Match[bytes]) -> Head | Read:
    """What a head is whose bytes are in place."""
    if not is_utf8_so_far(match["target"], True):
        return Read.BAD
    fields = tuple(re.findall(FIELD, match["fields"]))
    if len(fields) > MOST_FIELDS:
        return Read.TOO_BIG
    return Head(match["method"], match["target"], int(match["minor"]), fields, match.end())


def can_become_head(window: bytes) -> bool:
    """Whether some bytes can follow that make a text a head, where it does not begin with one."""
    asked = re.fullmatch(ASKED, window)
    if asked is not None:
        return is_utf8_so_far(asked["target"], False)
    matches = filter(None, (HEAD.fullmatch(window + more) for more in COMPLETIONS))
    return any(is_utf8_so_far(match["target"], True) for match in matches)


@lru_cache(maxsize=256)
def next_head(window: bytes) -> tuple[Head | Read, ...]:
    """What some bytes begin with, at most 8,192 of them; two answers are right in the one corner that is open."""
    match = HEAD.match(window)
    if match is not None:
        return (whole_head(match),)
    waits = Read.TOO_BIG if len(window) == LONGEST_HEAD else Read.UNFINISHED
    if can_become_head(window):
        return (waits,)
    return (Read.BAD, waits) if re.fullmatch(ASKED, window) else (Read.BAD,)


# Targets


PATH = b"/mod_visus"
PARAMETERS = (b"action", b"dataset", b"time", b"field", b"box", b"fromh", b"toh", b"maxh", b"compression")
GREATEST_LEVEL = 2**32 - 1
REPLACEMENT = "\ufffd"


class TargetFault(Exception):
    """The name of the first fault of a target."""

    def __init__(self, name: str) -> None:
        super().__init__(name)
        self.name = name


@dataclass(frozen=True)
class Ask:
    """A question: the samples of a field of a step in a region between two levels."""
    time: int
    which: int
    region: Box
    low: int
    high: int


def decoded(text: bytes) -> str:
    """The characters that a name or a value of a form stands for."""
    return unquote_to_bytes(text.replace(b"+", b" ")).decode("utf-8", "replace")


def form_pairs(text: bytes) -> list[tuple[str, str]]:
    """The names and values of a form."""
    pieces = [piece.partition(b"=") for piece in text.split(b"&") if piece]
    return [(decoded(name), decoded(value)) for name, _, value in pieces]


def parameters(text: bytes) -> dict[bytes, bytes]:
    """The parameters of the part of a target behind its `?`, each of which stands once."""
    form = form_pairs(text)
    if any(REPLACEMENT in part for pair in form for part in pair):
        raise TargetFault("BadText")
    known: dict[bytes, bytes] = {}
    for name, value in ((name.encode(), value.encode()) for name, value in form):
        if name in known:
            raise TargetFault("DoubleParameter")
        if name in PARAMETERS:
            known[name] = value
    return known


def check_names(known: dict[bytes, bytes], dataset: bytes) -> None:
    """Refuses another action, dataset or compression than there is."""
    if b"action" not in known:
        raise TargetFault("NoAction")
    if known[b"action"] != b"boxquery":
        raise TargetFault("UnknownAction")
    if b"dataset" not in known:
        raise TargetFault("NoDataset")
    if known[b"dataset"] != dataset:
        raise TargetFault("OtherDataset")
    if known.get(b"compression", b"") not in (b"", b"raw"):
        raise TargetFault("NotRaw")


def asked_field(known: dict[bytes, bytes], header: Header) -> int:
    """The place of the field that is asked for."""
    names = [each.name for each in header.fields]
    name = known.get(b"field", names[0])
    if name not in names:
        raise TargetFault("UnknownField")
    return names.index(name)


def asked_time(known: dict[bytes, bytes], header: Header) -> int:
    """The step that is asked for."""
    if b"time" not in known:
        return commands.steps_of(header)[0]
    match = re.fullmatch(rb"([0-9]+)(?:\.0+)?", known[b"time"])
    time = number(match[1]) if match else None
    if time is None:
        raise TargetFault("BadTime")
    return time


def asked_region(known: dict[bytes, bytes], header: Header) -> Box:
    """The region that is asked for."""
    region = box_word(known.get(b"box", b""))
    if region is None or len(region) != len(header.box):
        raise TargetFault("BadBox")
    return region


def asked_levels(known: dict[bytes, bytes], header: Header) -> tuple[int, int]:
    """The levels that are asked for."""
    most = len(header.mask)
    texts = known.get(b"fromh", b"0"), known.get(b"toh", b"%d" % most), known.get(b"maxh", b"%d" % most)
    low, high, levels = map(number, texts)
    if low is None or high is None or max(low, high) > GREATEST_LEVEL or levels != most:
        raise TargetFault("BadLevels")
    return low, high


def read_target(target: bytes, header: Header, dataset: bytes) -> Ask:
    """The question that a target asks of a dataset; the faults come in the order of the table."""
    path, _, text = target.partition(b"?")
    if path != PATH:
        raise TargetFault("OtherPath")
    known = parameters(text)
    check_names(known, dataset)
    which = asked_field(known, header)
    time = asked_time(known, header)
    return Ask(time, which, asked_region(known, header), *asked_levels(known, header))


# Replies


REASONS = {200: b"OK", 400: b"Bad Request", 404: b"Not Found", 405: b"Method Not Allowed", 413: b"Payload Too Large",
           431: b"Request Header Fields Too Large", 500: b"Internal Server Error", 501: b"Not Implemented",
           503: b"Service Unavailable"}
MOST_REPLIES = 65_536
MOST_READ = 2**23
Fields = list[tuple[bytes, bytes]]


@dataclass
class Reply:
    """A reply, without the field that says that it closes."""
    status: int
    body: bytes
    fields: Fields

    def text(self, closes: bool) -> bytes:
        """The bytes of the reply."""
        kind = b"application/octet-stream" if self.status == 200 else b"text/plain"
        fields = [(b"Content-Type", kind), (b"Content-Length", b"%d" % len(self.body)), *self.fields]
        fields += [(b"Connection", b"close")] if closes else []
        lines = [b"HTTP/1.1 %d %s" % (self.status, REASONS[self.status])] + [b"%s: %s" % each for each in fields]
        return b"".join(line + b"\r\n" for line in [*lines, b""]) + self.body


def refusal(status: int, name: str) -> Reply:
    """A reply that says why there is no answer."""
    return Reply(status, name.encode() + b"\n", [(b"Allow", b"GET")] if status == 405 else [])


def plan_fault(header: Header, ask: Ask) -> Reply | None:
    """The refusal of a region, levels or an answer that the dataset does not have."""
    if outside_axis(header, ask.region) is not None:
        return refusal(400, "OutsideVolume")
    if not has_levels(header, ask.low, ask.high):
        return refusal(400, "BadLevels")
    if answer_size(header, ask.which, ask.region, ask.low, ask.high) > LARGEST_ANSWER:
        return refusal(413, "TooLarge")
    return None


def needs_files(header: Header, ask: Ask, contents: dict[int, bytes]) -> bool:
    """Whether some sample of an answer stands in a block that the files of the step have."""
    addresses = [hierarchical_address(point, header.mask)
                 for point in asked_points(ask.region, header.mask, ask.low, ask.high)]
    rows = [row_of_block(header, ask.which, address >> header.bits_per_block, contents) for address in addresses]
    return any(row is not None and row.size > 0 for row in rows)


@dataclass
class Site:
    """A dataset that is served: its header, its name and its posts, the files of each step that stands.

    Where it is unreadable its files have no block left, though their tables say so. For an answer of more bytes than there is
    room for, if that is known, there is no memory.
    """
    header: Header
    name: bytes
    posts: dict[int, dict[int, bytes]]
    unreadable: bool = False
    room: int | None = None
    known: dict[bytes, Reply] = field(default_factory=dict)

    def without_blocks(self) -> Site:
        """The same dataset, unreadable."""
        return Site(self.header, self.name, self.posts, True)

    def with_room(self, room: int) -> Site:
        """The same dataset, with memory for answers of so many bytes."""
        return Site(self.header, self.name, self.posts, self.unreadable, room)

    def reply(self, target: bytes) -> Reply:
        """The reply to a right head with a target."""
        if target not in self.known:
            self.known[target] = self.make_reply(target)
        return self.known[target]

    def make_reply(self, target: bytes) -> Reply:
        """The reply, which is the same for each head with the target."""
        try:
            ask = read_target(target, self.header, self.name)
        except TargetFault as fault:
            return refusal(404 if fault.name in ("OtherPath", "OtherDataset") else 400, fault.name)
        refused = plan_fault(self.header, ask)
        if refused is not None:
            return refused
        if ask.time not in self.posts:
            return refusal(404, "NotPublished")
        return self.answer(ask)

    def answer(self, ask: Ask) -> Reply:
        """The reply with an answer."""
        if self.room is not None and answer_size(self.header, ask.which, ask.region, ask.low, ask.high) > self.room:
            return refusal(503, "NoMemory")
        if self.unreadable and needs_files(self.header, ask, self.posts[ask.time]):
            return refusal(500, "StoreFault")
        which = self.header.fields[ask.which]
        body = answer(self.header, ask.which, ask.region, ask.low, ask.high, self.posts[ask.time])
        fields = {
            b"visus-compression": b"raw",
            b"visus-dtype": which.canonical_type(),
            b"visus-samples": b"%d" % count_asked(ask.region, self.header.mask, ask.low, ask.high),
            b"visus-post": b"%d" % list(self.posts).index(ask.time),
        }
        return Reply(200, body, list(fields.items()))


def open_site(words: Sequence[bytes], folder: bytes) -> Site:
    """The dataset that the words of `serve` name, which is right."""
    dataset = os.path.join(folder, words[1])
    header = commands.read_header(dataset)
    name = words[1].rpartition(b"/")[2].removesuffix(b".idx")
    return Site(header, name, commands.standing_steps(header, os.path.dirname(dataset)))


def reply_to_head(site: Site, head: Head) -> tuple[Reply, bool]:
    """The reply to a head, and whether it closes."""
    if head.has_body():
        return refusal(501, "HasBody"), True
    if head.method != b"GET":
        return refusal(405, "NotGet"), head.closes()
    return site.reply(head.target), head.closes()


def last_replies(read: Read) -> list[bytes]:
    """The reply to bytes that are no head and become none; bytes that are unfinished get none."""
    statuses = {Read.BAD: 400, Read.TOO_BIG: 431}
    return [refusal(statuses[read], read.value).text(True)] if read in statuses else []


def replies(site: Site, sent: bytes) -> tuple[list[list[bytes]], bool]:
    """The replies that a link gets to the bytes that were sent, and whether the last one closes.

    Where the corner of heads is open there is more than one list; they differ in the last reply.
    """
    made: list[bytes] = []
    start = 0
    sent = sent[:MOST_READ]
    while True:
        found = next_head(sent[start:start + LONGEST_HEAD])
        head = found[0]
        if not isinstance(head, Head):
            ends = list(map(last_replies, found))
            return [made + end for end in ends], all(ends)
        reply, closes = reply_to_head(site, head)
        closes = closes or len(made) + 1 == MOST_REPLIES
        made.append(reply.text(closes))
        if closes:
            return [made], True
        start += head.length


# The example of the page


def check_example() -> None:
    """Stops where this model does not give the two replies of the page's example."""
    words = [b"0 3 0 3", b"a uint8", b"V0101", b"2", b"2", b"./%01x.bin", b"0 9 time%04d/"]
    header, raw = parse_header(header_words(words)), bytes(range(16))
    site = Site(header, b"v", {0: {file: file_bytes(header, file, raw) for file in files_of_step(header)}})
    target = b"/mod_visus?action=boxquery&dataset=v&box=0+3+0+3&toh=2&time=%d"
    listed = [
        [b"HTTP/1.1 200 OK", b"Content-Type: application/octet-stream", b"Content-Length: 4", b"visus-compression: raw",
         b"visus-dtype: uint8", b"visus-samples: 4", b"visus-post: 0", b"", b"\x00\x02\x08\x0a"],
        [b"HTTP/1.1 404 Not Found", b"Content-Type: text/plain", b"Content-Length: 13", b"", b"NotPublished\n"],
    ]
    sent = b"".join(b"GET %s HTTP/1.1\r\n\r\n" % (target % time) for time in (0, 9))
    assert replies(site, sent) == ([[b"\r\n".join(lines) for lines in listed]], False)
