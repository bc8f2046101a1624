"""What each command does with its words and a folder, written from docs/FORMATS.md alone.

Of `serve` this file has the words and the refusals; what it replies is in `server.py`.
"""
from __future__ import annotations

import ipaddress
import os
import re
import socket
import stat
from collections.abc import Callable, Sequence
from dataclasses import dataclass, field
from pathlib import Path

from drill import drill_text
from reference import (LARGEST_ANSWER, REVISIONS, Box, Header, HeaderFault, Refusal, all_files, answer, answer_size, asked_points,
                       box_word, check_table, count_of_points, covers, file_bytes, file_path, files_of_step, has_levels,
                       header_words, is_inside, mask_word, number, outside_axis, parse_header, place_in_volume,
                       step_folder, too_large, volume_size, wrong_in)

# The words of the command line


Rule = Callable[[Sequence[bytes]], bool]
"""Whether the last of some words is right behind those before it, which are right."""


def is_path(text: bytes) -> bool:
    """Whether a word is a path: 1 to 4,096 bytes, all of them 20 to 7e, not beginning with `-`."""
    return re.fullmatch(rb"[\x20-\x7e]{1,4096}", text) is not None and not text.startswith(b"-")


def path_rule(words: Sequence[bytes]) -> bool:
    """A path, or the name of a field."""
    return is_path(words[-1])


def value_rule(words: Sequence[bytes]) -> bool:
    """A value of a header on one line."""
    return is_path(words[-1]) and not words[-1].startswith(b"(")


def number_rule(words: Sequence[bytes]) -> bool:
    """A number."""
    return number(words[-1]) is not None


def box_rule(words: Sequence[bytes]) -> bool:
    """A box word."""
    return box_word(words[-1]) is not None


def level_rule(words: Sequence[bytes]) -> bool:
    """A number up to 4,294,967,295."""
    value = number(words[-1])
    return value is not None and value <= 4_294_967_295


def cut_size_rule(words: Sequence[bytes]) -> bool:
    """A number from 1 to 64."""
    value = number(words[-1])
    return value is not None and 1 <= value <= 64


def drill_rule(words: Sequence[bytes]) -> bool:
    """A number from 1 to 8."""
    value = number(words[-1])
    return value is not None and 1 <= value <= 8


def cut_box_rule(words: Sequence[bytes]) -> bool:
    """A box word whose samples take at most 2^30 bytes, and that some mask covers."""
    box = box_word(words[-1])
    if box is None or count_of_points(box) * int(words[2]) > 2**30:
        return False
    return sum(high.bit_length() for _, high in box) <= 40


def cut_mask_rule(words: Sequence[bytes]) -> bool:
    """A mask whose digits name axes of BOX and inside which BOX lies."""
    box, mask = box_word(words[3]), mask_word(words[-1])
    return mask is not None and max(mask) < len(box) and covers(mask, box)


def cut_region_rule(words: Sequence[bytes]) -> bool:
    """A box word with as many axes as BOX, inside BOX."""
    box, region = box_word(words[3]), box_word(words[-1])
    return region is not None and len(region) == len(box) and is_inside(region, box)


def cut_low_rule(words: Sequence[bytes]) -> bool:
    """A number up to the number of digits in MASK."""
    value = number(words[-1])
    return value is not None and value <= len(mask_word(words[4]))


def cut_high_rule(words: Sequence[bytes]) -> bool:
    """A number from LO to the number of digits in MASK."""
    return cut_low_rule(words) and int(words[6]) <= int(words[-1])


RULES: dict[bytes, list[Rule]] = {
    b"cut": [path_rule, cut_size_rule, cut_box_rule, cut_mask_rule, cut_region_rule, cut_low_rule, cut_high_rule],
    b"info": [path_rule],
    b"convert": [path_rule, path_rule] + [value_rule] * 7 + [number_rule],
    b"query": [path_rule, number_rule, path_rule, box_rule, level_rule, level_rule],
    b"check": [path_rule, number_rule],
    b"serve": [path_rule, path_rule],
    b"drill": [drill_rule],
}
LARGEST_NUMBER = 10**19 - 1
OPTIONS: dict[bytes, dict[bytes, int]] = {
    b"convert": {b"--ranks": 256},
    b"query": {b"--cache": 65_536},
    b"serve": {b"--cache": 65_536, b"--workers": 64, b"--links": LARGEST_NUMBER},
}
"""For each command that has options their names, each with the greatest number that may stand behind it."""
MEANWHILE = {b"--ingest": number_rule, b"--raw": path_rule}
"""The further options of `serve`, both or neither: a step, and its raw volume."""
LAYOUTS = {b"hz": 0, b"rows": 16}
"""The orders of samples that may stand behind `--layout` of `convert`, each with the flags of the rows."""


def is_utf8(text: bytes) -> bool:
    """Whether a text is UTF-8."""
    try:
        text.decode()
    except UnicodeDecodeError:
        return False
    return True


def option_rules(command: bytes) -> dict[bytes, Rule]:
    """The options of a command, each with what may stand behind it."""
    def counts(most: int) -> Rule:
        return lambda words: (value := number(words[-1])) is not None and 1 <= value <= most
    rules = {name: counts(most) for name, most in OPTIONS.get(command, {}).items()}
    if command == b"convert":
        rules[b"--layout"] = lambda words: words[-1] in LAYOUTS
    return {**rules, **MEANWHILE} if command == b"serve" else rules


def option_fault(words: Sequence[bytes], place: int) -> int | None:
    """The place of the first fault in the options, which begin at a place."""
    left = option_rules(words[0])
    for name in range(place, len(words), 2):
        rule = left.pop(words[name], None)
        if rule is None:
            return name
        if name + 1 == len(words) or not rule(words[:name + 2]):
            return name + 1
    return len(words) if len(left.keys() & MEANWHILE.keys()) == 1 else None


def usage_fault(words: Sequence[bytes]) -> int | None:
    """The least place such that no right list begins with the words up to it; None where the words are right.

    Where a word is not UTF-8 no word is read.
    """
    if not all(map(is_utf8, words)) or not words or words[0] not in RULES:
        return 0
    for place, rule in enumerate(RULES[words[0]], 1):
        if place == len(words) or not rule(words[:place + 1]):
            return place
    return option_fault(words, 1 + len(RULES[words[0]]))


# What stands in a folder


class StoreFault(Exception):
    """Something that stands could not be read, or is no regular file."""


def read_file(path: bytes) -> bytes | None:
    """The bytes of a regular file; None where none is there."""
    try:
        if not stat.S_ISREG(os.stat(path).st_mode):
            raise StoreFault
        with open(path, "rb") as file:
            return file.read()
    except FileNotFoundError:
        return None
    except OSError as fault:
        raise StoreFault from fault


def is_folder(path: bytes) -> bool:
    """Whether a folder stands at a path, which has to be one that can be looked at."""
    try:
        return stat.S_ISDIR(os.stat(path).st_mode)
    except FileNotFoundError:
        return False
    except OSError:
        raise Refusal(5, "store fault") from None


def is_too_long(path: bytes) -> bool:
    """Whether a part of a path is longer than a folder takes."""
    return any(len(part) > 255 for part in path.split(b"/"))


def read_store(path: bytes) -> bytes | None:
    """A file of a dataset; None where none is there."""
    try:
        return read_file(path)
    except StoreFault:
        raise Refusal(5, "store fault") from None


def read_raw(path: bytes, want: int) -> bytes:
    """A raw volume, which has the bytes that are asked for."""
    try:
        content = read_file(path)
    except StoreFault:
        content = None
    if content is None:
        raise Refusal(4, "raw fault")
    if len(content) != want:
        raise Refusal(3, f"raw size want {want} found {len(content)}")
    return content


def refuse_fault(text: bytes) -> Header:
    """The header that a text is, or the refusal of its first fault."""
    try:
        return parse_header(text)
    except HeaderFault as fault:
        raise Refusal(2, f"header line {fault.line} {fault.kind}") from None


def read_header(path: bytes) -> Header:
    """The header of a dataset, where a file that is not there reads as an empty text."""
    return refuse_fault(read_store(path) or b"")


# The commands


@dataclass
class Outcome:
    """What a run leaves: its status, the first line on standard error, standard output, and the files that it wrote.

    An unfinished run may leave staged files. What was staged at a path and stood there before is gone.
    """
    status: int = 0
    line: bytes | None = None
    output: bytes = b""
    files: dict[bytes, bytes] = field(default_factory=dict)
    unfinished: bool = False
    staged: bytes | None = None


def cut(words: Sequence[bytes], folder: bytes) -> Outcome:
    """The samples of a region of a raw volume."""
    size, box, mask, region = int(words[2]), box_word(words[3]), mask_word(words[4]), box_word(words[5])
    raw = read_raw(os.path.join(folder, words[1]), count_of_points(box) * size)
    wanted = asked_points(region, mask, int(words[6]), int(words[7]))
    starts = [place_in_volume(point, box) * size for point in wanted]
    return Outcome(output=b"".join(raw[start:start + size] for start in starts))


def info(words: Sequence[bytes], folder: bytes) -> Outcome:
    """The lines that say what a header says."""
    header = read_header(os.path.join(folder, words[1]))
    levels = len(header.mask)
    steps = b"%d %d" % (header.time.first, header.time.last) if header.time else b"none"
    lines = [
        b"version 6",
        b"axes %d" % len(header.box),
        b"box " + b" ".join(b"%d %d" % pair for pair in header.box),
        b"bits V" + b"".join(b"%d" % axis for axis in header.mask),
        b"levels %d" % levels,
        b"bitsperblock %d" % header.bits_per_block,
        b"blocksperfile %d" % header.blocks_per_file,
        b"blocks %d" % 2 ** (levels - header.bits_per_block),
        b"steps " + steps,
    ]
    lines += [b"field %s %s %d" % (each.name, each.canonical_type(), each.sample_size()) for each in header.fields]
    return Outcome(output=b"".join(line + b"\n" for line in lines))


def convert(words: Sequence[bytes], folder: bytes) -> Outcome:
    """A step of a dataset out of a raw volume."""
    dataset, text, step = os.path.join(folder, words[1]), header_words(words[3:10]), int(words[10])
    header = refuse_fault(text)
    if not header.time.first <= step <= header.time.last:
        raise Refusal(8, f"no step {step}")
    size = too_large(header)
    if size is not None:
        raise Refusal(8, f"too large {size}")
    standing = read_store(dataset)
    if standing and refuse_fault(standing) != header:
        raise Refusal(6, "other header")
    beside = os.path.dirname(dataset)
    revision = count_of_revisions(header, step, beside)
    if revision == REVISIONS:
        raise Refusal(6, f"published {step}")
    raw = read_raw(os.path.join(folder, words[2]), volume_size(header))
    if not standing and os.path.islink(dataset):
        raise Refusal(5, "store fault")
    put = {} if standing else {dataset: text}
    place = os.path.join(beside, step_folder(header, step, revision))
    staged = place + b".part"
    paths = {file: os.path.join(beside, file_path(header, step, file, revision)) for file in files_of_step(header)}
    if os.path.lexists(place) or any(map(is_too_long, [staged, *paths.values()])):
        raise Refusal(5, "store fault", put)
    flags = LAYOUTS[dict(zip(words[11::2], words[12::2])).get(b"--layout", b"hz")]
    return Outcome(files=put | {path: file_bytes(header, file, raw, flags) for file, path in paths.items()}, staged=staged)


def field_place(header: Header, name: bytes) -> int:
    """The place of the field of a name."""
    for place, each in enumerate(header.fields):
        if each.name == name:
            return place
    raise Refusal(8, "unknown field")


def check_question(header: Header, which: int, region: Box, low: int, high: int) -> None:
    """Refuses a region, levels or an answer that the dataset does not have."""
    axis = outside_axis(header, region)
    if axis is not None:
        raise Refusal(8, f"outside axis {axis}")
    if not has_levels(header, low, high):
        raise Refusal(8, f"levels {low} {high} {len(header.mask)}")
    size = answer_size(header, which, region, low, high)
    if size > LARGEST_ANSWER:
        raise Refusal(8, f"too large {size}")


def steps_of(header: Header) -> range:
    """The steps of a header; without a time there is one."""
    return range(header.time.first, header.time.last + 1) if header.time else range(1)


def count_of_revisions(header: Header, step: int, beside: bytes) -> int:
    """How many revisions of a step stand before the first that does not, where the header has a time."""
    for revision in range(REVISIONS):
        if not is_folder(os.path.join(beside, step_folder(header, step, revision))):
            return revision
    return REVISIONS


def newest_revision(header: Header, step: int, beside: bytes) -> int | None:
    """The revision of a step that is read; None where the step, which the header has, does not stand.

    The step of a header without a time always stands, as its only revision.
    """
    count = count_of_revisions(header, step, beside) if header.time else 1
    return count - 1 if count > 0 else None


def is_empty(header: Header, step: int, revision: int, beside: bytes) -> bool:
    """Whether there is nothing in the folder of a revision, so that no file has to be looked for."""
    return header.time is not None and not os.listdir(os.path.join(beside, step_folder(header, step, revision)))


def read_revision(header: Header, step: int, revision: int, beside: bytes) -> dict[int, bytes]:
    """The files of a revision that are there, with right tables."""
    contents: dict[int, bytes] = {}
    for file in [] if is_empty(header, step, revision, beside) else files_of_step(header):
        content = read_store(os.path.join(beside, file_path(header, step, file, revision)))
        if content is not None:
            check_table(header, file, content)
            contents[file] = content
    return contents


def query(words: Sequence[bytes], folder: bytes) -> Outcome:
    """The samples of a field of a step in a region."""
    dataset, step, region = os.path.join(folder, words[1]), int(words[2]), box_word(words[4])
    low, high = int(words[5]), int(words[6])
    header = read_header(dataset)
    if len(region) != len(header.box):
        raise Refusal(8, "other axes")
    which = field_place(header, words[3])
    check_question(header, which, region, low, high)
    beside = os.path.dirname(dataset)
    revision = newest_revision(header, step, beside) if step in steps_of(header) else None
    if revision is None:
        raise Refusal(7, f"not published {step}")
    return Outcome(output=answer(header, which, region, low, high, read_revision(header, step, revision, beside)))


def check(words: Sequence[bytes], folder: bytes) -> Outcome:
    """Whether the files of the newest revision of a step are right."""
    dataset, step = os.path.join(folder, words[1]), int(words[2])
    header, beside = read_header(dataset), os.path.dirname(dataset)
    revision = newest_revision(header, step, beside) if header.time and step in steps_of(header) else None
    if revision is None:
        raise Refusal(7, f"not published {step}")
    lengths: list[int] = []
    for file in all_files(header):
        content = read_store(os.path.join(beside, file_path(header, step, file, revision)))
        wrong = wrong_in(header, file, content)
        if wrong is not None:
            raise Refusal(16, f"not same file {file} at {wrong[0]} {wrong[1]}")
        lengths += [] if content is None else [len(content)]
    return Outcome(output=b"same files %d bytes %d\n" % (len(lengths), sum(lengths)))


def standing_steps(header: Header, beside: bytes) -> dict[int, dict[int, bytes]]:
    """The steps that stand, by rising number, each with the files of its newest revision."""
    found: dict[int, dict[int, bytes]] = {}
    for step in steps_of(header):
        revision = newest_revision(header, step, beside)
        if revision is not None:
            found[step] = read_revision(header, step, revision, beside)
    return found


def address_word(text: bytes) -> tuple[str, int] | None:
    """The host and the port that a socket address names."""
    match = re.fullmatch(r"(?:\[(?P<six>[^\]]*)\]|(?P<four>[^:]*)):(?P<port>[0-9]+)", text.decode())
    try:
        host = ipaddress.IPv6Address(match["six"]) if match["six"] else ipaddress.IPv4Address(match["four"])
    except (TypeError, ValueError):
        return None
    return (str(host), int(match["port"])) if int(match["port"]) < 2**16 else None


def can_listen(text: bytes) -> bool:
    """Whether a text is an address that can be listened at."""
    address = address_word(text)
    if address is None:
        return False
    with socket.socket(socket.AF_INET6 if ":" in address[0] else socket.AF_INET) as listener:
        listener.setsockopt(socket.SOL_SOCKET, socket.SO_REUSEADDR, 1)
        try:
            listener.bind(address)
            listener.listen()
        except OSError:
            return False
    return True


def serve(words: Sequence[bytes], folder: bytes) -> Outcome:
    """A server that accepts no link, since something is wrong with its dataset or its address."""
    dataset = os.path.join(folder, words[1])
    standing_steps(read_header(dataset), os.path.dirname(dataset))
    if can_listen(words[2]):
        raise ValueError("this server accepts links, and what it does depends on them")
    raise Refusal(12, "door fault")


def drill(words: Sequence[bytes], folder: bytes) -> Outcome:
    """What is known beforehand of a run in memory."""
    return Outcome(output=drill_text(int(words[1])))


TEXTS = {b"--help": (Path(__file__).parent / "help.txt").read_bytes(), b"--version": b"idxtool 0.1.0\n"}
"""What is printed for a word that stands alone."""
COMMANDS = {b"cut": cut, b"info": info, b"convert": convert, b"query": query, b"check": check, b"serve": serve,
            b"drill": drill}


def run(words: Sequence[bytes], folder: bytes) -> Outcome:
    """What the program does with these words in a folder, which this call only reads."""
    if len(words) == 1 and words[0] in TEXTS:
        return Outcome(output=TEXTS[words[0]])
    place = usage_fault(words)
    try:
        if place is not None:
            raise Refusal(1, f"usage at {place}")
        return COMMANDS[words[0]](words, folder)
    except Refusal as refusal:
        line = b"idxtool: " + refusal.line.encode()
        return Outcome(refusal.status, line, files=refusal.files or {}, unfinished=refusal.files is not None)


