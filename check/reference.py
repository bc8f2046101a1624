"""What a dataset is and what its answers are, written from docs/FORMATS.md alone.

This is the ground of the model that `compare.py` holds the program against; `commands.py` and `server.py` stand on it.
It shares nothing with the program's code and stands on the Python standard library alone. It is as slow and as plain as
the page: a question is a filter over all points of a region. The sections follow the page. Texts are bytes throughout,
since a header may hold bytes that are no text.
"""
from __future__ import annotations

import re
import struct
from collections.abc import Iterator, Sequence
from dataclasses import dataclass
from functools import lru_cache
from itertools import product

Box = tuple[tuple[int, int], ...]
Point = tuple[int, ...]
Mask = tuple[int, ...]
"""The axes that the digits of a mask name, the coarsest first."""


class Refusal(Exception):
    """The status and the line with which a command ends, and the files that it has written before."""

    def __init__(self, status: int, line: str, files: dict[bytes, bytes] | None = None) -> None:
        super().__init__(status, line)
        self.status = status
        self.line = line
        self.files = files


# Numbers, boxes and masks


def number(text: bytes) -> int | None:
    """The number that a text is: 1 to 19 decimal digits without a sign."""
    return int(text) if re.fullmatch(rb"[0-9]{1,19}", text) else None


def split_at_blanks(text: bytes) -> list[bytes]:
    """The pieces between blanks; a blank is a space or a tab."""
    return [piece for piece in re.split(rb"[ \t]+", text) if piece]


def pairs(text: bytes) -> Box | None:
    """Two to five pairs of numbers `lo hi`, where a text is such a list and no lower end passes its upper end."""
    values = [number(piece) for piece in split_at_blanks(text)]
    if None in values or len(values) % 2 != 0 or not 2 <= len(values) // 2 <= 5:
        return None
    box = tuple(zip(values[::2], values[1::2]))
    return box if all(low <= high for low, high in box) else None


def count_of_points(box: Box) -> int:
    """How many points a box has."""
    count = 1
    for low, high in box:
        count *= high - low + 1
    return count


def box_word(text: bytes) -> Box | None:
    """The box that a word of the command line is."""
    box = pairs(text)
    if box is None or any(high >= 2**40 for _, high in box) or count_of_points(box) > 2**40:
        return None
    return box


def points(box: Box) -> Iterator[Point]:
    """The points of a box in row-major order, axis 0 fastest."""
    for backward in product(*(range(low, high + 1) for low, high in reversed(box))):
        yield backward[::-1]


def place_in_volume(point: Point, box: Box) -> int:
    """The place of a point of a box in row-major order, axis 0 fastest."""
    place = 0
    for coordinate, (low, high) in zip(reversed(point), reversed(box)):
        place = place * (high - low + 1) + coordinate - low
    return place


def is_inside(inner: Box, outer: Box) -> bool:
    """Whether a box with as many axes as another lies inside it."""
    return all(low <= start and end <= high for (start, end), (low, high) in zip(inner, outer))


def mask_word(text: bytes) -> Mask | None:
    """The mask that a text is: `V` and one to forty digits 0 to 4."""
    if not re.fullmatch(rb"V[0-4]{1,40}", text):
        return None
    return tuple(int(digit) for digit in text[1:].decode())


def covers(mask: Mask, box: Box) -> bool:
    """Whether a box lies inside a mask: each upper end is below 2 to the number of its axis's digits."""
    return all(high < 2 ** mask.count(axis) for axis, (_, high) in enumerate(box))


def guessed_mask(box: Box) -> bytes:
    """The text of the guessed mask of a box, from the finest digit leftward in rounds; `V` where the box has none."""
    left = [high.bit_length() for _, high in box]
    if sum(left) > 40:
        return b"V"
    text = b""
    while any(left):
        for axis in reversed(range(len(box))):
            if left[axis] > 0:
                text = b"%d" % axis + text
                left[axis] -= 1
    return b"V" + text


# The order of samples


@lru_cache(maxsize=64)
def bits_of(mask: Mask) -> list[tuple[int, int]]:
    """For each digit of a mask its axis and the bit that it names: of an axis the last digit names bit 0."""
    return [(axis, mask[place + 1:].count(axis)) for place, axis in enumerate(mask)]


def z_address(point: Point, mask: Mask) -> int:
    """The number whose binary digits are the bits of the coordinates that the digits of the mask name."""
    address = 0
    for axis, bit in bits_of(mask):
        address = 2 * address + (point[axis] >> bit) % 2
    return address


def level(point: Point, mask: Mask) -> int:
    """The level of a point: 0, or the number of digits less the zeros at the end of its Z address."""
    address = z_address(point, mask)
    if address == 0:
        return 0
    zeros = 0
    while address % 2 == 0:
        address //= 2
        zeros += 1
    return len(mask) - zeros


def hierarchical_address(point: Point, mask: Mask) -> int:
    """The place of a point in the order of samples."""
    of_level = level(point, mask)
    if of_level == 0:
        return 0
    return 2 ** (of_level - 1) + z_address(point, mask) // 2 ** (len(mask) - of_level + 1)


def point_of_address(address: int, mask: Mask) -> Point:
    """The point below the mask's size that has an address."""
    of_level = address.bit_length()
    z = (2 * address - 2 ** of_level + 1) << (len(mask) - of_level) if of_level else 0
    point = [0] * (max(mask) + 1)
    for place, (axis, bit) in enumerate(reversed(bits_of(mask))):
        point[axis] |= (z >> place) % 2 << bit
    return tuple(point)


@lru_cache(maxsize=4096)
def row_order(mask: Mask, bits: int, block: int) -> list[int]:
    """The offsets of a block's addresses in the row-major order of their points, of the box or not."""
    return sorted(range(2**bits), key=lambda offset: point_of_address((block << bits) + offset, mask)[::-1])


def asked_points(region: Box, mask: Mask, low: int, high: int) -> list[Point]:
    """The points of a region whose level is `low` to `high`, in row-major order."""
    return [point for point in points(region) if low <= level(point, mask) <= high]


def count_up_to(region: Box, mask: Mask, high: int) -> int:
    """How many points of a region have at most a level: those on the multiples that the places behind it leave."""
    count = 1
    for axis, (start, end) in enumerate(region):
        step = 2 ** mask[high:].count(axis)
        count *= end // step - (start + step - 1) // step + 1
    return count


def count_asked(region: Box, mask: Mask, low: int, high: int) -> int:
    """How many points a question has, where they may be too many to go over."""
    return count_up_to(region, mask, high) - (count_up_to(region, mask, low - 1) if low > 0 else 0)


# The header text


class HeaderFault(Exception):
    """The first fault of a header text."""

    def __init__(self, line: int, kind: str) -> None:
        super().__init__(line, kind)
        self.line = line
        self.kind = kind


@dataclass(frozen=True)
class Entry:
    """A key with its value and the line of the key."""
    key: bytes
    line: int
    value: bytes


@dataclass(frozen=True)
class Field:
    """A field: samples of `count` numbers of a base."""
    name: bytes
    base: bytes
    count: int

    def canonical_type(self) -> bytes:
        """The type as `info` writes it."""
        return self.base if self.count == 1 else b"%s[%d]" % (self.base, self.count)

    def sample_size(self) -> int:
        """The bytes of a sample."""
        return BASES[self.base] * self.count


@dataclass(frozen=True)
class Time:
    """The first and the last step, and the template of the names of their folders."""
    first: int
    last: int
    template: bytes


@dataclass(frozen=True)
class Header:
    """The values of a header. Two headers agree where these are the same."""
    box: Box
    fields: tuple[Field, ...]
    mask: Mask
    bits_per_block: int
    blocks_per_file: int
    template: tuple[bytes, ...]
    time: Time | None

    def table_size(self) -> int:
        """The bytes of the table of a file."""
        return 40 + 40 * len(self.fields) * self.blocks_per_file


BASES = {b"int8": 1, b"uint8": 1, b"int16": 2, b"uint16": 2, b"int32": 4, b"uint32": 4, b"int64": 8, b"uint64": 8,
         b"float32": 4, b"float64": 8}
KNOWN_KEYS = (b"version", b"box", b"fields", b"bits", b"bitsperblock", b"blocksperfile", b"filename_template", b"time")
LONGEST_HEADER = 65_536


def lines_of(text: bytes) -> list[bytes]:
    """The lines of a text, without what ends them."""
    lines = text.split(b"\n")
    if lines[-1] == b"":
        lines.pop()
    return [line.removesuffix(b"\r") for line in lines]


def check_bytes(lines: Sequence[bytes]) -> None:
    """Refuses the first control byte."""
    for place, line in enumerate(lines, 1):
        if any(byte < 0x20 and byte != ord("\t") or byte == 0x7F for byte in line):
            raise HeaderFault(place, "NotText")


def entries(lines: Sequence[bytes]) -> list[Entry]:
    """The keys of a text, each with its line and its value."""
    found: list[Entry] = []
    for place, whole in enumerate(lines, 1):
        line = whole.strip(b" \t")
        if len(line) >= 2 and line.startswith(b"(") and line.endswith(b")"):
            found.append(Entry(line[1:-1], place, b""))
        elif line and found:
            last = found.pop()
            found.append(Entry(last.key, last.line, b" ".join(filter(None, (last.value, line)))))
    return found


def known_entries(lines: Sequence[bytes]) -> dict[bytes, Entry]:
    """The known keys of a text; each stands once, and only `time` may be missing."""
    known: dict[bytes, Entry] = {}
    for entry in entries(lines):
        if entry.key in known:
            raise HeaderFault(entry.line, "DoubleKey")
        if entry.key in KNOWN_KEYS:
            known[entry.key] = entry
    if any(key not in known for key in KNOWN_KEYS if key != b"time"):
        raise HeaderFault(len(lines) + 1, "MissingKey")
    return known


def entry_number(entry: Entry) -> int:
    """The number that is the value of a key."""
    value = number(entry.value)
    if value is None:
        raise HeaderFault(entry.line, "BadNumber")
    return value


def check_version(entry: Entry) -> None:
    """Refuses another version than 6."""
    if entry_number(entry) != 6:
        raise HeaderFault(entry.line, "OtherVersion")


def parse_box(entry: Entry) -> Box:
    """The box as it is written."""
    box = pairs(entry.value)
    if box is None:
        raise HeaderFault(entry.line, "BadBox")
    return box


def parse_mask(entry: Entry, box: Box) -> Mask:
    """The mask, whose digits name pairs of the box as it is written."""
    mask = mask_word(entry.value)
    if mask is None or max(mask) >= len(box):
        raise HeaderFault(entry.line, "BadMask")
    return mask


def without_spare_pairs(box: Box, mask: Mask) -> Box:
    """A box without the trailing pairs `0 0` past the second whose axes the mask does not name."""
    while len(box) > 2 and box[-1] == (0, 0) and len(box) - 1 not in mask:
        box = box[:-1]
    return box


def parse_type(text: bytes) -> tuple[bytes, int] | None:
    """The base and the count of a type `base`, `base[n]` or `n*base`."""
    if text in BASES:
        return text, 1
    match = re.fullmatch(rb"(?P<base>\w+)\[(?P<count>[0-9]+)\]|(?P<factor>[0-9]+)\*(?P<of>\w+)", text)
    if match is None:
        return None
    base = match["base"] or match["of"]
    count = number(match["count"] or match["factor"])
    return (base, count) if base in BASES and count is not None and count >= 1 else None


def parse_field(text: bytes) -> Field | None:
    """A field: a name, a type and any number of attribute words."""
    words = split_at_blanks(text)
    kind = parse_type(words[1]) if len(words) >= 2 else None
    if kind is None or len(words[0]) > 255:
        return None
    return Field(words[0], *kind)


def parse_fields(entry: Entry) -> tuple[Field, ...]:
    """The fields, separated by `+`."""
    fields = tuple(parse_field(text) for text in entry.value.split(b"+"))
    if None in fields or len({each.name for each in fields}) < len(fields):
        raise HeaderFault(entry.line, "BadField")
    if len(fields) > 64 or any(each.sample_size() > 64 for each in fields):
        raise HeaderFault(entry.line, "OverLimit")
    return fields


def parse_bits_per_block(entry: Entry, mask: Mask, fields: Sequence[Field]) -> int:
    """How many binary digits of an address stand for a place in a block."""
    bits = entry_number(entry)
    if bits == 0 or bits > 20 or bits > len(mask) or len(mask) - bits > 24:
        raise HeaderFault(entry.line, "OverLimit")
    if any(each.sample_size() * 2**bits > 2**24 for each in fields):
        raise HeaderFault(entry.line, "OverLimit")
    return bits


def parse_blocks_per_file(entry: Entry, fields: Sequence[Field]) -> int:
    """How many blocks a file has."""
    blocks = entry_number(entry)
    if blocks == 0 or blocks > 65_536 or 40 + 40 * len(fields) * blocks > 2**24:
        raise HeaderFault(entry.line, "OverLimit")
    return blocks


def template_word(text: bytes) -> tuple[bytes, ...] | None:
    """The parts of a template of names of files, without the parts that are a single dot."""
    parts = text.split(b"/")
    right = all(part != b".." and re.fullmatch(rb"([A-Za-z0-9_.-]|%0[1-8]x)+", part) for part in parts)
    if not right or not 1 <= text.count(b"%") <= 5:
        return None
    return tuple(part for part in parts if part != b".")


def parse_template(entry: Entry, mask: Mask, bits: int, blocks_per_file: int) -> tuple[bytes, ...]:
    """The template of the names of files, in which the number of the file of the last block fits."""
    template = template_word(entry.value)
    if template is None:
        raise HeaderFault(entry.line, "BadTemplate")
    last = 2 ** (len(mask) - bits) - 1
    if file_of_block(last, blocks_per_file) >= 2 ** (4 * sum(mark_widths(template))):
        raise HeaderFault(entry.line, "TemplateTooSmall")
    return template


def is_time_template(text: bytes) -> bool:
    """Whether a text is one part ended by `/`, with exactly one mark `%0Nd`."""
    return re.fullmatch(rb"[A-Za-z0-9_.-]*%0[1-9]d[A-Za-z0-9_.-]*/", text) is not None


def parse_time(entry: Entry) -> Time:
    """The steps `from to template`."""
    words = split_at_blanks(entry.value)
    if len(words) != 3:
        raise HeaderFault(entry.line, "BadTime")
    first, last = number(words[0]), number(words[1])
    if first is None or last is None or not is_time_template(words[2]) or first > last or last > 2**31 - 1:
        raise HeaderFault(entry.line, "BadTime")
    if last - first + 1 > 4096:
        raise HeaderFault(entry.line, "OverLimit")
    return Time(first, last, words[2])


def parse_header(text: bytes) -> Header:
    """The header that a text is; the faults come in the order of the table."""
    if len(text) > LONGEST_HEADER:
        raise HeaderFault(0, "OverLimit")
    lines = lines_of(text)
    check_bytes(lines)
    known = known_entries(lines)
    check_version(known[b"version"])
    written_box = parse_box(known[b"box"])
    mask = parse_mask(known[b"bits"], written_box)
    box = without_spare_pairs(written_box, mask)
    if not covers(mask, box):
        raise HeaderFault(known[b"box"].line, "BoxOutsideMask")
    fields = parse_fields(known[b"fields"])
    bits = parse_bits_per_block(known[b"bitsperblock"], mask, fields)
    blocks_per_file = parse_blocks_per_file(known[b"blocksperfile"], fields)
    template = parse_template(known[b"filename_template"], mask, bits, blocks_per_file)
    time = parse_time(known[b"time"]) if b"time" in known else None
    return Header(box, fields, mask, bits, blocks_per_file, template, time)


def header_words(words: Sequence[bytes]) -> bytes:
    """The header text in the canonical layout whose values are the seven texts of `convert`."""
    box, fields, mask, bits, blocks_per_file, template, time = words
    if mask == b"auto":
        read = box_word(box)
        mask = b"V" if read is None else guessed_mask(read)
    values = (b"6", box, fields, mask, bits, blocks_per_file, template, time)
    return b"".join(b"(%s)\n%s\n" % (key, value) for key, value in zip(KNOWN_KEYS, values))


# Names of files


def mark_widths(template: Sequence[bytes]) -> list[int]:
    """The N of each mark `%0Nx` of a template, from the left."""
    return [int(width) for width in re.findall(rb"%0([1-8])x", b"/".join(template))]


def fill_marks(template: Sequence[bytes], file: int) -> list[bytes]:
    """The parts of a template with the number of a file in the place of its marks."""
    widths = mark_widths(template)
    texts: list[bytes] = []
    for width in reversed(widths[1:]):
        texts.insert(0, b"%0*x" % (width, file % 16**width))
        file //= 16**width
    texts.insert(0, b"%0*x" % (widths[0], file))
    return re.sub(rb"%0[1-8]x", lambda _: texts.pop(0), b"/".join(template)).split(b"/")


def fill_time(template: bytes, step: int) -> bytes:
    """The name of a step's folder, without the `/` at its end."""
    return re.sub(rb"%0([1-9])d", lambda mark: b"%0*d" % (int(mark[1]), step), template).removesuffix(b"/")


def parts_before_step(header: Header) -> list[bytes]:
    """The parts of the template before the first part with a mark."""
    first = next(place for place, part in enumerate(header.template) if b"%" in part)
    return list(header.template[:first])


REVISIONS = 256
"""How many revisions a step of a header with a time can have."""


def step_folder(header: Header, step: int, revision: int = 0) -> bytes:
    """The folder of a revision of a step, seen from the folder of the header's file."""
    behind = b".r%d" % revision if revision > 0 else b""
    name = [fill_time(header.time.template, step) + behind] if header.time else []
    return b"/".join(parts_before_step(header) + name)


def file_path(header: Header, step: int, file: int, revision: int = 0) -> bytes:
    """The path of a file of a revision of a step, seen from the folder of the header's file."""
    front = parts_before_step(header)
    folder = step_folder(header, step, revision)
    return b"/".join(([folder] if folder else []) + fill_marks(header.template, file)[len(front):])


# Blocks, tables and files


def file_of_block(block: int, blocks_per_file: int) -> int:
    """The number of the file of a block: that of the file's first block."""
    return blocks_per_file * (block // blocks_per_file)


@lru_cache(maxsize=8)
def places_of_addresses(box: Box, mask: Mask) -> dict[int, int]:
    """For each address of a point of the box the point's place in the raw volume."""
    return {hierarchical_address(point, mask): place_in_volume(point, box) for point in points(box)}


def present_blocks(header: Header) -> list[int]:
    """The blocks in which some point of the box has its address, in rising order."""
    return sorted({address >> header.bits_per_block for address in places_of_addresses(header.box, header.mask)})


def files_of_step(header: Header) -> list[int]:
    """The files that have a present block, in rising order."""
    return sorted({file_of_block(block, header.blocks_per_file) for block in present_blocks(header)})


LARGEST_VOLUME, LARGEST_FILE = 2**36, 2**32
"""The most bytes that the samples of a step and a file of it may take to be written."""


def volume_size(header: Header) -> int:
    """The bytes of the raw volume."""
    return count_of_points(header.box) * sum(each.sample_size() for each in header.fields)


def file_size(header: Header, blocks: int) -> int:
    """The bytes of a file with so many present blocks of each field."""
    return header.table_size() + blocks * sum(each.sample_size() << header.bits_per_block for each in header.fields)


def too_large(header: Header) -> int | None:
    """The bytes of a volume that is too large to write, or of the first file of the step that is; None where none is."""
    if volume_size(header) > LARGEST_VOLUME:
        return volume_size(header)
    if file_size(header, header.blocks_per_file) <= LARGEST_FILE:
        return None
    files = [file_of_block(block, header.blocks_per_file) for block in present_blocks(header)]
    sizes = [file_size(header, files.count(file)) for file in sorted(set(files))]
    return next((size for size in sizes if size > LARGEST_FILE), None)


def block_bytes(header: Header, which: int, block: int, raw: bytes) -> bytes:
    """The samples of a field in a block, in rising order of addresses; zero bytes where no point has an address."""
    before = sum(each.sample_size() for each in header.fields[:which]) * count_of_points(header.box)
    size = header.fields[which].sample_size()
    places = places_of_addresses(header.box, header.mask)
    samples = []
    for address in range(block << header.bits_per_block, (block + 1) << header.bits_per_block):
        start = before + places[address] * size if address in places else None
        samples.append(bytes(size) if start is None else raw[start:start + size])
    return b"".join(samples)


def row_number(header: Header, which: int, block: int) -> int:
    """The row of a field's block in the table of its file."""
    return which * header.blocks_per_file + block % header.blocks_per_file


def row_bytes(offset: int, size: int, flags: int) -> bytes:
    """The row of a present block."""
    words = [0] * 10
    words[2], words[3], words[4], words[5] = offset % 2**32, offset >> 32, size, flags
    return struct.pack(">10I", *words)


def in_rows(header: Header, which: int, block: int, samples: bytes) -> bytes:
    """The samples of a block of a field in the row-major order of their points."""
    size = header.fields[which].sample_size()
    order = row_order(header.mask, header.bits_per_block, block)
    return b"".join(samples[offset * size:offset * size + size] for offset in order)


def file_bytes(header: Header, file: int, raw: bytes, flags: int = 0) -> bytes:
    """A file of a step: its table, and behind it the present blocks, field after field, in the order that the flags name."""
    table, blocks = bytearray(header.table_size()), b""
    inside = [block for block in present_blocks(header) if file_of_block(block, header.blocks_per_file) == file]
    for which, block in product(range(len(header.fields)), inside):
        start = 40 + 40 * row_number(header, which, block)
        samples = block_bytes(header, which, block, raw)
        table[start:start + 40] = row_bytes(len(table) + len(blocks), len(samples), flags)
        blocks += in_rows(header, which, block, samples) if flags else samples
    return bytes(table) + blocks


@dataclass(frozen=True)
class Row:
    """What a row of a table says."""
    offset: int
    size: int
    flags: int


def read_row(content: bytes, place: int) -> Row | None:
    """A row of the table of a file, where it lies wholly in the file."""
    start = 40 + 40 * place
    if start + 40 > len(content):
        return None
    words = struct.unpack_from(">10I", content, start)
    return Row(words[2] + (words[3] << 32), words[4], words[5])


def row_fault(header: Header, content: bytes, place: int) -> str | None:
    """The first fault of a row."""
    row = read_row(content, place)
    if row is None:
        return "CutShort"
    if row.size == 0:
        return None
    if row.flags not in (0, 16):
        return "Compressed"
    if row.size != header.fields[place // header.blocks_per_file].sample_size() << header.bits_per_block:
        return "WrongSize"
    if row.offset < header.table_size() or row.offset + row.size > len(content):
        return "OutsideFile"
    return None


def check_table(header: Header, file: int, content: bytes) -> None:
    """Refuses the first faulty row of a file."""
    for place in range(len(header.fields) * header.blocks_per_file):
        kind = row_fault(header, content, place)
        if kind is not None:
            raise Refusal(10, f"table file {file} row {place} {kind}")


def row_of_block(header: Header, which: int, block: int, contents: dict[int, bytes]) -> Row | None:
    """The row of a field's block in the checked files of a step; None where its file is not there."""
    content = contents.get(file_of_block(block, header.blocks_per_file))
    return None if content is None else read_row(content, row_number(header, which, block))


def stored_sample(header: Header, which: int, address: int, contents: dict[int, bytes]) -> bytes:
    """A sample of a field in the checked files of a step; zero bytes where its block is absent."""
    size = header.fields[which].sample_size()
    block, inside = divmod(address, 2**header.bits_per_block)
    row = row_of_block(header, which, block, contents)
    if row is None or row.size == 0:
        return bytes(size)
    place = inside if row.flags == 0 else row_order(header.mask, header.bits_per_block, block).index(inside)
    start = row.offset + place * size
    return contents[file_of_block(block, header.blocks_per_file)][start:start + size]


# Whether files are right


def all_files(header: Header) -> range:
    """The files that all blocks would take, in rising order."""
    return range(0, 2 ** (len(header.mask) - header.bits_per_block), header.blocks_per_file)


def wanted_bytes(header: Header, file: int, content: bytes) -> bytes:
    """What is wanted of a file that the writer writes and that has these bytes.

    The bytes that are not the same in the files of two volumes, of which one is all zeros and the other all ones, are those
    of samples of the box: these are the file's own.
    """
    size = volume_size(header)
    zeros, ones = (int.from_bytes(file_bytes(header, file, raw), "big") for raw in (bytes(size), b"\xff" * size))
    length = file_size(header, blocks_in_file(header, file))
    own = int.from_bytes(content[:length].ljust(length, b"\0"), "big")
    return (zeros | (own & (zeros ^ ones))).to_bytes(length, "big")


def blocks_in_file(header: Header, file: int) -> int:
    """How many blocks of a file are present."""
    return sum(file_of_block(block, header.blocks_per_file) == file for block in present_blocks(header))


def first_difference(one: bytes, other: bytes) -> int | None:
    """The least place at which two texts differ, or that only one of them has."""
    pairs_of_bytes = enumerate(zip(one, other))
    end = min(len(one), len(other)) if len(one) != len(other) else None
    return end if one[:end] == other[:end] else next(place for place, (left, right) in pairs_of_bytes if left != right)


def wrong_in(header: Header, file: int, content: bytes | None) -> tuple[int, str] | None:
    """The place of what is wrong with the file of a number, which is there with these bytes or is not, and its kind."""
    if file not in files_of_step(header):
        return None if content is None else (0, "Extra")
    if content is None:
        return 0, "Missing"
    place = first_difference(content, wanted_bytes(header, file, content))
    return None if place is None else (place, "Byte")


# Questions


LARGEST_ANSWER = 2**28


def outside_axis(header: Header, region: Box) -> int | None:
    """The least axis on which a region leaves the box of the dataset."""
    axes = range(len(region))
    return next((axis for axis in axes if not is_inside(region[axis:axis + 1], header.box[axis:axis + 1])), None)


def has_levels(header: Header, low: int, high: int) -> bool:
    """Whether a dataset has these levels."""
    return low <= high <= len(header.mask)


def answer_size(header: Header, which: int, region: Box, low: int, high: int) -> int:
    """The bytes of an answer."""
    return count_asked(region, header.mask, low, high) * header.fields[which].sample_size()


def answer(header: Header, which: int, region: Box, low: int, high: int, contents: dict[int, bytes]) -> bytes:
    """The samples of a field in a region between two levels, out of the checked files of a step."""
    addresses = [hierarchical_address(point, header.mask) for point in asked_points(region, header.mask, low, high)]
    return b"".join(stored_sample(header, which, address, contents) for address in addresses)


# The examples of the page


def check_names() -> None:
    """Stops where this model does not give the two paths of the page's example of names."""
    texts = [b"0 3 0 3", b"a uint8", b"V0101", b"2", b"2", b"./d/%02x/%02x.bin", b"0 9 time%04d/"]
    header = parse_header(header_words(texts))
    assert file_path(header, 3, 0x1204) == b"d/time0003/12/04.bin"
    assert file_path(header, 3, 0x1204, 2) == b"d/time0003.r2/12/04.bin"


def check_example() -> None:
    """Stops where this model does not give the two files of the page's example."""
    check_names()
    header = parse_header(header_words([b"0 3 0 3", b"a uint8", b"V0101", b"2", b"2", b"./%01x.bin", b"0 9 time%04d/"]))
    listed = {
        b"time0000/0.bin": bytes.fromhex("00 02 08 0a 01 09 03 0b"),
        b"time0000/2.bin": bytes.fromhex("04 05 0c 0d 06 07 0e 0f"),
    }
    raw = bytes(range(16))
    given = {file_path(header, 0, file): file_bytes(header, file, raw) for file in files_of_step(header)}
    assert {path: content[120:] for path, content in given.items()} == listed
    assert [wrong_in(header, file, content) for file, content in zip(files_of_step(header), given.values())] == [None, None]
    for content in given.values():
        assert [read_row(content, place) for place in range(2)] == [Row(120, 4, 0), Row(124, 4, 0)]
        assert content[:40] == bytes(40)
    assert [row_order(header.mask, 2, block) for block in range(4)] == [[0, 1, 2, 3], [0, 2, 1, 3], [0, 1, 2, 3], [0, 1, 2, 3]]
