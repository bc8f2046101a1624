"""Random and hostile datasets, headers and command lines.

Each kind of case at the end of this file gets a bench: a folder of its own with a source of random numbers, and a call
that runs the program in that folder and compares what it does with the reference. Only `reference.py` says what is
right; what is made here is meant to be right or wrong, and nothing depends on which it is.
"""
from __future__ import annotations

import os
import shutil
import struct
from collections.abc import Callable, Sequence
from dataclasses import dataclass
from random import Random
from typing import Protocol

import commands
import reference
from reference import Box, Header


class Bench(Protocol):
    """What a case is made on."""
    random: Random
    folder: bytes

    def run(self, words: Sequence[bytes], sink: bytes | None = None, memory: int | None = None) -> commands.Outcome:
        """Runs the program with these words, in so many bytes of address space, and compares.

        It gives what the reference says.
        """


BASES = list(reference.BASES)
MOST_POINTS = 2_000
MOST_BYTES = 2**19
LETTERS = b"abcdefghijklmnopqrstuvwxyz"
CONTROLS = [b"\0", b"\x01", b"\x0b", b"\x0c", b"\x1b", b"\x1f", b"\x7f", b"\r"]


# Texts


def chance(random: Random, percent: int) -> bool:
    """True in so many of a hundred draws."""
    return random.randrange(100) < percent


def name(random: Random, longest: int = 6) -> bytes:
    """A short name of letters."""
    return bytes(random.choice(LETTERS) for _ in range(random.randint(1, longest)))


def odd_number(random: Random, value: int) -> bytes:
    """A number, now and then with leading zeros."""
    return b"%0*d" % (random.randint(1, 19) if chance(random, 5) else 1, value)


def spaced(random: Random, words: Sequence[bytes], blanks: bytes = b" ") -> bytes:
    """Words with blanks between them, now and then with odd ones between and around."""
    if chance(random, 80):
        return b" ".join(words)
    gaps = [bytes(random.choice(blanks) for _ in range(random.randint(1, 3))) for _ in range(len(words) + 1)]
    text = b"".join(gap + word for gap, word in zip(gaps, words)) + gaps[-1]
    return text.strip(blanks) if chance(random, 50) else text


def box_text(random: Random, box: Box, blanks: bytes = b" ") -> bytes:
    """The text of a box."""
    return spaced(random, [odd_number(random, end) for pair in box for end in pair], blanks)


# Datasets


@dataclass
class Dataset:
    """The values of a header, as they are written."""
    box: Box
    fields: list[list[bytes]]
    mask: bytes
    bits: int
    blocks_per_file: int
    template: bytes
    steps: tuple[int, int]
    time: bytes

    def texts(self, random: Random) -> list[bytes]:
        """The seven texts of `convert`."""
        fields = b"+".join(spaced(random, words) + random.choice([b"", b" "]) for words in self.fields)
        numbers = [odd_number(random, value) for value in (self.bits, self.blocks_per_file)]
        time = spaced(random, [odd_number(random, step) for step in self.steps] + [self.time])
        return [box_text(random, self.box), fields, self.mask, *numbers, self.template, time]


def draw_box(random: Random, most_points: int = MOST_POINTS) -> Box:
    """A small box, mostly not at the origin."""
    most = random.choice([4, 60, most_points])
    sides: list[int] = []
    for _ in range(random.randint(2, 5)):
        sides.append(random.randint(1, min(most, 40)))
        most //= sides[-1]
    random.shuffle(sides)
    lows = [random.choice([0, 0, random.randint(0, 5), random.randint(0, 70)]) for _ in sides]
    return tuple((low, low + side - 1) for low, side in zip(lows, sides))


def draw_mask(random: Random, box: Box) -> bytes:
    """A mask that covers a box, with digits in any order and now and then spare ones."""
    digits = [axis for axis, (_, high) in enumerate(box) for _ in range(high.bit_length())]
    spare = random.choice([0, 0, 0, 1, 3])
    digits += [random.randrange(len(box)) for _ in range(spare if digits else spare + 1)]
    style = random.randrange(3)
    if style == 0:
        random.shuffle(digits)
    elif style == 1:
        digits.sort(reverse=chance(random, 50))
    elif spare == 0:
        return reference.guessed_mask(box)
    return b"V" + b"".join(b"%d" % digit for digit in digits)


def draw_field(random: Random) -> list[bytes]:
    """The words of a field: its name, its type and attribute words."""
    base = random.choice(BASES)
    count = random.choice([1, 1, 1, random.randint(1, 64 // reference.BASES[base])])
    kind = random.choice([b"%s[%d]" % (base, count), b"%d*%s" % (count, base)])
    if count == 1 and chance(random, 80):
        kind = base
    words = [name(random) if chance(random, 90) else random.choice([b"(x)", b"a.b", b"q" * 255, b"7", b"x,y;z"]), kind]
    attributes = [b"default_layout(hzorder)", b"default_value(0)", b"min(0)", b"(box)", b"uint8"]
    return words + random.sample(attributes, random.choice([0, 0, 0, 1, 3]))


def draw_template(random: Random, most: int) -> bytes:
    """A template of names into which a number mostly fits."""
    widths: list[int] = []
    while 16 ** sum(widths) <= most or not widths:
        widths.append(random.randint(1, 4))
    widths = widths[-5:]
    text = random.choice([b"", b"./", b"bin/", b"a/./b/", name(random) + b"/"])
    for place, width in enumerate(widths):
        text += b"%%0%dx" % width
        if place < len(widths) - 1:
            text += random.choice([b"", b"/", b"_", b"/f-", b".d/"])
    return text + random.choice([b".bin", b"", b".idx.0", b"/all.bin", b"/."])


def draw_time(random: Random) -> bytes:
    """A template of the names of the folders of steps."""
    mark = b"%%0%dd" % random.randint(1, 9)
    return random.choice([b"time", b"", b"t_", b"T-0."]) + mark + random.choice([b"", b"", b".d", b"_x", b".r1"]) + b"/"


def cost(dataset: Dataset) -> int:
    """At most so many bytes are in the files of a step."""
    count = reference.count_of_points(dataset.box)
    samples = sum(reference.parse_field(b" ".join(words)).sample_size() for words in dataset.fields)
    blocks = min(count, 2 ** max(0, len(dataset.mask) - 1 - dataset.bits))
    tables = 40 + 40 * len(dataset.fields) * dataset.blocks_per_file
    return blocks * (samples << dataset.bits) + min(blocks, 1 + blocks // dataset.blocks_per_file * 2) * tables


def draw_dataset(random: Random) -> Dataset:
    """A small dataset that `convert` mostly takes."""
    while True:
        box = draw_box(random)
        mask = draw_mask(random, box)
        digits = len(mask) - 1
        if not max(1, digits - 24) <= min(digits, 9):
            continue
        bits = random.randint(max(1, digits - 24), min(digits, 9))
        fields = [draw_field(random) for _ in range(random.choice([1, 1, 2, 3]))]
        blocks_per_file = random.choice([1, 2, 3, 4, random.randint(1, 12), random.randint(1, 300)])
        last = reference.file_of_block(2 ** (digits - bits) - 1, blocks_per_file)
        first = random.choice([0, 0, random.randint(0, 30), random.randint(0, 2**31 - 5)])
        steps = first, first + random.choice([0, 3, 4])
        template = draw_template(random, last)
        dataset = Dataset(box, fields, mask, bits, blocks_per_file, template, steps, draw_time(random))
        if cost(dataset) <= MOST_BYTES:
            return dataset


def draw_raw(random: Random, size: int) -> bytes:
    """The bytes of a raw volume, now and then of another size."""
    if chance(random, 4):
        size = max(0, size + random.choice([-1, 1, -size, size]))
    return random.randbytes(size)


def write(bench: Bench, path: bytes, content: bytes) -> None:
    """Puts a file, with the folders that it needs."""
    whole = os.path.join(bench.folder, path)
    os.makedirs(os.path.dirname(whole), exist_ok=True)
    with open(whole, "wb") as file:
        file.write(content)


def draw_path(random: Random, bench: Bench) -> bytes:
    """The path of a header's file."""
    absolute = os.path.join(bench.folder, b"v.idx")
    plain = [b"v.idx", b"v.idx", b"./v.idx", b"my data.idx", b"sub/deep/v.idx", b"sub//v.idx", b"(v)"]
    return random.choice([*plain, absolute])


@dataclass
class Made:
    """A dataset that was asked for: its header's file, its seven texts and its header, where they make one."""
    path: bytes
    dataset: Dataset
    texts: list[bytes]
    header: Header | None
    step: int


def header_of(texts: Sequence[bytes]) -> Header | None:
    """The header of the seven texts of `convert`."""
    try:
        return reference.parse_header(reference.header_words(texts))
    except reference.HeaderFault:
        return None


def make(bench: Bench) -> Made:
    """Converts a first step of a random dataset."""
    random = bench.random
    dataset = draw_dataset(random)
    texts = dataset.texts(random)
    if chance(random, 20):
        texts[2] = b"auto"
    header = header_of(texts)
    step = random.randint(*dataset.steps)
    made = Made(draw_path(random, bench), dataset, texts, header, step)
    if header is not None:
        write(bench, b"r.raw", draw_raw(random, reference.volume_size(header)))
    convert(bench, made, step)
    return made


def convert(bench: Bench, made: Made, step: int, texts: Sequence[bytes] | None = None) -> None:
    """Asks for a step of a dataset."""
    words = [b"convert", made.path, b"r.raw", *(texts or made.texts), odd_number(bench.random, step)]
    bench.run(words + draw_options(bench.random, b"convert"))


def draw_options(random: Random, command: bytes) -> list[bytes]:
    """Options of a command: counts, which change nothing of what it does, and the order of samples in blocks."""
    options = commands.OPTIONS[command]
    chosen = random.sample(sorted(options), random.choice([0, 0, 0, random.randint(0, len(options))]))
    pairs = [[name, odd_number(random, draw_count(random, options[name]))] for name in chosen]
    if command == b"convert" and chance(random, 40):
        pairs.insert(random.randint(0, len(pairs)), [b"--layout", random.choice([b"rows", b"rows", b"hz"])])
    return [word for pair in pairs for word in pair]


def draw_count(random: Random, most: int) -> int:
    """A number of an option, seldom a great one, which takes the program long."""
    return random.choice([most - 1, most]) if chance(random, 5) else random.choice([1, 2, 3, 7, 64])


# Questions


def draw_region(random: Random, box: Box) -> Box:
    """A region inside a box: a part of it, a slice, a point or all."""
    region = []
    for low, high in box:
        ends = random.choice([(low, high), sorted(random.choices(range(low, high + 1), k=2)), (high, high)])
        region.append(tuple(ends))
    return tuple(region)


def draw_levels(random: Random, most: int) -> tuple[int, int]:
    """Levels, mostly from a coarse one to a fine one."""
    low, high = sorted(random.choices(range(most + 1), k=2))
    return random.choice([(low, high), (0, high), (0, most), (high, high), (low, most)])


def spoilt_region(random: Random, region: Box) -> Box:
    """A region with another number of axes, or one that may leave its box."""
    if chance(random, 40):
        return random.choice([region + ((0, 0),), region[:-1], region[:2]])[:5]
    axis = random.randrange(len(region))
    low, high = region[axis]
    ends = random.choice([(low, high + random.randint(1, 70)), (max(0, low - 1), high), (high + 50, high + 60)])
    return region[:axis] + (ends,) + region[axis + 1:]


def draw_query(random: Random, path: bytes, header: Header, step: int) -> list[bytes]:
    """The words of a question, now and then one that the dataset does not have."""
    field = random.choice(header.fields).name
    region = draw_region(random, header.box)
    low, high = draw_levels(random, len(header.mask))
    spoil = random.randrange(20)
    if spoil == 0:
        step = random.choice([step + 1, 0, 10**19 - 1, 2**32])
    elif spoil == 1:
        field = random.choice([field + b"x", field.upper(), b" " + field, b"other"])
    elif spoil == 2:
        region = spoilt_region(random, region)
    elif spoil == 3:
        low, high = random.choice([(high + 1, high), (low, len(header.mask) + 1), (0, 2**32 - 1), (2**32 - 1, 0)])
    words = [b"query", path, odd_number(random, step), field, box_text(random, region, b" \t")]
    return words + [odd_number(random, low), odd_number(random, high)] + draw_options(random, b"query")


def ask(bench: Bench, made: Made, count: int) -> None:
    """Asks some questions of a dataset."""
    for _ in range(count):
        if made.header is not None:
            bench.run(draw_query(bench.random, made.path, made.header, made.step))
    check(bench, made.path, made.header, made.step)


# Whether files are right


MOST_FILES = 2_000
"""A step with more files than these is not checked here, where each is looked for."""


def check(bench: Bench, path: bytes, header: Header | None, step: int, sink: bytes | None = None) -> None:
    """Asks whether the files of a step are right, now and then of another step."""
    if header is not None and len(reference.all_files(header)) <= MOST_FILES:
        asked = step if chance(bench.random, 95) else bench.random.choice([step + 1, 0, 10**19 - 1])
        bench.run([b"check", path, odd_number(bench.random, asked)], sink)


# Headers


HOSTILE_VALUES: dict[bytes, list[bytes]] = {
    b"version": [
        b"", b"5", b"7", b"06", b"6 6", b"v6", b"-6", b"+6", b"6.0", b"60", b"0" * 18 + b"6", b"0" * 19 + b"6",
    ],
    b"box": [
        b"", b"0", b"0 3", b"0 3 0", b"3 0 0 3", b"0 3 3 2", b"0 3 0 3 0", b"0 3 0 -3", b"0 3 0 x", b"0,3 0 3",
        b"0 1 0 1 0 0", b"0 1 0 1 0 0 0 0 0 0", b"0 1 0 1 0 0 0 0 0 0 0 0", b"0 0 0 0", b"0 0 0 0 0 0", b"5 4 0 0",
        b"0 99999999999999999999 0 3", b"0 9999999999999999999 0 3", b"0 1099511627776 0 1", b"0 255 0 255",
        b"0 1 0 1 0 1", b"0 1 0 1 0 0 0 1", b"1 1 1 1 00 0",
    ],
    b"fields": [
        b"", b"a", b"+", b"a uint8 +", b"+ a uint8", b"a uint8 + a int8", b"a uint8 + b", b"a uint9", b"a uint8[0]",
        b"a uint8[01]", b"a uint8[65]", b"a 65*uint8", b"a 64*uint8", b"a 0*uint8", b"a 2*uint8[2]", b"a uint8[",
        b"a uint8[]", b"a *uint8", b"a uint8[ 2]", b"a float64[9]", b"a float64[8]", b"a UINT8", b"uint8",
        b"a uint8 x y", b"a float16", b"a uint8[9999999999999999999]", b"a uint8[99999999999999999999]",
        b"a  int8+b\tint16 + c int32", b"q" * 255 + b" uint8", b"q" * 256 + b" uint8", b"\xc3\xa9 uint8",
        b"\xff\xfe int16", b"a uint8 \x80", b"a uint8[+2]", b"a uint8[2]x", b"a int8[1]", b"a 1*int8",
        b"\xc2\xa0 uint8", b"a uint8[\xc2\xb2]",
        b"+".join(b"f%d int8" % place for place in range(64)), b"+".join(b"f%d int8" % place for place in range(65)),
    ],
    b"bits": [
        b"", b"V", b"0101", b"v0101", b"V0101 ", b"V01012", b"V0", b"V5", b"V01 01", b"V010x", b"V" + b"01" * 20,
        b"V" + b"01" * 21, b"V" + b"0" * 40, b"V" + b"0" * 41, b"VV01", b"V-1", b"V012340123401234", b"V4",
        b"V\xc2\xb2",
    ],
    b"bitsperblock": [
        b"", b"0", b"1", b"3", b"20", b"21", b"16", b"15", b"14", b"x", b"-1", b"2 2", b"1" * 19, b"1" * 20, b"02",
    ],
    b"blocksperfile": [
        b"", b"0", b"1", b"65536", b"65537", b"x", b"1.5", b"9" * 19, b"9" * 20, b"010", b"32768", b"20000",
    ],
    b"filename_template": [
        b"", b".", b"/", b"%01x", b"./%01x", b"/%01x", b"%01x/", b"a//%01x", b"../%01x", b"a/../%01x", b"./.",
        b"a/./%08x/./b", b"%02x/%02x/%02x/%02x/%02x", b"%01x" * 5, b"%01x" * 6, b"%1x", b"%00x", b"%09x", b"%01X",
        b"%01d", b"%", b"%01x%", b"a b%01x", b"a+%01x", b"\xc3\xa9%01x", b"...%01x", b".../%01x", b"..%01x",
        b"%08x%08x%08x%08x%08x", b"plain.bin", b"%%01x", b"%01xx", b"%01x\\", b"a*%01x",
    ],
    b"time": [
        b"", b"0", b"0 9", b"0 9 t%04d/ x", b"9 0 t%04d/", b"0 4095 t%04d/", b"0 4096 t%04d/", b"1 4096 t%04d/",
        b"0 2147483647 t%01d/", b"2147483647 2147483647 t%09d/", b"0 2147483648 t%01d/",
        b"2147483648 2147483648 t%01d/", b"-1 9 t%04d/", b"0 9 t%04d", b"0 9 t%04d//", b"0 9 a/t%04d/",
        b"0 9 ./t%04d/", b"0 9 t/", b"0 9 t%4d/", b"0 9 %00d/", b"0 9 %01d%01d/", b"0 9 %04x/", b"0 9 %04x%01d/",
        b"0 9 /", b"0 9 %09d/", b"0 9 %01d/", b"x y t%04d/", b"* * t%04d/", b"0 9 \xc3\xa9%04d/",
        b"0 99999999999999999999 t%01d/", b"0 9 ..%01d/", b"00 09 t%04d/",
    ],
}
OTHER_KEYS = [b"interleave block", b"logic_to_physic", b"", b"Box", b" box", b"box ", b"(box)", b"timestep",
              b"\xc3\xa9", b"a)b"]
STRAY_TEXTS = [b"\r\r\n", b"\n\r", b"(", b")", b"()", b"\xff", b"\t", b"\n(box)\n", b" ", b"+"]
ENDS_OF_LINES = [[b"\n"], [b"\r\n"], [b"\n", b"\r\n"], [b"\n", b"\r\n", b"\n\n", b"\r\n\r\n"]]
Entries = list[tuple[bytes, bytes]]


def entries_of(texts: Sequence[bytes]) -> Entries:
    """The keys and values of a header of seven texts."""
    return list(zip(reference.KNOWN_KEYS, [b"6", *texts]))


def spoil_value(random: Random, entries: Entries) -> None:
    """Gives a key a hostile value."""
    place = random.randrange(len(entries))
    key = entries[place][0]
    if key in HOSTILE_VALUES:
        entries[place] = key, random.choice(HOSTILE_VALUES[key])


def spoil_keys(random: Random, entries: Entries) -> None:
    """Doubles, drops, adds, moves or renames a key."""
    place = random.randrange(len(entries))
    key, value = entries[place]
    style = random.randrange(6)
    if style == 0:
        entries.insert(random.randint(0, len(entries)), (key, value))
    elif style == 1 and len(entries) > 1:
        entries.pop(place)
    elif style == 2:
        other = random.choice(OTHER_KEYS), random.choice([b"", b"x y", b"0 1"])
        entries.insert(random.randint(0, len(entries)), other)
    elif style == 3:
        random.shuffle(entries)
    elif style == 4:
        entries[place] = random.choice(OTHER_KEYS), value
    elif entries[-1][0] == b"time":
        entries.pop()


def value_lines(random: Random, value: bytes) -> list[bytes]:
    """The lines of a value, which is cut at some blanks now and then."""
    if chance(random, 80):
        return [value] if value or chance(random, 50) else []
    lines = [b""]
    for word in value.split(b" "):
        if lines[-1] and chance(random, 40):
            lines.append(word)
        else:
            lines[-1] += b" " + word
    return lines


def lay_out_header(random: Random, entries: Entries) -> bytes:
    """The text of a header, now and then with odd blanks, blank lines, ends of lines and lines before the first key."""
    odd = chance(random, 50)
    lines = random.choice([[], [b"before"], [b"", b"6"]]) if odd else []
    for key, value in entries:
        for line in [b"(" + key + b")", *value_lines(random, value)]:
            around = [random.choice([b"", b"", b"", b" ", b"\t "]) for _ in range(2)] if odd else [b"", b""]
            lines.append(around[0] + line + around[1])
            if odd and chance(random, 8):
                lines.append(random.choice([b"", b" \t"]))
    ends = random.choice(ENDS_OF_LINES) if odd else [b"\n"]
    text = b"".join(line + random.choice(ends) for line in lines)
    return text[:-random.randint(1, 3)] if odd and chance(random, 20) else text


def spoil_text(random: Random, text: bytes) -> bytes:
    """Puts a stray byte into a text, takes a part away, cuts it short or fills it up to the greatest length."""
    place = random.randint(0, len(text))
    style = random.randrange(6)
    if style <= 1:
        return text[:place] + random.choice(CONTROLS) + text[place:]
    if style == 2:
        return text[:place] + random.choice(STRAY_TEXTS) + text[place:]
    if style == 3:
        return text[:place] + text[place + random.randint(1, 20):]
    if style == 4:
        return text[:place]
    room = 65_536 + random.choice([-1, 0, 0, 1, 1, 300]) - len(text)
    return text + b"(more)\n" + b"x" * (room - 8) + random.choice([b"\n", b"x", b"\x01"])


def draw_header(random: Random, texts: Sequence[bytes]) -> bytes:
    """A header that may be right or have faults."""
    entries = entries_of(texts)
    for _ in range(random.choice([0, 1, 1, 1, 2])):
        random.choice([spoil_value, spoil_value, spoil_keys])(random, entries)
    text = lay_out_header(random, entries)
    return spoil_text(random, text) if chance(random, 25) else text


def small_texts(random: Random) -> list[bytes]:
    """The seven texts of a header so small and plain that one hostile value is one fault."""
    return [b"0 3 0 3", b"a uint8", b"V0101", b"%d" % random.randint(1, 4), b"2", b"./%02x.bin", b"0 9 time%04d/"]


def limit_texts(random: Random) -> list[bytes]:
    """The seven texts of a header with long masks, large blocks and large tables, at the limits and above them."""
    seven = b"+".join(b"f%d int8" % place for place in range(7))
    fields = random.choice([b"a uint8[64]", b"a uint8[33]", b"a int8", seven])
    mask = b"V" + b"01" * random.choice([10, 19, 20, 20])
    bits = b"%d" % random.randint(14, 21)
    blocks = random.choice([b"1", b"65536", b"59918", b"59919", b"60000"])
    template = random.choice([b"%06x", b"%05x%01x", b"%05x", b"%01x/%04x"])
    return [b"0 3 0 3", fields, mask, bits, blocks, template, b"0 4095 t%01d/"]


def other_texts(random: Random) -> list[bytes]:
    """The seven texts of a random dataset."""
    return draw_dataset(random).texts(random)


# Files that others could have laid out


def odd_file(random: Random, header: Header, file: int, raw: bytes) -> bytes:
    """A right file whose blocks stand in another order with gaps, some with their samples in row-major order, and whose
    passed-over words are not 0."""
    plain = reference.file_bytes(header, file, raw)
    table = bytearray(random.randbytes(header.table_size()))
    rows = list(range(len(header.fields) * header.blocks_per_file))
    random.shuffle(rows)
    blocks, rows_share = b"", random.choice([0, 0, 50, 100])
    for place in rows:
        row = reference.read_row(plain, place)
        start = 40 + 40 * place
        struct.pack_into(">4I", table, start + 8, 0, 0, 0, 0)
        if row.size > 0:
            blocks += random.randbytes(random.choice([0, 0, 1, 9]))
            flags = 16 if chance(random, rows_share) else 0
            struct.pack_into(">4I", table, start + 8, len(table) + len(blocks), 0, row.size, flags)
            samples = plain[row.offset:row.offset + row.size]
            which, number = divmod(place, header.blocks_per_file)
            blocks += reference.in_rows(header, which, file + number, samples) if flags else samples
        elif chance(random, 30):
            low, high, flags = (random.getrandbits(32) for _ in range(3))
            struct.pack_into(">4I", table, start + 8, low, high, 0, flags)
    return bytes(table) + blocks


def put_step(bench: Bench, header: Header, path: bytes, step: int, revision: int = 0) -> None:
    """Puts the files of a revision of a step as another program could."""
    random = bench.random
    raw = random.randbytes(reference.volume_size(header))
    beside = os.path.dirname(path)
    os.makedirs(os.path.join(bench.folder, beside, reference.step_folder(header, step, revision)), exist_ok=True)
    for file in reference.files_of_step(header):
        if chance(random, 90):
            path = os.path.join(beside, reference.file_path(header, step, file, revision))
            write(bench, path, odd_file(random, header, file, raw))


# Damage


def files_below(folder: bytes) -> list[bytes]:
    """The paths of the regular files below a folder, in order."""
    return sorted(os.path.join(at, file) for at, _, files in os.walk(folder) for file in files)


def cut_short(random: Random, content: bytes, header: Header) -> bytes:
    """A file that ends somewhere, often near the end of its table or of a row."""
    end = len(content)
    near = random.choice([header.table_size(), 40 + 40 * random.randint(0, 4), end, random.randint(0, end)])
    return content[:max(0, min(end, near + random.randint(-2, 1)))]


def change_row(random: Random, content: bytes, header: Header) -> bytes:
    """A file with another word in one of its rows."""
    changed = bytearray(content)
    rows = range(len(header.fields) * header.blocks_per_file)
    present = [place for place in rows if getattr(reference.read_row(content, place), "size", 0) > 0]
    place = random.choice(present if present and chance(random, 80) else rows)
    word = random.choice([0, 1, 2, 2, 3, 4, 4, 5, 5, 5, 6, 9])
    start = 40 + 40 * place + 4 * word
    size = header.fields[place // header.blocks_per_file].sample_size() << header.bits_per_block
    table, end = header.table_size(), len(content)
    values = [0, 1, 8, 15, 16, 17, 24, 2**31, 2**32 - 1, size, size - 1, size + 1, table, table - 1, end, end - size,
              end - size + 1, random.randrange(end + 1)]
    if word == 5 and chance(random, 70):
        values = [1, 8, 15, 16, 16, 17, 2**31 + 16]
    if start + 4 <= len(content):
        struct.pack_into(">I", changed, start, random.choice(values) % 2**32)
    return bytes(changed)


def damage(bench: Bench, header: Header, path: bytes) -> None:
    """Damages a file of a dataset, or puts something else beside it or in its place."""
    random = bench.random
    with open(path, "rb") as file:
        content = file.read()
    style = random.randrange(12)
    if style <= 3:
        content = cut_short(random, content, header)
    elif style <= 8:
        for _ in range(random.choice([1, 1, 2, 3])):
            content = change_row(random, content, header)
    elif style == 9:
        content += random.randbytes(random.randint(1, 50))
    elif style == 10:
        content = random.randbytes(random.choice([len(content), 0, 40, 80]))
    os.remove(path)
    if style < 11:
        write(bench, path, content)
    elif chance(random, 30):
        os.mkdir(path)


def put_extra(bench: Bench, header: Header, folder: bytes, step: int, revision: int) -> None:
    """Puts a file where one of blocks would be that have no point of the box, where there is such a place."""
    places = all_files_of_few(header) - set(reference.files_of_step(header))
    if places:
        path = os.path.join(folder, reference.file_path(header, step, bench.random.choice(sorted(places)), revision))
        if not os.path.lexists(os.path.join(bench.folder, path)):
            write(bench, path, bench.random.choice([b"", b"extra", bytes(header.table_size())]))


def all_files_of_few(header: Header) -> set[int]:
    """The files that all blocks would take, where these are not too many to be looked for."""
    files = reference.all_files(header)
    return set(files) if len(files) <= MOST_FILES else set()


# Steps that are written again


def right_texts(random: Random, most_bytes: int = MOST_BYTES) -> list[bytes]:
    """The seven texts of a random dataset that `convert` takes, of so many bytes a step."""
    while True:
        dataset = draw_dataset(random)
        texts = dataset.texts(random)
        words = [b"convert", b"v.idx", b"r.raw", *texts, b"0"]
        is_right = header_of(texts) is not None and commands.usage_fault(words) is None
        if is_right and cost(dataset) <= most_bytes:
            return texts


@dataclass
class Series:
    """A step of a dataset whose words are right, and its revisions."""
    bench: Bench
    path: bytes
    texts: list[bytes]
    header: Header
    step: int

    def convert(self) -> None:
        """Writes the step once more, out of another volume."""
        write(self.bench, b"r.raw", self.bench.random.randbytes(reference.volume_size(self.header)))
        self.bench.run([b"convert", self.path, b"r.raw", *self.texts, b"%d" % self.step])

    def ask(self) -> None:
        """Asks for a field of the whole step, and for something else."""
        field = self.bench.random.choice(self.header.fields).name
        box = b" ".join(b"%d %d" % pair for pair in self.header.box)
        self.bench.run([b"query", self.path, b"%d" % self.step, field, box, b"0", b"%d" % len(self.header.mask)])
        self.bench.run(draw_query(self.bench.random, self.path, self.header, self.step))
        check(self.bench, self.path, self.header, self.step)

    def folder(self, revision: int) -> bytes:
        """The path of the folder of a revision."""
        beside = os.path.join(self.bench.folder, os.path.dirname(self.path))
        return os.path.join(beside, reference.step_folder(self.header, self.step, revision))

    def standing(self) -> list[int]:
        """The first revisions that stand, those behind a gap too."""
        return [revision for revision in range(12) if os.path.isdir(self.folder(revision))]


def draw_series(bench: Bench, texts: list[bytes]) -> Series:
    """A step that is not yet written, of a dataset with these texts."""
    header = header_of(texts)
    return Series(bench, draw_path(bench.random, bench), texts, header, bench.random.choice(commands.steps_of(header)))


def remove(path: bytes) -> None:
    """Takes a file away, or a folder with what is in it."""
    if os.path.isdir(path) and not os.path.islink(path):
        shutil.rmtree(path)
    elif os.path.lexists(path):
        os.remove(path)


def remove_a_revision(series: Series) -> None:
    """Takes the newest revision away, or another one."""
    standing = series.standing()
    if standing:
        remove(series.folder(series.bench.random.choice([standing[-1], *standing])))


def keep_the_newest(series: Series) -> None:
    """Takes all revisions away but the newest, which gets the name of the first."""
    *others, last = series.standing() or [0]
    for revision in others:
        remove(series.folder(revision))
    if last > 0:
        remove(series.folder(0))
        os.rename(series.folder(last), series.folder(0))


def put_empty_revision(series: Series) -> None:
    """Puts an empty folder where a revision could stand, or where none can."""
    place = series.folder(series.bench.random.choice([0, 1, 2, 3, 4, 10, 255, 256]))
    if not os.path.lexists(place):
        os.makedirs(place)


def put_other_names(series: Series) -> None:
    """Puts folders whose names are nearly those of revisions."""
    first = series.folder(0)
    for behind in (b".r", b".r0", b".r01", b".r1x", b".R1", b"r1", b".1", b".r-1", b".r+1", b".r1.r1", b".r256"):
        os.makedirs(first + behind, exist_ok=True)


def put_no_folder(series: Series) -> None:
    """Puts a file, a pipe or a link where the folder of the next revision should be."""
    place = series.folder(series.bench.random.choice([len(series.standing()), 1, 2]))
    os.makedirs(os.path.dirname(place), exist_ok=True)
    if os.path.lexists(place):
        return
    style = series.bench.random.randrange(4)
    if style == 0:
        os.mkfifo(place)
    elif style == 1:
        os.symlink(os.path.basename(series.folder(0)), place)
    elif style == 2:
        os.symlink(b"nowhere", place)
    else:
        write(series.bench, place, b"no folder")


def clear_the_way(series: Series) -> None:
    """Takes away what is no folder and stands where one of a revision should be."""
    for revision in range(12):
        if not os.path.isdir(series.folder(revision)):
            remove(series.folder(revision))


def put_staged(series: Series, revision: int) -> None:
    """Puts what a conversion that died could have staged of a revision."""
    file = reference.files_of_step(series.header)[0]
    path = reference.file_path(series.header, series.step, file, revision)
    inside = os.path.relpath(path, reference.step_folder(series.header, series.step, revision))
    write(series.bench, os.path.join(series.folder(revision) + b".part", inside), b"half of a table")


def leave_staged(series: Series) -> None:
    """Leaves what was staged of the next revision, or of another one."""
    put_staged(series, series.bench.random.choice([len(series.standing()), 1, 2]))


def damage_a_revision(series: Series) -> None:
    """Damages a file of some revision."""
    standing = [revision for revision in series.standing() if files_below(series.folder(revision))]
    if standing:
        path = series.bench.random.choice(files_below(series.folder(series.bench.random.choice(standing))))
        damage(series.bench, series.header, path)


def put_extra_file(series: Series) -> None:
    """Puts a file into some revision that no conversion writes there."""
    for revision in series.bench.random.sample(series.standing(), min(1, len(series.standing()))):
        put_extra(series.bench, series.header, os.path.dirname(series.path), series.step, revision)


CHANGES: list[Callable[[Series], None]] = [
    remove_a_revision, remove_a_revision, keep_the_newest, put_empty_revision, put_other_names, put_no_folder,
    clear_the_way, leave_staged, leave_staged, damage_a_revision, damage_a_revision, put_extra_file, put_extra_file,
]
"""What can be done by hand between two conversions."""


# Words


def hostile_words(random: Random) -> list[bytes]:
    """Words that are wrong in most places."""
    return [b"", b" ", b"\t", b"-", b"-1", b"+1", b"0", b"1", b"1.0", b"0x1", b"--help", b"--version", b"-h", b"64",
            b"65", b"(box)", b"(", b"auto", b"V", b"V5", b"V0101", b"v0101", b"V" + b"0" * 40, b"V" + b"01" * 21,
            b"--cache", b"--ranks", b"--links", b"--workers", b"--ingest", b"--raw", b"--cache=64", b"--",
            b"--layout", b"rows", b"hz",
            b"9" * 19, b"9" * 20, b"0" * 20, b"4294967295", b"4294967296", b"0 3 0 3", b"0 3", b"3 0 0 3",
            b"0 3 0 3 0", b"0\n3 0 3", b"0 3 0 1099511627776", b"0 3\t0 3", b" 0 3 0 3 ", b"0 0 " * 6, b"0 0 " * 5,
            b"0 1099511627775 0 0", b"0 1099511627775 0 1", b"a" * 4096, b"a" * 4097, b"a" * 100_000,
            b" " * 50_000 + b"0 3 0 3", b"a\x01", b"a\nb", b"a\x7f", b"\x1b[31m", b"~", b"\xc3\xa9", b"\xff", b"a\x80",
            "\u00a00 3 0 3".encode(), "\u0661".encode(), b"cut", b"info", b"check", b"drill", b"1" + random.choice(CONTROLS[1:]),
            b"0 %d 0 %d" % (random.getrandbits(random.randint(1, 42)), random.getrandbits(random.randint(1, 42)))]


def draw_cut(random: Random) -> tuple[list[bytes], int]:
    """The words of a cut, and the bytes of its raw volume."""
    box = draw_box(random)
    mask = draw_mask(random, box)
    if len(mask) > 41:
        return draw_cut(random)
    size = random.choice([1, 1, 2, 3, 8, random.randint(1, 64)])
    region = box_text(random, draw_region(random, box), b" \t")
    low, high = draw_levels(random, len(mask) - 1)
    words = [b"cut", b"r.raw", odd_number(random, size), box_text(random, box, b" \t"), mask, region]
    return words + [odd_number(random, low), odd_number(random, high)], reference.count_of_points(box) * size


def right_words(random: Random) -> list[bytes]:
    """A list of words that is right."""
    dataset = draw_dataset(random)
    header = header_of(dataset.texts(random))
    style = random.randrange(7)
    if style == 6:
        return [b"check", b"v.idx", odd_number(random, random.randint(0, 9))]
    if style == 5:
        return [b"drill", odd_number(random, random.randint(1, 4))]
    if style == 0:
        return draw_cut(random)[0]
    if style == 1 or header is None:
        return [b"info", b"v.idx"]
    if style == 2:
        return [b"convert", b"v.idx", b"r.raw", *dataset.texts(random), b"0", *draw_options(random, b"convert")]
    if style == 3:
        return [b"serve", b"v.idx", b"127.0.0.1:0", *draw_options(random, b"serve")]
    return draw_query(random, b"v.idx", header, 0)


def spoil_words(random: Random, words: list[bytes]) -> None:
    """Changes, drops, adds or swaps words."""
    style = random.randrange(8)
    place = random.randrange(len(words))
    if style <= 3:
        words[place] = random.choice(hostile_words(random))
    elif style == 4:
        del words[random.randrange(len(words)):]
    elif style == 5:
        words.insert(random.randint(0, len(words)), random.choice(hostile_words(random)))
    elif style == 6:
        other = random.randrange(len(words))
        words[place], words[other] = words[other], words[place]
    else:
        words[place] = words[place][:-1] + random.choice([b"", b"0", b"9", b" ", b"x"])


# The kinds of cases


def conversions(bench: Bench) -> None:
    """A conversion, what `info` says of it, and questions."""
    made = make(bench)
    bench.run([b"info", made.path])
    ask(bench, made, bench.random.randint(2, 6))


def cuts(bench: Bench) -> None:
    """Cuts out of a raw volume."""
    words, size = draw_cut(bench.random)
    write(bench, b"r.raw", draw_raw(bench.random, size))
    bench.run(words)
    box, mask = reference.box_word(words[3]), words[4]
    for _ in range(bench.random.randint(1, 4)):
        low, high = draw_levels(bench.random, len(mask) - 1)
        region = box_text(bench.random, draw_region(bench.random, box), b" \t")
        bench.run(words[:5] + [region, b"%d" % low, b"%d" % high])


def drills(bench: Bench) -> None:
    """Drills, a large one twice, and one whose output does not take what is written."""
    for number in [bench.random.randint(1, 5), 6, 6]:
        bench.run([b"drill", odd_number(bench.random, number)])
    bench.run([b"drill", b"1"], b"/dev/full")


def second_conversions(bench: Bench) -> None:
    """A further step, the same step, and steps under another header."""
    random = bench.random
    made = make(bench)
    for _ in range(random.randint(1, 3)):
        texts = list(made.texts)
        if chance(random, 30):
            texts = made.dataset.texts(random)
        if chance(random, 30):
            place = random.randrange(7)
            another = draw_dataset(random).texts(random)[place]
            texts[place] = random.choice([another, another, b"./" + texts[place], texts[place] + b" "])
        if chance(random, 30):
            texts[0], texts[1] = random.choice([(texts[0] + b" 0 0", texts[1]), (texts[0], texts[1] + b" more")])
        if chance(random, 30) and made.header is not None:
            write(bench, b"r.raw", draw_raw(random, reference.volume_size(made.header)))
        made.step = random.choice([made.step, *made.dataset.steps, made.dataset.steps[1] + 1])
        convert(bench, made, made.step, texts)
        ask(bench, made, random.randint(0, 2))


def standing_headers(bench: Bench) -> None:
    """A conversion beside a header that stands and may agree."""
    random = bench.random
    dataset = draw_dataset(random)
    texts = dataset.texts(random)
    header = header_of(texts)
    made = Made(draw_path(random, bench), dataset, texts, header, random.randint(*dataset.steps))
    if header is not None and chance(random, 90):
        write(bench, b"r.raw", draw_raw(random, reference.volume_size(header)))
    text = lay_out_header(random, entries_of(dataset.texts(random)))
    write(bench, made.path, random.choice([text, text, b"", draw_header(random, texts)]))
    if chance(random, 20) and header is not None:
        folder = reference.step_folder(header, made.step)
        os.makedirs(os.path.join(bench.folder, os.path.dirname(made.path), folder), exist_ok=True)
    convert(bench, made, made.step)
    ask(bench, made, 2)


def revisions(bench: Bench) -> None:
    """A step that is written again and again, with changes by hand between."""
    series = draw_series(bench, right_texts(bench.random, 2**16))
    for _ in range(bench.random.randint(2, 4)):
        series.convert()
        series.ask()
        for change in bench.random.sample(CHANGES, bench.random.choice([0, 0, 1, 2])):
            change(series)
            series.ask()


def revision_gaps(bench: Bench) -> None:
    """Revisions behind one that is missing, which are not read before it is written again."""
    texts = small_texts(bench.random)
    texts[5] = bench.random.choice([b"./%01x.bin", b"./d/%02x/%02x.bin", b"a/b/%04x/all", b"%01x"])
    texts[6] = b"0 9 " + bench.random.choice([b"time%04d/", b"t%03d_x/", b"%01d/", b"t%02d.r1/"])
    series = draw_series(bench, texts)
    for missing in (None, None, None, 1, 0, None, 2, 3):
        if missing is not None:
            remove(series.folder(missing))
            series.ask()
        series.convert()
        series.ask()
    for revision in reversed(series.standing()):
        remove(series.folder(revision))
        series.ask()


def revision_faults(bench: Bench) -> None:
    """Revisions that are damaged or half staged, and what is no folder in the place of one."""
    series = draw_series(bench, small_texts(bench.random))
    for revision in range(3):
        series.convert()
    for revision in range(3):
        for path in files_below(series.folder(revision))[:1]:
            os.truncate(path, bench.random.choice([0, 39, 79]))
        series.ask()
    put_staged(series, 3)
    put_staged(series, 5)
    series.convert()
    series.ask()
    write(bench, series.folder(4), b"no folder")
    for _ in range(2):
        series.convert()
        series.ask()
        remove(series.folder(4))


def last_revisions(bench: Bench) -> None:
    """The last revision that a step can have, and conversions and questions behind it."""
    series = draw_series(bench, small_texts(bench.random))
    for revision in range(reference.REVISIONS):
        os.makedirs(series.folder(revision))
    series.ask()
    bench.run([b"convert", series.path, b"none.raw", *series.texts, b"%d" % series.step])
    write(bench, series.path, reference.header_words(series.texts))
    for free in (255, bench.random.randint(1, 254), 0, None):
        if free is not None:
            remove(series.folder(free))
        for _ in range(2):
            series.ask()
            series.convert()
    series.ask()


def without_time(bench: Bench) -> None:
    """A header without a time, whose files have no revisions."""
    random = bench.random
    texts = small_texts(random)
    text = lay_out_header(random, entries_of(texts)[:-1])
    write(bench, b"v.idx", text)
    for name in (b".r1", b"r1", b"00.bin.r1", b"02.bin.r1", b"time0000.r1"):
        os.mkdir(os.path.join(bench.folder, name))
    write(bench, b"r.raw", random.randbytes(16))
    put_step(bench, reference.parse_header(text), b"v.idx", 0)
    for step in (b"0", b"0", b"1"):
        bench.run([b"query", b"v.idx", step, b"a", b"0 3 0 3", b"0", b"4"])
        bench.run([b"check", b"v.idx", step])
    bench.run([b"convert", b"v.idx", b"r.raw", *texts, b"0"])


# Questions whose blocks are too many to be held at once


SPREAD_BOX: Box = ((4_194_300, 4_194_308), (0, 0))
"""A few points whose blocks lie far apart."""


def spread_texts(box: bytes) -> list[bytes]:
    """The seven texts of a dataset of eight blocks of 2^24 bytes in one file."""
    return [box, b"a uint8[16]", b"V" + b"0" * 23, b"20", b"8", b"./%02x.bin", b"0 9 time%04d/"]


def comb_texts() -> list[bytes]:
    """The seven texts of a dataset of 64 points in 32 blocks of 2^24 bytes in one file."""
    return [b"0 63 1 1", b"a uint8[16]", b"V000000" + b"1" * 20, b"20", b"64", b"./%02x.bin", b"0 9 time%04d/"]


def long_files(bench: Bench) -> None:
    """A volume of some hundred points whose one file would have as many bytes as a file may have, or more.

    Its raw volume is too short, so that no such file is written.
    """
    last = bench.random.choice([*range(500, 512), 511, 511])
    texts = [b"0 %d 1 1" % last, b"a uint8[16]", b"V" + b"0" * 9 + b"1" * 20, b"20", b"256", b"./%03x.bin", b"0 9 time%04d/"]
    write(bench, b"r.raw", bench.random.randbytes(16))
    bench.run([b"convert", b"v.idx", b"r.raw", *texts, b"0", *draw_options(bench.random, b"convert")])


def put_spread_file(bench: Bench, header: Header, step: int) -> None:
    """Puts the file of a step in which most blocks are there, each beginning a little behind the one before."""
    random = bench.random
    table = bytearray(header.table_size())
    size = header.fields[0].sample_size() << header.bits_per_block
    present = [row for row in range(header.blocks_per_file) if chance(random, 90)]
    for place, row in enumerate(random.sample(present, len(present))):
        table[40 + 40 * row:80 + 40 * row] = reference.row_bytes(len(table) + 17 * place, size, 0)
    content = bytes(table) + random.randbytes(size + 17 * len(present))
    write(bench, reference.file_path(header, step, 0), content)


def rounds(bench: Bench) -> None:
    """Questions that need more than 2^26 bytes of blocks, of which none or most are there.

    The last one needs twice as many bytes of blocks as it has memory.
    """
    texts = spread_texts(b"0 8388607 0 0")
    write(bench, b"v.idx", reference.header_words(texts))
    os.mkdir(os.path.join(bench.folder, b"time0000"))
    bench.run([b"query", b"v.idx", b"0", b"a", b"4194300 4194308 0 0", b"0", b"23"])
    texts = spread_texts(b" ".join(b"%d %d" % pair for pair in SPREAD_BOX))
    write(bench, b"v.idx", reference.header_words(texts))
    put_spread_file(bench, header_of(texts), 0)
    for low, high in [(0, 23), (0, 22), (22, 23), draw_levels(bench.random, 23)]:
        region = box_text(bench.random, draw_region(bench.random, SPREAD_BOX) if high == 22 else SPREAD_BOX)
        cache = bench.random.choice([[], [b"--cache", b"1"], [b"--cache", b"3"]])
        bench.run([b"query", b"v.idx", b"0", b"a", region, b"%d" % low, b"%d" % high, *cache])
    write(bench, b"v.idx", reference.header_words(comb_texts()))
    put_spread_file(bench, header_of(comb_texts()), 0)
    words = [b"query", b"v.idx", b"0", b"a", b"0 63 1 1", b"0", b"26", b"--cache", b"1"]
    bench.run(words, memory=2**28)


def damages(bench: Bench) -> None:
    """Questions of a dataset with damaged files."""
    random = bench.random
    made = make(bench)
    if made.header is None:
        return
    for _ in range(random.randint(1, 3)):
        others = b".raw", os.path.basename(made.path)
        paths = [path for path in files_below(bench.folder) if not path.endswith(others)]
        for path in random.sample(paths, min(len(paths), random.choice([1, 1, 2]))):
            damage(bench, made.header, path)
        if paths and chance(random, 20) and not os.path.lexists(paths[0] + b".extra"):
            write(bench, paths[0] + b".extra", b"extra")
        if made.header.time and made.step in commands.steps_of(made.header) and chance(random, 40):
            put_extra(bench, made.header, os.path.dirname(made.path), made.step, 0)
        ask(bench, made, random.randint(1, 3))


def odd_files(bench: Bench) -> None:
    """Questions of files that another program could have laid out, of headers with and without times."""
    random = bench.random
    texts = draw_dataset(random).texts(random)
    entries = entries_of(texts)
    if chance(random, 40):
        entries.pop()
    path, text = draw_path(random, bench), lay_out_header(random, entries)
    write(bench, path, text)
    try:
        header = reference.parse_header(text)
    except reference.HeaderFault:
        header = None
    bench.run([b"info", path])
    if header is not None:
        step = random.randint(header.time.first, header.time.last) if header.time else 0
        put_step(bench, header, path, step)
        for _ in range(random.randint(2, 5)):
            bench.run(draw_query(random, path, header, step))
        check(bench, path, header, step)


def headers(bench: Bench) -> None:
    """Headers with faults, and questions and conversions that meet them."""
    random = bench.random
    for _ in range(random.randint(3, 9)):
        texts = random.choice([small_texts, small_texts, limit_texts, other_texts])(random)
        write(bench, b"v.idx", draw_header(random, texts))
        bench.run([b"info", b"v.idx"])
    if chance(random, 30):
        bench.run([b"query", b"v.idx", b"0", b"a", b"0 3 0 3", b"0", b"4"])
        bench.run([b"check", b"v.idx", b"10"])
    if chance(random, 30):
        bench.run([b"convert", b"v.idx", b"r.raw", *small_texts(random), b"0"])


def asked_headers(bench: Bench) -> None:
    """Conversions whose words ask for headers with faults."""
    random = bench.random
    write(bench, b"r.raw", random.randbytes(16))
    for _ in range(random.randint(2, 5)):
        texts = small_texts(random)
        for place in random.sample(range(7), random.choice([1, 1, 1, 2])):
            values = HOSTILE_VALUES[reference.KNOWN_KEYS[place + 1]] + [b" (time)", b" (x)", b" ", b"auto"]
            texts[place] = random.choice(values)
        if chance(random, 30):
            texts[2] = b"auto"
        bench.run([b"convert", b"v.idx", b"r.raw", *texts, b"%d" % random.choice([0, 0, 9, 10])])
    bench.run([b"info", b"v.idx"])


def wrong_words(bench: Bench) -> None:
    """Wrong lists of words over an empty folder."""
    random = bench.random
    for _ in range(random.randint(4, 8)):
        words = right_words(random)
        for _ in range(random.choice([1, 1, 2])):
            if words:
                spoil_words(random, words)
        bench.run(words)
    if chance(random, 20):
        bench.run([random.choice([b"--help", b"--version"])], random.choice([None, b"/dev/full"]))


def put_in_place(bench: Bench, path: bytes) -> None:
    """Puts a folder, a pipe, an empty file, a link to the file that stood there or nothing at a path."""
    whole = os.path.join(bench.folder, path)
    os.makedirs(os.path.dirname(whole), exist_ok=True)
    style = bench.random.randrange(5)
    if style == 0 and os.path.isfile(whole):
        os.rename(whole, whole + b".real")
        os.symlink(os.path.basename(whole) + b".real", whole)
    elif os.path.isfile(whole):
        os.remove(whole)
    if os.path.lexists(whole):
        return
    if style == 1:
        os.mkdir(whole)
    elif style == 2:
        os.mkfifo(whole)
    elif style == 3:
        write(bench, path, b"")


def others_in_place(bench: Bench) -> None:
    """Files that are missing, folders in the place of files, and files in the place of folders."""
    random = bench.random
    made = make(bench)
    for _ in range(random.randint(1, 3)):
        paths = [made.path, b"r.raw"]
        if made.header is not None:
            beside = os.path.dirname(made.path)
            paths += [os.path.join(beside, reference.step_folder(made.header, made.step + 1))]
            paths += [os.path.join(beside, reference.step_folder(made.header, made.step, 1))]
            paths += [os.path.join(beside, reference.file_path(made.header, made.step, 0))]
        put_in_place(bench, random.choice(paths))
        bench.run([b"info", random.choice([made.path, made.path + b"/x", b"none/v.idx", b".", b"r.raw/", b"n" * 300])])
        ask(bench, made, 2)
        convert(bench, made, made.step + random.choice([0, 1]))
        raw = random.choice([b"r.raw", b"none", b".", b"r.raw/x", b"/dev/null", b"n" * 256])
        bench.run([b"cut", raw, b"1", b"0 3 0 3", b"V0101", b"0 3 0 3", b"0", b"4"])


def long_names(bench: Bench) -> None:
    """Names that are longer than a folder takes."""
    random = bench.random
    write(bench, b"r.raw", random.randbytes(16))
    texts = small_texts(random)
    place = random.choice([0, 1, 2])
    near = [246, 247, 249, 250, 251, 252, 254] if place == 2 else []
    long = b"n" * random.choice([100, 200, 255, 300, 1500, *near])
    texts[5] = long + b"%01x" if place == 0 else long + b"/%01x" if place == 1 else texts[5]
    texts[6] = b"0 9 " + long + b"%01d/" if place == 2 else texts[6]
    for _ in range(2):
        bench.run([b"convert", b"v.idx", b"r.raw", *texts, b"1"])
    bench.run([b"query", b"v.idx", b"1", b"a", b"0 3 0 3", b"0", b"4"])
    if place == 2 and len(long) < 255:
        os.makedirs(os.path.join(bench.folder, long + b"1"), exist_ok=True)
        bench.run([b"query", b"v.idx", b"1", b"a", b"0 3 0 3", b"0", b"4"])
    write(bench, b"w.idx", reference.header_words(texts))
    bench.run([b"query", b"w.idx", b"1", b"a", b"0 3 0 3", b"0", b"4"])


def sinks(bench: Bench) -> None:
    """Standard output that does not take what is written."""
    made = make(bench)
    bench.run([b"info", made.path], b"/dev/full")
    if made.header is not None:
        for _ in range(2):
            bench.run(draw_query(bench.random, made.path, made.header, made.step), b"/dev/full")
        check(bench, made.path, made.header, made.step, b"/dev/full")
    words, size = draw_cut(bench.random)
    write(bench, b"r.raw", draw_raw(bench.random, size))
    bench.run(words, b"/dev/full")


def wide_box(random: Random) -> Box:
    """A box of many points, of which no mask may be left."""
    left = random.choice([31, 40, 40, 48])
    box = []
    for _ in range(random.randint(2, 4)):
        bits = random.randint(1, max(1, min(left, 24)))
        left = max(0, left - bits)
        low = random.choice([0, 0, 2**bits // 2])
        box.append((low, 2**bits - random.choice([1, 1, 2])))
    return tuple((min(low, high), high) for low, high in box)


def large(bench: Bench) -> None:
    """Boxes and answers at and above the limits, of which no sample is read."""
    random = bench.random
    write(bench, b"r.raw", random.randbytes(random.choice([0, 16])))
    box = wide_box(random)
    mask = reference.guessed_mask(box)
    digits = max(1, len(mask) - 1)
    kind = random.choice([b"uint8", b"float64[8]", b"int16[3]", b"uint32", b"uint8[63]"])
    texts = [box_text(random, box), b"a " + kind, mask, b"%d" % max(1, digits - 24), b"4", b"%06x", b"0 9 time%04d/"]
    texts[2] = random.choice([mask, b"auto"])
    bench.run([b"convert", b"v.idx", b"r.raw", *texts, b"%d" % random.choice([0, 0, 10])])
    write(bench, b"v.idx", reference.header_words(texts))
    bench.run([b"info", b"v.idx"])
    for _ in range(4):
        region = draw_wide_region(random, box)
        low, high = draw_levels(random, digits)
        bench.run([b"query", b"v.idx", b"0", b"a", box_text(random, region), b"%d" % low, b"%d" % high])
    size = random.choice([1, 2, 4, 16, 64])
    bench.run([b"cut", b"r.raw", b"%d" % size, box_text(random, box), mask, box_text(random, box), b"0", b"1"])


def draw_wide_region(random: Random, box: Box) -> Box:
    """A region of a wide box, of which the points are not listed."""
    region = []
    for low, high in box:
        start, end = sorted((random.randint(low, high), random.randint(low, high)))
        region.append(random.choice([(low, high), (low, high), (start, end)]))
    return tuple(region)


def large_cuts(bench: Bench) -> None:
    """Cuts out of a raw volume whose rows lie far apart."""
    random = bench.random
    box = tuple((low, low + random.randint(2, 60)) for low in random.choices(range(9), k=2))
    box = ((3, 3 + random.choice([60, 300, 900])),) + box
    size, mask = random.choice([1, 8, 17, 64]), draw_mask(random, box)
    size = min(size, 2**22 // reference.count_of_points(box))
    write(bench, b"r.raw", random.randbytes(reference.count_of_points(box) * size))
    for _ in range(3):
        region = draw_region(random, box)
        if reference.count_of_points(region) < 40_000:
            low, high = draw_levels(random, len(mask) - 1)
            words = [b"cut", b"r.raw", b"%d" % size, box_text(random, box), mask, box_text(random, region)]
            bench.run([*words, b"%d" % low, b"%d" % high])


def ranks_option(random: Random) -> list[bytes]:
    """Two to nine ranks."""
    return [b"--ranks", b"%d" % random.randint(2, 9)]


def large_volumes(bench: Bench) -> None:
    """A conversion of some megabytes by several ranks, and questions."""
    random = bench.random
    box = tuple((low, low + random.randint(10, 30)) for low in random.choices(range(20), k=3))
    mask, fields = draw_mask(random, box), [[b"a", b"float64[%d]" % random.randint(1, 8)], [b"b", b"int16"]]
    bits, blocks_per_file = random.randint(5, 12), random.choice([1, 5, 16, 256])
    dataset = Dataset(box, fields, mask, bits, blocks_per_file, b"%04x", (0, 1), b"t%01d/")
    texts = dataset.texts(random)
    made = Made(b"v.idx", dataset, texts, header_of(texts), 1)
    if made.header is not None:
        write(bench, b"r.raw", random.randbytes(reference.volume_size(made.header)))
    bench.run([b"convert", made.path, b"r.raw", *texts, b"1", *ranks_option(random)])
    ask(bench, made, 3)
    bench.run([b"query", b"v.idx", b"1", b"a", texts[0], b"0", b"%d" % (len(mask) - 1)])


def ragged_volumes(bench: Bench) -> None:
    """A conversion of a box of more than 2^16 points and several fields by several ranks, in large blocks, and questions."""
    random = bench.random
    box = tuple((low, low + random.randint(40, 60)) for low in random.choices(range(4), k=3))
    fields = [[b"a", b"int16"], [b"b", b"uint8[%d]" % random.randint(1, 3)], [b"c", random.choice([b"int8", b"float32"])]]
    blocks_per_file = random.choice([1, 3, 8, 64])
    dataset = Dataset(box, fields, draw_mask(random, box), random.randint(12, 16), blocks_per_file, b"%04x", (0, 1), b"t%01d/")
    made = Made(b"v.idx", dataset, dataset.texts(random), header_of(dataset.texts(random)), 1)
    write(bench, b"r.raw", random.randbytes(reference.volume_size(made.header)))
    bench.run([b"convert", made.path, b"r.raw", *made.texts, b"1", *ranks_option(random)])
    for name, _ in fields:
        low, high = draw_levels(random, len(dataset.mask) - 1)
        bench.run([b"query", made.path, b"1", name, box_text(random, draw_region(random, box)), b"%d" % low, b"%d" % high])
    bench.run([b"query", made.path, b"1", b"b", made.texts[0], b"0", b"%d" % (len(dataset.mask) - 1)])
    check(bench, made.path, made.header, 1)


KINDS: list[tuple[int, Callable[[Bench], None]]] = [
    (25, conversions), (12, cuts), (10, second_conversions), (8, standing_headers), (12, damages), (8, odd_files),
    (14, headers), (8, asked_headers), (10, wrong_words), (6, others_in_place), (2, long_names), (3, sinks), (5, large),
    (3, large_cuts), (2, large_volumes), (2, ragged_volumes), (8, revisions), (3, revision_gaps), (2, revision_faults), (1, last_revisions),
    (2, without_time), (1, rounds), (2, long_files), (2, drills),
]
"""The kinds of cases, each with how often it comes."""


def draw_case(bench: Bench) -> str:
    """Makes and runs one case, and gives the name of its kind."""
    weights = [weight for weight, _ in KINDS]
    kind = bench.random.choices([kind for _, kind in KINDS], weights)[0]
    kind(bench)
    return kind.__name__
