"""What docs/FORMATS.md says of drills: runs in memory that are known beforehand."""
from __future__ import annotations

from dataclasses import dataclass, field
from functools import lru_cache

from reference import Header, file_of_block, file_size, guessed_mask, header_words, parse_header, z_address


def header_of(number: int) -> Header:
    """The header of the dataset of a drill."""
    box = b" ".join([b"0 %d" % (2**number - 1)] * 3)
    mask = guessed_mask(((0, 2**number - 1),) * 3)
    bits = min(12, 3 * number)
    return parse_header(header_words([box, b"a uint8", mask, b"%d" % bits, b"4", b"./%06x.bin", b"0 0 time%04d/"]))


@dataclass
class Seen:
    """What the points of a drill's box have: of each level how many there are, the sum of their bytes and their blocks; the pairs of a piece and
    a rank, and those of a piece and a file."""
    samples: list[int]
    sums: list[int]
    blocks: list[set[int]]
    parts: set[tuple[int, int]] = field(default_factory=set)
    shipments: set[tuple[int, int]] = field(default_factory=set)


def axis_parts(header: Header) -> list[list[int]]:
    """For each axis what each coordinate gives of a Z address: each digit of the mask names a bit of one coordinate, so that an address is the
    sum of these."""
    points = [[tuple(at if other == axis else 0 for other in range(3)) for at in range(high + 1)] for axis, (_, high) in enumerate(header.box)]
    return [[z_address(point, header.mask) for point in of_axis] for of_axis in points]


def look_over(number: int, header: Header) -> Seen:
    """Goes through the points of the box, axis 0 fastest. The last axis is cut into equal parts, one for each rank."""
    digits, side = len(header.mask), 2 ** number
    below = max(0, digits - 6)
    seen = Seen([0] * (digits + 1), [0] * (digits + 1), [set() for _ in range(digits + 1)])
    fast, middle, slow = axis_parts(header)
    place = 0
    for last, slow_part in enumerate(slow):
        rank = last * min(4, side) // side
        for middle_part in middle:
            for part in fast:
                address = part + middle_part + slow_part
                level = digits + 1 - (address & -address).bit_length() if address else 0
                block = (address | 1 << digits) // (2 << digits - level) >> header.bits_per_block if address else 0
                seen.samples[level] += 1
                seen.sums[level] += (31 * place + number) % 256
                seen.blocks[level].add(block)
                seen.parts.add((address >> below, rank))
                seen.shipments.add((address >> below, file_of_block(block, header.blocks_per_file)))
                place += 1
    return seen


def step_events(seen: Seen, files: int) -> int:
    """The events until the step is published: parts are given, pieces are shipped, and files are written."""
    return len(seen.parts) + len(seen.shipments) + files + 1


def question_events(seen: Seen) -> int:
    """The events of the questions: each looks and answers, and reads and keeps the blocks that no coarser level needs."""
    events, kept = 0, set()
    for blocks in seen.blocks:
        missing = blocks - kept
        events += 2 + len(missing) + (1 if missing else 0)
        kept |= missing
    return events


@lru_cache(maxsize=8)
def drill_text(number: int) -> bytes:
    """All lines of a drill."""
    header = header_of(number)
    seen = look_over(number, header)
    blocks = sorted(set().union(*seen.blocks))
    files = [file_of_block(block, header.blocks_per_file) for block in blocks]
    size = sum(file_size(header, files.count(file)) for file in set(files))
    lines = [
        b"box " + b" ".join(b"%d %d" % pair for pair in header.box),
        *(b"level %d samples %d sum %d" % line for line in zip(range(len(seen.samples)), seen.samples, seen.sums)),
        b"files %d bytes %d" % (len(set(files)), size),
        b"reads %d" % len(blocks),
        b"events %d" % (step_events(seen, len(set(files))) + question_events(seen)),
    ]
    return b"".join(line + b"\n" for line in lines)


def check_example() -> None:
    """Stops where this model does not give the page's example."""
    assert drill_text(1) == (
        b"box 0 1 0 1 0 1\nlevel 0 samples 1 sum 1\nlevel 1 samples 1 sum 32\nlevel 2 samples 2 sum 157\n"
        b"level 3 samples 4 sum 686\nfiles 1 bytes 208\nreads 1\nevents 28\n"
    )
