#!/usr/bin/env python3
"""A numpy program that writes and reads the same files as idxtool, as someone who analyses data would write it in an hour.

    numpy_program.py convert RAW FOLDER X Y Z SIZE BITS PERFILE
    numpy_program.py query FOLDER X Y Z SIZE BITS PERFILE XLO XHI YLO YHI ZLO ZHI LO HI
    numpy_program.py cut RAW X Y Z SIZE XLO XHI YLO YHI ZLO ZHI LO HI

X, Y, Z are numbers of samples along axes 0, 1, 2; SIZE is the bytes of a sample. It is written from docs/FORMATS.md and
docs/MODEL.md alone: one field, a box from 0, the guessed mask, files %06x.bin.
"""
from __future__ import annotations

import sys
from dataclasses import dataclass
from pathlib import Path

import numpy as np

ROW = 10
"""The words of a row of a table; as many stand before the first row."""


@dataclass
class Dataset:
    """A dataset of one field, whose box begins at 0."""
    counts: tuple[int, int, int]
    size: int
    bits: int
    per_file: int

    def mask(self) -> list[int]:
        """The guessed mask: the axis of each digit, the coarsest first."""
        left, mask = [(count - 1).bit_length() for count in self.counts], []
        while any(left):
            for axis in (2, 1, 0):
                if left[axis]:
                    mask.insert(0, axis)
                    left[axis] -= 1
        return mask

    def places(self, axes: list[np.ndarray]) -> tuple[np.ndarray, np.ndarray]:
        """Of points with these coordinates along each axis the hierarchical addresses and the levels: arrays (z, y, x)."""
        mask = self.mask()
        parts = []
        for axis, at in enumerate(axes):
            part = np.zeros(len(at), np.int64)
            for place, named in enumerate(mask):
                if named == axis:
                    part |= (at >> mask[place + 1:].count(axis) & 1) << (len(mask) - 1 - place)
            parts.append(part)
        address = parts[2][:, None, None] | parts[1][:, None] | parts[0]
        lowest = address & -address
        zeros = np.where(address == 0, len(mask), np.frexp(lowest.astype(np.float64))[1] - 1)
        return np.where(address == 0, 0, (address | 1 << len(mask)) >> (zeros + 1)), len(mask) - zeros

    def grid(self, box: list[int], level: int) -> list[np.ndarray]:
        """The coordinates of the points of a box at levels 0 to `level`, along each axis."""
        mask = self.mask()
        steps = [2 ** mask[level:].count(axis) for axis in range(3)]
        return [np.arange(-(-first // step) * step, last + 1, step) for first, last, step in zip(box[::2], box[1::2], steps)]

    def path(self, folder: Path, file: int) -> Path:
        """The path of the file whose first block has this number."""
        return folder / f"{file:06x}.bin"


def convert(dataset: Dataset, raw: Path, folder: Path) -> None:
    """Writes the files of a timestep."""
    samples = np.fromfile(raw, f"V{dataset.size}")
    address = dataset.places([np.arange(count) for count in dataset.counts])[0].ravel()
    count = 2 ** (len(dataset.mask()) - dataset.bits)
    blocks = np.zeros(count << dataset.bits, samples.dtype)
    blocks[address] = samples
    blocks = blocks.reshape(count, -1)
    is_present = np.zeros(count, bool)
    is_present[address >> dataset.bits] = True
    folder.mkdir(exist_ok=True)
    for first in range(0, count, dataset.per_file):
        inside = np.flatnonzero(is_present[first:first + dataset.per_file])
        if not len(inside):
            continue
        table = np.zeros((1 + dataset.per_file, ROW), ">u4")
        offsets = table.nbytes + np.arange(len(inside)) * blocks[0].nbytes
        table[1 + inside, 2], table[1 + inside, 3] = offsets & 0xffffffff, offsets >> 32
        table[1 + inside, 4] = blocks[0].nbytes
        with dataset.path(folder, first).open("wb") as file:
            table.tofile(file)
            blocks[first + inside].tofile(file)


def query(dataset: Dataset, folder: Path, box: list[int], low: int, high: int) -> bytes:
    """The samples of a box whose level is `low` to `high`, out of the files of a timestep."""
    address, levels = dataset.places(dataset.grid(box, high))
    address = address[levels >= low]
    numbers, which = np.unique(address >> dataset.bits, return_inverse=True)
    blocks = np.zeros((len(numbers), 1 << dataset.bits), f"V{dataset.size}")
    for place, number in enumerate(numbers):
        file = number // dataset.per_file * dataset.per_file
        path = dataset.path(folder, file)
        row = np.fromfile(path, ">u4", ROW, offset=4 * ROW * (1 + number - file)).astype(np.int64) if path.exists() else [0] * ROW
        if row[4]:
            blocks[place] = np.fromfile(path, blocks.dtype, 1 << dataset.bits, offset=row[2] | row[3] << 32)
    return blocks[which.ravel(), address & (1 << dataset.bits) - 1].tobytes()


def cut(dataset: Dataset, raw: Path, box: list[int], low: int, high: int) -> bytes:
    """The samples of a box whose level is `low` to `high`, out of a raw volume."""
    axes = dataset.grid(box, high)
    volume = np.memmap(raw, f"V{dataset.size}", "r", shape=dataset.counts[::-1])
    part = volume[np.ix_(*reversed(axes))]
    return part.tobytes() if low == 0 else part[dataset.places(axes)[1] >= low].tobytes()


def main(words: list[str]) -> None:
    command, path, *others = words
    if command == "convert":
        folder, *others = others
    numbers = [int(word) for word in others]
    counts, size = (numbers[0], numbers[1], numbers[2]), numbers[3]
    if command == "convert":
        convert(Dataset(counts, size, numbers[4], numbers[5]), Path(path), Path(folder))
    elif command == "query":
        sys.stdout.buffer.write(query(Dataset(counts, size, numbers[4], numbers[5]), Path(path), numbers[6:12], *numbers[12:]))
    else:
        sys.stdout.buffer.write(cut(Dataset(counts, size, 1, 1), Path(path), numbers[4:10], *numbers[10:]))


if __name__ == "__main__":
    main(sys.argv[1:])
