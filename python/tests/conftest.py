"""Random datasets, and what numpy says of them."""
from __future__ import annotations

from dataclasses import dataclass
from pathlib import Path
from random import Random

import numpy as np
import pytest

import idxtool
from idxtool.layout import BASES

SHAPES = {2: (13, 21), 3: (9, 6, 17), 4: (3, 7, 4, 9), 5: (3, 2, 5, 4, 6)}
"""The shape of the dataset of each number of axes, axis 0 last; none of its sizes has to be a power of two."""


@dataclass
class Case:
    """A dataset on this machine, and the arrays that it was written from."""
    path: Path
    origin: tuple[int, ...]
    arrays: dict[str, np.ndarray]

    @property
    def shape(self) -> tuple[int, ...]:
        """The shape of a timestep, without components."""
        return SHAPES[len(self.origin)]

    @property
    def box(self) -> idxtool.Box:
        """The box, axis 0 first."""
        return tuple((low, low + size - 1) for low, size in zip(self.origin, reversed(self.shape)))


def samples(random: Random, shape: tuple[int, ...], base: str) -> np.ndarray:
    """Random samples, each bit pattern of an integer type and finite numbers of the others."""
    generator = np.random.default_rng(random.randrange(2 ** 32))
    if np.dtype(base).kind == "f":
        return generator.normal(size=shape).astype(base)
    return generator.integers(np.iinfo(base).min, np.iinfo(base).max, shape, base, endpoint=True)


@pytest.fixture(scope="session", params=sorted(SHAPES))
def case(request: pytest.FixtureRequest, tmp_path_factory: pytest.TempPathFactory) -> Case:
    """For each number of axes a dataset with a field of each type, and vectors of few components and of the most bytes."""
    axes, random = request.param, Random(request.param)
    arrays = {base: samples(random, SHAPES[axes], base) for base in BASES}
    vectors = {"velocity": ("float32", 3), "pair": ("int16", 2), "bytes": ("uint8", 64), "tensor": ("float64", 8)}
    arrays |= {name: samples(random, (*SHAPES[axes], count), base) for name, (base, count) in vectors.items()}
    path = tmp_path_factory.mktemp("axes") / f"d{axes}.idx"
    origin = tuple(random.randrange(6) for _ in range(axes))
    idxtool.write(path, arrays, vectors=vectors, origin=origin, timesteps=(0, 9), bits_per_block=4, blocks_per_file=8)
    return Case(path, origin, arrays)


def random_box(random: Random, box: idxtool.Box) -> idxtool.Box:
    """A box inside another one."""
    ends = (sorted((random.randint(low, high), random.randint(low, high))) for low, high in box)
    return tuple((low, high) for low, high in ends)


def levels_of(mask: tuple[int, ...], box: idxtool.Box) -> np.ndarray:
    """The level of each point of a box as an array, axis 0 last: from the Z address, whose trailing zeros count."""
    address = np.zeros([high - low + 1 for low, high in reversed(box)], np.int64)
    for place, axis in enumerate(mask):
        low, high = box[axis]
        bit = (np.arange(low, high + 1) >> mask[place + 1:].count(axis)) & 1
        address = 2 * address + bit.reshape([-1 if each == axis else 1 for each in reversed(range(len(box)))])
    zeros = sum((address % 2 ** each == 0).astype(int) for each in range(1, len(mask) + 1))
    return len(mask) - zeros


def window(array: np.ndarray, whole: idxtool.Box, box: idxtool.Box) -> np.ndarray:
    """The part of an array over the box `whole` that is over the box `box`."""
    return array[tuple(slice(low - first, high - first + 1)
                       for (first, _), (low, high) in zip(reversed(whole), reversed(box)))]
