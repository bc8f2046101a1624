"""What the header of a dataset says: its box, fields, mask and timesteps, and the grids of its levels."""
from __future__ import annotations

import re
from collections.abc import Sequence
from dataclasses import dataclass
from typing import Optional

import numpy as np

Box = tuple[tuple[int, int], ...]
"""Inclusive bounds (low, high) of each axis, axis 0 first."""

BASES = ("int8", "uint8", "int16", "uint16", "int32", "uint32", "int64", "uint64", "float32", "float64")
"""The types of the format; samples have their bytes in little-endian order."""


@dataclass(frozen=True)
class Field:
    """A field: each of its samples has `components` numbers of the type `dtype`."""
    name: str
    dtype: np.dtype
    components: int = 1

    @property
    def sample_bytes(self) -> int:
        """The bytes of a sample."""
        return self.dtype.itemsize * self.components

    @property
    def inner_shape(self) -> tuple[int, ...]:
        """What stands behind the axes in the shape of an array: `()` for numbers, `(components,)` for vectors."""
        return () if self.components == 1 else (self.components,)

    def text(self) -> str:
        """The field as a header has it, as `velocity float32[3]`."""
        return f"{self.name} {self.kind()}"

    def kind(self) -> str:
        """Its type as the format writes it, as `float32[3]`."""
        return self.dtype.name if self.components == 1 else f"{self.dtype.name}[{self.components}]"


def field_of(name: str, kind: str) -> Field:
    """The field of this name and type, where the type is `base`, `base[n]` or `n*base`."""
    match = re.fullmatch(r"(?:(\d+)\*)?(\w+?)(?:\[(\d+)\])?", kind)
    if match is None or match[2] not in BASES or (match[1] and match[3]):
        raise ValueError(f"the header has a field of the type {kind!r}, which is none")
    return Field(name, np.dtype(match[2]).newbyteorder("<"), int(match[1] or match[3] or 1))


@dataclass(frozen=True)
class Header:
    """The values of a header that reading needs."""
    box: Box
    mask: tuple[int, ...]
    """The axis of each digit, coarsest first."""
    fields: tuple[Field, ...]
    timesteps: Optional[range]
    """The numbers that timesteps can have, or None where the header has no time."""

    @property
    def axes(self) -> int:
        """How many axes there are."""
        return len(self.box)

    @property
    def levels(self) -> int:
        """The finest level; levels are counted from 0."""
        return len(self.mask)

    def field(self, name: Optional[str]) -> Field:
        """The field of this name, or the first one."""
        if name is None:
            return self.fields[0]
        for each in self.fields:
            if each.name == name:
                return each
        raise KeyError(f"there is no field {name!r}; there are {', '.join(each.name for each in self.fields)}")

    def strides(self, level: int) -> tuple[int, ...]:
        """How far apart the points of levels 0 to `level` are on each axis, axis 0 first."""
        return tuple(2 ** self.mask[level:].count(axis) for axis in range(self.axes))

    def grid(self, box: Box, level: int) -> tuple[range, ...]:
        """The coordinates of the points of `box` whose level is at most `level`: one range for each axis, axis 0 first."""
        return tuple(range(-(-low // step) * step, high + 1, step)
                     for (low, high), step in zip(box, self.strides(level)))

    def single_level(self, box: Box, level: int) -> tuple[range, ...]:
        """The coordinates of the points of `box` whose level is exactly `level`: one range for each axis, axis 0 first.

        From level 1 on these are the points on the level's strides with an odd multiple on the axis of its digit.
        """
        grid = list(self.grid(box, level))
        if level > 0:
            axis = self.mask[level - 1]
            low, high, step = *box[axis], self.strides(level)[axis]
            first = -(-low // step)
            grid[axis] = range((first + 1 - first % 2) * step, high + 1, 2 * step)
        return tuple(grid)

    def coarsest_level(self, coordinates: Sequence[range]) -> int:
        """The coarsest level whose grid has all points with these coordinates, one range for each axis."""
        for level in range(self.levels):
            steps = self.strides(level)
            if all(at[0] % step == 0 and (len(at) == 1 or at.step % step == 0)
                   for at, step in zip(coordinates, steps)):
                return level
        return self.levels


def header_of_info(text: str) -> Header:
    """The header that these lines of `idxtool info` tell of."""
    values: dict[str, str] = {}
    fields: list[Field] = []
    for line in text.splitlines():
        word, _, rest = line.partition(" ")
        if word == "field":
            name, kind, _ = rest.split(" ")
            fields.append(field_of(name, kind))
        else:
            values[word] = rest
    steps = None if values["steps"] == "none" else values["steps"].split()
    return Header(box=pairs(values["box"]), mask=tuple(map(int, values["bits"][1:])), fields=tuple(fields),
                  timesteps=None if steps is None else range(int(steps[0]), int(steps[1]) + 1))


def pairs(text: str) -> Box:
    """The box that `lo hi lo hi ..` says."""
    numbers = [int(word) for word in text.split()]
    return tuple(zip(numbers[::2], numbers[1::2]))


def header_values(text: str) -> dict[str, str]:
    """The keys of a header's text with their values, each on one line. It checks nothing: `idxtool info` does."""
    values: dict[str, str] = {}
    key = None
    for line in map(str.strip, text.splitlines()):
        if line.startswith("(") and line.endswith(")"):
            key = line[1:-1]
            values[key] = ""
        elif key is not None and line:
            values[key] = f"{values[key]} {line}".strip()
    return values


def folder_of(values: dict[str, str]) -> Optional[str]:
    """The folder of a timestep's first revision by these values of a header, beside the header, with the time's mark.

    None where the header has no time, and so no folders.
    """
    words = values.get("time", "").split()
    if len(words) != 3:
        return None
    parts = [part for part in values.get("filename_template", "").split("/") if part not in (".", "")]
    before = parts[:next((place for place, part in enumerate(parts) if "%" in part), 0)]
    return "/".join([*before, words[2].rstrip("/")])


def header_of_text(text: str) -> Header:
    """The header that a text is, where it is a right one; raises ValueError where something is missing.

    This is for a header that came over the network. Of one on this machine `idxtool info` says what is wrong with it.
    """
    values = header_values(text)
    missing = [key for key in ("version", "box", "fields", "bits") if key not in values]
    if missing or values["version"] != "6":
        raise ValueError(f"this is no header of version 6: it lacks {', '.join(missing) or 'the version'}")
    mask = tuple(map(int, values["bits"][1:]))
    box = pairs(values["box"])
    while len(box) > 2 and box[-1] == (0, 0) and len(box) - 1 not in mask:
        box = box[:-1]
    fields = tuple(field_of(*part.split()[:2]) for part in values["fields"].split("+"))
    words = values.get("time", "").split()
    steps = range(int(words[0]), int(words[1]) + 1) if words else None
    return Header(box=box, mask=mask, fields=fields, timesteps=steps)


def points_in(coordinates: Sequence[range]) -> int:
    """How many points have these coordinates."""
    count = 1
    for at in coordinates:
        count *= len(at)
    return count


def shape_of(coordinates: Sequence[range], field: Field) -> tuple[int, ...]:
    """The shape of an array with a sample at each of these points: axis 0 is the last one but for the components."""
    return tuple(len(at) for at in reversed(coordinates)) + field.inner_shape
