"""A dataset that is read."""
from __future__ import annotations

import operator
import os
from collections.abc import Callable, Iterable, Iterator
from pathlib import Path, PurePosixPath
from typing import TYPE_CHECKING, Optional, TypeVar, Union
from urllib.parse import unquote, urlsplit

import numpy as np

from .errors import ChangedError
from .fieldarray import FieldArray
from .layout import Box, Field, Header, header_of_info, header_of_text, points_in, shape_of
from .program import run
from .sources import Link, Program, Source, fetch_header

if TYPE_CHECKING:
    import xarray

LARGEST_ANSWER = 2 ** 28
"""The bytes that one question may ask for. Larger reads are several questions."""

Made = TypeVar("Made")

AXIS_NAMES = ("x", "y", "z", "u", "v")
"""What axes 0 to 4 are called in xarray."""


class Dataset:
    """A dataset that is read; `open` makes one. It can be used in a `with` statement.

    A box goes by axis, axis 0 first, with inclusive bounds; an array has axis 0 last. Levels are counted from 0, the
    coarsest, to `levels`, all samples. Where a field is not given it is the first one; a time, the first that is there.
    """

    def __init__(self, header: Header, source: Source) -> None:
        self.header = header
        self._source = source
        self._timesteps: Optional[list[int]] = None
        self._first: Optional[int] = None

    def __enter__(self) -> "Dataset":
        return self

    def __exit__(self, *_: object) -> None:
        self.close()

    def __repr__(self) -> str:
        fields = ", ".join(each.text() for each in self.header.fields)
        return f"<idxtool.Dataset {self.shape} of {fields}>"

    def close(self) -> None:
        """Closes the connection to a server; of a dataset on this machine nothing is held."""
        self._source.close()

    @property
    def box(self) -> Box:
        """The box of all samples, axis 0 first."""
        return self.header.box

    @property
    def levels(self) -> int:
        """The finest level: levels go from 0 to this one, both inclusive."""
        return self.header.levels

    @property
    def shape(self) -> tuple[int, ...]:
        """The shape of an array with all samples of one timestep of a field of numbers, axis 0 last."""
        return tuple(high - low + 1 for low, high in reversed(self.box))

    @property
    def fields(self) -> dict[str, Field]:
        """The fields by their names."""
        return {each.name: each for each in self.header.fields}

    @property
    def timesteps(self) -> list[int]:
        """The numbers of the timesteps that are there, as they were when this was first asked for; `refresh` looks again.

        A server is asked for each one that the header allows, at most 4,096 small requests.
        """
        if self._timesteps is None:
            self._timesteps = list(self._found())
        return list(self._timesteps)

    def _found(self) -> Iterator[int]:
        """The timesteps that are there, each looked for when it is asked for."""
        for each in self.header.timesteps if self.header.timesteps is not None else range(1):
            if self._source.has_timestep(each, self.header.fields[0]):
                yield each

    def refresh(self) -> None:
        """Has `timesteps` look again. Arrays that were made before stay as they are."""
        self._timesteps = self._first = None

    def _number(self, time: Optional[int]) -> int:
        """The timestep that is meant: without a number the first one that is there, or 0 where none is."""
        if time is not None:
            return operator.index(time)
        if self._first is None:
            self._first = next(self._found(), None)
        return 0 if self._first is None else self._first

    def _samples(self, field: Field, time: int, box: Box, low: int, high: int, count: int) -> np.ndarray:
        """The samples of one question in row-major order: an array of the shape (count, *components)."""
        out = np.empty((count, *field.inner_shape), field.dtype)
        got = self._source.read_into(memoryview(out.reshape(-1).view(np.uint8)), field, time, box, low, high)
        if got != out.nbytes:
            raise ValueError(f"the answer has {got} bytes, not {out.nbytes}")
        return out

    def _of_one(self, time: int, ask: Callable[["Answers"], Made]) -> Made:
        """What some questions of a timestep give, all of one revision; begun anew once where another one came meanwhile."""
        try:
            return ask(Answers(self, time))
        except ChangedError:
            return ask(Answers(self, time))

    def _count(self, box: Box, low: int, high: int) -> int:
        """How many points of a box have a level from `low` to `high`; 0 for a question that will be refused."""
        if len(box) != self.header.axes or not 0 <= low <= high <= self.levels:
            return 0
        below = points_in(self.header.grid(box, low - 1)) if low > 0 else 0
        return points_in(self.header.grid(box, high)) - below


    def read(self, field: Optional[str] = None, box: Optional[Box] = None, level: Optional[int] = None,
             time: Optional[int] = None, *, from_level: int = 0) -> np.ndarray:
        """The samples of a field in a box whose level is `from_level` to `level`, both inclusive, of the timestep `time`.

        Levels 0 to `level` are an evenly spaced grid, and so is a single level: the array has as many axes as the
        dataset, axis 0 last, and behind them the components where a sample has several. `coordinates` tells where its
        points are. Other ranges of levels are no grid; they are one axis of samples in row-major order. All samples are of
        one revision of the timestep: where it is written again meanwhile the read begins anew, once, and then raises
        ChangedError. Where the question is refused it raises the error that says so (`idxtool.errors`), a ProgramError or a
        ServerError.
        """
        which = self.header.field(field)
        box = self.box if box is None else box_of(box)
        level = self.levels if level is None else level
        low, high = operator.index(from_level), operator.index(level)
        flat = self._of_one(self._number(time), lambda answers: answers.samples(which, box, low, high))
        if from_level not in (0, level):
            return flat
        return flat.reshape(shape_of(self.coordinates(box, level, from_level), which))

    def coordinates(self, box: Optional[Box] = None, level: Optional[int] = None,
                    from_level: int = 0) -> tuple[range, ...]:
        """The coordinates of the points that `read` gives for a grid: one range for each axis, axis 0 first."""
        box = self.box if box is None else box_of(box)
        level = self.levels if level is None else level
        if from_level == level:
            return self.header.single_level(box, level)
        if from_level == 0:
            return self.header.grid(box, level)
        raise ValueError(f"levels {from_level} to {level} are no grid")

    def refine(self, field: Optional[str] = None, box: Optional[Box] = None, levels: Optional[Iterable[int]] = None,
               time: Optional[int] = None) -> Iterator[np.ndarray]:
        """Yields arrays that get finer: for each of `levels`, which rise, what `read` gives for it; without them all levels.

        Each sample is fetched once: a level asks only for what it adds. Where the timestep is written again meanwhile, the
        next array is read anew, whole, and those behind it are of that revision; at a second time it raises ChangedError.
        """
        which, number = self.header.field(field), self._number(time)
        box = self.box if box is None else box_of(box)
        none = np.empty((0, *which.inner_shape), which.dtype)
        before, known, answers, is_anew = -1, none, Answers(self, number), False
        for level in range(self.levels + 1) if levels is None else map(operator.index, levels):
            try:
                added = answers.samples(which, box, before + 1, level)
            except ChangedError:
                if is_anew:
                    raise
                before, known, answers, is_anew = -1, none, Answers(self, number), True
                added = answers.samples(which, box, 0, level)
            grid = self.header.grid(box, level)
            whole = np.empty(shape_of(grid, which), which.dtype)
            is_old = np.zeros(whole.shape[:len(grid)], bool)
            if before >= 0:
                steps = self.header.strides(before)
                is_old[np.ix_(*(np.array(at, int) % step == 0 for at, step in zip(reversed(grid), reversed(steps))))] = True
            whole[is_old] = known.reshape(-1, *which.inner_shape)
            whole[~is_old] = added
            before, known = level, whole
            yield whole.copy()

    def __getitem__(self, name: str) -> FieldArray:
        """A field over all axes with the timesteps in front, as an array `a[t, z, y, x]` that reads what an index names."""
        return FieldArray(self, self.header.field(name), self.timesteps)

    def to_xarray(self, chunks: Union[str, int, tuple[int, ...]] = "auto") -> "xarray.Dataset":
        """All fields as an xarray dataset over dask arrays, with the dimensions `time, .., z, y, x`.

        `time` has the numbers of the timesteps. A field of vectors has one more dimension, `NAME_component`.
        """
        import dask.array
        import xarray
        names = AXIS_NAMES[:self.header.axes]
        coordinates = {name: np.arange(low, high + 1) for name, (low, high) in zip(names, self.box)}
        arrays = {}
        for each in self.header.fields:
            inner = (f"{each.name}_component",) if each.inner_shape else ()
            arrays[each.name] = ("time", *reversed(names), *inner), dask.array.from_array(self[each.name], chunks)
        return xarray.Dataset(arrays, coords={"time": self.timesteps, **coordinates})


class Answers:
    """Answers to questions of one timestep, which are all of the revision of the first one; ChangedError where one is not."""

    def __init__(self, dataset: Dataset, time: int) -> None:
        self._dataset = dataset
        self._time = time
        self._is_first, self._is_sure = True, True
        self._revision: Optional[int] = None

    def samples(self, field: Field, box: Box, low: int, high: int) -> np.ndarray:
        """The samples in row-major order, by as many questions as their bytes need: halves of the slowest axis in turn."""
        count = self._dataset._count(box, low, high)
        axis = max((axis for axis, (first, last) in enumerate(box) if first < last), default=None)
        if count * field.sample_bytes <= LARGEST_ANSWER or axis is None:
            return self._one(field, box, low, high, count)
        first, last = box[axis]
        middle = (first + last) // 2
        halves = (box[:axis] + (part,) + box[axis + 1:] for part in ((first, middle), (middle + 1, last)))
        return np.concatenate([self.samples(field, half, low, high) for half in halves])

    def _one(self, field: Field, box: Box, low: int, high: int, count: int) -> np.ndarray:
        """The samples of one question, which are of one revision.

        A server tells of which; of files it is known where the newest one is the same before the question and behind it.
        """
        source = self._dataset._source
        before = source.revision(self._time) if source.is_local else None
        got = self._dataset._samples(field, self._time, box, low, high, count)
        revision = source.revision(self._time)
        is_sure = self._is_sure and (not source.is_local or before == revision)
        if not self._is_first and not (is_sure and revision == self._revision):
            raise ChangedError(self._time)
        self._is_first, self._is_sure, self._revision = False, is_sure, revision
        return got


def box_of(box: Iterable[Iterable[int]]) -> Box:
    """A box whose bounds are Python's own numbers."""
    pairs = [tuple(operator.index(end) for end in pair) for pair in box]
    if any(len(pair) != 2 for pair in pairs):
        raise ValueError(f"a box has a pair (low, high) for each axis, not {box!r}")
    return tuple((pair[0], pair[1]) for pair in pairs)


def open(where: Union[str, "os.PathLike[str]"], header: Union[str, "os.PathLike[str]", None] = None) -> Dataset:
    """Opens a dataset for reading.

    `open("v.idx")` reads the dataset with this header's file by the program on this machine, and raises HeaderError with
    what `idxtool info` says where the header is wrong. `open("http://host:8080", header="v.idx")` reads it from a server
    over one kept connection; the server tells samples and not the header, so the header is a file on this machine or a URL.
    `open("http://host/v.idx")` does so behind a server of files, as nginx, that has the header too. Servers answer at the
    path `/mod_visus`, and the dataset has the header's name without `.idx`.
    """
    if not is_url(where):
        return Dataset(header_of_info(run("info", where).decode()), Program(Path(where)))
    if header is None:
        header = str(where)
    if is_url(header):
        text, name = fetch_header(str(header)), PurePosixPath(unquote(urlsplit(str(header)).path)).name
    else:
        text, name = Path(header).read_text(), Path(header).name
    values = header_of_text(text)
    return Dataset(values, Link(str(where), name.removesuffix(".idx"), values.box))


def is_url(where: Union[str, "os.PathLike[str]"]) -> bool:
    """Whether a text is a URL and no path."""
    return str(where).startswith(("http://", "https://"))
