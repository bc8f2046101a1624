"""A field that is indexed like an array."""
from __future__ import annotations

import operator
from collections.abc import Callable, Sequence
from typing import TYPE_CHECKING, Any, Optional, Union

import numpy as np
from numpy.lib.mixins import NDArrayOperatorsMixin

from .layout import Field

if TYPE_CHECKING:
    from .dataset import Dataset

Index = Union[int, slice, np.ndarray, None]
"""What can stand for an axis: a place, a slice, a list of places; None makes a new axis."""


class FieldArray(NDArrayOperatorsMixin):
    """A field over all axes with the timesteps in front, indexed as a numpy array `a[t, .., z, y, x]`.

    `t` is the place of a timestep in the list `dataset.timesteps`, not its number: of the timesteps 2 and 5 these are 0
    and 1. Of the further axes axis 0 of the dataset is the last one, places are counted from 0 wherever the box begins,
    and the components of a vector are one more axis behind.

    An index has numbers, slices with any step, `...`, None, and lists of places, and means what it means for numpy. It
    reads what it names, one question for each timestep, and gives an array. Slices whose steps are a level's strides read
    that level alone: `a[0, ::4, ::4, ::4]` costs a 64th of the whole. A list reads from its least place to its greatest.
    numpy's functions and operators read all of it. dask and xarray take it as it is.
    """

    def __init__(self, dataset: "Dataset", field: Field, timesteps: Sequence[int]) -> None:
        self._dataset = dataset
        self._field = field
        self.timesteps = tuple(timesteps)
        self.dtype = field.dtype
        self.shape = (len(self.timesteps), *dataset.shape, *field.inner_shape)

    @property
    def ndim(self) -> int:
        """How many axes it has, with those of the timesteps and the components."""
        return len(self.shape)

    @property
    def size(self) -> int:
        """How many numbers it has."""
        return int(np.prod(self.shape, dtype=object))

    @property
    def nbytes(self) -> int:
        """How many bytes all of it takes."""
        return self.size * self.dtype.itemsize

    def __len__(self) -> int:
        return self.shape[0]

    def __repr__(self) -> str:
        return f"<idxtool.FieldArray {self._field.name} {self.shape} {self.dtype}>"

    def __copy__(self) -> "FieldArray":
        return self

    def __deepcopy__(self, _: object) -> "FieldArray":
        """It never changes, so it is its own copy."""
        return self

    def __array__(self, dtype: Any = None, copy: Optional[bool] = None) -> np.ndarray:
        """All samples of all timesteps."""
        whole = self[...]
        return whole if dtype is None else whole.astype(dtype)

    def __array_function__(self, function: Callable[..., Any], _: Any, args: Any, kwargs: Any) -> Any:
        """A function of numpy reads all."""
        return function(*arrays_in(args), **arrays_in(kwargs))

    def __array_ufunc__(self, function: np.ufunc, method: str, *args: Any, **kwargs: Any) -> Any:
        """So does an operator."""
        return getattr(function, method)(*arrays_in(args), **arrays_in(kwargs))

    def __getitem__(self, index: Any) -> np.ndarray:
        """The samples that an index names."""
        every = full_index(index, self.shape)
        named = [each for each in every if each is not None]
        axes = 1 + self._dataset.header.axes
        places = [places_of(each, size) for each, size in zip(named[:axes], self.shape)]
        got = self._read(places)
        within = iter([inside(each, at) for each, at in zip(named[:axes], places)] + named[axes:])
        return got[tuple(None if each is None else next(within) for each in every)]

    def _read(self, places: Sequence[range]) -> np.ndarray:
        """The samples at places along the axes of timesteps and of points; each range may fall, or be empty."""
        got = np.empty(tuple(map(len, places)) + self._field.inner_shape, self.dtype)
        if got.size == 0:
            return got
        for place, step in enumerate(places[0]):
            got[place] = self._read_one(self.timesteps[step], places[1:])
        return got

    def _read_one(self, number: int, places: Sequence[range]) -> np.ndarray:
        """The samples of one timestep, by its number."""
        lows = [low for low, _ in reversed(self._dataset.box)]
        rising = [each if each.step > 0 else each[::-1] for each in places]
        wanted = [range(low + each[0], low + each[-1] + 1, each.step) for low, each in zip(lows, rising)]
        box = tuple((at[0], at[-1]) for at in reversed(wanted))
        level = self._dataset.header.coarsest_level(tuple(reversed(wanted)))
        got = self._dataset.read(self._field.name, box, level, number)
        steps = tuple(reversed(self._dataset.header.strides(level)))
        pick = tuple(slice(None, None, at.step // step if len(at) > 1 else None) for at, step in zip(wanted, steps))
        turn = tuple(slice(None, None, 1 if each.step > 0 else -1) for each in places)
        return got[pick][turn]


def arrays_in(value: Any) -> Any:
    """The same arguments with an array of all samples in the place of each FieldArray."""
    if isinstance(value, FieldArray):
        return np.asarray(value)
    if isinstance(value, (list, tuple)):
        return type(value)(arrays_in(each) for each in value)
    if isinstance(value, dict):
        return {key: arrays_in(each) for key, each in value.items()}
    return value


def full_index(index: Any, shape: Sequence[int]) -> list[Index]:
    """An index with something for each axis, in the place of `...` and of what is left out; places are from 0 on."""
    given = list(index) if isinstance(index, tuple) else [index]
    dots = [place for place, each in enumerate(given) if each is Ellipsis]
    count = sum(each is not None and each is not Ellipsis for each in given)
    if len(dots) > 1 or count > len(shape):
        raise IndexError(f"{index!r} is no index of {len(shape)} axes")
    place = dots[0] if dots else len(given)
    given[place:place + 1] = [slice(None)] * (len(shape) - count)
    sizes = iter(shape)
    return [None if each is None else axis_index(each, next(sizes)) for each in given]


def axis_index(index: Any, size: int) -> Index:
    """What stands for an axis: a slice, a place from 0 on, or an array of such places."""
    if isinstance(index, slice):
        return index
    if isinstance(index, (list, range, np.ndarray)) and np.ndim(index) > 0:
        places = np.asarray(index)
        if places.dtype == bool and places.shape == (size,):
            return np.flatnonzero(places)
        return np.array([place_of(each, size) for each in places.ravel()], int).reshape(places.shape)
    return place_of(index, size)


def place_of(index: Any, size: int) -> int:
    """A place from 0 on an axis, where numbers below 0 count from its end."""
    try:
        place = operator.index(index if not isinstance(index, (bool, np.bool_)) else None)
    except TypeError:
        raise IndexError(f"{index!r} is no index: numbers, slices, lists of numbers, ... and None are") from None
    if not -size <= place < size:
        raise IndexError(f"{place} is no place of an axis of {size}")
    return place % size


def places_of(index: Union[int, slice, np.ndarray], size: int) -> range:
    """The places of an axis that are read for an index: of a list those from the least to the greatest."""
    if isinstance(index, slice):
        return range(size)[index]
    if isinstance(index, int):
        return range(index, index + 1)
    return range(index.min(), index.max() + 1) if index.size else range(0)


def inside(index: Union[int, slice, np.ndarray], places: range) -> Union[int, slice, np.ndarray]:
    """The same index of what was read: all of it, its only place, or a list of places in it."""
    if isinstance(index, slice):
        return slice(None)
    return index - places.start
