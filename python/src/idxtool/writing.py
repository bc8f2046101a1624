"""Writes timesteps."""
from __future__ import annotations

import operator
import os
import re
import tempfile
from collections.abc import Collection, Mapping, Sequence
from pathlib import Path
from typing import BinaryIO, Optional, Union

import numpy as np

from .errors import SharedFoldersError
from .layout import BASES, Box, Field, folder_of, header_values
from .program import run
from .sources import box_text

PIECE = 2 ** 26
"""About how many bytes of an array are copied at a time."""


def write(path: Union[str, "os.PathLike[str]"], array: Union[np.ndarray, Mapping[str, np.ndarray]],
          field: Optional[str] = None, *, time: int = 0, vectors: Collection[str] = (),
          origin: Optional[Sequence[int]] = None, timesteps: tuple[int, int] = (0, 999), mask: str = "auto",
          bits_per_block: Optional[int] = None, blocks_per_file: int = 256, ranks: int = 1,
          fill: Union[int, float, None] = None, scratch: Union[str, "os.PathLike[str]", None] = None) -> None:
    """Writes one timestep of the dataset with this header's file, by `idxtool convert`.

    `array` has the samples of `field` (else `data`), axis 0 of the dataset last; a dataset with several fields is written
    from a mapping of their names to arrays of one shape. Those that `vectors` names have one more axis behind: the
    components of each sample. The types are those of the format (int8 to uint64, float32, float64); a byte order other
    than little-endian is turned. Masked samples get the value `fill`, without which they are refused. `time` is the
    timestep's number.

    Where there is no header yet, it is made: the box begins at `origin` (axis 0 first, else 0), timesteps go from the
    first to the last of `timesteps` in folders that are named after the header's file, and `mask`, `bits_per_block` and
    `blocks_per_file` are as of `convert`. Where there is one, its values are used, and box and fields have to agree. A
    header is not begun where another one beside it has the same folders (SharedFoldersError). A timestep that is there
    already becomes a new revision. `ranks` worker threads write. The samples go through a file in `scratch`, which takes as many bytes as
    they do (else the system's folder for such files). Where the program refuses it raises the error that says so.
    """
    arrays = {name: filled(name, each, fill) for name, each in named(array, field).items()}
    step = operator.index(time)
    made = {name: field_for(name, each, name in vectors) for name, each in arrays.items()}
    box = box_for({name: each.shape[:each.ndim - (name in vectors)] for name, each in arrays.items()}, origin)
    words = header_words(Path(path), box, list(made.values()), timesteps, mask, bits_per_block, blocks_per_file)
    if not Path(path).exists():
        check_alone(Path(path), {"filename_template": words[-2], "time": words[-1]})
    with tempfile.NamedTemporaryFile(prefix="idxtool-", suffix=".raw", dir=scratch) as raw:
        for name, each in arrays.items():
            put(raw.file, each, made[name].dtype)  # type: ignore[arg-type]
        raw.flush()
        run("convert", path, raw.name, *words, step, "--ranks", ranks)


def named(array: Union[np.ndarray, Mapping[str, np.ndarray]], field: Optional[str]) -> Mapping[str, np.ndarray]:
    """The arrays by the names of their fields. Raises TypeError where the names are none, or are given twice."""
    if isinstance(array, Mapping):
        if field is not None:
            raise TypeError(f"the mapping names its fields, so there is no field {field!r}; a timestep is given as time=..")
        arrays = array
    else:
        arrays = {"data" if field is None else field: array}
    wrong = [name for name in arrays if not isinstance(name, str)]
    if wrong:
        raise TypeError(f"the name of a field is a text, and {wrong[0]!r} is none; a timestep is given as time=..")
    return arrays


def filled(name: str, array: np.ndarray, fill: Union[int, float, None]) -> np.ndarray:
    """The same array with this value at its masked samples. Raises ValueError where there are some and no value."""
    if not isinstance(array, np.ma.MaskedArray):
        return array
    if np.ma.is_masked(array) and fill is None:
        raise ValueError(f"{name} has masked samples, which the format cannot say; fill=.. gives them a value")
    return array.filled(fill)


def check_alone(path: Path, values: dict[str, str]) -> None:
    """Raises SharedFoldersError where another header beside this one has the same folders for its timesteps."""
    mine = re.sub(r"%0\dd", "%", folder_of(values) or "")
    for other in sorted(path.parent.glob("*.idx")):
        try:
            theirs = folder_of(header_values(other.read_text(errors="replace")))
        except OSError:
            continue
        if theirs is not None and re.sub(r"%0\dd", "%", theirs) == mine and other.name != path.name:
            raise SharedFoldersError(f"{other} has the folders {theirs} for its timesteps too, so that one of the two datasets "
                                     "would be a revision of the other; give this one another name or folder")


def field_for(name: str, array: np.ndarray, is_vector: bool) -> Field:
    """The field that an array is written as. Raises TypeError where the format has no such type."""
    dtype = np.dtype(array.dtype)
    if dtype.name not in BASES:
        raise TypeError(f"{name} has the type {dtype}, and the format has {', '.join(BASES)}; convert it with astype")
    return Field(name, dtype.newbyteorder("<"), array.shape[-1] if is_vector else 1)


def box_for(shapes: Mapping[str, tuple[int, ...]], origin: Optional[Sequence[int]]) -> Box:
    """The box of arrays with these shapes, which are equal, axis 0 first."""
    if len(set(shapes.values())) != 1:
        raise ValueError(f"the arrays have to have one shape, and have {shapes}")
    sizes = next(iter(shapes.values()))[::-1]
    if not 2 <= len(sizes) <= 5 or 0 in sizes:
        raise ValueError(f"a dataset has 2 to 5 axes with a sample at least, and the arrays have the shape {sizes[::-1]}")
    lows = [0] * len(sizes) if origin is None else [int(low) for low in origin]
    if len(lows) != len(sizes):
        raise ValueError(f"origin has {len(lows)} coordinates, and the dataset {len(sizes)} axes")
    return tuple((low, low + size - 1) for low, size in zip(lows, sizes))


def header_words(path: Path, box: Box, fields: Sequence[Field], timesteps: tuple[int, int], mask: str,
                 bits_per_block: Optional[int], blocks_per_file: int) -> list[str]:
    """The seven words of `convert` that say the header: those of the header that is there, or new ones."""
    words = [box_text(box), " + ".join(field.text() for field in fields)]
    values = header_values(path.read_text()) if path.is_file() else {}
    if values:
        return words + [values.get(key, "") for key in
                        ("bits", "bitsperblock", "blocksperfile", "filename_template", "time")]
    digits = sum(high.bit_length() for _, high in box) if mask == "auto" else len(mask) - 1
    bits = max(1, min(16, digits)) if bits_per_block is None else bits_per_block
    stem = re.sub(r"[^A-Za-z0-9_.-]", "_", path.name.removesuffix(".idx"))
    return words + [mask, str(bits), str(blocks_per_file), "./%06x.bin", f"{timesteps[0]} {timesteps[1]} {stem}_%04d/"]


def put(file: BinaryIO, array: np.ndarray, dtype: np.dtype) -> None:
    """Writes the samples of an array in row-major order, some of its first axis at a time."""
    row_bytes = max(1, dtype.itemsize * int(np.prod(array.shape[1:], dtype=object)))
    rows = max(1, PIECE // row_bytes)
    for first in range(0, array.shape[0], rows):
        piece = np.ascontiguousarray(np.asarray(array[first:first + rows]), dtype)
        file.write(memoryview(piece.reshape(-1).view(np.uint8)))
