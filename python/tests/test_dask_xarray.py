"""Dask and xarray, where they are installed."""
from __future__ import annotations

from pathlib import Path

import numpy as np
import pytest
from conftest import Case

import idxtool

dask_array = pytest.importorskip("dask.array")


def test_dask_takes_a_field_as_it_is(case: Case) -> None:
    dataset = idxtool.open(case.path)
    for name in ("float64", "velocity"):
        array = case.arrays[name][None]
        lazy = dask_array.from_array(dataset[name], chunks=tuple(max(1, size // 2) for size in array.shape))
        assert lazy.shape == array.shape and lazy.dtype == array.dtype and lazy.npartitions > 1
        assert np.array_equal(lazy[0, 1].compute(), array[0, 1])
        assert np.array_equal(lazy[:, [1, 0], ::-2, None].compute(), array[:, [1, 0], ::-2, None])
        assert np.allclose(lazy.sum(axis=1).compute(), array.sum(axis=1), atol=1e-4)


def test_dask_reads_through_one_connection(case: Case) -> None:
    with idxtool.serve(case.path, workers=1) as server, idxtool.open(server.url, header=case.path) as dataset:
        lazy = dask_array.from_array(dataset["int32"], chunks=(1, *(max(1, size // 3) for size in case.shape)))
        assert np.array_equal(lazy[0].compute(), case.arrays["int32"])


@pytest.fixture
def timesteps(tmp_path: Path) -> "tuple[Path, np.ndarray]":
    """A dataset of the timesteps 2 and 5, and their arrays of the field `t`."""
    path, array = tmp_path / "n.idx", np.arange(4 * 5 * 6, dtype=np.float32).reshape(4, 5, 6)
    for number in (2, 5):
        wind = np.stack([array, -array], axis=-1)
        idxtool.write(path, {"t": array + number, "wind": wind}, time=number, vectors=["wind"], origin=(10, 0, 0))
    return path, np.stack([array + 2, array + 5])


def test_xarray_takes_a_field_as_it_is(timesteps: "tuple[Path, np.ndarray]", monkeypatch: pytest.MonkeyPatch) -> None:
    xarray = pytest.importorskip("xarray")
    path, array = timesteps
    read, asked = idxtool.Dataset.read, []
    monkeypatch.setattr(idxtool.Dataset, "read", lambda self, *question: asked.append(question) or read(self, *question))
    field = xarray.DataArray(idxtool.open(path)["t"], dims=("time", "z", "y", "x"), coords={"time": [2, 5]})
    part = field.sel(time=5).isel(z=slice(None, None, 2), x=3)
    assert np.array_equal(part.values, array[1, ::2, :, 3])
    assert len(asked) == 1, "no more than the part is read"
    assert float(field.max()) == array.max() and np.array_equal((field + 1).values, array + 1)


def test_a_whole_dataset_in_xarray(timesteps: "tuple[Path, np.ndarray]") -> None:
    pytest.importorskip("xarray")
    path, array = timesteps
    dataset = idxtool.open(path).to_xarray()
    assert dataset["t"].dims == ("time", "z", "y", "x") and dataset["time"].values.tolist() == [2, 5]
    assert dataset["wind"].dims == ("time", "z", "y", "x", "wind_component")
    assert np.array_equal(dataset["t"].sel(time=5, x=12).values, array[1, ..., 2])
    assert np.array_equal(dataset["wind"].isel(time=0, wind_component=1).values, 2 - array[0])
