"""What is written."""
from __future__ import annotations

from pathlib import Path

import numpy as np
import pytest

import idxtool


def test_the_worked_dataset_has_the_files_of_the_formats_page(tmp_path: Path) -> None:
    array = np.arange(16, dtype=np.uint8).reshape(4, 4)
    (tmp_path / "v.idx").write_text("(version)\n6\n(box)\n0 3 0 3\n(fields)\na uint8\n(bits)\nV0101\n(bitsperblock)\n2\n"
                                    "(blocksperfile)\n2\n(filename_template)\n./%01x.bin\n(time)\n0 9 time%04d/\n")
    idxtool.write(tmp_path / "v.idx", array, "a")
    files = {path.name: path.read_bytes()[120:] for path in (tmp_path / "time0000").iterdir()}
    assert files == {"0.bin": bytes.fromhex("00 02 08 0a 01 09 03 0b"), "2.bin": bytes.fromhex("04 05 0c 0d 06 07 0e 0f")}


def test_further_timesteps_and_revisions(tmp_path: Path) -> None:
    path, first = tmp_path / "n.idx", np.arange(5 * 6 * 7, dtype=np.int32).reshape(5, 6, 7)
    idxtool.write(path, first, "n", time=3, timesteps=(3, 5))
    dataset = idxtool.open(path)
    assert dataset.timesteps == [3]
    idxtool.write(path, first + 1000, "n", time=5)
    idxtool.write(path, first - 1000, "n", time=3)
    assert dataset.timesteps == [3] and dataset["n"].shape == (1, 5, 6, 7)
    dataset.refresh()
    assert dataset.timesteps == [3, 5]
    assert np.array_equal(dataset.read(), first - 1000)
    assert np.array_equal(dataset.read("n", time=5), first + 1000)
    assert np.array_equal(dataset["n"][:, 2, ::-1, [0, 6]], np.stack([first - 1000, first + 1000])[:, 2, ::-1, [0, 6]])
    with pytest.raises(idxtool.errors.NoStepError, match="no step 6"):
        idxtool.write(path, first, "n", time=6)


def test_another_shape_or_field_is_refused(tmp_path: Path) -> None:
    path = tmp_path / "n.idx"
    idxtool.write(path, np.zeros((4, 4), np.uint8))
    for other in (np.zeros((4, 3), np.uint8), np.zeros((4, 4), np.int8)):
        with pytest.raises(idxtool.errors.OtherHeaderError):
            idxtool.write(path, other, time=1)


def test_byte_order_and_memory_order_do_not_matter(tmp_path: Path) -> None:
    array = np.arange(6 * 7 * 8, dtype=">f4").reshape(8, 7, 6).transpose(2, 0, 1)
    idxtool.write(tmp_path / "n.idx", array, ranks=2)
    got = idxtool.open(tmp_path / "n.idx").read()
    assert got.dtype == np.dtype("<f4") and np.array_equal(got, array)


def test_large_arrays_are_copied_in_pieces(tmp_path: Path, monkeypatch: pytest.MonkeyPatch) -> None:
    monkeypatch.setattr(idxtool.writing, "PIECE", 100)
    array = np.arange(6 * 7 * 8, dtype=np.uint16).reshape(6, 7, 8)
    idxtool.write(tmp_path / "n.idx", array)
    assert np.array_equal(idxtool.open(tmp_path / "n.idx").read(), array)


@pytest.mark.parametrize("dtype", ["bool", "float16", "complex64", "datetime64[s]", "U3"])
def test_a_type_that_the_format_lacks_is_told(tmp_path: Path, dtype: str) -> None:
    with pytest.raises(TypeError, match="astype"):
        idxtool.write(tmp_path / "n.idx", np.zeros((4, 4), dtype))


def test_arrays_that_do_not_fit_together_are_told(tmp_path: Path) -> None:
    with pytest.raises(ValueError, match="one shape"):
        idxtool.write(tmp_path / "n.idx", {"a": np.zeros((4, 4)), "b": np.zeros((4, 5))})
    with pytest.raises(ValueError, match="2 to 5 axes"):
        idxtool.write(tmp_path / "n.idx", np.zeros(4))
    with pytest.raises(ValueError, match="origin"):
        idxtool.write(tmp_path / "n.idx", np.zeros((4, 4)), origin=(1,))
    assert list(tmp_path.iterdir()) == []


def test_datasets_in_one_folder_have_folders_of_their_own(tmp_path: Path) -> None:
    arrays = {name: np.full((4, 5), value, np.float32) for value, name in enumerate(["pressure", "temperature", "a b", "c+d"])}
    for name, array in arrays.items():
        idxtool.write(tmp_path / f"{name}.idx", array, time=3)
    for name, array in arrays.items():
        dataset = idxtool.open(tmp_path / f"{name}.idx")
        assert dataset.timesteps == [3] and np.array_equal(dataset.read(), array), name
    assert not list(tmp_path.glob("*.r*"))


def test_a_dataset_is_not_begun_in_the_folders_of_another_one(tmp_path: Path) -> None:
    idxtool.write(tmp_path / "a b.idx", np.zeros((4, 4), np.uint8))
    before = sorted(tmp_path.iterdir())
    with pytest.raises(idxtool.errors.SharedFoldersError, match="a b.idx has the folders a_b_%04d"):
        idxtool.write(tmp_path / "a_b.idx", np.ones((4, 4), np.uint8))
    assert sorted(tmp_path.iterdir()) == before
    idxtool.write(tmp_path / "a b.idx", np.ones((4, 4), np.uint8), time=1)
    (tmp_path / "other").mkdir()
    idxtool.write(tmp_path / "other" / "a_b.idx", np.ones((4, 4), np.uint8))


def test_a_timestep_is_no_field(tmp_path: Path) -> None:
    path, array = tmp_path / "n.idx", np.zeros((4, 4), np.uint8)
    for wrong in (lambda: idxtool.write(path, array, "n", 2), lambda: idxtool.write(path, array, 2),
                  lambda: idxtool.write(path, {"a": array, "b": array}, 2), lambda: idxtool.write(path, {2: array}),
                  lambda: idxtool.write(path, {"a": array}, "a"), lambda: idxtool.write(path, array, time=1.5),
                  lambda: idxtool.write(path, array, time="1")):
        with pytest.raises(TypeError):
            wrong()
    assert list(tmp_path.iterdir()) == []
    idxtool.write(path, {"a": array, "b": array + 1}, time=np.int64(2))
    dataset = idxtool.open(path)
    assert dataset.timesteps == [2] and np.array_equal(dataset.read("b"), array + 1)


def test_masked_samples_are_refused_or_get_a_value(tmp_path: Path) -> None:
    path = tmp_path / "n.idx"
    array = np.ma.masked_greater(np.arange(16.0).reshape(4, 4), 9)
    with pytest.raises(ValueError, match="fill="):
        idxtool.write(path, array)
    assert list(tmp_path.iterdir()) == []
    idxtool.write(path, array, fill=-1)
    assert np.array_equal(idxtool.open(path).read(), np.where(array.mask, -1, array.data))
    idxtool.write(path, np.ma.array(np.ones((4, 4)), mask=False), time=1)
    assert np.array_equal(idxtool.open(path).read(time=1), np.ones((4, 4)))
