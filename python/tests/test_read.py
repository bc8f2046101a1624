"""What is read, beside numpy."""
from __future__ import annotations

import pickle
from pathlib import Path
from random import Random

import numpy as np
import pytest
from conftest import Case, levels_of, random_box, window

import idxtool
import idxtool.dataset
from idxtool import errors


def same(got: np.ndarray, wanted: np.ndarray) -> bool:
    """Whether two arrays have the same type, shape and bytes."""
    return got.dtype == wanted.dtype and got.shape == wanted.shape and got.tobytes() == wanted.tobytes()


def test_header_tells_box_fields_and_timesteps(case: Case) -> None:
    with idxtool.open(case.path) as dataset:
        assert dataset.box == case.box and dataset.shape == case.shape
        assert dataset.header.timesteps == range(10) and dataset.timesteps == [0]
        assert {name: (each.dtype, each.components) for name, each in dataset.fields.items()} == {
            name: (array.dtype, (*array.shape[len(case.shape):], 1)[0])
            for name, array in case.arrays.items()}


def test_headers_text_and_info_tell_the_same(case: Case) -> None:
    assert idxtool.layout.header_of_text(case.path.read_text()) == idxtool.open(case.path).header


def test_all_samples_of_each_field_come_back(case: Case) -> None:
    dataset = idxtool.open(case.path)
    for name, array in case.arrays.items():
        assert same(dataset.read(name), array), name


def test_random_boxes_at_random_levels(case: Case) -> None:
    dataset, random = idxtool.open(case.path), Random(1)
    for _ in range(25):
        box, level = random_box(random, case.box), random.randint(0, dataset.levels)
        name = random.choice(list(case.arrays))
        is_asked = levels_of(dataset.header.mask, box) <= level
        wanted = window(case.arrays[name], case.box, box)[is_asked]
        got = dataset.read(name, box, level)
        at = dataset.coordinates(box, level)
        assert same(got.reshape(wanted.shape), wanted)
        assert got.shape[:len(box)] == tuple(len(each) for each in reversed(at))
        grid = np.ix_(*(np.array(each, int) - low for each, (low, _) in zip(reversed(at), reversed(case.box))))
        assert same(got, case.arrays[name][grid])


def test_levels_alone_and_ranges_of_levels(case: Case) -> None:
    dataset, random = idxtool.open(case.path), Random(2)
    for level in range(dataset.levels + 1):
        box, name = random_box(random, case.box), random.choice(list(case.arrays))
        levels, array = levels_of(dataset.header.mask, box), window(case.arrays[name], case.box, box)
        single = dataset.read(name, box, level, from_level=level)
        assert same(single.reshape(array[levels == level].shape), array[levels == level])
        grid = np.ix_(*(np.array(each, int) - low for each, (low, _) in
                        zip(reversed(dataset.coordinates(box, level, level)), reversed(case.box))))
        assert same(single, case.arrays[name][grid])
        low = random.randint(0, level)
        several = dataset.read(name, box, level, 0, from_level=low)
        wanted = array[(low <= levels) & (levels <= level)]
        assert same(several.reshape(wanted.shape), wanted)


def test_refining_gives_what_each_level_has(case: Case, monkeypatch: pytest.MonkeyPatch) -> None:
    dataset, random = idxtool.open(case.path), Random(3)
    for name in ("uint8", "velocity"):
        box = random_box(random, case.box)
        wanted = [dataset.read(name, box, level) for level in range(dataset.levels + 1)]
        assert all(map(same, dataset.refine(name, box), wanted))
        asked = count_bytes(dataset, monkeypatch)
        some = list(dataset.refine(name, box, [2, 5, dataset.levels]))
        assert all(map(same, some, (wanted[2], wanted[5], wanted[-1]))) and len(some) == 3
        assert sum(asked) == wanted[-1].nbytes, "each sample is fetched once"


def count_bytes(dataset: idxtool.Dataset, monkeypatch: pytest.MonkeyPatch) -> "list[int]":
    """A list that gets the bytes of each further question to a dataset."""
    asked, read = [], type(dataset._source).read_into

    def counted(source: object, out: memoryview, *question: object) -> int:
        asked.append(len(out))
        return read(source, out, *question)

    monkeypatch.setattr(type(dataset._source), "read_into", counted)
    return asked


def random_index(random: Random, size: int) -> "int | slice":
    """A number or a slice of an axis, also from its end, with any step."""
    if random.random() < 0.3:
        return random.randint(-size, size - 1)
    ends = [random.choice([None, random.randint(-size - 1, size + 1)]) for _ in range(2)]
    return slice(*ends, random.choice([None, 1, 2, 3, 4, 8, -1, -2]))


def test_random_indices_are_those_of_numpy(case: Case) -> None:
    dataset, random = idxtool.open(case.path), Random(4)
    for _ in range(40):
        name = random.choice(list(case.arrays))
        array, field = case.arrays[name][None], dataset[name]
        assert field.shape == array.shape and field.dtype == array.dtype and field.ndim == array.ndim
        index = tuple(random_index(random, size) for size in array.shape)
        if random.random() < 0.3:
            place = random.randrange(len(index))
            listed = [random.randint(-array.shape[place], array.shape[place] - 1) for _ in range(random.randint(0, 4))]
            index = (*index[:place], np.array(listed, int), *index[place + 1:])
        if random.random() < 0.3:
            index = (*index[:1], None, *index[1:])
        if random.random() < 0.5:
            place = random.randrange(len(index) + 1)
            index = (*index[:place], ..., *index[random.randint(place, len(index)):])
        assert same(field[index], array[index]), (name, index)
    for index in ([0], 0, (0, [True] * case.shape[0]), (..., None), ()):
        assert same(dataset["uint8"][index], case.arrays["uint8"][None][index]), index


@pytest.mark.parametrize("step", [2, -2, 4, 6])
def test_slices_by_even_steps_from_each_place(case: Case, step: int) -> None:
    dataset, array = idxtool.open(case.path), case.arrays["pair"][None]
    for first in range(4):
        index = (0, *(slice(first, None, step) if step > 0 else slice(None, first, step) for _ in case.shape))
        assert same(dataset["pair"][index], array[index]), index


def test_numpys_functions_and_operators_read_all(case: Case) -> None:
    dataset, array = idxtool.open(case.path), case.arrays["int16"][None]
    assert same(np.asarray(dataset["int16"]), array) and same(dataset["int16"] + 1, array + 1)
    assert np.array_equal(np.concatenate([dataset["int16"], array]), np.concatenate([array, array]))
    assert np.sum(dataset["int16"]) == np.sum(array) and (dataset["int16"] == array).all()


def test_a_slice_by_a_levels_strides_reads_that_level_alone(case: Case, monkeypatch: pytest.MonkeyPatch) -> None:
    dataset = idxtool.open(case.path)
    field = dataset["uint8"]
    asked = count_bytes(dataset, monkeypatch)
    index = (0, *(slice(-low % 2, None, 2) for low, _ in reversed(case.box)))
    assert same(field[index], case.arrays["uint8"][index[1:]])
    assert asked == [case.arrays["uint8"][index[1:]].size]


@pytest.mark.parametrize("index", [(0,) * 9, (1,), (0, 99), (0, 1.5), (True,), (..., ...), ([5],), "x"])
def test_what_is_no_index_is_told(case: Case, index: object) -> None:
    with pytest.raises(IndexError):
        idxtool.open(case.path)["uint8"][index]


def test_large_answers_are_several_questions(case: Case, monkeypatch: pytest.MonkeyPatch) -> None:
    dataset = idxtool.open(case.path)
    monkeypatch.setattr(idxtool.dataset, "LARGEST_ANSWER", 300)
    assert same(dataset.read("float64"), case.arrays["float64"])
    levels = levels_of(dataset.header.mask, case.box)
    last = dataset.levels
    got = dataset.read("float64", from_level=last - 2)
    assert same(got, case.arrays["float64"][levels >= last - 2])


def test_refusals_are_classes_with_the_programs_line(case: Case) -> None:
    dataset, (low, high) = idxtool.open(case.path), case.box[0]
    every = dataset.levels
    for kind, status, line, ask in (
            (errors.NotPublishedError, 7, "not published 7", lambda: dataset.read("uint8", time=7)),
            (errors.MissingTimestep, 7, "not published 77", lambda: dataset.read("uint8", time=77)),
            (errors.QuestionError, 8, "outside axis 0", lambda: dataset.read("uint8", ((low, high + 1), *case.box[1:]))),
            (errors.QuestionError, 8, f"levels 0 99 {every}", lambda: dataset.read("uint8", level=99)),
            (errors.QuestionError, 8, f"levels 3 2 {every}", lambda: dataset.read("uint8", level=2, from_level=3)),
            (errors.UsageError, 1, "usage at 4", lambda: dataset.read("uint8", ((low, high),))),
            (errors.UsageError, 1, "usage at 4", lambda: dataset.read("uint8", ((high, low - 1), *case.box[1:]))),
            (errors.HeaderError, 2, "header line 1 MissingKey", lambda: idxtool.open(case.path.parent / "none.idx"))):
        with pytest.raises(kind) as refused:
            ask()
        assert isinstance(refused.value, idxtool.ProgramError)
        assert (refused.value.status, refused.value.line) == (status, f"idxtool: {line}")
    with pytest.raises(KeyError, match="there is no field 'none'; there are int8, uint8"):
        dataset.read("none")


def test_each_status_and_word_has_its_class() -> None:
    for status, cause, kind in ((3, b"raw size want 1 found 2", "RawSizeError"), (4, b"raw fault", "RawError"),
                                (6, b"published 0", "RevisionsError"), (6, b"other header", "OtherHeaderError"),
                                (8, b"no step 4", "NoStepError"), (8, b"too large 9", "TooLargeError"),
                                (8, b"unknown field", "QuestionError"), (9, b"sink fault", "SinkError"),
                                (10, b"table file 0 row 0 CutShort", "TableError"), (11, b"no memory", "NoMemoryError"),
                                (12, b"door fault", "AddressError"), (99, b"?", "ProgramError")):
        refused = errors.program_error(status, b"idxtool: " + cause + b"\n  why\n")
        assert (type(refused).__name__, refused.line, refused.help_lines) == (kind, f"idxtool: {cause.decode()}", "  why")
        assert refused.status == status and str(pickle.loads(pickle.dumps(refused))) == str(refused)
    for status, word, kind in ((404, b"NotPublished", "NotPublished"), (503, b"NoMemory", "NoMemory"),
                               (500, b"StoreFault", "StoreFault"), (413, b"TooLarge", "TooLarge"),
                               (404, b"OtherPath", "OtherDataset"), (400, b"BadText", "BadRequest"),
                               (431, b"HeadTooLarge", "BadRequest"), (502, b"<html>", "ServerError")):
        refused = errors.server_error(status, word + b"\n")
        assert (type(refused).__name__, refused.line) == (kind, f"{status} {word.decode()}")


def test_a_missing_program_is_told(case: Case, monkeypatch: pytest.MonkeyPatch) -> None:
    monkeypatch.setenv("IDXTOOL", "/no/such/program")
    with pytest.raises(FileNotFoundError, match="/no/such/program"):
        idxtool.open(case.path)


def test_fractions_are_no_numbers_of_timesteps_places_or_levels(case: Case) -> None:
    dataset, (pair, *others) = idxtool.open(case.path), case.box
    for wrong in (lambda: dataset.read("uint8", time=0.9), lambda: dataset.read("uint8", ((pair[0] + 0.5, pair[1]), *others)),
                  lambda: dataset.read("uint8", level=2.5), lambda: dataset.read("uint8", time="0"),
                  lambda: next(dataset.refine("uint8", levels=[1.5]))):
        with pytest.raises(TypeError):
            wrong()
    level = np.int64(dataset.levels)
    assert same(dataset.read("uint8", np.array(case.box), level, np.uint8(0)), case.arrays["uint8"])


class Rewriting:
    """Writes a timestep again, with other samples, before each of some questions to the program."""

    def __init__(self, path: Path, monkeypatch: pytest.MonkeyPatch, before: "set[int]") -> None:
        self.path, self.asked, self.revisions = path, 0, 0
        read = idxtool.sources.Program.read_into

        def read_into(source: object, *question: object) -> int:
            self.asked += 1
            if self.asked in before:
                self.write()
            return read(source, *question)

        monkeypatch.setattr(idxtool.sources.Program, "read_into", read_into)
        monkeypatch.setattr(idxtool.dataset, "LARGEST_ANSWER", 64)

    def write(self) -> None:
        idxtool.write(self.path, np.full((8, 8), self.revisions, np.int32))
        self.revisions += 1


@pytest.mark.parametrize("place", [2, 3, 4])
def test_a_read_is_of_one_revision(tmp_path: Path, monkeypatch: pytest.MonkeyPatch, place: int) -> None:
    writes = Rewriting(tmp_path / "n.idx", monkeypatch, {place})
    writes.write()
    dataset = idxtool.open(writes.path)
    assert np.array_equal(dataset.read(), np.ones((8, 8))) and writes.asked > place
    assert np.array_equal(dataset["data"][0], np.ones((8, 8)))


def test_a_read_of_what_is_written_again_and_again_is_told(tmp_path: Path, monkeypatch: pytest.MonkeyPatch) -> None:
    writes = Rewriting(tmp_path / "n.idx", monkeypatch, set(range(2, 100)))
    writes.write()
    with pytest.raises(idxtool.ChangedError, match="timestep 0 was written again"):
        idxtool.open(writes.path).read()


def test_one_question_is_answered_whatever_is_written(tmp_path: Path, monkeypatch: pytest.MonkeyPatch) -> None:
    writes = Rewriting(tmp_path / "n.idx", monkeypatch, set(range(100)))
    writes.write()
    got = idxtool.open(writes.path).read(box=((0, 3), (0, 3)))
    assert np.array_equal(got, np.ones((4, 4)))


def test_refining_does_not_mix_revisions(tmp_path: Path, monkeypatch: pytest.MonkeyPatch) -> None:
    writes = Rewriting(tmp_path / "n.idx", monkeypatch, {4})
    monkeypatch.setattr(idxtool.dataset, "LARGEST_ANSWER", 2 ** 28)
    writes.write()
    values = [set(np.unique(each)) for each in idxtool.open(writes.path).refine()]
    assert values == [{0}] * 3 + [{1}] * 4
    twice = Rewriting(tmp_path / "m.idx", monkeypatch, {3, 6})
    monkeypatch.setattr(idxtool.dataset, "LARGEST_ANSWER", 2 ** 28)
    twice.write()
    with pytest.raises(idxtool.ChangedError):
        list(idxtool.open(twice.path).refine())
