"""What is read from a server."""
from __future__ import annotations

import http.server
import multiprocessing
import os
import pickle
import subprocess
import threading
import urllib.request
from collections.abc import Iterator
from contextlib import contextmanager
from functools import partial
from random import Random

import numpy as np
import pytest
from conftest import Case, random_box, window

import idxtool
from idxtool import errors


@pytest.fixture
def remote(case: Case) -> Iterator[idxtool.Dataset]:
    """The dataset by a server on this machine with one worker thread."""
    with idxtool.serve(case.path, workers=1) as server, idxtool.open(server.url, header=case.path) as dataset:
        yield dataset


def test_a_server_gives_what_the_program_gives(case: Case, remote: idxtool.Dataset) -> None:
    local, random = idxtool.open(case.path), Random(5)
    assert remote.timesteps == [0] and remote.box == case.box and remote.fields == local.fields
    for _ in range(20):
        name, box = random.choice(list(case.arrays)), random_box(random, case.box)
        low, high = sorted(random.randint(0, local.levels) for _ in range(2))
        got, wanted = (each.read(name, box, high, from_level=low) for each in (remote, local))
        assert got.dtype == wanted.dtype and got.shape == wanted.shape and got.tobytes() == wanted.tobytes()
        assert np.array_equal(remote.read(name, box), window(case.arrays[name], case.box, box))
    assert np.array_equal(remote["velocity"][0, ..., ::2, 1], case.arrays["velocity"][..., ::2, 1])


def test_refusals_are_classes_with_the_servers_word(case: Case, remote: idxtool.Dataset) -> None:
    (low, high), *others = case.box
    for kind, line, ask in (
            (errors.NotPublished, "404 NotPublished", lambda: remote.read("uint8", time=7)),
            (errors.MissingTimestep, "404 NotPublished", lambda: remote.read("uint8", time=77)),
            (errors.OutsideVolume, "400 OutsideVolume", lambda: remote.read("uint8", ((low, high + 1), *others))),
            (errors.BadLevels, "400 BadLevels", lambda: remote.read("uint8", level=99)),
            (errors.BadBox, "400 BadBox", lambda: remote.read("uint8", ((low, high),)))):
        with pytest.raises(kind) as refused:
            ask()
        assert isinstance(refused.value, idxtool.ServerError) and refused.value.line == line
    assert np.array_equal(remote.read("uint8"), case.arrays["uint8"]), "the connection is as good as before"


def test_a_connection_that_was_closed_is_opened_again(case: Case, remote: idxtool.Dataset) -> None:
    for _ in range(2):
        assert np.array_equal(remote.read("int64"), case.arrays["int64"])
        remote._source._own().connection.sock.shutdown(2)


def test_all_questions_go_over_one_connection(case: Case) -> None:
    words = [idxtool.program(), "serve", case.path, "127.0.0.1:0", "--links", "1"]
    server = subprocess.Popen(words, stdout=subprocess.PIPE, stderr=subprocess.PIPE)
    try:
        port = int(server.stderr.readline().split(b",")[0].rsplit(b":", 1)[1])
        with idxtool.open(f"http://127.0.0.1:{port}", header=case.path) as dataset:
            for level in range(5):
                dataset.read("uint8", level=level, time=0)
        assert server.communicate(timeout=20)[0] == b"links 1 replies 5\n"
    finally:
        server.kill()
        server.communicate()


def test_a_copy_in_another_process_has_its_own_connection(case: Case) -> None:
    with idxtool.serve(case.path, workers=2) as server, idxtool.open(server.url, header=case.path) as dataset:
        with pickle.loads(pickle.dumps(dataset)) as copy:
            assert np.array_equal(copy.read("int8"), dataset.read("int8"))


class Front(http.server.SimpleHTTPRequestHandler):
    """A server of files that passes `/mod_visus` on, as nginx does."""
    behind = ""

    def do_GET(self) -> None:
        if not self.path.startswith("/mod_visus?"):
            return super().do_GET()
        with urllib.request.urlopen(self.behind + self.path) as reply:
            body = reply.read()
        self.send_response(200)
        self.send_header("Content-Length", str(len(body)))
        self.end_headers()
        self.wfile.write(body)

    def log_message(self, *_: object) -> None:
        """Nothing is written."""


@contextmanager
def front(case: Case) -> Iterator[str]:
    """The URL of a server of files beside the dataset."""
    with idxtool.serve(case.path) as server:
        handler = type("Handler", (Front,), {"behind": server.url})
        with http.server.ThreadingHTTPServer(("127.0.0.1", 0), partial(handler, directory=case.path.parent)) as files:
            threading.Thread(target=files.serve_forever, daemon=True).start()
            yield f"http://127.0.0.1:{files.server_address[1]}"
            files.shutdown()


def test_a_url_of_a_header_is_a_dataset(case: Case) -> None:
    with front(case) as url, idxtool.open(f"{url}/{case.path.name}") as dataset:
        assert dataset.box == case.box and np.array_equal(dataset.read("float32"), case.arrays["float32"])
        with idxtool.open(url, header=f"{url}/{case.path.name}") as same:
            assert np.array_equal(same.read("uint16"), case.arrays["uint16"])


def test_a_server_that_cannot_start_says_why(case: Case) -> None:
    with pytest.raises(errors.AddressError) as refused:
        idxtool.serve(case.path, "nowhere")
    assert (refused.value.status, refused.value.line) == (12, "idxtool: door fault")


def differing(case: Case, dataset: idxtool.Dataset, seed: int, count: int) -> int:
    """How many of some random boxes are read with other samples than were written."""
    random, different = Random(seed), 0
    for _ in range(count):
        name, box = random.choice(list(case.arrays)), random_box(random, case.box)
        different += not np.array_equal(dataset.read(name, box, time=0), window(case.arrays[name], case.box, box))
    return different


def test_forked_processes_have_connections_of_their_own(case: Case) -> None:
    with idxtool.serve(case.path, workers=8) as server, idxtool.open(server.url, header=case.path) as dataset:
        assert differing(case, dataset, 0, 5) == 0
        before = dataset._source._own().connection.sock
        with multiprocessing.get_context("fork").Pool(3) as pool:
            found = pool.starmap_async(partial(differing, case, dataset), [(seed, 50) for seed in range(1, 4)])
            assert differing(case, dataset, 4, 50) == 0
            assert found.get(timeout=100) == [0, 0, 0]
        assert dataset._source._own().connection.sock is before, "the parent's connection is as it was"


def test_a_lock_that_another_thread_had_at_the_fork_is_not_waited_for(case: Case) -> None:
    with idxtool.serve(case.path, workers=4) as server, idxtool.open(server.url, header=case.path) as dataset:
        dataset.read("int8", time=0)
        with dataset._source._own().lock:
            child = os.fork()
            if child == 0:
                os._exit(differing(case, dataset, 5, 3))
            ended = threading.Timer(20, os.kill, (child, 9))
            ended.start()
            status = os.waitpid(child, 0)[1]
            ended.cancel()
        assert status == 0


def test_samples_of_another_type_are_told(case: Case, tmp_path: object) -> None:
    other = tmp_path / case.path.name
    other.write_text(case.path.read_text().replace("float32[3]", "int32[3]"))
    with idxtool.serve(case.path) as server, idxtool.open(server.url, header=other) as dataset:
        with pytest.raises(errors.OtherTypeError, match=r"velocity are float32\[3\], and the header says int32\[3\]"):
            dataset.read("velocity", time=0)
        assert np.array_equal(dataset.read("pair", time=0), case.arrays["pair"])


class Posts(http.server.BaseHTTPRequestHandler):
    """A server whose samples are the number of the post that each of its replies is taken from."""
    protocol_version = "HTTP/1.1"
    posts: "list[int]" = []

    def do_GET(self) -> None:
        box = [int(word) for word in self.path.split("box=")[1].split("&")[0].split("+")]
        low, high = (int(self.path.split(key)[1].split("&")[0]) for key in ("fromh=", "toh="))
        count = self.server.count(tuple(zip(box[::2], box[1::2])), low, high)  # type: ignore[attr-defined]
        post = self.posts.pop(0) if len(self.posts) > 1 else self.posts[0]
        self.send_response(200)
        self.send_header("Content-Length", str(count))
        self.send_header("visus-dtype", "uint8")
        self.send_header("visus-post", str(post))
        self.end_headers()
        self.wfile.write(bytes([post]) * count)

    def log_message(self, *_: object) -> None:
        """Nothing is written."""


@contextmanager
def posting(tmp_path: object, posts: "list[int]") -> Iterator[idxtool.Dataset]:
    """A dataset of 8 by 8 samples at a server whose replies are taken from these posts, the last one from then on."""
    path = tmp_path / "n.idx"
    idxtool.write(path, np.zeros((8, 8), np.uint8))
    handler = type("Handler", (Posts,), {"posts": list(posts)})
    with http.server.ThreadingHTTPServer(("127.0.0.1", 0), handler) as server:
        dataset = idxtool.open(f"http://127.0.0.1:{server.server_address[1]}", header=path)
        server.count = dataset._count
        server.daemon_threads = True
        threading.Thread(target=server.serve_forever, daemon=True).start()
        with dataset:
            yield dataset
        server.shutdown()


def test_what_a_server_answers_is_of_one_post(tmp_path: object, monkeypatch: pytest.MonkeyPatch) -> None:
    monkeypatch.setattr(idxtool.dataset, "LARGEST_ANSWER", 16)
    for posts, wanted in (([3], 3), ([0, 0, 1], 1), ([0, 1, 1, 1, 1, 1], 1), ([7, 7, 7, 9], 9)):
        with posting(tmp_path, posts) as dataset:
            assert np.array_equal(dataset.read(time=0), np.full((8, 8), wanted)), posts
    with posting(tmp_path, [0, 0, 1, 2, 3]) as dataset, pytest.raises(idxtool.ChangedError):
        dataset.read(time=0)
    monkeypatch.setattr(idxtool.dataset, "LARGEST_ANSWER", 2 ** 28)
    with posting(tmp_path, [4, 4, 5]) as dataset:
        assert [set(np.unique(each)) for each in dataset.refine(time=0)] == [{4}] * 2 + [{5}] * 5
