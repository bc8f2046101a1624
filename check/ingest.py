#!/usr/bin/env python3
"""Serves a dataset while a step of it is gathered and published, and looks at the replies and at the files.

    check/ingest.py PROGRAM [--side 256] [--workers 4]

The dataset has one step of SIDE^3 samples of four bytes. While it is served a second step is gathered, and the first one is
gathered again. A client asks for one point all the while: for a step that is not there yet it gets 404, and from some reply on 200
with exactly its sample, out of the next post; for the first step it gets its first sample, and from some reply on exactly the new
one. With 64 MiB to gather the first reply comes well before the post on any machine, and it has to: else no question would have
been asked meanwhile. All samples of the new post are asked for then. The files that are there in the end are held against those of
`convert`, byte for byte, and those of the first post against what they were. What is refused before a link is looked at too. The
last line is `N passed, M failed`.
"""
import array
import http.client
import subprocess
import sys
import tempfile
import time
from pathlib import Path

from results import Results, words_of

SECONDS = 120
PAUSE = 0.002
"""So many seconds stand between two questions, so that a link has room for those of all the time."""


def samples(side, first):
    """The bytes of a raw volume whose samples are counted on from one."""
    return array.array("I", range(first, first + side ** 3)).tobytes()


def texts(side, step):
    """The words of a conversion into sixteen files, behind its paths."""
    digits = (side - 1).bit_length()
    box = " ".join([f"0 {side - 1}"] * 3)
    return [box, "n uint32", "V" + "012" * digits, str(3 * digits - 8), "16", "./%02x.bin", "0 9 time%04d/", str(step)]


class Server:
    """A server that gathers a step meanwhile."""

    def __init__(self, program, dataset, workers, links, step, raw):
        self.words = [program, "serve", str(dataset), "127.0.0.1:0", "--workers", str(workers), "--links", str(links),
                      "--ingest", str(step), "--raw", str(raw)]

    def __enter__(self):
        self.process = subprocess.Popen(self.words, stdout=subprocess.PIPE, stderr=subprocess.PIPE)
        line = self.process.stderr.readline().decode()
        self.port = int(line.split(",")[0].rsplit(":", 1)[1])
        return self

    def __exit__(self, *_):
        self.process.kill()
        self.process.communicate()


def reply_to(link, box, step):
    """The status, the post and the body of the reply to a question."""
    link.request("GET", f"/mod_visus?action=boxquery&dataset=n&box={box}&time={step}")
    reply = link.getresponse()
    return reply.status, int(reply.getheader("visus-post", "-1")), reply.read()


def replies_until(server, side, step, post):
    """The replies to the same question for the last point over one link, up to the first one of this post; then that for all."""
    link = http.client.HTTPConnection("127.0.0.1", server.port, timeout=SECONDS)
    point, all_points = ("+".join([bounds] * 3) for bounds in (f"{side - 1}+{side - 1}", f"0+{side - 1}"))
    found = []
    end = time.monotonic() + SECONDS
    while time.monotonic() < end:
        found.append(reply_to(link, point, step))
        if found[-1][1] == post:
            break
        time.sleep(PAUSE)
    whole = reply_to(link, all_points, step)
    link.close()
    return found, whole


def files_of(folder):
    """The files of a step, with their bytes."""
    return {path.name: path.read_bytes() for path in sorted(folder.iterdir())}


def main():
    parser = words_of(__doc__)
    parser.add_argument("--side", type=int, default=256, help="a power of two from 32")
    parser.add_argument("--workers", type=int, default=4)
    given = parser.parse_args()
    side, results = given.side, Results()
    hold = results.hold

    def run(*words):
        return subprocess.run([given.program, *map(str, words)], capture_output=True, timeout=SECONDS)

    with tempfile.TemporaryDirectory() as folder:
        top = Path(folder)
        dataset, first, second, other = top / "n.idx", top / "1.raw", top / "2.raw", top / "other" / "n.idx"
        first.write_bytes(samples(side, 0))
        second.write_bytes(samples(side, 10_000_000))
        hold("a conversion", run("convert", dataset, first, *texts(side, 0)).returncode == 0)
        hold("another one", run("convert", other, second, *texts(side, 7)).returncode == 0)
        hold("one of the same step", run("convert", other, second, *texts(side, 0)).returncode == 0)
        stood = files_of(top / "time0000")
        old, new = (path.read_bytes() for path in (first, second))
        for step, early in ((7, (404, -1, b"NotPublished\n")), (0, (200, 0, old[-4:]))):
            with Server(given.program, dataset, given.workers, 1, step, second) as server:
                posts = 1 if step == 7 else 2
                found, whole = replies_until(server, side, step, posts)
                output, _ = server.process.communicate(timeout=SECONDS)
            hold(f"step {step} is published", found[-1] == (200, posts, new[-4:]))
            hold(f"a question for step {step} before", len(found) > 1)
            hold(f"nothing else of step {step} before", all(reply == early for reply in found[:-1]))
            hold(f"all samples of step {step}", whole == (200, posts, new))
            hold(f"the line of step {step}", output == b"links 1 replies %d\n" % (len(found) + 1))
            hold(f"status 0 for step {step}", server.process.returncode == 0)
        for mine, wanted in (("time0007", "time0007"), ("time0000.r1", "time0000")):
            hold(f"the files of {mine}", files_of(top / mine) == files_of(top / "other" / wanted))
        hold("the files of time0000 stay", files_of(top / "time0000") == stood)
        short = top / "short.raw"
        short.write_bytes(b"\0")
        for words, status, line in (
                (["--ingest", "10", "--raw", first], 8, b"no step 10"),
                (["--ingest", "1", "--raw", short], 3, b"raw size want %d found 1" % (4 * side ** 3)),
                (["--ingest", "1", "--raw", top / "none.raw"], 4, b"raw fault"),
                (["--ingest", "1"], 1, b"usage at 5")):
            ended = run("serve", dataset, "127.0.0.1:0", *words)
            hold(line.decode(), ended.returncode == status and ended.stderr.split(b"\n")[0] == b"idxtool: " + line)
        hold("no step is begun by these", not (top / "time0001").exists())
    return results.status()


if __name__ == "__main__":
    sys.exit(main())
