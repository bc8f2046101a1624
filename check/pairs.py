#!/usr/bin/env python3
"""Starts pairs of `convert` at the same time over real folders, and looks at what stands afterwards.

    check/pairs.py PROGRAM [--pairs 200] [--kind "other steps, no header yet"]

Each pair writes into a folder of its own. Some write the same step out of two volumes, some write other steps under one
header that stands, is empty or is not there yet, and some the same step under other headers. However a pair went: each
revision that stands is whole and of one run, a run that ends with 0 has left its files, as a revision of its own, and its
header, and the other says why. Runs of other steps under one header both end with 0, and runs under other headers never
do. The last line is `N passed, M failed`.
"""
import os
import subprocess
import sys
import tempfile
from pathlib import Path

from results import status_of, words_of

SIDE = 64
BOX = f"0 {SIDE - 1} 0 {SIDE - 1} 0 {SIDE - 1}"
MASK = "V" + "012" * 6
FIELD = "a uint8"
TIMES = "0 99 time%04d/"
KINDS = ["same step", "same step, no header yet", "other steps", "other steps, no header yet", "other steps, empty header",
         "other headers"]
WHY = ("another run is writing this step", "something stands there already")
OTHER_HEADER = 6
STORE_FAULT = 5


def words(program, dataset, raw, time, blocks_per_file=2):
    """The words of a run."""
    return [program, "convert", str(dataset), str(raw), BOX, FIELD, MASK, "12", str(blocks_per_file), "./%02x.bin", TIMES, str(time)]


def run_both(first, second):
    """Starts both, and gives for each its status and what it said."""
    runs = [subprocess.Popen(line, stdout=subprocess.PIPE, stderr=subprocess.PIPE) for line in (first, second)]
    ends = []
    for run in runs:
        out, err = run.communicate(timeout=60)
        ends.append((run.returncode, (out + err).decode(errors="replace")))
    return ends


def files_of(folder):
    """The files of a revision, by name; none where it does not stand."""
    if not folder.is_dir():
        return None
    return {str(file.relative_to(folder)): file.read_bytes() for file in sorted(folder.rglob("*")) if file.is_file()}


def revisions_of(top, time):
    """The files of the revisions of a step, one more than two runs can leave; none where one does not stand."""
    folders = [top / f"time{time:04}"] + [top / f"time{time:04}.r{revision}" for revision in (1, 2)]
    return [files_of(folder) for folder in folders]


class Wanted:
    """What runs alone leave: the header and the step's files of each volume."""

    def __init__(self, program, top, raws):
        self.header, self.files = {}, {}
        for name, raw in raws.items():
            for blocks_per_file in (2, 4):
                alone = top / f"alone-{name}-{blocks_per_file}"
                alone.mkdir()
                line = words(program, alone / "v.idx", raw, 0, blocks_per_file)
                done = subprocess.run(line, capture_output=True, timeout=60)
                if done.returncode != 0:
                    sys.exit(f"a run alone ends with {done.returncode}: {done.stderr.decode(errors='replace')}")
                self.header[blocks_per_file] = (alone / "v.idx").read_bytes()
                self.files[name, blocks_per_file] = files_of(alone / "time0000")


def refusal(status, said, kind):
    """What is wrong with the answer of a run that did not end with 0."""
    if status == OTHER_HEADER and kind == "other headers":
        return None
    if status == STORE_FAULT and any(why in said for why in WHY):
        return None
    return f"status {status} with {said!r}"


def left_overs(top):
    """Staged files and folders that both runs left behind, of which a run that was refused may leave none."""
    return sorted(str(path.relative_to(top)) for end in ("part", "lock") for path in top.rglob(f"*.{end}*"))


def check_pair(program, top, raws, wanted, kind):
    """Runs a pair, and gives what is wrong with it."""
    top.mkdir()
    dataset = top / "v.idx"
    times = (0, 1) if kind.startswith("other steps") else (0, 0)
    blocks = (2, 4) if kind == "other headers" else (2, 2)
    if kind in ("same step", "other steps"):
        dataset.write_bytes(wanted.header[2])
    if kind.endswith("empty header"):
        dataset.write_bytes(b"")
    names = ("a", "b")
    ends = run_both(*(words(program, dataset, raws[names[n]], times[n], blocks[n]) for n in (0, 1)))
    good = [n for n in (0, 1) if ends[n][0] == 0]
    wrong = [found for n in (0, 1) if n not in good for found in [refusal(*ends[n], kind)] if found]
    if kind.startswith("other steps") and len(good) != 2:
        wrong.append(f"other steps ended with {ends[0][0]} and {ends[1][0]}")
    if kind == "other headers" and len(good) == 2:
        wrong.append("both ended with 0")
    header = dataset.read_bytes() if dataset.exists() else b""
    if header not in (b"", wanted.header[2], wanted.header[4]):
        wrong.append("the header is of neither run")
    for n in good:
        if header != wanted.header[blocks[n]]:
            wrong.append(f"run {n} ended with 0, and its header does not stand")
        if wanted.files[names[n], blocks[n]] not in revisions_of(top, times[n]):
            wrong.append(f"run {n} ended with 0, and its files do not stand")
    for time in set(times):
        revisions = revisions_of(top, time)
        stands = [files for files in revisions if files is not None]
        whole = [wanted.files[names[n], blocks[n]] for n in (0, 1) if times[n] == time]
        if any(files not in whole for files in stands):
            wrong.append(f"a revision of step {time} is of neither run")
        if len(stands) == 2 and stands[0] == stands[1]:
            wrong.append(f"a run has left two revisions of step {time}")
        if stands != revisions[:len(stands)] or len(stands) < sum(times[n] == time for n in good):
            wrong.append(f"revisions of step {time} are missing")
    if len(good) == 2 and left_overs(top):
        wrong.append(f"left over: {left_overs(top)}")
    return ends, wrong


def main():
    parser = words_of(__doc__)
    parser.add_argument("--pairs", type=int, default=200)
    parser.add_argument("--kind", choices=KINDS)
    asked = parser.parse_args()
    program = os.path.abspath(asked.program)
    results = []
    count = {}
    with tempfile.TemporaryDirectory() as folder:
        top = Path(folder)
        raws = {name: top / f"{name}.raw" for name in ("a", "b")}
        for name, raw in raws.items():
            raw.write_bytes(bytes((at * 7 + (name == "b") * 3 + at // 251) % 251 for at in range(SIDE ** 3)))
        wanted = Wanted(program, top, raws)
        for number in range(asked.pairs):
            kind = asked.kind or KINDS[number % len(KINDS)]
            ends, wrong = check_pair(program, top / f"pair{number}", raws, wanted, kind)
            statuses = tuple(sorted(end[0] for end in ends))
            count[kind, statuses] = count.get((kind, statuses), 0) + 1
            results.append(not wrong)
            for text in wrong:
                print(f"pair {number}, {kind}: {text}")
    for (kind, statuses), times in sorted(count.items()):
        print(f"{kind}: {times} pairs ended with {statuses[0]} and {statuses[1]}")
    return status_of(results)


if __name__ == "__main__":
    sys.exit(main())
