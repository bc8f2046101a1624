#!/usr/bin/env python3
"""Tries the wrong bodies of `check/wrong`, which the merge check leaves out, on a copy of the repository.

    check/wrong_bodies.py [NAME..]

Each folder of `check/wrong` has the name of a crate, and in it edits as those of `crates/NAME/must-fail`, which the merge check tries:
`file: FILE`, then pairs of `old: LINE` and `new: LINE`. The prover has to refuse the crate with each of them. Those of named crates
are tried, with no name those of all. It runs `rt must-fail` on these crates, prints what that prints, and has its status: 0 where each
was refused. Libraries that `rt run`, `rt lib` or `rt check` has built here are not proved again; a crate is proved once for its edits,
and each of two or more takes up to a minute beside.
"""
import shutil
import subprocess
import sys
import tempfile
from pathlib import Path

TOP = Path(__file__).resolve().parent.parent
WRONG = TOP / "check" / "wrong"


def copy_to(target, names):
    """Copies what the toolchain reads of the repository, with the edits of these crates in their place, and no others."""
    shutil.copytree(TOP / "crates", target / "crates", ignore=shutil.ignore_patterns("incremental", "must-fail"))
    for name in ("crates.txt", "HANDLES"):
        shutil.copy2(TOP / name, target / name)
    for name in names:
        shutil.copytree(WRONG / name, target / "crates" / name / "must-fail")


def main():
    known = sorted(folder.name for folder in WRONG.iterdir())
    names = sys.argv[1:] or known
    unknown = [name for name in names if name not in known]
    if unknown:
        print(f"no wrong bodies of {unknown[0]} are in check/wrong; there are some of {', '.join(known)}", file=sys.stderr)
        return 2
    with tempfile.TemporaryDirectory(prefix="wrong-bodies-") as room:
        copy_to(Path(room), names)
        return subprocess.run(["rt", "must-fail", *names], cwd=room).returncode


if __name__ == "__main__":
    sys.exit(main())
