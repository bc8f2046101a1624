#!/usr/bin/env python3
"""Holds that each wrong body can be put in the place of the right one: those that the merge check tries, and those of `check/wrong`.

    check/edits.py

A wrong body is a file of lines: `file: PATH`, a file of its crate, then pairs of `old: TEXT` and `new: TEXT`, where one TEXT takes the
place of the other. What is old has to stand exactly once in what the pairs before have left of the file, and each file has to be
another one in the end: a wrong body that does not fit any more shows nothing. Nothing is proved or built. The last line is
`N passed, M failed`.
"""
import sys
from pathlib import Path

from results import Results

TOP = Path(__file__).resolve().parent.parent
CRATES = TOP / "crates"


def wrong_bodies():
    """Each wrong body with the folder of its crate."""
    for edit in sorted(CRATES.glob("*/must-fail/*.edit")):
        yield edit, edit.parent.parent
    for edit in sorted((TOP / "check" / "wrong").glob("*/*.edit")):
        yield edit, CRATES / edit.parent.name


def why_unfit(edit, crate):
    """Why a wrong body does not fit its crate, or nothing."""
    texts, path, old = {}, None, None
    for line in edit.read_text().split("\n"):
        kind, _, text = line.partition(": ") if ": " in line else (line.removesuffix(":"), "", "")
        if kind == "file":
            path = crate / text.strip()
            if not path.is_file():
                return f"{text} is no file of {crate.name}"
            texts.setdefault(path, path.read_text())
        elif kind == "old":
            old = text
        elif kind == "new":
            if path is None or not old:
                return "a new text stands before a file and an old text"
            if texts[path].count(old) != 1:
                return f"{texts[path].count(old)} times in {path.relative_to(crate)}: {old.strip()}"
            texts[path], old = texts[path].replace(old, text), None
        elif line.strip():
            return f"a line is neither file, old nor new: {line}"
    if not texts or old is not None:
        return "it has no pair of an old and a new text"
    same = [path for path, text in texts.items() if text == path.read_text()]
    return f"{same[0].relative_to(crate)} stays as it is" if same else None


def main():
    results = Results()
    for edit, crate in wrong_bodies():
        why = why_unfit(edit, crate)
        results.hold(f"{edit.relative_to(TOP)}: {why}", why is None)
    results.hold("wrong bodies are there", len(results.found) > 100)
    return results.status()


if __name__ == "__main__":
    sys.exit(main())
