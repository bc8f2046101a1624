"""How the programs of this folder begin and end: the words that they take, and how much of what they looked at was right."""
from __future__ import annotations

import argparse
import shutil
import subprocess
from collections.abc import Sequence


def words_of(text: str | None) -> argparse.ArgumentParser:
    """A parser of the words of a program, with its text as the help. The first word is the program that is looked at."""
    parser = argparse.ArgumentParser(description=text, formatter_class=argparse.RawDescriptionHelpFormatter)
    parser.add_argument("program")
    return parser


def why_no_strace() -> str | None:
    """Why no program can be run under strace; none where one can."""
    if shutil.which("strace") is None:
        return "no strace here (Debian's package strace)"
    tried = subprocess.run(["strace", "-f", "-qq", "-o", "/dev/null", "true"], capture_output=True, check=False)
    return None if tried.returncode == 0 else "strace may not follow a program here"


def status_of(results: Sequence[bool]) -> int:
    """Prints how many results are right and how many are not, and gives the exit status: 1 where any is not."""
    right = sum(results)
    print(f"{right} passed, {len(results) - right} failed")
    return 0 if right == len(results) else 1


class Results:
    """What was looked at one by one. What is wrong is printed."""

    def __init__(self) -> None:
        self.found: list[bool] = []

    def hold(self, what: str, is_right: bool) -> None:
        """Notes one result under its name."""
        self.found.append(is_right)
        if not is_right:
            print(f"{what}: wrong")

    def status(self) -> int:
        """Prints the last line, and gives the exit status."""
        return status_of(self.found)
