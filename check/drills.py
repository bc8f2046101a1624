#!/usr/bin/env python3
"""Holds the lines of large drills against the model of `drill.py`.

    check/drills.py PROGRAM [NUMBER..]

Each NUMBER is that of a drill, 1 to 8; 7 and 8 where none is given. The model goes through all points: some seconds for 7, a quarter of a minute
for 8. The last line is `N passed, M failed`.
"""
import subprocess
import sys

from drill import drill_text
from results import Results, words_of


def main():
    parser = words_of(__doc__)
    parser.add_argument("numbers", nargs="*", type=int, default=[7, 8])
    words = parser.parse_args()
    results = Results()
    for number in words.numbers:
        run = subprocess.run([words.program, "drill", str(number)], capture_output=True, timeout=300)
        results.hold(f"the status of drill {number}", run.returncode == 0 and not run.stderr)
        results.hold(f"the lines of drill {number}", run.stdout == drill_text(number))
    return results.status()


if __name__ == "__main__":
    sys.exit(main())
