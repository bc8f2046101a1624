#!/usr/bin/env bash
# Writes datasets with numpy arrays, reads them by the program and from servers on this machine, and compares with numpy, by
# the tests; then makes a picture and looks at what it is. There have to be as many tests as are known here: one that is lost counts
# as a failure. The last line is `N passed, N failed`.
#
#     IDXTOOL=../crates/idxtool/out/idxtool python/try.sh [PICTURE.png]
#
# PYTHON is the Python that has numpy and pytest (else /usr/bin/python3, Debian's).
here=$(cd "$(dirname "$0")" && pwd) || exit 1
python=${PYTHON:-/usr/bin/python3}
export IDXTOOL=${IDXTOOL:-idxtool}
case $IDXTOOL in */*) IDXTOOL=$(realpath "$IDXTOOL") || exit 1 ;; esac
picture=${1:+$(realpath -m "$1")}
scratch=$(mktemp -d) || exit 1
trap 'rm -rf "$scratch"' EXIT
cd "$here" || exit 1
export PYTHONPATH=src PYTHONDONTWRITEBYTECODE=1
timeout 900 "$python" -m pytest -q --basetemp "$scratch/tests" --junitxml "$scratch/tests.xml" || true
timeout 120 "$python" examples/slice.py "$scratch/slice.png" || true
"$python" - "$scratch" <<'END'
import importlib.util
import struct
import sys
import xml.etree.ElementTree as tree
from pathlib import Path

LEAST, OF_OTHERS = 173, {"dask": 10, "xarray": 2}
"""How many tests there are, and how many of them are skipped where a package is not installed."""
scratch, failed = Path(sys.argv[1]), 0
try:
    suite = tree.parse(scratch / "tests.xml").getroot().find("testsuite")
    count = {key: int(suite.get(key)) for key in ("tests", "failures", "errors", "skipped")}
except (OSError, AttributeError, tree.ParseError):
    count = {"tests": 1, "failures": 1, "errors": 0, "skipped": 0}
failed = count["failures"] + count["errors"]
passed = count["tests"] - failed - count["skipped"]
skipped = max((lost for package, lost in OF_OTHERS.items() if importlib.util.find_spec(package) is None), default=0)
if passed + failed < LEAST - skipped:
    print(passed + failed, "tests were run, and at least", LEAST - skipped, "are wanted")
    failed += 1
if count["skipped"]:
    print(count["skipped"], "tests skipped: dask or xarray is not installed")
try:
    picture = (scratch / "slice.png").read_bytes()
    is_right = picture[:8] == b"\x89PNG\r\n\x1a\n" and struct.unpack(">2I", picture[16:24]) == (960, 272)
except OSError:
    is_right = False
passed, failed = passed + is_right, failed + (not is_right)
print(f"{passed} passed, {failed} failed")
sys.exit(1 if failed else 0)
END
status=$?
if [ "$status" -eq 0 ] && [ -n "$picture" ]; then cp "$scratch/slice.png" "$picture"; fi
exit "$status"
