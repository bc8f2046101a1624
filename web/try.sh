#!/usr/bin/env bash
# Writes a dataset, serves it behind nginx on this machine, opens the viewer in a headless Chromium, and compares each pixel of
# its canvas with the reference's samples (check/reference.py). The last line is `N passed, N failed`.
#
#     IDXTOOL=../crates/idxtool/out/idxtool web/try.sh [FOLDER for the screenshots]
here=$(cd "$(dirname "$0")" && pwd) || exit 1
exec timeout 900 "${PYTHON:-/usr/bin/python3}" -B "$here/trial.py" "$@"
