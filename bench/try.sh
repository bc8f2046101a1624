#!/usr/bin/env bash
# Runs the measurement once over small volumes: the bytes of all programs are compared, the times mean nothing. The last line is
# `N passed, N failed`.
#
#     IDXTOOL=../crates/idxtool/out/idxtool bench/try.sh
here=$(cd "$(dirname "$0")" && pwd) || exit 1
exec timeout 900 python3 -B "$here/bench.py" --size small --rounds 1
