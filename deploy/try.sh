#!/usr/bin/env bash
# Installs into a scratch folder, makes the Debian package, writes eight timesteps side by side, and serves them by three
# processes behind nginx on this machine, of which one is killed under load; then follow.py has servers behind nginx follow what is
# written. The last line is `N passed, N failed`.
#
#     IDXTOOL=../crates/idxtool/out/idxtool deploy/try.sh
here=$(cd "$(dirname "$0")" && pwd) || exit 1
exec timeout 900 python3 -B "$here/trial.py"
