#!/bin/sh
# Installs idxtool below PREFIX: the program, its manual page, its completion for bash, the viewer for browsers, the systemd
# units, the script that follows a running simulation, and an nginx site to copy. `install.sh --remove PREFIX` takes these files away again. DESTDIR, if it is set, goes
# before every path.
#
#     deploy/install.sh /usr/local
#
# The program is crates/idxtool/out/idxtool, or what the environment variable IDXTOOL says.
set -eu
here=$(cd "$(dirname "$0")" && pwd)
remove=
if [ "${1-}" = --remove ]; then remove=yes; shift; fi
if [ $# -ne 1 ]; then echo "usage: install.sh [--remove] PREFIX" >&2; exit 1; fi
case $1 in /*) prefix=${1%/} ;; *) echo "install.sh: PREFIX has to begin with a /" >&2; exit 1 ;; esac
top=${DESTDIR-}$prefix
program=${IDXTOOL:-$here/../crates/idxtool/out/idxtool}
units=lib/systemd/system

if [ -n "$remove" ]; then
    rm -f "$top/bin/idxtool" "$top/share/man/man1/idxtool.1" "$top/share/bash-completion/completions/idxtool" \
        "$top/$units/idxtool@.service" "$top/$units/idxtool-follow@.service" "$top/$units/idxtool-follow@.timer" \
        "$top/lib/idxtool/follow.py" "$top/share/doc/idxtool/nginx-idx.conf" "$top/share/doc/idxtool/nginx-upstream.conf" \
        "$top/share/idxtool/index.html"
    exit 0
fi
if ! [ -x "$program" ]; then
    echo "install.sh: there is no program at $program; build it, or set IDXTOOL to its path" >&2
    exit 1
fi
install -D -m 755 "$program" "$top/bin/idxtool"
install -D -m 644 "$here/idxtool.1" "$top/share/man/man1/idxtool.1"
install -D -m 644 "$here/idxtool.bash" "$top/share/bash-completion/completions/idxtool"
install -D -m 755 "$here/follow.py" "$top/lib/idxtool/follow.py"
install -D -m 644 "$here/nginx-idx.conf" "$top/share/doc/idxtool/nginx-idx.conf"
install -D -m 644 "$here/nginx-upstream.conf" "$top/share/doc/idxtool/nginx-upstream.conf"
install -D -m 644 "$here/../web/index.html" "$top/share/idxtool/index.html"
for unit in idxtool@.service idxtool-follow@.service idxtool-follow@.timer; do
    install -D -m 644 "$here/$unit" "$top/$units/$unit"
    sed -i "s|@PREFIX@|$prefix|" "$top/$units/$unit"
done
