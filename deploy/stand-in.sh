#!/bin/bash
# Takes the place of systemctl where systemd does not run: starts, ends and looks at servers `idxtool@NAME.service` by the command
# line and the settings that the unit has. The trial gives it to follow.py; it starts no server again. Its files are in STAND_IN.
#
#     SYSTEMCTL=deploy/stand-in.sh STAND_IN=/tmp/servers RUN=/tmp/run IDXTOOL=.. deploy/follow.py run
set -u
here=$(cd "$(dirname "$0")" && pwd)

# Whether a server runs.
is_active() {
    local pid state
    pid=$(cat "$STAND_IN/$1.pid" 2> /dev/null) || return 1
    state=$(sed 's/.*) //; s/ .*//' "/proc/$pid/stat" 2> /dev/null)
    [[ $state && $state != Z ]]
}

start() {
    local name=${1#idxtool@} line words word DATASET ADDRESS OPTIONS
    name=${name%.service}
    is_active "$1" && return
    # shellcheck disable=SC1090,SC2153 # DATASET, ADDRESS and OPTIONS
    source <(sed -E "s/^([A-Z]+)=(.*)/\1='\2'/" "$RUN/$name.env") || return 1
    line=$(sed -n 's|^ExecStart=@PREFIX@/bin/idxtool ||p' "$here/idxtool@.service")
    words=()
    for word in $line; do
        # shellcheck disable=SC2016,SC2206 # the words as the unit has them; each option is a word, as it is for systemd
        case $word in
            '${DATASET}') words+=("$DATASET") ;;
            '${ADDRESS}') words+=("$ADDRESS") ;;
            '$OPTIONS') words+=($OPTIONS) ;;
            *) words+=("$word") ;;
        esac
    done
    MALLOC_ARENA_MAX=1 setsid "$IDXTOOL" "${words[@]}" < /dev/null > /dev/null 2> "$STAND_IN/$1.log" &
    echo $! > "$STAND_IN/$1.pid"
}

stop() {
    is_active "$1" && kill "$(cat "$STAND_IN/$1.pid")"
    while is_active "$1"; do sleep 0.01; done
    rm -f "$STAND_IN/$1.pid" "$STAND_IN/$1.log"
}

command=$1
shift
for unit in "$@"; do
    case $command:$unit in
        *:-*) ;;
        start:*) start "$unit" || exit 1 ;;
        stop:*) stop "$unit" ;;
        is-active:*) if is_active "$unit"; then echo active; else echo failed; fi ;;
        status:*) cat "$STAND_IN/$unit.log" ;;
        reset-failed:*) ;;
        *) echo "stand-in.sh: $command is not known" >&2; exit 1 ;;
    esac
done
