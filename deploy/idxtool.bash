# Completion of idxtool's words for bash: commands, options and their values, files, and the fields of a dataset.

# The words that can stand at the place $COMP_CWORD behind the last fixed one: options that were not given yet.
_idxtool_options() {
    local word given=" ${COMP_WORDS[*]:0:COMP_CWORD} "
    for word in "$@"; do
        case $given in *" $word "*) ;; *) printf '%s\n' "$word" ;; esac
    done
}

_idxtool() {
    local word=${COMP_WORDS[COMP_CWORD]} before=${COMP_WORDS[COMP_CWORD - 1]} command=${COMP_WORDS[1]} place=$COMP_CWORD
    local words='' files='' raws=''
    COMPREPLY=()
    if ((place == 1)); then
        mapfile -t COMPREPLY < <(compgen -W 'convert query check serve info cut drill --help --version' -- "$word")
        return
    fi
    case $before in
        --raw) files=yes ;;
        --ranks | --workers) words='1 2 4 8 16' ;;
        --cache) words='64 1024 65536' ;;
        --layout) words='rows hz' ;;
        --links | --ingest) return ;;
        *) case $command:$place in
            convert:2 | query:2 | check:2 | serve:2 | info:2) files=yes ;;
            convert:3 | cut:2) files=yes raws=yes ;;
            convert:6) words=auto ;;
            query:4) words=$("${COMP_WORDS[0]}" info "${COMP_WORDS[2]}" 2>&1 | sed -n 's/^field \([^ ]*\) .*/\1/p') ;;
            serve:3) words='127.0.0.1:8080 [::1]:8080' ;;
            drill:2) words='1 2 3 4 5 6 7 8' ;;
            convert:*) ((place < 12)) || words=$(_idxtool_options --ranks --layout) ;;
            query:*) ((place < 8)) || words=$(_idxtool_options --cache) ;;
            serve:*) words=$(_idxtool_options --cache --workers --links --ingest --raw) ;;
        esac ;;
    esac
    if [[ $files ]]; then
        compopt -o filenames 2> /dev/null
        if [[ $raws || $before == --raw ]]; then
            mapfile -t COMPREPLY < <(compgen -f -- "$word")
        else
            mapfile -t COMPREPLY < <(compgen -d -- "$word"; compgen -f -X '!*.idx' -- "$word")
        fi
    else
        mapfile -t COMPREPLY < <(compgen -W "$words" -- "$word")
    fi
}

complete -F _idxtool idxtool
