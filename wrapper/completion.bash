# Completion of apsp in bash.
_apsp() {
    local word=${COMP_WORDS[COMP_CWORD]} before=${COMP_WORDS[COMP_CWORD - 1]} mode=${COMP_WORDS[1]-} words="" files=no
    case $COMP_CWORD-$mode-$before in
    1-*) words="run live check load explain convert help -h --help -V --version" ;;
    *-convert---scale | *---workers | *---readers | *---slots) return ;;
    2-convert-*) words="dimacs csv graphml" ;;
    2-explain-* | 3-convert-* | 2-check-*) files=yes ;;
    3-explain-*) words="run live" ;;
    *-explain-*) mode=${COMP_WORDS[3]} ;;
    2-run-* | 2-live-*) files=yes ;;
    esac
    if [ -z "$words" ]; then
        case $mode in
        run) words="--workers --smooth" ;;
        live) words="--workers --readers --slots --smooth" ;;
        load) [ "$COMP_CWORD" -lt 4 ] || words="--workers" ;;
        convert) [ "$COMP_CWORD" -lt 4 ] || words="--scale" ;;
        esac
    fi
    mapfile -t COMPREPLY < <(compgen -W "$words" -- "$word")
    if [ $files = yes ] && [[ $word != -* ]]; then
        compopt -o filenames 2>/dev/null
        mapfile -t -O "${#COMPREPLY[@]}" COMPREPLY < <(compgen -f -- "$word")
    fi
}
complete -F _apsp apsp ./apsp
