# Completion of riemann(1) for bash. A command that is added needs its word in `commands`, and a line in the `case`
# where it takes more than a file.

_riemann() {
    local commands="feed check replay serve record resume load graphite test send query --help --version"
    local word=${COMP_WORDS[COMP_CWORD]} command=${COMP_WORDS[1]:-}
    COMPREPLY=()
    if [ "$COMP_CWORD" -eq 1 ]; then
        mapfile -t COMPREPLY < <(compgen -W "$commands" -- "$word")
        return
    fi
    case "$command $COMP_CWORD" in
    "serve 3") mapfile -t COMPREPLY < <(compgen -W "--turns" -- "$word") ;;
    "send 4" | "query 4") mapfile -t COMPREPLY < <(compgen -W "--turns" -- "$word") ;;
    "graphite 3") mapfile -t COMPREPLY < <(compgen -W "--host" -- "$word") ;;
    "feed 2" | "feed 3" | "replay 2" | "replay 3" | "check 2" | "serve 2" | "record 2" | "record 3" | "resume 2" | "load 2" | "graphite 2" | "test 2" | "test 3" | "send 3")
        compopt -o filenames 2>/dev/null
        mapfile -t COMPREPLY < <(compgen -f -- "$word")
        ;;
    esac
}

complete -F _riemann riemann
