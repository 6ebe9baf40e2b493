# Completion of gos and its tools for bash: commands, files by their kind, and the options that a tool's --help names.

# Adds the files whose names end so, and folders.
_gos_files() {
    local ending
    mapfile -t -O "${#COMPREPLY[@]}" COMPREPLY < <(compgen -d -S / -- "$word")
    for ending in "$@"; do
        mapfile -t -O "${#COMPREPLY[@]}" COMPREPLY < <(compgen -f -X "!*$ending" -- "$word")
    done
    compopt -o nospace -o filenames 2>/dev/null
}

_gos() {
    local word=${COMP_WORDS[COMP_CWORD]} command=${COMP_WORDS[1]:-}
    COMPREPLY=()
    if [ "$COMP_CWORD" -eq 1 ]; then
        mapfile -t COMPREPLY < <(compgen -W "check compile link sim build demo tidy gates explain verify verilog netlist help --help --version" -- "$word")
        return
    fi
    case "$COMP_CWORD $command" in
    "2 help") mapfile -t COMPREPLY < <(compgen -W "check compile link sim build demo tidy gates explain verify verilog netlist" -- "$word") ;;
    "2 check" | "2 compile") _gos_files .gos ;;
    "3 compile") _gos_files .obj ;;
    "2 link" | "2 build" | "2 explain" | "2 verify") _gos_files .txt ;;
    "2 sim" | "2 tidy" | "2 gates" | "2 verilog" | "3 tidy" | "3 netlist") _gos_files .net ;;
    "2 netlist" | "3 verilog") _gos_files .v ;;
    "3 sim") _gos_files .pls ;;
    "4 sim") _gos_files .trc ;;
    "3 gates") _gos_files .aag ;;
    "3 explain" | "3 verify") _gos_files .mov ;;
    "2 demo") mapfile -t COMPREPLY < <(compgen -W "1 2 3 4 5 6 7 8 9 10 11 12" -- "$word") ;;
    esac
}

_gos_tool() {
    local word=${COMP_WORDS[COMP_CWORD]}
    COMPREPLY=()
    case "$word" in
    -*) mapfile -t COMPREPLY < <(compgen -W "--help $("$1" --help 2>/dev/null | grep -oE -- '--[a-z][a-z-]*' | sort -u)" -- "$word") ;;
    *) _gos_files "" ;;
    esac
}

complete -F _gos gos
# (all tools that are in the path)
complete -F _gos_tool $(compgen -c gos- | sort -u)
