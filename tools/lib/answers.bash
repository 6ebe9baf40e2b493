# What the script gos answers to words that ask for help, or for the version. It is read by `.`, behind tools/lib/programs.bash.

# Each command with its words, and what it does.
COMMANDS=(
    "check SRC" "reads a source and checks it"
    "compile SRC OBJ" "does as check, and writes the plan of the module as an object"
    "link BUILD" "links the objects of a build file, writes its netlist and its Verilog text"
    "sim NET PULSES TRACE" "runs a netlist under a pulse file, writes the trace"
    "build BUILD" "compiles each source of a build file, links them and runs what comes of it"
    "demo N" "writes the files of a chain of N modules, N from 1 to 12, and builds them"
    "tidy NET OUT" "writes a smaller netlist that does the same"
    "gates NET OUT" "writes a netlist as two-input gates and latches (ASCII AIGER)"
    "explain BUILD MOVES" "writes moves of the sources of a build file that explain its trace"
    "verify BUILD MOVES" "makes the moves again by the sources of a build file, for its trace"
)

# Those of the second program.
FLOW_COMMANDS=(
    "verilog NET OUT" "reads a netlist, writes its Verilog text"
    "netlist VER OUT" "reads such a Verilog text, writes the netlist"
)

# Each tool beside the program, with what its first line says that it does.
say_tools() {
    local tool line
    for tool in "$top"/tools/gos-*; do
        { read -r line && read -r line; } <"$tool"
        line=${line#'"""'} line=${line#'# '}
        line=${line%%[:;]*}
        printf '  %-17s %s\n' "${tool##*/}" "${line%.*}"
    done
}

# Lists commands, which stand each before what it does.
say_commands() {
    while [ $# -gt 0 ]; do
        printf '  %-22s %s\n' "$1" "$2"
        shift 2
    done
}

say_help() {
    cat <<END
usage: gos check SRC | compile SRC OBJ | link BUILD | sim NET PULSES TRACE | build BUILD | demo N
           | tidy NET OUT | gates NET OUT | explain BUILD MOVES | verify BUILD MOVES

END
    say_commands "${COMMANDS[@]}"
    cat <<END

These are a second program, gos_flow, proved as the first one is:
$(say_commands "${FLOW_COMMANDS[@]}")

  --help, -h, help       this text; gos COMMAND --help has what is to be said of one command
  --version, -V          which program this is

Files are named as paths from the folder that gos is called in, in build files too. The status is that of the program:
  0  done                2  a file has a fault: the line names it      4  the line could not be printed
  1  no such command     3  a file could not be read or written       5  memory ran out
or one of this script, which says why on standard error:
  70   no preview could be made, or the program could not be proved and built; or two names are one file, and the
       command would write over it
  127  there is neither the program nor the toolchain's command rt

GOS_PROVED=1 before it: no preview is run, and the program is proved first. GOS_QUIET=1: that it is a preview isn't said;
GOS_QUIET=0: it is said each time, and not only once in a terminal, or once in a minute.

These tools stand beside it, each with --help:
$(say_tools)
In $(readlink -f "$top")/docs: TUTORIAL.md has first steps, FORMATS.md all of commands, files and faults.
END
}

# Answers the help of one command, or is no answer where there is no such command.
say_help_of() {
    local at commands=("${COMMANDS[@]}" "${FLOW_COMMANDS[@]}")
    for ((at = 0; at < ${#commands[@]}; at += 2)); do
        if [ "${commands[at]%% *}" = "$1" ]; then
            printf 'usage: gos %s\n\n  %s\n\n' "${commands[at]}" "${commands[at + 1]}"
            echo "gos --help has all commands and the statuses, $(readlink -f "$top")/docs/FORMATS.md all of files and faults."
            return
        fi
    done
    return 1
}

say_version() {
    local described=""
    if [ -f "$top/installed" ]; then
        tail -n +2 "$top/installed"
    else
        [ ! -e "$top/.git" ] || described=$(git -C "$top" describe --tags --always --dirty 2>/dev/null) || described=""
        echo "gos${described:+ $described}"
        "$top/tools/lib/record" | grep '^sources '
    fi
    find_program
    case "$kind" in
    proved) echo "the program is proved" ;;
    preview) echo "the program is a preview, which is not proved" ;;
    *) echo "there is no program of these sources yet" ;;
    esac
}

# Answers these words, of which some ask for that; is no answer where they name no command.
answer_words() {
    case "$# $1" in
    "1 --help" | "1 -h" | "1 help") say_help ;;
    "1 --version" | "1 -V") say_version ;;
    "2 help") say_help_of "$2" ;;
    *) say_help_of "$1" ;;
    esac
}
