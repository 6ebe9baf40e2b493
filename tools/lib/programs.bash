# Which programs there are, and which is run: what the script gos, tools/lib/program and tools/install share. It is read by `.`,
# with `top` set to the folder of the checkout, or of what tools/install put somewhere.
#
# There are two, named by their crates: gos, and gos_flow_main with the words `verilog` and `netlist`.
#
# A program crates/CRATE/out/NAME is run where its record NAME.sources says that it is of these sources, and that it is this one
# (tools/lib/record). To sum all sources takes a while, so NAME.seen has what was summed last, and as its time one before that was
# begun: nothing is summed while no file has changed since.
#
# So at each run each file of src and specs is looked at, and each folder there, by the time at which it was changed last. That
# time is the system's, and no program sets it: an edit in place shows, and so does a file that was moved to its place or got an
# old date. The times of folders alone would miss an edit in place, and git's index a file that git doesn't know. The files of
# proofs, two thirds of all, are not looked at. What a program does stands in src, and what is promised of it in src and specs: a
# program that was proved stays proved, whatever becomes of the words that had convinced the prover. Only tools/prove asks for
# them (the last line of the record).
#
# What is installed (a file `installed` stands at the top) has no sources, and looks at none.

# (a pattern that no file meets is none; @(..) is one of some words)
shopt -s nullglob extglob

# Sets which of the programs is meant: `name`, and `out`, where rt leaves it.
choose_program() {
    name=$1 out=$top/crates/$1/out
}
choose_program gos

# Chooses the program whose words these are.
choose_program_of() {
    case "${1:-}" in
    verilog | netlist) choose_program gos_flow_main ;;
    *) choose_program gos ;;
    esac
}

# Whether nothing that a program is made from, nor the program itself, has changed since a file was written: is_unchanged_since FILE
# PROGRAM. (a crate that was moved to its place shows by the folder that it stands in)
is_unchanged_since() {
    local found looked=("$2" "$top/HANDLES" "$top/crates.txt" "$top/tools/lib/record" "$top"/crates/!(*_tests)/@(src|specs))
    [ ! "$top/crates" -nt "$1" ] || return 1
    found=$(LC_ALL=C exec find "${looked[@]}" -newercm "$1" -print -quit 2>&1) && [ -z "$found" ]
}

# Sets `now` to the lines that tools/lib/record has for a program.
sum_now() {
    local program=$out/$1 seen=$out/$1.seen new=$out/$1.seen.$$ begun
    if [ -f "$seen" ] && is_unchanged_since "$seen" "$program"; then
        mapfile -t now <"$seen"
        return
    fi
    printf -v begun '%(%s)T' -1
    mapfile -t now < <("$top/tools/lib/record" "$program")
    [ "${#now[@]}" -eq 3 ] || return 0
    # (in a folder where nothing can be written it is summed each time)
    { printf '%s\n' "${now[@]}" >"$new" && touch -d "@$((begun - 1))" "$new" && mv -f "$new" "$seen"; } 2>/dev/null || rm -f "$new"
}

# Whether the program is there, and is one of these sources. Sets `wrong` to why it isn't run where it is there and isn't.
is_of_these_sources() {
    local program=$out/$1 said now
    wrong=""
    [ -x "$program" ] || return 1
    if [ ! -f "$program.sources" ]; then
        wrong="$program has no record $1.sources beside it"
        return 1
    fi
    mapfile -t said <"$program.sources"
    sum_now "$1"
    if [ "${said[0]:-}" != "${now[0]:-no sources}" ]; then
        wrong="$program is a program of other sources"
    elif [ "${said[1]:-}" != "${now[1]:-no program}" ]; then
        wrong="$program is not the program of its record $1.sources"
    fi
    [ -z "$wrong" ]
}

# Sets `program` to the path of the chosen program that there is, and `kind` to `proved` or `preview`, or to nothing where there is none;
# and `stale` to why a program that looks as if it were proved isn't run.
find_program() {
    stale=""
    if [ -f "$top/installed" ]; then
        read -r kind <"$top/installed"
        program=$top/program/$name
        return
    fi
    program=$out/$name kind=proved
    if is_of_these_sources "$name"; then return; fi
    stale=$wrong program=$out/preview kind=preview
    if is_of_these_sources preview; then return; fi
    program="" kind=""
}

# Sets `program` and `kind` to what is run, and makes it where it isn't there.
get_program() {
    find_program
    if [ "$kind" != proved ]; then
        . "$top/tools/lib/unproved.bash"
        get_unproved
    fi
}
