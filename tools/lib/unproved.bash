# What is said and done where the program that there is isn't proved. It is read by `.`, behind tools/lib/programs.bash.

# Sets `note` to the file that notes when it was said that the program is a preview: one for the session of a terminal, by the number
# of its first process and the time at which that began; and one for all that is said elsewhere.
find_note() {
    local - line words
    set -f
    note=$notes-elsewhere
    if [ -t 2 ] && { read -r line </proc/self/stat; } 2>/dev/null; then
        # (behind the name in brackets the session is the fourth word, and the time the twentieth)
        words=(${line##*) })
        line=${words[3]}
        { read -r words <"/proc/$line/stat"; } 2>/dev/null || return 0
        words=(${words##*) })
        note=$notes-$line-${words[19]}
    fi
}

# Whether the same was said already: in this session of a terminal, or elsewhere within the last minute.
is_noted() {
    local at why now
    { read -r at why <"$note"; } 2>/dev/null || return 1
    printf -v now '%(%s)T' -1
    [ "$why" = "${stale:-as-it-is}" ] && { [ "$note" != "$notes-elsewhere" ] || [ "$((now - at))" -lt 60 ]; }
}

# Notes that it is said now, and forgets sessions that have ended.
note_it() {
    local file session
    for file in "$notes"-*-*; do
        session=${file#"$notes-"}
        [ -e "/proc/${session%-*}" ] || rm -f "$file"
    done
    { printf '%(%s)T %s\n' -1 "${stale:-as-it-is}" >"$note"; } 2>/dev/null || true
}

# Says in one line that the program is a preview, and which; with GOS_QUIET=1 it doesn't, and with GOS_QUIET=0 each time.
say_preview() {
    local proves
    proves="$(readlink -f "$top")/tools/prove proves it, in half an hour on four processors"
    [ "${GOS_QUIET:-}" = 1 ] || echo "gos: not proved on this machine yet: $1${stale:+, since $stale}. $proves" >&2
}

# Says so of a preview that is there, but not again and again.
say_preview_again() {
    local note notes=${program%/*}/preview.said
    find_note
    case "${GOS_QUIET:-}" in
    0) ;;
    1) return ;;
    *) if is_noted; then return; fi ;;
    esac
    if [ -f "$top/installed" ]; then
        echo "gos: not proved: what is installed is a preview, made from the sources alone" >&2
    else
        say_preview "this is a preview, made from the sources alone"
    fi
    note_it
}

# Has the program proved, and ends with the status of that where it fails.
prove_first() {
    if [ -f "$top/installed" ]; then
        echo "gos: what is installed here is a preview, which is not proved" >&2
        exit 70
    fi
    "$top/tools/prove" >&2 || exit $?
    program=$out/$name kind=proved
}

# Makes a preview, and ends with the status of that where it fails. Nothing is proved then, which would take half an hour.
make_preview() {
    if ! command -v rt >/dev/null; then
        echo "gos: there is no program of these sources yet${stale:+, since $stale}, and the toolchain's command rt is not found" \
            "(README.md names the kit that has it)" >&2
        exit 127
    fi
    local note notes=$out/preview.said
    say_preview "a preview is made first, from the sources alone, in about a minute"
    "$top/tools/lib/preview" "$name" || exit $?
    program=$out/preview kind=preview
    if [ "${GOS_QUIET:-}" != 1 ]; then find_note && note_it; fi
}

# Sets `program` and `kind` to what is run then: a preview, which is made where it isn't there; the proved program where GOS_PROVED
# is 1.
get_unproved() {
    if [ "${GOS_PROVED:-}" = 1 ]; then
        prove_first
    elif [ "$kind" = preview ]; then
        say_preview_again
    else
        make_preview
    fi
}
