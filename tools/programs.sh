# shellcheck shell=sh disable=SC2154
# What ./run and its parts share. The caller sets here (the top of the repository), crate, folder (of that crate) and
# program (folder/out/crate).

# The programs that there are, by the names that a user gives.
programs() {
    for main in "$here"/crates/*/src/main.rt; do
        [ -f "$main" ] || continue
        found=${main%/src/main.rt}
        found=${found##*/}
        echo "${found%_main}"
    done
}

has_kit() {
    command -v rt >/dev/null
}

# The lines of crates.txt of the crate and of all that it stands on, each below those that stand on it.
lines_below() {
    awk -v want="$crate" '
        function visit(name, names, n, j) {
            seen[name] = 1
            n = split(under[name], names, " ")
            for (j = 1; j <= n; j++) {
                if ((names[j] in under) && !(names[j] in seen)) visit(names[j])
            }
            print line[name]
        }
        { sub(/#.*/, ""); $1 = $1 }
        /:/ { split($0, half, ":"); split(half[1], left, " "); under[left[1]] = half[2]; line[left[1]] = $0 }
        END { visit(want) }' "$here/crates.txt"
}

# Their names.
below() {
    lines_below | sed 's/[ :].*//'
}

# The sum of all that the program is made from but the kit: the names and bytes of the files, and the lines of crates.txt.
sum_of_sources() (
    cd "$here/crates" || exit
    {
        lines_below
        for it in $(below); do
            for part in src specs proofs; do
                [ -d "$it/$part" ] && find "$it/$part" -type f -print0
            done
        done | LC_ALL=C sort -z | xargs -0 sha256sum
    } | sha256sum | sed 's/ .*//'
)

sum_of_file() {
    sha256sum <"$1" | sed 's/ .*//'
}

# What rt version prints. It reads this file of the kit, but takes half a second for it.
kit_line() {
    at=$(readlink -f "$(command -v rt)")
    cat "${at%/bin/rt}/KIT-ID" 2>/dev/null || rt version
}

# Whether the note beside the program says that this very file was proved and built from the present text by the kit
# that is there. No kit says nothing against it.
is_noted() {
    [ -x "$program" ] && [ -f "$program.sum" ] || return 1
    {
        read -r of_sources
        read -r of_program
        read -r of_kit
    } <"$program.sum"
    [ "$of_program" = "$(sum_of_file "$program")" ] || return 1
    if has_kit && [ "$of_kit" != "$(kit_line)" ]; then return 1; fi
    [ "$of_sources" = "$(sum_of_sources)" ]
}

# Notes that the program was made from the text of this sum, if that is still the present one.
note() {
    [ "$1" = "$(sum_of_sources)" ] || return 1
    printf '%s\n' "$1" "$(sum_of_file "$program")" "$(kit_line)" >"$program.sum.$$" || return 1
    mv "$program.sum.$$" "$program.sum"
}

# Whether the program was proved and built from the present text: by our note, or else by what rt itself keeps of its
# own proofs (tools/proved_by_rt), as after rt ci, which is then noted.
is_proved() {
    is_noted && return
    has_kit && command -v python3 >/dev/null || return 1
    before=$(sum_of_sources)
    "$here/tools/proved_by_rt" "$folder" 2>/dev/null && note "$before"
}

# How many processors there are, as far as memory goes for so many megabytes each, read one a line, largest first.
lanes() {
    cores=$(nproc 2>/dev/null || getconf _NPROCESSORS_ONLN)
    awk -v cores="$cores" '
        FILENAME == "/proc/meminfo" { if (/^MemAvailable:/) left = $2 / 1024; next }
        { left -= $1; if (left >= 0 && many < cores) many++; else exit }
        END { print many ? many : 1 }' /proc/meminfo -
}

# Starts a command in the place of this shell, out of reach of the terminal's interrupt: rt ends what it started at one
# signal, and not at two at once, so it gets the one that we send.
apart() {
    if command -v setsid >/dev/null; then exec setsid "$@"; else exec "$@"; fi
}

# How many seconds an unproved run may take, once it is compiled.
try_seconds=60

# Runs the program of a crate from its sources by rt try, which proves nothing, with standard input from file
# descriptor 3. What the program wrote is then in ROOM/stdout and ROOM/stderr, and status is its exit status. Fails
# where there is no answer; ROOM/stderr then has what rt said. child is the process to end at an interrupt.
# usage: try_program FOLDER ROOM ARGS..
try_program() {
    try_folder=$1
    room=$2
    shift 2
    (cd "$try_folder" && apart rt try --seconds "$try_seconds" -- "$@") <&3 >"$room/stdout" 2>"$room/stderr" &
    child=$!
    wait "$child"
    try_status=$?
    child=
    last=$(tail -n 1 "$room/stderr")
    status=${last#run=ended status=}
    status=${status%% *}
    case $last in
    "run=ended status=$try_status "*proved=no) drop_lines_of_rt ;;
    *) return 1 ;;
    esac
}

# Takes off the lines that rt try put behind those of the program on standard error: at most one of each kind, and an
# end of line where the program's last line on standard output has none.
drop_lines_of_rt() {
    kept=$(($(wc -l <"$room/stderr") - 1))
    for word in races checked interpreter; do
        case $(head -n "$kept" "$room/stderr" | tail -n 1) in
        "$word: "*) kept=$((kept - 1)) ;;
        esac
    done
    head -n "$kept" "$room/stderr" >"$room/said"
    if [ "$kept" -eq 1 ] && [ "$(wc -c <"$room/said")" -eq 1 ] && [ -n "$(tail -c 1 "$room/stdout" | tr -d '\n')" ]; then
        : >"$room/said"
    fi
    mv "$room/said" "$room/stderr"
}
