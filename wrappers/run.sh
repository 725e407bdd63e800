# What ./cells, ./replay and ./coentrift share: they read this file, set `name` to the program's and call these
# functions, in the order in which they stand here; ./coentrift calls `build` alone. Status: 0 all was printed, 1 the
# program refused something, 2 it could not be run. `cells` and `replay` read their files in the folder that they are
# run in, so they are run in a temporary one, `room`/run.
# shellcheck shell=sh disable=SC2154
. "$root/wrappers/words.sh"

say() { printf '%s: %s\n' "$name" "$*" >&2; }
fail() { say "$@"; exit 2; }

# Answers -h and --help with the text of `usage`.
help() { # WORDS
    for word in "$@"; do
        case $word in
        --) return ;;
        -h | --help) usage; exit 0 ;;
        esac
    done
}

misused() {
    usage | sed -n 1p >&2
    say "./$name --help says more"
    exit 2
}

# A temporary folder, which goes when the script ends.
make_room() {
    room=''
    trap '[ -z "$room" ] || rm -rf "$room"' EXIT
    trap 'exit 129' HUP
    trap 'exit 130' INT
    trap 'exit 143' TERM
    room=$(mktemp -d) || fail 'cannot make a temporary folder'
}

prepare() {
    (true >&1) 2>/dev/null || fail 'standard output is closed'
    make_room
    { mkdir "$room/run" && mkfifo "$room/pipe"; } || fail 'cannot write to the temporary folder'
}

# Copies the bytes of FILE that the program looks at, and some more: a longer file can then be told from one that ends
# there.
take() { # FILE NAME
    if [ ! -e "$1" ]; then
        case $1 in
        -*) fail "no such file, and no such option: '$1' (./$name --help has the options)" ;;
        *) fail "no such file: '$1'" ;;
        esac
    fi
    [ ! -d "$1" ] || fail "a folder and not a file: '$1'"
    [ -r "$1" ] || fail "not allowed to read '$1'"
    head -c 65600 <"$1" >"$room/run/$2" || fail "cannot read '$1'"
}

# The crates of this repository that the program is made of, by crates.txt.
crates() {
    awk -v program="$name" '
        { sub(/#.*/, ""); i = index($0, ":") }
        i { crate = substr($0, 1, i - 1); gsub(/[ \t]/, "", crate); needs[crate] = substr($0, i + 1) }
        function visit(crate,   list, count, k) {
            if (!(crate in needs) || crate in seen) return
            seen[crate]; print crate
            count = split(needs[crate], list, " ")
            for (k = 1; k <= count; k++) visit(list[k])
        }
        END { visit(program) }' "$root/crates.txt"
}

# A source that is newer than the program, if there is one. A folder counts too: a file may have been taken out of it.
newer() {
    cd "$root" || exit
    sources=crates.txt
    for crate in $(crates); do
        for part in src specs proofs; do
            [ ! -d "crates/$crate/$part" ] || sources="$sources crates/$crate/$part"
        done
    done
    # shellcheck disable=SC2086
    find $sources -newer "$program" | sed -n 1p
}

# Shows which crates rt says it has proved, in its output. Those that have not changed are not proved again.
progress() { # NUMBER OF CRATES
    count=0 crate=''
    while IFS= read -r line; do
        printf '%s\n' "$line" >>"$room/log"
        case $line in
        'crate '*': modules loaded='*)
            crate=${line#crate }
            crate=${crate%%:*}
            ;;
        logic=proved*)
            count=$((count + 1))
            say "proved $crate, $count of at most $1 crates"
            ;;
        esac
    done
}

# Runs rt where the program is not there or is older than one of its sources. The arguments, if any, are for the
# program, which rt runs too.
build() { # [ARGUMENT ..]
    program=$root/crates/$name/out/$name
    why="crates/$name/out/$name is not there"
    if [ -x "$program" ]; then
        source=$(newer)
        [ -n "$source" ] || return 0
        why="crates/$name/out/$name is older than $source"
    fi
    command -v rt >/dev/null 2>&1 ||
        fail "$why, and the Rattle toolchain's command rt, which builds it, is not on the PATH"
    many=$(crates | wc -l)
    say "$why: building, which takes some minutes if all of its $((many)) crates are to be proved"
    [ -n "${room-}" ] || make_room
    : >"$room/began"
    # rt runs what it has built too, and its status is the program's; of what it says only the build is looked at
    (cd "$root/crates/$name" && rt run "$@" 2>&1 >/dev/null </dev/null; echo $? >"$room/status") | progress "$((many))"
    if [ "$(cat "$room/status")" -ne 0 ]; then
        sed '/^rt: chose /d; /: begins with what a check kept /d; /^checked /d; /: proved$/d; /: modules loaded=/d; /^logic=proved/d; /^logic /d; /^axioms /d' "$room/log" >&2
        fail 'the build failed'
    fi
    [ -x "$program" ] || fail "the build left no crates/$name/out/$name; remove the folder crates/$name/out and try again"
    # as old as the sources that rt looked at: one that was changed meanwhile is newer
    touch -r "$room/began" "$program"
}

# Runs the program. Its output goes on as it is, and its last line is kept: all of it may be gigabytes.
run() {
    tail -n 1 <"$room/pipe" >"$room/last" &
    { (cd "$room/run" && exec "$program" </dev/null); echo $? >"$room/status"; } | tee "$room/pipe" 2>"$room/said"
    wrote=$?
    wait
    # whoever read the output has closed it: `./cells | head -1`
    [ "$wrote" -ne 141 ] || exit 141
    [ "$wrote" -eq 0 ] || fail "cannot write the output ($(sed -n '1s/^tee: //p' "$room/said"))"
    status=$(cat "$room/status")
    [ "$status" -eq 0 ] || fail "the program ended with status $status"
}

# Says in words what the last line refuses. A refused step of `replay` is an answer: a line `at` follows it.
judge() {
    read -r word first second <"$room/last" || return 0
    case $word in
    refused) say "refused $first $second: $(words "$first" "$second" "$room/run/table.fits")" ;;
    bad) say "bad line $second: $(bad_line "$second" "$room/run/steps.txt")" ;;
    *) return 0 ;;
    esac
    exit 1
}
