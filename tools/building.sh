# shellcheck shell=sh disable=SC2034,SC2154
# What ./merc and tools/program share: the sum of the sources, and how the program is proved and built from them.
# Who sources this has set `top`, the folder of crates/, crates.txt and HANDLES, and `undone`, what a failure leaves undone.

# What has to be ended or removed at the end: the folder and the process of a build, a file that is written, an open line.
room=''
builder=''
next=''
is_line_open=''

clean_up() {
    [ -z "$is_line_open" ] || echo >&2
    [ -z "$builder" ] || {
        kill -TERM -- "-$builder" || kill -TERM "$builder"
        wait "$builder"
    } 2>/dev/null
    [ -z "$next" ] || rm -f "$next"
    # What rt started ends when rt does, and may write until then.
    [ -z "$room" ] || rm -rf "$room" 2>/dev/null || { sleep 1 && rm -rf "$room"; }
    room='' builder='' next='' is_line_open=''
}
trap clean_up EXIT
trap 'exit 129' HUP
trap 'exit 130' INT
trap 'exit 143' TERM

fail() {
    clean_up
    printf '%s: %s; %s\n' "${0##*/}" "$1" "$undone" >&2
    exit 70
}

# put FILE PLACE: copies the file to its place, where no part of it is ever seen.
put() {
    next=$2.$$
    cp "$1" "$next" && mv "$next" "$2" || return
    next=''
}

# list [TEST..]: lists what git tracks or would track of the sources here, files and folders: all but crates/NAME/out.
list() {
    LC_ALL=C find crates crates.txt HANDLES -type d -path 'crates/*/out' ! -path 'crates/*/*/out' -prune -o "$@" -print
}

# contents FOLDER: prints the sum over the names and contents of the sources there.
contents() (
    cd -- "$1" && files=$(list -type f) || exit
    sums=$(printf '%s\n' "$files" | LC_ALL=C sort | xargs -d '\n' sha256sum --) || exit
    sum=$(printf '%s\n' "$sums" | sha256sum) || exit
    printf '%s\n' "${sum%% *}"
)

# needed FILE: prints the lines that a crates.txt has for the program and the libraries below it.
needed() {
    awk '
        function need(name,    count, all, at) {
            if (!(name in lines)) return
            print lines[name]
            delete lines[name]
            count = split(uses[name], all, /[ ,]+/)
            for (at = 1; at <= count; at++) need(all[at])
        }
        { sub(/#.*/, "") }
        NF {
            $1 = $1
            split($0, halves, ":")
            split(halves[1], words, " ")
            lines[words[1]] = $0
            uses[words[1]] = halves[2]
        }
        END { need("merc") }' "$1"
}

# copy_sources SUM: copies the sources with this sum to $room/tree, less what the program does without: other crates, and
# the planted bugs that a gate tries.
copy_sources() {
    mkdir "$room/all" "$room/tree" "$room/tree/.git" "$room/tree/crates" || fail "$room cannot be written"
    (cd -- "$top" && list -type f | tar -cf - -T -) | tar -xf - -C "$room/all"
    [ "$(contents "$room/all")" = "$1" ] || fail "the sources changed, or cannot be copied to $room"
    needed "$room/all/crates.txt" >"$room/tree/crates.txt"
    cp "$room/all/HANDLES" "$room/tree"
    sed 's/[ :].*//' "$room/tree/crates.txt" | while read -r crate; do
        mv "$room/all/crates/$crate" "$room/tree/crates" && rm -rf "$room/tree/crates/$crate/must-fail"
    done
    rm -rf "$room/all"
}

# Says on one line of standard error how many of the crates are proved.
show_progress() {
    now=$(grep -cE '^rt: [a-z0-9_]+ (proved|is kept)' "$room/log")
    [ "$now" = "$proved" ] || printf '\r%s: %s of %s crates are proved' "${0##*/}" "$now" "$crates" >&2
    proved=$now
    is_line_open=yes
}

# Prints what a log says of a failure.
show_failure() {
    grep -vE '^(statements|library|logic|crate|axioms|empty contracts|linked|rt: chose|fn .*: proved|rt: .* (proved|is kept))' "$1" |
        tail -n 20 >&2
}

# build SUM: proves and builds the program of the sources with this sum, and sets `built` to where it stands until clean_up.
# `rt ci` does it, on a copy: it proves crates side by side, as many as there are processors and memory for, those with the
# longest chain above them first, and takes from earlier runs only what it proved itself.
build() {
    command -v rt >/dev/null || fail "the program has to be built, and rt, the command of the kit, is not on the path"
    # (as root, rt runs the program as nobody, who has to reach it)
    { room=$(mktemp -d) && chmod 711 "$room"; } || fail "there is no folder to build in"
    copy_sources "$1"
    crates=$(grep -c . "$room/tree/crates.txt")
    proved=''
    echo "${0##*/}: proving and building the program, some 50 minutes on 4 processors where nothing is proved yet" >&2
    : >"$room/log"
    # In a session of its own, so that one signal ends all of it.
    (cd -- "$room/tree" && exec env TMPDIR="$room" setsid rt ci) >"$room/log" 2>&1 </dev/null 9>&- &
    builder=$!
    while kill -0 "$builder" 2>/dev/null; do
        show_progress
        sleep 1
    done
    wait "$builder"
    status=$?
    builder=''
    show_progress
    echo >&2
    is_line_open=''
    [ "$status" -eq 0 ] || {
        show_failure "$room/log"
        fail "the sources are not proved or do not build"
    }
    [ "$(contents "$top")" = "$1" ] || fail "the sources changed while the program was built: start this again"
    built=$room/tree/crates/merc/out/merc
}
