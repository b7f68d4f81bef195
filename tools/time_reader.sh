#!/bin/sh
# Measures whether reading takes time in proportion to the length of a module: tools/time_reader.sh [PROGRAM]
# It has the built program, bin/merc or the one that is named, check a text of 256 KiB and one of 1 MiB 10 times each, five
# times over, and prints the least processor time of both and their ratio, which is about 4 where the time is linear and
# about 16 where it is quadratic. The last item of a text does not end, so that the text is read and refused, and nothing
# else is done with it.
# PROGRAM is looked for from the top of the repository. bin/merc is what its sources give where tools/program --check says so.
# Status 0: the ratio is below 5. Status 1: it is 5 or more. Status 2: nothing was measured.
cd -- "$(dirname -- "$0")/.." || exit 2
LC_ALL=C
export LC_ALL

# The program under test.
program=${1:-bin/merc}
runs=10
rounds=5

fail() {
    printf 'time_reader: %s\n' "$1" >&2
    exit 2
}

# Writes a text of at most this many bytes, and of nearly as many: pairs of a declaration and its clause, and a clause
# without an end.
write_text() {
    awk -v size="$1" '
        BEGIN {
            last = "p("
            written = length(":- module long.\n:- import_module int.\n" last)
            printf ":- module long.\n:- import_module int.\n"
            for (n = 1; ; n++) {
                pair = sprintf(":- pred p%d(int::in, int::out) is det.\np%d(X, Y) :- Y = X + %d.\n", n, n, n)
                if (written + length(pair) > size) break
                printf "%s", pair
                written += length(pair)
            }
            printf "%s", last
        }'
}

# Has a text read to its end, where it is refused.
read_text() {
    "$program" check "$1" >"$work/output"
    [ "$?" -eq 4 ]
}

# Whether what was told last is a refusal in the last line of a text.
is_read_whole() {
    last=$(($(wc -l <"$1") + 1))
    grep -q "^$1:$last: " "$work/output"
}

# Prints the seconds of processor time that a round of runs over a text takes.
round_seconds() {
    (
        run=0
        while [ "$run" -lt "$runs" ]; do
            read_text "$1" || exit 1
            run=$((run + 1))
        done
        times
    ) | awk 'NR == 2 { split($1, user, /[ms]/); split($2, sys, /[ms]/); print 60 * (user[1] + sys[1]) + user[2] + sys[2] }'
}

# Prints the least of all rounds: what else the machine does can only add to a round.
seconds() {
    round=0
    while [ "$round" -lt "$rounds" ]; do
        round_seconds "$1"
        round=$((round + 1))
    done | sort -n | head -n 1
}

work=$(mktemp -d) || fail "no folder for the texts"
trap 'rm -rf "$work"' EXIT
trap 'exit 2' INT TERM HUP

{ write_text 262144 >"$work/short.m" && write_text 1048576 >"$work/long.m"; } || fail "the texts cannot be written"
for text in "$work/short.m" "$work/long.m"; do
    { read_text "$text" && is_read_whole "$text"; } || fail "$program did not read a text to its end"
done
short=$(seconds "$work/short.m")
long=$(seconds "$work/long.m")
awk -v short="$short" -v long="$long" -v runs="$runs" '
    BEGIN {
        if (short <= 0) {
            print "time_reader: too short to be measured" > "/dev/stderr"
            exit 2
        }
        printf "256 KiB, %d times: %.2f s\n1 MiB, %d times: %.2f s\nratio: %.2f\n", runs, short, runs, long, long / short
        exit long / short >= 5
    }'
