#!/bin/sh
# Measures the calls of the objects that workers are to share beside a lock and unlock of a Mutex: it proves and builds
# the program benches/objects.rt.txt over a copy of the crates, and runs it. What it prints stands in docs/PERFORMANCE.md.
# Status 0: measured. Status 2: nothing was measured.
cd -- "$(dirname -- "$0")/.." || exit 2

fail() {
    printf 'time_objects: %s\n' "$1" >&2
    exit 2
}

room=$(mktemp -d) || fail "no folder to build in"
trap 'rm -rf "$room"' EXIT
trap 'exit 2' INT TERM HUP

# The program's crate, which is no crate of crates.txt, and those that it stands on. `rt ci` wants each .rt file to be one of a
# crate, so the program's text has another name here.
uses='merc_base merc_script merc_cell merc_deque merc_join'
mkdir -p "$room/crates/objects/src" && cp benches/objects.rt.txt "$room/crates/objects/src/main.rt" && cp HANDLES "$room" || fail "$room cannot be written"
for crate in merc_value $uses; do
    mkdir "$room/crates/$crate" &&
        cp -R "crates/$crate/src" "crates/$crate/specs" "crates/$crate/proofs" "$room/crates/$crate" &&
        grep "^$crate:" crates.txt || fail "$crate cannot be copied"
done >"$room/crates.txt"
echo "objects: $uses" >>"$room/crates.txt"
git init -q "$room" || fail "$room cannot be the top of a repository"

(cd "$room/crates/objects" && rt run) >"$room/log" 2>&1 || {
    tail -n 20 "$room/log" >&2
    fail "benches/objects.rt.txt cannot be built"
}
"$room/crates/objects/out/objects" || fail "no clock, or no memory"
