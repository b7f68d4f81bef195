#!/bin/sh
# Measures the pass that puts waits and signals into trees, and the plan of their sites: it proves and builds the program of
# benches/splits over a copy of the crates, and runs it. What it prints stands in docs/PERFORMANCE.md.
# Status 0: measured. Status 2: nothing was measured.
cd -- "$(dirname -- "$0")/.." || exit 2

fail() {
    printf 'time_splits: %s\n' "$1" >&2
    exit 2
}

room=$(mktemp -d) || fail "no folder to build in"
trap 'rm -rf "$room"' EXIT
trap 'exit 2' INT TERM HUP

# The program's crate, which is no crate of crates.txt, and those that it stands on. `rt ci` wants each .rt file to be one of a
# crate, so the program's text has another name here.
uses='merc_base merc_goal_tree merc_graded_tree merc_par_split merc_plan'
mkdir -p "$room/crates/splits/src" && cp benches/splits/src/main.rt.txt "$room/crates/splits/src/main.rt" && cp HANDLES "$room" || fail "$room cannot be written"
for crate in merc_value merc_tree merc_meaning merc_script merc_core merc_course merc_rights $uses; do
    mkdir "$room/crates/$crate" &&
        cp -R "crates/$crate/src" "crates/$crate/specs" "crates/$crate/proofs" "$room/crates/$crate" &&
        grep "^$crate:" crates.txt || fail "$crate cannot be copied"
done >"$room/crates.txt"
echo "splits: $uses" >>"$room/crates.txt"
git init -q "$room" || fail "$room cannot be the top of a repository"

(cd "$room/crates/splits" && rt run) >"$room/log" 2>&1 || {
    tail -n 20 "$room/log" >&2
    fail "benches/splits cannot be built"
}
"$room/crates/splits/out/splits" || fail "no clock, or no memory"
