#!/bin/sh
# Measures a core that executes long scripts: it proves and builds the program of benches/executions over a copy of the
# crates, and runs it. What it prints stands in docs/PERFORMANCE.md.
# Status 0: measured. Status 2: nothing was measured.
cd -- "$(dirname -- "$0")/.." || exit 2

fail() {
    printf 'time_core: %s\n' "$1" >&2
    exit 2
}

room=$(mktemp -d) || fail "no folder to build in"
trap 'rm -rf "$room"' EXIT
trap 'exit 2' INT TERM HUP

# The program's crate, which is no crate of crates.txt, and those that it stands on. `rt ci` wants each file of a crate to be one
# that it reads, so the program's files have other names here.
uses='merc_base merc_value merc_script merc_core'
mkdir "$room/crates" && cp HANDLES "$room" && cp -R benches/executions "$room/crates" || fail "$room cannot be written"
find "$room/crates" -name '*.txt' | while read -r file; do
    mv "$file" "${file%.txt}" || fail "$file cannot be named"
done
for crate in $uses; do
    mkdir "$room/crates/$crate" &&
        cp -R "crates/$crate/src" "crates/$crate/specs" "crates/$crate/proofs" "$room/crates/$crate" &&
        grep "^$crate:" crates.txt || fail "$crate cannot be copied"
done >"$room/crates.txt"
echo "executions: $uses" >>"$room/crates.txt"
git init -q "$room" || fail "$room cannot be the top of a repository"

(cd "$room/crates/executions" && rt run) >"$room/log" 2>&1 || {
    tail -n 20 "$room/log" >&2
    fail "benches/executions cannot be built"
}
"$room/crates/executions/out/executions" || fail "no clock, or no memory"
