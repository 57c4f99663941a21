#!/bin/sh
# Builds the program of main.txt in a copy of the repository's crates, and times it with one seat and with four.
# A source file outside the listed crates would be refused by the gate, so it lies here as a text.
set -e
top=$(cd "$(dirname "$0")/../.." && pwd)
copy=${1:-$(mktemp -d)}
mkdir -p "$copy"
(cd "$top" && tar --exclude=out -cf - crates crates.txt HANDLES) | tar -xf - -C "$copy"
cd "$copy"
[ -d crates/arena_steps ] || rt new crates/arena_steps start_io
rm -rf crates/arena_steps/proofs crates/arena_steps/specs crates/arena_steps/src crates/arena_steps/stdin crates/arena_steps/stdout
mkdir -p crates/arena_steps/src crates/arena_steps/proofs
cp "$top/bench/arena/main.txt" crates/arena_steps/src/main.rt
(cd "$top/bench/arena/proofs" && find . -name '*.txt') | while read -r file; do
    mkdir -p "crates/arena_steps/proofs/$(dirname "$file")"
    cp "$top/bench/arena/proofs/$file" "crates/arena_steps/proofs/${file%.txt}.antt"
done
grep -q "^arena_steps:" crates.txt || echo "arena_steps: nm_base nm_action nm_view nm_permit nm_rule nm_arena" >> crates.txt
(cd crates/arena_steps && rt fmt && rt run)
time crates/arena_steps/out/arena_steps
time crates/arena_steps/out/arena_steps four
