#!/bin/sh
# Builds the program of main.txt in a copy of the repository's crates, and times it.
# A source file outside the listed crates would be refused by the gate, so it lies here as a text.
set -e
top=$(cd "$(dirname "$0")/../.." && pwd)
copy=${1:-$(mktemp -d)}
mkdir -p "$copy"
(cd "$top" && tar --exclude=out -cf - crates crates.txt HANDLES) | tar -xf - -C "$copy"
cd "$copy"
[ -d crates/steps ] || rt new crates/steps start_io
rm -rf crates/steps/proofs crates/steps/specs crates/steps/src crates/steps/stdin crates/steps/stdout
mkdir crates/steps/src
cp "$top/bench/steps/main.txt" crates/steps/src/main.rt
grep -q "^steps:" crates.txt || echo "steps: nm_base nm_action nm_view nm_permit nm_core" >> crates.txt
(cd crates/steps && rt fmt && rt run)
time crates/steps/out/steps
