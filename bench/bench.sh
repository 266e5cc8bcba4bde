#!/usr/bin/env bash
# Times the proved program and the reference on the same journals and prints the tables of docs/BENCHMARKS.md.
#   bench/bench.sh [--write] [lines] [RUNS]     --write puts the tables into the document; lines: only the table of lines that come
#                                               one at a time; RUNS is 5 unless given
# $PROVED and $REFERENCE name other programs than crates/canarystand/out/canarystand and target/cargo/release/reference.
# A program that does not exist is left out.
set -euo pipefail
cd "$(dirname "$0")/.."

# shellcheck source=bench/between.sh
. bench/between.sh
write=0
[ "${1:-}" != --write ] || { write=1; shift; }
part=tables words=()
[ "${1:-}" != lines ] || { part=lines words=(lines); shift; }
for package in reference bench; do
    cargo build --quiet --release --offline --locked --manifest-path "$package/Cargo.toml" --target-dir target/cargo
done

tables=$(mktemp)
trap 'rm -f "$tables"' EXIT
target/cargo/release/bench "${words[@]}" "${PROVED:-crates/canarystand/out/canarystand}" "${REFERENCE:-target/cargo/release/reference}" "$@" | tee "$tables"
[ "$write" -eq 0 ] || between "$part" "$tables"
