#!/usr/bin/env bash
# Proves every crate from nothing, one at a time, and prints the table of check times of docs/BENCHMARKS.md.
#   bench/checks.sh [--write]     --write puts the table into the document
# It works on a copy, by `rt verdict`, which proves a crate's tests too: `rt check` begins with what earlier checks kept, wherever that is.
set -euo pipefail
cd "$(dirname "$0")/.."

# shellcheck source=bench/between.sh
. bench/between.sh
copy=$(mktemp -d)
trap 'rm -rf "$copy"' EXIT
git ls-files -z crates.txt crates | xargs -0 cp --parents -t "$copy"

# verdicts: each crate's report ends up here at once, when the crate is done, behind a line "== NAME"; the last such line is a summary's.
verdicts() { (cd "$copy" && rt all verdict --jobs 1 2>&1) || echo '== failed'; }

begun=$(date +%s)
verdicts | tee "$copy/log" | sed -nu 's/^== \([a-z_]*\)$/\1/p' | {
    echo "| Crate | Seconds | Must-fail edits |"
    echo "|---|---:|---:|"
    while read -r crate; do
        [ -d "crates/$crate" ] || continue
        ended=$(date +%s)
        edits=$(find "crates/$crate/must-fail" -name '*.edit' 2> /dev/null | wc -l) || true
        echo "| \`$crate\` | $((ended - begun)) | $edits |"
        begun=$ended
    done
} | tee "$copy/table"
if grep -q '^== failed$' "$copy/log"; then
    tail -n 40 "$copy/log"
    exit 1
fi
[ "${1:-}" != --write ] || between checks "$copy/table"
