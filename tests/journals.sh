#!/usr/bin/env bash
# Stored journals: each folder of tests/journals and examples holds a library, an input and the answers expected, byte by byte.
# Runs the proved program on each, and the reference too where tests/differential.sh has built it. The pages that show a
# journal in a table, and the texts that libraries are built from, are compared with the stored bytes.
set -euo pipefail
cd "$(dirname "$0")/.."

proved=crates/canarystand/out/canarystand
reference=target/cargo/release/reference
[ -x "$proved" ] || { echo "$proved is missing: rt ci builds it"; exit 1; }
programs=("$proved")
[ ! -x "$reference" ] || programs+=("$reference")

folder=$(mktemp -d)
trap 'rm -rf "$folder"' EXIT

# differs NAME WANTED GOT: the first line that is not the same in both files.
differs() {
    local format=$'%dn\n' place
    place=$(diff --text --unchanged-line-format= --old-line-format="$format" --new-line-format="$format" "$2" "$3" | sed -n 1p || true)
    echo "$1: line $place: expected '$(sed -n "${place}p" "$2" | head -c 200)', got '$(sed -n "${place}p" "$3" | head -c 200)'"
}

# run PROGRAM CASE: the program's answers in a folder with the case's library alone.
run() {
    local program status=0
    program=$(realpath "$1")
    mkdir "$folder/run"
    [ ! -e "$2/library" ] || cp "$2/library" "$folder/run/library"
    (cd "$folder/run" && timeout 10 "$program") < "$2/input" > "$folder/output" || status=$?
    rm -r "$folder/run"
    [ "$status" -eq 0 ] || { echo "${2##*/}: $1 ended with $status"; return 1; }
    cmp -s "$2/expected" "$folder/output" || { differs "${2##*/}: $1" "$2/expected" "$folder/output"; return 1; }
}

# shown PAGE CASE..: the page's tables of lines in and out are the cases' journals, in this order.
shown() {
    # shellcheck disable=SC2016 # backquotes of Markdown
    local page=$1 lines='s/^| `\([CPO][^`]*\)` | `.*/\1/p' answers='s/^| `[CPO][^`]*` | `\([^`]*\)` .*/\1/p'
    shift
    if ! cmp -s <(sed -n "$lines" "$page") <(cat "${@/%//input}") || ! cmp -s <(sed -n "$answers" "$page") <(cat "${@/%//expected}"); then
        echo "$page: its tables are not the journals of $*"
        return 1
    fi
}

count=0
for case in tests/journals/*/ examples/*/; do
    [ -e "$case/input" ] || continue
    for program in "${programs[@]}"; do
        run "$program" "${case%/}"
    done
    count=$((count + 1))
done

shown README.md tests/journals/document-01
shown examples/README.md examples/cutting-cell examples/offcut

sources="python3 is missing: libraries not compared with their text"
if command -v python3 > /dev/null; then
    sources=$(python3 -B tests/journals/make.py --check)
fi
echo "journals: $count stored journals agree (${programs[*]##*/}); $sources"
