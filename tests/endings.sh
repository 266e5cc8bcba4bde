#!/usr/bin/env bash
# How the bodies of plans may end. Each folder of tests/endings holds a library, `args` with the words of one run on each line, and
# `expected` with its answer: `usage` stands for no answer and one line on standard error, whatever the status. Runs the proved program
# on each and, where tests/differential.sh has built them, the reference too and the comparison of both on generated libraries.
set -euo pipefail
cd "$(dirname "$0")/.."

proved=${PROVED:-crates/canarystand/out/canarystand}
built=target/cargo/release
[ -x "$proved" ] || { echo "$proved is missing: rt ci builds it"; exit 1; }
programs=("$(realpath "$proved")")
[ ! -x "$built/reference" ] || programs+=("$(realpath "$built/reference")")

folder=$(mktemp -d)
trap 'rm -rf "$folder"' EXIT

# answer PROGRAM WORD..: what the program says in the run's folder, in one line.
answer() {
    local status=0
    (cd "$folder/run" && timeout 10 "$@") < /dev/null > "$folder/output" 2> "$folder/errors" || status=$?
    if [ ! -s "$folder/output" ] && [ "$(wc -l < "$folder/errors")" -eq 1 ]; then
        echo usage
    elif [ "$status" -eq 0 ] && [ ! -s "$folder/errors" ] && [ "$(wc -l < "$folder/output")" -eq 1 ]; then
        cat "$folder/output"
    else
        echo "status $status, '$(head -c 200 "$folder/output")', errors '$(head -c 200 "$folder/errors")'"
    fi
}

runs=0
for case in tests/endings/*/; do
    case=${case%/}
    [ "$(wc -l < "$case/args")" -eq "$(wc -l < "$case/expected")" ] || { echo "${case##*/}: not an answer for each run"; exit 1; }
    mkdir "$folder/run"
    [ ! -e "$case/library" ] || cp "$case/library" "$folder/run/library"
    while IFS= read -r line <&3 && IFS= read -r wanted <&4; do
        read -ra words <<< "$line"
        for program in "${programs[@]}"; do
            got=$(answer "$program" "${words[@]}")
            [ "$got" = "$wanted" ] || { echo "${case##*/}: ${program##*/} $line: expected '$wanted', got '$got'"; exit 1; }
        done
        runs=$((runs + 1))
    done 3< "$case/args" 4< "$case/expected"
    rm -r "$folder/run"
done
echo "endings: $runs stored runs agree (${programs[*]##*/})"

[ ! -x "$built/endings" ] || "$built/endings" "${programs[@]}"
