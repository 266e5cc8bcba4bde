#!/usr/bin/env bash
# loft: faults and warnings of the language against stored texts, round trips of every stored and some generated libraries,
# the examples' libraries and names against their plans, and what the journal commands say (tests/loft/journals.sh).
# `tests/loft.sh --write` stores the texts and the examples anew, for a change that was meant.
set -euo pipefail
cd "$(dirname "$0")/.."

log=$(mktemp)
folder=$(mktemp -d)
trap 'rm -rf "$folder" "$log"' EXIT
for build in test "build --release"; do
    # shellcheck disable=SC2086 # two words
    cargo $build --quiet --offline --locked --manifest-path tools/loft/Cargo.toml --target-dir target/cargo > "$log" 2>&1 ||
        { cat "$log"; exit 1; }
done
loft=$PWD/target/cargo/release/loft
write=${1:-}

# same NAME STORED GOT: stores what was got, or says how it differs from what is stored.
same() {
    if [ "$write" = --write ]; then
        cp "$3" "$2"
    elif ! cmp -s "$2" "$3"; then
        echo "$1 differs from $2:"
        diff "$2" "$3" | head -20 || true
        return 1
    fi
}

# checks FOLDER STATUS: `loft check` on each source of a folder gives its stored text and this exit status.
checks() {
    local source status
    for source in "tests/loft/$1"/*.plan; do
        status=0
        (cd "tests/loft/$1" && "$loft" check "${source##*/}") > "$folder/got" 2>&1 || status=$?
        [ "$status" -eq "$2" ] || { echo "$source: status $status, expected $2"; return 1; }
        same "loft check $source" "${source%.plan}.expected" "$folder/got"
        count=$((count + 1))
    done
}

# comes_back LIBRARY: decompile and build give the same bytes, once without names and once with them.
comes_back() {
    "$loft" decompile "$1" > "$folder/plain.plan"
    "$loft" build "$folder/plain.plan" -o "$folder/plain" > /dev/null 2>&1 || { echo "$1: its source has faults"; return 1; }
    cmp "$1" "$folder/plain/library"
    "$loft" decompile "$folder/plain/library" --names "$folder/plain/library.names" > "$folder/named.plan"
    "$loft" build "$folder/named.plan" -o "$folder/named" > /dev/null 2>&1
    cmp "$1" "$folder/named/library"
    back=$((back + 1))
}

# usage STATUS WORD..: loft ends with this status on these words.
usage() {
    local wanted=$1 status=0
    shift
    (cd "$folder" && "$loft" "$@") > "$folder/got" 2>&1 || status=$?
    [ "$status" -eq "$wanted" ] || { echo "loft $*: status $status, expected $wanted"; cat "$folder/got"; return 1; }
}

count=0
checks faults 1
checks warnings 0

back=0
refused=0
for library in tests/journals/*/library examples/*/library; do
    cp "$library" "$folder/library"
    if "$loft" decompile "$folder/library" > /dev/null 2> "$folder/got"; then
        comes_back "$folder/library"
        continue
    fi
    number=$(sed -n 's/^X //p' "${library%/*}/expected")
    grep -q "refused with ${number:-nothing}: " "$folder/got" || { echo "$library: $(cat "$folder/got")"; exit 1; }
    refused=$((refused + 1))
done

# Generated libraries come back too; damaged ones are refused by the number that the agent answers.
generate=target/cargo/release/generate
for seed in $([ ! -x "$generate" ] || seq 1 40); do
    "$generate" valid "$seed" "$folder/generated"
    ! "$loft" decompile "$folder/generated/library" > /dev/null 2>&1 || comes_back "$folder/generated/library"
    rm -rf "$folder/generated"
    "$generate" damaged "$seed" "$folder/generated"
    [ -e "$folder/generated/library" ] || continue
    status=0
    "$loft" decompile "$folder/generated/library" > /dev/null 2> "$folder/got" || status=$?
    number=$(sed -n 's/^X \([1-4]\)$/\1/p' "$folder/generated/output" | head -n 1)
    if [ "$status" -eq 1 ]; then
        grep -q "refused with ${number:-nothing}: " "$folder/got" || { echo "damaged $seed: $(cat "$folder/got")"; exit 1; }
        refused=$((refused + 1))
    fi
done

for source in examples/*/cell.plan; do
    "$loft" build "$source" -o "$folder/example" > "$folder/got" 2>&1
    ! grep -q warning: "$folder/got" || { cat "$folder/got"; exit 1; }
    same "$source" "${source%/*}/library" "$folder/example/library"
    same "$source" "${source%/*}/library.names" "$folder/example/library.names"
    "$loft" show "$source" > "$folder/got"
    same "loft show $source" "tests/loft/show-$(basename "${source%/*}").expected" "$folder/got"
    "$loft" decompile "${source%/*}/library" > "$folder/got"
    same "loft decompile of $source" "tests/loft/decompile-$(basename "${source%/*}").expected" "$folder/got"
done

usage 0 help
usage 0 help build
usage 2 help biuld
usage 0 build --help
usage 0 decompile --help
usage 2
usage 2 biuld
usage 2 build
usage 2 build a b
usage 2 build --fast a
usage 2 check missing.plan
usage 2 decompile missing
"$loft" help > /dev/full 2> "$folder/got"
[ ! -s "$folder/got" ] || { cat "$folder/got"; exit 1; }
cp examples/cutting-cell/library.names "$folder/other.names"
cp examples/eight-racks/library "$folder/library"
usage 1 decompile library --names other.names
grep -q 'belong to another library' "$folder/got"

bash tests/loft/tutorial.sh
bash tests/loft/journals.sh "$write"
echo "loft: $count sources give their stored faults and warnings; $back libraries come back from their source, $refused are refused"
