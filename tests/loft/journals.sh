#!/usr/bin/env bash
# What loft says of journals: stored, tampered, torn, growing and generated ones; in words, audited, summed up, drawn.
# Expected words stand in tests/loft/journals; --write takes what loft says now as expected.
set -euo pipefail
cd "$(dirname "$0")/../.."

loft=$(realpath "${LOFT:-target/cargo/release/loft}")
program=$(realpath "${PROVED:-crates/canarystand/out/canarystand}")
generate=target/cargo/release/generate
stored=$PWD/tests/loft/journals
write=${1:-}
[ -x "$loft" ] || { echo "$loft is missing: tests/loft.sh builds it"; exit 1; }
[ -x "$program" ] || { echo "$program is missing: rt ci builds it"; exit 1; }

folder=$(mktemp -d)
follower=''
trap '[ -z "$follower" ] || kill "$follower" 2> /dev/null || true; rm -rf "$folder"' EXIT

fail() {
    echo "loft journals: $1"
    exit 1
}

# expect NAME FILE: the file is what is stored under this name.
expect() {
    if [ "$write" = --write ]; then
        cp "$2" "$stored/$1"
    elif ! cmp -s "$stored/$1" "$2"; then
        diff "$stored/$1" "$2" | head -n 10 || true
        fail "$1 is not as stored"
    fi
}

# say STATUS WORDS..: runs loft in the folder, adds what it says to $folder/said, and wants this exit status.
say() {
    local wanted=$1 status=0
    shift
    echo "\$ loft $*" >> "$folder/said"
    (cd "$folder" && "$loft" "$@") >> "$folder/said" 2>&1 || status=$?
    [ "$status" -eq "$wanted" ] || fail "'loft $*' ends with $status, not $wanted"
}

# cell SOURCE INPUT: builds a cell in the folder and runs the program on an input.
cell() {
    "$loft" build "$1" -o "$folder" > "$folder/built" 2>&1 || fail "$1 does not build"
    cp "$2" "$folder/input"
    (cd "$folder" && "$program") < "$2" > "$folder/output"
}

# ---- In words and in rows

for name in cutting-cell eight-racks; do
    cell "examples/$name/cell.plan" "examples/$name/input"
    cmp -s "$folder/output" "examples/$name/expected" || fail "the journal of examples/$name has changed"
    "$loft" explain "$folder/library" "$folder/input" "$folder/output" > "$folder/words" || fail "$name does not agree"
    expect "$name.words" "$folder/words"
    "$loft" accounts "$folder/library" "$folder/input" "$folder/output" > "$folder/rows"
    expect "$name.accounts" "$folder/rows"
    "$loft" accounts --csv "$folder/library" "$folder/input" "$folder/output" > "$folder/rows"
    expect "$name.csv" "$folder/rows"
done

: > "$folder/said"
say 0 explain library input output --event 5
say 0 explain library input output --instance 24 --all
say 0 explain library input output --about 1003 --raw
say 0 accounts library input output --beliefs
expect filtered.words "$folder/said"

cell "$stored/reasons/cell.plan" "$stored/reasons/input"
"$loft" explain "$folder/library" "$folder/input" "$folder/output" > "$folder/words" || fail "reasons does not agree"
expect reasons/words "$folder/words"

# ---- Tampered and torn

cell examples/cutting-cell/cell.plan examples/cutting-cell/input
cp "$folder/output" "$folder/whole"
: > "$folder/said"
tampered() {
    echo "-- $1" >> "$folder/said"
    say "$2" explain library input output --about GIVEN
    say "$3" audit library input output --program "$program"
}
tampered "the journal as it is" 0 0
sed '11s/.*/F 2/' "$folder/whole" > "$folder/output"
tampered "line 11 changed" 1 1
sed '8s/ a +2 41 0 0//' "$folder/whole" > "$folder/output"
tampered "a belief change taken out of line 8" 1 1
sed 11d "$folder/whole" > "$folder/output"
tampered "line 11 lost" 1 1
head -c 203 "$folder/whole" > "$folder/output"
tampered "line 19 torn" 1 1
head -n 5 "$folder/whole" > "$folder/output"
tampered "five answers alone" 0 1
: > "$folder/output"
tampered "no answers" 0 1
(cat "$folder/whole"; echo I) > "$folder/output"
tampered "an answer too many" 1 1
printf 'T 1\nM 1 0 e 1\nM 2 1 e 1\n' > "$folder/output"
tampered "an event served twice" 1 1
cp "$folder/whole" "$folder/output"
cp examples/eight-racks/library.names "$folder/library.names"
say 1 explain library input output
rm "$folder/library.names"
say 1 explain library output input
say 2 explain library input missing
say 2 explain library . output
say 2 explain cell.plan input output
say 2 audit library input output --program missing
say 2 accounts library input
cp tests/journals/refused-4-tree/library tests/journals/refused-4-tree/input "$folder"
cp tests/journals/refused-4-tree/expected "$folder/output"
tampered "a refused library" 1 0
sed -i "s|$program|canarystand|g" "$folder/said"
expect tampered.words "$folder/said"

# ---- Every stored journal of an accepted library, and generated ones

count=0
agrees() {
    "$loft" explain "$1/library" "$1/input" "$2" > "$folder/words" 2>&1 || { tail -n 5 "$folder/words"; fail "$1 does not agree"; }
    "$loft" audit "$1/library" "$1/input" "$2" --program "$program" > "$folder/words" 2>&1 ||
        { cat "$folder/words"; fail "$1 is audited as another journal"; }
    count=$((count + 1))
}
for case in tests/journals/*/; do
    [ -e "$case/library" ] || continue
    "$loft" decompile "$case/library" > /dev/null 2>&1 && agrees "${case%/}" "$case/expected"
done
seeds=${SEEDS:-40}
[ -x "$generate" ] || seeds=0
for seed in $(seq 1 "$seeds"); do
    "$generate" valid "$seed" "$folder/seed"
    agrees "$folder/seed" "$folder/seed/output"
done

# ---- A journal that grows

cell examples/cutting-cell/cell.plan examples/cutting-cell/input
cp "$folder/output" "$folder/whole"
"$loft" explain "$folder/library" "$folder/input" "$folder/whole" > "$folder/words"
head -n 12 "$folder/whole" | head -c -2 > "$folder/output"
"$loft" explain -f "$folder/library" "$folder/input" "$folder/output" > "$folder/followed" &
follower=$!
# grown LINES: waits until the words of so many lines of the journal have come.
grown() {
    local lines
    lines=$(grep -n "^ *$1  " "$folder/words" | cut -d: -f1)
    for _ in $(seq 50); do
        [ "$(wc -l < "$folder/followed")" -lt "$lines" ] || return 0
        sleep 0.1
    done
    fail "the words of line $1 do not come as the journal grows"
}
grown 11
tail -c +$(($(wc -c < "$folder/output") + 1)) "$folder/whole" >> "$folder/output"
grown 28
kill "$follower"
wait "$follower" 2> /dev/null || true
follower=''
cmp -s <(head -n -1 "$folder/words") "$folder/followed" || fail "a journal that grows has other words"

# ---- Drawings

"$loft" draw examples/eight-racks/cell.plan -o "$folder/drawings" > /dev/null
drawn=$(find "$folder/drawings" -name '*.svg' | wc -l)
plans=$(grep -c '^plan \|^unchecked plan ' examples/eight-racks/cell.plan)
[ "$drawn" -eq $((plans + 1)) ] || fail "$drawn drawings of $plans plans"
for drawing in "$folder"/drawings/*.svg; do
    [ "$(head -c 4 "$drawing")" = "<svg" ] && [ "$(tail -n 1 "$drawing")" = "</svg>" ] || fail "${drawing##*/} is no drawing"
done

echo "loft journals: $count journals agree with the model and the program, $seeds of them generated; $drawn drawings"
