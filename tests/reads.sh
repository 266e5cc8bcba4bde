#!/usr/bin/env bash
# Reads and writes that fail, are interrupted, would block or move a part: no half line is run, no answer is lost, and an error is named.
# tests/faults is a read and a write that fail by plan; the other cases are the system's own: pipes, directories, full devices.
# PROGRAM=FILE tests another program.
set -euo pipefail
cd "$(dirname "$0")/.."

program=$(realpath "${PROGRAM:-crates/canarystand/out/canarystand}")
[ -x "$program" ] || { echo "crates/canarystand/out/canarystand is missing: rt ci builds it"; exit 1; }
command -v cargo > /dev/null || { echo "cargo is missing: tests/faults is built by it"; exit 1; }
cargo build --quiet --release --offline --locked --manifest-path tests/faults/Cargo.toml --target-dir target/cargo
faults=$(realpath target/cargo/release/libfaults.so)

case=$(realpath tests/journals/document-01)
folder=$(mktemp -d)
trap 'rm -rf "$folder"' EXIT
cp "$case/library" "$folder/library"
cd "$folder"
interrupted=-4 failed=-5 would_block=-11
patience=20
passed=0

# holds NAME OUT ERR: what the program wrote to `out` and said in `err` is this and nothing else.
holds() {
    if [ "$(cat out; echo .)" != "$2"$'.' ] || [ "$(cat err)" != "$3" ]; then
        echo "$1: expected '$2' and '$3', got '$(head -c 200 out)' and '$(head -c 200 err)'"
        return 1
    fi
    passed=$((passed + 1))
}

# planned VARIABLE=PLAN..: the program with these faults, on standard input.
planned() { env LD_PRELOAD="$faults" "$@" timeout "$patience" "$program" > out 2> err; }

# run: the program on standard input.
run() { timeout "$patience" "$program" > out 2> err; }

# repeated LINE N: the line N times.
repeated() { head -n "$2" < <(yes "$1"); }

answers=$(cat "$case/expected"; echo .)
answers=${answers%.}
unread='canarystand: standard input: '
unwritten='canarystand: standard output: '
missing='canarystand: library counts as missing: '

# ---- Reads by plan

half=12
printf 'P 0 +1 5 0 12\nC\n' > lines
planned READ_INPUT="$half $failed" < lines
holds 'a read fails within a line' '' "${unread}Input/output error"
planned READ_INPUT="14 1 $failed" < lines
holds 'a read fails behind a line' $'T 1 a +1 5 0 12\n' "${unread}Input/output error"
planned READ_INPUT="$half $interrupted 1 $interrupted $interrupted 65536" < lines
holds 'reads are interrupted' $'T 1 a +1 5 0 12\nN 1 0\n' ''
planned READ_INPUT="$would_block $half $would_block 65536 $would_block 65536" < lines
holds 'reads would block' $'T 1 a +1 5 0 12\nN 1 0\n' ''
planned READ_INPUT="1" < "$case/input"
holds 'each read gives a byte' "$answers" ''

planned READ_FILE="$interrupted 1 $would_block 3 20 $interrupted 65536" < "$case/input"
holds 'a library in parts' "$answers" ''
planned READ_FILE="20 $failed" < "$case/input"
holds 'a library whose read fails' $'X 1\n' "${missing}Input/output error"

# ---- Writes by plan

planned WRITE_OUTPUT="1 $interrupted 2 $would_block 0 3 65536" < "$case/input"
holds 'writes in parts' "$answers" ''
planned WRITE_OUTPUT="3 $failed" < "$case/input"
holds 'a write fails' 'T 1' "${unwritten}Input/output error"

# ---- The system's own

run < .
holds 'standard input is a directory' '' "${unread}Is a directory"
run <&-
holds 'standard input is closed' '' "${unread}Bad file descriptor"
timeout "$patience" "$program" < "$case/input" > /dev/full 2> err
: > out
holds 'a full output device' '' "${unwritten}No space left on device"
timeout "$patience" "$program" < "$case/input" >&- 2> err
holds 'standard output is closed' '' "${unwritten}Bad file descriptor"
(
    trap '' PIPE
    mkfifo gone
    exec 3<> gone 4> gone 3>&-
    timeout "$patience" "$program" < "$case/input" >&4 2> err
)
holds 'nobody reads, and the signal is ignored' '' "${unwritten}Broken pipe"

rm library
run < "$case/input"
holds 'no library' $'X 1\n' ''
timeout "$patience" "$program" < "$case/input" > /dev/full 2> err
: > out
holds 'a refusal on a full device' '' "${unwritten}No space left on device"
mkdir library
run < "$case/input"
holds 'the library is a directory' $'X 1\n' "${missing}Is a directory"
rmdir library
ln -s library library
run < "$case/input"
holds 'the library is a link to itself' $'X 1\n' "${missing}Too many levels of symbolic links"
rm library
mkfifo library
(head -c 20 "$case/library"; sleep 0.1; tail -c +21 "$case/library") > library &
run < "$case/input"
wait "$!"
holds 'the library comes through a pipe, in two parts' "$answers" ''
rm library
cp "$case/library" library

# A line in two parts through a pipe that does not block, and some processor time for the wait: a tick is 10 ms.
mkfifo input
exec 3<> input 4< input 5> input 3>&-
dd iflag=nonblock count=0 status=none <&4
"$program" <&4 > out 2> err 5>&- &
pid=$!
exec 4<&-
(
    trap '' PIPE
    printf 'P 0 +1 5 0 1' >&5 || true
    sleep 0.5
    cut -d ' ' -f 14,15 "/proc/$pid/stat" > ticks || true
    printf '2\nC\n' >&5 || true
) 2> /dev/null
exec 5>&-
wait "$pid"
holds 'a line in two parts, without blocking' $'T 1 a +1 5 0 12\nN 1 0\n' ''
read -r user system < ticks
[ $((user + system)) -le 10 ] || { echo "waiting for half a line took $((user + system)) ticks of 50"; exit 1; }

# More answers than a pipe holds, written without blocking to a reader that sleeps.
mkfifo output
exec 3<> output 4< output 5> output 3>&-
dd oflag=nonblock count=0 status=none >&5
repeated C 100000 > cycles
"$program" < cycles >&5 2> err 4<&- &
pid=$!
exec 5>&-
sleep 0.2
cat <&4 > out
exec 4<&-
wait "$pid"
holds 'more answers than a pipe holds, without blocking' "$(repeated I 100000)"$'\n' ''

# ---- Many lines

# More lines than any other test has, and as many reads: a loop that counts its turns from too low a number stops early.
repeated C 1000000 > cycles
timeout 60 "$program" < cycles > out 2> err
cmp -s out <(repeated I 1000000) || { echo "many lines: $(wc -l < out) answers of 1000000"; exit 1; }
head -n 250000 cycles | LD_PRELOAD=$faults READ_INPUT=1 timeout 60 "$program" > out 2> err
cmp -s out <(repeated I 250000) || { echo "many reads: $(wc -l < out) answers of 250000"; exit 1; }

echo "reads: $passed cases of reads and writes agree; 1000000 lines, and 500000 reads of a byte"
