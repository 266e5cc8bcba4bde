#!/usr/bin/env bash
# A shift carried over by the file `image`: stored shifts, stored journals cut at every line, reads and writes of the image that fail,
# and programs that are ended while they save. tests/faults makes the calls fail by plan. PROGRAM=FILE tests another program.
set -euo pipefail
cd "$(dirname "$0")/.."

program=$(realpath "${PROGRAM:-crates/canarystand/out/canarystand}")
[ -x "$program" ] || { echo "crates/canarystand/out/canarystand is missing: rt ci builds it"; exit 1; }
command -v cargo > /dev/null || { echo "cargo is missing: tests/faults is built by it"; exit 1; }
cargo build --quiet --release --offline --locked --manifest-path tests/faults/Cargo.toml --target-dir target/cargo
faults=$(realpath target/cargo/release/libfaults.so)
journals=$(realpath tests/journals)
stored=$(realpath tests/shift)
page=$(realpath docs/IMAGE-FORMAT.md)

folder=$(mktemp -d)
trap 'rm -rf "$folder"' EXIT
mkdir "$folder/run"
cd "$folder/run"
patience=20
passed=0

# shift_on INPUT: the program on a file, in this folder.
shift_on() { timeout "$patience" "$program" shift < "$1" > ../out 2> ../err; }

# clear: nothing is left of the run before.
clear() { rm -rf "$folder/run/"*; }

# same NAME WANTED GOT: both files have the same bytes, or none is there.
same() {
    [ -f "$2" ] || [ -f "$3" ] || return 0
    cmp -s "$2" "$3" || { echo "$1: not the bytes of ${2#"$folder/"}"; od -An -tu1 -w20 "$3" | head -n 10; return 1; }
}

# holds NAME OUT ERR: what the program wrote and said is this and nothing else, and `image` is the file ../image, if there is one.
holds() {
    if [ "$(cat ../out; echo .)" != "$2"$'.' ] || [ "$(cat ../err)" != "$3" ]; then
        echo "$1: expected '$2' and '$3', got '$(head -c 200 ../out)' and '$(head -c 200 ../err)'"
        return 1
    fi
    same "$1" ../image image
    passed=$((passed + 1))
}

# ---- Stored shifts: the N-th of a folder reads N.input, answers N.expected and leaves N.image, or leaves what was there

shifts=0
for case in "$stored"/*/; do
    clear
    rm -f ../image
    for file in library image; do
        [ ! -e "$case$file" ] || cp "$case$file" "$file"
        [ ! -e "$case$file" ] || [ "$file" = library ] || cp "$file" ../image
    done
    for input in "$case"*.input; do
        place=${input%.input}
        [ ! -e "$place.image" ] || cp "$place.image" ../image
        shift_on "$input"
        same "$place" "$place.expected" ../out
        [ ! -s ../err ] || { echo "$place: $(cat ../err)"; exit 1; }
        same "$place" ../image image
        [ ! -e image.new ] || { echo "$place: image.new is left"; exit 1; }
        shifts=$((shifts + 1))
    done
done

# The page's example is the image of a stored shift; the page does not repeat the library's bytes.
# shellcheck disable=SC2016 # backquotes of Markdown
sed -n 's/^| [0-9]* | `\([0-9 ]*\)` |.*/\1/p' "$page" | tr ' ' '\n' > ../page
od -An -v -tu1 -w1 "$stored/waiting/1.image" | tr -d ' ' | sed '25,82d' | cmp -s - ../page ||
    { echo "docs/IMAGE-FORMAT.md: its example is not the image of tests/shift/waiting"; exit 1; }

# ---- Stored journals, cut

# whole CASE: the uncut journal's image in ../image.
whole() {
    clear
    [ ! -e "$1/library" ] || cp "$1/library" library
    shift_on "$1/input"
    same "$1, uncut" "$1/expected" ../out
    rm -f ../image
    [ ! -e image ] || mv image ../image
}

# joined CASE PART..: shifts over the parts answer what the uncut journal answers, and leave its image.
joined() {
    local case=$1 part
    shift
    for part; do
        timeout "$patience" "$program" shift < "$part"
    done > ../joined
    same "$case, cut in $#" "$case/expected" ../joined
    same "$case, cut in $#" ../image image
    rm -f image
    cuts=$((cuts + 1))
}

# A shift for each line of every journal whose library is accepted, and two shifts for each line of some.
cuts=0
for case in "$journals"/*/; do
    case=${case%/}
    case ${case##*/} in refused-[0-9]* | library-* | no-library | empty-input) continue ;; esac
    whole "$case"
    split -a 3 -l 1 "$case/input" ../line.
    joined "$case" ../line.*
    rm ../line.*
done
for case in "$journals"/{document-01,goal-second-plan,stack-of-8,eight-stacks,failed-event}; do
    whole "$case"
    for ((line = 0; line <= $(wc -l < "$case/input"); line++)); do
        head -n "$line" "$case/input" > ../first
        tail -n "+$((line + 1))" "$case/input" > ../second
        joined "$case" ../first ../second
    done
done

# ---- Images that cannot be read, and saves that fail

clear
cp "$stored/waiting/1.image" old
cp "$stored/waiting/2.image" new
cp "$stored/waiting/2.input" input
answers=$(cat "$stored/waiting/2.expected")$'\n'
unread='canarystand: image cannot be read: '
unsaved='canarystand: image is not saved: '
unsynced='canarystand: image is saved, and its folder is not synced: '
no_space=-28 failed=-5 interrupted=-4 denied=-13

# from OLD NEW: the folder has the image OLD, and is to have NEW behind the next shift.
from() {
    rm -rf image image.new
    cp "$1" image
    cp "$2" ../image
}

# planned VARIABLE=PLAN..: a shift with these faults.
planned() { env LD_PRELOAD="$faults" "$@" timeout "$patience" "$program" shift < input > ../out 2> ../err; }

from old old
planned READ_FILE="20 $failed"
holds 'a read of the image fails' '' "${unread}Input/output error"
from old new
planned READ_FILE="$interrupted 1 20 $interrupted 65536"
holds 'an image in parts' "$answers" ''
for size in 65535 65536 65537; do
    from old old
    truncate -s "$size" image ../image
    shift_on input
    holds "an image of $size bytes" $'X 12\n' ''
done

rm -r image ../image
ln -s image image
shift_on input
holds 'the image is a link to itself' '' "${unread}Too many levels of symbolic links"
rm image
mkdir image
cp "$journals/document-01/library" library
shift_on input
holds 'the image is a folder' '' "${unread}Is a directory"
rmdir image
if [ "$(id -u)" -ne 0 ]; then
    from old old
    chmod 000 image
    shift_on input
    chmod 600 image
    holds 'the image may not be read' '' "${unread}Permission denied"
    chmod 555 .
    shift_on input
    chmod 755 .
    holds 'the folder may not be written' "$answers" "${unsaved}Permission denied"
fi

from old old
mkdir image.new
shift_on input
holds 'a folder in the place of the new image' "$answers" "${unsaved}File exists"
rmdir image.new
from old new
ln image image.new
shift_on input
holds 'a new image that shares its bytes with the old one' "$answers" ''
from old new
ln -s image image.new
shift_on input
holds 'a new image that is a link to the old one' "$answers" ''

from old old
planned WRITE_FILE="$no_space"
holds 'no room for the image' "$answers" "${unsaved}No space left on device"
planned WRITE_FILE="50 $no_space"
holds 'room for a part of the image' "$answers" "${unsaved}No space left on device"
planned SYNC="$failed"
holds 'a sync fails' "$answers" "${unsaved}Input/output error"
planned RENAME="$denied"
holds 'a rename fails' "$answers" "${unsaved}Permission denied"
from old new
planned WRITE_FILE="1 $interrupted 0 -11 7 65536" SYNC="$interrupted $interrupted 0"
holds 'an image written in parts' "$answers" ''
from old new
planned SYNC="0 $failed"
holds 'a sync of the folder fails' "$answers" "${unsynced}Input/output error"

from old old
{ (trap '' XFSZ; ulimit -f 0; timeout "$patience" "$program" shift < input) 2>&1 >&3 | cat > ../err; } 3>&1 | cat > ../out
holds 'files may not have a byte' "$answers" "${unsaved}File too large"

# ---- No image of an input that was not read to its end, or not answered

from old old
planned READ_INPUT="2 $failed"
holds 'a read of the input fails' $'I\n' 'canarystand: standard input: Input/output error'
planned WRITE_OUTPUT="3 $failed"
holds 'a write fails' "${answers:0:3}" 'canarystand: standard output: Input/output error'
timeout "$patience" "$program" shift < input > /dev/full 2> ../err
: > ../out
holds 'a full output device' '' 'canarystand: standard output: No space left on device'
printf 'O 1 1' > last
timeout "$patience" "$program" shift < last > /dev/full 2> ../err
holds 'a full output device at a last line without newline' '' 'canarystand: standard output: No space left on device'

# ---- Ended while it saves

# killed WANTED VARIABLE=PLAN..: the program is ended by plan, and the image is WANTED.
killed() {
    local wanted=$1 status=0
    shift
    from old "$wanted"
    { env LD_PRELOAD="$faults" "$@" "$program" shift < input > ../out 2> ../err || status=$?; } 2> /dev/null
    [ "$status" -eq 137 ] || { echo "ended by $*: status $status"; return 1; }
    holds "ended by $*" "$answers" ''
}
killed old WRITE_FILE=kill
killed old WRITE_FILE='50 kill'
killed old SYNC=kill
killed old RENAME=kill
killed new SYNC='0 kill'

# At random moments. A write that would block is made again after a pause, so the save takes up most of a run.
rounds=100 news=0 halves=0
for ((round = 0; round < rounds; round++)); do
    from old new
    LD_PRELOAD=$faults WRITE_FILE='20 -11 20 -11 20 -11 20 -11 20' "$program" shift < input > ../out 2> ../err &
    pid=$!
    printf -v moment '0.%03d' $((RANDOM % 30))
    sleep "$moment"
    kill -9 "$pid" 2> /dev/null || true
    wait "$pid" 2> /dev/null || true
    [ ! -e image.new ] || halves=$((halves + 1))
    if cmp -s image new; then
        news=$((news + 1))
    else
        same 'ended at a random moment' old image
    fi
done

images="python3 is missing: images not compared with their text"
if command -v python3 > /dev/null; then
    images=$(python3 -B "$stored/make.py" --check)
fi
echo "shift: $shifts stored shifts, $cuts journals cut, $passed cases of reads, writes and ends agree; $images"
echo "shift: of $rounds programs ended at random moments $halves were within a save; $news left the new image, the others the old one"
