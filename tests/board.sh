#!/usr/bin/env bash
# The board by the table. Each folder of tests/board holds the files `image` and `library` of a run, as far as there are any, and
# `expected` with what `canarystand board` prints there. Runs the proved program on each, sees that no file was touched and, where there
# is python3, holds the board of every stored image against tests/board/page.py, which reads the image by itself.
set -euo pipefail
cd "$(dirname "$0")/.."

program=$(realpath "${PROGRAM:-crates/canarystand/out/canarystand}")
[ -x "$program" ] || { echo "crates/canarystand/out/canarystand is missing: rt ci builds it"; exit 1; }

folder=$(mktemp -d)
trap 'rm -rf "$folder"' EXIT

# board: what the program prints in the run's folder, to $folder/out; it says nothing and changes nothing there.
board() {
    cp -a "$folder/run" "$folder/kept"
    (cd "$folder/run" && timeout 10 "$program" board < /dev/null > ../out 2> ../err) || { echo "$1: status $?"; exit 1; }
    [ ! -s "$folder/err" ] || { echo "$1: $(cat "$folder/err")"; exit 1; }
    diff -r "$folder/run" "$folder/kept" || { echo "$1: a file was touched"; exit 1; }
    rm -r "$folder/run" "$folder/kept"
}

runs=0
for case in tests/board/*/; do
    mkdir "$folder/run"
    for file in image library; do
        [ ! -e "$case$file" ] || cp "$case$file" "$folder/run/$file"
    done
    board "$case"
    cmp "$case/expected" "$folder/out" || { cat "$folder/out"; exit 1; }
    runs=$((runs + 1))
done
echo "board: $runs stored runs agree"

command -v python3 > /dev/null || { echo "board: without python3 no image is read by page.py"; exit 0; }
read_back=0
for image in tests/board/*/image tests/shift/*/*.image; do
    mkdir "$folder/run"
    cp "$image" "$folder/run/image"
    board "$image"
    grep -q '^X' "$folder/out" || python3 tests/board/page.py "$image" | cmp - "$folder/out" || { echo "$image"; exit 1; }
    read_back=$((read_back + 1))
done
echo "board: $read_back images have the board of page.py"

# The page and the drawing of docs/ show a stored board.
stored=tests/board/eight-stacks/expected
python3 tests/board/picture.py "$stored" | cmp - docs/board.svg || { echo "docs/board.svg is another board's"; exit 1; }
shown=$(sed -n '/^    1 1 /,/^$/s/^    //p' docs/BOARD.md)
[ "$shown" = "$(cat "$stored")" ] || { echo "docs/BOARD.md shows another board"; exit 1; }
