#!/usr/bin/env bash
# The words behind the program's name: a mode is answered, any others get one line of usage, and no file is touched for them.
set -euo pipefail
cd "$(dirname "$0")/.."

program=$(realpath crates/canarystand/out/canarystand)
[ -x "$program" ] || { echo "crates/canarystand/out/canarystand is missing: rt ci builds it"; exit 1; }
library=$(realpath tests/journals/document-01/library)
folder=$(mktemp -d)
trap 'rm -rf "$folder"' EXIT
cd "$folder"
patience=10
usage='usage: canarystand [shift | board | endings PLAN N]'
passed=0

# holds OUT ERR WORD..: with these words the program writes this and says this.
holds() {
    local out=$1 err=$2
    shift 2
    timeout "$patience" "$program" "$@" < /dev/null > out 2> err || { echo "words '$*': ended with $?"; return 1; }
    if [ "$(cat out)" != "$out" ] || [ "$(cat err)" != "$err" ]; then
        echo "words '$*': expected '$out' and '$err', got '$(cat out)' and '$(cat err)'"
        return 1
    fi
    passed=$((passed + 1))
}

# Nobody writes to these files, so a program that opens one waits for ever.
mkfifo library image
holds '' "$usage" ''
holds '' "$usage" endings
holds '' "$usage" endings 0
holds '' "$usage" endings 0 1 2
holds '' "$usage" endings 0 1 2 3
holds '' "$usage" endings '' 1
holds '' "$usage" endings 0 ''
holds '' "$usage" Endings 0 1
holds '' "$usage" ending 0 1
holds '' "$usage" endingss 0 1
holds '' "$usage" endings 65536 1
holds '' "$usage" endings 0 65536
holds '' "$usage" endings 000000 1
holds '' "$usage" endings 0 1x
holds '' "$usage" endings 0 ' 1'
holds '' "$usage" endings -1 1
holds '' "$usage" endings 0 +1
holds '' "$usage" endings 0 11111111111111111
holds '' "$usage" journal
holds '' "$usage" shif
holds '' "$usage" shifts
holds '' "$usage" Shift
holds '' "$usage" ' shift'
holds '' "$usage" shift ''
holds '' "$usage" shift shift
holds '' "$usage" shift 0 1
holds '' "$usage" boards
holds '' "$usage" board ''
holds '' "$usage" board 0
rm library image

cp "$library" library
holds '0 0' '' endings 0 0
holds '1 1' '' endings 0 1
holds '1 1' '' endings 00000 00001
holds 'X 11' '' endings 65535 65535
holds 'X 15' '' endings 0 16
holds '' ''
rm library
holds 'X 1' '' endings 0 1
head -c 65536 /dev/zero > library
holds 'X 2' '' endings 0 1

echo "words: $passed lists of words agree"
