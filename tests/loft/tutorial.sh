#!/usr/bin/env bash
# docs/PLAN-AUTHOR.md is true: its files are written, its commands run in their order, and what they say is what the page shows.
# A block begins with ```plan FILE or ```input FILE (a file), or with ```says COMMAND (what the command prints).
set -euo pipefail
cd "$(dirname "$0")/../.."

page=docs/PLAN-AUTHOR.md
program=${PROVED:-crates/canarystand/out/canarystand}
[ -x "$program" ] || { echo "$program is missing: rt ci builds it"; exit 1; }
folder=$(mktemp -d)
trap 'rm -rf "$folder"' EXIT
mkdir "$folder/bin" "$folder/sources"
ln -s "$PWD/target/cargo/release/loft" "$folder/bin/loft"
ln -s "$(realpath "$program")" "$folder/bin/canarystand"

# says COMMAND: fails where the command prints something else than what the page shows.
says() {
    (cd "$folder/sources" && PATH=$folder/bin:$PATH bash -c "$1") > "$folder/got" 2>&1 || true
    cmp -s "$folder/shown" "$folder/got" || { echo "$page: '$1' says something else:"; diff "$folder/shown" "$folder/got"; return 1; }
}

file='' command='' count=0
while IFS= read -r line; do
    if [[ $line != '```'* ]]; then
        [ -z "$file" ] || printf '%s\n' "$line" >> "$file"
    elif [ -n "$file" ]; then
        [ -z "$command" ] || { says "$command"; count=$((count + 1)); }
        file='' command=''
    else
        case ${line#'```'} in
        plan\ * | input\ *) file=$folder/sources/${line#* } ;;
        says\ *) file=$folder/shown command=${line#* } ;;
        *) file=/dev/null ;;
        esac
        : > "$file"
    fi
done < "$page"

# The plans that the page does not show a fault of have none.
for source in "$folder"/sources/{cell,lock,offcuts}.plan; do
    grep -q '; 0 warnings$' <("$folder/bin/loft" check "$source" 2>&1) || { echo "$page: ${source##*/} has faults"; exit 1; }
done
echo "loft: $count commands of $page say what it shows"
