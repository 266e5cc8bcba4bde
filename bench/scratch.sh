# shellcheck shell=bash
# scratch NAME DEPS: sets $copy to a copy of this repository's crates with a program crate NAME that rests on DEPS, to be filled and built
# there, since the gate need not wait for it. What a crate's out/ has is not proved again.
scratch() {
    local dep
    copy=$(mktemp -d)
    trap 'rm -rf "$copy"' EXIT
    git ls-files -z crates.txt crates | xargs -0 cp --parents -t "$copy"
    for dep in $2; do
        [ ! -d "crates/$dep/out" ] || cp -R "crates/$dep/out" "$copy/crates/$dep/"
    done
    mkdir -p "$copy/crates/$1/src"
    echo "$1: $2" >> "$copy/crates.txt"
}

# built NAME: proves and builds it; its run by rt, on an empty input, is not looked at.
built() {
    (cd "$copy/crates/$1" && rt run < /dev/null) > "$copy/log" 2>&1 || [ -x "$copy/crates/$1/out/$1" ] || { tail -n 20 "$copy/log"; exit 1; }
}

# cost NAME TEXT INPUT RUNS: the processor time of each run on a file, in seconds.
cost() {
    local TIMEFORMAT='%U %S'
    printf '%s:' "$2"
    for ((run = 0; run < $4; run++)); do
        { time "$copy/crates/$1/out/$1" < "$3" > "$copy/out"; } 2>&1 | awk '{ printf " %.3f", $1 + $2 }'
    done
    echo
}
