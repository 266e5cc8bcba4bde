# shellcheck shell=bash
# between NAME FILE: puts a file between the marks <!-- NAME --> and <!-- end of NAME --> of docs/BENCHMARKS.md.
between() {
    local document=docs/BENCHMARKS.md new
    new=$(mktemp)
    {
        sed "/^<!-- $1 -->\$/q" "$document"
        cat "$2"
        sed -n "/^<!-- end of $1 -->\$/,\$p" "$document"
    } > "$new"
    cat "$new" > "$document"
    rm -f "$new"
}
