# shellcheck shell=bash
# largest_library FILE: writes a library of 19,332 bytes, the most that is accepted, into a file.

# two: a number in 16 bits, low byte first
two() {
    # shellcheck disable=SC2059 # a format made of two escapes
    printf "$(printf '\\x%02x\\x%02x' $(($1 % 256)) $(($1 / 256)))"
}
numbers() { for n in "$@"; do two "$n"; done; }
literal() { numbers "$1" "$2" 0 0; }

# a situation of four alternatives of four literals, a list of four actions, and a body of 16 states with 15 branches: 584 bytes
situation() { two 4; for _ in 1 2 3 4; do two 4; for _ in 1 2 3 4; do literal 1 65528; done; done; }
actions() { two 4; for _ in 1 2 3 4; do two 0; literal 1 65528; done; }
body() {
    local next=1 state branch
    two 16
    for state in 4 4 4 3 0 0 0 0 0 0 0 0 0 0 0 0; do
        two "$state"
        for ((branch = 0; branch < state; branch++)); do
            two 2; literal 1 65528; two "$next"
            next=$((next + 1))
        done
    done
}
plan() { two 2; literal 1 65528; situation; situation; actions; actions; body; }

# 32 such plans and 64 beliefs
largest_library() {
    local number
    {
        numbers 32 64
        for ((number = 0; number < 32; number++)); do numbers $((644 + 584 * number)) 584; done
        for ((number = 0; number < 64; number++)); do literal 2 "$number"; done
        for ((number = 0; number < 32; number++)); do plan; done
    } > "$1"
}
