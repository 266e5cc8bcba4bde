#!/usr/bin/env bash
# A ledger reads along: through pipes, each line is answered before the next one is written.
# Half of each line is written first, so that the program reads a line in two parts.
set -euo pipefail
cd "$(dirname "$0")/.."

program=$(realpath crates/canarystand/out/canarystand)
[ -x "$program" ] || { echo "crates/canarystand/out/canarystand is missing: rt ci builds it"; exit 1; }
patience=10

# dialogue CASE: writes the case's input line by line and compares each answer as it comes.
dialogue() {
    local line wanted answer half place=0
    coproc AGENT { cd "$1" && exec "$program"; }
    # shellcheck disable=SC2153 # coproc sets AGENT and AGENT_PID
    local pid=$AGENT_PID to=${AGENT[1]} from=${AGENT[0]}
    while IFS= read -r line <&3 && IFS= read -r wanted <&4; do
        place=$((place + 1))
        half=$((${#line} / 2))
        printf '%s' "${line:0:half}" >&"$to"
        sleep 0.002
        printf '%s\n' "${line:half}" >&"$to"
        IFS= read -r -t "$patience" answer <&"$from" || { kill "$pid"; echo "$1: line $place is not answered by itself"; return 1; }
        [ "$answer" = "$wanted" ] || { kill "$pid"; echo "$1: line $place: expected '$wanted', got '$answer'"; return 1; }
    done 3< "$1/input" 4< "$1/expected"
    exec {to}>&-
    ended "$pid" || { kill "$pid"; echo "$1: the program does not end with its input"; return 1; }
    answered=$((answered + place))
}

# ended PID: whether a program ends within the time limit.
ended() {
    local left=$((patience * 100))
    while kill -0 "$1" 2> /dev/null; do
        [ "$left" -gt 0 ] || return 1
        left=$((left - 1))
        sleep 0.01
    done
}

answered=0
for case in tests/journals/{document-01,eight-stacks,goal-second-plan} examples/cutting-cell; do
    dialogue "$case"
done
echo "pipe: $answered lines answered one by one"
