#!/usr/bin/env bash
# Times the agent's public cycle by itself, a million times and idle: without events, beside one waiting stack, with the largest library.
#   bench/calls.sh [RUNS]     prints microseconds a cycle, processor time, for each of RUNS runs (5 unless given)
set -euo pipefail
cd "$(dirname "$0")/.."
runs=${1:-5}

# shellcheck source=bench/scratch.sh
. bench/scratch.sh
# shellcheck source=bench/largest.sh
. bench/largest.sh
scratch cycles "$(sed -n 's/^canarystand: //p' crates.txt)"

cat > "$copy/crates/cycles/src/main.rt" << 'END'
// A million cycles by the agent's public call: on an agent without events; beside one waiting stack where the input has a byte; with
// the library of the input where it has more.
#![tactic(auto)]

use agent::calls;
use literal::Literal;
use load::Agent;

const BUFFER: usize = 65536;

fn run(a: Agent, n: u32) -> Agent {
    let mut agent = a;
    for _ in 0..n {
        let replied = calls::cycle(agent);
        agent = replied.agent;
    }
    agent
}

fn reported(a: Agent) -> Agent {
    let belief = Literal {
        head: 1,
        first: 5,
        second: 0,
        third: 0,
    };
    let replied = calls::report(a, 0, belief);
    replied.agent
}

fn main(rt: HostRuntime) {
    let Ok(mut agent) = load::load(&[
        1, 0, 0, 0, 8, 0, 50, 0, 0, 0, 1, 0, 248, 255, 0, 0, 0, 0, 1, 0, 0, 0, 1, 0, 0, 0, 1, 0, 1, 0, 1, 0,
        248, 255, 0, 0, 0, 0, 0, 0, 2, 0, 1, 0, 2, 0, 9, 0, 248, 255, 0, 0, 0, 0, 1, 0, 0, 0,
    ]) else {
        return;
    };
    let mut input = [0u8; BUFFER];
    let mut stdin = rt.stdin();
    let n = transfer::read_full(&rt, &mut stdin, &mut input).unwrap_or(0);
    if n == 1 {
        agent = reported(agent);
    }
    if 1 < n {
        let Ok(given) = load::load(&input[..n]) else {
            let _ = rt.write_all(b"no library\n");
            return;
        };
        agent = given;
    }
    let last = run(agent, 1000000);
    if last.length == 0 {
        let _ = rt.write_all(b"no library\n");
    }
}
END

built cycles
printf . > "$copy/input"
largest_library "$copy/largest"
cost cycles 'without events' /dev/null "$runs"
cost cycles 'beside one waiting stack' "$copy/input" "$runs"
cost cycles 'with the largest library' "$copy/largest" "$runs"
