#!/usr/bin/env bash
# Times the counts of how a plan may end: 16 lengths of a body of 15 branches, in the largest library and in one with two such bodies.
#   bench/endings.sh [RUNS]     prints milliseconds for the 16 lengths, processor time, for each of RUNS runs (5 unless given)
set -euo pipefail
cd "$(dirname "$0")/.."
runs=${1:-5}

# shellcheck source=bench/scratch.sh
. bench/scratch.sh
# shellcheck source=bench/largest.sh
. bench/largest.sh
scratch lengths "$(sed -n 's/^endings: //p' crates.txt) endings transfer"

cat > "$copy/crates/lengths/src/main.rt" << 'END'
// Sixteen lengths of a plan's endings, a thousand times, of the library on standard input.
#![tactic(auto)]

const BUFFER: usize = 65536;

fn run(library: &[u8], n: usize) -> u32 {
    let mut sum: u32 = 0;
    for i in 0..n {
        if let Ok(counts) = endings::endings_of(library, 0, i % 16) {
            sum = counts.succeeded;
        }
    }
    sum
}

fn main(rt: HostRuntime) {
    let mut input = [0u8; BUFFER];
    let mut stdin = rt.stdin();
    let n = transfer::read_full(&rt, &mut stdin, &mut input).unwrap_or(0);
    if run(&input[..n], 16000) == 0 {
        let _ = rt.write_all(b"none of length 15\n");
    }
}
END

built lengths

largest_library "$copy/largest"
cost lengths 'largest library' "$copy/largest" "$runs"
cost lengths 'a library of two bodies, 484 bytes' tests/endings/largest-body/library "$runs"
