#!/usr/bin/env bash
# Times the board of 64 instances, eight on each of eight stacks, and of one.
#   bench/board.sh [RUNS]     prints seconds for ten thousand boards, processor time, for each of RUNS runs (5 unless given)
set -euo pipefail
cd "$(dirname "$0")/.."
runs=${1:-5}

# shellcheck source=bench/scratch.sh
. bench/scratch.sh
scratch boards "$(sed -n 's/^board: //p' crates.txt) board image transfer"

cat > "$copy/crates/boards/src/main.rt" << 'END'
// The board of the image on standard input, ten thousand times.
#![tactic(auto)]

use load::Agent;

const BUFFER: usize = 65536;

fn run(agent: Agent, out: &mut [u8], n: u32) -> usize {
    let mut size: usize = 0;
    for _ in 0..n {
        size = board::board(agent, out).unwrap_or(0);
    }
    size
}

fn main(rt: HostRuntime) {
    let mut input = [0u8; BUFFER];
    let mut out = [0u8; BUFFER];
    let mut stdin = rt.stdin();
    let n = transfer::read_full(&rt, &mut stdin, &mut input).unwrap_or(0);
    let boards = match image::restore::restore(&input[..n]) {
        Ok(agent) => run(agent, &mut out, 10000),
        Err(_) => 0,
    };
    if boards == 0 {
        let _ = rt.write_all(b"no board\n");
    }
}
END

built boards

cost boards '64 instances' tests/board/sixty-four/image "$runs"
cost boards 'one instance' tests/board/document-01/image "$runs"
