#!/usr/bin/env bash
# Times restore and save of the largest agent, an image of 23,836 bytes, beside the reference's calls.
#   bench/images.sh [RUNS]     the reference's microseconds a call, the least of RUNS runs (5 unless given); then the proved calls'
#                              seconds for ten thousand calls, processor time, for each of RUNS runs. Saves begin with one restore.
set -euo pipefail
cd "$(dirname "$0")/.."
runs=${1:-5}

# shellcheck source=bench/scratch.sh
. bench/scratch.sh
cargo build --quiet --release --offline --locked --manifest-path bench/Cargo.toml --target-dir target/cargo
scratch images "$(sed -n 's/^image: //p' crates.txt) image transfer"

cat > "$copy/crates/images/src/main.rt" << 'END'
// Ten thousand restores of the image on standard input, behind a byte r; or, behind another byte, ten thousand saves of its agent.
#![tactic(auto)]

use load::Agent;

const BUFFER: usize = 65536;

fn run(bytes: &[u8], n: u32) -> usize {
    let mut size: usize = 0;
    for _ in 0..n {
        if let Ok(agent) = image::restore::restore(bytes) {
            size = agent.length;
        }
    }
    size
}

fn saves(agent: &Agent, out: &mut [u8], n: u32) -> usize {
    let mut size: usize = 0;
    for _ in 0..n {
        size = image::save::save(agent, out).unwrap_or(0);
    }
    size
}

fn made(kind: u8, bytes: &[u8], out: &mut [u8]) -> usize {
    if kind == b'r' {
        return run(bytes, 10000);
    }
    match image::restore::restore(bytes) {
        Ok(agent) => saves(&agent, out, 10000),
        Err(_) => 0,
    }
}

fn main(rt: HostRuntime) {
    let mut input = [0u8; BUFFER];
    let mut out = [0u8; BUFFER];
    let mut kind = [0u8; 1];
    let mut stdin = rt.stdin();
    let _ = transfer::read_full(&rt, &mut stdin, &mut kind);
    let n = transfer::read_full(&rt, &mut stdin, &mut input).unwrap_or(0);
    if made(kind[0], &input[..n], &mut out) == 0 {
        let _ = rt.write_all(b"refused\n");
    }
}
END

built images

target/cargo/release/images "$copy/image" "$runs"
{ printf r; cat "$copy/image"; } > "$copy/restores"
{ printf s; cat "$copy/image"; } > "$copy/saves"
cost images restore "$copy/restores" "$runs"
cost images save "$copy/saves" "$runs"
