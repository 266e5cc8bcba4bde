#!/usr/bin/env bash
# The proved program and the reference answer the same bytes on generated libraries and journals.
# So do shifts that carry an agent over from image to image, and images that are damaged.
# SEEDS=N and SHIFTS=N run more than the gate does; a seed that differs is written out by
# target/cargo/release/generate valid|damaged|long SEED FOLDER.
set -euo pipefail
cd "$(dirname "$0")/.."

command -v cargo > /dev/null || { echo "cargo is missing: the reference in reference/ and this comparison are built by it"; exit 1; }
[ -x "${PROVED:-crates/canarystand/out/canarystand}" ] || { echo "crates/canarystand/out/canarystand is missing: rt ci builds it"; exit 1; }

# Each shift syncs its image, for which a disk takes its time.
[ -n "${TMPDIR:-}" ] || [ ! -w /dev/shm ] || export TMPDIR=/dev/shm
log=$(mktemp)
trap 'rm -f "$log"' EXIT
for package in reference tests/differential; do
    for build in test "build --release"; do
        # shellcheck disable=SC2086 # two words
        cargo $build --quiet --offline --locked --manifest-path "$package/Cargo.toml" --target-dir target/cargo > "$log" 2>&1 ||
            { cat "$log"; exit 1; }
    done
done

target/cargo/release/differential --strict --seeds "${SEEDS:-400}" --long 2 "$@"
target/cargo/release/shifts "${PROVED:-crates/canarystand/out/canarystand}" target/cargo/release/reference "${SHIFTS:-200}"
