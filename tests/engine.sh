#!/usr/bin/env bash
# Compares the archive that ships with the second program over a pipe: the answer and every byte of the five buffers, of
# mpm_call and of the same call made by mpm_singly.
# engine.sh [COMPARE OPTIONS]: 200,000 calls with seed 1 unless said, as in `tests/engine.sh --seed 7 --seconds 600`.
set -euo pipefail
here=$(cd "$(dirname "${BASH_SOURCE[0]}")" && pwd -P)
root=$(cd "$here/.." && pwd -P)
[ $# -gt 0 ] || set -- --seed 1 --calls 200000

cargo build --quiet --release --offline -j2 --manifest-path "$here/Cargo.toml"
bash "$root/machine/build.sh" "$here/pipe/pipe.c" "$root/target/pipe/pipe"
"$here/target/release/compare" "$@" --failures "$root/target/failures" -- \
    bash "$root/machine/run.sh" "$root/target/pipe/pipe"
