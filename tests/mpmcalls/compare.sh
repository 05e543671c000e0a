#!/usr/bin/env bash
# Compares the built program mpmcalls with the second program's on generated inputs, good, cut and damaged: standard
# output and DISK.OUT. compare.sh [COMPARE-MPMCALLS OPTIONS]: 300 runs unless said. MPMCALLS=FILE takes another build.
set -euo pipefail
here=$(cd "$(dirname "${BASH_SOURCE[0]}")" && pwd -P)
root=$(cd "$here/../.." && pwd -P)
[ $# -gt 0 ] || set -- --runs 300

cargo build --quiet --release --offline -j2 --manifest-path "$root/tests/Cargo.toml"
"$root/tests/target/release/compare-mpmcalls" "$@" -- \
    bash "$root/machine/run.sh" "${MPMCALLS:-$root/crates/mpmcalls/out/mpmcalls}"
