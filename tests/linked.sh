#!/usr/bin/env bash
# Compares the engine, built for this machine's own processor and linked into the second program, with it: millions of
# calls, the answer and every byte of the five buffers, of mpm_call and of the same call made by mpm_singly.
# linked.sh [COMPARE OPTIONS]: a minute with seed 1 unless said, as in `tests/linked.sh --seed 7 --seconds 600`.
set -euo pipefail
here=$(cd "$(dirname "${BASH_SOURCE[0]}")" && pwd -P)
# shellcheck source=../machine/kit.sh
. "$here/../machine/kit.sh"
[ $# -gt 0 ] || set -- --seed 1 --seconds 60

make_native
MPM_ARCHIVE=$native cargo build --quiet --release --offline -j2 -p compare --features linked \
    --manifest-path "$here/Cargo.toml" --target-dir "$root/target/linked"
"$root/target/linked/release/compare" --linked "$@" --failures "$root/target/failures"
