#!/usr/bin/env bash
# Compares the desk's functions (mpm_salvage, mpm_pack, mpm_same) of the archive that ships with the second program's
# over a pipe: the answer and every byte of every buffer.
# desk.sh [COMPARE-DESK OPTIONS]: 20,000 cases with seed 1 unless said, as in `tests/desk.sh --seed 7 --seconds 600`.
# desk.sh --linked [OPTIONS]: the engine built for this machine's own processor and linked in, 300,000 cases unless
# said.
# MPM_ARCHIVE=FILE takes another archive: for x86-64, and with --linked for this processor.
set -euo pipefail
here=$(cd "$(dirname "${BASH_SOURCE[0]}")" && pwd -P)
# shellcheck source=../machine/kit.sh
. "$here/../machine/kit.sh"
failures=$root/target/failures

over_the_pipe() { # OPTIONS..
    [ $# -gt 0 ] || set -- --seed 1 --cases 20000
    cargo build --quiet --release --offline -j2 --manifest-path "$here/Cargo.toml"
    bash "$root/machine/build.sh" "$here/pipe/desk.c" "$root/target/pipe/desk"
    "$here/target/release/compare-desk" "$@" --failures "$failures" -- \
        bash "$root/machine/run.sh" "$root/target/pipe/desk"
}

linked() { # OPTIONS..
    [ $# -gt 0 ] || set -- --seed 1 --cases 300000
    [ -n "${MPM_ARCHIVE:-}" ] || make_native
    MPM_ARCHIVE=${MPM_ARCHIVE:-$native} cargo build --quiet --release --offline -j2 -p compare --features linked \
        --manifest-path "$here/Cargo.toml" --target-dir "$root/target/linked"
    "$root/target/linked/release/compare-desk" --linked "$@" --failures "$failures"
}

if [ "${1:-}" = --linked ]; then linked "${@:2}"; else over_the_pipe "$@"; fi
