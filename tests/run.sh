#!/usr/bin/env bash
# Builds and tests the second program and compares it with itself; one line for each step.
# run.sh [SECONDS]: how long the self-comparison takes, 30 unless said.
set -euo pipefail
here=$(cd "$(dirname "${BASH_SOURCE[0]}")" && pwd -P)
seconds=${1:-30}
log=$(mktemp)
trap 'rm -f "$log"' EXIT
cd "$here"

# Runs a step quietly; shows its output only if it failed.
step() {
    local name=$1
    shift
    if ! "$@" >"$log" 2>&1; then
        cat "$log"
        echo "$name: FAILED"
        exit 1
    fi
    echo "$name: ok"
}

step "build" cargo build --release --offline -j1
if cargo fmt --version >/dev/null 2>&1; then
    step "format" cargo fmt --check
fi
if cargo clippy --version >/dev/null 2>&1; then
    step "clippy" cargo clippy --release --offline -j1 --all-targets -- -D warnings
fi
step "test" cargo test --release --offline -j1
if command -v python3 >/dev/null 2>&1; then
    step "cases of mpmcalls" python3 "$here/mpmcalls/cases.py" --document -- "$here/target/release/reference-mpmcalls"
fi
step "compare mpmcalls, 5 seconds" target/release/compare-mpmcalls --seconds 5 -- target/release/reference-mpmcalls
step "compare the desk's functions" target/release/compare-desk --cases 5000
step "compare over a pipe, 5 seconds" target/release/compare --seconds 5 -- target/release/reference-pipe
if command -v "${CC:-cc}" >/dev/null 2>&1; then
    step "pipe.c and desk.c" "$here/pipe/selftest.sh" 5
fi
target/release/compare --seconds "$seconds" >"$log" 2>/dev/null || {
    cat "$log"
    echo "compare, $seconds seconds: FAILED"
    exit 1
}
echo "compare, $seconds seconds: $(head -n 1 "$log")"
