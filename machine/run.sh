#!/usr/bin/env bash
# run.sh PROGRAM [WORDS..]: runs an x86-64 program with the kit's loader and C library.
set -euo pipefail
# shellcheck source=kit.sh
. "$(dirname "${BASH_SOURCE[0]}")/kit.sh"
[ $# -ge 1 ] || {
    echo "use: run.sh PROGRAM [WORDS..]" >&2
    exit 2
}
lib=$kit/toolchain/lib
exec "$lib/ld-linux-x86-64.so.2" --library-path "$lib" "$@"
