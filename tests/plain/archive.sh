#!/usr/bin/env bash
# archive.sh ARCHIVE: makes an archive of plain C with the engine's names, for this machine's own processor, with the
# system's compiler (CC, else cc).
# archive.sh --kit ARCHIVE: for x86-64, with the kit's.
# What takes an archive (MPM_ARCHIVE, host/test.sh, tests/desk.sh) then runs without the proved engine, as in
#   bash tests/plain/archive.sh --kit target/plain/kit.a && MPM_ARCHIVE=target/plain/kit.a bash tests/cpm/run.sh
set -euo pipefail
here=$(cd "$(dirname "${BASH_SOURCE[0]}")" && pwd -P)
# shellcheck source=../../machine/kit.sh
. "$here/../../machine/kit.sh"
compiler=system_cc
system_cc() { "${CC:-cc}" -I "$root/include" "$@"; }
if [ "${1:-}" = --kit ]; then
    compiler=kit_clang
    shift
fi
[ $# -eq 1 ] || {
    echo "use: archive.sh [--kit] ARCHIVE" >&2
    exit 2
}
mkdir -p "$(dirname "$1")"
work=$(mktemp -d)
trap 'rm -rf "$work"' EXIT

compile() { # OBJECT SOURCE WORDS..
    "$compiler" -std=c99 -O2 -fPIC "${warnings[@]}" "${@:3}" -c "$here/$2" -o "$work/$1"
}

compile small.o plain.c -DKIND=SMALL
compile large.o plain.c -DKIND=LARGE
compile plain.o plain_call.c
compile mpm.o mpm.c
rm -f "$1"
"$kit/toolchain/bin/llvm-ar" rcs "$1" "$work"/{small,large,plain,mpm}.o
