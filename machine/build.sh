#!/usr/bin/env bash
# build.sh SOURCE PROGRAM [SOURCES..]: compiles a program in C and links it with the engine, for x86-64, with the kit
# alone: no system compiler and no system header.
# The engine is proved first where its archive is missing or older than the sources; MPM_ARCHIVE=FILE takes another.
set -euo pipefail
# shellcheck source=kit.sh
. "$(dirname "${BASH_SOURCE[0]}")/kit.sh"
[ $# -ge 2 ] || {
    echo "use: build.sh SOURCE PROGRAM [SOURCES..]" >&2
    exit 2
}
program=$2

make_archive
mkdir -p "$(dirname "$program")"
objects=()
for source in "$1" "${@:3}"; do
    objects+=("$program-$((${#objects[@]} + 1)).o")
    kit_clang -std=c99 -O2 -fPIC "${warnings[@]}" -c "$source" -o "${objects[-1]}"
done
kit_link "$program" "${objects[@]}" "$archive"
