#!/usr/bin/env bash
# native.sh [ARCHIVE]: the engine as an archive for this machine's own processor, for tests and measurements with the
# system's compiler, and its LLVM text, target/native/engine.ll. Makes target/native/libengine.a unless said otherwise.
# Never shipped. The engine is proved and compiled as for the shipped archive; a compiler put in between keeps the
# bitcode that it is given, and that is compiled once more. Beside the archive is left its mpm.h, under the archive's
# name: from it bench/run.sh --before knows how an earlier engine is called.
set -euo pipefail
unset MPM_ARCHIVE
# shellcheck source=kit.sh
. "$(dirname "${BASH_SOURCE[0]}")/kit.sh"
work=$root/target/native
result=$(realpath -m "${1:-$native}")
real=$kit/toolchain/bin
# Not below the repository, where rt refuses links.
between=$(mktemp -d)
trap 'rm -rf "$between"' EXIT

# A toolchain as the kit's, whose clang first keeps a copy of the bitcode.
put_between() {
    mkdir "$between/bin"
    ln -s "$kit/toolchain/lib" "$between/lib"
    ln -s "$real"/* "$between/bin/"
    rm "$between/bin/clang"
    cat >"$between/bin/clang" <<SCRIPT
#!/bin/sh
for word in "\$@"; do case \$word in *.bc) cp "\$word" '$work/engine.bc' ;; esac; done
exec '$real/clang' "\$@"
SCRIPT
    chmod +x "$between/bin/clang"
}

compile_again() {
    "$real/clang" --target=x86_64-unknown-linux-gnu --no-default-config -S -emit-llvm -Xclang -disable-llvm-passes \
        -x ir "$work/engine.bc" -o "$work/x86-64.ll"
    sed -e '/^target datalayout/d' -e '/^target triple/d' \
        -e 's/"target-cpu"="[^"]*"//; s/"target-features"="[^"]*"//; s/"tune-cpu"="[^"]*"//' \
        "$work/x86-64.ll" >"$work/engine.ll"
    "$real/clang" --target="$(uname -m)-unknown-linux-gnu" --no-default-config -Wno-override-module -O3 -fPIC \
        -ffunction-sections -fdata-sections -mllvm -trap-unreachable -mllvm -no-trap-after-noreturn \
        -c -x ir "$work/engine.ll" -o "$work/engine.o"
}

make_archive
[ -d "$root/crates/engine/out/rlib/engine.rlib" ] || prove_engine
echo "builds the engine for this machine's own processor, a minute or two" >&2
rm -rf "$work"
mkdir -p "$work"
put_between
build_engine "$between" "$work/x86-64.a" >"$work/log" 2>&1 || {
    cat "$work/log" >&2
    exit 1
}
compile_again
mkdir -p "$(dirname "$result")"
rm -f "$result"
"$real/llvm-ar" rcs "$result" "$work/engine.o"
cp "$root/include/mpm.h" "${result%.a}.h"
touch -r "$archive" "$result"
