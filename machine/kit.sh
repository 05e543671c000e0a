# shellcheck shell=bash
# Sourced by the scripts beside it and by those of host, tests, fuzz and bench. Sets
#   root     the repository
#   kit      the Rattle kit, for x86-64 Linux
#   archive  the engine's archive: the file that MPM_ARCHIVE names, else the proved one
#   native   the engine's archive for this machine's own processor, which native.sh makes
#   warnings what C is compiled with
# and has the functions below.

root=$(cd "$(dirname "${BASH_SOURCE[0]}")/.." && pwd -P)
archive=${MPM_ARCHIVE:-$root/target/staticlib/libengine.a}
native=$root/target/native/libengine.a
# The processor that the engine's code is compiled for: any for x86-64.
processor=x86-64

find_kit() {
    local rt
    if [ -n "${RATTLE_HOME:-}" ]; then
        kit=$RATTLE_HOME
    elif rt=$(command -v rt); then
        kit=$(cd "$(dirname "$(readlink -f "$rt")")/.." && pwd -P)
    else
        echo "the Rattle kit is missing: put its rt on the path" >&2
        exit 2
    fi
    if [ "$(uname -m)" != x86_64 ] || [ ! -d "$kit/toolchain" ]; then
        echo "the kit at $kit has nothing for this machine, $(uname -m)" >&2
        exit 2
    fi
}

# A text that a crate is proved from, or the list of crates, is newer than the file, or there is none. A text gone makes
# its folder newer. What checks leave beside the texts does not count.
is_old() { # FILE
    [ ! -f "$1" ] || [ "$root/crates.txt" -nt "$1" ] ||
        [ -n "$(find "$root"/crates/*/{src,specs,proofs} -newer "$1" -print -quit 2>/dev/null)" ]
}

# Proves the crates that engine_c cites, where they are not, and it, and makes crates/engine_c/out/libengine_c.a.
prove_engine() {
    echo "proves the engine and makes its archive, some minutes" >&2
    (cd "$root/crates/engine_c" && "$kit/bin/rt" lib --cpu "$processor") >&2
}

# Proves the engine and makes its archive, if need be. The archive is dated to the start, so that a source changed
# meanwhile counts as newer.
make_archive() {
    if [ -n "${MPM_ARCHIVE:-}" ] || ! is_old "$archive"; then return; fi
    mkdir -p "$(dirname "$archive")"
    : >"$root/target/started"
    prove_engine
    cp "$root/crates/engine_c/out/libengine_c.a" "$archive"
    touch -r "$root/target/started" "$archive"
}

# build_engine TOOLCHAIN RESULT: proves engine_c alone and makes its archive, over the proved libraries that lie in the
# other crates' out/. These have to be of the sources as they stand.
build_engine() {
    local cited crate folder words=()
    cited=$(sed -n 's/#.*//; s/^engine_c staticlib: *//p' "$root/crates.txt")
    for crate in $cited; do words+=(--extern "$crate=$root/crates/$crate/out/rlib/$crate.rlib"); done
    for folder in "$root"/crates/*/out/rlib; do words+=(-L "dependency=$folder"); done
    (
        cd "$root/crates/engine_c" || exit
        "$kit/bin/rattle" build --crate-name engine_c src/lib.rt --crate-type staticlib --cpu "$processor" \
            --extern "std=$kit/rlibs/std.rlib" -L "dependency=$kit/rlibs" "${words[@]}" \
            --antt-project "$kit/rattle/logic/antt-project.json" --logic-built "$kit/logic_built" \
            --toolchain "$1" -o "$2"
    )
}

# Makes the archive for this machine's own processor, if need be.
make_native() {
    if is_old "$native"; then bash "$root/machine/native.sh"; fi
}

# bare_clang WORDS..: the kit's C compiler for x86-64, with the headers of libc/ alone. A system header could be of
# another C library, and would compile into something wrong without a word.
bare_clang() {
    "$kit/toolchain/bin/clang" --target=x86_64-unknown-linux-gnu -march=x86-64 --no-default-config -nostdinc \
        -isystem "$root/machine/libc" "$@"
}

# kit_clang WORDS..: the same with the engine's header.
kit_clang() {
    bare_clang -I "$root/include" "$@"
}

# kit_link PROGRAM OBJECTS..: links for x86-64 with the kit's C library, quiet unless it fails.
kit_link() {
    local program=$1
    shift
    "$kit/bin/rattle-link" --target x86_64-unknown-linux-gnu --toolchain "$kit/toolchain" \
        -o "$program" "$@" 2>"$program.log" || {
        cat "$program.log" >&2
        return 1
    }
}

# shellcheck disable=SC2034 # the scripts that source this use it
warnings=(-Wall -Wextra -Wpedantic -Wshadow -Wconversion -Werror)

find_kit
