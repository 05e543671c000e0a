#!/usr/bin/env bash
# run.sh [--docs] [ROUNDS]: times the engine, the same work in plain C (tests/plain) and the reference, all built for
# this machine's own processor, on the same books in one run, on both kinds of drive; and calls for several records,
# beside the engine's single calls. Writes figures.md, rows.csv, plot.svg, several.csv and several.svg to target/bench
# and prints the summary. --docs: puts the figures into docs/PERFORMANCE.md, the plots and all rows beside it. run.sh
# --agree: times nothing, only compares what the three and the engine's single calls answer and leave. run.sh --desk
# [ROUNDS]: times the desk's functions (salvage, pack, same) alone, beside plain C, and prints each time beside what it
# is held against. MPM_ARCHIVE=FILE takes another engine for this processor. run.sh --before ARCHIVE [ROUNDS]: times the
# engine of the archive, which machine/native.sh has made at an earlier commit, and this tree's, taking turns in one
# run: the image check alone and the calls, with their stack. First the two have to answer and leave the same. Writes
# before.md and, with every call, before.csv to target/bench and prints the former. What parameters the archive's
# functions have is told by the mpm.h that native.sh has left beside it; where there is none, they are those of version
# 2, with one kind of drive. Then the small kind alone is timed.
set -euo pipefail
here=$(cd "$(dirname "${BASH_SOURCE[0]}")" && pwd -P)
# shellcheck source=../machine/kit.sh
. "$here/../machine/kit.sh"
work=$root/target/bench
plain=$root/tests/plain
docs=$root/docs/PERFORMANCE.md
objects=$work/plain-small.o:$work/plain-large.o:$work/plain.o:$work/stack.o:${MPM_ARCHIVE:-$native}

plain_clang() { # WORDS..
    "$kit/toolchain/bin/clang" --target="$(uname -m)-unknown-linux-gnu" --no-default-config -nostdinc \
        -isystem "$root/machine/libc" -I "$root/include" -std=c99 -O3 -fPIC "${warnings[@]}" "$@"
}

build() { # CARGO'S WORDS..
    [ -n "${MPM_ARCHIVE:-}" ] || make_native
    mkdir -p "$work"
    plain_clang -DKIND=SMALL -c "$plain/plain.c" -o "$work/plain-small.o"
    plain_clang -DKIND=LARGE -c "$plain/plain.c" -o "$work/plain-large.o"
    plain_clang -c "$plain/plain_call.c" -o "$work/plain.o"
    "${CC:-cc}" -std=c99 -O2 -fPIC "${warnings[@]}" -c "$here/stack.c" -o "$work/stack.o"
    MPM_ARCHIVE=${MPM_ARCHIVE:-$native} MPM_OBJECTS=$objects \
        cargo build --quiet --release --offline -j2 --manifest-path "$here/Cargo.toml" --target-dir "$work/cargo" "$@"
}

# The version in the header that lies beside an archive. Those from before it was left there are of version 2; a header
# that does not tell is of version 1.
version_of() { # ARCHIVE
    local header=${1%.a}.h
    if [ ! -f "$header" ]; then
        echo 2
        return
    fi
    if ! grep -q '^#define MPM_VERSION ' "$header"; then
        echo 1
        return
    fi
    sed -n 's/^#define MPM_VERSION \([0-9]*\)u$/\1/p' "$header"
}

# make_object ARCHIVE NAME: an archive's engine as the object NAME.o, whose functions begin with NAME_ instead of mpm_
# and have today's parameters (before.c). Each function is put at a multiple of 64: the same code lying otherwise to the
# processor's lines can take a tenth more.
make_object() {
    local name version words=() kept=()
    for name in call check look singly start; do
        kept+=(--keep-global-symbol "mpm_$name")
        words+=(--redefine-sym "mpm_$name=$2_own_$name")
    done
    version=$(version_of "$1")
    mkdir -p "$work"
    ld -r --whole-archive "$1" -o "$work/whole.o"
    objcopy "${kept[@]}" --set-section-alignment '.text*=64' "$work/whole.o"
    objcopy "${words[@]}" "$work/whole.o" "$work/own.o"
    "${CC:-cc}" -std=c99 -O2 -fPIC -falign-functions=64 "${warnings[@]}" -DNAME="$2" -DVERSION="$version" \
        -c "$here/before.c" -o "$work/outer.o"
    ld -r "$work/own.o" "$work/outer.o" -o "$work/$2.o"
}

# The archive is read before this tree's own is made: it may be that one, as an earlier commit has left it.
compare() { # ARCHIVE [ROUNDS]
    if [ ! -f "${1:-}" ]; then
        echo "use: run.sh --before ARCHIVE [ROUNDS], where ARCHIVE is a file" >&2
        exit 2
    fi
    make_object "$1" before
    shift
    make_native
    make_object "$native" now
    objects+=:$work/before.o:$work/now.o
    build --features before
    exec "$work/cargo/release/bench" --before "$work" "$@"
}

# The processor's name. Not every kind of machine has it in /proc/cpuinfo.
processor() {
    local name
    name=$(lscpu | sed -n 's/^Model name: *//p' | head -n 1)
    echo "${name:-a processor without a name}"
}

code_size() { size "$1" | awk 'NR > 1 { sum += $1 } END { print sum }'; }

# What a reader has to know of the run, and the sizes.
describe() {
    echo "Run on $(nproc) cores of $(processor), Linux $(uname -m), with" \
        "$("$kit/toolchain/bin/clang" --version | head -n 1) and $(rustc --version), $(date -u +%Y-%m-%d)." \
        "Code of the archive that ships: $(code_size "$archive") bytes;" \
        "built for this processor: $(code_size "$native")." |
        fold -s -w 120 | sed 's/ *$//'
    echo
}

put_into_docs() {
    awk -v figures="$work/figures.md" '
        /^<!-- figures end -->$/ { off = 0 }
        !off { print }
        /^<!-- figures -->$/ { off = 1; while ((getline line < figures) > 0) print line }' "$docs" >"$work/docs.md"
    cp "$work/docs.md" "$docs"
    cp "$work/plot.svg" "$root/docs/performance.svg"
    cp "$work/rows.csv" "$root/docs/performance.csv"
    cp "$work/several.svg" "$work/several.csv" "$root/docs"
}

if [ "${1:-}" = --before ]; then compare "${@:2}"; fi
into_docs=
if [ "${1:-}" = --docs ]; then
    into_docs=yes
    shift
fi
build
case ${1:-} in --agree | --desk) exec "$work/cargo/release/bench" "$@" ;; esac
"$work/cargo/release/bench" "$work" "$@"
{
    describe
    cat "$work/table.md"
} >"$work/figures.md"
if [ -n "$into_docs" ]; then put_into_docs; fi
