#!/usr/bin/env bash
# Tries pipe.c: over the reference and over plain C it must compare the same, over each bad stub, each wrong plain side,
# each engine that is wrong about the kind of drive, the bad entry, the vector or the rule different. Then desk.c
# likewise, over the reference, over plain C and over wrong desks. Needs a C compiler (CC, else cc) and the built
# `compare` and `compare-desk`.
set -euo pipefail
here=$(cd "$(dirname "${BASH_SOURCE[0]}")" && pwd -P)
compare=$here/../target/release/compare
seconds=${1:-5}
flags=(-std=c99 -O2 -Wall -Wextra -Wpedantic -Wshadow -Wconversion -Werror)
archive=$here/../target/release/libexports.a
libraries=(-lpthread -ldl -lm)
work=$(mktemp -d)
trap 'rm -rf "$work"' EXIT

# The comparison must fail, and say so in these words.
must_differ() { # NAME WORDS
    if "$compare" --seconds 1 --failures "$work/failures" -- "$work/engine" >"$work/out" 2>/dev/null; then
        echo "$1: taken for the same"
        exit 1
    fi
    grep -q "$2" "$work/out" || {
        cat "$work/out"
        echo "$1: no '$2' reported"
        exit 1
    }
}

# The engine over the reference with one fault: some of its functions are those of FILE.
build_wrong() { # NUMBER FILE FUNCTIONS..
    local number=$1 file=$2 renamed=()
    shift 2
    for function in "$@"; do renamed+=("-Dmpm_$function=wrong_$function"); done
    "${CC:-cc}" "${flags[@]}" "${renamed[@]}" -c "$here/pipe.c" -o "$work/pipe.o"
    "${CC:-cc}" "${flags[@]}" -DWRONG="$number" "$work/pipe.o" "$here/$file" "$archive" "${libraries[@]}" \
        -o "$work/engine"
}

cargo build --quiet --release --offline -j1 -p exports --manifest-path "$here/../Cargo.toml"
"${CC:-cc}" "${flags[@]}" "$here/pipe.c" "$archive" "${libraries[@]}" -o "$work/pipe"
"$compare" --seconds "$seconds" --failures "$work/failures" -- "$work/pipe" >"$work/out" 2>/dev/null || {
    cat "$work/out"
    echo "pipe over the reference: different"
    exit 1
}
echo "pipe over the reference: $(head -n 1 "$work/out")"

for stub in {1..7}; do
    "${CC:-cc}" "${flags[@]}" -DSTUB="$stub" "$here/pipe.c" "$here/stub.c" -o "$work/engine"
    must_differ "stub $stub" '^different'
done
echo "pipe over seven bad stubs: all seen"

for wrong in {1..11}; do
    case $wrong in
        7) words='guards broken: 0001000000' ;;
        11) words='guards broken: 1000000000' ;;
        *) words='mpm_singly has done otherwise' ;;
    esac
    build_wrong "$wrong" wrong.c singly
    must_differ "wrong plain side $wrong" "$words"
done
echo "pipe over eleven wrong plain sides: all seen"

for wrong in {1..12}; do
    build_wrong "$wrong" wrong_kind.c call singly start check look
    must_differ "wrong about the kind $wrong" '^different'
    if grep -q 'mpm_singly has done otherwise' "$work/out"; then
        echo "wrong about the kind $wrong: seen by the plain side, which has the same fault"
        exit 1
    fi
done
echo "pipe over twelve engines wrong about the kind: all seen"

for wrong in 1 2 3 4 5; do
    build_wrong "$wrong" wrong_check.c check
    must_differ "wrong about the bad entry $wrong" '^different'
done
echo "pipe over five image checks wrong about the bad entry: all seen"

for wrong in {1..17}; do
    build_wrong "$wrong" wrong_vector.c call singly vector
    must_differ "wrong about the vector $wrong" '^different'
    if grep -q 'mpm_singly has done otherwise' "$work/out"; then
        echo "wrong about the vector $wrong: seen by the plain side, which has the same fault"
        exit 1
    fi
done
echo "pipe over 17 engines wrong about the vector: all seen"

for wrong in {1..9}; do
    build_wrong "$wrong" wrong_rule.c call singly start check look vector
    must_differ "wrong about the rule $wrong" '^different'
    if grep -q 'mpm_singly has done otherwise' "$work/out"; then
        echo "wrong about the rule $wrong: seen by the plain side, which has the same fault"
        exit 1
    fi
done
echo "pipe over nine engines wrong about the rule: all seen"

desk=$here/../target/release/compare-desk
plain=$here/../plain

desk_differs() { # NAME WORDS
    if "$desk" --seconds 1 --failures "$work/failures" -- "$work/engine" >"$work/out" 2>/dev/null; then
        echo "$1: taken for the same"
        exit 1
    fi
    grep -q "$2" "$work/out" || {
        cat "$work/out"
        echo "$1: no '$2' reported"
        exit 1
    }
}

desk_is_same() { # WHAT OBJECTS..
    "${CC:-cc}" "${flags[@]}" "$here/desk.c" "${@:2}" "${libraries[@]}" -o "$work/desk"
    "$desk" --cases 5000 --failures "$work/failures" -- "$work/desk" >"$work/out" 2>/dev/null || {
        cat "$work/out"
        echo "desk over $1: different"
        exit 1
    }
    echo "desk over $1: $(head -n 1 "$work/out")"
}

compile_plain() { # OBJECT SOURCE WORDS..
    "${CC:-cc}" "${flags[@]}" -I "$here/../../include" "${@:3}" -c "$plain/$2" -o "$work/$1"
}

compile_plain small.o plain.c -DKIND=SMALL
compile_plain large.o plain.c -DKIND=LARGE
compile_plain call.o plain_call.c
compile_plain mpm.o mpm.c
"${CC:-cc}" "${flags[@]}" "$here/pipe.c" "$work"/{small,large,call,mpm}.o -o "$work/pipe"
"$compare" --seconds "$seconds" --failures "$work/failures" -- "$work/pipe" >"$work/out" 2>/dev/null || {
    cat "$work/out"
    echo "pipe over plain C: different"
    exit 1
}
echo "pipe over plain C: $(head -n 1 "$work/out")"
desk_is_same "the reference" "$archive"
desk_is_same "plain C" "$work"/{small,large,call,mpm}.o

"${CC:-cc}" "${flags[@]}" -Dmpm_salvage=wrong_salvage -Dmpm_pack=wrong_pack -Dmpm_same=wrong_same \
    -c "$here/desk.c" -o "$work/desk.o"
for wrong in {1..21}; do
    case $wrong in
        5) words='guards broken: 00000010' ;;
        6) words='guards broken: 00000001' ;;
        8) words='pipe: ' ;;
        13) words='guards broken: 00000100' ;;
        *) words='^different' ;;
    esac
    "${CC:-cc}" "${flags[@]}" -DWRONG="$wrong" "$work/desk.o" "$here/wrong_desk.c" "$archive" "${libraries[@]}" \
        -o "$work/engine"
    desk_differs "wrong desk $wrong" "$words"
done
echo "desk over 21 wrong desks: all seen"
