#!/usr/bin/env bash
# test.sh [ARCHIVE]: tests the C side; a line for each test, exit status 1 at the first that fails.
# With the kit: mpm.h as C and as C++, its helpers; a host outside the repository, made with what install.sh installs;
# the story on each kind of drive against expected.sh, and the story over bad engines, which it must not take for good
# ones (the plain engine of a bad one is as bad, so that the two do not give each other away); the desk's program on
# images damaged in each way, its sizes, free space and lists of files, and over bad image checks, searches, vectors,
# salvages, packers and comparisons; saving on a disk that fails and a machine that stops; the minimal host on a full
# disk, in a read-only folder and killed 50 times. Beside the kit it wants pkg-config, python3 and a C compiler.
# With ARCHIVE, an engine for this machine's own processor (of machine/native.sh, or the reference of
# tests/pipe/exports): the header, the helpers, the story, the desk's program and saving with the system's compilers
# (CC, CXX), under the sanitizers of addresses and undefined behaviour.
set -euo pipefail
here=$(cd "$(dirname "${BASH_SOURCE[0]}")" && pwd -P)
# shellcheck source=../machine/kit.sh
. "$here/../machine/kit.sh"
work=$root/target/host/test
build=$root/machine/build.sh
run=$root/machine/run.sh
story=$work/story
stub=$root/tests/pipe/stub.c
spoiled=$root/fuzz/spoiled.c
wrong_desk=$root/tests/pipe/wrong_desk.c
wrong_vector=$root/tests/pipe/wrong_vector.c

system_cc() { "${CC:-cc}" -I "$root/include" "$@"; }
system_cxx() { "${CXX:-c++}" -I "$root/include" "$@"; }
sanitized() { # PROGRAM SOURCES..
    system_cc -std=c99 -O1 -g "${warnings[@]}" -fsanitize=address,undefined -fno-sanitize-recover=all "${@:2}" \
        -lpthread -ldl -lm -o "$1"
}

# Runs a test quietly; shows what it said only if it failed. Inside it `set -e` is off: tests are chains of &&.
try() {
    local name=$1
    shift
    if ! "$@" >"$work/log" 2>&1; then
        cat "$work/log"
        echo "$name: FAILED"
        exit 1
    fi
    echo "$name: ok"
}

ends_with() { # STATUS WORDS..
    local want=$1 status=0
    shift
    "$@" || status=$?
    echo "exit status $status, to be $want"
    [ "$status" -eq "$want" ]
}

fresh_book() {
    rm -rf "$work/book" && mkdir "$work/book"
}

tells_the_story() { # KIND RUN..
    local kind=$1 status=0
    shift
    fresh_book && "$@" "$work/book" "$kind" >"$work/told" || status=$?
    "$here/expected.sh" "$kind" | diff -u - "$work/told" && [ "$status" -eq 0 ]
}

tells_it_small_unless_told() { # RUN..
    fresh_book && "$@" "$work/book" >"$work/told" && "$here/expected.sh" small | diff -u - "$work/told"
}

keeps_an_old_book() { # RUN..
    fresh_book && echo old >"$work/book/ORDERS.BOOK" && ends_with 2 "$@" "$work/book" &&
        [ "$(cat "$work/book/ORDERS.BOOK")" = old ]
}

sees_a_bad_engine() { # STUB
    kit_clang -std=c99 -O2 -fPIC -DSTUB="$1" -c "$stub" -o "$work/stub.o" &&
        MPM_ARCHIVE=$work/stub.o "$build" "$here/story.c" "$work/bad" "$here/save.c" &&
        fresh_book && ends_with 1 "$run" "$work/bad" "$work/book"
}

sees_a_fault() { # SPOILED KIND
    kit_clang -std=c99 -O2 -fPIC -Dmpm_call=spoiled_call -Dmpm_singly=spoiled_singly -c "$here/story.c" \
        -o "$work/bad.o" &&
        kit_clang -std=c99 -O2 -fPIC -c "$here/save.c" -o "$work/save.o" &&
        kit_clang -std=c99 -O2 -fPIC "${warnings[@]}" -DSPOILED="$1" -c "$spoiled" -o "$work/spoiled.o" &&
        kit_link "$work/bad" "$work/bad.o" "$work/save.o" "$work/spoiled.o" "$archive" &&
        fresh_book && ends_with 1 "$run" "$work/bad" "$work/book" "$2"
}

sees_a_bad_vector() { # WRONG KIND
    kit_clang -std=c99 -O2 -fPIC -Dmpm_call=wrong_call -Dmpm_singly=wrong_singly -Dmpm_vector=wrong_vector \
        -c "$here/story.c" -o "$work/bad.o" &&
        kit_clang -std=c99 -O2 -fPIC -c "$here/save.c" -o "$work/save.o" &&
        kit_clang -std=c99 -O2 -fPIC "${warnings[@]}" -DWRONG="$1" -c "$wrong_vector" -o "$work/wrong.o" &&
        kit_link "$work/bad" "$work/bad.o" "$work/save.o" "$work/wrong.o" "$archive" &&
        fresh_book && ends_with 1 "$run" "$work/bad" "$work/book" "$2"
}

try_the_story() { # RUN..
    try "the story on a small drive" tells_the_story small "$@"
    try "the story on a large drive" tells_the_story large "$@"
    try "the story on a drive of no told kind" tells_it_small_unless_told "$@"
    try "an old book is kept" keeps_an_old_book "$@"
    try "no folder" ends_with 2 "$@" "$work/none"
    try "no such kind" ends_with 2 "$@" "$work" huge
}

# ---- The desk's program

says_what_is_bad() { # BOOK..
    rm -rf "$work/desk" && mkdir "$work/desk" && python3 "$here/book.py" "$work/desk" "$@"
}

sees_a_bad_answer() { # SPOILED
    kit_clang -std=c99 -O2 -fPIC -Dmpm_check=spoiled_check -Dmpm_call=spoiled_call -c "$here/book.c" -o "$work/bad.o" &&
        kit_clang -std=c99 -O2 -fPIC "${warnings[@]}" -DSPOILED="$1" -c "$spoiled" -o "$work/spoiled.o" &&
        kit_link "$work/bad" "$work/bad.o" "$work/spoiled.o" "$archive" &&
        ends_with 1 says_what_is_bad "$run" "$work/bad"
}

sees_a_bad_free_space() { # WRONG
    kit_clang -std=c99 -O2 -fPIC -Dmpm_vector=wrong_vector -c "$here/book.c" -o "$work/bad.o" &&
        kit_clang -std=c99 -O2 -fPIC "${warnings[@]}" -DWRONG="$1" -c "$wrong_vector" -o "$work/wrong.o" &&
        kit_link "$work/bad" "$work/bad.o" "$work/wrong.o" "$archive" &&
        ends_with 1 says_what_is_bad "$run" "$work/bad"
}

sees_a_bad_desk() { # WRONG
    kit_clang -std=c99 -O2 -fPIC -Dmpm_salvage=wrong_salvage -Dmpm_pack=wrong_pack -Dmpm_same=wrong_same \
        -c "$here/book.c" -o "$work/bad.o" &&
        kit_clang -std=c99 -O2 -fPIC "${warnings[@]}" -DWRONG="$1" -c "$wrong_desk" -o "$work/wrong.o" &&
        kit_link "$work/bad" "$work/bad.o" "$work/wrong.o" "$archive" &&
        ends_with 1 says_what_is_bad "$run" "$work/bad"
}

# A call leaves nothing behind in the engine itself: no part of the archive can be written to.
has_no_state() { # FILE
    readelf -SW "$1" >"$work/sections" && grep -q ' AX ' "$work/sections" &&
        ! grep -E ' [0-9a-f]{2} +W[A-Z]* +[0-9]' "$work/sections"
}

sees_state() { # a host has some
    ! has_no_state "$work/minimal-1.o"
}

# ---- A host outside the repository

# The minimal host, copied away with nothing of the repository but what is installed. It has to serve clerks, too.
makes_a_host_outside() {
    local away
    away=$(mktemp -d) && "$here/install.sh" "$away/prefix" && cp "$here"/{minimal.c,save.c,save.h} "$away" &&
        mkdir "$away/served" &&
        (
            # shellcheck disable=SC2046 # the line that the pages give
            cd "$away" && export PKG_CONFIG_PATH=$away/prefix/lib/pkgconfig &&
                cc -std=c99 minimal.c save.c $(pkg-config --cflags --libs mpm) -o minimal &&
                head -c 65536 /dev/zero | tr '\0' '\345' >IMAGE &&
                ./minimal new BOOK IMAGE && ./minimal image BOOK COPY && cmp IMAGE COPY &&
                python3 "$here/kill.py" --times 1 --seed 3 served "$away/minimal"
        ) && rm -r "$away"
}

# ---- Saving and the minimal host

makes_and_runs() { # SOURCE PROGRAM SOURCES..
    "$build" "$@" && "$run" "$2"
}

saves_whatever_stops() { # RUN..
    fresh_book && "$@" "$work/book"
}

sees_a_bad_save() { # FAULT RUN..
    fresh_book && ends_with 1 "${@:2}" "$work/book" "$1"
}

sees_a_careless_host() {
    kit_clang -std=c99 -O2 -fPIC -Dmpm_call=wrong_call -Dmpm_start=wrong_start -c "$here/minimal.c" \
        -o "$work/bad-1.o" &&
        kit_clang -std=c99 -O2 -fPIC "${warnings[@]}" -DWRONG=CARELESS -c "$here/wrong_save.c" -o "$work/bad-2.o" &&
        kit_link "$work/bad" "$work/bad-1.o" "$work/bad-2.o" "$archive" && fresh_book &&
        ends_with 1 python3 "$here/full.py" --limit 30000 "$work/book" "$run" "$work/bad"
}

try_saving() { # RUN..
    try "saving on a disk that fails and a machine that stops" saves_whatever_stops "$@"
    try "saving without fsync is seen" sees_a_bad_save fsync "$@"
    try "saving without the folder's fsync is seen" sees_a_bad_save folder "$@"
}

with_the_kit() {
    command -v pkg-config >/dev/null || {
        echo "pkg-config is missing (Debian's package pkg-config): a host outside the repository is made with it" >&2
        exit 2
    }
    try "mpm.h as C99" kit_clang -std=c99 "${warnings[@]}" -c "$here/header.c" -o "$work/header.o"
    try "mpm.h as freestanding C99" kit_clang -std=c99 -ffreestanding "${warnings[@]}" -c "$here/header.c" \
        -o "$work/header.o"
    try "mpm.h as C++11" kit_clang -x c++ -std=c++11 "${warnings[@]}" -c "$here/header.c" -o "$work/header.o"
    try "the helpers of mpm.h" makes_and_runs "$here/helpers.c" "$work/helpers"
    "$build" "$here/story.c" "$story" "$here/save.c"
    try "the archive has no state of its own" has_no_state "$archive"
    try "a call takes at most 16 KB of stack" makes_and_runs "$here/stack.c" "$work/stack" "$root/bench/stack.c"
    try "a host outside the repository, by pkg-config" makes_a_host_outside
    "$build" "$here/save_faults.c" "$work/save_faults"
    try_saving "$run" "$work/save_faults"
    "$build" "$here/minimal.c" "$work/minimal" "$here/save.c"
    try "state of one's own is seen" sees_state
    try "the minimal host on a full disk and in a read-only folder" "$here/disk.sh" "$run" "$work/minimal"
    try "a host that acknowledges what a full disk has refused is seen" sees_a_careless_host
    "$here/kill.sh"
    "$here/kill.sh" --selftest
    try_the_story "$run" "$story"
    try "an engine that refuses all is seen" sees_a_bad_engine 1
    try "an engine that accepts all is seen" sees_a_bad_engine 2
    try "an engine that spoils the image is seen" sees_a_bad_engine 6
    try "a run of which only the first is done is seen" sees_a_fault FIRST_ALONE small
    try "a run that does not tell how many were done is seen" sees_a_fault NO_NUMBER small
    try "a run that goes on behind a refused record is seen" sees_a_fault GOES_ON small
    try "a run that is taken back is seen" sees_a_fault ALL_OR_NONE small
    try "a run with one place in the DMA is seen" sees_a_fault ONE_DMA_RECORD small
    try "a run that clears what it wrote is seen" sees_a_fault CLEARS_AGAIN small
    try "a run that moves the FCB on is seen" sees_a_fault MOVES_FCB small
    try "a plain engine that answers otherwise is seen" sees_a_fault OTHER_SINGLY small
    try "a Delete that leaves the caller's open is seen" sees_a_fault KEEPS_OWN_OPEN small
    try "a Delete that refuses the caller's open is seen" sees_a_fault REFUSES_OWN_OPEN large
    try "a search that finds the same for ever is seen" sees_a_fault NEXT_THE_SAME small
    try "a search that gives another directory record is seen" sees_a_fault NEXT_RECORD large
    try "a search that sets another process's position is seen" sees_a_fault ANOTHERS_POSITION small
    try "a run that clears what it wrote is seen on a large drive" sees_a_fault CLEARS_AGAIN large
    try "numbers of two bytes read as twice as many of one are seen" sees_a_fault SIXTEEN_NUMBERS large
    try "a large drive's free space with eight to a block is seen" sees_a_fault FREE_BY_EIGHT large
    try "a large block of which half is cleared is seen" sees_a_fault CLEARS_SEVEN large
    try "a vector with the low bit first is seen" sees_a_bad_vector LOW_BIT_FIRST small
    try "a vector with bits past the drive is seen" sees_a_bad_vector SETS_BITS_FROM_N_ON large
    try "a Delete that leaves a bit is seen" sees_a_bad_vector DELETE_LEAVES_A_BIT small
    try "a write that sets another bit is seen" sees_a_bad_vector WRITE_SETS_ANOTHER_BIT large
    try "a vector that disagrees and is taken is seen" sees_a_bad_vector NOT_JUDGED small
    try "a vector that is mended where it is refused is seen" sees_a_bad_vector REFUSAL_MENDS_IT large
    try "an unknown kind taken as large is seen" sees_a_fault UNKNOWN_AS_LARGE small
    try ".. on a large drive" sees_a_fault UNKNOWN_AS_LARGE large
    "$build" "$here/book.c" "$work/book-program"
    try "the desk's program on images damaged in each way" says_what_is_bad "$run" "$work/book-program"
    try "a repeat charged to the earlier entry is seen" sees_a_bad_answer EARLIER_ENTRY
    try "a repeated block told before one out of range is seen" sees_a_bad_answer REPEAT_FIRST
    try "a missing extent 0 told in its entry's turn is seen" sees_a_bad_answer EXTENT_0_IN_TURN
    try "another entry than 0 told for a wrong length is seen" sees_a_bad_answer LENGTH_OF_ENTRY_1
    try "a size by the highest entry is seen" sees_a_bad_answer SIZE_OF_LAST
    try "a size without the module is seen" sees_a_bad_answer SIZE_BY_EX
    try "a size by the count of extent 0 is seen" sees_a_bad_answer SIZE_BY_COUNT_0
    try "a size in two bytes is seen" sees_a_bad_answer SIZE_IN_TWO_BYTES
    try "a list of one file for ever is seen" sees_a_bad_answer NEXT_THE_SAME
    try "a list of every user's files is seen" sees_a_bad_answer OTHER_USERS
    try "a list without marks in the first byte is seen" sees_a_bad_answer NO_FIRST_MARK
    try "a list by another directory record is seen" sees_a_bad_answer NEXT_RECORD
    try "a list by ex alone is seen" sees_a_bad_answer EX_ALONE
    try "free space by a vector with the low bit first is seen" sees_a_bad_free_space LOW_BIT_FIRST
    try "free space by a vector without the directory is seen" sees_a_bad_free_space FORGETS_THE_DIRECTORY
    try "a salvage that does nothing is seen" sees_a_bad_desk DOES_NOTHING
    try "a salvage whose report is one entry off is seen" sees_a_bad_desk REPORT_ONE_OFF
    try "a salvage that changes byte 1 too is seen" sees_a_bad_desk BYTE_1_TOO
    try "packing that does nothing is seen" sees_a_bad_desk PACKS_NOTHING
    try "packing that leaves bytes in a free block is seen" sees_a_bad_desk LAST_BLOCK_LEFT
    try "packing that empties entries in byte 0 alone is seen" sees_a_bad_desk EMPTY_IN_BYTE_0
    try "a comparison for which all books are the same is seen" sees_a_bad_desk ALL_THE_SAME
    try "a comparison of the lengths too is seen" sees_a_bad_desk LENGTHS_COUNT
    try "a comparison without attributes is seen" sees_a_bad_desk ATTRIBUTES_FREE
}

with_the_system() { # ARCHIVE
    try "mpm.h as C99" system_cc -std=c99 "${warnings[@]}" -c "$here/header.c" -o "$work/header.o"
    try "mpm.h as C++11" system_cxx -x c++ -std=c++11 "${warnings[@]}" -c "$here/header.c" -o "$work/header.o"
    try "the helpers of mpm.h compile" sanitized "$work/helpers" "$here/helpers.c" "$1"
    try "the helpers of mpm.h" "$work/helpers"
    try "the story compiles" sanitized "$story" "$here/story.c" "$here/save.c" "$1"
    try "the desk's program compiles" sanitized "$work/book-program" "$here/book.c" "$1"
    # It allocates nothing, and looking for leaks takes seconds on some machines.
    try "the desk's program on images damaged in each way" says_what_is_bad env ASAN_OPTIONS=detect_leaks=0 \
        "$work/book-program"
    try "saving compiles" sanitized "$work/save_faults" "$here/save_faults.c" "$1"
    try_saving "$work/save_faults"
    try_the_story "$story"
}

rm -rf "$work"
mkdir -p "$work"
if [ $# -eq 0 ]; then with_the_kit; else with_the_system "$1"; fi
