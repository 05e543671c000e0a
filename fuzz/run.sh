#!/usr/bin/env bash
# Fuzzes the engine with libFuzzer, guided by the engine's own branches, under the sanitizers. See README.md.
#   run.sh [--seconds N] [--seed S]   for N seconds (60) with seed S (1); the last line has the figures
#   run.sh --replay FILE              plays a kept input and prints its calls: kind, process, function, count, image
#                                     length, A, H
#   run.sh --coverage                 how much of the engine's code the corpus reaches
#   run.sh --selftest                 bad engines in place of the good one: each has to be found
# Exit status: 0 if all is well, 1 if the engine does wrong or a bad one was not found, 2 for wrong use.
set -euo pipefail
here=$(cd "$(dirname "${BASH_SOURCE[0]}")" && pwd -P)
# shellcheck source=../machine/kit.sh
. "$here/../machine/kit.sh"
work=$root/target/fuzz
plain=$root/tests/plain
clang=${FUZZ_CLANG:-clang}
sanitizers=("-fsanitize=address,undefined" -fno-sanitize-recover=all)
seconds=60 seed=1 mode=fuzz replayed=
export ASAN_OPTIONS=quarantine_size_mb=8:detect_leaks=0
options=(-max_len=6144 -timeout=20 -detect_leaks=0 -print_final_stats=1)

usage() {
    sed -n '3,7s/^# *//p' "${BASH_SOURCE[0]}" >&2
    exit 2
}

read_words() {
    while [ $# -gt 0 ]; do
        case $1 in
        --seconds) seconds=${2:-} ;;
        --seed) seed=${2:-} ;;
        --replay) mode=replay replayed=${2:-} ;;
        --coverage | --selftest) mode=${1#--} ;;
        *) usage ;;
        esac
        case $1 in --seconds | --seed | --replay) shift ;; esac
        [ $# -eq 0 ] || shift
    done
    [[ $seconds =~ ^[0-9]+$ && $seed =~ ^[0-9]+$ ]] || usage
    if [ "$mode" = replay ] && [ ! -f "$replayed" ]; then usage; fi
}

# ---- Building ----

system_clang() {
    "$clang" -std=c99 -O1 -g "${warnings[@]}" "${sanitizers[@]}" -I "$root/include" -I "$plain" "$@"
}

compile() { # OBJECT WORDS..
    local object=$1
    shift
    system_clang -c "$@" -o "$work/$object"
}

link() { # PROGRAM OBJECTS..
    local program=$1
    shift
    (cd "$work" && "$clang" -fsanitize=fuzzer "${sanitizers[@]}" "$@" mutate.o plain.o plain-small.o plain-large.o \
        -o "$program")
}

# The engine for this processor, with libFuzzer's counters and AddressSanitizer in its own code.
compile_engine() { # LEVEL
    "$kit/toolchain/bin/clang" --target="$(uname -m)-unknown-linux-gnu" --no-default-config -Wno-override-module \
        "-O$1" -fPIC -mllvm -trap-unreachable -mllvm -no-trap-after-noreturn -fsanitize=fuzzer-no-link,address \
        -c -x ir "$work/engine.ll" -o "$work/engine$1.o"
}

take_engine() {
    make_native
    sed -E 's/^(attributes #[0-9]+ = \{)/\1 sanitize_address/' "$root/target/native/engine.ll" >"$work/engine.ll"
    compile_engine 1
}

no_libfuzzer() {
    echo "no libFuzzer: install clang and its runtime, on Debian the packages clang and libclang-rt-14-dev" >&2
    exit 2
}

build() {
    rm -rf "$work/seeds"
    mkdir -p "$work/seeds" "$work/corpus" "$work/crashes"
    command -v "$clang" >/dev/null || no_libfuzzer
    compile fuzz.o "$here/fuzz.c"
    compile mutate.o "$here/mutate.c"
    compile plain-small.o -DKIND=SMALL "$plain/plain.c"
    compile plain-large.o -DKIND=LARGE "$plain/plain.c"
    compile plain.o "$plain/plain_call.c"
    compile stub.o "$root/tests/pipe/stub.c"
    link stub fuzz.o stub.o 2>"$work/log" || no_libfuzzer
    system_clang "$here/seeds.c" -o "$work/make-seeds"
    "$work/make-seeds" "$work/seeds"
    take_engine
}

# ---- Running ----

logged() { sed -n "s/$1/\\1/p" "$work/log" | tail -n 1; }

print_figures() { # SECONDS CRASHES
    sed -n '/^not met: /p; s/^met: //p' "$work/log"
    echo "fuzz: $1 s, $(logged '^stat::number_of_executed_units: *\(.*\)') inputs," \
        "$(logged '^stat::average_exec_per_sec: *\(.*\)') a second, $(logged '.* cov: \([0-9]*\) .*') of" \
        "$(logged '.*Loaded 1 modules *(\([0-9]*\) .*') edges of the engine," \
        "corpus $(find "$work/corpus" -type f | wc -l), crashes $2"
}

fuzz() {
    local crashes=0 began=$SECONDS
    link fuzz fuzz.o engine1.o
    "$work/fuzz" "${options[@]}" -artifact_prefix="$work/crashes/" -seed="$seed" -max_total_time="$seconds" \
        "$work/corpus" "$work/seeds" >"$work/log" 2>&1 || crashes=1
    if [ "$crashes" -ne 0 ]; then
        grep -E -m 1 -A 12 'WRONG|ERROR' "$work/log" || tail -n 20 "$work/log"
        grep '^artifact_prefix' "$work/log" || true
    fi
    print_figures $((SECONDS - began)) "$crashes"
    return "$crashes"
}

replay() {
    local status=0
    link fuzz fuzz.o engine1.o
    FUZZ_TELL=1 "$work/fuzz" -detect_leaks=0 "$replayed" >"$work/log" 2>&1 || status=1
    grep -E '^[0-9]+( [0-9]+){4}|WRONG|ERROR' "$work/log" || true
    return "$status"
}

# The functions as they were written, before the compiler joins them. The counters have eight bits: an edge that every
# input passes a multiple of 256 times is not seen.
coverage() {
    compile_engine 0
    link coverage fuzz.o engine0.o
    "$work/coverage" "${options[@]}" -runs=0 -print_coverage=1 "$work/corpus" "$work/seeds" >"$work/log" 2>&1
    sed -n 's/.*COVERED_FUNC: hits: [0-9]* edges: \([0-9]*\).\([0-9]*\) \([^ ]*\).*/\1 \2 \3/p' "$work/log" | awk '
        $1 < $2 { print "not all reached: " $3 ", " $1 " of " $2 " edges" }
        { reached += $1; all += $2; functions += $1 > 0 }
        END { print "coverage: " functions " of " NR " functions, " reached " of " all " edges" }'
}

finds() { # WHAT OBJECTS..
    local what=$1 began=$SECONDS status=0 seen
    shift
    rm -rf "$work/bad"
    mkdir "$work/bad"
    link bad/fuzz "$@"
    "$work/bad/fuzz" "${options[@]}" -artifact_prefix="$work/bad/" -seed="$seed" -max_total_time=120 \
        "$work/bad" "$work/seeds" >"$work/log" 2>&1 || status=$?
    # A trap is a signal on Arm that libFuzzer does not report.
    if [ "$status" -gt 128 ]; then echo "ERROR: libFuzzer: killed by SIG$(kill -l "$status")" >>"$work/log"; fi
    seen=$(grep -E -o -m 1 'WRONG: .*|ERROR: (AddressSanitizer|libFuzzer): [A-Za-z -]*' "$work/log") || {
        echo "an engine that $what: NOT FOUND"
        return 1
    }
    echo "an engine that $what: found in $((SECONDS - began)) s: $seen"
}

selftest() {
    local stubs=("refuses all" "accepts all" "writes before the FCB" "writes after the image" crashes "spoils images"
        "writes after the vector")
    local faults=("WRITES_AT_REFUSAL writes at a refusal" "LEAVES_LOCKS leaves locks" "NO_ZERO_FILL fills no zeros"
        "SHORT_LOCK locks 15 of 16" "WRONG_CODE has 4/0 for 6/0" "SHORT_FCB overreads" "OTHER_SINGLY differs singly"
        "KEEPS_OWN_OPEN leaves the open of a deleted file" "REFUSES_OWN_OPEN refuses to delete the caller's open file"
        "SIZE_OF_LAST takes the highest entry for the highest extent" "SIZE_BY_EX leaves the module out of the size"
        "SIZE_BY_COUNT_0 tells the size by extent 0's count" "SIZE_IN_TWO_BYTES tells the size in two bytes"
        "NEXT_THE_SAME finds the same entry for ever" "OTHER_USERS finds other users' entries"
        "NO_FIRST_MARK takes no mark in the first byte" "NEXT_RECORD gives the next directory record"
        "NOT_AT_THE_END leaves the position of a search in vain" "ANOTHERS_POSITION sets another process's position"
        "SEARCH_OUTLIVES leaves the position of a process that ended" "EX_ALONE takes ex 0 for extent 0"
        "POSITION_65 takes a position above the number of entries"
        "HIGH_BYTE_DROPPED stores a number without its high byte" "BLOCK_4097 takes 4,097 blocks"
        "SIXTEEN_NUMBERS reads eight numbers as sixteen" "FREE_BY_EIGHT counts eight records to a large block"
        "CLEARS_SEVEN clears seven of fifteen records" "UNKNOWN_AS_LARGE takes an unknown kind as large"
        "FIRST_ALONE does one record of a run" "NO_NUMBER does not tell how many it did"
        "GOES_ON goes on behind a refused record" "ALL_OR_NONE takes a run back"
        "ONE_DMA_RECORD has one place in the DMA" "CLEARS_AGAIN clears what it wrote" "MOVES_FCB moves the FCB on"
        "EARLIER_ENTRY charges a repeat to the earlier entry" "REPEAT_FIRST tells 6 before 5 in an entry"
        "EXTENT_0_IN_TURN tells 8 in its entry's turn" "LENGTH_OF_ENTRY_1 tells entry 1 for a wrong length")
    local desks=("DOES_NOTHING mends nothing" "REPORT_ONE_OFF reports one entry off"
        "BYTE_1_TOO changes byte 1 of an emptied entry" "WRONG_LENGTH_TOUCHED touches an image of wrong length"
        "WRITES_BEHIND_THE_REPORT writes behind the report" "LAST_ENTRY_LEFT_OUT leaves out the last entry"
        "PACKS_NOTHING packs nothing" "LAST_BLOCK_LEFT leaves bytes in a free block"
        "EMPTY_IN_BYTE_0 empties entries in byte 0 alone" "CHANGES_THE_IMAGE packs in place"
        "WRITES_BEHIND_THE_PACKED writes behind the packed book" "PACKS_WHILE_OPEN packs while a file is open"
        "ENDS_SEARCHES ends the searches of a packed book" "POSITIONS_FREE packs whatever the positions are"
        "ALL_THE_SAME takes all books for the same" "SECOND_FIRST tells 2 before 1"
        "FIRST_RECORD_FREE does not compare a block's first record" "ATTRIBUTES_FREE does not compare attributes")
    local vectors=("LOW_BIT_FIRST has the low bit first" "SETS_BITS_FROM_N_ON sets bits past the drive"
        "DELETE_LEAVES_A_BIT leaves a bit of a deleted file" "WRITE_SETS_ANOTHER_BIT sets another block's bit"
        "WRITE_SETS_NO_BIT sets no bit" "STOPPED_RUN_SETS_NO_BIT sets no bit where a run stops"
        "REFUSAL_MENDS_IT mends the vector that it refuses" "JUDGED_BEFORE_THE_LIST has 255/14 before 255/12"
        "JUDGED_AFTER_THE_DRIVE has 255/14 after 255/4" "NOT_JUDGED takes any vector"
        "DIRECTORY_NOT_JUDGED takes any bits of the directory" "TAKES_A_LONGER_ONE takes a longer vector"
        "KEEPS_OLD_BITS builds over old bits" "FORGETS_THE_DIRECTORY builds without the directory's bits"
        "CLEARS_AT_REFUSAL clears what it does not build" "IMAGE_BEFORE_LENGTH has 255/1 before 255/13")
    local rules=("ALWAYS_MPM has one rule" "LOCKS_BY_MPM locks by one rule" "TAKES_A_BYTE_OF_2 takes a rule of 2"
        "LIST_BEFORE_IMAGE has 255/12 before 255/1 for a bad rule" "STARTS_WITH_ANY_RULE starts with any rule"
        "FORGETS_THE_RULE starts without the rule" "CHECK_CUTS_THE_RULE checks by a rule cut to a byte"
        "LOOKS_BY_MPM looks by one rule" "BUILDS_BY_MPM builds by one rule")
    local n fault
    for n in "${!stubs[@]}"; do
        compile bad.o -DSTUB=$((n + 1)) "$root/tests/pipe/stub.c"
        finds "${stubs[n]}" fuzz.o bad.o
    done
    compile bad-fuzz.o -Dmpm_call=spoiled_call -Dmpm_singly=spoiled_singly -Dmpm_check=spoiled_check "$here/fuzz.c"
    for fault in "${faults[@]}"; do
        compile bad.o -DSPOILED="${fault%% *}" "$here/spoiled.c"
        finds "${fault#* }" bad-fuzz.o bad.o engine1.o
    done
    compile bad-fuzz.o -Dmpm_salvage=wrong_salvage -Dmpm_pack=wrong_pack -Dmpm_same=wrong_same "$here/fuzz.c"
    for fault in "${desks[@]}"; do
        compile bad.o -DWRONG="${fault%% *}" "$root/tests/pipe/wrong_desk.c"
        finds "${fault#* }" bad-fuzz.o bad.o engine1.o
    done
    compile bad-fuzz.o -Dmpm_call=wrong_call -Dmpm_singly=wrong_singly -Dmpm_vector=wrong_vector "$here/fuzz.c"
    for fault in "${vectors[@]}"; do
        compile bad.o -DWRONG="${fault%% *}" "$root/tests/pipe/wrong_vector.c"
        finds "${fault#* }" bad-fuzz.o bad.o engine1.o
    done
    compile bad-fuzz.o -Dmpm_call=wrong_call -Dmpm_singly=wrong_singly -Dmpm_start=wrong_start \
        -Dmpm_check=wrong_check -Dmpm_look=wrong_look -Dmpm_vector=wrong_vector "$here/fuzz.c"
    for fault in "${rules[@]}"; do
        compile bad.o -DWRONG="${fault%% *}" "$root/tests/pipe/wrong_rule.c"
        finds "${fault#* }" bad-fuzz.o bad.o engine1.o
    done
}

read_words "$@"
build
"$mode"
