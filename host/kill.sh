#!/usr/bin/env bash
# kill.sh [--native] [--times N] [--seed S]: kills the minimal host N times (50) while clerks write, half of them with a
# drive of each kind, and looks at the book after each restart (kill.py). A failure's folder is kept and named.
# kill.sh --selftest [--native]: hosts with one fault each (wrong_save.c), each of which has to be found.
# kill.sh --speed [--native]: kills nothing, but times a write with its saving, and with the whole book written anew.
# --native takes the engine of machine/native.sh and the system's compiler (CC) in place of the archive that ships.
set -euo pipefail
here=$(cd "$(dirname "${BASH_SOURCE[0]}")" && pwd -P)
# shellcheck source=../machine/kit.sh
. "$here/../machine/kit.sh"
work=$root/target/host/kill
times=50 seed=$RANDOM mode=kills native_build=

usage() {
    sed -n '2,6s/^# *//p' "${BASH_SOURCE[0]}" >&2
    exit 2
}

read_words() {
    while [ $# -gt 0 ]; do
        case $1 in
        --native) native_build=yes ;;
        --selftest | --speed) mode=${1#--} ;;
        --times) times=${2:-} && shift ;;
        --seed) seed=${2:-} && shift ;;
        *) usage ;;
        esac
        [ $# -eq 0 ] || shift
    done
    [[ $times =~ ^[0-9]+$ && $seed =~ ^[0-9]+$ ]] || usage
    command -v python3 >/dev/null || {
        echo "python3 is missing: the kill loop is written in it" >&2
        exit 2
    }
}

compile() { # OBJECT WORDS..
    if [ -n "$native_build" ]; then
        "${CC:-cc}" -I "$root/include" -std=c99 -O2 "${warnings[@]}" "${@:2}" -c -o "$work/$1"
    else
        kit_clang -std=c99 -O2 -fPIC "${warnings[@]}" "${@:2}" -c -o "$work/$1"
    fi
}

link() { # PROGRAM OBJECTS..
    if [ -n "$native_build" ]; then
        (cd "$work" && "${CC:-cc}" "${@:2}" "$native" -o "$1")
    else
        (cd "$work" && kit_link "$1" "${@:2}" "$archive")
    fi
}

host() { # PROGRAM: its command
    if [ -n "$native_build" ]; then command=("$work/$1"); else command=("$root/machine/run.sh" "$work/$1"); fi
}

make_minimal() {
    compile minimal.o "$here/minimal.c"
    compile save.o "$here/save.c"
    link minimal minimal.o save.o
    host minimal
}

make_wrong() { # FAULT
    compile wrong-minimal.o -Dmpm_call=wrong_call -Dmpm_start=wrong_start "$here/minimal.c"
    compile wrong.o -DWRONG="$1" -I "$here" "$here/wrong_save.c"
    link wrong wrong-minimal.o wrong.o
    host wrong
}

kills() {
    local kind half folder
    make_minimal
    for kind in small large; do
        if [ "$kind" = small ]; then half=$((times / 2)); else half=$((times - times / 2)); fi
        folder=$(mktemp -d)
        python3 "$here/kill.py" --times "$half" --seed "$seed" --kind "$kind" "$folder" "${command[@]}" || {
            echo "the book and the host's log are in $folder" >&2
            exit 1
        }
        rm -r "$folder"
    done
}

finds() { # FAULT KIND WHAT
    local folder said
    make_wrong "$1"
    folder=$(mktemp -d)
    if said=$(python3 "$here/kill.py" --times 200 --seed "$seed" --kind "$2" "$folder" "${command[@]}"); then
        echo "a host that $3: NOT FOUND: $said"
        exit 1
    fi
    rm -r "$folder"
    echo "a host that $3: found: ${said##*WRONG: }"
}

speed() {
    make_minimal
    python3 "$here/speed.py" "saving changes" "${command[@]}"
    make_wrong WHOLE
    python3 "$here/speed.py" "saving the whole book" "${command[@]}"
}

selftest() {
    finds IN_PLACE large "writes the only copy anew in its place"
    finds LATE small "acknowledges what it has not saved"
    finds KEEPS_LIST small "keeps the list of the dead"
    finds NO_END small "does not end the dead"
    finds HALF small "saves a call in two halves"
}

read_words "$@"
if [ -n "$native_build" ]; then make_native; else make_archive; fi
rm -rf "$work"
mkdir -p "$work"
"$mode"
