#!/usr/bin/env bash
# Holds the engine against Debian's cpmtools, which know nothing of it, on drives of 64 and of 256 blocks, and on those
# of 257, 300 and 1,027 larger blocks that the second kind has: each must read what the other wrote, and the desk's
# program (host/book.c) must find the tools' images sound, pack them, know a book that the tools have moved, and mend
# images that are damaged. Plays the page that shows how (docs/SALVAGE.md). Then does each case where they differ by
# intent. One line for each step; at the first other difference one plain line and exit status 1. Installs cpmtools
# where they are missing. All files are temporary.
set -euo pipefail
here=$(cd "$(dirname "${BASH_SOURCE[0]}")" && pwd -P)
root=$(cd "$here/../.." && pwd -P)
export LC_ALL=C
work=$(mktemp -d)
told=

fail() {
    echo "FAILED: $*"
    told=1
    exit 1
}

# A command that just failed has said why itself, if at all; then one line is still missing.
finish() {
    local status=$?
    rm -rf "$work"
    if [ "$status" -eq 0 ]; then return; fi
    [ -n "$told" ] || echo "FAILED: status $status of $BASH_COMMAND"
    exit 1
}
trap finish EXIT

ok() { echo "$*: ok"; }

differs() { echo "differs by intent: $*"; }

expect() { # WHAT WANTED GOT
    [ "$2" = "$3" ] || fail "$1: wanted '${2//$'\n'/ | }', got '${3//$'\n'/ | }'"
}

# ---- Both sides ----

# The kind of drive that the engine is told, the length of its blocks and the records in one.
kind=0 block=1024 in_block=8

first_kind() { kind=0 block=1024 in_block=8; }
second_kind() { kind=1 block=2048 in_block=16; }

book() { bash "$root/machine/run.sh" "$work/book" "$kind" "$@"; }

# A refusal ends the commands; its line is what is wanted then.
refused() { # WANTED IMAGE COMMANDS..
    local wanted=$1 got status=0
    shift
    got=$(book "$@") || status=$?
    expect "the engine on $1" "$wanted, status 1" "$got, status $status"
}

# The image file is raw. Some format must be named behind it, and our definition replaces its numbers; without a name
# the library under the tools takes the first entries for a boot sector, and can crash over what it finds there.
tool() { # TOOL FORMAT WORDS..
    "$1" -T raw,pcw180 -f "$2" "${@:3}"
}

fresh() { # FORMAT IMAGE
    rm -rf "$2" "$2.in" "$2.out"
    mkdir "$2.in" "$2.out"
    mkfs.cpm -f "$1" "$2"
}

checked() { # WANTED IMAGE: sound, wrong length, or the code and the entry, as in '5 of entry 0'
    expect "the check of $2" "$1" "$(book "$2" check)"
}

# By the rule of MP/M II and by that of CP/M 2.2, which the tools' own images keep.
desk_finds_sound() { # IMAGES..
    expect "the desk's program on $*" "$(printf '%s: sound\n' "$@")" \
        "$(bash "$root/machine/run.sh" "$work/desk" check "$@")"
    expect "the desk's program on $*, by CP/M 2.2" "$(printf '%s: sound\n' "$@")" \
        "$(bash "$root/machine/run.sh" "$work/desk" check --rule 2.2 "$@")"
}

fsck_silent() { # FORMAT IMAGE: only its two headings and its figures
    local said status=0
    said=$(tool fsck.cpm "$1" -n "$2" 2>&1) || status=$?
    expect "status of fsck.cpm -n $2" 0 "$status"
    expect "fsck.cpm -n $2" "Phase 1: check extent fields|Phase 2: check extent connectivity|$2" \
        "$(sed 's/: [0-9/]* files .* blocks$//' <<<"$said" | paste -sd '|')"
}

fsck_says() { # WANTED FORMAT IMAGE
    local said
    said=$(tool fsck.cpm "$2" -n "$3" 2>&1) || true
    grep -q "^$1" <<<"$said" || fail "fsck.cpm -n $3: wanted '$1'"
}

# ---- Files. IMAGE.in/USER.NAME has the bytes that the file of this user and name must have on IMAGE. ----

used=0 # how much of the pool is used; no two files have the same bytes

content() { # PATH SIZE
    dd if=pool of="$1" iflag=skip_bytes,count_bytes skip="$used" count="$2" status=none
    expect "size of $1" "$2" "$(stat -c %s "$1")"
    used=$((used + $2))
}

tool_puts() { # FORMAT IMAGE USER NAME SIZE
    content "$2.in/$3.$4" "$5"
    tool cpmcp "$1" "$2" "$2.in/$3.$4" "$3:$4" || fail "cpmcp cannot put $3:$4 on $2"
}

# The block numbers tell the engine where a file ends, so it reads to the end of the last block.
engine_reads() { # IMAGE
    local path base size records count code commands=() wanted=()
    for path in "$1".in/*; do
        base=${path##*/}
        size=$(stat -c %s "$path")
        records=$((in_block * ((size + block - 1) / block)))
        count=$(((size + 127) / 128))
        if [ "$count" -gt 128 ]; then count=128; fi
        if [ "$records" -gt 0 ] && [ $((records % 128)) -eq 0 ]; then code=4/0; else code=1/0; fi
        commands+=(get "${base%%.*}" "${base#*.}" "$1.out/$base")
        wanted+=("${base%%.*} ${base#*.}: $records records, count $count, then $code")
    done
    expect "the files of $1 for the engine" "$(printf '%s\n' "${wanted[@]}")" "$(book "$1" "${commands[@]}")"
    for path in "$1".in/*; do
        cmp -s -n "$(stat -c %s "$path")" "$path" "$1.out/${path##*/}" ||
            fail "the engine reads other bytes of ${path##*/}"
    done
}

zeros_follow() { # IMAGE, after engine_reads
    local path
    for path in "$1".out/*; do
        cp "$1.in/${path##*/}" padded
        truncate -s "$(stat -c %s "$path")" padded
        cmp -s padded "$path" || fail "no zeros behind the last byte of ${path##*/}"
    done
}

tool_reads() { # FORMAT IMAGE
    local path base
    expect "the files of $2 for cpmls" "$(cd "$2.in" && printf '%s\n' * | sort)" \
        "$(tool cpmls "$1" -u "$2" | awk '/:$/ { user = $1 + 0; next } NF { print user "." $0 }' | sort)"
    for path in "$2".in/*; do
        base=${path##*/}
        tool cpmcp "$1" "$2" "${base%%.*}:${base#*.}" copied || fail "cpmcp cannot copy $base from $2"
        cmp -s "$path" copied || fail "cpmcp copies other bytes of $base from $2"
    done
}

same_free() { # FORMAT IMAGE; with less than three files cpmls -D says nothing
    local kilobytes
    kilobytes=$(tool cpmls "$1" -D "$2" | sed -n 's/.* \([0-9]*\)K Free\.$/\1/p')
    expect "free records of $2" $((8 * kilobytes)) "$(book "$2" free)"
    expect "the desk's program on the free space of $2" $((8 * kilobytes)) \
        "$(bash "$root/machine/run.sh" "$work/desk" free "$2" | sed 's/.* blocks free, \([0-9]*\) records, .*/\1/')"
}

# cpmls tells bytes, 35 the records that have them: the last extent of each of these files tells its size.
same_sizes() { # FORMAT IMAGE
    local path base commands=()
    for path in "$2".in/*; do
        base=${path##*/}
        commands+=(size "${base%%.*}" "${base#*.}")
    done
    expect "the sizes of the files of $2" \
        "$(tool cpmls "$1" -u -l "$2" |
            awk '/:$/ { user = $1 + 0; next } NF { print user "." $NF, int(($2 + 127) / 128) }' | sort)" \
        "$(book "$2" "${commands[@]}" | sort)"
}

# cpmls and a clerk's listing by 17 and 18 of every user, and the desk's program, name the same files. Those of a user
# stand in the order of the directory.
same_names() { # FORMAT IMAGE
    local user commands=() named
    named=$(tool cpmls "$1" -u "$2" | awk '/:$/ { user = $1 + 0; next } NF { print user "." $0 }' | sort)
    for user in {0..15}; do commands+=(list "$user"); done
    expect "the names that 17 and 18 find on $2" "$named" "$(book "$2" "${commands[@]}" | sort)"
    expect "the names that the desk's program lists on $2" "$named" \
        "$(bash "$root/machine/run.sh" "$work/desk" list "$2" |
            sed 's/^[^:]*: \(.*\) of user \([0-9]*\): .*/\2.\1/' | sort)"
}

desk_tells_size() { # IMAGE USER NAME RECORDS
    local s
    if [ "$4" -eq 1 ]; then s=; else s=s; fi
    expect "the desk's program on $3 of $1" "$1: $3 of user $2: $4 record$s, $((128 * $4)) bytes" \
        "$(bash "$root/machine/run.sh" "$work/desk" size "$1" "$2:$3")"
}

# What was damaged is sound after salvage, and what it was made of stays. The lines are tried by host/book.py.
desk_mends() { # IMAGE
    local said status=0
    rm -f "$1.mended"
    cp "$1" "$1.kept"
    said=$(bash "$root/machine/run.sh" "$work/desk" salvage "$1" -o "$1.mended") || status=$?
    expect "status of salvage of $1" 1 "$status"
    grep -q "; sound now, in $1.mended\$" <<<"$said" || fail "salvage of $1 says '$said'"
    cmp -s "$1" "$1.kept" || fail "salvage has changed $1"
    checked sound "$1.mended"
}

# Does what a page shows. It has the desk's program as `book`.
page_holds() { # PAGE
    local folder
    folder=$(mktemp -d -p "$work")
    mkdir -p "$work/bin"
    printf '#!/bin/sh\nexec bash "%s" "%s" "$@"\n' "$root/machine/run.sh" "$work/desk" >"$work/bin/book"
    chmod +x "$work/bin/book"
    PATH=$work/bin:$PATH python3 "$here/page.py" "$root/docs/$1" "$folder" >"$work/log" || {
        cat "$work/log"
        fail "docs/$1 shows something else"
    }
}

agree() { # FORMAT IMAGE
    checked sound "$2"
    engine_reads "$2"
    tool_reads "$1" "$2"
    fsck_silent "$1" "$2"
    same_free "$1" "$2"
    same_sizes "$1" "$2"
    same_names "$1" "$2"
}

# The same files for the tools and for the engine, and what they were packed from stays.
desk_packs() { # FORMAT IMAGE
    local to=$2.packed
    rm -rf "$to" "$to.in" "$to.out"
    cp "$2" "$2.kept"
    cp -r "$2.in" "$to.in"
    mkdir "$to.out"
    bash "$root/machine/run.sh" "$work/desk" pack "$2" -o "$to" >"$work/log" || fail "the desk's program cannot pack $2"
    cmp -s "$2" "$2.kept" || fail "packing has changed $2"
    expect "cpmls -u -A of $to" "$(tool cpmls "$1" -u -A "$2")" "$(tool cpmls "$1" -u -A "$to")"
    agree "$1" "$to"
}

desk_compares() { # STATUS WORDS OLD NEW
    local said status=0
    said=$(bash "$root/machine/run.sh" "$work/desk" compare "$3" "$4") || status=$?
    expect "the desk's program on $3 and $4" "$3 and $4: $2, status $1" "$said, status $status"
}

# All files of an image copied by the tools, one by one and the last first, into a new one of another length. It is the
# same book; and no longer with a byte changed, a file more or an attribute set.
tools_move() { # FROM IMAGE TO NEW
    local path base files=("$2".in/*) i
    fresh "$3" "$4"
    for ((i = ${#files[@]} - 1; i >= 0; i--)); do
        base=${files[i]##*/}
        rm -f moving
        tool cpmcp "$1" "$2" "${base%%.*}:${base#*.}" moving || fail "cpmcp cannot copy $base from $2"
        tool cpmcp "$3" "$4" moving "${base%%.*}:${base#*.}" || fail "cpmcp cannot put $base on $4"
    done
    checked sound "$4"
    desk_compares 0 "the same book" "$2" "$4"
    desk_compares 0 "the same book" "$4" "$2"
    cp "$4" "$4.byte"
    tool cpmcp "$3" "$4.byte" 15:RECORD1.TXT other
    printf 'x' | dd of=other bs=1 seek=128 conv=notrunc status=none
    tool cpmrm "$3" "$4.byte" 15:RECORD1.TXT
    tool cpmcp "$3" "$4.byte" other 15:RECORD1.TXT
    desk_compares 1 "RECORD1.TXT of user 15: record 1 differs" "$2" "$4.byte"
    cp "$4" "$4.more"
    tool cpmcp "$3" "$4.more" /dev/null 9:MORE.TXT
    desk_compares 1 "MORE.TXT of user 9 is in $4.more alone" "$2" "$4.more"
    cp "$4" "$4.less"
    tool cpmrm "$3" "$4.less" 15:RECORD1.TXT
    desk_compares 1 "RECORD1.TXT of user 15 is in $2 alone" "$2" "$4.less"
    cp "$4" "$4.set"
    tool cpmchattr "$3" "$4.set" r 15:RECORD1.TXT
    desk_compares 1 "RECORD1.TXT of user 15: the read-only attribute is set in $4.set alone" "$2" "$4.set"
}

# ---- What the tools made ----

empty_drive() { # FORMAT IMAGE BLOCKS
    fresh "$1" "$2"
    head -c $((block * $3)) /dev/zero | tr '\0' '\345' >empty
    cmp -s empty "$2" || fail "an empty image of mkfs.cpm is not E5h in every byte"
    checked sound "$2"
    expect "free records of $2" $((in_block * ($3 - 2))) "$(book "$2" free)"
}

names=(EMPTY ONE.B RECORD RECORD1.TXT KM1.DAT K KP1.DAT EXTM1.DA EXTENT EXTP1.DAT LONGNAME.BIG)
sizes=(0 1 128 129 1023 1024 1025 16383 16384 16385 40000)

# All but the longest file, of ten users; then one that takes the six blocks left.
tools_fill_64() {
    local i
    empty_drive mpm64 made64 64
    for i in 0 1 2 3 4 5 6 7 8 9; do tool_puts mpm64 made64 $((i * 5 % 16)) "${names[i]}" "${sizes[i]}"; done
    tool_puts mpm64 made64 0 REST 6144
    expect "free records of made64" 0 "$(book made64 free)"
}

# All files of user 0, the same names with other bytes of user 15; then one that takes the 62 blocks left.
tools_fill_256() {
    local i user
    empty_drive mpm256 made256 256
    for user in 0 15; do
        for i in "${!names[@]}"; do tool_puts mpm256 made256 "$user" "${names[i]}" "${sizes[i]}"; done
    done
    tool_puts mpm256 made256 7 REST.ALL 63488
    expect "free records of made256" 0 "$(book made256 free)"
}

# The same on a drive of larger blocks; then one file that takes the blocks left, which need the high byte of their
# numbers, and leaves SPARE of them. An entry can name eight.
tools_fill_large() { # FORMAT IMAGE BLOCKS SPARE
    local i user left
    empty_drive "$1" "$2" "$3"
    for user in 0 15; do
        for i in "${!names[@]}"; do tool_puts "$1" "$2" "$user" "${names[i]}" "${sizes[i]}"; done
    done
    left=$(($(book "$2" free) / 16 - $4))
    tool_puts "$1" "$2" 7 REST.ALL $((2048 * left))
    expect "free records of $2" $((16 * $4)) "$(book "$2" free)"
}

# ---- What the engine made ----

# Five processes at once: blocks of the files alternate, the end of one comes before its start, one file goes, one gets
# another name, and the last takes entries and blocks that are free again.
engine_fills() { # FORMAT IMAGE RECORDS: OF A, OF B, OF GONE, OF OLD, OF NEXT
    local a=$3 b=$4 gone=$5 old=$6 next=$7
    fresh "$1" "$2"
    content "$2.in/0.BOOK.DAT" $((128 * a))
    content "$2.in/5.BOOK.DAT" $((128 * b))
    content "$2.in/15.NEW.NAM" $((128 * old))
    content "$2.in/0.NOTYPE" 128
    content "$2.in/5.EMPTY.X" 0
    content "$2.in/1.NEXT.DAT" $((128 * next))
    content gone $((128 * gone))
    book "$2" make 0 BOOK.DAT make 5 BOOK.DAT make 5 GONE.TMP make 15 OLD.NAM make 0 NOTYPE make 5 EMPTY.X \
        write 0 BOOK.DAT 0 100 "$2.in/0.BOOK.DAT" fill 5 BOOK.DAT 90 $((b - 90)) "$2.in/5.BOOK.DAT" \
        write 5 GONE.TMP 0 "$gone" gone write 15 OLD.NAM 0 10 "$2.in/15.NEW.NAM" \
        fill 0 NOTYPE 0 1 "$2.in/0.NOTYPE" write 0 BOOK.DAT 100 $((a - 100)) "$2.in/0.BOOK.DAT" \
        fill 5 BOOK.DAT 0 90 "$2.in/5.BOOK.DAT" fill 15 OLD.NAM 10 $((old - 10)) "$2.in/15.NEW.NAM" \
        close 0 BOOK.DAT close 5 BOOK.DAT close 5 GONE.TMP close 15 OLD.NAM close 0 NOTYPE close 5 EMPTY.X \
        delete 5 GONE.TMP rename 15 OLD.NAM NEW.NAM make 1 NEXT.DAT write 1 NEXT.DAT 0 "$next" "$2.in/1.NEXT.DAT" ||
        fail "the engine refuses to fill $2"
}

# ---- Both on one image ----

both_change() { # FORMAT IMAGE SIZE
    tool_puts "$1" "$2" 3 TOOLS.TXT "$3"
    tool cpmrm "$1" "$2" 0:NOTYPE
    rm "$2.in/0.NOTYPE"
    agree "$1" "$2"

    tool cpmchattr "$1" "$2" r 15:NEW.NAM
    refused "delete 15 NEW.NAM: 255/3" "$2" delete 15 NEW.NAM
    refused "rename 15 NEW.NAM: 255/3" "$2" rename 15 NEW.NAM OLD.NAM
    refused "write 15 NEW.NAM: 255/3" "$2" open 15 NEW.NAM write 15 NEW.NAM 0 1 "$2.in/15.NEW.NAM"
    agree "$1" "$2"

    tool cpmchattr "$1" "$2" mr 15:NEW.NAM
    tool cpmchattr "$1" "$2" s 0:BOOK.DAT
    book "$2" delete 15 NEW.NAM rename 0 BOOK.DAT PAPER delete 3 TOOLS.TXT
    mv "$2.in/0.BOOK.DAT" "$2.in/0.PAPER"
    rm "$2.in/15.NEW.NAM" "$2.in/3.TOOLS.TXT"
    expect "attributes of PAPER" "----s---- PAPER" "$(tool cpmls "$1" -u -A "$2" 0:PAPER | sed 1d)"
    tool_puts "$1" "$2" 9 AGAIN.TXT "$3"
    agree "$1" "$2"
}

# ---- What both must find bad, and where they differ ----

poke() { # IMAGE OFFSET OCTAL
    printf '%b' "\\0$3" | dd of="$1" bs=1 seek="$2" conv=notrunc status=none
}

stored() { # WANTED IMAGE OFFSET: bytes in hexadecimal
    expect "the bytes from $3 on of $2" "$1" \
        "$(od -An -v -tx1 -j "$3" -N $(((${#1} + 1) / 3)) "$2" | sed 's/^ //')"
}

one_file() { # IMAGE NAME RECORDS: a fresh image with one file that the engine made
    fresh mpm64 "$1"
    content "$1.in/0.$2" $((128 * $3))
    book "$1" make 0 "$2" write 0 "$2" 0 "$3" "$1.in/0.$2"
    checked sound "$1"
}

# A.DAT has the blocks 2 and 3, B.DAT 4. Each line: what becomes wrong, by which byte of the directory, in octal; the
# code and the entry that the check has to tell.
damages() {
    local what offset octal code entry
    fresh mpm64 pair
    content pair.in/0.A.DAT 2048
    content pair.in/0.B.DAT 1024
    book pair make 0 A.DAT make 0 B.DAT write 0 A.DAT 0 16 pair.in/0.A.DAT write 0 B.DAT 0 8 pair.in/0.B.DAT
    checked sound pair
    fsck_silent mpm64 pair
    while read -r what offset octal code entry; do
        cp pair "$what"
        poke "$what" "$offset" "$octal"
        fsck_says Error: mpm64 "$what"
        checked "$code of entry $entry" "$what"
        desk_mends "$what"
    done <<'EOF'
user-40h 0 100 2 0
user-E4h 0 344 2 0
user-40h-of-the-second 32 100 2 1
blank-name 1 40 3 0
control-in-name 2 11 3 0
control-in-type 9 11 3 0
question-mark 2 77 3 0
ex-32 12 40 4 0
module-64 14 100 4 0
count-129 15 201 4 0
directory-block 16 1 5 0
block-64 16 100 5 0
block-of-its-own-twice 17 2 6 0
block-of-another 17 4 6 1
same-file-and-extent 33 101 7 1
EOF
}

high_user() {
    fresh mpm64 user
    tool_puts mpm64 user 16 HIGH.TXT 1
    expect "cpmls user" "16:" "$(tool cpmls mpm64 user | head -n 1)"
    fsck_says 'Error: Bad status' mpm64 user
    checked "2 of entry 0" user
    differs "users 16 to 31: cpmcp writes and cpmls lists them, fsck.cpm calls them bad; unsound for us, users end at" \
        "15"
}

label() {
    mkfs.cpm -L BOOKS -f mpm64v3 label
    stored "20 42 4f 4f 4b 53 20" label 0
    checked "2 of entry 0" label
    differs "label: mkfs.cpm for CP/M 3 writes an entry 20h; unsound for us, labels are not served"
}

dates() {
    mkfs.cpm -t -f mpm64p2 dates
    stored "21" dates 96
    stored "21" dates 224
    fsck_silent mpm64p2 dates
    checked "2 of entry 3" dates
    differs "dates: mkfs.cpm -t for P2DOS makes each fourth entry a date entry 21h; unsound for us, dates are not" \
        "served"
}

date_file() {
    fresh mpm64 stamper
    rm stamper
    mkfs.cpm -t -f mpm64 stamper
    content 'stamper.in/0.!!!TIME&.DAT' 0
    checked sound stamper
    engine_reads stamper
    tool_reads mpm64 stamper
    fsck_silent mpm64 stamper
    differs "date file: the !!!TIME&.DAT of mkfs.cpm -t for CP/M 2.2 is to us a file as any other"
}

byte_13() {
    fresh mpm64 last
    tool_puts mpm64 last 0 LAST.TXT 1
    content two 256
    book last open 0 LAST.TXT write 0 LAST.TXT 0 2 two
    tool cpmcp mpm64 last 0:LAST.TXT copied
    expect "size of LAST.TXT for cpmcp" 129 "$(stat -c %s copied)"
    cmp -s -n 129 two copied || fail "cpmcp copies other bytes of LAST.TXT"
    cp two last.in/0.LAST.TXT
    checked sound last
    engine_reads last
    differs "byte 13: for cpmcp the bytes in the last record, for us unread and kept; of its 1-byte file grown to 2" \
        "records cpmcp copies 129 bytes"
    poke last 13 310
    checked sound last
    fsck_says 'Error: Bad last record byte count' mpm64 last
    differs "byte 13 above 128: an error for fsck.cpm; sound for us, the byte is unread"
}

packed_copies_same() { # IMAGE NAME COPIED: on 64 blocks
    rm -f "$1.packed"
    bash "$root/machine/run.sh" "$work/desk" pack "$1" -o "$1.packed" >"$work/log" || fail "cannot pack $1"
    tool cpmcp mpm64 "$1.packed" "0:$2" packed-copy
    cmp -s "$3" packed-copy || fail "cpmcp copies other bytes of $2 from the packed $1"
}

sparse() {
    fresh mpm64 sparse
    content hole $((128 * 300))
    book sparse make 0 HOLE.DAT fill 0 HOLE.DAT 100 1 hole
    checked sound sparse
    expect "HOLE.DAT" "0 HOLE.DAT: 0 records, count 101, then 1/0" "$(book sparse get 0 HOLE.DAT got)"
    fsck_says 'Error: Bad record count' mpm64 sparse
    tool cpmcp mpm64 sparse 0:HOLE.DAT copied
    expect "size of HOLE.DAT for cpmcp" $((128 * 101)) "$(stat -c %s copied)"
    cmp -s -n 12800 copied /dev/zero || fail "no zeros before record 100 of HOLE.DAT"
    cmp -s -n 128 -i 12800 copied hole || fail "cpmcp copies other bytes of record 100 of HOLE.DAT"
    packed_copies_same sparse HOLE.DAT copied
    fresh mpm64 filled
    tool cpmcp mpm64 filled copied 0:HOLE.DAT
    desk_compares 1 "HOLE.DAT of user 0: record 0 has a block in filled alone" sparse filled
    differs "hole in an extent: fsck.cpm wants a block for each 8 records of the count; sound for us. cpmcp copies" \
        "zeros, 33 answers 1/0, and a copy with zeros there is another book"
    one_file holes HOLES.DAT 128
    book holes open 0 HOLES.DAT write 0 HOLES.DAT 256 8 hole
    checked sound holes
    fsck_silent mpm64 holes
    expect "HOLES.DAT" "0 HOLES.DAT: 128 records, count 128, then 4/0" "$(book holes get 0 HOLES.DAT got)"
    tool cpmcp mpm64 holes 0:HOLES.DAT copied
    expect "size of HOLES.DAT for cpmcp" $((128 * 264)) "$(stat -c %s copied)"
    packed_copies_same holes HOLES.DAT copied
    differs "missing extent: sound for both; cpmcp copies zeros, 33 answers 4/0"
}

count_too_small() {
    one_file count COUNT.DAT 16
    poke count 15 11
    checked sound count
    expect "COUNT.DAT" "0 COUNT.DAT: 16 records, count 9, then 1/0" "$(book count get 0 COUNT.DAT got)"
    cmp -s count.in/0.COUNT.DAT got || fail "the engine reads other bytes of COUNT.DAT"
    tool cpmcp mpm64 count 0:COUNT.DAT copied
    expect "size of COUNT.DAT for cpmcp" $((9 * 128)) "$(stat -c %s copied)"
    differs "records behind the count: cpmcp ends at the count; 33 reads each record that has a block"
    poke count 15 0
    checked sound count
    fsck_says 'Error: Bad record count' mpm64 count
    differs "count without regard to the blocks: an error for fsck.cpm; sound for us, any count from 0 to 128 is"
}

not_to_be_copied() { # IMAGE NAME
    rm -f copied
    tool cpmcp mpm64 "$1" "0:$2" copied 2>/dev/null || true
    if [ -e copied ]; then fail "cpmcp copies $2"; fi
}

names_for_us_only() {
    one_file lower lower.txt 1
    engine_reads lower
    expect "cpmls lower" "lower.txt" "$(tool cpmls mpm64 lower | sed 1d)"
    fsck_says 'Error: Bad name' mpm64 lower
    not_to_be_copied lower lower.txt
    refused "open 0 LOWER.TXT: 255/0" lower open 0 LOWER.TXT
    differs "lower case on the drive: an error for fsck.cpm, and cpmcp cannot find it; legal for us, and not the name" \
        "in capitals"
    one_file signs '<>,;:=*[.].' 1
    engine_reads signs
    fsck_says 'Error: Bad name' mpm64 signs
    not_to_be_copied signs '<>,;:=*[.].'
    differs "signs < > , ; : = * [ ] . in a name: an error for fsck.cpm, and cpmcp does not copy it; legal for us"
    one_file blank 'A B.TXT' 1
    engine_reads blank
    fsck_silent mpm64 blank
    expect "cpmls blank" "A.TXT" "$(tool cpmls mpm64 -u blank | sed 1d)"
    not_to_be_copied blank 'A B.TXT'
    differs "blank inside a name: cpmls ends the name there, and cpmcp cannot find it; legal for us"
}

names_for_tools_only() {
    fresh mpm64 rubout
    tool_puts mpm64 rubout 0 $'A\177.TXT' 1
    fsck_silent mpm64 rubout
    checked "3 of entry 0" rubout
    differs "sign 127 in a name: cpmcp and fsck.cpm take it; unsound for us, signs end at 126"
    fresh mpm64 noname
    tool_puts mpm64 noname 0 .TXT 1
    fsck_says 'Error: Bad name' mpm64 noname
    checked "3 of entry 0" noname
    differs "type without a name: cpmcp writes it, fsck.cpm calls it bad; unsound for us, the first sign is not a blank"
}

no_extent_0() {
    one_file first FIRST.DAT 8
    poke first 12 1
    fsck_silent mpm64 first
    expect "cpmls first" "FIRST.DAT" "$(tool cpmls mpm64 -u first | sed 1d)"
    checked "8 of entry 0" first
    differs "file without extent 0: no error for fsck.cpm; unsound for us"
}

big_program() {
    fresh mpm256 program
    content program.in/0.BIG.COM $((128 * 513))
    book program make 0 BIG.COM write 0 BIG.COM 0 513 program.in/0.BIG.COM
    checked sound program
    engine_reads program
    tool_reads mpm256 program
    fsck_says 'Warning: Oversized .COM file' mpm256 program
    differs "COM file over 64K: fsck.cpm warns; to us a type means nothing"
}

# Neither kind is read as the other, and the tools, told another definition, read other files or none.
kinds_apart() {
    checked sound made300
    first_kind
    checked "wrong length" made300
    refused "free: 255/1" made300 free
    checked sound made256
    second_kind
    checked "wrong length" made256
    refused "free: 255/1" made256 free
    fresh mpm256k2 few
    expect "size of 256 blocks of 2,048" $((2048 * 256)) "$(stat -c %s few)"
    checked "wrong length" few
    first_kind
    checked "wrong length" few
    differs "256 blocks of 2,048: a drive for the tools; wrong length for both our kinds, the second begins at 257"
}

# OTHER has block 2 and FILE, in entry 33, the block 257, whose number is 01 01. Each line: what becomes wrong, by which
# byte, in octal; the code that the check has to tell of entry 33.
large_damages() {
    local what offset octal code
    second_kind
    fresh large300 wide
    content wide.in/0.OTHER 2048
    content wide.in/0.GONE $((2048 * 254))
    content wide.in/0.FILE 2048
    book wide make 0 OTHER write 0 OTHER 0 16 wide.in/0.OTHER make 0 GONE write 0 GONE 0 4064 wide.in/0.GONE \
        make 0 FILE write 0 FILE 0 16 wide.in/0.FILE close 0 GONE delete 0 GONE
    stored "01 01 00 00" wide $((32 * 33 + 16))
    checked sound wide
    fsck_silent large300 wide
    while read -r what offset octal code; do
        cp wide "$what"
        poke "$what" "$((32 * 33 + offset))" "$octal"
        fsck_says Error: large300 "$what"
        checked "$code of entry 33" "$what"
        desk_mends "$what"
    done <<'EOF'
user-40h 0 100 2
blank-name 1 40 3
count-129 15 201 4
directory-block 17 0 5
block-301 16 55 5
block-513 17 2 5
block-65281 17 377 5
block-of-another 18 2 6
EOF
    cp wide own-block-twice
    poke own-block-twice $((32 * 33 + 18)) 1
    poke own-block-twice $((32 * 33 + 19)) 1
    stored "01 01 01 01 00" own-block-twice $((32 * 33 + 16))
    fsck_says Error: large300 own-block-twice
    checked "6 of entry 33" own-block-twice
    desk_mends own-block-twice
    first_kind
}

other_drives() {
    fresh mpm64t short
    expect "size of an image of several tracks" 2048 "$(stat -c %s short)"
    checked "wrong length" short
    differs "short image: mkfs.cpm writes no more than the tracks of the directory; wrong length for us, an image has" \
        "all its blocks"
    fresh mpm257 long
    tool_puts mpm257 long 0 LONG.DAT 2048
    stored "02 00 03 00 00" long 16
    expect "size of 257 blocks" $((1024 * 257)) "$(stat -c %s long)"
    checked "wrong length" long
    differs "257 blocks: the tools go over to two-byte block numbers; wrong length for us, 256 is the most"
    fresh mpm2k wide
    tool_puts mpm2k wide 0 WIDE.DAT 20000
    stored "01" wide 12
    stored "02 03 04 05 06 07 08 09 0a 0b 00" wide 16
    fsck_silent mpm2k wide
    checked "8 of entry 0" wide
    differs "blocks of 2,048: one entry holds two extents and has the number of the second; unsound for us, extent 0" \
        "is missing"
    checked sound made256
    fsck_says 'Error: Bad block number' mpm64 made256
    differs "number of blocks: the tools take it from the definition, whatever the image's length; we from the length"
}

# ---- The run ----

install_tools() {
    if command -v mkfs.cpm >/dev/null; then return; fi
    (apt-get update -q && apt-get install -y -q cpmtools) >"$work/log" 2>&1 || true
    command -v mkfs.cpm >/dev/null || fail "cpmtools are missing and cannot be installed"
}

# Sectors of 128 bytes, two blocks of directory, no reserved tracks; with blocks of 1,024 bytes that is 64 entries, each
# of one extent and sixteen one-byte block numbers. One track, because then mkfs.cpm writes an image of the full length.
define() { # FORMAT SECTORS TRACKS BLOCKSIZE OS [EXTENTS TO AN ENTRY]
    printf 'diskdef %s\n  seclen 128\n  sectrk %s\n  tracks %s\n  blocksize %s\n' "$1" "$2" "$3" "$4"
    printf '  maxdir %s\n  boottrk 0\n  logicalextents %s\n  os %s\nend\n' $(($4 / 16)) "${6:-$(($4 / 1024))}" "$5"
}

# The second kind: blocks of 2,048 bytes, 128 entries. With more than 256 blocks the tools' numbers have two bytes, so
# that an entry has eight of them and is one extent.
define_large() { # FORMAT BLOCKS
    define "$1" $((16 * $2)) 1 2048 2.2 1
}

define_all() {
    define mpm64 512 1 1024 2.2
    define mpm256 2048 1 1024 2.2
    define mpm64t 8 64 1024 2.2
    define mpm64v3 512 1 1024 3
    define mpm64p2 512 1 1024 p2dos
    define mpm257 2056 1 1024 2.2
    define mpm2k 512 1 2048 2.2
    define mpm256k2 4096 1 2048 2.2
    define_large large257 257
    define_large large300 300
    define_large large1027 1027
}

install_tools
ok "cpmtools"
bash "$root/machine/build.sh" "$here/book.c" "$work/book" || fail "book.c cannot be built"
bash "$root/machine/build.sh" "$root/host/book.c" "$work/desk" || fail "the desk's program cannot be built"
ok "book.c and the desk's program with the kit alone"

cd "$work"
define_all >diskdefs
seq 3000000 | gzip -n >pool

for n in 64 256; do
    "tools_fill_$n"
    agree "mpm$n" "made$n"
    zeros_follow "made$n"
    ok "$n blocks, made by mkfs.cpm and cpmcp: sound, and $(find "made$n.in" -type f | wc -l) files read by 33," \
        "sixteen records to a call, and by Look have their bytes; zeros fill up the last record"
done

engine_fills mpm64 ours64 140 130 60 16 150
engine_fills mpm256 ours256 320 200 150 128 300
for n in 64 256; do
    agree "mpm$n" "ours$n"
    ok "$n blocks, made by the engine: cpmls lists $(find "ours$n.in" -type f | wc -l) files, cpmcp copies their" \
        "bytes, fsck.cpm is silent, the free space and the sizes are the same, and 17 and 18 list the same files"
done
both_change mpm64 ours64 4000
both_change mpm256 ours256 20000
ok "both in turn on one image: new, deleted and renamed files, read-only and system attributes"

second_kind
for n in 257 300; do
    tools_fill_large "large$n" "made$n" "$n" 0
    agree "large$n" "made$n"
    zeros_follow "made$n"
    ok "$n blocks of 2,048 bytes, made by mkfs.cpm and cpmcp: sound, and $(find "made$n.in" -type f | wc -l) files" \
        "read by 33 and by Look have their bytes; zeros fill up the last record"
done
tools_fill_large large1027 made1027 1027 300
agree large1027 made1027
zeros_follow made1027
ok "1,027 blocks of 2,048 bytes, made by mkfs.cpm and cpmcp: sound, and the files have their bytes"
desk_finds_sound made64 made256 made257 made300 made1027
desk_tells_size made64 15 RECORD1.TXT 2
desk_tells_size made256 15 LONGNAME.BIG 313
desk_tells_size made300 0 EXTP1.DAT 129
ok "the desk's program: all five images that cpmtools made are sound, and files have the sizes that they were given"
for n in 257 1027; do
    engine_fills "large$n" "ours$n" 640 400 300 128 600
    agree "large$n" "ours$n"
    both_change "large$n" "ours$n" 40000
done
engine_fills large300 ours300 1200 400 2900 128 2600
agree large300 ours300
both_change large300 ours300 40000
ok "257, 300 and 1,027 blocks of 2,048 bytes, made by the engine and changed by both: cpmls lists the files, cpmcp" \
    "copies their bytes, fsck.cpm is silent, the free space is the same"
for n in 257 300 1027; do
    desk_packs "large$n" "made$n"
    desk_packs "large$n" "ours$n"
done
first_kind
for n in 64 256; do
    desk_packs "mpm$n" "made$n"
    desk_packs "mpm$n" "ours$n"
done
ok "the desk's program packs ten images of cpmtools and of the engine: cpmls lists the same files and attributes," \
    "cpmcp copies the same bytes, fsck.cpm is silent, the free space and the sizes are the same"
tools_move mpm64 made64 mpm256 moved256
second_kind
tools_move large257 made257 large300 moved300
first_kind
ok "books moved by cpmtools, file by file, to an image of another length: the same for the desk's program, and" \
    "different with a byte changed, a file more or less, an attribute set"
large_damages
ok "9 damages to a directory with numbers of two bytes: the engine tells the entry and why, errors for fsck.cpm; mended"
second_kind
kinds_apart

damages
ok "15 damages to a directory: the engine tells the entry and why, errors for fsck.cpm; mended"
page_holds SALVAGE.md
ok "the worked example of a damaged book: $(tail -n 1 "$work/log" | cut -d ' ' -f 1-2) print what docs/SALVAGE.md shows"
high_user
label
dates
date_file
byte_13
sparse
count_too_small
names_for_us_only
names_for_tools_only
no_extent_0
big_program
other_drives
