#!/usr/bin/env bash
# disk.sh HOST..: the minimal host on a full disk and in a read-only folder. HOST.. is its command. Each time it has to
# say one line, and nothing may be lost. The disks are small file systems that nobody else sees; where this machine lets
# us mount none, a limit on the length of files stands in for the full one, and a folder without the right to write for
# the read-only one.
set -euo pipefail
here=$(cd "$(dirname "${BASH_SOURCE[0]}")" && pwd -P)
work=$(mktemp -d)
trap clean_up EXIT
host=("$@")

clean_up() {
    umount "$work/folder" 2>/dev/null || true
    chmod u+w "$work/folder" 2>/dev/null || true
    rm -rf "$work"
}

may_mount() { unshare -rm mount -t tmpfs none "$work" 2>/dev/null; }

full_disk() {
    mkdir "$work/full"
    python3 "$here/full.py" --limit 30000 "$work/full" "${host[@]}"
    may_mount || return 0
    mkdir "$work/small"
    # shellcheck disable=SC2016 # for the inner shell
    unshare -rm bash -c 'mount -t tmpfs -o size=96k none "$1" && python3 "${@:2}"' - \
        "$work/small" "$here/full.py" "$work/small" "${host[@]}"
}

# Each command must end with status 1 and one line.
refuses() { # WORDS..
    local status=0
    "${host[@]}" "$@" >/dev/null 2>"$work/said" || status=$?
    cat "$work/said"
    [ "$status" -eq 1 ] && [ "$(wc -l <"$work/said")" -eq 1 ]
}

try_read_only() { # FOLDER
    cp "$1/BOOK" "$work/before"
    refuses serve "$1/BOOK" "$work/socket" && refuses new "$1/OTHER" "$work/empty" && cmp "$1/BOOK" "$work/before"
}

read_only_folder() {
    local folder=$work/folder
    head -c 16384 /dev/zero | tr '\0' '\345' >"$work/empty"
    mkdir "$folder"
    if may_mount; then
        mount -t tmpfs none "$folder"
        "${host[@]}" new "$folder/BOOK" "$work/empty"
        mount -o remount,ro "$folder"
        try_read_only "$folder"
    elif [ "$(id -u)" -ne 0 ]; then
        "${host[@]}" new "$folder/BOOK" "$work/empty"
        rm "$folder/BOOK.lock"
        chmod a-w "$folder"
        try_read_only "$folder"
    else
        echo "not tried: root may write everywhere, and this machine lets it mount nothing"
    fi
}

# The part that mounts runs in a name space of its own.
if [ "${MPM_DISK_PART:-}" = read-only ]; then
    read_only_folder
    exit
fi
full_disk
if may_mount; then MPM_DISK_PART=read-only unshare -rm "${BASH_SOURCE[0]}" "$@"; else read_only_folder; fi
