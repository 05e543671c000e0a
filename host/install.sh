#!/usr/bin/env bash
# install.sh PREFIX: puts what a host in C needs under PREFIX: include/mpm.h, lib/libmpm.a and lib/pkgconfig/mpm.pc.
# The archive is the proved one, for x86-64; it is proved first where it is missing or older than the sources. Then,
# with PREFIX/lib/pkgconfig in PKG_CONFIG_PATH, a host is compiled by
#     cc host.c $(pkg-config --cflags --libs mpm) -o host
# PREFIX may be moved: mpm.pc names its folders from its own place.
set -euo pipefail
# shellcheck source=../machine/kit.sh
. "$(dirname "${BASH_SOURCE[0]}")/../machine/kit.sh"
[ $# -eq 1 ] || {
    echo "use: install.sh PREFIX" >&2
    exit 2
}
prefix=$1

pc_file() {
    local version
    version=$(sed -n 's/^#define MPM_VERSION \([0-9]*\)u$/\1/p' "$root/include/mpm.h")
    # shellcheck disable=SC2016 # pkg-config's own variables
    printf '%s\n' 'prefix=${pcfiledir}/../..' '' 'Name: mpm' \
        'Description: A proved file engine for MP/M II programs, for x86-64' "Version: $version" \
        'Cflags: -I${prefix}/include' 'Libs: -L${prefix}/lib -lmpm'
}

make_archive
mkdir -p "$prefix/include" "$prefix/lib/pkgconfig"
install -m 644 "$root/include/mpm.h" "$prefix/include/mpm.h"
install -m 644 "$archive" "$prefix/lib/libmpm.a"
pc_file >"$prefix/lib/pkgconfig/mpm.pc"
