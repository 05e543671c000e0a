#!/usr/bin/env bash
# Runs the built program mpmcalls (crates/mpmcalls/out/mpmcalls, which `rt run` and `rt ci` make) on the cases of
# cases.py. MPMCALLS=FILE takes another build.
# run.sh [--only TEXT] [--document]: by machine/run.sh.
# run.sh .. -- COMMAND [ARGUMENT...]: another program, by its whole path.
set -euo pipefail
here=$(cd "$(dirname "${BASH_SOURCE[0]}")" && pwd -P)
root=$(cd "$here/../.." && pwd -P)
words=()
while [ $# -gt 0 ] && [ "$1" != -- ]; do
    words+=("$1")
    shift
done
if [ $# -gt 0 ]; then
    shift
    exec python3 "$here/cases.py" ${words[@]+"${words[@]}"} -- "$@"
fi
program=${MPMCALLS:-$root/crates/mpmcalls/out/mpmcalls}
if [ ! -x "$program" ]; then
    echo "no $program: run 'rt run </dev/null' in crates/mpmcalls first"
    exit 2
fi
program=$(readlink -f "$program")
# the stored run of the program's crate is the generator's own S0 to S6
stored=$(mktemp -d)
trap 'rm -rf "$stored"' EXIT
python3 "$here/cases.py" --stored "$stored"
for file in stdin stdout data/DISK.IMG; do
    if ! cmp "$stored/$file" "$root/crates/mpmcalls/$file"; then
        echo "the stored run is not the generator's: FAILED"
        exit 1
    fi
done
echo "the stored run: as generated"
python3 "$here/cases.py" ${words[@]+"${words[@]}"} -- bash "$root/machine/run.sh" "$program"
