#!/usr/bin/env bash
# story.sh [small|large]: builds the host and plays the story of the order book, on a drive of that kind (small). From a
# fresh clone the engine is proved first, which takes minutes. The book stays in target/host/book/ORDERS.BOOK.
set -euo pipefail
here=$(cd "$(dirname "${BASH_SOURCE[0]}")" && pwd -P)
# shellcheck source=../machine/kit.sh
. "$here/../machine/kit.sh"
out=$root/target/host

"$root/machine/build.sh" "$here/story.c" "$out/story" "$here/save.c"
mkdir -p "$out/book"
rm -f "$out/book/ORDERS.BOOK"
"$root/machine/run.sh" "$out/story" "$out/book" "$@"
