#!/usr/bin/env bash
# archive.sh: makes the archive that ships, target/staticlib/libengine.a, if it is missing or older than the sources.
# The engine is proved first, which takes long where that was not done before.
set -euo pipefail
unset MPM_ARCHIVE
# shellcheck source=kit.sh
. "$(dirname "${BASH_SOURCE[0]}")/kit.sh"
make_archive
