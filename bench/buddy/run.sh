#!/usr/bin/env bash
# Times of the library beside BuDDy, in one process:
#     bash bench/buddy/run.sh [SEED]          two diagrams compared
#     bash bench/buddy/run.sh pool [SEED]     a site's conditions in one table; and the nodes that this saves
# The seed is 2026 unless given. It needs a C compiler, Debian's package libbdd-dev (BuDDy 2.4; apt-get install libbdd-dev), and the Rattle
# toolchain's rt or the archive that it has written before. Where BuDDy is missing it says so and measures nothing.
set -eu
cd "$(dirname "$0")/../.."

missing() {
    echo "bench/buddy/run.sh: NOT RUN: missing: $1" >&2
    exit 2
}

command -v cc > /dev/null || missing "a C compiler (cc)"
echo '#include <bdd.h>' | cc -E -x c - > /dev/null 2>&1 || missing "BuDDy: as root, apt-get install libbdd-dev"
archive=target/staticlib/libhouayletan.a
bash tools/archive.sh
what=compare
if [ "${1:-}" = pool ]; then
    what=pool
    shift
fi
mkdir -p target/tests
cc -std=gnu99 -Wall -Wextra -Werror -O2 "bench/buddy/$what.c" "$archive" -lbdd -lm -o "target/tests/buddy_$what"
echo "$(date -u +%Y-%m-%d), $(nproc) cores, $(sed -n 's/^model name[^:]*: //p' /proc/cpuinfo | head -1)"
exec "target/tests/buddy_$what" "$@"
