#!/usr/bin/env bash
# Millions of random and damaged inputs through the C interface, a part of them under valgrind, and the deepest recursions on
# a small stack:
#     bash stress/run.sh [SEED [REQUESTS]]     2026 and 5,000,000 unless given
# It needs a C compiler, and the Rattle toolchain's rt or the archive that it has written before. A missing valgrind is said.
set -eu
cd "$(dirname "$0")/.."
seed=${1:-2026} requests=${2:-5000000}

command -v cc > /dev/null || { echo "stress/run.sh: missing: a C compiler (cc)" >&2; exit 2; }
archive=target/staticlib/libhouayletan.a
bash tools/archive.sh
mkdir -p target/tests
cc -std=gnu99 -Wall -Wextra -Werror -O2 -g stress/stress.c "$archive" -lpthread -o target/tests/stress
cc -std=c99 -Wall -Wextra -Werror -O2 -g tests/c/replay.c "$archive" -o target/tests/replay

echo "== deepest recursions, ulimit -s 256"
(ulimit -s 256 && target/tests/stress deep && target/tests/replay tests/c/replay.txt && target/tests/stress "$((seed + 1))" 100000)
echo "== guard words around every lent buffer"
target/tests/stress "$seed" "$requests"
if command -v valgrind > /dev/null; then
    echo "== under valgrind, each buffer as long as it is said to be and no longer"
    valgrind --quiet --error-exitcode=1 --leak-check=full target/tests/stress "$((seed + 2))" 20000 0
    valgrind --quiet --error-exitcode=1 target/tests/replay tests/c/replay.txt
else
    echo "== NOT RUN: there is no valgrind on this machine"
fi
echo "stress/run.sh: all passed"
