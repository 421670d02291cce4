#!/usr/bin/env bash
# Puts the programs weigh, shrink, shrink_stored, settings, differ and convert into target/bin:
#     bash tools/programs.sh          proves and builds what is not built
#     bash tools/programs.sh taken    takes what rt ci has just built
set -eu
cd "$(dirname "$0")/.."
mkdir -p target/bin
for name in weigh shrink shrink_stored settings differ convert; do
    if [ "${1:-}" != taken ]; then
        command -v rt > /dev/null || { echo "tools/programs.sh: missing: rt (the Rattle toolchain), which builds the programs" >&2; exit 2; }
        # It runs the program too, once it is built: on nothing, and without a word.
        (cd "crates/$name" && rt run < /dev/null) > target/bin.log 2>&1 || { cat target/bin.log >&2; exit 1; }
    fi
    cp "crates/$name/out/$name" "target/bin/$name.new"
    mv "target/bin/$name.new" "target/bin/$name"
done
