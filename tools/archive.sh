#!/usr/bin/env bash
# Makes target/staticlib/libhouayletan.a, what C and Rust link: proves what is not proved, and builds crates/houayletan_c. Where there is no rt
# (the Rattle toolchain), an archive that was made before stays.
set -eu
cd "$(dirname "$0")/.."
archive=target/staticlib/libhouayletan.a
if command -v rt > /dev/null; then
    mkdir -p target/staticlib
    (cd crates/houayletan_c && rt lib) > target/staticlib.log 2>&1 || { cat target/staticlib.log >&2; exit 1; }
    cp crates/houayletan_c/out/libhouayletan_c.a "$archive.new"
    mv "$archive.new" "$archive"
elif [ ! -f "$archive" ]; then
    echo "tools/archive.sh: missing: rt (the Rattle toolchain), which makes $archive" >&2
    exit 2
fi
