#!/usr/bin/env bash
# Compares the proved library with the Rust text (bench/rust_text) on requests from a seed:
#     bash compare/run.sh [SEED [REQUESTS]]     2026 and 200,000 unless given
#     bash compare/run.sh store                 makes tests/c/replay.txt again
# It needs what bench/run.sh needs: cargo, Debian's package librust-num-bigint-dev (installed here where root runs this), and
# the Rattle toolchain's rt or the archive that it has written before.
set -eu
cd "$(dirname "$0")"

missing() {
    echo "compare/run.sh: missing: $1" >&2
    exit 2
}

command -v cargo > /dev/null || missing "cargo (Rust, https://rustup.rs)"
command -v cc > /dev/null || missing "cc, which cargo links with"

if ! ls -d /usr/share/cargo/registry/num-bigint-* > /dev/null 2>&1; then
    if [ "$(id -u)" = 0 ] && command -v apt-get > /dev/null; then
        apt-get update -qq
        apt-get install -y -qq librust-num-bigint-dev > /dev/null
    else
        missing "the Debian package librust-num-bigint-dev: as root, apt-get install librust-num-bigint-dev"
    fi
fi

bash ../tools/archive.sh

cargo build --release --quiet
program=${CARGO_TARGET_DIR:-target}/release/houayletan-compare
if [ "${1:-}" = store ]; then
    exec "$program" store 2026 5800 > ../tests/c/replay.txt
fi
exec "$program" "$@"
