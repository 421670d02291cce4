#!/usr/bin/env bash
# Builds the proved library and the Rust text for release, runs both on the same diagrams, compares their answers and
# prints the times. Arguments, both optional: a seed, and the name of one operation, "many cuts", "node files" or
# "settings".
# It needs cargo, Debian's package librust-num-bigint-dev (installed here where root runs this), and the Rattle
# toolchain's rt or the archive that it has written before.
set -eu
cd "$(dirname "$0")"

missing() {
    echo "bench/run.sh: missing: $1" >&2
    exit 2
}

command -v cargo > /dev/null || missing "cargo (Rust, https://rustup.rs)"

if ! ls -d /usr/share/cargo/registry/num-bigint-* > /dev/null 2>&1; then
    if [ "$(id -u)" = 0 ] && command -v apt-get > /dev/null; then
        apt-get update -qq
        apt-get install -y -qq librust-num-bigint-dev > /dev/null
    else
        missing "the Debian package librust-num-bigint-dev: as root, apt-get install librust-num-bigint-dev"
    fi
fi

bash ../tools/archive.sh

cargo build --release --quiet
if command -v cc > /dev/null; then
    cc -std=c99 -Wall -Wextra -Werror -O2 call.c ../target/staticlib/libhouayletan.a -o target/call
    ./target/call
fi

echo "$(date -u +%Y-%m-%d), $(nproc) cores, $(sed -n 's/^model name[^:]*: //p' /proc/cpuinfo | head -1), $(rustc --version)"
exec ./target/release/houayletan-bench "$@"
