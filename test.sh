#!/usr/bin/env bash
# All tests: every crate laid out and proved, every must-fail edit refused, every test program run and its output compared (rt ci); the papers held
# to the crates; then, over the same proofs, the programs on stored inputs, the evening script, the archive for C and Rust, the C test, the replay
# of stored requests and the Rust crate's tests. Each of these counts as one beside what rt ci counts.
# The last line is 'N passed, M failed'; the exit status is 0 only where M is 0.
# A missing C compiler, cargo or python3 is said; what needs it is not run and not counted, and does not fail the others.
set -u
cd "$(dirname "$0")" || exit 2
if ! command -v rt > /dev/null; then
    echo "test.sh: the Rattle toolchain's command rt is not on this machine's PATH" >&2
    echo "0 passed, 1 failed"
    exit 2
fi

passed=0 failed=0 left_out=''

# step NAME COMMAND..: runs it and counts it.
step() {
    local name=$1
    shift
    if "$@"; then
        passed=$((passed + 1))
        echo "test.sh: $name: passed"
    else
        failed=$((failed + 1))
        echo "test.sh: $name: FAILED"
    fi
}

leave_out() {
    left_out="$left_out
test.sh: NOT RUN: $1"
}

# rt ci, its last line held back and its counts added. Whatever it says, a status other than 0 is a failure; so are must-fail edits that could not
# be applied or read, which it only counts.
gate() {
    local said status numbers bad
    said=$(mktemp) || { failed=$((failed + 1)); return 1; }
    rt ci | awk -v said="$said" '
        /^rt: ok/ { ok = $0 } NR > 1 { print held; fflush() } { held = $0 } END { print held > said; print ok > said }'
    status=${PIPESTATUS[0]}
    numbers=$(sed -nE '1s/^([0-9]+) passed, ([0-9]+) failed$/\1 \2/p' "$said")
    bad=$(sed -nE '2s/.*must-fail edits:[^;]*, ([0-9]+) bad.*/\1/p' "$said")
    if [ -n "$numbers" ]; then
        echo "test.sh: rt ci: $(head -n 1 "$said")"
        passed=$((passed + ${numbers% *})) failed=$((failed + ${numbers#* }))
        [ "$status" -eq 0 ] || [ "${numbers#* }" -gt 0 ] || failed=$((failed + 1))
        if [ "$status" -eq 0 ] && [ -z "$(sed -n 2p "$said")" ]; then
            echo "test.sh: rt ci: it has no line 'rt: ok'"
            failed=$((failed + 1)) status=1
        fi
        if [ "${bad:-0}" -gt 0 ]; then
            echo "test.sh: rt ci: bad must-fail edits: $bad"
            failed=$((failed + bad)) status=1
        fi
    else
        head -n 1 "$said"
        echo "test.sh: rt ci ended with status $status and gave no counts"
        failed=$((failed + 1)) status=1
    fi
    rm -f "$said"
    return "$status"
}

archive=target/staticlib/libhouayletan.a
built=target/tests

c_program() { # NAME
    mkdir -p "$built" && cc -std=c99 -Wall -Wextra -Werror -O2 "tests/c/$1.c" "$archive" -o "$built/$1"
}
# What was compiled against a header before this one must be stopped by the linker: for want of all its functions, and of nothing else.
old_caller() {
    local said wanting asked
    cc -std=c99 -Wall -Wextra -Werror -O2 -c tests/c/old_caller.c -o "$built/old_caller.o" || return 1
    if cc "$built/old_caller.o" "$archive" -o "$built/old_caller" > /dev/null 2>&1; then
        echo "old caller: it links"
        return 1
    fi
    # once more as warnings, none of which a linker leaves out
    said=$(LC_ALL=C cc "$built/old_caller.o" "$archive" -Wl,--warn-unresolved-symbols -o "$built/old_caller" 2>&1)
    rm -f "$built/old_caller"
    wanting=$(sed -nE "s/.*undefined (reference to|symbol:) [\`']?(\w+).*/\2/p" <<< "$said" | LC_ALL=C sort -u)
    asked=$(grep -oE 'houayletan_[a-z_0-9]+' tests/c/old_caller.c | LC_ALL=C sort -u)
    [ "$wanting" = "$asked" ] && [ "$(wc -l <<< "$asked")" -eq 24 ] && return
    echo "old caller: not stopped for all 24 functions of those headers: $said"
    return 1
}
c_test() { c_program test && "$built/test" && c_program pool_test && "$built/pool_test" && old_caller; }
replay() { c_program replay && "$built/replay" tests/c/replay.txt; }
rust_tests() {
    HOUAYLETAN_LIB="$PWD/target/staticlib" CARGO_TARGET_DIR="$PWD/$built/rust" cargo test --offline --quiet --manifest-path bindings/rust/Cargo.toml
}
make_archive() { rm -f "$archive" && bash tools/archive.sh && [ -f "$archive" ]; }
programs() { rm -rf target/bin && bash tools/programs.sh taken && bash tests/programs.sh target/bin; }

proved=yes
gate || proved=no
if python3 --version > /dev/null 2>&1; then
    step "papers" python3 tests/papers.py
else
    leave_out "the papers held to the crates: there is no python3 on this machine"
fi
if [ "$proved" = yes ]; then
    step "programs" programs
    step "evening" bash tests/evening.sh target/bin
    step "archive for C and Rust" make_archive
    if [ ! -f "$archive" ]; then
        leave_out "the C test, the replay and the Rust tests: there is no archive"
    elif [ "$(uname -m)" != x86_64 ]; then
        leave_out "the C test, the replay and the Rust tests: the archive links only on x86-64, and this machine is $(uname -m)"
    elif ! cc --version > /dev/null 2>&1; then
        leave_out "the C test, the replay and the Rust tests: there is no C compiler (cc) on this machine"
    else
        step "C test" c_test
        step "replay" replay
        if cargo --version > /dev/null 2>&1; then
            step "Rust tests" rust_tests
        else
            leave_out "the Rust tests: there is no cargo on this machine"
        fi
    fi
else
    leave_out "the programs, the evening, the archive, the C test, the replay and the Rust tests: rt ci failed"
fi

[ -z "$left_out" ] || echo "${left_out#?}"
echo "$passed passed, $failed failed"
[ "$failed" -eq 0 ]
