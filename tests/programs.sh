#!/usr/bin/env bash
# Runs the built programs weigh, shrink, convert, differ, settings and shrink_stored on the cases of tests/programs (made by tests/program_cases.py) and compares
# standard output and standard error, byte by byte. Argument: the folder of the programs.
set -u
programs=$(cd "${1:-target/bin}" && pwd) || exit 2
cd "$(dirname "$0")/programs" || exit 2
made=$(mktemp -d) || exit 2
passed=0 failed=0
# out_is NAME: what was written is the case's output, or has its sum where only that is stored.
out_is() {
    if [ -f "$1.sum" ]; then
        sha256sum < "$made/out" | cmp -s - "$1.sum"
    else
        cmp -s "$made/out" "$1.out"
    fi
}
for call in *.call; do
    name=${call%.call} input=${call%.call}.in
    mapfile -t words < "$call"
    # The first bytes of an input that several cases share.
    if [ -f "$name.from" ]; then
        read -r whole length < "$name.from"
        input=$made/in
        head -c "$length" "$whole" > "$input"
    fi
    "$programs/${words[0]}" "${words[@]:1}" < "$input" > "$made/out" 2> "$made/err"
    if out_is "$name" && cmp -s "$made/err" "$name.err"; then
        passed=$((passed + 1))
    else
        failed=$((failed + 1))
        echo "programs: $name: ${words[*]}: not what tests/programs has"
    fi
done
# What was converted and is converted back is the same bytes.
for call in convert-*.call; do
    name=${call%.call}
    [ -s "$name.out" ] || continue
    mapfile -t words < "$call"
    "$programs/convert" "${words[3]}" to "${words[1]}" < "$name.out" > "$made/out" 2> "$made/err"
    if cmp -s "$made/out" "$name.in" && cmp -s "$made/err" "$name.err"; then
        passed=$((passed + 1))
    else
        failed=$((failed + 1))
        echo "programs: $name: converted back it is not the same"
    fi
done
# Words that are stored cut as the words do, on both channels: what is written and what is said. And what is shown of them is stored as the same block.
for call in settings-??.call; do
    name=${call%.call}
    mapfile -t words < "$call"
    for input in D.block dead.block wide.block D.nodes dead.nodes refused-52.nodes; do
        case $input in *.nodes) form=(nodes) ;; *) form=() ;; esac
        "$programs/shrink" "${form[@]}" "${words[@]:1}" < "$input" > "$made/out" 2> "$made/err"
        "$programs/shrink_stored" "${form[@]}" settings "$name.out" < "$input" > "$made/stored" 2> "$made/said"
        if cmp -s "$made/out" "$made/stored" && cmp -s "$made/err" "$made/said" && [ -s "$made/said" ]; then
            passed=$((passed + 1))
        else
            failed=$((failed + 1))
            echo "programs: $name: ${words[*]:1} of $input: stored it is not the same"
        fi
    done
    read -r -a shown < <("$programs/settings" show < "$name.out" 2> "$made/err")
    "$programs/settings" "${shown[@]}" > "$made/out" 2> "$made/said" < /dev/null
    if cmp -s "$made/out" "$name.out" && [ "$(cat "$made/said")" = "${shown[*]}" ]; then
        passed=$((passed + 1))
    else
        failed=$((failed + 1))
        echo "programs: $name: what is shown of it is not stored as it was"
    fi
done
# An input that comes in pieces is the same input.
{ head -c 7; sleep 0.1; cat; } < crowded.bytes | "$programs/shrink" nodes keep size 4 > "$made/out" 2> "$made/err"
"$programs/shrink" nodes keep size 4 < crowded.bytes 2>&1 > "$made/whole" | cmp -s - "$made/err"
if [ "${PIPESTATUS[1]}" -eq 0 ] && [ -s "$made/out" ] && cmp -s "$made/out" "$made/whole"; then
    passed=$((passed + 1))
else
    failed=$((failed + 1))
    echo "programs: an input that comes in pieces is not the same as in one"
fi
{ head -c 7; sleep 0.1; cat; } < v2-keep-size-4-as-is.settings | "$programs/settings" show > "$made/out" 2> "$made/err"
{ head -c 7 v2-keep-size-4-as-is.settings; sleep 0.1; tail -c +8 v2-keep-size-4-as-is.settings; } | "$programs/shrink_stored" settings /dev/fd/3 3<&0 < D.block > "$made/stored" 2> "$made/said"
"$programs/shrink" keep size 4 as-is < D.block > "$made/whole" 2>> "$made/err"
if [ "$(cat "$made/out")" = "keep size 4 as-is" ] && cmp -s <(echo "version 2"; cat "$made/said") "$made/err" && [ -s "$made/whole" ] && cmp -s "$made/stored" "$made/whole"; then
    passed=$((passed + 1))
else
    failed=$((failed + 1))
    echo "programs: settings that come in pieces are not the same as in one"
fi
# Words that ask for nothing are answered without waiting for an input: here none ever comes. So are a settings file that is not there or is refused.
mkfifo "$made/never" || exit 2
for call in 'settings' 'settings keep' 'settings keep count 6' 'settings show show' 'shrink_stored settings' 'shrink_stored settings missing' 'shrink_stored nodes settings missing' 'shrink_stored settings damaged.settings' 'shrink_stored nodes settings version-3.settings' \
    'shrink_stored settings damaged.settings keep' 'shrink' 'shrink keep count 6' 'shrink keep' 'shrink nodes' 'shrink nodes keep count 6' 'shrink keep nodes size 4' 'weigh blocks' 'weigh nodes nodes' 'convert' 'convert blocks' 'differ' 'differ nodes'; do
    # shellcheck disable=SC2086
    timeout 5 "$programs/"$call <> "$made/never" > "$made/out" 2> "$made/err"
    if [ ! -s "$made/out" ] && [ -s "$made/err" ]; then
        passed=$((passed + 1))
    else
        failed=$((failed + 1))
        echo "programs: $call: it waits for an input, or writes a file"
    fi
done
timeout 5 "$programs/settings" keep size 4 <> "$made/never" > "$made/out" 2> "$made/err"
if cmp -s "$made/out" v1-keep-size-4.settings && [ "$(cat "$made/err")" = "keep size 4" ]; then
    passed=$((passed + 1))
else
    failed=$((failed + 1))
    echo "programs: settings keep size 4: it waits for an input"
fi
# An input without an end is refused, and not read to its end.
if [ -r /dev/zero ]; then
    for call in 'weigh nodes' 'shrink nodes keep size 4' 'convert nodes to blocks'; do
        # shellcheck disable=SC2086
        timeout 5 "$programs/"$call < /dev/zero > "$made/out" 2>&1
        if grep -q '^refused 53 at 0' "$made/out"; then
            passed=$((passed + 1))
        else
            failed=$((failed + 1))
            echo "programs: $call < /dev/zero: it is not refused 53 at 0"
        fi
    done
fi
if [ -r /dev/zero ]; then
    timeout 5 "$programs/settings" show < /dev/zero > "$made/out" 2>&1
    timeout 5 "$programs/shrink_stored" settings /dev/zero < D.block >> "$made/out" 2>&1
    if [ "$(cut -d : -f 1,2 "$made/out")" = $'refused 21 at 0: a block is short or missing, or bytes stand after the last one\nsettings file: refused 21 at 0' ]; then
        passed=$((passed + 1))
    else
        failed=$((failed + 1))
        echo "programs: settings without an end: they are not refused 21 at 0"
    fi
fi
# Files that are no plain files: in pieces, without an end, and a folder.
{ head -c 7 D.nodes; sleep 0.1; tail -c +8 D.nodes; } | "$programs/differ" nodes /dev/stdin cut.nodes > "$made/out" 2> "$made/err"
"$programs/differ" nodes D.nodes cut.nodes > "$made/whole" 2>> "$made/err"
if [ -s "$made/out" ] && [ ! -s "$made/err" ] && cmp -s "$made/out" "$made/whole"; then
    passed=$((passed + 1))
else
    failed=$((failed + 1))
    echo "programs: differ: a file that comes in pieces is not the same as in one"
fi
if [ -r /dev/zero ]; then
    for names in '/dev/zero D.nodes' 'D.nodes /dev/zero'; do
        # shellcheck disable=SC2086
        timeout 5 "$programs/differ" nodes $names > "$made/out" 2>&1
        if grep -q '^/dev/zero: refused 53 at 0' "$made/out"; then
            passed=$((passed + 1))
        else
            failed=$((failed + 1))
            echo "programs: differ nodes $names: it is not refused 53 at 0"
        fi
    done
fi
# Room and table fit the stack that programs are given.
(ulimit -s 8192; "$programs/differ" nodes crowd-first.nodes crowd-second.nodes) > "$made/out" 2> "$made/err"
if grep -q '^smallest difference ' "$made/out" && [ ! -s "$made/err" ]; then
    passed=$((passed + 1))
else
    failed=$((failed + 1))
    echo "programs: differ: it takes more than 8 MiB of stack"
fi
# Where standard output takes nothing, the one line that says so.
if [ -w /dev/full ]; then
    for case in 'D.block weigh' 'D.block shrink keep size 4' 'D.block convert blocks to nodes' 'D.bdd weigh nodes' 'D.bdd shrink nodes keep size 4' 'D.bdd convert nodes to blocks' 'D.block differ D.block cut.block' 'D.bdd differ nodes D.nodes cut.nodes' \
        'D.block settings keep size 4' 'pump-trips.settings settings show' 'D.block shrink_stored settings v1-keep-size-4.settings' 'D.bdd shrink_stored nodes settings v1-keep-size-4.settings'; do
        call=${case#* }
        # shellcheck disable=SC2086
        "$programs/"$call < "../../examples/${case%% *}" > /dev/full 2> "$made/err"
        if [ "$(cat "$made/err")" = "${call%% *}: standard output could not be written" ]; then
            passed=$((passed + 1))
        else
            failed=$((failed + 1))
            echo "programs: $call > /dev/full: it is not said that nothing was written"
        fi
    done
fi
rm -rf "$made"
echo "programs: $passed passed, $failed failed"
[ "$failed" -eq 0 ] && [ "$passed" -gt 0 ]
