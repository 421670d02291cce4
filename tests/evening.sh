#!/usr/bin/env bash
# Holds examples/evening.sh to tests/evening (made by tests/evening_cases.py): good evenings, evenings with a condition that is not answered, and everything
# that it turns down. Argument: the folder of the programs.
set -u
programs=$(cd "${1:-target/bin}" && pwd) || exit 2
here=$(cd "$(dirname "$0")" && pwd) || exit 2
stored=$here/evening
script=$here/../examples/evening.sh
made=$(mktemp -d) || exit 2
trap 'rm -rf "$made"' EXIT
passed=0 failed=0

# check WHAT COMMAND..
check() {
    local what=$1
    shift
    if "$@"; then
        passed=$((passed + 1))
    else
        failed=$((failed + 1))
        echo "evening: $what"
        sed 's/^/    /' "$made/out" "$made/err" | tail -5
    fi
}
# A site as it stands before an evening: conditions, a list, yesterday's folder and the one before.
fresh() {
    rm -rf "$made/site" "$made/as-it-was"
    mkdir -p "$made/site/router" "$made/site/router.before"
    cp -r "$stored/conditions" "$stored/list" "$made/site"
    printf 'yesterday' > "$made/site/router/storm-west.bdd"
    printf 'the day before' > "$made/site/router.before/storm-west.bdd"
}
# Runs the script in the site's folder, with the words given.
evening() {
    cp -a "$made/site" "$made/as-it-was"
    (cd "$made/site" && exec bash "$script" "$@") > "$made/out" 2> "$made/err"
    status=$?
}
tonight() { evening list conditions router "${1:-$programs}"; }
unchanged() { diff -r --no-dereference "$made/as-it-was" "$made/site" > /dev/null; }
same() { diff -r "$1" "$2" > /dev/null; }
# said LINE: it is the last line of standard output.
said() { [ "$(tail -n 1 "$made/out")" = "$1" ]; }
# replaced TABLE ANSWERS BEFORE: the evening went well.
replaced() {
    [ "$status" -eq 0 ] && [ ! -s "$made/err" ] && same "$made/site/router" "$2" && same "$made/site/router.before" "$3" &&
        cmp -s <(cat "$1"; echo "all 20 conditions answered: they are in router, yesterday's in router.before") "$made/out" &&
        [ "$(cd "$made/site" && echo *)" = "conditions list router router.before" ]
}
# not_answered LINES TEXT: status 1, all as it was, and in place of numbers TEXT, in so many lines; the other lines are the table's.
not_answered() {
    [ "$status" -eq 1 ] && unchanged && said "$1 of 20 conditions not answered: router is as it was" &&
        [ "$(grep -cF -- "  $2" "$made/out")" -eq "$1" ] && [ "$(grep -cxFf "$stored/table" "$made/out")" -eq $((21 - $1)) ] && [ "$(wc -l < "$made/out")" -eq 22 ]
}
# wrong TEXT: status 2, all as it was, no table, and TEXT on standard error; shrink was not called.
wrong() { [ "$status" -eq 2 ] && unchanged && [ ! -s "$made/out" ] && grep -qF -- "evening: $1" "$made/err" && [ ! -e "$made/called" ]; }

# A shrink that leaves a trace and answers nothing, for what must not come so far.
mkdir "$made/none"
printf '#!/bin/sh\ntouch "%s/called"\n' "$made" > "$made/none/shrink"
chmod +x "$made/none/shrink"
# The same beside a shrink_stored, for settings.
cp -r "$made/none" "$made/none-stored"
cp "$made/none/shrink" "$made/none-stored/shrink_stored"
# pretend TEXT: a shrink that does as the shell script TEXT says; $real is the program.
pretend() {
    mkdir -p "$made/pretended"
    printf '#!/usr/bin/env bash\nreal=%q/shrink made=%q\n%s\n' "$programs" "$made" "$1" > "$made/pretended/shrink"
    chmod +x "$made/pretended/shrink"
}

# ---- evenings that go well
fresh
mv "$made/site/router" "$made/yesterday"
mv "$made/site/router.before" "$made/earlier"
tonight
check "the first evening" test "$status" -eq 0 -a ! -s "$made/err" -a ! -e "$made/site/router.before"
check "the first evening's answers" same "$made/site/router" "$stored/answers"
check "the first evening's table" cmp -s <(cat "$stored/table"; echo "all 20 conditions answered: they are in router") "$made/out"
mv "$made/site/router" "$made/first"
mv "$made/yesterday" "$made/site/router"
mv "$made/earlier" "$made/site/router.before"
rm -r "$made/as-it-was"
tonight
check "a good evening" replaced "$stored/table" "$stored/answers" "$made/as-it-was/router"
cp "$stored/list-second" "$made/site/list"
rm -r "$made/as-it-was"
tonight
check "a second one keeps the first as router.before" replaced "$stored/table-second" "$stored/answers-second" "$stored/answers"

fresh
mkdir -p "$made/copy/examples" "$made/copy/target"
cp "$script" "$made/copy/examples"
ln -s "$programs" "$made/copy/target/bin"
(cd / && bash "$made/copy/examples/evening.sh" "$made/site/list" "$made/site/conditions/" "$made/site/router//") > "$made/out" 2> "$made/err"
check "from another folder, with the script's own programs" test $? -eq 0
check "its answers" same "$made/site/router" "$stored/answers"

fresh
printf '\t# spaces, tabs and ends of lines\r\n\n' > "$made/site/list"
sed -e '1d; s/ /\t /g; 5,9s/$/ # why/; s/$/\r/' "$stored/list" >> "$made/site/list"
truncate -s -1 "$made/site/list" # the last line without its end
echo 'no condition' > "$made/site/conditions/notes.txt"
evening list conditions router "$programs"
check "comments, tabs, a last line without an end, a file that is no condition" test "$status" -eq 0
check "their answers" same "$made/site/router" "$stored/answers"

fresh
(cd "$made/site" && bash "$script" list conditions router "$programs" 2> /dev/null; echo $? > "$made/status") | true
check "nobody reads the table" test "$(cat "$made/status")" -eq 0
check "and it is done" same "$made/site/router" "$stored/answers"

fresh
pretend 'if [ "$2 $4" = "keep 40" ]; then printf 1234567890; printf "target x\nnodes 7 to 1\ncases 90000000000000000000 (hex x) to 1 (hex 1)\nadded 89999999999999999999 (hex x)\ntrials 0\n" >&2
elif [ "$2" = keep ]; then printf 1234567890; printf "target x\nnodes 1 to 1\ncases 0 (hex 0) to 7 (hex 7)\nadded 7 (hex 7)\ntrials 0\n" >&2
else head -c 20 /dev/zero; printf "target x\nnodes 999 to 2\ncases 90000000000000000000 (hex x) to 1 (hex 1)\nlost 89999999999999999999 (hex x)\ntrials 0\n" >&2; fi'
rm "$made/site/conditions"/*.block
sed -i '/block/d' "$made/site/list"
tonight "$made/pretended"
check "cases of a condition that had none" test "$(grep -c '1 to 1 .* added 7  *it had none$' "$made/out")" -eq 7
check "nearly as many cases more" test "$(grep -c '7 to 1 .* added 9.000e+19  *100%$' "$made/out")" -eq 1
check "nearly all cases" test "$(grep -c '999 to 2 .* lost 9.000e+19  *nearly all$' "$made/out")" -eq 8

# ---- settings that are stored beside the conditions
# settle [FILE..]: the words of these conditions, or of all, go from the list to a settings file of each.
settle() {
    local file words
    while read -r file words; do
        case $file in '' | '#'*) continue ;; esac
        [ $# -eq 0 ] || [[ " $* " = *" $file "* ]] || continue
        # shellcheck disable=SC2086
        "$programs/settings" $words > "$made/site/conditions/${file%.*}.settings" 2> /dev/null
        sed -i "s/^$file .*/$file settings/" "$made/site/list"
    done < "$stored/list"
}
# The table's other columns than way and target, and the rows that have settings as their way.
without_words() { sed -E 's/^(.{25}).{10}.{26}/\1/'; }
all_settled() { [ "$(grep -c '^[^ ]*  *settings  ' "$made/out")" -eq "$1" ]; }
fresh
settle
tonight
check "all conditions by stored settings" test "$status" -eq 0 -a ! -s "$made/err"
check "they answer as the words do" same "$made/site/router" "$stored/answers"
check "their table" cmp -s <(without_words < "$stored/table") <(head -n 21 "$made/out" | without_words)
check "their last line" said "all 20 conditions answered: they are in router, yesterday's in router.before"
check "their table says where the target is from" all_settled 20
check "and what it is" grep -qE '^storm-west\.bdd +settings  size 150 +295 to 149  ' "$made/out"
check "in decimal, where it was in hexadecimal" grep -qF 'group-b.bdd              settings  cases 9750533140267725..  83 to 57 ' "$made/out"
check "no settings file goes to the router" test ! -e "$made/site/router/storm-west.settings"
fresh
settle never.bdd alarms-site.bdd unit-05-first-out.block
tonight
check "some by settings and some by words" test "$status" -eq 0 -a ! -s "$made/err"
check "they answer as all words do" same "$made/site/router" "$stored/answers"
check "three of them by settings" all_settled 3
fresh
settle
cp "$stored/list" "$made/site/list"
for file in "$made/site/conditions"/*.settings; do truncate -s 0 "$file"; done
tonight
check "settings that no line asks for are not looked at" test "$status" -eq 0 -a ! -s "$made/err"
check "and the words answer" same "$made/site/router" "$stored/answers"
# spoil TEXT COMMAND..: the settings file of one condition spoilt by the command, which has it as its last word
spoil() {
    fresh
    settle storm-west.bdd
    "${@:2}" "$made/site/conditions/storm-west.settings"
    tonight
    check "settings: $1" not_answered 1 "settings file: $1"
    check "settings: $1: whose they are" grep -q '^storm-west.bdd  *settings  ' "$made/out"
}
flip() { printf '\377' | dd of="$2" bs=1 seek="$1" conv=notrunc 2> /dev/null; }
spoil 'refused 22 at 0: a check sum is wrong' flip 4
spoil 'refused 22 at 0: a check sum is wrong' flip 511
spoil 'refused 21 at 0: a block is short or missing, or bytes stand after the last one' truncate -s 0
spoil 'refused 21 at 0: a block is short or missing, or bytes stand after the last one' truncate -s 511
spoil 'refused 21 at 0: a block is short or missing, or bytes stand after the last one' truncate -s 513
spoil 'refused 38 at 0: the version is not known' cp "$here/programs/version-3.settings"
spoil 'refused 39 at 0: a field is out of its range' cp "$here/programs/direction-2.settings"
spoil 'refused 24 at 0: unused bytes are not zero' cp "$here/programs/flag-in-1.settings"
spoil 'refused 38 at 0: the version is not known' cp "$stored/conditions/chatter-north.block" # by its name, never by its content
fresh
settle storm-west.bdd
rm -r "$made/site/router" "$made/site/router.before"
flip 4 "$made/site/conditions/storm-west.settings"
tonight
check "damaged settings, on the first evening" not_answered 1 'settings file: refused 22 at 0'
fresh
settle trips-west.bdd
"$programs/settings" keep size 0 > "$made/site/conditions/trips-west.settings" 2> /dev/null
tonight
check "stored, a target that can't be met" not_answered 1 'refused 18 at 0: no answer has so few nodes; 2 are always enough'

# ---- a condition that is not answered
damage() { # FILE TEXT [COMMAND..]: the file of the site damaged by the command, which has it as its last word
    fresh
    "${@:3}" "$made/site/conditions/$1"
    tonight
    check "damaged: $1: $2" not_answered 1 "$2"
}
damage chatter-north.block 'refused 22 at 0: a check sum is wrong' flip 30
damage unit-02-first-out.block 'refused 21 at 0: a block is short or missing, or bytes stand after the last one' truncate -s 511
damage storm-west.bdd 'refused 52 at 0: the length of the file is not a multiple of ten bytes' truncate -s -1
damage never.bdd 'refused 51 at 0: the file is empty' truncate -s 0
damage group-a.bdd 'refused 53 at 0: there are more than 4096 nodes' truncate -s 40970
damage alarms-all.bdd 'refused 10 at 9: node 9 has a high link past the nodes' flip 99
damage alarms-site.bdd "refused 6 at 0: node 0 is not the terminal that stands there in a diagram, with node 0's variable count" flip 5
damage never.bdd 'refused 52 at 0' cp "$stored/conditions/chatter-north.block" # by its name, never by its content
damage chatter-north.block 'refused 22 at 0' cp "$stored/conditions/chatter-east.bdd"
fresh
sed -i 's/^\(trips-west.bdd keep\) .*/\1 size 0/' "$made/site/list"
tonight
check "a target that can't be met" not_answered 1 'refused 18 at 0: no answer has so few nodes; 2 are always enough'
fresh
for file in never.bdd group-b.bdd chatter-north.block; do truncate -s 0 "$made/site/conditions/$file"; done
tonight
check "three are not answered" not_answered 3 'refused '
fresh
rm -r "$made/site/router" "$made/site/router.before"
truncate -s 7 "$made/site/conditions/storm-east.bdd"
tonight
check "not answered, on the first evening" not_answered 1 'refused 52 at 0'

# ---- an answer counts only whole
for answer in 'sed 1d >&2 < /dev/null; cat > /dev/null' '"$real" "$@" > /dev/null' '"$real" "$@" | head -c -1' '{ "$real" "$@"; printf x; }' '"$real" "$@" 2> /dev/null' \
    '"$real" "$@" 2> >(sed "s/^target/Target/" >&2); wait' '"$real" "$@" > /dev/full' 'kill -9 $$' 'printf "target x\nnodes 5 to 0\ncases 1 (hex 1) to 0 (hex 0)\nlost 1 (hex 1)\n" >&2' '"$real" "$@" > /dev/null; head -c 512 /dev/zero'; do
    fresh
    pretend 'if [ "$2 $4" = "suppress 150" ]; then '"$answer; else exec \"\$real\" \"\$@\"; fi"
    tonight "$made/pretended"
    check "an answer that is none: $answer" test "$status" -eq 1
    check "and all is as it was: $answer" unchanged
    check "and it is said: $answer" said "1 of 20 conditions not answered: router is as it was"
done

# ---- files that can't be written, and signals
fresh
cp -a "$made/site" "$made/as-it-was"
(cd "$made/site" && ulimit -f 1 && bash "$script" list conditions router "$programs" 2>&1; echo $?) 2>&1 | cat > "$made/out"
check "no room for files of more than 1,024 bytes" said 1
check "and all is as it was" unchanged
# A rename that fails, each of the three, and a folder that can't be brought to the disk.
mkdir "$made/commands"
printf '#!/bin/sh\n[ "$*" != "$(cat "%s/fails")" ] && exec "%s" "$@"\n' "$made" "$(command -v mv)" > "$made/commands/mv"
printf '#!/bin/sh\n[ ! -e "%s/fails-to-sync" ]\n' "$made" > "$made/commands/sync"
chmod +x "$made/commands"/*
for rename in 'router.before router.older' 'router router.before' 'router.new router' ''; do
    fresh
    echo "-T -- $rename" > "$made/fails"
    [ -n "$rename" ] || touch "$made/fails-to-sync"
    PATH=$made/commands:$PATH tonight
    check "not put in place: $rename" test "$status" -eq 1
    check "not put in place: $rename: all is as it was" unchanged
    check "not put in place: $rename: it is said" said 'all 20 conditions answered, but the folder could not be put in place: router is as it was'
done
for signal in TERM HUP; do
    fresh
    cp -a "$made/site" "$made/as-it-was"
    rm -f "$made/waits"
    pretend 'if [ "$2 $4" = "suppress 150" ]; then touch "$made/waits"; sleep 0.3; fi; exec "$real" "$@"'
    (cd "$made/site" && exec bash "$script" list conditions router "$made/pretended") > "$made/out" 2> "$made/err" &
    for _ in {1..200}; do [ -e "$made/waits" ] && break; sleep 0.05; done
    kill -s "$signal" $!
    wait $!
    status=$?
    check "interrupted by $signal" test "$status" -eq 1
    check "interrupted by $signal: it is said" grep -qx 'evening: interrupted: router is as it was' "$made/err"
    check "interrupted by $signal: all is as it was" unchanged
done

# ---- what is turned down before anything is run
# turned_down TEXT [WORDS..]: those words, or the usual ones.
turned_down() {
    local text=$1
    shift
    [ $# -gt 0 ] || set -- list conditions router
    [ $# -ne 3 ] || set -- "$@" "$made/none"
    evening "$@"
    check "turned down: $text: $*" wrong "$text"
    fresh
}
fresh
evening
check "turned down: no words" wrong 'the words are LIST CONDITIONS ROUTER'
fresh
turned_down 'the words are LIST CONDITIONS ROUTER' list conditions
turned_down 'the words are LIST CONDITIONS ROUTER' list conditions router "$made/none" more
turned_down 'there is no list nowhere that can be read' nowhere conditions router
turned_down 'there is no list conditions that can be read' conditions conditions router
turned_down 'there is no folder of conditions nowhere' list nowhere router
turned_down 'there is no folder of conditions list' list list router
turned_down 'there is no program nowhere/shrink' list conditions router nowhere
turned_down "the router's folder / has no name of its own" list conditions /
turned_down "the router's folder . has no name of its own" list conditions .
turned_down "the router's folder router/.. has no name of its own" list conditions router/..
turned_down "the router's folder  has no name of its own" list conditions ''
turned_down 'there is no folder for nowhere/router to stand in' list conditions nowhere/router
turned_down 'list is not a folder, or a link to one' list conditions list
ln -s router "$made/site/link"
turned_down 'link is not a folder, or a link to one' list conditions link
touch "$made/site/tonight.before"
turned_down 'tonight.before is not a folder' list conditions tonight
rm -r "$made/site/router"
turned_down 'router.before is there and router is not: an evening was cut off'
mkdir "$made/site/router.new"
turned_down 'router.new is there: another evening runs, or one was cut off'
mkdir "$made/site/router.older"
turned_down 'router.older is there: another evening runs, or one was cut off'
mv "$made/site/conditions" "$made/site/router"
turned_down 'router/conditions is inside router or router.before, which are replaced' list router/conditions router
rm -r "$made/site/router.before"
mv "$made/site/conditions" "$made/site/router.before"
turned_down 'router.before is inside router or router.before' list router.before router
mv "$made/site/list" "$made/site/router"
turned_down 'router is inside router or router.before' router/list conditions router

rm "$made/site/conditions/never.bdd"
turned_down 'never.bdd of list is no file in conditions that can be read'
rm "$made/site/conditions/never.bdd"
mkdir "$made/site/conditions/never.bdd"
turned_down 'never.bdd of list is no file in conditions that can be read'
sed -i 's/^storm-west.bdd .*/storm-west.bdd settings/' "$made/site/list"
turned_down 'storm-west.bdd of list asks for settings, and storm-west.settings is no file in conditions that can be read' list conditions router "$made/none-stored"
sed -i 's/^chatter-north.block .*/chatter-north.block settings/' "$made/site/list"
mkdir "$made/site/conditions/chatter-north.settings"
turned_down 'chatter-north.block of list asks for settings, and chatter-north.settings is no file in conditions that can be read' list conditions router "$made/none-stored"
settle storm-west.bdd
mv "$made/site/conditions/storm-west.settings" "$made/site/conditions/storm-west.bdd.settings" # the ending is replaced, nothing is put behind it
turned_down 'storm-west.bdd of list asks for settings, and storm-west.settings is no file in conditions that can be read' list conditions router "$made/none-stored"
settle storm-west.bdd
turned_down 'storm-west.bdd of list asks for settings, and there is no program' # where there is shrink alone
cp "$stored/conditions/never.bdd" "$made/site/conditions/more.bdd"
turned_down 'more.bdd of conditions is not in list'
cp "$stored/conditions/chatter-north.block" "$made/site/conditions/.more.block"
turned_down '.more.block of conditions is not in list'
touch "$made/site/conditions/one more.bdd"
turned_down 'conditions has a file with a space in its name, which no list can have: one more.bdd'
sed -i '/never/d' "$made/site/list"
turned_down 'never.bdd of conditions is not in list'
grep '^#' "$stored/list" > "$made/site/list"
turned_down 'list has no condition'
: > "$made/site/list"
turned_down 'list has no condition'
large=1$(printf '%0128d' 0)
size=4294967296 cases=13407807929942597099574024998205846127479365820592393377723561443721764030073546976801874298166903427690031858186486050853753882811946569946433649006084096
end=$(($(wc -l < "$stored/list") + 1))
line() { # TEXT LINE: a further line, and what is said of it
    printf '%s\n' "$2" >> "$made/site/list"
    turned_down "list, line $end: $1"
}
for request in 'x.bdd settings 4' 'x.bdd Settings' 'x.bdd settings as-is' 'x.bdd settings x.settings' 'x.bdd keep settings' 'x.bdd setting' 'x.bdd' 'x.bdd keep' 'x.bdd keep size' 'x.bdd grow size 4' 'x.bdd keep count 4' 'x.bdd keep sise 4' 'x.bdd keep size 4 asis' 'x.bdd keep size 4 as-is 5' 'x.bdd nodes keep size 4' 'x.bdd Keep size 4' \
    'x.bdd keep size4'; do
    line "no request: $request" "$request"
done
for request in 'keep size 04' 'keep size -1' 'keep size 1f' "keep size $size" 'keep cases 1f' 'keep cases 00' "suppress cases $cases" 'keep hex 1F' 'keep hex 0x4' 'suppress hex 00' "keep hex $large"; do
    kind=${request#* }
    line "no number for ${kind%% *}: x.bdd $request" "x.bdd $request"
done
line 'never.bdd stands twice' 'never.bdd keep size 4'
line 'never.bdd stands twice' 'never.bdd settings'
line 'sub/x.bdd has a slash' 'sub/x.bdd settings'
line 'x.settings ends neither in .bdd nor in .block' 'x.settings settings'
line 'sub/x.bdd has a slash' 'sub/x.bdd keep size 4'
line '../list has a slash' '../list keep size 4'
line 'x.txt ends neither in .bdd nor in .block' 'x.txt keep size 4'
line 'x.BDD ends neither in .bdd nor in .block' 'x.BDD keep size 4'
line 'keep ends neither in .bdd nor in .block' 'keep size 4'
line 'one ends neither in .bdd nor in .block; a name has no spaces: one more.bdd keep size 4' 'one more.bdd keep size 4'
# the largest numbers that shrink takes are requests
fresh
sed -i -e "s/^\(group-a.bdd keep\) .*/\1 size 4294967295/; s/^\(storm-west.bdd suppress\) .*/\1 cases ${cases%6}5/; s/^\(storm-east.bdd suppress\) .*/\1 hex $(printf 'f%.0s' {1..128})/" "$made/site/list"
tonight
check "the largest numbers" test "$status" -eq 0

echo "evening: $passed passed, $failed failed"
[ "$failed" -eq 0 ] && [ "$passed" -gt 0 ]
