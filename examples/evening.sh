#!/usr/bin/env bash
# An evening for a whole site: shrinks every condition of a folder and, only if every one was answered, puts the answers in the place of the router's folder.
#
#     bash examples/evening.sh LIST CONDITIONS ROUTER [PROGRAMS]
#
# LIST        a line for each condition: its file, keep or suppress, and the target as shrink takes it; or settings, for what is stored beside it:
#                 pump-trips.bdd keep size 400
#                 storm.block suppress cases 7936
#                 outage.bdd settings
#             Empty lines, and what stands after a #, are passed over.
# CONDITIONS  the folder of the conditions: each .bdd is a node file, each .block a block file, by the name's ending and never by the content.
#             What is stored beside outage.bdd is outage.settings, a settings file as the program settings writes it. Where no line asks for it, it is not looked at.
# ROUTER      the folder that the router reads. Yesterday's is kept beside it as ROUTER.before; on the first evening it need not be there.
# PROGRAMS    the folder of the program shrink, and of shrink_stored where a line asks for settings; without it target/bin of the repository that this script stands in
#
# Status 0: all were answered, and ROUTER is tonight's. 1: a condition was not answered. 2: the words, the list or a folder is not right, and nothing
# was run. With 1 and 2, and where the script is interrupted, ROUTER and ROUTER.before are as they were, and what was made is removed.
# While it runs, tonight's folder is ROUTER.new; so no two evenings of one router run at once. The two folders change places by two renames: for an instant
# there is no ROUTER. Names with spaces in them are turned down. Nothing is written but the answers.
set -u
export LC_ALL=C
shopt -s nullglob dotglob

wrong() {
    printf 'evening: %s\n' "$@" >&2
    exit 2
}
is_there() { [[ -e $1 || -L $1 ]]; }

[ $# -eq 3 ] || [ $# -eq 4 ] || wrong 'the words are LIST CONDITIONS ROUTER, and the folder of the programs where it is not target/bin'
list=$1 conditions=$2 router=$3 programs=${4:-$(dirname -- "${BASH_SOURCE[0]}")/../target/bin}
while [[ $router = */ ]]; do router=${router%/}; done
before=$router.before new=$router.new older=$router.older

# ---- the folders
[[ -f $list && -r $list ]] || wrong "there is no list $list that can be read"
[[ -d $conditions && -r $conditions && -x $conditions ]] || wrong "there is no folder of conditions $conditions that can be read"
[[ -f $programs/shrink && -x $programs/shrink ]] || wrong "there is no program $programs/shrink"
case ${router##*/} in '' | . | ..) wrong "the router's folder $3 has no name of its own" ;; esac
beside=$(cd -- "$(dirname -- "$router")" 2> /dev/null && pwd -P) || wrong "there is no folder for $router to stand in"
for folder in "$router" "$before"; do
    if is_there "$folder" && [[ ! -d $folder || -L $folder ]]; then wrong "$folder is not a folder, or a link to one"; fi
done
if [ ! -d "$router" ] && [ -d "$before" ]; then wrong "$before is there and $router is not: an evening was cut off; put it back first"; fi
for folder in "$new" "$older"; do
    if is_there "$folder"; then wrong "$folder is there: another evening runs, or one was cut off; look at it and remove it"; fi
done
# What stands inside the folders that are replaced would go with them.
for folder in "$conditions" "$(dirname -- "$list")" "$programs"; do
    at=$(cd -- "$folder" 2> /dev/null && pwd -P) || wrong "the folder $folder can't be entered"
    case $at/ in "$beside/${router##*/}/"* | "$beside/${before##*/}/"*) wrong "$folder is inside $router or $before, which are replaced" ;; esac
done

# ---- the list: each request with its words one space apart, or what is wrong with its line
requests=$(awk '
    BEGIN { # the largest numbers that shrink takes: of 32 bits, and of 512
        most["size"] = "4294967295"
        most["cases"] = "13407807929942597099574024998205846127479365820592393377723561443721764030073546976801874298166903427690031858186486050853753882811946569946433649006084095"
        for (most["hex"] = ""; length(most["hex"]) < 128;) most["hex"] = most["hex"] "f"
        digits["size"] = digits["cases"] = "^(0|[1-9][0-9]*)$"
        digits["hex"] = "^(0|[1-9a-f][0-9a-f]*)$"
    }
    {
        sub(/\r$/, "")
        line = $0
        sub(/(^|[ \t])#.*/, "")
        if (NF == 0) next
        $1 = $1
        top = most[$3]
        if ($1 ~ /\//) why = $1 " has a slash: the list has the names of files in the folder"
        else if ($1 !~ /\.(bdd|block)$/) why = $1 " ends neither in .bdd nor in .block; a name has no spaces: " line
        else if (NF == 2 && $2 == "settings") why = seen[$1]++ ? $1 " stands twice" : ""
        else if (NF < 4 || NF > 5 || NF == 5 && $5 != "as-is" || $2 != "keep" && $2 != "suppress" || top == "") why = "no request: " line
        else if ($4 !~ digits[$3] || length($4) > length(top) || length($4) == length(top) && $4 "" > top "") why = "no number for " $3 ": " line
        else if (seen[$1]++) why = $1 " stands twice"
        else why = ""
        print why == "" ? $0 : "WRONG line " NR ": " why
    }
' < "$list") || wrong "the list $list could not be read"
files=() faults=()
declare -A request=()
while read -r file words; do
    case $file in
        '') ;;
        WRONG) faults+=("$list, $words") ;;
        *) files+=("$file") request[$file]=$words ;;
    esac
done < <(printf '%s\n' "$requests")
[ ${#faults[@]} -eq 0 ] || wrong "${faults[@]}"
[ ${#files[@]} -gt 0 ] || wrong "$list has no condition"
for file in "${files[@]}"; do
    if [[ ! -f $conditions/$file || ! -r $conditions/$file ]]; then faults+=("$file of $list is no file in $conditions that can be read"); fi
    stored=${file%.*}.settings
    if [[ ${request[$file]} = settings && ( ! -f $conditions/$stored || ! -r $conditions/$stored ) ]]; then
        faults+=("$file of $list asks for settings, and $stored is no file in $conditions that can be read")
    fi
    if [[ ${request[$file]} = settings && ( ! -f $programs/shrink_stored || ! -x $programs/shrink_stored ) ]]; then
        faults+=("$file of $list asks for settings, and there is no program $programs/shrink_stored")
    fi
done
for path in "$conditions"/*.bdd "$conditions"/*.block; do
    file=${path##*/}
    if [[ $file = *[[:space:]]* ]]; then
        faults+=("$conditions has a file with a space in its name, which no list can have: $file")
    elif [ -z "${request[$file]+listed}" ]; then
        faults+=("$file of $conditions is not in $list")
    fi
done
[ ${#faults[@]} -eq 0 ] || wrong "${faults[@]}"

# ---- tonight's folder; whatever ends the script before it is in place removes it
trap '' INT TERM HUP PIPE
mkdir -- "$new" || wrong "$new can't be made"
trap 'rm -rf -- "$new"' EXIT
trap 'echo "evening: interrupted: $router is as it was" >&2; exit 1' INT TERM HUP

# The change, short where it has many digits, and its share of the condition's own cases.
shares() { # added|lost CHANGE CASES
    awk -v word="$1" -v change="$2" -v cases="$3" -v most_digits=12 'BEGIN {
        if (cases + 0 > 0) share = sprintf("%.3g%%", 100 * change / cases)
        else share = change + 0 > 0 ? "it had none" : "0%"
        if (word == "lost" && share == "100%" && change "" != cases "") share = "nearly all"
        print word " " (length(change) > most_digits ? sprintf("%.3e", change) : change) "\t" share
    }'
}
# What shrink says where it answers, what it says of the target, and the bytes of so many nodes in each form.
summary=$'^target [^\n]*\nnodes ([0-9]+) to ([0-9]+)\ncases ([0-9]+) [^\n]*\n(added|lost) ([0-9]+) '
aim='^target at (most|least) ([0-9]+) (nodes|cases)'
node_bytes=10 block_bytes=512 block_nodes=50

widest=9 target_width=24
for file in "${files[@]}"; do [ ${#file} -le "$widest" ] || widest=${#file}; done
columns="%-${widest}s  %-8s  %-${target_width}s  "
# shellcheck disable=SC2059
row() { printf "$columns%-12s  %-16s  %s\n" "$@"; }
# shellcheck disable=SC2059
refusal() { printf "$columns%s\n" "$@"; }

row condition way target nodes cases share
refused=0
for file in "${files[@]}"; do
    read -r -a words < <(printf '%s\n' "${request[$file]}")
    way=${words[0]} target=${words[*]:1}
    program=shrink
    if [ "$way" = settings ]; then program=shrink_stored words+=("$conditions/${file%.*}.settings"); fi
    case $file in *.bdd) form=(nodes) ;; *) form=() ;; esac
    said=$("$programs/$program" "${form[@]}" "${words[@]}" 2>&1 < "$conditions/$file" > "$new/$file")
    # the list has no target for stored settings: the table has the one that shrink_stored read; of as-is it says nothing
    if [[ $way = settings && $said =~ $aim ]]; then
        target=${BASH_REMATCH[2]}
        case ${BASH_REMATCH[3]} in nodes) target="size $target" ;; *) target="cases $target" ;; esac
    fi
    [ ${#target} -le $target_width ] || target=${target:0:target_width - 2}..
    if [[ $said =~ $summary ]]; then
        old=${BASH_REMATCH[1]} nodes=${BASH_REMATCH[2]} shown=$(shares "${BASH_REMATCH[4]}" "${BASH_REMATCH[5]}" "${BASH_REMATCH[3]}")
        case $file in *.bdd) due=$((node_bytes * nodes)) ;; *) due=$((block_bytes * ((nodes + block_nodes - 1) / block_nodes))) ;; esac
        length=$(wc -c < "$new/$file")
        if [ "$length" -gt 0 ] && [ "$length" -eq "$due" ]; then
            row "$file" "$way" "$target" "$old to $nodes" "${shown%$'\t'*}" "${shown#*$'\t'}"
            continue
        fi
        said="not answered: $((length)) bytes for $nodes nodes"
    fi
    refused=$((refused + 1))
    refusal "$file" "$way" "$target" "${said:-not answered: nothing was said}"
done

if [ $refused -gt 0 ]; then
    echo "$refused of ${#files[@]} conditions not answered: $router is as it was"
    exit 1
fi
# Tonight's folder is on the disk before yesterday's gives way; then all renames are done, or none.
not_replaced() {
    echo "all ${#files[@]} conditions answered, but the folder could not be put in place: $router is as it was"
    exit 1
}
sync -- "$new"/* "$new" || not_replaced
trap '' INT TERM HUP
if [ -d "$before" ]; then mv -T -- "$before" "$older" || not_replaced; fi
if [ -d "$router" ] && ! mv -T -- "$router" "$before"; then
    [ ! -d "$older" ] || mv -T -- "$older" "$before"
    not_replaced
fi
if ! mv -T -- "$new" "$router"; then
    [ ! -d "$before" ] || mv -T -- "$before" "$router"
    [ ! -d "$older" ] || mv -T -- "$older" "$before"
    not_replaced
fi
trap - EXIT
rm -rf -- "$older"
if [ -d "$before" ]; then kept=", yesterday's in $before"; else kept=; fi
echo "all ${#files[@]} conditions answered: they are in $router$kept"
exit 0
