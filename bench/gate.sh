#!/usr/bin/env bash
# Times what the gate does for each crate, from nothing: gate.sh [-j N] [-r ROOM] [-p] [NAME..]
#
# For each crate it measures, in processor seconds (user and system), what `rt ci` does where nothing is kept: the proof,
# the proof of the tests, the second check that the must-fail edits begin with (and the one that ends them), and each edit.
# The table has a line for each crate, the dearest first, then one for each edit, then the sums and their shares.
# With names it measures those crates, and of those below them only the proof, which they need. -j measures so many
# crates at once: that is sooner done, and each figure a little larger. -p measures proofs alone. -r keeps what was
# proved in ROOM: a later call with the same ROOM measures again what changed, what stands above it and what is named.
# Each check has one job, as on a machine with one processor. It needs the kit's `rt` in the path and nothing else.
set -u
at_once=1 room="" proofs_only=no
while getopts j:r:p option; do
    case $option in
    j) at_once=$OPTARG ;;
    r) room=$OPTARG ;;
    p) proofs_only=yes ;;
    *) exit 2 ;;
    esac
done
shift $((OPTIND - 1))
root=$(cd "$(dirname "$0")/.." && pwd)
kit=$(dirname "$(rt doc)")
[ -n "$room" ] || { room=$(mktemp -d) && trap 'rm -rf "$room"' EXIT; }
mkdir -p "$room/rlibs" "$room/rows" && room=$(cd "$room" && pwd)
TIMEFORMAT='%U %S'

declare -A uses below
while IFS=: read -r head deps; do
    read -r name _ <<<"${head%%#*}"
    [ -z "${name:-}" ] || uses[$name]=${deps%%#*}
done <"$root/crates.txt"
order=$(for name in "${!uses[@]}"; do
    echo "$name $name"
    for dep in ${uses[$name]}; do [ -z "${uses[$dep]+x}" ] || echo "$dep $name"; done
done | tsort) || exit 2
for name in $order; do # each crate's libraries of the repository, direct or not
    below[$name]=$(for dep in ${uses[$name]}; do
        [ -z "${uses[$dep]+x}" ] || echo "$dep" ${below[$dep]}
    done | tr ' ' '\n' | sort -u | tr '\n' ' ')
done

words() { # NAME: leaves in `words` what rattle is told of a crate
    local top=lib dep
    [ ! -f "$root/crates/$1/src/main.rt" ] || top=main
    words=(--crate-name "$1" "src/$top.rt" --extern "std=$kit/rlibs/std.rlib" -L "dependency=$kit/rlibs")
    for dep in ${uses[$1]}; do
        if [ -n "${uses[$dep]+x}" ]; then words+=(--extern "$dep=$room/rlibs/$dep/$dep.rlib"); else words+=(--extern "$dep=$kit/rlibs/$dep.rlib"); fi
    done
    for dep in ${below[$1]}; do words+=(-L "dependency=$room/rlibs/$dep"); done
    words+=(--antt-project "$kit/rattle/logic/antt-project.json" --logic-built "$kit/logic_built" --jobs 1 --links "$1=")
}

timed() { # FOLDER LOG rattle's words: leaves the processor seconds in `spent`, and gives rattle's status
    local folder=$1 log=$2 status
    shift 2
    { time (cd "$folder" && "$kit/bin/rattle" "$@" >"$log" 2>&1); } 2>"$log.time"
    status=$?
    spent=$(awk '{ printf "%.1f", $1 + $2 }' "$log.time")
    return $status
}

edited() { # EDIT FOLDER: applies the edit to the copy of the crate
    local line file="" old="" text
    while IFS= read -r line || [ -n "$line" ]; do
        case $line in
        "file: "*) file=$2/${line#file: } ;;
        "old: "*) old=${line#old: } ;;
        "new:"*)
            line=${line#new:}
            text=$(cat "$file" && echo x) || return 1
            [[ $text == *"$old"* ]] || return 1
            printf %s "${text/"$old"/"${line# }"}" >"$file.new"
            truncate -s -2 "$file.new" && mv "$file.new" "$file"
            ;;
        esac
    done <"$1"
}

edits() { # NAME: a row for the second check and for each edit
    local name=$1 crate=$root/crates/$1 work edit end
    work=$(mktemp -d "$room/edits.XXXXXX")
    mkdir "$work/seed" "$work/crate"
    timed "$crate" "$work/log" check "${words[@]}" --incremental "$work/seed" || echo "failed $name second"
    local second=$spent
    for edit in "$crate"/must-fail/*.edit; do
        rm -rf "$work/crate" "$work/kept" && mkdir "$work/crate" && cp -r "$work/seed" "$work/kept"
        for part in src specs proofs; do [ ! -d "$crate/$part" ] || cp -r "$crate/$part" "$work/crate/$part"; done
        end=refused
        edited "$edit" "$work/crate" || end=unread
        timed "$work/crate" "$work/log" check "${words[@]}" --incremental "$work/kept" && end=proved
        echo "edit $name $(basename "$edit" .edit) $spent $end"
    done
    timed "$crate" "$work/log" check "${words[@]}" --incremental "$work/seed" || echo "failed $name second"
    echo "second $name $(awk "BEGIN { print $second + $spent }")"
    rm -rf "$work"
}

sum_of() { # NAME: of all that its proof is made from
    { (cd "$root/crates/$1" && find src specs proofs -type f 2>/dev/null | sort | xargs -d '\n' sha256sum); for dep in ${below[$1]}; do cat "$room/rlibs/$dep/sum"; done; cat "$kit/KIT-ID"; } | sha256sum
}

measure() { # NAME WHOLE: writes the crate's rows
    local name=$1 crate=$root/crates/$1 to=$room/rlibs/$1 sum verb=(check)
    words "$name" && sum=$(sum_of "$name")
    if [ "$2" = no ] && [ -f "$to/sum" ] && [ "$sum" = "$(cat "$to/sum")" ]; then return; fi
    rm -rf "$to" && mkdir -p "$to"
    [ -f "$crate/src/main.rt" ] || verb=(build --statements -o "$to/$name.rlib")
    {
        if timed "$crate" "$to/log" "${verb[0]}" "${words[@]}" --empty-contracts "${verb[@]:1}"; then echo "$sum" >"$to/sum"; else echo "failed $name proof"; fi
        echo "proof $name $spent"
        if [ "$2" = yes ] && [ $proofs_only = no ] && [ -f "$to/sum" ]; then
            if grep -rqs '#\[test\]' "$crate/src"; then
                timed "$crate" "$to/log.tests" check "${words[@]}" --test --empty-contracts || echo "failed $name tests"
                echo "tests $name $spent"
            fi
            if compgen -G "$crate/must-fail/*.edit" >/dev/null; then edits "$name"; fi
        fi
    } >"$room/rows/$name.new"
    mv "$room/rows/$name.new" "$room/rows/$name"
}

declare -A whole started
wanted=${*:-$order}
for name in $wanted; do
    [ -n "${uses[$name]+x}" ] || { echo "gate.sh: crates.txt has no crate $name" >&2; exit 2; }
    for dep in ${below[$name]}; do whole[$dep]=${whole[$dep]:-no}; done
    whole[$name]=yes
done
start=$(date +%s)
left=$(for name in $order; do [ -z "${whole[$name]+x}" ] || echo "$name"; done)
while [ -n "$left" ]; do # a crate begins once those below it are done
    later=""
    for name in $left; do
        ready=yes
        for dep in ${below[$name]}; do [ -f "$room/done.$$.$dep" ] || ready=no; done
        if [ $ready = yes ] && [ "$(jobs -rp | wc -l)" -lt "$at_once" ]; then
            { measure "$name" "${whole[$name]}"; : >"$room/done.$$.$name"; } &
        else
            later="$later $name"
        fi
    done
    left=$later
    [ -z "$left" ] || wait -n
done
wait
rm -f "$room"/done.$$.*

for name in $wanted; do cat "$room/rows/$name"; done | awk -v wall=$(($(date +%s) - start)) -v load="$(cat /proc/loadavg)" -v cores="$(nproc)" '
    $1 == "proof" || $1 == "tests" || $1 == "second" { cost[$2, $1] = $3; all[$1] += $3; whole[$2] += $3 }
    $1 == "edit" { cost[$2, "edits"] += $4; count[$2]++; all["edits"] += $4; whole[$2] += $4; line[++n] = sprintf("%8.1f  %s/%s%s", $4, $2, $3, $5 == "refused" ? "" : " (" $5 ")") }
    $1 == "failed" { bad = bad " " $2 " (" $3 ")" }
    END {
        sort = "sort -rn"
        print "   whole    proof    tests   second    edits  crate (number of edits), in processor seconds"
        for (it in whole) printf "%8.1f %8.1f %8.1f %8.1f %8.1f  %s (%d)\n", whole[it], cost[it, "proof"], cost[it, "tests"], cost[it, "second"], cost[it, "edits"], it, count[it] | sort
        close(sort)
        if (n) print "\n   edits"
        for (i = 1; i <= n; i++) print line[i] | sort
        close(sort)
        total = all["proof"] + all["tests"] + all["second"] + all["edits"]
        printf "\n%.1f processor minutes: proofs %.1f, tests %.1f, second checks %.1f, edits %.1f", total / 60, all["proof"] / 60, all["tests"] / 60, all["second"] / 60, all["edits"] / 60
        printf " (%d minutes on the clock, %d processors, load at the end %s)\n", wall / 60, cores, load
        if (bad) print "failed:" bad
    }'
