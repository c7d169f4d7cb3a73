#!/usr/bin/env bash
# Runs a simulator over each circuit of examples/ with the words of its line "Run:", and compares the sum of its trace with the stored one.
# Usage: bench/examples.sh [PROGRAM WITH ITS FIRST WORDS ..]
#
# Without a program it is crates/ams_run/out/ams_run, which `rt run` in crates/ams_run builds. Each run has to end with status 0, no note
# and a last line E. Where `ghdl` is installed each circuit is also analysed by it, with the packages of examples/ieee.
# With RENEW=yes the sums are written anew, which only a program that is known to be right may do.
set -u
top=$(cd "$(dirname "${BASH_SOURCE[0]}")/.." && pwd)
cd "$top/examples" || exit 2
[ $# -gt 0 ] || set -- "$top/crates/ams_run/out/ams_run"
[ "${RENEW:-no}" = yes ] && : > traces.sha256
folder=$(mktemp -d)
trap 'rm -rf "$folder"' EXIT
bad=0

says() { # FILE TEXT: something is wrong
    echo "$1: $2"
    bad=1
}

for file in *.vhd; do
    words=$(grep -o -m 1 -- '--top .*' "$file") || { says "$file" "no line Run:"; continue; }
    # shellcheck disable=SC2086 (the words are parted by spaces)
    "$@" --mode lockstep $words <"$file" >"$folder/trace" 2>"$folder/notes" || says "$file" "status $?"
    [ -s "$folder/notes" ] && says "$file" "note $(head -n 1 "$folder/notes")"
    [[ $(tail -n 1 "$folder/trace") == E* ]] || says "$file" "the stop time isn't reached"
    sum=$(sha256sum <"$folder/trace" | cut -d' ' -f1)
    if [ "${RENEW:-no}" = yes ]; then
        echo "$sum  $file" >> traces.sha256
    elif grep -q "^$sum  $file$" traces.sha256; then
        echo "$file: as stored"
    else
        says "$file" "another trace"
    fi
done
if command -v ghdl >/dev/null; then
    ghdl -a --ams --work=ieee --workdir="$folder" ieee/*.vhd || bad=1
    for file in *.vhd; do
        if ghdl -s --ams -P"$folder" "$file"; then echo "$file: analysed by ghdl"; else says "$file" "refused by ghdl"; fi
    done
else
    echo "no ghdl here: nothing is analysed by it"
fi
exit $bad
