#!/usr/bin/env bash
# Hands hostile texts of 1 MiB to the lexer and the parser, or to a simulator: hostile.sh [PROGRAM WITH ITS FIRST WORDS ..]
#
# Without a program each text goes to the lexer and the parser alone, on a stack of 1 MiB: build crates/bench_layers first
# ((cd crates/bench_layers && rt run -- mul-small 1)). With a program (crates/ams_run/out/ams_run) each text is a design that it is to refuse or run, on
# a stack of 8 MiB, and then inputs and outputs that fail are tried. A line has the text, the work, whether it was answered within 10 seconds, and the milliseconds.
# The status is 1 where something wasn't answered.
set -u
here=$(cd "$(dirname "${BASH_SOURCE[0]}")" && pwd)
layers=$here/../crates/bench_layers/out/bench_layers
program=("$@")
folder=$(mktemp -d)
text=$folder/text
trap 'rm -rf "$folder"' EXIT
size=1048576
bad=0
if [ $# -gt 0 ]; then ulimit -s 8192; else ulimit -s 1024; fi

repeat() { # PIECE: as many pieces as fill 1 MiB
    awk -v piece="$1" -v size="$size" 'BEGIN { while (n < size) { printf "%s", piece; n += length(piece) } }'
}

timed() { # NAME WORK STATUSES COMMAND..: one of these statuses is an answer
    local name=$1 work=$2 statuses=$3 start status said=answered
    shift 3
    start=$(date +%s%N)
    timeout 10 "$@" <"$text" >/dev/null 2>&1
    status=$?
    [[ " $statuses " == *" $status "* ]] || { said="NOT ANSWERED ($status)"; bad=1; }
    printf '%-14s %-6s %s %d ms\n' "$name" "$work" "$said" $((($(date +%s%N) - start) / 1000000))
}

answered() { # NAME: the text is on standard input
    head -c "$size" >"$text"
    if [ ${#program[@]} -gt 0 ]; then
        timed "$1" run "0 1 3" "${program[@]}" --top e --stop 1
    else
        timed "$1" lex 0 "$layers" lex 1 "$text"
        timed "$1" parse 0 "$layers" parse 1 "$text"
    fi
}

ends_with() { # NAME STATUS: compares the status that is in $status
    [ "$2" = "$status" ] && echo "$1: status $2" || { echo "$1: STATUS $status, wanted $2"; bad=1; }
}

outside() { # inputs and outputs that fail
    local design=$here/../examples/capacitor.vhd words=(--top capacitor --stop 5000000000 --h0 1000000 --hmax 50000000)
    "${program[@]}" "${words[@]}" <"$design" >/dev/full 2>/dev/null; status=$?; ends_with "a full device" 5
    "${program[@]}" "${words[@]}" <"$design" 2>/dev/null >&-; status=$?; ends_with "a closed output" 5
    "${program[@]}" "${words[@]}" <"$here" >/dev/null 2>&1; status=$?; ends_with "a folder as input" 4
    "${program[@]}" "${words[@]}" <&- >/dev/null 2>&1; status=$?; ends_with "a closed input" 4
    "${program[@]}" --top x --stop 1 <"$design" >/dev/null 2>/dev/full; status=$?; ends_with "notes to a full device" 5
    "${program[@]}" --mode lockstep --top clock --stop 100000000 <<<"entity clock is end; architecture a of clock is signal c : bit; begin c <= not c after 1 ns; end;" 2>/dev/null | head -n 1 >/dev/null
    status=${PIPESTATUS[0]}; ends_with "a pipe that is closed early" 5
}

head='entity e is end; architecture a of e is '
for piece in '(' "'" 1 '"' _ - '#' '\\' ' ' ';'; do
    repeat "$piece" | answered "all_$piece"
done
for piece in '(' 'not ' 'x nand ' 'x + ' "x'dot " 'f(' '- '; do
    { echo "$head constant c : real := "; repeat "$piece"; } | answered "constant_$(echo "$piece" | tr -d ' ')"
done
for piece in 'if x then ' 'case x is when 0 => ' 'loop ' 'null; ' 'x := x; '; do
    { echo "$head begin process begin "; repeat "$piece"; } | answered "process_$(echo "$piece" | tr -d ' ')"
done
for piece in 'if x use ' 'x == x; ' 'l : '; do
    { echo "$head begin "; repeat "$piece"; } | answered "begin_$(echo "$piece" | tr -d ' ')"
done
{ echo "$head"; awk 'BEGIN { for (i = 0; i < 45000; i++) printf "signal s%d : bit;\n", i }'; echo "begin end;"; } | answered "signals"
{ echo "$head begin"; awk 'BEGIN { for (i = 0; i < 20000; i++) printf "p%d : process begin wait; end process; ", i }'; echo "end;"; } | answered "processes"
{ echo "$head quantity q : real; begin"; awk 'BEGIN { for (i = 0; i < 60000; i++) printf "q == q + 1.0; " }'; echo "end;"; } | answered "equations"
head -c "$size" /dev/zero | answered zeros
head -c "$size" /dev/urandom | answered random
[ ${#program[@]} -eq 0 ] || outside
exit $bad
