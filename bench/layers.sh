#!/bin/sh
# Times the layers: layers.sh [OTHER]
#
# OTHER is a program that takes the same words WORK COUNT, or WORK COUNT FILE, and prints WORK and the same sum first.
# Both run in turn, three times each, and the best time of each counts. With OTHER a line has the work, both times in
# nanoseconds for each piece (for each byte of a text), and their ratio; where the sums differ it says so. Without OTHER
# it has the work and the time. The texts are made here, of 1 MiB each: a design of declarations and equations.
# Build the program first: (cd crates/bench_layers && rt run -- mul-small 1)
own=$(dirname "$0")/../crates/bench_layers/out/bench_layers
other=$1
text=$(mktemp)
trap 'rm -f "$text"' EXIT

design() { # a design of at least 1 MiB
    awk 'BEGIN {
        print "entity bench is end;\narchitecture a of bench is"
        for (i = 0; i < 5200; i++) {
            printf "  quantity q%d : real := 0.5;\n  signal s%d : real := 1.0e-3;\n", i, i
        }
        print "begin"
        for (i = 0; i < 5200; i++) {
            printf "  1.0e-9 * q%d\047dot + 2.5 * q%d == sin(q%d) - s%d * (now - 1.0e-6);\n", i, i, (i + 1) % 5200, i
            printf "  s%d <= 1.0 after 10 ns, 0.25 after 20 ns when q%d\047above(0.5) else 0.75; -- an output\n", i, i
        }
        print "end;"
    }'
}

nanoseconds() { # PROGRAM WORK COUNT FILE: leaves the sum in $sum and the time in $time
    start=$(date +%s%N)
    sum=$("$1" "$2" "$3" $4 | cut -d' ' -f2)
    time=$(($(date +%s%N) - start))
}

best() { # PROGRAM WORK COUNT FILE: leaves the least time in $least
    nanoseconds "$1" "$2" "$3" "$4"
    least=$time
    for turn in 2 3; do
        nanoseconds "$1" "$2" "$3" "$4"
        [ "$time" -lt "$least" ] && least=$time
    done
}

compare() { # WORK COUNT PIECES FILE: prints the line of a work of so many pieces
    best "$own" "$1" "$2" "$4"
    ours=$least
    sum_ours=$sum
    if [ -z "$other" ]; then
        echo "$1 $ours $3" | awk '{ printf "%-10s %8.2f ns\n", $1, $2 / $3 }'
        return
    fi
    best "$other" "$1" "$2" "$4"
    same=same
    [ "$sum" = "$sum_ours" ] || same=DIFFERENT
    echo "$1 $ours $least $3 $same" |
        awk '{ printf "%-10s %8.2f ns %8.2f ns  ratio %.2f  %s sums\n", $1, $2 / $4, $3 / $4, $2 / $3, $5 }'
}

for line in mul-small:10000000 mul-large:10000000 div-small:10000000 div-large:10000000 exp:1000000 dense:1000; do
    compare "${line%:*}" "${line#*:}" "${line#*:}" ""
done
design >"$text"
bytes=$(wc -c <"$text")
for work in lex parse; do
    compare "$work" 20 $((20 * bytes)) "$text"
done
