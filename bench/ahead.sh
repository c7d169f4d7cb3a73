#!/usr/bin/env bash
# Times the built program in mode run beside mode lockstep, by the clock: what the thread that runs ahead saves.
# Usage: bench/ahead.sh [PROGRAM WITH ITS FIRST WORDS ..]
#
# The works: a ladder of 15 sections whose source changes each 500 ns, in which the digital kernel has little to do; and a ladder of 8 sections
# beside a process that computes for so many turns at each of 50,000 steps. A line has the clock's seconds of the best of three runs in both
# modes, and their ratio. ROUNDS=1 takes one run in place of three, WORKS=PATTERN the works whose names have the pattern. Needs python3.
set -eu
exec python3 "$(dirname "${BASH_SOURCE[0]}")/ahead.py" "$@"
