#!/usr/bin/env bash
# Times whole runs of the built program and of another one, side by side.
# Usage: bench/whole.sh OTHER PROGRAM WITH ITS FIRST WORDS ..
#
# Both run, in turn and three times each: a ladder of 15 sections with 100,000 steps, made and read; a clock of 200,000 cycles, alone and
# beside 200 processes that wait; each circuit of examples/. A line has the work, the processor time (user and system) of the best run
# of both and their ratio, then the most memory of both and its ratio. The starts of the programs are part of the times. The traces go to
# /dev/null; once before they are compared, and a line says where they differ. The status is 1 then.
#
# The program is crates/ams_run/out/ams_run, which `rt run` in crates/ams_run builds, or that of OWN="PROGRAM WORDS ..". ROUNDS=1 takes one
# turn in place of three, WORKS=PATTERN the works whose names have the pattern. Needs python3 and /usr/bin/time (Debian's package `time`).
set -eu
[ $# -gt 0 ] || { echo "usage: bench/whole.sh OTHER PROGRAM WITH ITS FIRST WORDS .." >&2; exit 2; }
exec python3 "$(dirname "${BASH_SOURCE[0]}")/whole.py" "$@"
