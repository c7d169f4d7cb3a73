#!/usr/bin/env bash
# Times the reading of long texts by the built program and by another one, side by side.
# Usage: bench/elaborate.sh OTHER PROGRAM WITH ITS FIRST WORDS ..
#
# Each text is of one kind that might cost the square of its length: many declarations, literals, instances, choices, drivers, equations and
# more; bench/elaborate.py has them. Each is made in three lengths, up to 1,000,000 bytes, and its run ends before its second step, or it is
# refused. A line has the kind, the length, the processor time (user and system) of both, their ratio and the status; where a text of twice the
# length takes much more than twice the time, it grows faster than the text. A run is cut off after 120 seconds. A line says where the two
# programs answer otherwise, and the status is 1 then.
#
# The program is crates/ams_run/out/ams_run, which `rt run` in crates/ams_run builds, or that of OWN="PROGRAM WORDS ..". SIZES="BYTES .."
# takes other lengths, WORKS=PATTERN the kinds whose names have the pattern. Needs python3.
set -eu
[ $# -gt 0 ] || { echo "usage: bench/elaborate.sh OTHER PROGRAM WITH ITS FIRST WORDS .." >&2; exit 2; }
exec python3 "$(dirname "${BASH_SOURCE[0]}")/elaborate.py" "$@"
