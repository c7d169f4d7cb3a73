#!/usr/bin/env bash
# Runs a simulator over tables of cases and compares status, trace and notes, to the byte.
# Usage: bench/cases.sh FOLDER [PROGRAM WITH ITS FIRST WORDS ..]
#
# Without a program it is crates/ams_run/out/ams_run, which `rt run` in crates/ams_run builds. FOLDER has, one JSON object a line:
#   refusals.jsonl    text, top, note          a refused design: status 1, no trace, exactly the note
#   elaborated.jsonl  text, top, head          an accepted design: the trace begins with the head
#   traces.jsonl      text, words, status, trace, notes
#   words.jsonl       words, answer            `ok`, or the number of the first refused word, or 0: status 2 and `usage N`
#   replay.jsonl      as traces.jsonl
# The table `threads` is the rows of traces.jsonl in mode run: same status and trace, and a report whose numbers go together.
# Printed are the first ten differences with their words and texts, and the counts; the status is 1 where something differs.
# Rows of a mode that the program refuses are left out, and counted as such. TABLES="traces words" runs those tables alone,
# ABOUT=PATTERN the rows whose `about` has the pattern, FIRST=N shows N differences. Needs python3 and nothing of its packages.
set -eu
here=$(cd "$(dirname "${BASH_SOURCE[0]}")" && pwd)
folder=${1:?usage: bench/cases.sh FOLDER [PROGRAM ..]}
shift
[ $# -gt 0 ] || set -- "$here/../crates/ams_run/out/ams_run"
tables=${TABLES:-refusals elaborated traces words replay threads}
exec python3 "$here/cases.py" --tables "${tables// /,}" --about "${ABOUT:-}" --first "${FIRST:-10}" "$folder" -- "$@"
