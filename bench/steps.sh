#!/usr/bin/env bash
# Times a run of 200,000 steps of the built program, its trace written to /dev/null and to a file.
# Usage: bench/steps.sh [OTHER PROGRAM WITH ITS FIRST WORDS ..]
# With another program the same run of it is timed beside, and the ratio of the mean times is printed. Needs hyperfine and
# python3; the program is crates/ams_run/out/ams_run, which `rt run` in crates/ams_run builds.
set -euo pipefail
top=$(cd "$(dirname "${BASH_SOURCE[0]}")/.." && pwd)
program=$top/crates/ams_run/out/ams_run
text=$top/examples/constants.vhd
words="--mode lockstep --top e --stop 1000000 --h0 1 --hmin 1 --hmax 1"
folder=$(mktemp -d)
trap 'rm -rf "$folder"' EXIT

"$program" $words <"$text" >"$folder/trace" || [ $? -eq 3 ]
[ "$(tail -n 1 "$folder/trace")" = "F 0 76" ] || { echo "the run doesn't end with F 0 76"; exit 1; }
if [ $# -gt 0 ]; then
  "$@" $words <"$text" >"$folder/other" || [ $? -eq 3 ]
  cmp "$folder/trace" "$folder/other"
fi
for output in /dev/null "$folder/trace"; do
  runs=("$program $words < $text > $output")
  [ $# -eq 0 ] || runs+=("$* $words < $text > $output")
  hyperfine --warmup 3 --min-runs 20 --ignore-failure --style none --export-json "$folder/times" "${runs[@]}" 2>/dev/null
  python3 - "$folder/times" "$output" <<'PYTHON'
import json, sys

times = [run["mean"] * 1000 for run in json.load(open(sys.argv[1]))["results"]]
where = "to /dev/null" if sys.argv[2] == "/dev/null" else "to a file"
line = f"{where}: {times[0]:.1f} ms"
if len(times) > 1:
    line += f", the other {times[1]:.1f} ms, ratio {times[0] / times[1]:.2f}"
print(line)
PYTHON
done
