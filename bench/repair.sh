#!/usr/bin/env bash
# Times a repair of a solution of an archive, and prints how many moves it tries a second, past the time in which
# `check` reads and writes the same archive, and what came of it. Each is run three times in turns, and the fastest run
# counts.
#
#     bench/repair.sh KHE [ARCHIVE [SOLUTION]]
#
# KHE is a proved program, say ~/.cache/khe/khe. Without an archive it is that of `khe make 7 300`; SOLUTION is 0
# if missing. DEPTH (2) and BUDGET (1000000) are taken from the environment. Run it by hand, on a quiet machine: it is
# no part of the gate.
. "$(dirname "$0")/setup.sh"
depth=${DEPTH:-2}
budget=${BUDGET:-1000000}
if [ $# -ge 2 ]; then
  archive=$(readlink -f "$2")
else
  "$khe" make "${SEED:-7}" "${EVENTS:-300}" > "$archive"
fi
repair=(repair "$archive" "${3:-0}" --depth "$depth" --budget "$budget")
line=$("$khe" "${repair[@]}" | tail -n 1)
python3 "$top/bench/measure.py" "${RUNS:-3}" "$khe" check "$archive" -- "$khe" "${repair[@]}" > "$work/took"
awk -v line="$line" -v depth="$depth" '
  NR == 1 { check = $1 }
  NR == 2 { whole = $1; peak = $2 }
  END {
    split(line, words, " ")
    for (k in words) if (words[k] == "tried") tried = words[k + 1]
    printf "%d moves to depth %d in %.3f s, %.0f moves a second (aim: above 1,000,000); the archive is read and written in %.3f s; memory %.1f MiB\n%s\n",
      tried, depth, whole - check, tried / (whole - check), check, peak / 1048576, line
  }' "$work/took"
