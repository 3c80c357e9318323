#!/usr/bin/env bash
# Times many repairs of a solution of an archive by one worker and by several, past the time in which `check` reads and
# writes the same archive, and prints how many times as fast the several are and how many moves a second all jobs try.
# What they write is compared: it must be the same. Each is run three times in turns, and the fastest run counts.
#
#     bench/solve.sh KHE [WORKERS [ARCHIVE [SOLUTION]]]
#
# KHE is a proved program, say ~/.cache/khe/khe. WORKERS (4 if missing) is the number of the several. Without an archive
# it is that of `khe make 7 300`; SOLUTION is 0 if missing. DEPTH (2), BUDGET (100000) and JOBS (8) are taken from the
# environment; the moves a second hold where each job spends its budget. Run it by hand, on a quiet machine with as many
# processors: it is no part of the gate.
. "$(dirname "$0")/setup.sh"
workers=${2:-4}
if [ $# -ge 3 ]; then
  archive=$(readlink -f "$3")
else
  "$khe" make "${SEED:-7}" "${EVENTS:-300}" > "$archive"
fi
budget=${BUDGET:-100000}
jobs=${JOBS:-8}
solve=(solve "$archive" "${4:-0}" --depth "${DEPTH:-2}" --budget "$budget" --jobs "$jobs" --workers)
"$khe" "${solve[@]}" 1 > "$work/one"
"$khe" "${solve[@]}" "$workers" | cmp - "$work/one"
python3 "$top/bench/measure.py" "${RUNS:-3}" "$khe" check "$archive" -- "$khe" "${solve[@]}" 1 -- "$khe" "${solve[@]}" "$workers" > "$work/took"
awk -v line="$(tail -n 1 "$work/one")" -v workers="$workers" -v tried="$((jobs * budget))" '
  NR == 1 { check = $1 }
  NR == 2 { one = $1 }
  NR == 3 { several = $1; peak = $2 }
  END {
    printf "by one worker in %.3f s, by %d in %.3f s, %.2f times as fast (aim: at least 3 by 4); %.0f moves a second by one; memory %.1f MiB\n%s\n",
      one - check, workers, several - check, (one - check) / (several - check), tried / (one - check), peak / 1048576, line
  }' "$work/took"
