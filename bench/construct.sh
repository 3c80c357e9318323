#!/usr/bin/env bash
# Times the construction of a timetable of an instance, past the time in which `check` reads and writes the same
# archive, and prints what the archive's own solutions cost and what the new timetable costs: as it is, and after
# repairs to depth 1 and to depth 2. The timed commands are run three times in turns, and the fastest run counts.
#
#     bench/construct.sh KHE [ARCHIVE [INSTANCE]]
#
# KHE is a proved program, say ~/.cache/khe/khe. Without an archive it is that of `khe make 7 300`; INSTANCE is 0 if
# missing. BUDGET (100000), and SEED and EVENTS of the archive that is made, are taken from the environment. Run it by
# hand, on a quiet machine: it is no part of the gate.
. "$(dirname "$0")/setup.sh"
budget=${BUDGET:-100000}
if [ $# -ge 2 ]; then
  archive=$(readlink -f "$2")
else
  "$khe" make "${SEED:-7}" "${EVENTS:-300}" > "$archive"
fi
construct=(construct "$archive" "${3:-0}")
"$khe" evaluate "$archive" | grep -E '^(solution|total|invalid)'
"$khe" "${construct[@]}" | tail -n 1
for depth in 1 2; do
  echo "depth $depth: $("$khe" "${construct[@]}" --depth "$depth" --budget "$budget" | tail -n 1)"
done
python3 "$top/bench/measure.py" "${RUNS:-3}" "$khe" check "$archive" -- "$khe" "${construct[@]}" > "$work/took"
awk '
  NR == 1 { check = $1 }
  NR == 2 { whole = $1; peak = $2 }
  END {
    printf "constructed in %.3f s; the archive is read and written in %.3f s; memory %.1f MiB\n",
      whole - check, check, peak / 1048576
  }' "$work/took"
