#!/usr/bin/env bash
# Times the evaluation of archives of 1,250, 2,500, 5,000 and 10,000 events, with constraints of all sixteen
# kinds whose monitors grow in proportion, and prints a line for each size with its time and its ratio to the
# size before, which should be about 2. Each is run three times, and the fastest run counts.
#
#     bench/doubling.sh KHE [SOLUTIONS]
#
# KHE is a proved program, say ~/.cache/khe/khe. SOLUTIONS (20 if missing, at most 24) is how many
# solutions each archive has. Run it by hand, on a quiet machine: it is no part of the gate.
. "$(dirname "$0")/setup.sh"
solutions=${2:-20}
before=
for events in ${SIZES:-1250 2500 5000 10000}; do
  python3 "$top/bench/archives.py" "$events" "$solutions" > "$archive"
  written=$(grep -c '^<Solution ' "$archive" || true)
  [ "$written" = "$solutions" ] || { echo "doubling.sh: only $written solutions fit at $events events" >&2; exit 1; }
  took=$(python3 "$top/bench/measure.py" "${RUNS:-3}" "$khe" evaluate "$archive")
  awk -v took="$took" -v before="$before" -v events="$events" -v solutions="$solutions" -v bytes="$(stat -c %s "$archive")" 'BEGIN {
    split(took, one, " ")
    printf "%d events, %d solutions, %d bytes: %.3f s, memory %.1f MiB", events, solutions, bytes, one[1], one[2] / 1048576
    if (before != "") { split(before, last, " "); printf ", ratio %.2f (about 2)", one[1] / last[1] }
    print ""
  }'
  before=$took
done
