#!/usr/bin/env bash
# Times the matching of the tasks of one time, past the time in which `check` reads and writes the same archive: an
# archive of one time at which 200 events run, each with a place for one of many resources, all of which cost the same,
# or each event prefers sixteen sets of half of them with weights of its own. Each is run three times in turns, and
# the fastest run counts. It prints a line and the last line of each.
#
#     bench/match.sh KHE
#
# KHE is a proved program, say ~/.cache/khe/khe. EVENTS (200) and RESOURCES (2000) are taken from the environment. Run
# it by hand, on a quiet machine: it is no part of the gate.
. "$(dirname "$0")/setup.sh"
events=${EVENTS:-200}
resources=${RESOURCES:-2000}
for sets in 0 16; do
  python3 "$top/bench/tables.py" "$events" "$resources" "$sets" > "$archive"
  match=(match "$archive" 0 0 0)
  line=$("$khe" "${match[@]}" | tail -n 1)
  python3 "$top/bench/measure.py" "${RUNS:-3}" "$khe" check "$archive" -- "$khe" "${match[@]}" > "$work/took"
  awk -v line="$line" -v pairs=$((events * resources)) -v sets="$sets" '
    NR == 1 { check = $1 }
    NR == 2 { whole = $1; peak = $2 }
    END {
      printf "%d pairs of a task and a resource, %d preferred sets a task, in %.3f s, %.0f pairs a second; the archive is read and written in %.3f s; memory %.1f MiB\n%s\n",
        pairs, sets, whole - check, pairs / (whole - check), check, peak / 1048576, line
    }' "$work/took"
done
