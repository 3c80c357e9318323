#!/usr/bin/env bash
# Times the evaluation of archives in which one thing grows to its greatest length: the roles of one event, the
# resources of one entry, the groups that one constraint names and others (`bench/growing.py` has the list). For
# each shape it prints a line for each of four sizes, each twice the one before, with its time and its ratio to
# the size before, which should be about 2 or less: what looks for each of many among all takes 4 times as long.
# Each is run three times, and the fastest run counts.
#
#     bench/growing.sh KHE [SHAPE..]
#
# KHE is a proved program, say ~/.cache/khe/khe. SIZES (25000 50000 100000 200000) and RUNS (3) are taken from the
# environment. Run it by hand, on a quiet machine: it is no part of the gate.
. "$(dirname "$0")/setup.sh"
shift
[ $# -gt 0 ] || set -- roles unnamed entries points events resources times solutions silent
for shape; do
  before=
  for size in ${SIZES:-25000 50000 100000 200000}; do
    python3 "$top/bench/growing.py" "$shape" "$size" > "$archive"
    took=$(python3 "$top/bench/measure.py" "${RUNS:-3}" "$khe" evaluate "$archive")
    awk -v took="$took" -v before="$before" -v shape="$shape" -v size="$size" -v bytes="$(stat -c %s "$archive")" 'BEGIN {
      split(took, one, " ")
      printf "%s, size %d, %d bytes: %.3f s, memory %.1f MiB", shape, size, bytes, one[1], one[2] / 1048576
      if (before != "") { split(before, last, " "); printf ", ratio %.2f", one[1] / last[1] }
      print ""
    }'
    before=$took
  done
done
