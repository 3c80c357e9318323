#!/usr/bin/env bash
# Times repairs to depth 1 of archives on which they look at many things that they can't use
# (`bench/growing_repairs.py` has the list). For each shape it prints a line for each of three sizes, each twice
# the one before, with its time and its ratio to the size before: about 2 is wanted. Each is run three times,
# and the fastest run counts.
#
#     bench/growing_repairs.sh KHE [SHAPE..]
#
# KHE is a proved program, say ~/.cache/khe/khe. SIZES (1000 2000 4000) and RUNS (3) are taken from the environment.
# Run it by hand, on a quiet machine: it is no part of the gate.
. "$(dirname "$0")/setup.sh"
shift
[ $# -gt 0 ] || set -- swaps types gives starts
for shape; do
  before=
  for size in ${SIZES:-1000 2000 4000}; do
    python3 "$top/bench/growing_repairs.py" "$shape" "$size" > "$archive"
    took=$(python3 "$top/bench/measure.py" "${RUNS:-3}" "$khe" repair "$archive" 0 --depth 1 --budget 1000000)
    awk -v took="$took" -v before="$before" -v shape="$shape" -v size="$size" 'BEGIN {
      split(took, one, " ")
      printf "%s, size %d: %.3f s", shape, size, one[1]
      if (before != "") { split(before, last, " "); printf ", ratio %.2f", one[1] / last[1] }
      print ""
    }'
    before=$took
  done
done
