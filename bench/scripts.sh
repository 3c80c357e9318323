#!/usr/bin/env bash
# Times a script of some 200,000 edits on the first solution of an archive, and prints how many lines a
# second it runs beside the time that reading the same archive takes. That time, of an empty script, is
# taken off first. Then the same with two lines `deficit` at its end, so that each edit is noted to demands
# too. Each is run five times in turns, and the fastest run counts.
#
#     bench/scripts.sh KHE [ARCHIVE SCRIPT]
#
# KHE is a proved program, say ~/.cache/khe/khe. Without the other words the archive is that of
# `khe make 7 300`, and the script moves its meets, exchanges them and gives their tasks other
# resources, with a mark around each few edits that is mostly undone. Run it by hand, on a quiet machine: it
# is no part of the gate.
. "$(dirname "$0")/setup.sh"
script=$work/script
if [ $# -ge 3 ]; then
  archive=$(readlink -f "$2")
  script=$(readlink -f "$3")
else
  "$khe" make "${SEED:-7}" "${EVENTS:-300}" > "$archive"
  python3 "$top/bench/scripts.py" "$archive" "${LINES_OF:-200000}" > "$script"
fi
: > "$work/empty"
{ cat "$script"; printf '\ndeficit\ndeficit\n'; } > "$work/asking"
python3 "$top/bench/measure.py" "${RUNS:-5}" "$khe" script "$archive" 0 "$work/empty" -- "$khe" script "$archive" 0 "$script" \
  -- "$khe" script "$archive" 0 "$work/asking" > "$work/took"
awk -v lines="$(wc -l < "$script")" -v bytes="$(stat -c %s "$archive")" '
  NR == 1 { reading = $1 }
  NR == 2 { whole = $1; peak = $2; answers = $3 }
  NR == 3 { asking = $1; more = $2 }
  END {
    printf "%d lines in %.3f s, %.0f lines a second (aim: above 1,000,000); the archive of %d bytes is read in %.3f s; answers of %d bytes, memory %.1f MiB\n",
      lines, whole - reading, lines / (whole - reading), bytes, reading, answers, peak / 1048576
    printf "with demands: %.3f s, %.0f lines a second, memory %.1f MiB\n", asking - reading, lines / (asking - reading), more / 1048576
  }' "$work/took"
