#!/usr/bin/env bash
# Times `khe make 7 2000` and its run of 20,000 edits beside `khe evaluate` of the archive that it writes. Each is run
# three times in turns, and the fastest run counts. It prints one line, and the line of the run.
#
#     bench/makes.sh KHE
#
# KHE is a proved program, say ~/.cache/khe/khe. SEED (7) and EVENTS (2000) are taken from the environment. Run it by
# hand, on a quiet machine: it is no part of the gate.
. "$(dirname "$0")/setup.sh"
job=(make "${SEED:-7}" "${EVENTS:-2000}")
"$khe" "${job[@]}" > "$archive"
line=$("$khe" "${job[@]}" --run)
python3 "$top/bench/measure.py" "${RUNS:-3}" "$khe" "${job[@]}" -- "$khe" "${job[@]}" --run -- "$khe" evaluate "$archive" > "$work/took"
awk -v line="$line" '
  NR == 1 { made = $1; bytes = $3 }
  NR == 2 { run = $1; peak = $2 }
  NR == 3 { evaluated = $1 }
  END {
    printf "%d bytes are made in %.3f s, and run in %.3f s; evaluated in %.3f s; memory of the run %.1f MiB\n%s\n",
      bytes, made, run, evaluated, peak / 1048576, line
  }' "$work/took"
