#!/usr/bin/env bash
# Times `khe check` on an archive of about 60 MiB beside `khe evaluate` of the same archive, and compares the
# peaks of their memory with the archive's length. Each is run three times in turns, and the fastest run counts.
# It prints one line.
#
#     bench/check.sh KHE
#
# KHE is a proved program, say ~/.cache/khe/khe. Run it by hand, on a quiet machine: it is no part of the gate.
. "$(dirname "$0")/setup.sh"
python3 "$top/bench/archives.py" "${EVENTS:-10000}" 10000 --rounds 1 --bytes "${BYTES:-62914560}" > "$archive"
python3 "$top/bench/measure.py" "${RUNS:-3}" "$khe" check "$archive" -- "$khe" evaluate "$archive" > "$work/took"
awk -v bytes="$(stat -c %s "$archive")" '
  NR == 1 { check = $1; peak = $2; spelled = $3 }
  NR == 2 { evaluate = $1; other = $2 }
  END {
    printf "%d bytes, spelled in %d: check %.3f s, evaluate %.3f s, ratio %.2f; memory %.2f and %.2f times the archive\n",
      bytes, spelled, check, evaluate, check / evaluate, peak / bytes, other / bytes
  }' "$work/took"
