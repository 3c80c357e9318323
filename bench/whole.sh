#!/usr/bin/env bash
# Times the evaluation of an archive of about 60 MiB, at 10,000 events and all sixteen kinds of
# constraints, against xmllint, which only reads the same text, and compares the peak of the memory with
# the archive's length. Each is run three times in turns, and the fastest run counts. It prints one line.
#
#     bench/whole.sh KHE [ROUNDS]
#
# KHE is a proved program, say ~/.cache/khe/khe. ROUNDS (1 if missing, at most 12) is how often
# each kind of constraint stands. Run it by hand, on a quiet machine: it is no part of the gate.
. "$(dirname "$0")/setup.sh"
rounds=${2:-1}
python3 "$top/bench/archives.py" "${EVENTS:-10000}" 10000 --rounds "$rounds" --bytes "${BYTES:-62914560}" > "$archive"
solutions=$(grep -c '^<Solution ' "$archive")
python3 "$top/bench/measure.py" "${RUNS:-3}" "$khe" evaluate "$archive" -- xmllint --noout --sax "$archive" > "$work/took"
awk -v bytes="$(stat -c %s "$archive")" -v solutions="$solutions" '
  NR == 1 { khe = $1; peak = $2; report = $3 }
  NR == 2 { xmllint = $1 }
  END {
    printf "%d bytes, %d solutions, report of %d bytes: khe %.3f s, xmllint %.3f s, ratio %.2f (aim: below 4); memory %.1f MiB, %.2f times the archive (aim: below 8)\n",
      bytes, solutions, report, khe, xmllint, khe / xmllint, peak / 1048576, peak / bytes
  }' "$work/took"
