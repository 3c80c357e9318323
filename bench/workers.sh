#!/usr/bin/env bash
# Times the evaluation of archives by one worker and by several, and prints for each archive how many times as
# fast the several are past the reading. That is the time of the same archive with another role in the first entry
# of each solution, so that none is valid and nothing is evaluated; it is taken off first. The archives are one of
# 116 solutions of 2,000 events each, and one of 10,000 solutions of 4 events each. The reports of both are
# compared: they must be the same. Each is run three times in turns; the ratio is told by the fastest runs and by
# the medians.
#
#     bench/workers.sh KHE [WORKERS]
#
# KHE is a proved program, say ~/.cache/khe/khe. WORKERS (4 if missing) is the number of the several. ROUNDS (1), how
# often each kind of constraint stands, and RUNS (3) are taken from the environment: with 12 rounds evaluating takes
# longer than reading, so that a host whose speed varies blurs the ratio less.
# Run it by hand, on a quiet machine with as many processors: it is no part of the gate.
. "$(dirname "$0")/setup.sh"
workers=${2:-4}
compare() {
  python3 "$top/bench/archives.py" "$1" "$2" --rounds "${ROUNDS:-1}" > "$archive"
  written=$(grep -c '^<Solution ' "$archive" || true)
  python3 -c '
import sys
head, *solutions = sys.stdin.read().split("<Solution ")
solutions = [one.replace("<Role>T</Role>", "<Role>X</Role>", 1) for one in solutions]
sys.stdout.write("<Solution ".join([head] + solutions))' < "$archive" > "$work/invalid.xml"
  invalid=$("$khe" evaluate "$work/invalid.xml" | grep -c '^invalid 5 BadRole entry 0$')
  [ "$invalid" = "$written" ] || { echo "workers.sh: only $invalid of $written solutions are invalid" >&2; exit 1; }
  "$khe" evaluate "$archive" > "$work/one"
  "$khe" evaluate "$archive" --workers "$workers" | cmp - "$work/one"
  python3 "$top/bench/measure.py" "${RUNS:-3}" "$khe" evaluate "$work/invalid.xml" \
    -- "$khe" evaluate "$archive" -- "$khe" evaluate "$archive" --workers "$workers" > "$work/took"
  awk -v written="$written" -v events="$1" -v workers="$workers" '
    NR == 1 { reading = $1; middle[1] = $4 }
    NR == 2 { one = $1; middle[2] = $4 }
    NR == 3 { several = $1; peak = $2; middle[3] = $4 }
    END {
      printf "%d solutions of %d events: read in %.3f s, evaluated by one worker in %.3f s and by %d in %.3f s, %.2f times as fast (aim: at least 3 by 4); by the medians %.3f s and %.3f s, %.2f times; memory %.1f MiB\n",
        written, events, reading, one - reading, workers, several - reading, (one - reading) / (several - reading),
        middle[2] - middle[1], middle[3] - middle[1], (middle[2] - middle[1]) / (middle[3] - middle[1]), peak / 1048576
    }' "$work/took"
}
compare 2000 116
compare 4 10000
