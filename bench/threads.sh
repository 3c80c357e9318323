#!/usr/bin/env bash
# Times what `khe evaluate --workers 4` does from its first thread to its end, with its threads and with none, where
# the caller does all of it, and prints how many times as fast it is with them. Reading has no part in it, so its time,
# and how that varies, does not blur the ratio. The archives are those of bench/workers.sh. Each is run in turns; the
# ratio is told by the fastest runs, by the medians of all, and by the medians of those runs in which the kernel saw no
# time stolen: on a host that gives its processors to others meanwhile, threads can't be as fast as they are.
#
#     bench/threads.sh KHE [WORKERS]
#
# KHE is a proved program, say ~/.cache/khe/khe. WORKERS is 4 if missing. ROUNDS (1), how often each kind of constraint
# stands, and RUNS (15) are taken from the environment. It needs a C compiler. Run it by hand, on a quiet machine with
# as many processors: it is no part of the gate.
. "$(dirname "$0")/setup.sh"
workers=${2:-4}
cc -O2 -shared -fPIC -o "$work/clock.so" "$top/bench/thread_clock.c" -ldl

# The time of all processors that went to others, since the machine began.
stolen() { awk '/^cpu /{ print $9 }' /proc/stat; }

# Runs it with these variables, puts its report into one file, and adds what it took and what was stolen to another.
run() {
  local report=$1 times=$2 before
  shift 2
  before=$(stolen)
  env "$@" LD_PRELOAD="$work/clock.so" THREAD_CLOCK="$work/took" \
    "$khe" evaluate "$archive" --workers "$workers" > "$report"
  echo "$(cat "$work/took") $(($(stolen) - before))" >> "$times"
}

measure() {
  python3 "$top/bench/archives.py" "$1" "$2" --rounds "${ROUNDS:-1}" > "$archive"
  : > "$work/one"
  : > "$work/several"
  for ((turn = 0; turn < ${RUNS:-15}; turn++)); do
    run "$work/text" "$work/one" THREADS_REFUSED=1
    run "$work/other" "$work/several"
    cmp "$work/other" "$work/text"
  done
  python3 - "$work/one" "$work/several" "$2 solutions of $1 events" "$workers" <<'PYTHON'
import statistics, sys
one, several = ([tuple(map(float, line.split())) for line in open(name)] for name in sys.argv[1:3])
def took(runs, quiet=False):
    return [took for took, stolen in runs if not (quiet and stolen)]
for told, of, quiet in (("fastest", min, False), ("median", statistics.median, False),
                        ("undisturbed, median", statistics.median, True)):
    alone, together = took(one, quiet), took(several, quiet)
    if alone and together:
        print("%s, %s of %d and %d: %.1f ms by the caller, %.1f ms by %s, %.2f times as fast (aim: at least 3 by 4)"
              % (sys.argv[3], told, len(alone), len(together), of(alone), of(together), sys.argv[4],
                 of(alone) / of(together)))
PYTHON
}
measure 2000 116
measure 4 10000
