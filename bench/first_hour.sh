#!/usr/bin/env bash
# The processor time of five runs by each of some programs, as the median of three: of the first program, which has no
# proofs, and of the proved one, say. Run it by hand, on a machine that does nothing else.
#
#     bench/first_hour.sh PROGRAM..
#
# The file of the first program is quick-khe-.. in the folder `khe` of the user's cache, and KHE_BUILD=place ./khe names
# the proved one. It prints a line for each run, with seconds of a processor for each program and how many times as much
# the first of them takes as the last, and fails where their outputs differ.
set -eu
top=$(cd "$(dirname "$0")/.." && pwd)
work=$(mktemp -d)
trap 'rm -rf "$work"' EXIT
cd "$work"
"$1" make 7 2000 > large.xml
"$1" make 7 300 > school.xml
python3 "$top/bench/scripts.py" school.xml 200000 > edits

# Prints the median of the processor seconds of three runs, and writes what the run wrote to the file `out`.
median() {
  python3 - "$@" <<'PROGRAM'
import resource, subprocess, sys

def seconds():
    used = resource.getrusage(resource.RUSAGE_CHILDREN)
    return used.ru_utime + used.ru_stime

taken = []
for _ in range(3):
    before = seconds()
    with open("out", "wb") as out:
        subprocess.run(sys.argv[1:], stdout=out, check=True)
    taken.append(seconds() - before)
print("%.3f" % sorted(taken)[1])
PROGRAM
}

# A run by all programs.
row() {
  local name=$1 program one line='' first='' sum=''
  shift
  for program in "${programs[@]}"; do
    one=$(median "$program" "$@")
    first=${first:-$one}
    line+=" $one"
    [ -z "$sum" ] || [ "$sum" = "$(b2sum < out)" ] || { echo "$name: the outputs differ" >&2 && exit 1; }
    sum=$(b2sum < out)
  done
  awk -v name="$name" -v line="$line" -v ratio="$first $one" \
    'BEGIN { split(ratio, n, " "); printf "%-45s%s  %.2f\n", name, line, (n[2] > 0 ? n[1] / n[2] : 0) }'
}

programs=("$@")
row "evaluate, make 7 2000" evaluate large.xml
row "script, 200,000 edits on make 7 300" script school.xml 0 edits
row "repair, a million tries on make 7 300" repair school.xml 0 --depth 2 --budget 1000000
row "solve, 8 jobs of 100,000 on make 7 300" solve school.xml 0 --depth 2 --budget 100000 --jobs 8 --workers 1
row "make 7 2000" make 7 2000
uptime
