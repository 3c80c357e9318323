#!/usr/bin/env bash
# Times the reading of a text of about 60 MiB into its table of elements against xmllint on the same file, the
# whole process on both sides, and compares the peak of the memory with the file's length. It copies the crates into a
# folder of its own, adds the program programs/reading, and proves it there, which takes some minutes where the crates
# were not proved before on this machine. Each is run three times in turns, and the fastest run counts. It prints one
# line. Run it by hand, on a quiet machine: it is no part of the gate.
#
#     bench/reading.sh [FOLDER [KHE]]
#
# Where FOLDER is given, the program is made there, and is taken from there if an earlier run has made it. Where KHE is
# given, a program of this repository, its whole evaluation of the same file is timed in the same run.
. "$(dirname "$0")/programs.sh"
made=${1:-$work/made}
program=$made/crates/bench/out/bench

make_program() {
  copy_program "$made" reading khe_base khe_io xhstt_text
  mkdir -p "$made/crates/bench/data"
  cp "$top/examples/first.xml" "$made/crates/bench/data/"
  run_program "$made" data/first.xml
}

[ -x "$program" ] || make_program
archive=$work/archive.xml
python3 "$top/bench/archives.py" "${EVENTS:-10000}" 10000 --bytes "${BYTES:-62914560}" > "$archive"
for run in 1 2 3; do
  "$program" "$archive"
done | sort -n > "$work/elements"
evaluation=()
[ -z "${2:-}" ] || evaluation=(-- "$(readlink -f "$2")" evaluate "$archive")
python3 "$top/bench/measure.py" 3 "$program" "$archive" -- xmllint --noout --sax "$archive" "${evaluation[@]}" > "$work/took"
awk -v bytes="$(stat -c %s "$archive")" -v elements="$(head -n 1 "$work/elements")" '
  NR == 1 { whole = $1; peak = $2 }
  NR == 2 { xmllint = $1 }
  NR == 3 { evaluation = $1 }
  END {
    split(elements, one, " ")
    printf "%d bytes, %d elements: reading %.3f s, the whole process %.3f s, xmllint --sax %.3f s, ratio %.2f (aim: below 1.5); memory %.1f MiB, %.2f times the file (aim: below 6)\n",
      bytes, one[2], one[1] / 1000000, whole, xmllint, whole / xmllint, peak / 1048576, peak / bytes
    if (evaluation) printf "evaluation %.3f s: reading is %.2f of it\n", evaluation, whole / evaluation
  }' "$work/took"
