#!/usr/bin/env bash
# Times the families at resources. An event of as many times as the instance has comes in meets of one time
# each, one at each time; a resource is given to the tasks of these meets and taken from them, 1,000,000 times in
# an order that looks random. It prints for each of the six families, and for all of them as one, how many such
# notes a second there are where the resource has 40 times in five day groups, and where it has 2,000. A note is
# counted with the question whether it fits, which takes constant time here.
# It copies the crates into a folder of its own, adds the program programs/families, proves it there, which takes long
# where the crates were not proved before on this machine, and runs it. Run it by hand, on a quiet machine: it is no part
# of the gate.
#
#     bench/families.sh [FOLDER]
#
# Where FOLDER is given, the program is made there, and is taken from there if an earlier run has made it.
. "$(dirname "$0")/programs.sh"
made=${1:-$work/made}
program=$made/crates/bench/out/bench

make_program() {
  copy_program "$made" families khe_base khe_io khe_instance xhstt_text xhstt_shape xhstt_resolve khe_told family_keepers resource_monitors family_tests
  mkdir -p "$made/crates/bench/data"
  cp "$work"/*.xml "$made/crates/bench/data/"
  run_program "$made" data/week.xml
}

python3 "$top/bench/programs/families/archive.py" 40 > "$work/week.xml"
python3 "$top/bench/programs/families/archive.py" 2000 > "$work/year.xml"
[ -x "$program" ] || make_program
for run in 1 2 3; do
  "$program" "$work/week.xml" "$work/year.xml"
done > "$work/took"
python3 "$top/bench/programs/families/rates.py" "$work/took"
