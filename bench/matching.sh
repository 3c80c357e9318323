#!/usr/bin/env bash
# Times changes of a matching. 2,000 demands of a whole type at all times share 1,980 supplies, so
# that 20 are left out; 400 others have 600 supplies of another type. It prints how long the first
# take to open; then how many changes a second there are, and how many looks a change takes, where
# the others are given a time and lose it again, 100,000 times, and the same for the first. A look
# is at a word of 64 supplies, or at one demand that is met; they are counted in a second run, in a
# copy of the crate with a counter.
# It copies the crates into a folder of its own, adds the program programs/matching, proves and runs it there. Run it by
# hand: it is no part of the gate.
#
#     bench/matching.sh
. "$(dirname "$0")/programs.sh"
copy_program "$work/made" matching khe_base demand_matching
run_program "$work/made"
micros=$(grep -a '^measured' "$work/log")
python3 "$top/bench/programs/matching/count_looks.py" "$work/made/crates"
(cd "$work/made/crates/bench" && rt try) > "$work/log" 2>&1 || { cat "$work/log"; exit 1; }
looks=$(grep -a '^measured' "$work/log")
python3 "$top/bench/programs/matching/rates.py" $micros $looks
