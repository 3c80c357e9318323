#!/usr/bin/env bash
# Times busy and idle times by words against counting cell by cell, on a timetable of 2,000 times with one set of
# all of them, and on one of 40 times with a set for each of five days. Both ways must come to the same sums. It
# prints a line with both times for each timetable. It copies the crates into a folder of its own, adds the program
# programs/timetables, proves and runs it there. Run it by hand, on a quiet machine: it is no part of the gate.
#
#     bench/timetables.sh
. "$(dirname "$0")/programs.sh"
copy_program "$work/made" timetables khe_base timetables
run_program "$work/made"
grep -a ' rounds of ' "$work/log"
