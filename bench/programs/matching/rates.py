"""Prints changes a second and looks a change, of the lines `measured ..` of a run with times and of one with looks.

    rates.py MEASURED .. MEASURED ..
"""

import sys

_, opening, others, these, deficit, _, *looks = sys.argv[1:]
rows = [("2,000 demands open", opening, 2_000), ("a time for others and back", others, 200_000), ("for these and back", these, 200_000)]
print(f"{deficit} left out")
for (what, micros, changes), count in zip(rows, looks):
    print(f"{what}: {changes * 1_000_000 // int(micros):,} changes a second, {int(count) / changes:.1f} looks a change")
