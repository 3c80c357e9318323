"""Prints how many notes a second each family took, of runs of which the fastest counts.

    rates.py FILE
"""

import sys

names = "AvoidClashes AvoidUnavailableTimes LimitIdleTimes ClusterBusyTimes LimitBusyTimes LimitWorkload all".split()
with open(sys.argv[1]) as file:
    rows = [[int(word) for word in line.split()[1:]] for line in file if line.startswith("measured")]
best = [[min(column) for column in zip(*rows[which::2])] for which in (0, 1)]
for name, week, year in zip(names, *best):
    assert week > 0 and year > 0, f"{name}: a change did not fit"
    print(f"{name}: {10**12 // week:,} notes a second at 40 times, {10**12 // year:,} at 2,000")
