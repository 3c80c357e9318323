"""Prints the lines of crates.txt for some crates and for all that they stand on.

    crates_below.py CRATES_TXT CRATE..
"""

import sys


def main():
    with open(sys.argv[1], encoding="utf-8") as file:
        lines = [line for line in file if ":" in line and not line.startswith("#")]
    below = {line.split(":")[0]: line.split(":")[1].split() for line in lines}
    wanted, waiting = set(), sys.argv[2:]
    while waiting:
        name = waiting.pop()
        if name in below and name not in wanted:
            wanted.add(name)
            waiting += below[name]
    for line in lines:
        if line.split(":")[0] in wanted:
            sys.stdout.write(line)


main()
