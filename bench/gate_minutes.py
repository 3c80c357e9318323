#!/usr/bin/env python3
"""Prints what a run of the gate costs: processor minutes of each crate's proof, of its tests and of its edits.

    bench/gate_minutes.py [--under FOLDER]       until it is ended by Ctrl-C or a signal, or no `rt ci` runs any more

Start it beside `rt ci` (or `rt ci --anew`) on a quiet machine. Once a second it looks at the processes of the kit's
compiler, which name their crate, and adds up their processor time, as last seen; so each process is counted but for
its last second. With --under only processes that work below that folder are counted. Whoever links, compiles or
runs tests for a crate is counted as its tests.
"""

import collections
import os
import signal
import sys
import time

TICK = os.sysconf("SC_CLK_TCK")


def words_of(pid):
    with open(f"/proc/{pid}/cmdline", "rb") as file:
        return file.read().decode(errors="replace").split("\0")


def seconds_of(pid):
    with open(f"/proc/{pid}/stat") as file:
        fields = file.read().rsplit(")", 1)[1].split()
    return (int(fields[11]) + int(fields[12])) / TICK


def sort_of(words, folder):
    # an edit is tried on a copy of its crate
    if "/rt-edit-" in folder or any("/rt-edits-" in it for it in words):
        return "edits"
    if "--test" in words:
        return "tests"
    return "proof"


def seen(under):
    for pid in filter(str.isdigit, os.listdir("/proc")):
        try:
            words = words_of(pid)
            if "rattle" not in os.path.basename(words[0]) or "--crate-name" not in words:
                continue
            folder = os.readlink(f"/proc/{pid}/cwd")
            if under and not folder.startswith(under):
                continue
            crate = words[words.index("--crate-name") + 1]
            yield pid, crate, sort_of(words, folder), seconds_of(pid)
        except (OSError, IndexError, ValueError):
            continue


def is_running():
    for pid in filter(str.isdigit, os.listdir("/proc")):
        try:
            words = words_of(pid)
        except OSError:
            continue
        if any(word.endswith("/rt") for word in words[:3]) and "ci" in words[:4]:
            return True
    return False


def main():
    under = sys.argv[sys.argv.index("--under") + 1] if "--under" in sys.argv else None
    last = {}
    signal.signal(signal.SIGTERM, lambda *_: (_ for _ in ()).throw(KeyboardInterrupt()))
    try:
        idle = 0
        while idle < 30:
            for pid, crate, sort, seconds in seen(under):
                last[pid, crate, sort] = seconds
            idle = 0 if is_running() else idle + 1
            time.sleep(1)
    except KeyboardInterrupt:
        pass
    minutes = collections.defaultdict(lambda: collections.Counter())
    for (_, crate, sort), seconds in last.items():
        minutes[crate][sort] += seconds / 60
    print("| Crate | proof | tests | edits | all |\n|---|---|---|---|---|")
    total = collections.Counter()
    for crate, row in sorted(minutes.items(), key=lambda pair: -sum(pair[1].values())):
        total.update(row)
        parts = " | ".join(f"{row[sort]:.1f}" for sort in ("proof", "tests", "edits"))
        print(f"| {crate} | {parts} | {sum(row.values()):.1f} |")
    parts = " | ".join(f"{total[sort]:.1f}" for sort in ("proof", "tests", "edits"))
    print(f"| all | {parts} | {sum(total.values()):.1f} |")


main()
