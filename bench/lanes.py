#!/usr/bin/env python3
"""Says how long a run of the gate would take from its crates' minutes, and what its processors wait for.

    bench/lanes.py MINUTES [--lanes N] [--memory GB]

MINUTES is a file with the table that `bench/gate_minutes.py` prints. The kit begins a crate's proof and its tests where
a processor is free and the memory that it reckons for the crate is, first those with the most lines of source behind
them; the edits of a crate, over a proof of their own, fill what these leave free, but none is begun while a proof or
tests wait for memory. This goes through the same steps with the minutes of the table. It prints what is begun when,
and at the end the time of the whole, the sum of all minutes and how many processors had work on average, with that
memory and with any. The reckoning is the kit's own (`need` and `OVER` of its `rt`), so this follows the kit; that a
proof gets several processors where nothing else is ready is left out.
"""

import importlib.machinery
import importlib.util
import os
import sys

TOP = os.path.dirname(os.path.dirname(os.path.abspath(__file__)))
RT = os.path.realpath("/usr/local/bin/rt")
SORTS = ("proof", "tests", "edits")


def crates_of_kit():
    """The kit's `rt` as a module, and the repository's crates, lowest first."""
    sys.path.insert(0, os.path.dirname(RT))
    loader = importlib.machinery.SourceFileLoader("rt_of_kit", RT)
    rt = importlib.util.module_from_spec(importlib.util.spec_from_loader("rt_of_kit", loader))
    loader.exec_module(rt)
    rt.rtlib.Crate, rt.Crate.allowed = rt.Crate, []
    os.chdir(TOP)
    return rt, sorted(rt.rtlib.crates_below(TOP), key=lambda it: len(it.below()))


def minutes_of(path):
    rows = {}
    with open(path, encoding="utf-8") as file:
        for line in file:
            cells = [it.strip() for it in line.split("|")[1:-1]]
            if len(cells) == 5 and cells[0] not in ("Crate", "all") and not cells[0].startswith("-"):
                rows[cells[0]] = dict(zip(SORTS, map(float, cells[1:4])))
    return rows


def edits_in(crate):
    """How many must-fail edits of a crate the gate tries."""
    folder = f"{crate.folder}/must-fail"
    return sum(it.endswith(".edit") for it in os.listdir(folder)) if os.path.isdir(folder) else 0


def tasks_of(rt, crates, minutes):
    """What each task waits for, its lines, its memory and its minutes, by crate, sort and number."""
    tasks = {}
    for crate in crates:
        name, below = crate.name, [(it.name, "proof") for it in crate.below()]
        has = dict.fromkeys(SORTS, 0.0) | minutes.get(name, {})
        lines, memory, many = crate.count(rb"\n"), rt.need(crate) / 1e9, edits_in(crate)
        tasks[name, "proof"] = (below, lines, memory, has["proof"])
        tasks[name, "tests"] = (below, lines * crate.has_tests(), memory, has["tests"])
        waits = [*below, (name, "proof"), (name, "tests")]
        if many > 1:
            # a proof that they begin with, and in the end one look whether it still holds
            each, over = max(has["edits"] - has["proof"], 0.0) / (many + 1), rt.OVER * memory
            every = [(name, "edits", number) for number in range(many)]
            tasks[name, "seed"] = (below, 0, memory, min(has["proof"], has["edits"]))
            tasks |= {it: ([*waits, (name, "seed")], lines, over, each) for it in every}
            tasks[name, "sound"] = ([*every, (name, "seed")], 0, over, each)
        elif many:
            tasks[name, "edits", 0] = (waits, lines, memory, has["edits"])
    return tasks


def fills(key):
    return key[1] in ("edits", "seed")


def order_of(tasks):
    """The tasks, first those with the most lines behind them, and edits with what they begin with last."""
    behind = dict.fromkeys(tasks, 0)
    for key in reversed([*tasks]):
        behind[key] += tasks[key][1]
        for it in tasks[key][0]:
            behind[it] = max(behind[it], behind[key])
    return sorted(tasks, key=lambda it: (fills(it), -behind[it]))


def simulate(tasks, lanes, memory, told=None):
    left, running, done, now, busy = order_of(tasks), {}, set(), 0.0, 0.0
    while left or running:
        lacks = False
        for key in [it for it in left if all(below in done for below in tasks[it][0])]:
            if lacks and fills(key):
                break
            _, _, needs, takes = tasks[key]
            room = memory - sum(tasks[it][2] for it in running)
            if len(running) < lanes and (not running or needs <= room):
                left.remove(key)
                running[key] = now + takes
                if told and takes > 0:
                    told(f"{now:6.1f} {' '.join(map(str, key)):34} {takes:5.1f} minutes, {needs:4.1f} GB")
            else:
                lacks = lacks or (len(running) < lanes and key[1] in ("proof", "tests"))
        first = min(running, key=running.get)
        busy += (running[first] - now) * len(running)
        now = running.pop(first)
        done.add(first)
    return now, busy / now if now else 0.0


def main():
    words = sys.argv[1:]
    if not words:
        print(__doc__, end="", file=sys.stderr)
        return 2
    lanes = int(words[words.index("--lanes") + 1]) if "--lanes" in words else 4
    memory = float(words[words.index("--memory") + 1]) if "--memory" in words else 19.4
    minutes = minutes_of(words[0])
    rt, crates = crates_of_kit()
    tasks = tasks_of(rt, crates, minutes)
    took, at_work = simulate(tasks, lanes, memory, print)
    free, all_at_work = simulate(tasks, lanes, float("inf"))
    total = sum(sum(row.values()) for row in minutes.values())
    print(f"{took:.0f} minutes for {total:.0f} of processors, {at_work:.1f} of {lanes} at work; "
          f"with any memory {free:.0f}, {all_at_work:.1f} at work")
    return 0


if __name__ == "__main__":
    sys.exit(main())
