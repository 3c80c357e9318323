#!/usr/bin/env python3
"""Prints which functions are dear to prove: the seconds of each module of a run of the gate, the dearest first.

    bench/module_times.py [--most N] [--sorts] [CRATE..]      until it is ended by Ctrl-C or a signal, or no `rt ci` runs any more

Start it beside `rt ci`. The kit's compiler writes a file for each module once it is checked, below a folder in /tmp
that bears the number of its process; once a second this looks for new ones. The time of a module is the gap to the one
before it in the same process, so it says what the module took where the process has one lane. `F.Lts` is what the
exits and calls of the function F cost, `F.Proof` and `F.Answers` its goals, `F.Tie` what its types cost where it names
families. With --sorts a table follows of the seconds of each crate by such sorts; `load` is the time up to its first
module, in which its libraries are read.
"""

import os
import re
import signal
import sys
import time

PLACE = re.compile(r"rattle-logic-built-locked-(\d+)-0$")


def words_of(pid):
    try:
        with open(f"/proc/{pid}/cmdline", "rb") as file:
            return file.read().decode(errors="replace").split("\0")
    except OSError:
        return []


def crate_of(pid):
    words = words_of(pid)
    return words[words.index("--crate-name") + 1] if "--crate-name" in words else None


def is_running():
    return any(
        "ci" in words[:4] and any(it.endswith("/rt") for it in words[:3])
        for words in map(words_of, filter(str.isdigit, os.listdir("/proc")))
    )


def look(seen):
    """Adds the modules that came to what was seen: for each process its crate, its begin and its files' times."""
    for name in os.listdir("/tmp"):
        pid = (PLACE.match(name) or [None, None])[1]
        if pid and pid not in seen and crate_of(pid):
            seen[pid] = (crate_of(pid), time.time(), {})
        if pid not in seen:
            continue
        for at, _, files in os.walk(f"/tmp/{name}"):
            for file in files:
                if file.endswith(".oantt") and file not in seen[pid][2]:
                    try:
                        seen[pid][2][file] = os.lstat(f"{at}/{file}").st_mtime
                    except OSError:
                        continue


SORTS = ["load", "Lts", "Proof", "Answers", "Tie", "Layout", "Reads", "Kinds"]


def sort_of(crate, module, is_first):
    if is_first:
        return "load"
    last = module.removesuffix(".decls").rpartition(".")[2]
    return last if last in SORTS and module.startswith(f"{crate}-proofs") else "else"


def print_sorts(seen, crates):
    sorts = {}
    for crate, begin, files in seen.values():
        before = begin
        for number, (file, at) in enumerate(sorted(files.items(), key=lambda pair: pair[1])):
            if not crates or crate in crates:
                module = file.removeprefix("Rattle-").removesuffix(".oantt")
                row = sorts.setdefault(crate, dict.fromkeys([*SORTS, "else"], 0.0))
                row[sort_of(crate, module, number == 0)] += at - before
            before = at
    print(f"{'crate':22} " + " ".join(f"{it:>8}" for it in [*SORTS, "else", "all"]))
    for crate, row in sorted(sorts.items(), key=lambda pair: -sum(pair[1].values())):
        print(f"{crate:22} " + " ".join(f"{it:8.1f}" for it in [*row.values(), sum(row.values())]))


def main():
    words = sys.argv[1:]
    most = int(words[words.index("--most") + 1]) if "--most" in words else 40
    crates = [it for it in words if not it.startswith("--") and not it.isdigit()]
    signal.signal(signal.SIGTERM, lambda *_: (_ for _ in ()).throw(KeyboardInterrupt()))
    seen, idle = {}, 0
    try:
        while idle < 30:
            look(seen)
            idle = 0 if is_running() else idle + 1
            time.sleep(1)
    except KeyboardInterrupt:
        pass
    rows = []
    for crate, begin, files in seen.values():
        before = begin
        for file, at in sorted(files.items(), key=lambda pair: pair[1]):
            if not crates or crate in crates:
                rows.append((at - before, crate, file.removeprefix("Rattle-").removesuffix(".oantt")))
            before = at
    for seconds, crate, module in sorted(rows, reverse=True)[:most]:
        print(f"{seconds:8.1f} {crate:22} {module}")
    if "--sorts" in words:
        print_sorts(seen, crates)


main()
