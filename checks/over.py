#!/usr/bin/env python3
"""Proves a crate, or single functions of it, over libraries that another folder has, without building any below it.

    checks/over.py LIBRARIES CRATE [--build] [flags of `rattle check`, as --only FUNCTION, --allow-holes, --test]

LIBRARIES is the top of a clone in which `rt ci` is at work or was (each library is there as soon as it is proved), or
several such folders with a `:` between, the first that has a library counting. What is checked is the crate of this
clone. With --build its library goes to .git/over of this clone, which is looked at first, so that crates above it
are checked over it: then all between them have to be built so as well, lowest first.

`rt check` proves all libraries below a crate in each clone by itself; this asks one question in seconds to a
minute. It is no verdict: that is `rt ci`.
"""

import os
import subprocess
import sys

TOP = os.path.dirname(os.path.dirname(os.path.abspath(__file__)))
KIT = os.path.dirname(os.path.dirname(os.path.realpath("/usr/local/bin/rt")))
OWN = f"{TOP}/.git/over"


def lines_of_crates():
    """What each crate stands on, by its name, and which are static libraries."""
    uses, static = {}, set()
    with open(f"{TOP}/crates.txt", encoding="utf-8") as file:
        for line in file:
            head, colon, names = line.partition("#")[0].strip().partition(":")
            if colon:
                uses[head.split()[0]] = names.split()
                static |= {head.split()[0]} if "staticlib" in head.split() else set()
    return uses, static


def library(folders, name):
    found = [f"{OWN}/rlib/{name}/{name}.rlib", *(f"{it}/crates/{name}/out/rlib/{name}.rlib" for it in folders)]
    for path in found:
        if os.path.exists(path):
            return path
    sys.exit(f"no library of {name} yet; looked for " + ", ".join(found))


def below(uses, name, found):
    for it in uses[name]:
        if it in uses and it not in found:
            below(uses, it, found)
            found.append(it)
    return found


def main():
    if len(sys.argv) < 3:
        print(__doc__, end="", file=sys.stderr)
        return 2
    folders, crate = [os.path.abspath(it) for it in sys.argv[1].split(":")], sys.argv[2]
    flags = [it for it in sys.argv[3:] if it != "--build"]
    uses, static = lines_of_crates()
    words = ["--extern", f"std={KIT}/rlibs/std.rlib"]
    for name in uses[crate]:
        words += ["--extern", f"{name}={library(folders, name) if name in uses else f'{KIT}/rlibs/{name}.rlib'}"]
    words += ["-L", f"dependency={KIT}/rlibs"]
    for name in below(uses, crate, []):
        words += ["-L", f"dependency={os.path.dirname(library(folders, name))}"]
    words += ["--antt-project", f"{KIT}/rattle/logic/antt-project.json", "--logic-built", f"{KIT}/logic_built"]
    words += [] if "--jobs" in flags else ["--jobs", "1"]
    words += ["--crate-type", "staticlib"] if crate in static else []
    folder = f"{TOP}/crates/{crate}"
    top = "src/main.rt" if os.path.exists(f"{folder}/src/main.rt") else "src/lib.rt"
    if "--build" in sys.argv:
        os.makedirs(f"{OWN}/rlib/{crate}", exist_ok=True)
        verb, ends = "build", ["--links", f"{crate}=", "--statements", "-o", f"{OWN}/rlib/{crate}/{crate}.rlib"]
    else:
        os.makedirs(f"{OWN}/kept/{crate}", exist_ok=True)
        verb, ends = "check", ["--incremental", f"{OWN}/kept/{crate}"]
    ran = subprocess.run([f"{KIT}/bin/rattle", verb, "--crate-name", crate, top, *words, *flags, *ends], cwd=folder)
    return ran.returncode


if __name__ == "__main__":
    sys.exit(main())
