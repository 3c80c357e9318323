#!/usr/bin/env python3
"""Tries must-fail edits, each of which the prover must refuse, and keeps a record of what refused them.

    checks/edits.py             the edits without a fresh row in checks/edits/RECORD.md, the lowest crates first
    checks/edits.py CRATE..     all edits of these crates
    checks/edits.py --texts     only whether the texts of all edits stand once where they should: at once
    checks/edits.py --record    only whether the record is of these sources, and how many edits lack a fresh row: at once

The gate tries the edits of the folders crates/CRATE/must-fail; those of checks/edits/CRATE are tried by this script
alone (docs/testing.md says what carries their claims in the gate). Both are tried here, by the kit's `rt must-fail`,
on a copy of the work tree as it stands, in a temporary folder, where the libraries below are proved first: half
an hour or more for a crate high up.

An edit counts as refused where a clause refused it. It fails where it was refused only since a proof file names
what the edit took away, or by a limit of the prover: neither says anything of the contract, and in both ways an edit
rots. Refused in a proof file that no longer fits, it is told apart and does not fail. The last line is
'N refused by a clause, N in a proof file, N for another reason'; the status is 1 where one was not refused, or for
another reason.

The record has a row for each edit that a clause or a proof file refused: the crate, the edit, the checksum of the edit
with the sources of its crate and of all crates below, the date, and the line that refused it. A row is fresh while the
checksum is that of the work tree. The line 'Fresh: ..' of the record names the crates whose edits must all have
a fresh row ('none', 'all', or names with commas between), and `--record` ends with status 1 where one of these has not,
where a row names an edit or a crate that is gone, and where an edit has two rows. A row of any other crate may be
stale: it says what refused the edit then.
"""

import datetime
import functools
import hashlib
import os
import re
import shutil
import subprocess
import sys
import tempfile

TOP = os.path.dirname(os.path.dirname(os.path.abspath(__file__)))
RECORD = f"{TOP}/checks/edits/RECORD.md"
SOURCES = ("src", "specs", "proofs")
REFUSED, IN_PROOF, BY_NAMES, BY_LIMIT, NOT = "by a clause", "in a proof file", "by names", "by a limit", "not refused"


def edits_of(folder):
    if not os.path.isdir(folder):
        return []
    return sorted(os.path.join(folder, name) for name in os.listdir(folder) if name.endswith(".edit"))


def edits_with(crate):
    """All edits of a crate, by their names: those that the gate tries, and those that it does not."""
    return {os.path.basename(it): it for it in edits_of(f"{TOP}/crates/{crate}/must-fail") + edits_of(f"{TOP}/checks/edits/{crate}")}


def pairs_of(edit):
    """The file of each pair of texts of an edit, with the pair."""
    file, old, found = None, None, []
    with open(edit, encoding="utf-8") as lines:
        for line in lines:
            sort, _, text = line.rstrip("\n").partition(": ")
            if sort == "file":
                file = text
            elif sort == "old":
                old = text
            elif sort == "new":
                found.append((file, old, text))
    return found


def misplaced(crate, edit):
    """What is wrong with the texts of an edit, or None."""
    made = {}
    pairs = pairs_of(edit)
    if not pairs:
        return "it has no pair of texts"
    for file, old, new in pairs:
        path = f"{TOP}/crates/{crate}/{file}"
        if not os.path.isfile(path):
            return f"{file} is not there"
        with open(path, encoding="utf-8") as whole:
            text = made.get(file) or whole.read()
        if text.count(old) != 1:
            return f"{file} has {text.count(old)} times: {old}"
        made[file] = text.replace(old, new)
    return None


def look_at_texts():
    wrong = count = 0
    for crate in sorted(os.listdir(f"{TOP}/crates")):
        folders = f"{TOP}/crates/{crate}/must-fail", f"{TOP}/checks/edits/{crate}"
        for edit in (it for folder in folders for it in edits_of(folder)):
            count += 1
            why = misplaced(crate, edit)
            if not why and edits_with(crate)[os.path.basename(edit)] != edit:
                why = "the gate has an edit of that name too"
            if why:
                wrong += 1
                print(f"{os.path.relpath(edit, TOP)}: {why}")
    for crate in sorted(os.listdir(f"{TOP}/checks/edits")):
        if os.path.isdir(f"{TOP}/checks/edits/{crate}") and not os.path.isdir(f"{TOP}/crates/{crate}"):
            wrong += 1
            print(f"checks/edits/{crate}: there is no such crate")
    print(f"{count} edits, {wrong} wrong")
    return wrong


@functools.lru_cache(maxsize=None)
def joined():
    """What each crate stands on, by its name, from crates.txt."""
    uses = {}
    with open(f"{TOP}/crates.txt", encoding="utf-8") as file:
        for line in file:
            head, colon, names = line.partition("#")[0].strip().partition(":")
            if colon:
                uses[head.split()[0]] = names.split()
    return uses


@functools.lru_cache(maxsize=None)
def with_below(crate):
    """The crate and all crates of the repository below it."""
    found = {crate}
    for it in joined()[crate]:
        if it in joined():
            found |= with_below(it)
    return frozenset(found)


@functools.lru_cache(maxsize=None)
def sum_of_sources(crate):
    """A checksum of a crate's sources and its line of crates.txt."""
    made = hashlib.sha256(repr((crate, joined()[crate])).encode())
    for part in SOURCES:
        for folder, folders, names in os.walk(f"{TOP}/crates/{crate}/{part}"):
            folders.sort()
            for name in sorted(names):
                path = os.path.join(folder, name)
                with open(path, "rb") as file:
                    made.update(repr((os.path.relpath(path, f"{TOP}/crates"), file.read())).encode())
    return made.hexdigest()


def sum_of(crate, edit):
    """The checksum of an edit with the sources of its crate and of all below."""
    made = hashlib.sha256()
    with open(edit, "rb") as file:
        made.update(file.read())
    for it in sorted(with_below(crate)):
        made.update(sum_of_sources(it).encode())
    return made.hexdigest()[:16]


def read_record():
    """The lines of the record before its rows, and its rows: crate, edit, checksum, date and clause of each."""
    head, rows = [], []
    with open(RECORD, encoding="utf-8") as file:
        for line in file.read().splitlines():
            cells = [it.strip() for it in re.split(r"(?<!\\)\|", line)[1:-1]]
            if len(cells) == 5 and re.fullmatch(r"[0-9a-f]{16}", cells[2]):
                rows.append(cells)
            else:
                head.append(line)
    return head, rows


def write_record(head, rows):
    heights = {it: len(with_below(it)) for it in joined()}
    rows = sorted(rows, key=lambda row: (heights.get(row[0], 0), row))
    with open(RECORD, "w", encoding="utf-8") as file:
        file.write("".join(f"{line}\n" for line in [*head, *(f"| {' | '.join(row)} |" for row in rows)]))


def fresh_names(rows):
    """The edits with a fresh row."""
    found = set()
    for crate, name, checksum, _, _ in rows:
        edit = edits_with(crate).get(name) if crate in joined() else None
        if edit and sum_of(crate, edit) == checksum:
            found.add((crate, name))
    return found


def look_at_record():
    """Prints what is wrong with the record and how many edits lack a fresh row, and gives how much is wrong."""
    head, rows = read_record()
    wrong = []
    wanted = [line.partition(": ")[2].rstrip(".") for line in head if line.startswith("Fresh: ")]
    names = [] if wanted == ["none"] else wanted[0].split(", ") if len(wanted) == 1 else None
    if names is None:
        wrong.append("it has no line 'Fresh: ..', or several")
    names = sorted(joined()) if names == ["all"] else names or []
    wrong += [f"its line 'Fresh: ..' names {it}, which is no crate" for it in names if it not in joined()]
    for at, (crate, name, _, _, _) in enumerate(rows):
        if crate not in joined():
            wrong.append(f"it has a row for {crate}, which is no crate")
        elif name not in edits_with(crate):
            wrong.append(f"it has a row for {name} of {crate}, which is gone")
        if (crate, name) in [tuple(row[:2]) for row in rows[:at]]:
            wrong.append(f"it has two rows for {name} of {crate}")
    fresh = fresh_names(rows)
    edits = [(crate, name) for crate in joined() for name in edits_with(crate)]
    rowed = {tuple(row[:2]) for row in rows}
    for crate, name in edits:
        if crate in names and (crate, name) not in fresh:
            wrong.append(f"{name} of {crate} {'was tried on other sources' if (crate, name) in rowed else 'has no row'}, and {crate} must be fresh")
    for it in wrong:
        print(f"checks/edits/RECORD.md: {it}")
    print(f"{len(edits)} edits, {len(edits) - len(fresh)} of them without a fresh record; {len(wrong)} wrong")
    return len(wrong)


def sort_of(said):
    """What a line of `rt must-fail` on an edit comes to, and the line that refused it."""
    _, refused, why = said.partition(": refused, as it must be")
    if not refused:
        return NOT, said
    if why.startswith(" (only because a proof file names"):
        return BY_NAMES, why
    if why.startswith(" (only by a limit"):
        return BY_LIMIT, why
    why = why.removeprefix(": ")
    if not why:
        return BY_NAMES, "no line says what refused it"
    return IN_PROOF if re.match(r"(note: )?(\./)?proofs/", why) else REFUSED, why


def copy_tree(to):
    """Copies the work tree as far as a proof reads it."""
    os.makedirs(to)
    for crate in os.listdir(f"{TOP}/crates"):
        for part in (*SOURCES, "data", "c"):
            if os.path.isdir(f"{TOP}/crates/{crate}/{part}"):
                shutil.copytree(f"{TOP}/crates/{crate}/{part}", f"{to}/crates/{crate}/{part}")
    for name in ("crates.txt", "HANDLES"):
        shutil.copy(f"{TOP}/{name}", to)


def try_edits(chosen):
    """Tries edits, by their crates: a list of crates with the names of their edits. The record is written after each crate."""
    counts = dict.fromkeys((REFUSED, IN_PROOF, BY_NAMES, BY_LIMIT, NOT), 0)
    with tempfile.TemporaryDirectory(prefix="khe-edits-") as room:
        tree = f"{room}/khe"
        copy_tree(tree)
        for crate, names in chosen:
            sums = {name: sum_of(crate, edits_with(crate)[name]) for name in names}
            into = f"{tree}/crates/{crate}/must-fail"
            os.makedirs(into)
            for name in names:
                shutil.copy(edits_with(crate)[name], into)
            ran = subprocess.run(["rt", "must-fail", crate], cwd=tree, stdout=subprocess.PIPE, text=True, errors="replace", check=False)
            shutil.rmtree(into)
            tried = re.findall(r"^rt: must-fail [^/\s]+/(\S+\.edit)(: .*)$", ran.stdout, re.M)
            if {name for name, _ in tried} != set(names):
                print(ran.stdout[-3000:], end="")
                print(f"{crate}: {len(tried)} of its {len(names)} edits came to an end")
                counts[NOT] += len(names) - len(tried)
            head, rows = read_record()
            rows = [row for row in rows if row[0] != crate or row[1] not in names]
            today = datetime.date.today().isoformat()
            for name, said in tried:
                sort, why = sort_of(said)
                counts[sort] += 1
                print(f"{crate}/{name}: {sort}: {why.strip(': ')}", flush=True)
                if sort in (REFUSED, IN_PROOF):
                    rows.append([crate, name, sums[name], today, re.sub(r"\s+", " ", why).replace("|", "\\|")])
            write_record(head, rows)
    other = counts[BY_NAMES] + counts[BY_LIMIT] + counts[NOT]
    print(f"{counts[REFUSED]} refused by a clause, {counts[IN_PROOF]} in a proof file, {other} for another reason")
    return other > 0 or not sum(counts.values())


def main():
    words = sys.argv[1:]
    if words == ["--texts"]:
        return 1 if look_at_texts() else 0
    if words == ["--record"]:
        return 1 if look_at_record() else 0
    unknown = [it for it in words if it not in joined() or not edits_with(it)]
    if unknown:
        print(__doc__, end="", file=sys.stderr)
        return 2
    fresh = set() if words else fresh_names(read_record()[1])
    crates = sorted(words or joined(), key=lambda it: len(with_below(it)))
    chosen = [(it, [name for name in edits_with(it) if (it, name) not in fresh]) for it in crates]
    chosen = [(crate, names) for crate, names in chosen if names]
    if not chosen:
        print("the record is fresh: there is nothing to try")
        return 0
    return 1 if try_edits(chosen) else 0


if __name__ == "__main__":
    sys.exit(main())
