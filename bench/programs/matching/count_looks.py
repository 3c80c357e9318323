"""Puts a counter of looks into a copy of demand_matching and a call that reads it, and lets the bench print it.

    count_looks.py CRATES
"""

import sys
from pathlib import Path

crates = Path(sys.argv[1])


def edit(path, *pairs):
    text = path.read_text()
    for old, new in pairs:
        assert old in text, old
        text = text.replace(old, new)
    path.write_text(text)


count = "self.looks.set(self.looks.get() + 1);"
matching = crates / "demand_matching/src"
edit(
    matching / "table.rt",
    ("use crate::Domain;", "use crate::Domain;\nuse std::cell::Cell;"),
    ("    pub(crate) free: Vec<u64>,", "    pub(crate) free: Vec<u64>,\n    pub(crate) looks: Cell<u64>,"),
    ("        for k in first..end {", "        for k in first..end {\n" + count),
    ("        clear_bit(unseen, supply as usize);", count + "\n        clear_bit(unseen, supply as usize);"),
)
edit(
    matching / "matching.rt",
    ("use std::mem;", "use std::cell::Cell;\nuse std::mem;"),
    ("                width,\n", "                width,\n                looks: Cell::new(0),\n"),
    (
        "    /// Gives a demand a new domain, or makes",
        "    pub fn looks(&self) -> u64 {\n        self.table.looks.get()\n    }\n\n    /// Gives a demand a new domain, or makes",
    ),
)
edit(
    crates / "bench/src/main.rt",
    ("    let opening = start.elapsed(&rt)?.as_micros();", "    let opening = matching.looks();"),
    ("    pairs(&mut matching, 2000, 400, 1);", "    let before = matching.looks();\n    pairs(&mut matching, 2000, 400, 1);"),
    ("    let others = start.elapsed(&rt)?.as_micros();", "    let others = matching.looks() - before;"),
    ("    pairs(&mut matching, 0, 2000, 0);", "    let before = matching.looks();\n    pairs(&mut matching, 0, 2000, 0);"),
    ("    let these = start.elapsed(&rt)?.as_micros();", "    let these = matching.looks() - before;"),
)
