#!/usr/bin/env python3
"""Draws lines of scripts from a seed, for checks that give the same lines to several doors.

    checks/random_lines.py SEED COUNT MEETS TIMES RESOURCES MONITORS [--short]

It writes COUNT lines. Most have a reading: edits, marks and questions with numbers below the four that are given,
so that edits are made and refused, blank lines and comments, with spaces, tabs and zeros where lines may have them.
One in fifty has none: another name, a word too many or too few, or a word that is no number. The lines `repair` and
`archive`, which khe-talk alone understands, are not among them. With --short all lines have a reading, and a short
answer.
"""

import random
import sys

# How often a command comes, its name, and what its words are: a meet, time, place, resource, monitor, group, mark,
# or a cut of a meet.
COMMANDS = [
    (30, "move", "mt"), (8, "assign", "mt"), (5, "unassign", "m"), (8, "swap", "mm"), (12, "regive", "mpr"),
    (6, "give", "mpr"), (4, "take", "mp"), (5, "trade", "mpmp"), (3, "split", "mc"), (3, "merge", "mm"),
    (2, "detach", "v"), (3, "attach", "v"), (1, "group", ""), (2, "add", "gv"), (1, "remove", "gv"), (1, "drop", "g"),
    (5, "begin", ""), (5, "undo", ""), (4, "end", ""), (1, "undoto", "k"), (8, "total", ""), (4, "monitor", "v"),
    (1, "groupcost", "g"),
]
LONG = [(0.4, "monitors", ""), (0.4, "deficit", ""), (0.4, "show", "")]
SILENT = [b"", b" \t", b"# a comment", b"#move 1 2", b"\r", b"# \xff\x00 no text"]
NO_NUMBERS = [b"x", b"-1", b"4294967296", b"1.5", b"12345678901", b"+3", b"1\x002", b"\xff", b"0x1"]
OTHER_NAMES = [b"fly", b"Move", b"totals", b"mov", b"ties", b"tie", b".", b"ok", b"total\x00", b"\xc3\xa9"]


class Lines:
    """Lines by a seed. `sizes` are the numbers below which meets, times, resources and monitors are drawn."""

    def __init__(self, seed, sizes):
        self.rng = random.Random(seed)
        meets, times, resources, monitors = sizes
        self.below = {"m": meets, "t": times, "r": resources, "v": monitors, "p": 4, "g": 4, "k": 4, "c": 3}

    def words(self, commands):
        """A command with its words."""
        _, name, kinds = self.rng.choices(commands, [weight for weight, _, _ in commands])[0]
        return [name.encode()] + [b"%d" % self.rng.randrange(self.below[kind]) for kind in kinds]

    def short(self):
        """A line with a reading and a short answer."""
        return b" ".join(self.words(COMMANDS))

    def read(self):
        """A line with a reading."""
        if self.rng.random() < 0.03:
            return self.rng.choice(SILENT)
        words = self.words(COMMANDS + LONG)
        if self.rng.random() < 0.9:
            return b" ".join(words)
        words = words[:1] + [b"0" * self.rng.randrange(3) + word for word in words[1:]]
        gap = self.rng.choice([b" ", b"  ", b"\t", b" \r "])
        return self.rng.choice([b"", b" ", b"\t"]) + gap.join(words) + self.rng.choice([b"", b" ", b"\r"])

    def faulty(self):
        """A line without a reading."""
        words = self.words(COMMANDS)
        kind = self.rng.randrange(3)
        if kind == 0 or len(words) == 1:
            if kind == 1:
                return b" ".join(words + [b"1"])
            return b" ".join([self.rng.choice(OTHER_NAMES)] + words[1:])
        if kind == 1:
            return b" ".join(words[:-1] if self.rng.random() < 0.5 else words + [b"7"])
        words[self.rng.randrange(1, len(words))] = self.rng.choice(NO_NUMBERS)
        return b" ".join(words)


def drawn(seed, count, sizes):
    """So many lines, each with whether it has a reading."""
    lines = Lines(seed, sizes)
    return [(lines.faulty(), False) if lines.rng.random() < 0.02 else (lines.read(), True) for _ in range(count)]


def short(seed, count, sizes):
    """So many lines with a reading and a short answer."""
    lines = Lines(seed, sizes)
    return [lines.short() for _ in range(count)]


def main():
    words = [word for word in sys.argv[1:] if word != "--short"]
    seed, count, *sizes = map(int, words)
    lines = short(seed, count, sizes) if "--short" in sys.argv else [line for line, _ in drawn(seed, count, sizes)]
    sys.stdout.buffer.writelines(line + b"\n" for line in lines)


if __name__ == "__main__":
    main()
