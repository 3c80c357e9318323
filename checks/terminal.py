#!/usr/bin/env python3
"""Looks at what the program shows on a terminal while it works.

    checks/terminal.py KHE

KHE is the program, say ./khe or a proved build. Commands are run with standard error, or both outputs, on a terminal
of this check's own, and with pipes. On a terminal there must be lines of the right form with the right numbers, at
most five a second, and in the end nothing of them may be left; through pipes nothing is written to standard error.
What comes on standard output is the same each time. It prints a line for each case, and ends with status 1 where one
failed.
"""

import os
import pty
import re
import subprocess
import sys
import tempfile
import threading
import time

TOP = os.path.dirname(os.path.dirname(os.path.abspath(__file__)))
WEEK = os.path.join(TOP, "examples/school_week.xml")
FIRST = os.path.join(TOP, "examples/first.xml")
SOLVE = ["solve", WEEK, "0", "--depth", "2", "--budget", "400", "--jobs", "24", "--workers", "2"]
JOB = re.compile(r"job (\d+) of 24, (\d+) s")
SOLUTION = re.compile(r"solution (\d+), (\d+) s")
SOLUTIONS = 4000


def read_all(descriptor, into):
    """Reads a terminal until nobody holds its other end."""
    while True:
        try:
            piece = os.read(descriptor, 65536)
        except OSError:
            return
        if not piece:
            return
        into.append(piece)


def run(khe, words, both):
    """What a run writes to standard output and to a terminal, how long it takes, and its status. With `both` standard
    output is on the terminal too."""
    ours, theirs = pty.openpty()
    shown = []
    began = time.monotonic()
    child = subprocess.Popen([khe] + words, stdin=subprocess.DEVNULL, stderr=theirs,
                             stdout=theirs if both else subprocess.PIPE)
    os.close(theirs)
    reader = threading.Thread(target=read_all, args=(ours, shown))
    reader.start()
    written = b"" if both else child.stdout.read()
    status = child.wait()
    taken = time.monotonic() - began
    reader.join()
    os.close(ours)
    return written, b"".join(shown), taken, status


def rows_of(shown):
    """The rows that a terminal has in the end, and each text that was cleared."""
    rows, cleared, column = [""], [], 0
    for part in re.findall(r"\r\n|\r|\n|\x1b\[K|[^\r\n\x1b]+|\x1b", shown.decode("utf-8")):
        if part in ("\r\n", "\n"):
            rows.append("")
            column = 0
        elif part == "\r":
            column = 0
        elif part == "\x1b[K":
            if rows[-1][column:]:
                cleared.append(rows[-1])
            rows[-1] = rows[-1][:column]
        else:
            rows[-1] = rows[-1][:column] + part + rows[-1][column + len(part):]
            column += len(part)
    return rows, cleared


def faults_of_lines(cleared, form, most, taken):
    """What is wrong with the lines that were shown."""
    if not cleared:
        yield "no line was shown"
    if len(cleared) > 5 * taken + 1:
        yield "%d lines in %.1f s" % (len(cleared), taken)
    before = 0
    for line in cleared:
        match = form.fullmatch(line)
        if not match:
            yield "a line %r" % line
            continue
        number, seconds = int(match.group(1)), int(match.group(2))
        if number >= most or seconds < before or seconds > taken:
            yield "wrong numbers in %r" % line
        before = seconds


def many_solutions(folder):
    """An archive with so many solutions that evaluating them takes a while."""
    with open(FIRST, encoding="utf-8") as file:
        text = file.read()
    name = os.path.join(folder, "many.xml")
    with open(name, "w", encoding="utf-8") as file:
        file.write(text.replace('<Solution Reference="I"/>', '<Solution Reference="I"/>' * SOLUTIONS))
    return name


def faults_of_case(khe, words, form, most, both):
    """What is wrong with a run, whose lines have this form and numbers below a greatest one, or none at all."""
    piped = subprocess.run([khe] + words, stdin=subprocess.DEVNULL, capture_output=True)
    if piped.stderr:
        yield "through a pipe %r" % piped.stderr[:80]
    written, shown, taken, status = run(khe, words, both)
    if status != piped.returncode:
        yield "status %d, and %d through a pipe" % (status, piped.returncode)
    rows, cleared = rows_of(shown)
    left = piped.stdout.decode("utf-8").split("\n") if both else [""]
    if rows != left:
        yield "what is left on the terminal is not the text"
    if not both and written != piped.stdout:
        yield "another text"
    if form is None:
        if cleared or b"\x1b" in shown:
            yield "lines were shown"
    else:
        yield from faults_of_lines(cleared, form, most, taken)


def main():
    khe = os.path.abspath(sys.argv[1])
    failed = 0
    with tempfile.TemporaryDirectory() as folder:
        many = many_solutions(folder)
        cases = [
            ("solve, the text to a file", SOLVE, JOB, 24, False),
            ("solve, the text to the terminal", SOLVE, JOB, 24, True),
            ("evaluate, the report to a file", ["evaluate", many, "--workers", "2"], SOLUTION, SOLUTIONS, False),
            ("evaluate, the report to the terminal", ["evaluate", many], None, 0, True),
            ("check", ["check", WEEK], None, 0, False),
            ("words that are not understood", ["solve", WEEK, "0", "--jobs", "24"], None, 0, False),
        ]
        for name, words, form, most, both in cases:
            faults = list(faults_of_case(khe, words, form, most, both))
            print("%s: %s" % (name, "; ".join(faults[:5]) or "as it should be"))
            failed += bool(faults)
    sys.exit(1 if failed else 0)


if __name__ == "__main__":
    main()
