"""Runs commands in turns, and prints for each the least wall time, the greatest memory and the median time that it took.

    python3 bench/measure.py RUNS COMMAND WORD.. [-- COMMAND WORD..]..

Each command is run RUNS times, its standard output going to a file in the temporary folder. A line for each
command has the seconds of its fastest run, the peak of its resident memory in bytes over all runs, the
bytes that it wrote, and the seconds of its median run. A command that ends with another status than 0 ends this one with status 1.
"""

import os
import statistics
import sys
import tempfile
import time


def run(words, out):
    """The seconds, the peak of the memory in bytes, and the length of the output of one run."""
    os.lseek(out, 0, os.SEEK_SET)
    os.truncate(out, 0)
    start = time.perf_counter()
    child = os.fork()
    if child == 0:
        os.dup2(out, 1)
        try:
            os.execvp(words[0], words)
        except OSError as error:
            print("%s: %s" % (words[0], error), file=sys.stderr)
            os._exit(127)
    _, status, usage = os.wait4(child, 0)
    seconds = time.perf_counter() - start
    if status != 0:
        sys.exit("measure.py: status %d of: %s" % (os.waitstatus_to_exitcode(status), " ".join(words)))
    return seconds, usage.ru_maxrss * 1024, os.fstat(out).st_size


def main():
    runs = int(sys.argv[1])
    commands = [[]]
    for word in sys.argv[2:]:
        if word == "--":
            commands.append([])
        else:
            commands[-1].append(word)
    took = [[] for _ in commands]
    with tempfile.TemporaryFile() as out:
        for _ in range(runs):
            for number, words in enumerate(commands):
                took[number].append(run(words, out.fileno()))
    for each in took:
        seconds = [t[0] for t in each]
        print("%.4f %d %d %.4f" % (min(seconds), max(t[1] for t in each), each[-1][2], statistics.median(seconds)))


main()
