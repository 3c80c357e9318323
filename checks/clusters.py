#!/usr/bin/env python3
"""Looks at the examples for dask where something goes wrong, on two local workers, and prints a line for each case.

    checks/clusters.py FOLDER    FOLDER is an empty one or one that goes afterwards; KHE and KHE_TALK are the programs

The status is 1 where a case failed. It is called by checks/clusters.sh.
"""

import os
import shutil
import signal
import subprocess
import sys

from distributed import Client, LocalCluster

TOP = os.path.dirname(os.path.dirname(os.path.abspath(__file__)))
WEEK = os.path.join(TOP, "examples/school_week.xml")
failed = 0


def case(what, holds, *told):
    """Prints a case, and what it was told where it failed."""
    global failed
    print(f"{'ok' if holds else 'FAILED'}: {what}")
    if not holds:
        failed = 1
        for thing in told:
            print(f"  {thing!r:.600}")
    sys.stdout.flush()


def run(program, *words):
    """An example with these words: its status, and what it wrote."""
    ended = subprocess.run([sys.executable, os.path.join(TOP, "examples/cluster", program), *words], text=True,
                           stdout=subprocess.PIPE, stderr=subprocess.PIPE)
    return ended.returncode, ended.stdout, ended.stderr


def slow(program, folder, name):
    """A program that does the same half a second later."""
    path = os.path.join(folder, name)
    with open(path, "w") as file:
        file.write(f"#!/bin/sh\nsleep 0.5\nexec '{program}' \"$@\"\n")
    os.chmod(path, 0o755)
    return path


def is_said(said, *parts):
    """Whether a line on standard error says these, and no traceback does."""
    return all(part in said for part in parts) and "Traceback" not in said


def look_at_faults(at, folder):
    """What is missing or refused."""
    words = ("0", "--depth", "1", "--budget", "200", "--jobs", "4", "--at", at)
    status, out, said = run("solve.py", "nothing.xml", *words)
    case("solve.py: an archive that is not there is status 4, and is named without a traceback",
         (status, out) == (4, "") and is_said(said, "nothing.xml: "), status, out, said)
    status, out, said = run("solve.py", WEEK, *words, "--program", "/nothing")
    case("solve.py: so is a program that the workers do not have", (status, out) == (1, "") and is_said(said, WEEK, "/nothing"), said)
    status, out, said = run("solve.py", WEEK, *words, "--program", os.environ["KHE_TALK"], "--out", "/nothing/out.xml")
    case("solve.py: and a file that can't be written", status == 5 and is_said(said, "/nothing/out.xml"), status, said)
    status, out, said = run("evaluate.py", os.path.join(folder, "none"), "--at", at)
    case("evaluate.py: a folder that is not there is status 4, and is named", status == 4 and is_said(said, "none: "), status, said)
    status, out, said = run("evaluate.py", folder + "/empty", "--at", at)
    case("evaluate.py: so is one without an archive", status == 4 and is_said(said, "no archive"), status, said)


def look_at_tables(client, at, folder):
    """A table of many archives, and the same while a worker is ended."""
    many = os.path.join(folder, "many")
    os.makedirs(os.path.join(many, "below"))
    for number in range(12):
        shutil.copy(WEEK, os.path.join(many, f"{number:02}.xml"))
    shutil.copy(os.path.join(TOP, "examples/faults/01_not_utf8.xml"), os.path.join(many, "below/bad.xml"))
    os.symlink("nothing", os.path.join(many, "gone.xml"))
    wanted = ["archive,solution,hard,soft,status,told"]
    for number in range(12):
        wanted += [f"{number:02}.xml,0,25,13,0,", f"{number:02}.xml,1,,,0,invalid 3 FixedTime entry 1"]
    wanted += ["below/bad.xml,,,,3,khe: archive refused: 1 NotUtf8 at 35", "gone.xml,,,,4,No such file or directory"]
    status, out, said = run("evaluate.py", many, "--at", at, "--program", os.environ["KHE"])
    case("evaluate.py: a table has a row for each solution, and one for each archive that is bad",
         (status, out.splitlines()) == (3, wanted) and is_said(said, "13 of 14", "14 of 14"), status, out, said)
    program = slow(os.environ["KHE"], folder, "slow_khe")
    words = [sys.executable, os.path.join(TOP, "examples/cluster/evaluate.py"), many, "--at", at, "--program", program]
    with subprocess.Popen(words, text=True, stdout=subprocess.PIPE, stderr=subprocess.PIPE) as process:
        said = process.stderr.readline() + process.stderr.readline()
        ended = end_one(client)
        out, rest = process.communicate(timeout=300)
    case(f"evaluate.py: a worker of two that is ended on the way changes no row",
         ended and (process.returncode, out.splitlines()) == (3, wanted) and "14 of 14" not in said, process.returncode, out, said + rest)


def end_one(client):
    """Ends one worker at once, and answers whether there were two."""
    workers = client.run(os.getpid)
    os.kill(list(workers.values())[0], signal.SIGKILL)
    return len(workers) == 2


def look_at_solve(client, at, folder):
    """A solve while a worker is ended."""
    words = [WEEK, "0", "--depth", "1", "--budget", "200", "--jobs", "12"]
    wanted = subprocess.run([os.environ["KHE"], "solve", *words, "--workers", "1"], stdout=subprocess.PIPE,
                            stderr=subprocess.DEVNULL, text=True).stdout
    program = slow(os.environ["KHE_TALK"], folder, "slow_talk")
    command = [sys.executable, os.path.join(TOP, "examples/cluster/solve.py"), *words, "--at", at, "--program", program]
    client.wait_for_workers(2)
    with subprocess.Popen(command, text=True, stdout=subprocess.PIPE, stderr=subprocess.PIPE) as process:
        while not any(client.processing().values()):
            if process.poll() is not None:
                break
        ended = end_one(client)
        out, said = process.communicate(timeout=300)
    case("solve.py: a worker of two that is ended on the way changes no byte", ended and out == wanted, out[-80:], said)


def main():
    folder = sys.argv[1]
    os.mkdir(os.path.join(folder, "empty"))
    with LocalCluster(n_workers=2, threads_per_worker=1, dashboard_address=None, silence_logs=50) as cluster:
        with Client(cluster) as client:
            look_at_faults(cluster.scheduler_address, folder)
            look_at_tables(client, cluster.scheduler_address, folder)
            look_at_solve(client, cluster.scheduler_address, folder)
    return failed


if __name__ == "__main__":
    sys.exit(main())
