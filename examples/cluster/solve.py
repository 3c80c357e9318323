#!/usr/bin/env python3
"""`khe solve`, its jobs shared by the machines of a cluster.

    python3 solve.py ARCHIVE SOLUTION --depth D --budget B --jobs J [--workers N | --at ADDRESS] [--out FILE]

Job j is the repair that begins its lists at their place j. Jobs know nothing of each other, so any machine may run
any of them. Of all results the one with the least totals is taken, and of equal ones that of the lowest job; the
archive is written as `khe solve` writes it: the same bytes, whoever ran which job.

Without --at a local cluster of N processes is started. With --at the jobs go to the scheduler there. The archive and
the package khe travel to its workers; the program khe-talk has to be there already, at the same place as here (a
shared folder will do), or at the place that --program names. It takes dask.distributed (python3-distributed).

The status is 2 where the words have no reading, 3 where the archive or the solution is refused, 4 where the archive
can't be read, 5 where the result can't be written, and 1 where the work failed on the cluster. A line on standard error
says why.
"""

from __future__ import annotations

import argparse
import logging
import os
import sys
import tempfile
import zipfile
from typing import Any, Callable, Optional, Sequence

TOP = os.path.dirname(os.path.dirname(os.path.dirname(os.path.abspath(__file__))))
sys.path.insert(0, os.path.join(TOP, "python"))
import khe

# How many pieces of work there are for each thread of the cluster, so that none waits long for the last one.
PIECES = 4


#: What all jobs have in common: the solution, the depth, the budget, and the program khe-talk on the workers.
Task = tuple[int, int, int, str]

#: The result of a job: its totals, its number, and the archive with it. Results compare by the first two.
Result = tuple[tuple[int, int], int, bytes]


def order(result: Result) -> tuple[tuple[int, int], int]:
    """What results are compared by: that of lower totals is less, of equal ones that of the lower job."""
    return result[:2]


def send_package(client: Any) -> None:
    """Gives the workers the package khe as it is here."""
    folder = os.path.dirname(os.path.abspath(khe.__file__))
    with tempfile.TemporaryDirectory() as place:
        name = os.path.join(place, "khe_of_this_run.zip")
        with zipfile.ZipFile(name, "w") as pack:
            for module in ("__init__.py", "__main__.py"):
                pack.write(os.path.join(folder, module), "khe/" + module)
        client.upload_file(name)


def run_jobs(archive: bytes, task: Task, jobs: Sequence[int]) -> Result:
    """The least result of these jobs. This runs on a worker."""
    solution, depth, budget, program = task
    least: Optional[Result] = None
    with tempfile.NamedTemporaryFile(suffix=".xml") as file:
        file.write(archive)
        file.flush()
        for job in jobs:
            with khe.Session(file.name, solution, program=program) as session:
                totals = session.repair(depth, budget, job).totals
                if least is None or (totals, job) < order(least):
                    least = (totals, job, session.archive())
    assert least is not None
    return least


def least_of(results: Sequence[Result]) -> Result:
    """The least of results. This runs on a worker too, so that one archive alone travels back."""
    return min(results, key=order)


def solved(client: Any, archive: bytes, task: Task, jobs: int) -> Result:
    """The least result of the given number of jobs, run by a cluster."""
    send_package(client)
    kept = client.scatter(archive, broadcast=True)
    pieces = min(jobs, PIECES * max(1, sum(client.nthreads().values())))
    results = [client.submit(run_jobs, kept, task, range(first, jobs, pieces), pure=False) for first in range(pieces)]
    result: Result = client.submit(least_of, results, pure=False).result()
    return result


def number(least: int, most: int) -> Callable[[str], int]:
    """Reads a number of the command line that is within bounds."""
    def read(word: str) -> int:
        value = int(word)
        if not least <= value <= most:
            raise argparse.ArgumentTypeError(f"{word} is not from {least} to {most}")
        return value
    return read


def main() -> int:
    """Solves by the words of the command line, and answers the status."""
    parser = argparse.ArgumentParser(description="khe solve, its jobs shared by the machines of a cluster")
    parser.add_argument("archive")
    parser.add_argument("solution", type=number(0, 2 ** 32 - 1))
    parser.add_argument("--depth", type=number(1, 4), required=True)
    parser.add_argument("--budget", type=number(1, 10 ** 9), required=True)
    parser.add_argument("--jobs", type=number(1, 10000), required=True)
    parser.add_argument("--workers", type=number(1, 1024), default=2, help="processes of a local cluster")
    parser.add_argument("--at", help="the address of a scheduler that runs")
    parser.add_argument("--program", help="the program khe-talk on the workers",
                        default=os.environ.get("KHE_TALK", os.path.join(TOP, "khe-talk")))
    parser.add_argument("--out", help="the file for the archive, in place of standard output")
    words = parser.parse_args()
    from distributed import Client, LocalCluster
    try:
        with open(words.archive, "rb") as file:
            archive = file.read()
    except OSError as error:
        return failed(4, f"{words.archive}: {error.strerror}")
    task = (words.solution, words.depth, words.budget, words.program)
    try:
        if words.at:
            with Client(words.at) as client:
                totals, job, text = solved(client, archive, task, words.jobs)
        else:
            # What goes wrong on a worker comes back as an error here, so its log needs not be shown.
            with LocalCluster(n_workers=words.workers, threads_per_worker=1, dashboard_address=None,
                              silence_logs=logging.CRITICAL) as cluster:
                with Client(cluster) as client:
                    totals, job, text = solved(client, archive, task, words.jobs)
    except khe.ArchiveRefused as refused:
        print(refused.text)
        return failed(3, f"{words.archive}: {refused.text}")
    except Exception as error:
        return failed(1, f"{words.archive}: {type(error).__name__}: {error}")
    try:
        with open(words.out, "wb") if words.out else sys.stdout.buffer as out:
            out.write(text + b"<!-- khe solve job %d hard %d soft %d -->\n" % (job, *totals))
    except OSError as error:
        return failed(5, f"{words.out or 'standard output'}: {error.strerror}")
    return 0


def failed(status: int, why: str) -> int:
    """Says on standard error why the work failed, and answers its status."""
    print(f"solve.py: {why}", file=sys.stderr)
    return status


if __name__ == "__main__":
    sys.exit(main())
