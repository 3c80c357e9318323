#!/usr/bin/env python3
"""What the solutions of many archives cost, evaluated by the machines of a cluster, as a table.

    python3 evaluate.py FOLDER [--workers N | --at ADDRESS] [--program KHE] [--out FILE]

FOLDER holds archives, each a file that ends in .xml; those in folders below it count too. The table is CSV with a row
for each solution: the archive, the number of the solution in it from 0, its hard and its soft total, its status, and
what is wrong. An archive that is refused or can't be read has one row, with the status of `khe evaluate` and what it
wrote; a solution that is invalid has no totals. Neither ends the work. Rows are in the order of names, whichever worker
evaluated what; a worker that is lost costs time alone, since its archives are evaluated anew by others. One with which
many workers are lost has a row with status 1.

Without --at a local cluster of N processes is started. With --at the archives go to the scheduler there, and travel to
its workers; the program khe has to be there already, at the same place as here, or where --program says. It takes
dask.distributed (python3-distributed). How far it is stands on standard error.

The status is 0 where each archive was evaluated, 3 where the table has a row with another status, 4 where the folder
can't be read or has no archive, 5 where the table can't be written, and 1 where the cluster failed.
"""

from __future__ import annotations

import argparse
import csv
import logging
import os
import re
import subprocess
import sys
import tempfile
from typing import Any, Optional, Union

TOP = os.path.dirname(os.path.dirname(os.path.dirname(os.path.abspath(__file__))))

#: The columns of the table.
COLUMNS = ("archive", "solution", "hard", "soft", "status", "told")

#: A row of the table without the archive's name.
Row = tuple[Union[int, str], ...]

SOLUTION = re.compile(r"^solution (\d+)\b.*$|^total hard (\d+) soft (\d+)$|^invalid\b.*$", re.MULTILINE)


def rows_of(report: str) -> list[Row]:
    """The rows for a report of `khe evaluate`: one for each solution."""
    rows: list[Row] = []
    for found in SOLUTION.finditer(report):
        line, number, hard, soft = found.group(0, 1, 2, 3)
        if number is not None:
            rows.append((int(number), "", "", 0, ""))
        elif hard is not None:
            rows[-1] = (rows[-1][0], int(hard), int(soft), 0, "")
        else:
            rows[-1] = (rows[-1][0], "", "", 0, line)
    return rows


def evaluated(archive: bytes, program: str) -> list[Row]:
    """The rows of an archive. This runs on a worker."""
    with tempfile.NamedTemporaryFile(suffix=".xml") as file:
        file.write(archive)
        file.flush()
        try:
            run = subprocess.run([program, "evaluate", file.name], stdout=subprocess.PIPE, stderr=subprocess.DEVNULL)
        except OSError as error:
            return [("", "", "", 127, f"{program}: {error.strerror}")]
    report = run.stdout.decode(errors="replace")
    if run.returncode != 0:
        return [("", "", "", run.returncode, report.rstrip("\n").rpartition("\n")[2])]
    return rows_of(report)


def archives_in(folder: str) -> list[str]:
    """The names of the archives in a folder, from that folder, in their order."""
    def fail(error: OSError) -> None:
        raise error
    names = [os.path.relpath(os.path.join(place, name), folder)
             for place, _, names in os.walk(folder, onerror=fail) for name in names if name.endswith(".xml")]
    return sorted(names)


def table_of(client: Any, folder: str, names: list[str], program: str) -> list[Row]:
    """The rows of all archives, evaluated by a cluster."""
    from distributed import as_completed
    rows: dict[str, list[Row]] = {}
    waiting = {}
    for name in names:
        try:
            with open(os.path.join(folder, name), "rb") as file:
                archive = file.read()
        except OSError as error:
            rows[name] = [("", "", "", 4, str(error.strerror))]
            continue
        waiting[client.submit(evaluated, archive, program, pure=False)] = name
    for future in as_completed(list(waiting)):
        name = waiting[future]
        error: Optional[BaseException] = future.exception()
        rows[name] = future.result() if error is None else [("", "", "", 1, f"{type(error).__name__}: {error}")]
        print(f"evaluate.py: {len(rows)} of {len(names)}: {name}", file=sys.stderr)
    return [(name, *row) for name in names for row in rows[name]]


def failed(status: int, why: str) -> int:
    """Says on standard error why the work failed, and answers its status."""
    print(f"evaluate.py: {why}", file=sys.stderr)
    return status


def main() -> int:
    """Evaluates by the words of the command line, and answers the status."""
    parser = argparse.ArgumentParser(description="what the solutions of many archives cost, by a cluster")
    parser.add_argument("folder")
    parser.add_argument("--workers", type=int, choices=range(1, 1025), metavar="N", default=2,
                        help="processes of a local cluster")
    parser.add_argument("--at", help="the address of a scheduler that runs")
    parser.add_argument("--program", help="the program khe on the workers",
                        default=os.environ.get("KHE", os.path.join(TOP, "khe")))
    parser.add_argument("--out", help="the file for the table, in place of standard output")
    words = parser.parse_args()
    from distributed import Client, LocalCluster
    try:
        names = archives_in(words.folder)
    except OSError as error:
        return failed(4, f"{words.folder}: {error.strerror}")
    if not names:
        return failed(4, f"{words.folder}: there is no archive")
    try:
        if words.at:
            with Client(words.at) as client:
                rows = table_of(client, words.folder, names, words.program)
        else:
            with LocalCluster(n_workers=words.workers, threads_per_worker=1, dashboard_address=None,
                              silence_logs=logging.CRITICAL) as cluster:
                with Client(cluster) as client:
                    rows = table_of(client, words.folder, names, words.program)
    except Exception as error:
        return failed(1, f"{words.folder}: {type(error).__name__}: {error}")
    try:
        with open(words.out, "w", newline="") if words.out else sys.stdout as out:
            csv.writer(out, lineterminator="\n").writerows([COLUMNS, *rows])
    except OSError as error:
        return failed(5, f"{words.out or 'standard output'}: {error.strerror}")
    return 0 if all(row[4] == 0 for row in rows) else 3


if __name__ == "__main__":
    sys.exit(main())
