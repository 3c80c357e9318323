#!/usr/bin/env python3
"""A hill climber on the engine, which draws how the totals fall.

    python3 climb.py ARCHIVE SOLUTION [--tries N] [--seed S] [--plot FILE] [--out FILE] [--library LIBRARY]

Each try is one random edit inside a mark: a meet goes to another time, or a task to another resource. It stays
where the totals are no higher than before, and is taken back where they are. A repair by chains of one move at the
end finds what is left within one step. The engine says what each edit costs; this file knows nothing of the
constraints.

The engine is the program khe-talk, or the shared library that is named. The picture takes matplotlib
(python3-matplotlib), all else the standard library alone.
"""

from __future__ import annotations

import argparse
import os
import random
import sys
from typing import Callable, Optional

sys.path.insert(0, os.path.join(os.path.dirname(os.path.abspath(__file__)), "..", "..", "python"))
import khe

#: The totals after a try, with the try's number.
Step = tuple[int, khe.Totals]


def tried(session: khe.Session, rng: random.Random, meet: khe.Meet, times: int, resources: int) -> Optional[khe.Meet]:
    """Makes a random edit of a meet, and answers the meet as it then is, or None where the edit is refused."""
    try:
        if rng.random() < 0.5:
            time = rng.randrange(times)
            (session.assign if meet.time is None else session.move)(meet.number, time)
            return meet._replace(time=time)
        place = rng.randrange(len(meet.tasks))
        resource = rng.randrange(resources)
        (session.give if meet.tasks[place] is None else session.regive)(meet.number, place, resource)
        return meet._replace(tasks=meet.tasks[:place] + (resource,) + meet.tasks[place + 1:])
    except khe.Refused:
        return None


def least(is_there: Callable[[int], bool]) -> int:
    """The least number that is not there, where 0 is and all below it are: by doubling, then by halving."""
    low, high = 0, 1
    while is_there(high):
        low, high = high, 2 * high
    while high - low > 1:
        middle = (low + high) // 2
        low, high = (middle, high) if is_there(middle) else (low, middle)
    return high


def sizes(session: khe.Session, meet: int) -> tuple[int, int]:
    """How many times and how many resources the instance has. An edit is refused for a time or a resource that is
    not there before anything else about it is looked at."""
    def is_known(edit: Callable[..., None], *words: int) -> bool:
        with session.mark():
            try:
                edit(*words)
            except khe.Refused as refused:
                return refused.name not in ("NoSuchTime", "NoSuchResource")
            return True

    return (least(lambda time: is_known(session.assign, meet, time)),
            least(lambda resource: is_known(session.give, meet, 0, resource)))


def climbed(session: khe.Session, tries: int, rng: random.Random) -> list[Step]:
    """The totals at the begin, after each try that lowered them, and in the end."""
    now = session.totals()
    course = [(0, now)]
    meets = [meet for meet in session.meets() if meet.tasks]
    times, resources = sizes(session, meets[0].number) if meets else (0, 0)
    for number in range(1, tries + 1 if meets else 1):
        at = rng.randrange(len(meets))
        with session.mark() as mark:
            made = tried(session, rng, meets[at], times, resources)
            after = session.totals() if made else now
            if made and after <= now:
                mark.keep()
                meets[at] = made
                if after < now:
                    course.append((number, after))
                now = after
    course.append((tries, now))
    return course


def drawn(course: list[Step], repaired: khe.Totals, title: str, file: str) -> None:
    """Draws both totals by the number of tries, and where a repair brought them."""
    import matplotlib
    matplotlib.use("Agg")
    from matplotlib import pyplot
    figure, panels = pyplot.subplots(2, 1, sharex=True, figsize=(8, 6), constrained_layout=True)
    figure.suptitle(title)
    for axes, part, colour in zip(panels, ("hard", "soft"), ("tab:red", "tab:blue")):
        values = [getattr(totals, part) for _, totals in course]
        axes.step([number for number, _ in course], values, where="post", color=colour, label="climbed")
        axes.plot([course[-1][0]], [getattr(repaired, part)], "o", color=colour, clip_on=False, label="repaired")
        axes.set_ylabel(f"{part} total")
        axes.set_ylim(bottom=0)
        axes.grid(alpha=0.3)
        axes.legend(loc="upper right")
    panels[-1].set_xlabel("tries")
    figure.savefig(file)


def main() -> None:
    """Climbs by the words of the command line."""
    parser = argparse.ArgumentParser(description="a hill climber on one solution of an archive")
    parser.add_argument("archive")
    parser.add_argument("solution", type=int)
    parser.add_argument("--tries", type=int, default=10000)
    parser.add_argument("--seed", type=int, default=0)
    parser.add_argument("--plot", help="a picture of the totals, as a PNG or SVG file")
    parser.add_argument("--out", help="the archive with the timetable that was found")
    parser.add_argument("--library", help="the shared library of the engine, in place of khe-talk")
    words = parser.parse_args()
    try:
        with khe.Session(words.archive, words.solution, library=words.library) as session:
            course = climbed(session, words.tries, random.Random(words.seed))
            repaired = session.repair(1, 100000).totals
            if words.out:
                with open(words.out, "wb") as file:
                    file.write(session.archive())
    except (khe.KheError, OSError) as error:
        raise SystemExit(f"climb.py: {error}") from None
    print("before hard %d soft %d" % course[0][1])
    print("climbed hard %d soft %d" % course[-1][1])
    print("repaired hard %d soft %d" % repaired)
    if words.plot:
        drawn(course, repaired, f"{os.path.basename(words.archive)}, solution {words.solution}", words.plot)


if __name__ == "__main__":
    main()
