"""Writes a valid XHSTT archive of a chosen size to standard output, for the benches.

    python3 bench/archives.py EVENTS SOLUTIONS [--rounds N] [--bytes N] [--wild N] [--seed N] > archive.xml

EVENTS (4 to 10,000) and the most SOLUTIONS (0 to 10,000) are numbers. The options are these.

    --rounds N   each of the sixteen kinds of constraints stands N times (1 if missing, at most 12). A round
                 has about 8.1 monitors an event, so 12 of them are 972,000 monitors at 10,000 events.
    --bytes N    no solution is written that would make the archive longer than N bytes (67,108,864 if
                 missing, which is also the greatest N).
    --wild N     N of 100 entries take their time, teacher and room at random (5 if missing); all others
                 follow a plan that meets most monitors. More wild entries make a longer report.
    --seed N     the seed of all draws (1 if missing). Equal words give equal bytes.

The instance has 40 times in 5 days, EVENTS / 10 resources (teachers, classes, rooms), groups of the times,
groups of all events, of 4 neighbours and of 2 events half the archive apart, and events of durations 1 to 3
with a class that is given and the roles T and R. One event in 20 has a given time. The points of the
constraints are all events, groups, pairs or resources, so monitors grow in proportion with the events.

Each solution has entries for all events. They have a duration, a time where the event has none, a teacher
and a room; some events of durations 2 and 3 are split into two entries. The archive is written as it is
made, so memory does not grow with its length. It keeps all limits of the engine.
"""

import argparse
import random
import sys

DAYS = 5
HOURS = 8
ARCHIVE_BYTES = 67_108_864
LAST = "</SolutionGroup>\n</SolutionGroups>\n</HighSchoolTimetableArchive>\n"


class Draws:
    """Numbers that depend on the seed alone, in every release of Python."""

    def __init__(self, seed):
        self.random = random.Random(seed).random

    def draw(self, n):
        return int(self.random() * n)

    def wild(self, percent):
        return self.random() * 100 < percent


class School:
    """The sizes of an instance and its plan: on which day, and with whom, an event is meant to be."""

    def __init__(self, events, draws):
        self.events = events
        self.half = (events + 7) // 8 * 4
        self.fours = (events + 3) // 4
        self.teachers = max(1, events // 20)
        self.classes = max(1, events // 40)
        self.rooms = max(1, events // 40)
        durations = [1 + draws.draw(3) for _ in range(self.half)]
        fixed = [self.start(draws, e, durations[e]) if e % 20 == 19 else None for e in range(self.half)]
        # Two linked events have the same duration and the same given time.
        self.durations = [durations[e % self.half] for e in range(events)]
        self.fixed = [fixed[e % self.half] for e in range(events)]

    def day(self, event):
        """The days of four neighbours ascend, and those of two linked events are equal."""
        return event % self.half % 4 + event % self.half // 4 % 2

    def start(self, draws, event, duration):
        return self.day(event) * HOURS + draws.draw(HOURS + 1 - duration)

    def teacher(self, event):
        return event // 4 % self.teachers

    def room(self, event):
        return event % self.rooms


def names(letter, count):
    return ["%s%d" % (letter, n) for n in range(count)]


def refs(sort, ids):
    return "".join('<%s Reference="%s"/>\n' % (sort, one) for one in ids)


def listed(sort, ids):
    return "<%ss>\n%s</%ss>\n" % (sort, refs(sort, ids), sort)


def times_of():
    yield "<Times>\n<TimeGroups>\n"
    for day in names("d", DAYS):
        yield '<Day Id="%s"/>\n' % day
    yield '<TimeGroup Id="early"/>\n<TimeGroup Id="late"/>\n</TimeGroups>\n'
    for t in range(DAYS * HOURS):
        group = "early" if t % HOURS < HOURS - 1 else "late"
        yield '<Time Id="t%d">\n<Day Reference="d%d"/>\n%s</Time>\n' % (
            t, t // HOURS, listed("TimeGroup", [group]))
    yield "</Times>\n"


def resources_of(school):
    sorts = [("Teacher", "p", school.teachers), ("Class", "c", school.classes), ("Room", "q", school.rooms)]
    yield "<Resources>\n<ResourceTypes>\n"
    for sort, _, _ in sorts:
        yield '<ResourceType Id="%s"/>\n' % sort
    yield "</ResourceTypes>\n<ResourceGroups>\n"
    for sort, letter, _ in sorts:
        yield '<ResourceGroup Id="g%s">\n<ResourceType Reference="%s"/>\n</ResourceGroup>\n' % (letter, sort)
    yield "</ResourceGroups>\n"
    for sort, letter, count in sorts:
        for one in names(letter, count):
            yield '<Resource Id="%s">\n<ResourceType Reference="%s"/>\n%s</Resource>\n' % (
                one, sort, listed("ResourceGroup", ["g" + letter]))
    yield "</Resources>\n"


def events_of(school):
    yield "<Events>\n<EventGroups>\n"
    for group in ["all"] + names("h", school.fours) + names("l", school.half):
        yield '<EventGroup Id="%s"/>\n' % group
    yield "</EventGroups>\n"
    for e in range(school.events):
        yield '<Event Id="e%d">\n<Duration>%d</Duration>\n' % (e, school.durations[e])
        if school.fixed[e] is not None:
            yield '<Time Reference="t%d"/>\n' % school.fixed[e]
        yield '<Resources>\n<Resource Reference="c%d"/>\n' % (e % school.classes)
        for role, sort in ("T", "Teacher"), ("R", "Room"):
            yield '<Resource>\n<Role>%s</Role>\n<ResourceType Reference="%s"/>\n</Resource>\n' % (role, sort)
        yield "</Resources>\n%s</Event>\n" % listed(
            "EventGroup", ["all", "h%d" % (e // 4), "l%d" % (e % school.half)])
    yield "</Events>\n"


def constraints_of(school, rounds):
    everything = listed("EventGroup", ["all"])
    fours = listed("EventGroup", names("h", school.fours))
    pairs = listed("EventGroup", names("l", school.half))
    order = "<EventPairs>\n%s</EventPairs>\n" % "".join(
        '<EventPair>\n<FirstEvent Reference="e%d"/>\n<SecondEvent Reference="e%d"/>\n'
        "<MinSeparation>0</MinSeparation>\n</EventPair>\n" % (e, e + 1)
        for e in range(0, school.events - 1, 2))
    resources = listed("ResourceGroup", ["gp", "gc", "gq"])
    days = names("d", DAYS)
    all_days = listed("TimeGroup", days)
    one_a_day = "<TimeGroups>\n%s</TimeGroups>\n" % "".join(
        '<TimeGroup Reference="%s">\n<Maximum>2</Maximum>\n</TimeGroup>\n' % day for day in days)
    teacher = "<Role>T</Role>\n"
    room = "<Role>R</Role>\n"
    split = ("<MinimumDuration>1</MinimumDuration>\n<MaximumDuration>3</MaximumDuration>\n"
             "<MinimumAmount>1</MinimumAmount>\n<MaximumAmount>2</MaximumAmount>\n")
    table = [
        ("AssignTime", "true", 1, "Linear", everything, ""),
        ("AssignResource", "true", 1, "Linear", everything, teacher),
        ("SplitEvents", "false", 1, "Linear", everything, split),
        ("DistributeSplitEvents", "false", 1, "Step", everything,
         "<Duration>2</Duration>\n<Maximum>1</Maximum>\n"),
        ("PreferTimes", "false", 1, "Linear", everything, listed("TimeGroup", ["early"])),
        ("PreferResources", "false", 1, "Linear", everything,
         listed("Resource", names("q", max(1, school.rooms * 19 // 20))) + room),
        ("AvoidSplitAssignments", "false", 3, "Linear", fours, teacher),
        ("SpreadEvents", "false", 2, "Linear", fours, one_a_day),
        ("LinkEvents", "false", 1, "Linear", pairs, ""),
        ("OrderEvents", "false", 1, "Linear", order, ""),
        ("AvoidClashes", "true", 1, "Linear", resources, ""),
        ("AvoidUnavailableTimes", "true", 1, "Linear", resources,
         listed("Time", ["t0", "t%d" % (DAYS * HOURS - 1)])),
        ("LimitIdleTimes", "false", 1, "Quadratic", resources, all_days + "<Maximum>9</Maximum>\n"),
        ("ClusterBusyTimes", "false", 1, "Linear", resources, all_days + "<Maximum>5</Maximum>\n"),
        ("LimitBusyTimes", "false", 1, "Linear", resources,
         all_days + "<Minimum>2</Minimum>\n<Maximum>7</Maximum>\n"),
        ("LimitWorkload", "false", 1, "Linear", resources, "<Maximum>48</Maximum>\n")]
    yield "<Constraints>\n"
    for number in range(rounds * len(table)):
        kind, required, weight, cost, points, fields = table[number % len(table)]
        yield ('<%sConstraint Id="x%d">\n<Required>%s</Required>\n<Weight>%d</Weight>\n'
               "<CostFunction>%s</CostFunction>\n<AppliesTo>\n%s</AppliesTo>\n%s</%sConstraint>\n" % (
                   kind, number, required, weight, cost, points, fields, kind))
    yield "</Constraints>\n"


def given(reference, role):
    return '<Resource Reference="%s">\n<Role>%s</Role>\n</Resource>\n' % (reference, role)


def solution_of(school, draws, wild):
    out = ['<Solution Reference="made">\n<Events>\n']
    # The hour at which the first event of two linked ones stands.
    hours = {}
    for e in range(school.events):
        whole = school.durations[e]
        fixed = school.fixed[e] is not None
        split = whole > 1 and not fixed and draws.wild(wild)
        for part in ([1, whole - 1] if split else [whole]):
            scatter = draws.wild(wild)
            out.append('<Event Reference="e%d">\n<Duration>%d</Duration>\n' % (e, part))
            if not fixed:
                if scatter or split:
                    start = draws.draw(DAYS * HOURS + 1 - part)
                elif e % school.half in hours:
                    start = hours[e % school.half]
                else:
                    start = school.start(draws, e, part)
                    hours[e] = start
                out.append('<Time Reference="t%d"/>\n' % start)
            teacher = draws.draw(school.teachers) if scatter else school.teacher(e)
            room = draws.draw(school.rooms) if scatter else school.room(e)
            out.append("<Resources>\n%s%s</Resources>\n</Event>\n" % (
                given("p%d" % teacher, "T"), given("q%d" % room, "R")))
    out.append("</Events>\n</Solution>\n")
    return "".join(out)


def archive(words, write):
    """Writes the archive piece by piece. All of it is ASCII, so characters are bytes."""
    draws = Draws(words.seed)
    school = School(words.events, draws)
    length = len(LAST)

    def put(piece):
        nonlocal length
        length += len(piece)
        write(piece)

    put('<?xml version="1.0" encoding="UTF-8"?>\n<HighSchoolTimetableArchive>\n'
        '<Instances>\n<Instance Id="made">\n')
    for part in (times_of(), resources_of(school), events_of(school), constraints_of(school, words.rounds)):
        for piece in part:
            put(piece)
    put('</Instance>\n</Instances>\n<SolutionGroups>\n<SolutionGroup Id="g">\n')
    if length > words.bytes:
        sys.exit("archives.py: an archive without a solution is longer than %d bytes" % words.bytes)
    for _ in range(words.solutions):
        solution = solution_of(school, draws, words.wild)
        if length + len(solution) > words.bytes:
            break
        put(solution)
    write(LAST)


def within(least, greatest):
    def number(word):
        value = int(word)
        if not least <= value <= greatest:
            raise argparse.ArgumentTypeError("%d to %d" % (least, greatest))
        return value
    return number


def main():
    parser = argparse.ArgumentParser(
        description=__doc__, formatter_class=argparse.RawDescriptionHelpFormatter)
    parser.add_argument("events", type=within(4, 10_000))
    parser.add_argument("solutions", type=within(0, 10_000))
    parser.add_argument("--rounds", type=within(1, 12), default=1)
    parser.add_argument("--bytes", type=within(1, ARCHIVE_BYTES), default=ARCHIVE_BYTES)
    parser.add_argument("--wild", type=within(0, 100), default=5)
    parser.add_argument("--seed", type=int, default=1)
    archive(parser.parse_args(), sys.stdout.write)


main()
