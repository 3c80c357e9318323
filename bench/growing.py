"""Writes a valid XHSTT archive in which one thing is very long to standard output, for `bench/growing.sh`.

    python3 bench/growing.py SHAPE SIZE > archive.xml

SIZE is 250 to 200,000, and the length of an archive grows in proportion with it, but for the resources and the
times with which `silent` begins. Each archive keeps all limits of the engine. SHAPE is one of these.

    roles       an event of SIZE roles, and an entry that gives a resource for each, in reverse
    unnamed     an event of SIZE places without a role, and an entry that gives the resource of the last one
                SIZE times
    entries     an event of duration SIZE / 2, and as many entries of it
    points      an event of SIZE roles, and SIZE / 20 constraints, each on another one of them
    events      SIZE / 20 events in one group, and a constraint that names the group SIZE times
    resources   SIZE / 20 resources in one group, and a constraint that names the group SIZE times
    times       SIZE / 250 times in one group, and a constraint that lists the group SIZE / 20 times
    solutions   SIZE / 20 solutions of 100 events, each with entries of two of them
    silent      SIZE / 50 solutions without entries, of an instance with 10,000 resources and 400 times

The archive is written as it is made, so memory does not grow with its length.
"""

import argparse
import sys

ROLE = '<Resource>\n<Role>r%06d</Role>\n<ResourceType Reference="k"/>\n</Resource>\n'
GIVEN = '<Resource Reference="a">\n<Role>r%06d</Role>\n</Resource>\n'


def listed(sort, pieces):
    yield "<%ss>\n" % sort
    yield from pieces
    yield "</%ss>\n" % sort


def refs(sort, reference, count):
    for _ in range(count):
        yield '<%s Reference="%s"/>\n' % (sort, reference)


def constraint(kind, number, fields):
    yield ('<%sConstraint Id="c%d">\n<Required>false</Required>\n<Weight>1</Weight>\n'
           "<CostFunction>Linear</CostFunction>\n<AppliesTo>\n" % (kind, number))
    yield from fields
    yield "</%sConstraint>\n" % kind


def event(name, duration, places, fields=""):
    yield '<Event Id="%s">\n<Duration>%d</Duration>\n' % (name, duration)
    yield from listed("Resource", places)
    yield fields + "</Event>\n"


def times_of(count):
    yield '<Times>\n<TimeGroups>\n<TimeGroup Id="g"/>\n</TimeGroups>\n'
    for t in range(count):
        yield '<Time Id="t%d">\n<TimeGroups>\n<TimeGroup Reference="g"/>\n</TimeGroups>\n</Time>\n' % t
    yield "</Times>\n"


def resources_of(count):
    """The resources a and b, and so many more, of one type; all are in one group."""
    yield ('<Resources>\n<ResourceTypes>\n<ResourceType Id="k"/>\n</ResourceTypes>\n<ResourceGroups>\n'
           '<ResourceGroup Id="g">\n<ResourceType Reference="k"/>\n</ResourceGroup>\n</ResourceGroups>\n')
    for name in ["a", "b"] + ["s%d" % r for r in range(count)]:
        yield ('<Resource Id="%s">\n<ResourceType Reference="k"/>\n<ResourceGroups>\n'
               '<ResourceGroup Reference="g"/>\n</ResourceGroups>\n</Resource>\n' % name)
    yield "</Resources>\n"


def events_of(events):
    yield '<Events>\n<EventGroups>\n<EventGroup Id="g"/>\n</EventGroups>\n'
    for one in events:
        yield from one
    yield "</Events>\n"


def solution(entries):
    yield '<Solution Reference="made">\n'
    yield from listed("Event", entries)
    yield "</Solution>\n"


def entry(name, given):
    yield '<Event Reference="%s">\n' % name
    yield from given
    yield "</Event>\n"


class Shape:
    """An archive of one event without places and one empty solution; each shape has more of something."""

    def __init__(self, times=1, resources=0, events=None, constraints=(), solutions=None):
        self.times = times
        self.resources = resources
        self.events = [event("e", 1, [])] if events is None else events
        self.constraints = constraints
        self.solutions = [solution([])] if solutions is None else solutions

    def pieces(self):
        yield ('<?xml version="1.0" encoding="UTF-8"?>\n<HighSchoolTimetableArchive>\n'
               '<Instances>\n<Instance Id="made">\n')
        yield from times_of(self.times)
        yield from resources_of(self.resources)
        yield from events_of(self.events)
        yield "<Constraints>\n"
        for one in self.constraints:
            yield from one
        yield "</Constraints>\n</Instance>\n</Instances>\n<SolutionGroups>\n<SolutionGroup Id=\"g\">\n"
        for one in self.solutions:
            yield from one
        yield "</SolutionGroup>\n</SolutionGroups>\n</HighSchoolTimetableArchive>\n"


def roles(size):
    given = (GIVEN % k for k in reversed(range(size)))
    return Shape(events=[event("e", 1, (ROLE % k for k in range(size)))],
                 solutions=[solution(entry("e", listed("Resource", given)))])


def unnamed(size):
    places = (one for part in (refs("Resource", "a", size - 1), refs("Resource", "b", 1)) for one in part)
    return Shape(events=[event("e", 1, places)],
                 solutions=[solution(entry("e", listed("Resource", refs("Resource", "b", size))))])


def entries(size):
    made = ('<Event Reference="e">\n<Duration>1</Duration>\n</Event>\n' for _ in range(size // 2))
    return Shape(events=[event("e", size // 2, [])], solutions=[solution(made)])


def points(size):
    def on_role(number):
        yield from listed("Event", refs("Event", "e", 1))
        yield "</AppliesTo>\n"
        if number % 2 == 1:
            yield from listed("Resource", refs("Resource", "a", 1))
        yield "<Role>r%06d</Role>\n" % (size - 1 - 20 * number)

    kinds = ["AssignResource", "PreferResources"]
    return Shape(events=[event("e", 1, (ROLE % k for k in range(size)))],
                 constraints=(constraint(kinds[c % 2], c, on_role(c)) for c in range(size // 20)))


def events(size):
    group = '<EventGroups>\n<EventGroup Reference="g"/>\n</EventGroups>\n'
    fields = (one for part in (listed("EventGroup", refs("EventGroup", "g", size)), ["</AppliesTo>\n"]) for one in part)
    return Shape(events=(event("e%d" % e, 1, [], group) for e in range(size // 20)),
                 constraints=[constraint("AssignTime", 0, fields)])


def resources(size):
    fields = (one for part in (listed("ResourceGroup", refs("ResourceGroup", "g", size)), ["</AppliesTo>\n"])
              for one in part)
    return Shape(resources=size // 20 - 2, constraints=[constraint("AvoidClashes", 0, fields)])


def times(size):
    def fields():
        yield from listed("Resource", refs("Resource", "a", 1))
        yield "</AppliesTo>\n"
        yield from listed("TimeGroup", refs("TimeGroup", "g", size // 20))
        yield "<Maximum>9</Maximum>\n"

    return Shape(times=size // 250, constraints=[constraint("ClusterBusyTimes", 0, fields())])


def solutions(size):
    def made(number):
        for e in number % 100, (number + 50) % 100:
            yield from entry("e%d" % e, ['<Time Reference="t%d"/>\n' % (number % 40)])

    return Shape(times=40, events=(event("e%d" % e, 1, [ROLE % 0, ROLE % 1]) for e in range(100)),
                 solutions=(solution(made(number)) for number in range(size // 20)))


def silent(size):
    return Shape(times=400, resources=9_998, solutions=(solution([]) for _ in range(size // 50)))


SHAPES = [roles, unnamed, entries, points, events, resources, times, solutions, silent]


def main():
    table = {shape.__name__: shape for shape in SHAPES}
    parser = argparse.ArgumentParser(
        description=__doc__, formatter_class=argparse.RawDescriptionHelpFormatter)
    parser.add_argument("shape", choices=table)
    parser.add_argument("size", type=int)
    words = parser.parse_args()
    if not 250 <= words.size <= 200_000:
        parser.error("SIZE is 250 to 200,000")
    for piece in table[words.shape](words.size).pieces():
        sys.stdout.write(piece)


main()
