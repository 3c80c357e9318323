"""Writes a valid XHSTT archive with one solution to standard output, on which repairs look at many things that
they can't use, for `bench/growing_repairs.sh`.

    python3 bench/growing_repairs.py SHAPE SIZE > archive.xml

The length of an archive grows in proportion with SIZE, 100 to 8,000. SHAPE is one of these.

    swaps       SIZE constraints that want two meets at more times, and an event of duration 10 * SIZE beside them,
                whose meet slots are all free but one
    types       10 * SIZE tasks of a type without resources, and SIZE resources of another type
    gives       SIZE resources that are wanted at more times, and 2 * SIZE tasks of another type without a resource
    starts      SIZE / 10 events, each in a group of its own that is wanted at two times, where there is only one
"""

import argparse

ONE_TIME_GROUP = '<TimeGroups><TimeGroup Id="w"/></TimeGroups>'
IN_GROUP = '<TimeGroups><TimeGroup Reference="w"/></TimeGroups>'
ALL = '<EventGroups><EventGroup Reference="g"/></EventGroups>'
ONE_EVENT_GROUP = '<EventGroups><EventGroup Id="g"/></EventGroups>'


def listed(sort, pieces):
    return "<%ss>%s</%ss>" % (sort, "".join(pieces), sort)


def references(sort, names):
    return listed(sort, ('<%s Reference="%s"/>' % (sort, name) for name in names))


def constraint(kind, number, applies, fields):
    return ('<%sConstraint Id="c%d"><Required>true</Required><Weight>1</Weight><CostFunction>Linear</CostFunction>'
            "<AppliesTo>%s</AppliesTo>%s</%sConstraint>" % (kind, number, applies, fields, kind))


def event(number, duration=1, roles="", groups=""):
    places = ("<Resource><Role>%s</Role><ResourceType Reference=\"T\"/></Resource>" % role for role in roles)
    resources = listed("Resource", places) if roles else ""
    return '<Event Id="e%d"><Duration>%d</Duration>%s%s</Event>' % (number, duration, resources, groups)


def given(number, start=""):
    return '<Event Reference="e%d"><Duration>1</Duration>%s</Event>' % (number, start)


def at(time):
    return '<Time Reference="t%d"/>' % time


def spread(number, applies, least):
    bounds = "<Minimum>%d</Minimum><Maximum>9</Maximum>" % least
    group = '<TimeGroups><TimeGroup Reference="w">%s</TimeGroup></TimeGroups>' % bounds
    return constraint("SpreadEvents", number, applies, group)


def archive(times, resources, events, constraints, entries=""):
    return "".join([
        '<HighSchoolTimetableArchive><Instances><Instance Id="I"><Times>', ONE_TIME_GROUP,
        *('<Time Id="t%d">%s</Time>' % (time, IN_GROUP) for time in range(times)),
        '</Times><Resources><ResourceTypes><ResourceType Id="T"/><ResourceType Id="U"/></ResourceTypes>',
        *('<Resource Id="u%d"><ResourceType Reference="U"/></Resource>' % number for number in range(resources)),
        "</Resources><Events>", *events, "</Events><Constraints>", *constraints,
        '</Constraints></Instance></Instances><SolutionGroups><SolutionGroup Id="G"><Solution Reference="I"><Events>',
        entries, "</Events></Solution></SolutionGroup></SolutionGroups></HighSchoolTimetableArchive>\n"])


def swaps(size):
    events = [ONE_EVENT_GROUP, event(0, groups=ALL), event(1, groups=ALL), event(2, 10 * size)]
    constraints = (spread(number, ALL, 5) for number in range(size))
    return archive(4, 0, events, constraints, given(0, at(0)) + given(1, at(1)))


def types(size):
    roles = "abcdefghij"
    events = [ONE_EVENT_GROUP, *(event(number, roles=roles, groups=ALL) for number in range(size))]
    constraints = (constraint("AssignResource", number, ALL, "<Role>%s</Role>" % role)
                   for number, role in enumerate(roles))
    return archive(1, size, events, constraints)


def gives(size):
    events = (event(number, roles="abcd") for number in range(size // 2))
    bounds = IN_GROUP + "<Minimum>1</Minimum><Maximum>2</Maximum>"
    wanted = constraint("ClusterBusyTimes", 0, references("Resource", ("u%d" % n for n in range(size))), bounds)
    return archive(2, size, events, [wanted])


def starts(size):
    numbers = range(size // 10)
    groups = listed("EventGroup", ('<EventGroup Id="g%d"/>' % number for number in numbers))
    events = (event(n, groups='<EventGroups><EventGroup Reference="g%d"/></EventGroups>' % n) for n in numbers)
    wanted = spread(0, references("EventGroup", ("g%d" % number for number in numbers)), 2)
    return archive(1, 0, [groups, *events], [wanted])


SHAPES = {shape.__name__: shape for shape in (swaps, types, gives, starts)}


def main():
    parser = argparse.ArgumentParser(description=__doc__.splitlines()[0])
    parser.add_argument("shape", choices=SHAPES)
    parser.add_argument("size", type=int)
    words = parser.parse_args()
    print(SHAPES[words.shape](words.size), end="")


if __name__ == "__main__":
    main()
