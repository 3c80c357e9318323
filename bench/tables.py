"""Writes an archive of one time, at which events run that each have a place for a resource.

    python3 bench/tables.py EVENTS RESOURCES SETS

Each resource is in each of SETS groups with an even chance. Each event prefers the resources of each group, by a
constraint with a weight of its own that is hard or soft; and that a place has no resource is dearer than all of it.
The draws are the same on each machine.
"""

import random
import sys


def constraint(kind, name, required, weight, points, more):
    return ('<%sConstraint Id="%s"><Required>%s</Required><Weight>%d</Weight><CostFunction>Linear</CostFunction>'
            '<AppliesTo>%s</AppliesTo>%s<Role>R</Role></%sConstraint>' % (kind, name, required, weight, points, more, kind))


def main():
    events, resources, sets = (int(word) for word in sys.argv[1:])
    draw = random.Random(2)
    groups = ["g%d" % number for number in range(sets)]
    print('<HighSchoolTimetableArchive><Instances><Instance Id="I"><Times><Time Id="t"/></Times>')
    print('<Resources><ResourceTypes><ResourceType Id="X"/></ResourceTypes><ResourceGroups>')
    for group in groups:
        print('<ResourceGroup Id="%s"><ResourceType Reference="X"/></ResourceGroup>' % group)
    print('</ResourceGroups>')
    for number in range(resources):
        within = ['<ResourceGroup Reference="%s"/>' % group for group in groups if draw.random() < 0.5]
        print('<Resource Id="r%d"><ResourceType Reference="X"/><ResourceGroups>%s</ResourceGroups></Resource>' % (
            number, "".join(within)))
    print('</Resources><Events><EventGroups><EventGroup Id="all"/></EventGroups>')
    for number in range(events):
        print('<Event Id="e%d"><Duration>1</Duration><Time Reference="t"/><Resources><Resource><Role>R</Role>'
              '<ResourceType Reference="X"/></Resource></Resources><EventGroups><EventGroup Reference="all"/></EventGroups>'
              '</Event>' % number)
    print('</Events><Constraints>')
    print(constraint("AssignResource", "a", "true", 100000, '<EventGroups><EventGroup Reference="all"/></EventGroups>', ""))
    for number in range(events):
        for group in groups:
            print(constraint("PreferResources", "%s_%d" % (group, number), draw.choice(("true", "false")), draw.randint(1, 999),
                             '<Events><Event Reference="e%d"/></Events>' % number,
                             '<ResourceGroups><ResourceGroup Reference="%s"/></ResourceGroups>' % group))
    print('</Constraints></Instance></Instances><SolutionGroups><SolutionGroup Id="S"><Solution Reference="I"/>'
          '</SolutionGroup></SolutionGroups></HighSchoolTimetableArchive>')


main()
