"""Prints an archive of the given number of times in five days, one event that lasts as long, and a monitor of each kind at a
resource.

    archive.py TIMES
"""

import sys

times = int(sys.argv[1])
days = 5


def constraint(kind, number, rest):
    return (
        f'<{kind}Constraint Id="c{number}"><Required>true</Required><Weight>1</Weight>'
        f"<CostFunction>Linear</CostFunction>"
        f'<AppliesTo><Resources><Resource Reference="r"/></Resources></AppliesTo>{rest}</{kind}Constraint>'
    )


def bounds(least, greatest):
    return f"<Minimum>{least}</Minimum><Maximum>{greatest}</Maximum>"


groups = "".join(f'<TimeGroup Reference="d{day}"/>' for day in range(days))
groups = f"<TimeGroups>{groups}</TimeGroups>"
print('<HighSchoolTimetableArchive><Instances><Instance Id="I"><Times><TimeGroups>')
print("".join(f'<Day Id="d{day}"/>' for day in range(days)) + "</TimeGroups>")
for time in range(times):
    print(f'<Time Id="t{time}"><Day Reference="d{time * days // times}"/></Time>')
print('</Times><Resources><ResourceTypes><ResourceType Id="X"/></ResourceTypes>')
print('<Resource Id="r"><ResourceType Reference="X"/></Resource></Resources>')
print(f'<Events><Event Id="E"><Duration>{times}</Duration><Resources>')
print('<Resource><Role>R</Role><ResourceType Reference="X"/></Resource></Resources></Event></Events>')
print("<Constraints>")
print(constraint("AvoidClashes", 0, ""))
print(constraint("AvoidUnavailableTimes", 1, '<TimeGroups><TimeGroup Reference="d0"/></TimeGroups>'))
print(constraint("LimitIdleTimes", 2, groups + bounds(0, 1)))
print(constraint("ClusterBusyTimes", 3, groups + bounds(0, 3)))
print(constraint("LimitBusyTimes", 4, groups + bounds(2, 5)))
print(constraint("LimitWorkload", 5, bounds(0, times // 2)))
print("</Constraints></Instance></Instances></HighSchoolTimetableArchive>")
