"""Writes a script of edits on the first solution of an archive of archives.py, or of `khe make`, to standard output.

    python3 bench/scripts.py ARCHIVE LINES [SEED]

Half of the edits move a meet or exchange the starts of two, the others give a task another resource or
exchange those of two tasks. Three in ten stand with up to seven more between `begin` and `end`, and seven
in ten of these are undone before the `end`. All are accepted. The seed of all draws is 1 if missing; equal
words give equal bytes.
"""

import random
import sys
import xml.etree.ElementTree


class Timetable:
    """The meets of the first solution: how long each lasts, its start if it has one and may move, its teacher and room."""

    def __init__(self, archive):
        root = xml.etree.ElementTree.parse(archive).getroot()
        instance = root.find("Instances/Instance")
        number = {one.get("Id"): n for n, one in enumerate(instance.findall("Resources/Resource"))}
        self.times = len(instance.findall("Times/Time"))
        # The resources that a task of a role may have, by the first letter of their Ids.
        self.kinds = {place: [n for name, n in number.items() if name[0] == letter] for place, letter in ((1, "p"), (2, "q"))}
        first, fixed, slots = {}, set(), 0
        for event in instance.findall("Events/Event"):
            first[event.get("Id")] = slots
            slots += int(event.find("Duration").text)
            if event.find("Time") is not None:
                fixed.add(event.get("Id"))
        self.durations, self.starts, self.given = {}, {}, {}
        for entry in root.find("SolutionGroups/SolutionGroup/Solution/Events"):
            event = entry.get("Reference")
            meet = first[event]
            first[event] += 1
            self.durations[meet] = int(entry.find("Duration").text)
            time = entry.find("Time")
            if event not in fixed and time is not None:
                self.starts[meet] = int(time.get("Reference")[1:])
            for resource in entry.findall("Resources/Resource"):
                place = 1 if resource.find("Role").text == "T" else 2
                self.given[meet, place] = number[resource.get("Reference")]
        self.movable = sorted(self.starts)
        self.filled = {place: sorted(meet for meet, at in self.given if at == place) for place in (1, 2)}

    def copy(self):
        return dict(self.starts), dict(self.given)

    def go_back(self, copied):
        self.starts, self.given = copied


def edit(table, draw):
    """An edit that is accepted. The timetable follows it."""
    while True:
        kind = draw(20)
        a, b = table.movable[draw(len(table.movable))], table.movable[draw(len(table.movable))]
        if kind < 8:
            time = draw(table.times + 1 - table.durations[a])
            if time != table.starts[a]:
                table.starts[a] = time
                return "move %d %d" % (a, time)
        elif kind < 10:
            x, y = table.starts[a], table.starts[b]
            if x != y and y + table.durations[a] <= table.times and x + table.durations[b] <= table.times:
                table.starts[a], table.starts[b] = y, x
                return "swap %d %d" % (a, b)
        else:
            place = 1 + draw(2)
            filled = table.filled[place]
            a, b = filled[draw(len(filled))], filled[draw(len(filled))]
            if kind < 18:
                resource = table.kinds[place][draw(len(table.kinds[place]))]
                if resource != table.given[a, place]:
                    table.given[a, place] = resource
                    return "regive %d %d %d" % (a, place, resource)
            elif table.given[a, place] != table.given[b, place]:
                table.given[a, place], table.given[b, place] = table.given[b, place], table.given[a, place]
                return "trade %d %d %d %d" % (a, place, b, place)


def main():
    archive, lines = sys.argv[1], int(sys.argv[2])
    generator = random.Random(int(sys.argv[3]) if len(sys.argv) > 3 else 1).random

    def draw(n):
        return int(generator() * n)

    table = Timetable(archive)
    written = []
    while len(written) < lines:
        if draw(10) >= 3:
            written.append(edit(table, draw))
            continue
        copied = table.copy()
        written.append("begin")
        written += [edit(table, draw) for _ in range(1 + draw(8))]
        if draw(10) < 7:
            written.append("undo")
            table.go_back(copied)
        written.append("end")
    sys.stdout.write("\n".join(written[:lines]) + "\n")


main()
