#!/usr/bin/env python3
"""Prints the page that `khe-page` is to write for an archive.

    checks/page_reference.py ARCHIVE REPORT [--solutions N | --solution K ..]

It was written apart from `khe-page`, from what docs/manual.md and the specs of timetable_page say, and runs nothing of
khe. Costs and verdicts are those of REPORT: the text of `evaluate ARCHIVE --all` as a reference program gives it that
was written apart from this one. From timetable_page come the style sheet and the script, which are copied from its
file, and the wording of markup, headings and phrases. Of an archive that the report refuses it prints the page that says so.

The expected pages in crates/manual_examples/data/pages are what it prints. It leaves out what comes after 20,000 cells,
1,000 monitors, 40 cells of a monitor or 50 MB. Monitors of a constraint that cost the same stand in their own order.
"""

import html, os, re, sys
import xml.etree.ElementTree as tree
from collections import namedtuple

STYLE_FILE = os.path.join(os.path.dirname(os.path.abspath(__file__)), "../crates/timetable_page/src/style.rt")

# What is wrong with what a monitor watches, by the kind of its constraint. The deviation follows.
PHRASES = {
    "AssignTime": "has no time; times missing:",
    "AssignResource": "has no resource; times without one:",
    "SplitEvents": "is split into parts of other lengths or numbers than wanted, by",
    "DistributeSplitEvents": "has too many or too few parts of one length, by",
    "PreferTimes": "starts at a time that is not preferred; times:",
    "PreferResources": "has a resource that is not preferred; times:",
    "AvoidSplitAssignments": "is shared out to too many resources, by",
    "SpreadEvents": "is not spread over the time groups as wanted, by",
    "LinkEvents": "does not run at the same times; times apart:",
    "OrderEvents": "are not in order or too near or too far apart, by",
    "AvoidClashes": "is busy more than once at a time; meets too many:",
    "AvoidUnavailableTimes": "is busy when it is to be free; times:",
    "LimitIdleTimes": "has too many or too few idle times, by",
    "ClusterBusyTimes": "is busy in too many or too few time groups, by",
    "LimitBusyTimes": "is too busy or not busy enough in time groups, by",
    "LimitWorkload": "has too much or too little to do, by",
}
# What the format calls the kinds of constraints, in its order.
KINDS = {kind: re.sub("([a-z])([A-Z])", r"\1 \2", kind) for kind in PHRASES}
WITH_CELLS = ("AvoidClashes", "AvoidUnavailableTimes", "LimitIdleTimes")
ESCAPED = {ord(sign): word for sign, word in {"&": "&amp;", "<": "&lt;", ">": "&gt;", '"': "&quot;", "'": "&#39;"}.items()}
# Characters that turn the direction of the text around them are shown by their numbers.
TURNING = (0x61C, 0x200E, 0x200F, *range(0x202A, 0x202F), *range(0x2066, 0x206A))
ESCAPED.update({code: "[U+%04X]" % code for code in TURNING})

# A part of an event: the numbers of its event and of its first time, and of the resource at each place, or None.
Meet = namedtuple("Meet", "event duration start given")


def escaped(text):
    return text.translate(ESCAPED)


def isolated(text):
    """A text of the archive where the page shows it: it reorders nothing around it, whatever its direction."""
    return "<bdi>%s</bdi>" % escaped(text)


def fixed_text(name):
    """The style sheet or the script, as the crate's file spells it."""
    source = open(STYLE_FILE, encoding="utf-8").read()
    return re.search(r'%s: &str = r(#+)"(.*?)"\1;' % name, source, re.S).group(2)


def shown(element):
    """What a part of an archive is called, escaped: by its name, or by its Id where it has none."""
    return isolated(element.findtext("Name") or element.get("Id"))


def whole_name(element, unnamed=""):
    return element.findtext("MetaData/Name") or element.get("Id") or unnamed


def titled(element, unnamed=""):
    """The same of what has its name in its meta data: an archive, an instance or a solution group."""
    return isolated(whole_name(element, unnamed))


def references(element, path):
    return [one.get("Reference") for one in element.findall(path)]


class Numbered:
    """The parts of one sort: what each is called, and its number by its Id."""
    def __init__(self, elements):
        self.elements = list(elements)
        self.names = [shown(one) for one in self.elements]
        self.number = {one.get("Id"): place for place, one in enumerate(self.elements)}


class Constraint:
    def __init__(self, element, instance):
        self.id, self.name = element.get("Id"), shown(element)
        self.kind = element.tag.removesuffix("Constraint")
        called_otherwise = element.findtext("Name") not in ("", None, self.id)
        self.whole_name = self.name + " <small>%s</small>" % isolated(self.id) if called_otherwise else self.name
        self.counts = "hard" if element.findtext("Required").strip() == "true" else "soft"
        self.weight = "%d %s" % (int(element.findtext("Weight")), element.findtext("CostFunction").strip().lower())
        self.group_names = references(element, "TimeGroups/TimeGroup")
        self.groups = [instance.times_of(group) for group in self.group_names]
        self.spread = [(int(one.findtext("Minimum")), int(one.findtext("Maximum"))) for one in element.findall("TimeGroups/TimeGroup")
                       if one.find("Minimum") is not None]
        number = lambda name: int(element.findtext(name) or 0)
        self.bounds, self.duration = (number("Minimum"), number("Maximum")), element.findtext("Duration")
        self.lengths = (number("MinimumDuration"), number("MaximumDuration"))
        self.amounts = (number("MinimumAmount"), number("MaximumAmount"))
        self.pairs = {tuple(references(one, "FirstEvent") + references(one, "SecondEvent")): one
                      for one in element.findall("AppliesTo/EventPairs/EventPair")}
        self.resources = instance.resources_of(element)
        self.times = {instance.times.number[time] for time in references(element, "Times/Time")}.union(*self.groups)


class Instance:
    def __init__(self, root):
        self.name = titled(root)
        self.times = Numbered(root.findall("Times/Time"))
        self.types = Numbered(root.findall("Resources/ResourceTypes/ResourceType"))
        self.resources = Numbered(root.findall("Resources/Resource"))
        self.events = Numbered(root.findall("Events/Event"))
        self.groups = Numbered(root.findall("Events/EventGroups/*"))
        self.type_of = [references(one, "ResourceType")[0] for one in self.resources.elements]
        self.constraints = [Constraint(one, self) for one in root.findall("Constraints/*")]
        self.constraint = {one.id: one for one in self.constraints}
        self.places = [self.places_of(event) for event in self.events.elements]
        self.time_groups = Numbered(root.findall("Times/TimeGroups/*"))
        self.weekly, self.sheets = self.layout(self.time_groups)

    def times_of(self, group):
        """The times of a time group: those whose week, day or time group it is."""
        paths = ("Week", "Day", "TimeGroups/TimeGroup")
        of = [sum((references(time, path) for path in paths), []) for time in self.times.elements]
        return {number for number, groups in enumerate(of) if group in groups}

    def resources_of(self, element):
        """The resources that a constraint names, alone or by their groups."""
        groups = set(references(element, "ResourceGroups/ResourceGroup"))
        of = [references(one, "ResourceGroups/ResourceGroup") for one in self.resources.elements]
        found = {number for number, has in enumerate(of) if groups & set(has)}
        return found | {self.resources.number[one] for one in references(element, "Resources/Resource")}

    def events_of(self, group):
        """The events of an event group."""
        paths = ("Course", "EventGroups/EventGroup")
        of = [sum((references(event, path) for path in paths), []) for event in self.events.elements]
        return [number for number, groups in enumerate(of) if group in groups]

    def places_of(self, event):
        """What an event wants: a role and a resource for each place, either of which may be missing."""
        places = []
        for one in event.findall("Resources/Resource"):
            places.append((one.findtext("Role", "").strip() or None, self.resources.number.get(one.get("Reference"))))
        for group in references(event, "ResourceGroups/ResourceGroup"):
            of = [references(resource, "ResourceGroups/ResourceGroup") for resource in self.resources.elements]
            places += [(None, number) for number, groups in enumerate(of) if group in groups]
        return places

    def layout(self, groups):
        """Whether there is a grid for each week, and the grids: each a heading, its columns with their heads and times,
        the times that have a column of their own, and its rows."""
        day, week = ([(references(time, sort) or [None])[0] for time in self.times.elements] for sort in ("Day", "Week"))
        weekly = any(day) and any(week)
        of = day if any(day) else week
        sheets = []
        for head in [*groups.number, None] if weekly else [None]:
            here = [time for time in range(len(of)) if not weekly or week[time] == head]
            own = [time for time in here if of[time] is None or (weekly and head is None)]
            lists = [(group, [time for time in here if of[time] == group and time not in own]) for group in groups.number]
            columns = [(groups.names[groups.number[group]], times) for group, times in lists if times]
            called = "Times without a week" if head is None else groups.names[groups.number[head]]
            if here:
                sheets.append((called, columns, own, self.rows_of([times for _, times in columns])))
        return weekly, sheets

    def rows_of(self, columns):
        """The rows of a grid: what each is called, and its time in each column or None."""
        named = [[one.findtext("Name") or one.get("Id") for one in map(self.times.elements.__getitem__, times)] for times in columns]
        common = [os.path.commonprefix([name.encode() for name in names]).count(b" ") for names in named]
        least = min((words for words, names in zip(common, named) if len(names) > 1), default=0)
        rests = []
        for words, names in zip(common, named):
            words = words if len(names) > 1 else least
            rests.append([name.split(" ", words)[words] if name.count(" ") >= words else name for name in names])
        order = merged(rests)
        every = sum(rests, [])
        if order is not None and every and (len(columns) == 1 or len(set(every)) < len(every)):
            at = [dict(zip(names, times)) for names, times in zip(rests, columns)]
            return [(isolated(rest), [one.get(rest) for one in at]) for rest in order]
        height = max(map(len, columns), default=1)
        return [(str(row + 1), [times[row] if row < len(times) else None for times in columns]) for row in range(height)]


def merged(lists):
    """The members of some lists in one order that keeps that of each list, or None where there is none. Of those that
    can come next it takes the one that comes first in the first list that has one."""
    if any(len(set(one)) < len(one) for one in lists):
        return None
    order, left = [], [list(one) for one in lists]
    while any(left):
        fronts = [one[0] for one in left if one]
        free = [front for front in fronts if not any(front in one[1:] for one in left)]
        if not free:
            return None
        order.append(free[0])
        left = [one[1:] if one[:1] == free[:1] else one for one in left]
    return order


def meets_of(instance, solution):
    """The meets of a valid solution: of each event its entries in order, and one more of what they fall short of."""
    meets = []
    for event, raw in enumerate(instance.events.elements):
        whole = int(raw.findtext("Duration"))
        own = references(raw, "Time")
        entries = [one for one in solution.findall("Events/Event") if one.get("Reference") == raw.get("Id")]
        parts = [(int(one.findtext("Duration") or whole), references(one, "Time") or own, one) for one in entries]
        missing = whole - sum(duration for duration, _, _ in parts)
        if missing:
            parts.append((missing, own, tree.Element("Event")))
        for duration, time, entry in parts:
            told = [(one.findtext("Role", "").strip(), one.get("Reference")) for one in entry.findall("Resources/Resource")]
            given = {role: instance.resources.number[resource] for role, resource in told}
            resources = [given.get(role) if fixed is None else fixed for role, fixed in instance.places[event]]
            meets.append(Meet(event, duration, instance.times.number[time[0]] if time else None, resources))
    return meets


class Monitor:
    """A line of the report on a monitor."""

    FORM = r'monitor (\d+) (\w+) "([^"]*)" (\w+) "([^"]*)"(?: (?:role )?"([^"]*)")? deviation (\d+) (hard|soft) (\d+)'

    def __init__(self, line):
        words = re.fullmatch(self.FORM, line).groups()
        number, self.kind, constraint, self.point, subject, other, deviation, self.counts, cost = words
        self.number, self.deviation, self.cost = int(number), int(deviation), int(cost)
        self.constraint, self.subject = html.unescape(constraint), html.unescape(subject)
        self.other = other and html.unescape(other)


class Verdict:
    """What the report says of a solution: its totals with its monitors, or why it is invalid."""
    def __init__(self, text):
        self.monitors = [Monitor(line) for line in text.splitlines() if line.startswith("monitor ")]
        total = re.search(r"^total hard (\d+) soft (\d+)$", text, re.M)
        self.totals = tuple(map(int, total.groups())) if total else None
        cause = re.search(r"^invalid \d+ (\w+) entry (\d+)$", text, re.M)
        self.said = "hard <b>%d</b> soft <b>%d</b>" % self.totals if total else "invalid: %s at entry %s" % cause.groups()


class Section:
    """The section of a valid solution below its totals."""
    def __init__(self, number, instance, solution, verdict):
        self.number, self.instance, self.monitors = number, instance, verdict.monitors
        self.meets = meets_of(instance, solution)
        self.cells = [{} for _ in instance.resources.names]
        self.watched = [[] for _ in instance.resources.names]
        for meet in (one for one in self.meets if one.start is not None):
            for resource in (one for one in meet.given if one is not None):
                for time in range(meet.start, meet.start + meet.duration):
                    self.cells[resource].setdefault(time, []).append(meet)
        for monitor in (one for one in self.monitors if one.point == "resource"):
            self.watched[instance.resources.number[monitor.subject]].append(monitor)

    def link(self, letter, number, text):
        return '<a href=#s%d%s%d>%s</a>' % (self.number, letter, number, text)

    def named(self, letter, number, parts):
        """A link with a name, which is not isolated where all of it is ASCII."""
        name = parts.names[number]
        inner = name.removeprefix("<bdi>").removesuffix("</bdi>")
        called = parts.elements[number].findtext("Name") or parts.elements[number].get("Id")
        return self.link(letter, number, inner if called.isascii() else name)

    def resource(self, number):
        return self.named("r", number, self.instance.resources)

    def event(self, number):
        return self.named("e", number, self.instance.events)

    def closed(self, monitor):
        """The times at which a monitor wants its resource free."""
        is_such = monitor.kind == "AvoidUnavailableTimes"
        return self.instance.constraint[monitor.constraint].times if is_such else set()

    def idle(self, monitor):
        """The idle times that a monitor counts: not busy, but before and after in the time group."""
        busy = self.cells[self.instance.resources.number[monitor.subject]]
        found = set()
        for group in self.instance.constraint[monitor.constraint].groups if monitor.kind == "LimitIdleTimes" else ():
            at = [time for time in group if time in busy]
            found |= {time for time in group if time not in busy and min(at, default=time) < time < max(at, default=time)}
        return found

    def watches(self, monitor):
        if monitor.point == "resource":
            return self.resource(self.instance.resources.number[monitor.subject])
        if monitor.point == "group":
            return self.instance.groups.names[self.instance.groups.number[monitor.subject]]
        first = self.event(self.instance.events.number[monitor.subject])
        if monitor.point == "events":
            return first + " and " + self.event(self.instance.events.number[monitor.other])
        return first + (" (%s)" % isolated(monitor.other) if monitor.other else "")

    def where(self, monitor):
        """The cells that a monitor is about, where its kind has some."""
        if monitor.kind not in WITH_CELLS:
            return ""
        resource = self.instance.resources.number[monitor.subject]
        cells, said = self.cells[resource], ", at"
        clashes = {time for time in cells if len(cells[time]) > 1}
        at = clashes if monitor.kind == "AvoidClashes" else self.closed(monitor) & cells.keys() | self.idle(monitor)
        for time in sorted(at):
            busy = len(cells.get(time, ()))
            said += " " + self.link("r%dt" % resource, time, self.instance.times.names[time])
            said += "" if busy < 2 else " (twice)" if busy == 2 else " (%d times)" % busy
        return said

    def bound(self, count, bounds):
        return "%d, at most %d" % (count, bounds[1]) if count > bounds[1] else "%d, at least %d" % (count, bounds[0])

    def group(self, group):
        return self.instance.time_groups.names[self.instance.time_groups.number[group]]

    def about(self, monitor):
        """Which groups, times, resources or parts a monitor is about, and what its constraint wants."""
        constraint, kind = self.instance.constraint[monitor.constraint], monitor.kind
        groups = list(zip(constraint.group_names, constraint.groups))
        if kind == "SpreadEvents":
            meets = [meet for meet in self.meets if meet.event in self.instance.events_of(monitor.subject)]
            counts = [sum(meet.start in times for meet in meets) for _, times in groups]
            return listed([self.group(name) + " has " + self.bound(count, bounds) for (name, _), count, bounds
                           in zip(groups, counts, constraint.spread) if not bounds[0] <= count <= bounds[1]])
        if monitor.point == "resource":
            busy = self.cells[self.instance.resources.number[monitor.subject]]
            counts = [sum(time in busy for time in times) for _, times in groups]
            if kind == "ClusterBusyTimes":
                at = [self.group(name) for (name, _), count in zip(groups, counts) if count]
                return listed(at) + "; busy in " + self.bound(len(at), constraint.bounds)
            if kind == "LimitBusyTimes":
                return listed([self.group(name) + " has " + self.bound(count, constraint.bounds) for (name, _), count
                               in zip(groups, counts) if count and not constraint.bounds[0] <= count <= constraint.bounds[1]])
            idle = {"LimitIdleTimes": "idle: ", "LimitWorkload": ""}
            return "; wanted %s%d to %d" % (idle[kind], *constraint.bounds) if kind in idle else ""
        if monitor.point == "events":
            pair = constraint.pairs[monitor.subject, monitor.other]
            least, most = pair.findtext("MinSeparation"), pair.findtext("MaxSeparation")
            return "; wanted between them: %d to %d times" % (int(least or 0), int(most or 2_147_483_647))
        if monitor.point == "group":
            return ""
        event = self.instance.events.number[monitor.subject]
        meets = [meet for meet in self.meets if meet.event == event]
        if kind == "PreferTimes":
            wanted = [one for one in meets if constraint.duration is None or one.duration == int(constraint.duration)]
            return listed([self.instance.times.names[one.start] for one in wanted
                           if one.start is not None and one.start not in constraint.times])
        if kind == "PreferResources":
            places = [place for place, (role, _) in enumerate(self.instance.places[event]) if role == monitor.other]
            given = [one.given[places[0]] for one in meets]
            return listed([self.resource(one) for one in given if one is not None and one not in constraint.resources])
        parts = ": parts of " + ", ".join(str(one.duration) for one in meets)
        if kind == "SplitEvents":
            return parts + "; wanted %d to %d parts of %d to %d" % (*constraint.amounts, *constraint.lengths)
        if kind == "DistributeSplitEvents":
            return parts + "; wanted %d to %d of %d" % (*constraint.bounds, int(constraint.duration))
        return ""

    def kinds(self):
        text = '<details open id=s%dk><summary>Costs by kind</summary>' % self.number
        text += '<div class=wide tabindex=0 role=region aria-label="Costs by kind"><table class=costs><thead><tr>'
        heads = ("Kind", "Monitors", "Deviate", "Sum of deviations", "Hard cost", "Soft cost")
        text += "".join('<th scope=col>%s' % head for head in heads) + "<tbody>\n"
        for kind, called in KINDS.items():
            monitors = [one for one in self.monitors if one.kind == kind]
            numbers = [len(monitors), sum(one.deviation > 0 for one in monitors), sum(one.deviation for one in monitors)]
            numbers += [sum(one.cost for one in monitors if one.counts == counts) for counts in ("hard", "soft")]
            text += "<tr>" if numbers[1] else '<tr class=fine>'
            text += '<th scope=row>%s' % called + "".join('<td class=num>%d' % one for one in numbers) + "\n"
        return text + "</table></div></details>\n"

    def costs(self):
        text = '<details open id=s%do><summary>Costs by constraint</summary>' % self.number
        text += '<div class=wide tabindex=0 role=region aria-label="Costs by constraint"><table class=costs><thead><tr>'
        heads = ("Kind", "Constraint", "Counts as", "Weight", "Deviate", "Cost")
        text += "".join('<th scope=col>%s' % head for head in heads) + "<tbody>\n"
        deviating, fine = "", ""
        for number, constraint in enumerate(self.instance.constraints):
            found = [one for one in self.monitors if one.constraint == constraint.id and one.deviation > 0]
            row = '<tr id=s%dc%d><td>%s' % (self.number, number, KINDS[constraint.kind])
            row += '<th scope=row>%s<td>%s' % (constraint.whole_name, constraint.counts)
            row += '<td class=num>%s</td><td class="num">%d</td>' % (constraint.weight, len(found))
            row += '<td class="num">%d</td></tr>\n' % sum(one.cost for one in found)
            deviating += row + self.defects(sorted(found, key=lambda one: -one.cost)) if found else ""
            fine += "" if found else row
        return text + deviating + '<tbody class=fine>\n' + fine + "</table></div></details>\n"

    def defects(self, found):
        text = '<tr class=why><td colspan=6><details><summary>Monitors that deviate: %d</summary><ul>\n' % len(found)
        for one in found:
            text += '<li id=s%dm%d><b>%d</b> %s ' % (self.number, one.number, one.cost, self.watches(one))
            text += "%s %d%s%s\n" % (PHRASES[one.kind], one.deviation, self.where(one), self.about(one))
        return text + "</ul></details>\n"

    def marks(self, resource, time):
        """The marks of a cell: of each sort of defect the first monitor that deviates and is about the time."""
        busy = len(self.cells[resource].get(time, ()))
        sorts = (
            ("clash", lambda one: one.kind == "AvoidClashes" and busy > 1),
            ("unavailable", lambda one: busy > 0 and time in self.closed(one)),
            ("idle", lambda one: time in self.idle(one)),
        )
        deviating = [one for one in self.watched[resource] if one.deviation > 0]
        found = [(word, next(filter(is_about, deviating), None)) for word, is_about in sorts]
        return [(word, monitor.number) for word, monitor in found if monitor]

    def cell(self, resource, time, closed, idle, height=1):
        meets, marks = self.cells[resource].get(time, []), self.marks(resource, time)
        words = [word for word, _ in marks]
        quiet = "off" if time in closed and not meets else "gap" if time in idle else ""
        name = self.instance.times.elements[time].findtext("Name") or self.instance.times.elements[time].get("Id")
        text = "<td" + (' rowspan=%d' % height if height > 1 else "") + (' title="%s"' % escaped(name) if meets else "")
        if marks:
            text += ' class=%s id=s%dr%dt%d>' % ("idle" if words == ["idle"] else "bad", self.number, resource, time)
        else:
            text += ' class=%s>%s' % (quiet, quiet) if quiet else ">"
        shown_marks = ['<a class=mark href=#s%dm%d>%s</a>' % (self.number, number, word) for word, number in marks]
        if len(meets) > 1 and "clash" not in words:
            shown_marks.insert(0, '<span class=more>%d meets</span>' % len(meets))
        held = []
        for meet in meets:
            others = [" " + self.resource(other) for other in meet.given if other not in (None, resource)]
            held.append(self.event(meet.event) + "".join(others))
        return text + "".join(shown_marks) + "<hr>".join(held)

    def table(self, called, columns, own, rows, cell):
        """One grid, of whose times `cell` writes the cells."""
        text = "<table class=grid>" + ("<caption>%s</caption>" % called if called else "")
        text += "<thead><tr>" + ("<td>" if columns else "")
        heads = [head for head, _ in columns] + [self.instance.times.names[time] for time in own]
        text += "".join('<th scope=col>%s' % head for head in heads) + "<tbody>\n"
        for place, (head, times) in enumerate(rows):
            text += "<tr>" + ('<th scope=row>%s' % head if columns else "")
            text += "".join('<td class=none>' if time is None else cell(time, 1) for time in times)
            text += "".join(cell(time, len(rows)) for time in own if place == 0) + "\n"
        return text + "</table>\n"

    def times(self):
        """The grids of the times themselves."""
        text = "<details class=times><summary>The times of the cells</summary>\n"
        text += '<div class=wide tabindex=0 role=region aria-label="The times of the cells">\n'
        for _, columns, own, rows in self.instance.sheets:
            cell = lambda time, height: (
                ("<td rowspan=%d>" % len(rows) if time in own else "<td>") + self.instance.times.names[time])
            text += self.table("", columns, own, rows, cell)
        return text + "</div></details>\n"

    def grid(self, resource):
        name, watched = self.instance.resources.names[resource], self.watched[resource]
        called = self.instance.resources.elements[resource]
        label = escaped(called.findtext("Name") or called.get("Id"))
        text = '<div class=one id=s%dr%d tabindex=0 role=region aria-label="%s">' % (self.number, resource, label)
        text += '<h4 class=n>%s</h4>\n' % name
        links = [self.link("m", one.number, self.instance.constraint[one.constraint].name) for one in watched if one.deviation]
        text += "<p>Defects: %s</p>\n" % ", ".join(links) if links else ""
        if not self.cells[resource]:
            return text + '<p class=nothing>has no meets</div>\n'
        closed, idle = (set().union(*map(times, watched)) for times in (self.closed, self.idle))
        for called, columns, own, rows in self.instance.sheets:
            cell = lambda time, height: self.cell(resource, time, closed, idle, height)
            text += self.table(called if self.instance.weekly else "", columns, own, rows, cell)
        return text + "</div>\n"

    def grids(self):
        text = '<details open id=s%dt><summary>Timetables</summary>\n' % self.number
        text += '<p class=legend>Marks of defects, each with a link to the '
        text += "monitor that deviates: <b>clash</b>, more than one meet at the time; <b>unavailable</b>, a meet at a time "
        text += "to be kept free; <b>idle</b>, a gap between meets. Where no monitor deviates: <b>2 meets</b> at one time; "
        text += "<b>gap</b>, an idle time within the limits; <b>off</b>, a time to be kept free.</p>\n"
        text += '<p class=legend>Rows are what is left of the names of a day\'s times without the words that all of them '
        text += "begin with, or numbers where these can't be aligned. The title of a cell, and its place among the times of the "
        text += "cells, have the whole name of its time.</p>\n" + self.times()
        for sort, name in zip(self.instance.types.elements, self.instance.types.names):
            text += "<h3>%s</h3>\n" % name
            for resource, of in enumerate(self.instance.type_of):
                text += self.grid(resource) if of == sort.get("Id") else ""
        return text + "</details>\n"

    def part(self, meet):
        none = meet.start is None
        text = '<div><strong>no time</strong>' if none else "<div><b>%s</b>" % self.instance.times.names[meet.start]
        text += " for %d times:" % meet.duration if meet.duration > 1 else ":"
        for (role, _), resource in zip(self.instance.places[meet.event], meet.given):
            nobody = ' <strong>%s</strong>' % ("no " + isolated(role) if role else "nobody")
            text += nobody if resource is None else " " + self.resource(resource)
        return text + "</div>"

    def events(self):
        text = "<details id=s%dv><summary>Events</summary>\n" % self.number
        lack_time = sorted({meet.event for meet in self.meets if meet.start is None})
        lack_resource = sorted({meet.event for meet in self.meets if None in meet.given})
        for what, found in (("time", lack_time), ("resource", lack_resource)):
            links = ", ".join(map(self.event, found))
            text += '<p class="lack">Without a %s: %s</p>\n' % (what, links) if found else ""
        text += '<div class=wide tabindex=0 role=region aria-label=Events><table class=events><thead><tr>'
        text += '<th scope=col>Event<th scope=col>When and with whom<tbody>\n'
        for number, name in enumerate(self.instance.events.names):
            parts = "".join(self.part(meet) for meet in self.meets if meet.event == number)
            text += '<tr id=s%de%d><th scope=row class=n>%s<td>%s\n' % (self.number, number, name, parts)
        return text + "</table></div></details>\n"


def listed(items):
    """Some items after what they are about. At most 40 are named."""
    return "".join((": " if place == 0 else "; ") + item for place, item in enumerate(items[:40])) + ("; and more" if items[40:] else "")


def section_of(number, instance, group, solution, verdict):
    head = '<section class=sol id=s%d><h2>Solution %d: %s <small>by %s</small></h2>\n'
    text = head % (number, number, instance.name, group)
    for before, what in (("", "Description"), ("Running time: ", "RunningTime")):
        if solution.find(what) is not None:
            text += "<p>%s%s</p>\n" % (before, isolated(solution.findtext(what)))
    if verdict.totals is None:
        entry = int(verdict.said.split()[-1])
        events = solution.findall("Events/Event")
        of = next((one for one in instance.events.elements if events and one.get("Id") == events[entry].get("Reference")), None)
        told = "" if of is None else "<p>Entry %d is of the event %s (Id %s).</p>\n" % (entry, shown(of), isolated(of.get("Id")))
        return text + '<p class="bad">%s</p>\n%s</section>\n' % (verdict.said, told)
    section = Section(number, instance, solution, verdict)
    text += '<p class="totals">%s</p>\n' % verdict.said
    ways = (("k", "Costs by kind"), ("o", "Costs by constraint"), ("t", "Timetables"), ("v", "Events"))
    links = ["<a href=#s%d%s>%s</a>" % (number, letter, called) for letter, called in ways]
    text += '<nav class=ways aria-label="Solution %d">%s</nav>\n' % (number, " ".join(links))
    return text + section.kinds() + section.costs() + section.grids() + section.events() + "</section>\n"


def summary_of(archive, solutions, is_shown):
    """The table of the instances by the solution groups. A solution is its group's and instance's places and verdict."""
    head = '<th scope=col><button type=button>%s</button>'
    groups = archive.findall("SolutionGroups/SolutionGroup")
    text = '<section id=summary><h2>Summary</h2>\n<p>Lower costs are better, and hard ones count before soft ones.</p>\n'
    text += '<div class=wide tabindex=0 role=region aria-label=Summary>\n<table class=sorts><thead><tr>' + head % "Instance"
    text += "".join(head % titled(group) for group in groups) + "<tbody>\n"
    for row, instance in enumerate(archive.findall("Instances/Instance")):
        text += '<tr><th scope=row>%s' % titled(instance)
        best = min((verdict.totals for _, of, verdict in solutions if of == row and verdict.totals), default=None)
        for column in range(len(groups)):
            here = [(number, one) for number, (group, of, one) in enumerate(solutions) if (group, of) == (column, row)]
            least = min((verdict.totals for _, verdict in here if verdict.totals), default=None)
            text += '<td data-v="%d %d">' % least if least else "<td>"
            for number, verdict in here:
                star = ' <span class=best>&#9733; best</span>' if best and verdict.totals == best else ""
                said = "<a href=#s%d>%s</a>" % (number, verdict.said) if is_shown(number) else verdict.said
                text += "<div>%s%s</div>" % (said, star)
        text += "\n"
    text += "</table>\n</div>\n"
    shown_ones = sum(map(is_shown, range(len(solutions))))
    if shown_ones < len(solutions):
        text += "<p id=left>Of %d solutions %d have timetables below, so that the page does not grow too large. " % (
            len(solutions), shown_ones)
        text += "The option <code>--solutions N</code> shows the first N, and <code>--solution K</code> the one with the "
        text += "number K, counted from 0.</p>\n"
    return text + "</section>\n"


def opening_of(archive, solutions, is_shown):
    title = escaped(whole_name(archive, "Timetables"))
    text = '<!DOCTYPE html>\n<html lang="en"><head><meta charset="utf-8"><title>%s</title>\n' % title
    text += '<meta name="viewport" content="width=device-width,initial-scale=1">\n<style>\n%s</style></head>' % fixed_text("STYLE")
    instances = len(archive.findall("Instances/Instance"))
    text += "<body><header id=top><h1>%s</h1>\n<p>Instances: %d, solutions: %d.</p>\n" % (titled(archive, "Timetables"), instances, solutions)
    if archive.find("MetaData") is not None:
        heads = ("Contributor", "Date", "Country", "Description", "Publication", "Remarks")
        said = [(one, archive.findtext("MetaData/" + one)) for one in heads]
        lines = ["<dt>%s</dt><dd>%s</dd>\n" % (what, isolated(one)) for what, one in said if one is not None]
        text += "<dl>\n%s</dl>\n" % "".join(lines)
    text += '<search><label for="find">Find a resource or an event</label>\n<input id="find" type="search" '
    text += 'autocomplete="off"><ul id="found" aria-live="polite"></ul></search>\n<noscript><p>Searching and sorting need '
    text += "scripts; all else works without.</p></noscript>\n</header>\n"
    text += "<nav class=top aria-label=Page><a href=#top>Top</a> <a href=#summary>Summary</a>"
    named = [number for number in range(solutions) if is_shown(number)][:200]
    return text + "".join(" <a href=#s%d>Solution %d</a>" % (one, one) for one in named) + "</nav><main>\n"


def page_of(archive, report, is_shown):
    elements = archive.findall("Instances/Instance")
    numbers = {one.get("Id"): number for number, one in enumerate(elements)}
    verdicts = map(Verdict, re.split(r"^solution .*$", report, flags=re.M)[1:])
    solutions, sections = [], []
    for place, group in enumerate(archive.findall("SolutionGroups/SolutionGroup")):
        for solution in group.findall("Solution"):
            number, of, verdict = len(solutions), numbers[solution.get("Reference")], next(verdicts)
            solutions.append((place, of, verdict))
            if is_shown(number):
                sections.append(section_of(number, Instance(elements[of]), titled(group), solution, verdict))
    text = opening_of(archive, len(solutions), is_shown) + summary_of(archive, solutions, is_shown) + "".join(sections)
    return text + "</main><script>\n%s</script></body></html>\n" % fixed_text("SCRIPT")


def main():
    report = open(sys.argv[2], encoding="utf-8").read()
    text = '<!DOCTYPE html>\n<html lang="en"><meta charset="utf-8"><title>Refused</title>\n<p>%s</p></html>\n' % report
    if not report.startswith("khe: archive refused: "):
        named = [int(value) for option, value in zip(sys.argv[3::2], sys.argv[4::2]) if option == "--solution"]
        most = [int(value) for option, value in zip(sys.argv[3::2], sys.argv[4::2]) if option == "--solutions"]
        is_shown = (lambda number: number in named) if named else (lambda number: number < (most or [8])[0])
        text = page_of(tree.parse(sys.argv[1]).getroot(), report, is_shown)
    sys.stdout.buffer.write(text.encode())


main()
