"""Histories that are spoilt on purpose, so that no order of them is legal."""

import re

PARTS = re.compile(r"\{:index \d+, :time (\d+), :type :(\w+), :process (\d+), :f :(\w+), :value (.*)\}")


class Whole:
    """An operation that ended, with the places of its two events."""

    def __init__(self, begin, end, event):
        self.begin, self.end = begin, end
        self.process, self.function, self.value = event[2:]


def events_of(history):
    return [list(PARTS.fullmatch(line).groups()) for line in history]


def written(events):
    """The events as a history, whose lines are numbered anew."""
    return [
        f"{{:index {index}, :time {index}, :type :{kind}, :process {process}, :f :{function}, :value {value}}}"
        for index, (_, kind, process, function, value) in enumerate(events)
    ]


def wholes(events):
    going, found = {}, []
    for place, event in enumerate(events):
        if event[1] == "invoke":
            going[event[2]] = place
        elif event[1] == "ok":
            found.append(Whole(going.pop(event[2]), place, event))
    return found


def sole_writes(events):
    """The writes that ended, by content, of contents that are not empty and that one write alone has."""
    contents = [event[4] for event in events if event[1] == "invoke" and event[3] == "write"]
    return {each.value: each for each in wholes(events) if each.function == "write" and contents.count(each.value) == 1 and each.value != '""'}


def a_read_changed(draw, history):
    """A read gives what nobody wrote."""
    events = events_of(history)
    reads = [each for each in wholes(events) if each.function == "read"]
    if not reads:
        return None
    events[draw.choice(reads).end][4] = '"' + "ab" * 100 + '"'
    return written(events)


def a_read_moved(draw, history):
    """A read comes behind a write that began after the one that it read had ended."""
    events = events_of(history)
    sole = sole_writes(events)
    found = [
        (read, later)
        for read in wholes(events)
        if read.function == "read" and read.value in sole
        for later in wholes(events)
        if later.function == "write" and later.value != read.value and later.begin > max(read.end, sole[read.value].end)
    ]
    if not found:
        return None
    read, later = draw.choice(found)
    moved = [events[read.begin], events[read.end]]
    for event in moved:
        event[2] = "1000000"
    kept = [event for place, event in enumerate(events) if place not in (read.begin, read.end)]
    behind = later.end - 1  # (two events before it are gone)
    return written(kept[:behind] + moved + kept[behind:])


def two_ends_swapped(draw, history):
    """Of two writes side by side the first ends where the second did, and the second before a read of the first, behind which another
    reads the second."""
    events = events_of(history)
    sole = sole_writes(events)
    reads = [each for each in wholes(events) if each.function == "read" and each.value in sole]
    found = [
        (sole[one.value], sole[other.value])
        for one in reads
        for other in reads
        if one.end < other.begin
        and sole[other.value].begin < sole[one.value].end < sole[other.value].end
        and sole[one.value].end < one.begin
        and one.value != other.value
    ]
    if not found:
        return None
    one, other = draw.choice(found)
    for each, process in (one, "1000000"), (other, "1000001"):
        events[each.begin][2] = events[each.end][2] = process
    events[one.end], events[other.end] = events[other.end], events[one.end]
    return written(events)


WAYS = [a_read_changed, a_read_moved, two_ends_swapped]
