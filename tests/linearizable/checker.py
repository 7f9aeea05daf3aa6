"""Whether a history is linearizable, from the textbook alone: the search of Wing and Gong (Testing and verifying concurrent objects,
JPDC 17, 1993) with the memory of Lowe (Testing for linearizability, CCPE 29(4), 2017), for one register that is empty at first.

A history is lines of EDN, a map each, in the order in which they happened. An operation that ended `:ok` takes place at some moment
between its two lines. One that ended `:info`, or has no second line, takes place at some moment after its first line, or never.
"""

import math
import re

EVENT = re.compile(
    r"\{:index (\d+), :time (\d+), :type :(invoke|ok|info), :process (\d+), :f :(write|read|length), "
    r':value (nil|\d+|"(?:[0-9a-f]{2})*")\}'
)


class Malformed(Exception):
    """No history: a line has another form, or a process does two things at once."""


class Operation:
    def __init__(self, function, value, begin):
        self.function, self.value, self.begin, self.end = function, value, begin, math.inf

    def fits(self, register):
        """Whether a read or a length is what the register holds."""
        return self.value == (register if self.function == "read" else str((len(register) - 2) // 2))


def operations_of(history):
    """The operations in the order of their beginnings. What did not end and changes nothing is left out."""
    going, found, times = {}, [], [0]
    for place, line in enumerate(history):
        event = EVENT.fullmatch(line)
        if not event or int(event[1]) != place or int(event[2]) < times[-1]:
            raise Malformed(f"line {place}: {line}")
        times.append(int(event[2]))
        kind, process, function, value = event.groups()[2:]
        if kind == "invoke":
            if process in going:
                raise Malformed(f"line {place}: process {process} has an operation")
            going[process] = Operation(function, value, place)
            found.append(going[process])
            continue
        operation = going.get(process)
        if operation is None or operation.end < math.inf or operation.function != function:
            raise Malformed(f"line {place}: process {process} has no such operation")
        if kind == "info":
            continue  # Its process does nothing more.
        operation.end, operation.value = place, value
        del going[process]
    return [each for each in found if each.function == "write" or each.end < math.inf]


def is_linearizable(history, bound):
    """Whether it is, or None where that many states were looked at and it was not found."""
    operations = operations_of(history)
    wanted = sum(1 << place for place, each in enumerate(operations) if each.end < math.inf)
    stack, known = [(0, '""')], {(0, '""')}
    while stack:
        done, register = stack.pop()
        if done & wanted == wanted:
            return True
        if len(known) > bound:
            return None
        # The next one began before any of the others that are left ended.
        left = [place for place in range(len(operations)) if not done >> place & 1]
        first_end = min(operations[place].end for place in left)
        following = []
        for place in left:
            each = operations[place]
            if each.begin > first_end:
                break
            if each.function == "write":
                following.append((done | 1 << place, each.value))
            elif each.fits(register):
                # It changes nothing, so no order is lost where it comes at once.
                following = [(done | 1 << place, register)]
                break
        for state in following:
            if state not in known:
                known.add(state)
                stack.append(state)
    return False
