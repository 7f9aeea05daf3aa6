"""Which nodes and homes a plan has, as docs/FORMATS.md says it: a reading of the tests' own, so that nodes are not compared with what the program says."""

import re

from gridfs_grid.tenant import PLACES


def nodes_of(plan):
    """The node that stands at each place of the plan's grid."""
    grid = re.match(r"grid ([1-8]) ([1-8])\n", plan)
    nodes = list(range(int(grid[1]) * int(grid[2])))
    for place in re.findall(r"(?m)^replace (0|[1-9][0-9]?)$", plan.partition("\ngo\n")[2]):
        nodes[int(place)] += PLACES
    return nodes


def homes(plan):
    """How many nodes there are, and the home of each session of the plan, which are numbered in its order."""
    nodes = nodes_of(plan)
    tenants = [line.split() for line in plan.partition("\ngo\n")[0].split("\n") if line.startswith("tenant ")]
    sessions = [(words[1], session) for words in tenants for session in range(1, int(words[3]) + 1)]
    return len(nodes), {session: nodes[number % len(nodes)] for number, session in enumerate(sessions)}
