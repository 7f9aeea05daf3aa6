"""What the program tells of a grid's plan."""

import functools

from gridfs_client.errors import BadFile
from gridfs_client.plans import ask, nodes_in, of_kind
from gridfs_grid.one_machine import NotStarted

LETTER = 255  # bytes of a letter beside its content


class Planned:
    """The sides of the grid, as a client's setting has them; the node that stands at each place; the home of each session; and the most bytes of a line
    that nodes take, of all and of letters about registers."""

    def __init__(self, lines):
        (grid,) = of_kind(lines, "rows")
        self.shape, self.longest = f"{grid['rows']}x{grid['columns']}", int(grid["line"])
        self.longest_letter = min(self.longest, max((128 * int(tenant["most"]) for tenant in of_kind(lines, "tenant")), default=0) + LETTER)
        self.nodes = nodes_in(lines)
        self.homes = {(words["tenant"], int(words["session"])): self.nodes[int(words["home"])] for words in of_kind(lines, "session")}


@functools.cache
def planned(program, text, path="the plan"):
    """What the program tells of the text of a plan. NotStarted with the fault that it tells where it is none."""
    try:
        return Planned(ask(path, by=program, text=text))
    except BadFile as fault:
        raise NotStarted(in_words(str(fault))) from None


def in_words(fault):
    """A fault of a plan, with what it comes to where it is of none at all."""
    path, _, what = fault.partition(": line 1: ")
    return {"form": f"{path}: no plan: line 1 is not `grid ROWS COLUMNS`", "end": f"{path}: no plan: it is empty"}.get(what, fault)
