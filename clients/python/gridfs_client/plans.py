"""What a plan says, as the program `gridfs-node plan` tells it: lines of words NAME=VALUE (docs/FORMATS.md, What a plan says).

One parser of a plan's own text is left here, `plan_of`, for where no program is by nature: copies of journals, and a gateway's machine, to which a plan
was brought. It looks for no faults, since a node took the plan before.
"""

import os
import shutil
import subprocess
from collections.abc import Mapping, Sequence
from dataclasses import dataclass, field

from .answers import MOST_PLACES, PlanTold
from .errors import BadFile

STANDARD_INPUT = "/dev/stdin"
Words = Mapping[str, str]  # of a line, by their names; the first tells what the line is of
TOP = os.path.dirname(os.path.dirname(os.path.dirname(os.path.dirname(os.path.realpath(__file__)))))  # of the checkout, or where the client is installed


def program() -> str:
    """The program: $GRIDFS, or the one that is installed with this client, or that of this checkout, or the one on the path."""
    installed = os.path.join(TOP, "bin", "gridfs-node")
    here = os.path.join(TOP, "gridfs")
    return os.environ.get("GRIDFS") or next((path for path in (installed, here) if os.access(path, os.X_OK) and os.path.isfile(path)), None) or shutil.which("gridfs-node") or "gridfs-node"


def words_in(text: str) -> list[Words]:
    """The words of each line. What has no name is passed over."""
    return [dict(word.split("=", 1) for word in line.split(" ") if "=" in word) for line in text.splitlines()]


def ask(path: str, *more: str, by: str | None = None, text: str | None = None) -> list[Words]:
    """The lines that the program tells of the plan in a file, or of this text, which is to be named so. BadFile with what it says where there are none."""
    file = path if text is None else STANDARD_INPUT
    words = [by or program(), "plan", *more, "--", file]
    try:
        done = subprocess.run(words, input=text or "", capture_output=True, encoding="latin1")
    except OSError as fault:
        raise BadFile(f"{words[0]}: {fault.strerror}") from None
    if done.returncode:
        raise BadFile(done.stderr.strip().removeprefix("gridfs: ").replace(STANDARD_INPUT, path) or f"{words[0]} ended with status {done.returncode}")
    return words_in(done.stdout)


def of_kind(lines: Sequence[Words], kind: str) -> list[Words]:
    """The lines whose first word has this name."""
    return [words for words in lines if next(iter(words), "") == kind]


def nodes_in(lines: Sequence[Words]) -> list[int]:
    """The node that stands at each place."""
    return [int(words["node"]) for words in of_kind(lines, "place")]


# ---- a plan's own text


@dataclass
class Plan:
    """What a plan says of tenants and nodes."""

    rows: int = 0
    columns: int = 0
    tenants: dict[str, PlanTold] = field(default_factory=dict)
    text: bytes = b""  # with the line of its node

    def extent(self) -> list[int]:
        """Of two plans of one grid, of which one goes on from the other, the later one has no lesser extent."""
        return [len(self.tenants), *(len(told.volumes) for told in self.tenants.values())]


def plan_of(lines: Sequence[bytes]) -> Plan:
    """A ValueError for what is no plan."""
    plan, lost, sessions = Plan(), dict[int, int](), 0
    volumes = dict[str, list[tuple[int, int]]]()
    heads = dict[str, tuple[int, int, int, int]]()
    for words in (line.decode("ascii").split() for line in lines):
        match words:
            case ["grid", rows, columns]:
                plan.rows, plan.columns = int(rows), int(columns)
            case ["tenant", name, share, many, _, *most]:
                heads[name] = sessions, int(many), int(share), int(most[0]) if most else 0
                volumes[name], sessions = [], sessions + int(many)
            case [name, "open", files, blocks, *times] if name in volumes and times[:1] in ([], ["times"]):
                volumes[name] += [(int(files), int(blocks))] * (int(times[1]) if times else 1)
            case ["replace", place]:
                lost[int(place)] = lost.get(int(place), 0) + 1
    nodes = plan.rows * plan.columns
    if nodes <= 0:
        raise ValueError("no grid")
    new_nodes = tuple(sorted(place + MOST_PLACES * many for place, many in lost.items()))
    for name, (before, has_sessions, has_share, longest) in heads.items():
        plan.tenants[name] = PlanTold(nodes, before % nodes, has_sessions, has_share, longest, tuple(volumes[name]), new_nodes)
    return plan
