"""How a grid is, as whoever runs it sees it: its nodes, which of them are silent, and the room of each tenant whose settings he has. No session is taken for that."""

import threading
import time
from collections.abc import Sequence
from concurrent.futures import ThreadPoolExecutor
from contextlib import closing
from dataclasses import dataclass, field, replace
from pathlib import Path

from .asking import SILENCE, ask_plan, ask_soon
from .chunks import Chunks
from .errors import ClientError
from .grid import Nodes, told_shape
from .settings import Settings

AGAIN = 5.0  # seconds for which what was told is believed
SOON = 0.6  # seconds for an answer about room
NEARLY = 0.9  # of a column's room
SETTINGS = ".ini"
AT_ONCE = 8  # tenants by whose settings it is looked at a time


@dataclass(frozen=True)
class Column:
    """Bytes of chunks of a tenant at the fullest node of a column, and those that he may have there; and nodes that lack some of his."""

    number: int
    used: int
    allowed: int
    lacking: tuple[int, ...]

    @property
    def part(self) -> float:
        return self.used / self.allowed if self.allowed else 0.0


@dataclass(frozen=True)
class TenantSeen:
    """What is seen by the settings of a tenant; or why nothing is."""

    name: str
    nodes: Nodes | None = None
    columns: tuple[Column, ...] = ()
    homes: tuple[int, ...] = ()
    why: str = ""

    @property
    def is_out(self) -> bool:
        """Whether no home of his sessions answers."""
        return self.nodes is not None and bool(self.homes) and set(self.homes) <= self.nodes.silent


@dataclass(frozen=True)
class Seen:
    tenants: tuple[TenantSeen, ...]
    at: float = field(default_factory=time.time)

    @property
    def nodes(self) -> Nodes | None:
        """As the tenant saw them to whom most nodes answered."""
        found = [each.nodes for each in self.tenants if each.nodes]
        return min(found, key=lambda nodes: len(nodes.silent)) if found else None

    def advice(self) -> list[str]:
        """What there is to do, the most urgent first."""
        nodes, found = self.nodes, list[str]()
        if nodes is None:
            return [f"No node answers any tenant ({'; '.join(each.why for each in self.tenants if each.why) or 'no settings'}): start the nodes (docs/FAULTS.md, First look)."]
        for node in sorted(nodes.silent):
            found.append(f"Node {node} is silent: look whether its process is there, and read its last line (docs/FAULTS.md, First look). Where its disk is lost: docs/FAULTS.md, When a disk is lost.")
        if nodes.goes_on() is False:
            found.insert(0, f"Nothing can be put or got: {nodes.lacking()}. Start a silent node again.")
        found += [f"Tenant {each.name} has no session whose home answers: {each.name} waits for node {each.homes[0]}." for each in self.tenants if each.is_out]
        for each in self.tenants:
            found += [f"Tenant {each.name} has {100 * column.part:.0f} percent of the room at column {column.number}: give more by a later plan (docs/OPERATING.md, Grow)." for column in each.columns if column.part >= NEARLY]
            lacking = sorted({node for column in each.columns for node in column.lacking})
            found += [f"Node {node} lacks chunks of {each.name}: others of its column give them; keep these running." for node in lacking]
        return found + [f"Of nodes: {line}." for line in nodes.of_before()]


def look(settings: Settings) -> TenantSeen:
    """What the nodes tell a tenant now."""
    name = settings.tenant
    try:
        with closing(settings.carrier()) as carrier:
            told = ask_plan(carrier, replace(settings.pace(), timeout=SILENCE))
            nodes = ask_soon(carrier, settings.shape())
            shape = told_shape(told)
            columns: tuple[Column, ...] = ()
            if shape:
                chunks = Chunks(carrier, told, 1, shape, settings.pace)
                rooms = chunks.ask_rooms(SOON) or {}
                here = {number: {place: rooms[place] for place in shape.column(number) if place in rooms} for number in range(shape.columns)}
                columns = tuple(
                    Column(number, max(room.used for room in found.values()), min(room.allowed for room in found.values()), tuple(chunks.node_at(place) for place, room in found.items() if room.lacks))
                    for number, found in here.items()
                    if found
                )
            return TenantSeen(name, nodes, columns, tuple(told.home_of(number) for number in range(1, told.sessions + 1)))
    except ClientError as fault:
        return TenantSeen(name, why=str(fault))


class Watch:
    """Looks again where somebody asks, and what was seen is too old."""

    def __init__(self, places: Sequence[Path]):
        self.places, self.guard, self.seen = places, threading.Lock(), Seen((), 0)

    def files(self) -> list[Path]:
        """Settings, of folders all that are there."""
        return [path for place in self.places for path in (sorted(place.glob(f"*{SETTINGS}")) if place.is_dir() else [place])]

    def look(self) -> Seen:
        with self.guard:
            if not 0 <= time.time() - self.seen.at < AGAIN:
                with ThreadPoolExecutor(AT_ONCE) as threads:
                    self.seen = Seen(tuple(threads.map(self.look_by, self.files())))
            return self.seen

    def look_by(self, path: Path) -> TenantSeen:
        try:
            return look(Settings.gather({"config": str(path)}, {}))
        except ClientError as fault:
            return TenantSeen(path.stem, why=str(fault))
