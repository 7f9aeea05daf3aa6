"""The map of a fleet: at which grid the names of each slice are looked for first, and which moves are under way.

    fleet 1
    grid east east.ini                    a grid, and the client's settings for it: a file beside the map
    slices 0-32767 0 east                 names of these slices are looked for at this grid first, since move 0
    slices 32768-65535 1 west
    moves 2 0-16383 east west             a move that was begun
    clears 1 32768-65535 east west        a move whose slices are at the new grid: its lines at the old one have yet to go

To look for names an older map is as right as the last one, as long as the grids that it names are there. It says where to begin, and signposts say the
rest. So a copy of the map stands in the fleet itself, under the name `.fleet`. Whoever may put names could put that one: of it the ranges and moves count,
and which settings a grid has is said by the file alone.
"""

import os
import re
from dataclasses import dataclass, field, replace

from .core import Signpost
from .errors import BadSettings
from .pages import GRID
from .ways import SLICES, Stop

HEAD = "fleet 1"
NUMBER = r"(0|[1-9][0-9]{0,8})"
FORMS = {
    "grid": re.compile(rf"grid ({GRID}) (\S+)"),
    "slices": re.compile(rf"slices {NUMBER}-{NUMBER} {NUMBER} ({GRID})"),
    "moves": re.compile(rf"moves {NUMBER} {NUMBER}-{NUMBER} ({GRID}) ({GRID})"),
    "clears": re.compile(rf"clears {NUMBER} {NUMBER}-{NUMBER} ({GRID}) ({GRID})"),
}


@dataclass(frozen=True)
class Range:
    """Slices, the move by which they came where they are, and the grid where they are."""

    first: int
    last: int
    move: int
    grid: str

    @property
    def count(self) -> int:
        return self.last - self.first + 1


@dataclass(frozen=True)
class Move:
    """Slices that go from one grid to another; whether they are there, and only the old grid's lines have yet to go."""

    number: int
    first: int
    last: int
    source: str
    target: str
    is_there: bool = False

    @property
    def signpost(self) -> Signpost:
        return Signpost(self.number, self.first, self.last, self.target)

    def has(self, slice_number: int) -> bool:
        return self.first <= slice_number <= self.last

    def text(self) -> str:
        return f"{'clears' if self.is_there else 'moves'} {self.number} {self.first}-{self.last} {self.source} {self.target}"


@dataclass(frozen=True)
class FleetMap:
    """BadSettings where the ranges don't have each slice once, a grid is named that isn't there, or a move doesn't go with the ranges."""

    grids: dict[str, str]
    ranges: tuple[Range, ...]
    moves: tuple[Move, ...] = ()
    path: str = field(default="", compare=False)

    def __post_init__(self) -> None:
        for grid, settings in self.grids.items():
            if not re.fullmatch(GRID, grid):
                raise BadSettings(f"{grid}: no word for a grid, which is a letter a to z, and up to 15 more letters or digits")
            if not re.fullmatch(r"[!-~]+", settings):
                raise BadSettings(f"{settings!r}: a map has no such path, but letters of ASCII without spaces")
        at = 0
        for each in self.ranges:
            if each.first != at or each.last < at or each.grid not in self.grids:
                raise BadSettings(f"{self.path}: slices {each.first}-{each.last} {each.grid}: not the slices from {at} on, or no such grid")
            at = each.last + 1
        if at != SLICES:
            raise BadSettings(f"{self.path}: the slices from {at} on have no grid")
        for place, move in enumerate(self.moves):
            if not {move.source, move.target} <= self.grids.keys():
                raise BadSettings(f"{self.path}: move {move.number}: no such grid")
            if not self.goes_with_ranges(move):
                raise BadSettings(f"{self.path}: move {move.number} does not go with the slices above")
            for other in self.moves[:place]:
                overlaps = move.first <= other.last and other.first <= move.last and other != self.taken_back(move)
                if move.number == other.number or overlaps:
                    raise BadSettings(f"{self.path}: the moves {other.number} and {move.number} have one number, or some slices in common")

    def goes_with_ranges(self, move: Move) -> bool:
        """Whether its slices are where it says: at the old grid by an earlier move, or at the new one by this move."""
        if move.source == move.target or not 0 <= move.first <= move.last < SLICES or move.number < 1:
            return False
        here = [each for each in self.ranges if each.first <= move.last and move.first <= each.last]
        if move.is_there:
            return all((each.grid, each.move) == (move.target, move.number) for each in here)
        before = self.taken_back(move) or move
        return all(each.grid == before.source and each.move < before.number for each in here)

    def taken_back(self, move: Move) -> Move | None:
        """The move under way that this one takes back: the same slices, which have not come, go back to where they are."""
        way_back = (move.first, move.last, move.target, move.source)
        found = [each for each in self.moves if (each.first, each.last, each.source, each.target) == way_back and each.number < move.number]
        return found[0] if found and not move.is_there and not found[0].is_there else None

    def is_taken_back(self, move: Move) -> bool:
        return any(self.taken_back(each) == move for each in self.moves)

    def range_of(self, slice_number: int) -> Range:
        return next(each for each in self.ranges if each.first <= slice_number <= each.last)

    def stop(self, slice_number: int) -> Stop:
        """Where a way begins."""
        found = self.range_of(slice_number)
        return Stop(found.grid, found.move)

    def is_clear(self, slice_number: int) -> bool:
        """Whether the slice stands at its grid alone, and no move of it is under way."""
        return not any(move.has(slice_number) for move in self.moves)

    @property
    def last_move(self) -> int:
        return max([each.move for each in self.ranges] + [move.number for move in self.moves])

    @property
    def age(self) -> tuple[int, int]:
        """Greater of a later map: each move changes it three times, and grids are added."""
        return 3 * self.last_move - sum(1 if move.is_there else 2 for move in self.moves), len(self.grids)

    def by_settings_of(self, local: "FleetMap") -> "FleetMap":
        """This map, which was found among names, by the settings that the file has of the grids: who may write names must choose no file of this machine.
        BadSettings where the file lacks a grid."""
        if missing := sorted(self.grids.keys() - local.grids.keys()):
            raise BadSettings(f"{self.path}: it has the grid {missing[0]}, and {local.path} lacks it: get a later map, and the settings of that grid")
        return replace(self, grids=local.grids, path=local.path)

    # What a mover does with it

    def begun(self, first: int, last: int, target: str) -> "FleetMap":
        """With a move of these slices, which have to be at one grid, and in no other move but one that it takes back."""
        if not 0 <= first <= last < SLICES or target not in self.grids:
            raise BadSettings(f"{first}-{last} {target}: no slices, or no such grid")
        for move in self.moves:
            back = Move(1 + self.last_move, first, last, move.target, target)
            if self.taken_back(back) == move and not self.is_taken_back(move) and not self.taken_back(move):
                return replace(self, moves=(*self.moves, back))
        if under_way := [move.number for move in self.moves if move.first <= last and first <= move.last]:
            raise BadSettings(f"move {under_way[0]} has some of these slices, and has not ended")
        sources = sorted({each.grid for each in self.ranges if each.first <= last and first <= each.last})
        if len(sources) != 1 or target in sources:
            raise BadSettings(f"the slices {first}-{last} are at {', '.join(sources)}")
        return replace(self, moves=(*self.moves, Move(1 + self.last_move, first, last, sources[0], target)))

    def come(self, move: Move) -> "FleetMap":
        """The slices of the move are at the new grid. What it takes back has ended."""
        ranges, before = list[Range](), self.taken_back(move)
        for each in self.ranges:
            for part in (
                replace(each, last=min(each.last, move.first - 1)),
                Range(max(each.first, move.first), min(each.last, move.last), move.number, move.target),
                replace(each, first=max(each.first, move.last + 1)),
            ):
                if part.first <= part.last:
                    if ranges and (ranges[-1].grid, ranges[-1].move) == (part.grid, part.move):
                        part = replace(part, first=ranges.pop().first)
                    ranges.append(part)
        moves = tuple(replace(each, is_there=True) if each.number == move.number else each for each in self.moves if each != before)
        return replace(self, ranges=tuple(ranges), moves=moves)

    def ended(self, move: Move) -> "FleetMap":
        """The old grid's lines have gone."""
        return replace(self, moves=tuple(each for each in self.moves if each.number != move.number))

    def shares(self) -> dict[str, int]:
        """How many slices each grid has."""
        return {grid: sum(each.count for each in self.ranges if each.grid == grid) for grid in self.grids}

    def next_part(self) -> tuple[int, int, str] | None:
        """What is moved next so that each grid gets an equal part: the end of a range of the grid that has most, to the one that has least; None where parts
        are equal."""
        shares = self.shares()
        most, least = max(shares, key=lambda grid: shares[grid]), min(shares, key=lambda grid: shares[grid])
        if shares[most] - shares[least] < 2:
            return None
        part = SLICES // len(self.grids)
        last = [each for each in self.ranges if each.grid == most][-1]
        count = max(1, min(shares[most] - part, part - shares[least], last.count))
        return last.last - count + 1, last.last, least

    def spread(self) -> "FleetMap":
        """With the moves by which each grid gets an equal part, as many as may be under way at once."""
        begun, then = self, self
        while part := then.next_part():
            try:
                begun = begun.begun(*part)
            except BadSettings:
                break  # (of slices that have yet to come)
            move = begun.moves[-1]
            then = replace(then, moves=(*then.moves, move)).come(move).ended(move)
        return begun

    def text(self) -> str:
        lines = [HEAD, *(f"grid {grid} {settings}" for grid, settings in self.grids.items())]
        lines += [f"slices {each.first}-{each.last} {each.move} {each.grid}" for each in self.ranges]
        lines += [move.text() for move in self.moves]
        return "".join(line + "\n" for line in lines)

    def save(self) -> None:
        """Puts the map in the place of the one in its file, or in that to which a link of this path leads: whoever reads it has one or the other, also
        behind a loss of power."""
        path = os.path.realpath(self.path)
        with open(path + ".new", "w", encoding="ascii") as out:
            out.write(self.text())
            out.flush()
            os.fsync(out.fileno())
        os.replace(path + ".new", path)
        folder = os.open(os.path.dirname(path), os.O_RDONLY)
        try:
            os.fsync(folder)
        finally:
            os.close(folder)


def new_map(grid: str, settings: str, path: str = "") -> FleetMap:
    """All slices at one grid."""
    return FleetMap({grid: settings}, (Range(0, SLICES - 1, 0, grid),), path=path)


def parse_map(text: str, path: str = "") -> FleetMap:
    """BadSettings where a line has no form."""
    head, *lines = text.splitlines() or [""]
    grids, ranges, moves = dict[str, str](), list[Range](), list[Move]()
    if head != HEAD and re.match("fleet [0-9]", head):
        raise BadSettings(f"{path}: a map of the form {head!r}, and this program knows {HEAD!r} alone")
    if head != HEAD:
        raise BadSettings(f"{path}: no map of a fleet: {head[:40]!r} is not {HEAD!r}")
    for place, line in enumerate(lines, 2):
        kind = line.split(" ")[0]
        found = FORMS[kind].fullmatch(line) if kind in FORMS else None
        if not found:
            raise BadSettings(f"{path}: line {place}: {line!r} has no form")
        words = found.groups()
        if kind == "grid":
            if words[0] in grids:
                raise BadSettings(f"{path}: the grid {words[0]} has two lines")
            grids[words[0]] = words[1]
        elif kind == "slices":
            ranges.append(Range(int(words[0]), int(words[1]), int(words[2]), words[3]))
        else:
            moves.append(Move(int(words[0]), int(words[1]), int(words[2]), words[3], words[4], kind == "clears"))
    return FleetMap(grids, tuple(ranges), tuple(moves), path)


def read_map(path: str) -> FleetMap:
    try:
        with open(path, encoding="ascii") as text:
            return parse_map(text.read(), path)
    except FileNotFoundError:
        raise BadSettings(f"{path}: there is no such map; `gridfs-fleet --map {path} begin GRID SETTINGS` makes one") from None
    except OSError as fault:
        raise BadSettings(f"{path}: {fault.strerror}") from None
    except UnicodeDecodeError:
        raise BadSettings(f"{path}: no map of a fleet: it has more than ASCII") from None
