"""Names over several grids without input and output: the way of a name, the look along it, signposts and copies.

A *slice* is the first 16 bits of a name's digest. A *map* says at which grid the names of a slice are looked for first. A *move* takes slices from
one grid to another. Its *signpost* is announced and carried in each page of the old grid, and stays. The *way* of a name begins at the grid of the map
that a client has. Where a page there shows a signpost for the slice, of a later move than that by which one came, it goes on at the signpost's grid.

A look goes along the way, and looks at the pages of a grid only once it has looked at those of the grids before. So a line that has gone from an old
grid, because of one at the new grid, is not missed. The other way round, a line that counts and stands at a grid before the last one is read again
at the end: where it has gone meanwhile, the look begins anew.

Why each name has one order, by the rules of docs/FLEET.md:

- A look that saw no signpost has read each page of the old grid before it showed one. Until then nobody had written a line at the new grid. So it is a look at both.
- Lines that went from the old grid had a greater one at the new grid before. Pages of the new grid are read later, so that one is seen. So pages of one grid need not ask for those of
  another.
- Removals that were forgotten at the new grid were so only once no old page showed the name, for good. A look that still has an old line reads its page again, and finds it gone.
- After the signpost an old page gets no line of the slice any more: its journal has the signpost, journals form a chain, and a change that finds it goes on to the new grid.
- A copy left in a dead journal is below all that came since.
- Who begins by the new map misses nothing. All old pages were frozen by then, and the new ones showed at least as much. Rule 6c brings along the numbers of removals that were forgotten.
- A page that splits takes its signposts, NUMBER and AFTERs along, and a session's page that counts is one register. So what a mover has seen of all pages stays so: each shows the
  signpost, or has a number that is high enough.
- A copied removal has a number that may be below that of an older page of its session. So SINCE says beside what others were made.

    state = walk(name, stop)
    while request := request_of(state):
        state = told(state, ..)           # a client of the grid, or what came of its request
"""

from collections.abc import Callable, Collection, Iterator
from dataclasses import dataclass, replace

from . import core
from .contents import Content, digest_to_place
from .core import Copied, Knows, Line, Page, Signpost, Version

SLICES = 65_536


def slice_of(name: str) -> int:
    return int.from_bytes(digest_to_place(name)[:2], "big")


@dataclass(frozen=True)
class Stop:
    """A grid of a way, and the move by which the slice came there, 0 at first."""

    grid: str
    move: int = 0


@dataclass(frozen=True)
class Ground:
    """What a client's map says of its own grid: its word there; and of a slice the move by which it came, None where the slice is not there alone."""

    grid: str
    arrived: Callable[[int], int | None]


@dataclass(frozen=True)
class Opens:
    """It wants a client of the grid's bucket of the name."""


@dataclass(frozen=True)
class Found:
    """A line of a name, and the page that shows it."""

    version: Version
    session: int
    grid: str
    line: Line


ENTERS, LOOKS, CARRIES, CONFIRMS = "enters", "looks", "carries", "confirms"


@dataclass(frozen=True)
class Walk:
    """A look along the way of a name. `state` is that of the client at the last stop, or at the one whose line is read again; None where that grid has no
    client yet, and at the end. For a change each client enters, so that signposts of its own journal count."""

    name: str
    slice_number: int
    stops: tuple[Stop, ...]
    is_change: bool = False
    with_own: bool = True  # its own page is looked at also where its journal is known
    clients: tuple[tuple[str, Knows], ...] = ()
    state: core.State | None = None
    step: str = LOOKS
    confirms: Found | None = None
    has_ended: bool = False

    @property
    def last(self) -> Stop:
        return self.stops[-1]

    def client(self, grid: str) -> Knows:
        return dict(self.clients)[grid]

    def grids(self) -> list[str]:
        """The grids of the way, each once."""
        return list(dict.fromkeys(stop.grid for stop in self.stops))


Request = tuple[str, core.Request | Opens]


def walk(name: str, stop: Stop, is_change: bool = False, with_own: bool = True) -> Walk:
    return Walk(name, slice_of(name), (stop,), is_change, with_own)


def request_of(walk: Walk) -> Request | None:
    """At which grid it asks for what; None at the end."""
    if walk.has_ended:
        return None
    if walk.state is None:
        return walk.last.grid, Opens()
    request = core.request_of(walk.state)
    assert request
    return client_of(walk.state).grid, request


def client_of(state: core.State) -> Knows:
    return state if isinstance(state, Knows) else state.client


def told(walk: Walk, answer: core.Answer | Knows) -> Walk:
    if isinstance(answer, Knows):
        return arrived(walk, answer)
    assert walk.state
    state = core.told(walk.state, answer)
    if not isinstance(state, Knows):
        return replace(walk, state=state)
    walk = with_client(walk, state)
    if walk.step == ENTERS:
        return looking(walk, state)
    return confirmed(walk) if walk.step == CONFIRMS else looked(walk, state)


def with_client(walk: Walk, client: Knows) -> Walk:
    clients = dict(walk.clients) | {client.grid: client}
    return replace(walk, clients=tuple((grid, clients[grid]) for grid in sorted(clients)), state=None)


def arrived(walk: Walk, client: Knows) -> Walk:
    """Its client at the grid of the last stop is there."""
    walk = with_client(walk, client)
    if walk.is_change and client.session and client.journal is None:
        return replace(walk, state=core.enter(client), step=ENTERS)
    return looking(walk, client)


def looking(walk: Walk, client: Knows) -> Walk:
    # (a journal that was never written doesn't say what an older form of page has)
    by_journal = walk.is_change and not walk.with_own and client.journal is not None and client.journal.number > 0
    return replace(walk, state=core.look_for_change(client) if by_journal else core.look(client), step=LOOKS)


def looked(walk: Walk, client: Knows) -> Walk:
    """The pages of the last stop were looked at: the walk goes on where one of them shows a signpost. One that the own journal alone has leads nobody: it
    is carried first. (It is announced once more, since the journal may be that of a page that has split since: splits.py.)"""
    shown = signpost_of([known.page for known in client.seen], walk)
    if shown:
        return onward(walk, Stop(shown.grid, shown.move))
    if walk.is_change and client.journal and signpost_of([client.journal], walk):
        return replace(walk, state=core.announce(client, client.journal), step=CARRIES)
    return at_end(walk)


def signpost_of(pages: list[Page], walk: Walk) -> Signpost | None:
    """The signpost that leads on from the last stop, of several that of the greatest move."""
    found = [each for page in pages for each in page.signposts if each.leads(walk.slice_number, walk.last.move)]
    return max(found, key=lambda each: each.move) if found else None


def onward(walk: Walk, stop: Stop) -> Walk:
    walk = replace(walk, stops=(*walk.stops, stop), state=None)
    known = dict(walk.clients).get(stop.grid)
    return arrived(walk, known) if known else walk


def at_end(walk: Walk) -> Walk:
    """The end, where the line that counts stands at the last grid. Else its page is read again."""
    found = greatest(walk)
    if found is None or found.grid == walk.last.grid:
        return replace(walk, state=None, has_ended=True)
    client = walk.client(found.grid)
    state = core.Looks(client, frozenset(range(1, len(client.seen) + 1)), ((found.session, 0),))
    return replace(walk, state=state, step=CONFIRMS, confirms=found)


def confirmed(walk: Walk) -> Walk:
    """The end, where that page shows the line still; else the look begins anew."""
    if greatest(walk) == walk.confirms:
        return replace(walk, state=None, has_ended=True)
    first = walk.stops[0]
    return arrived(replace(walk, stops=(first,), confirms=None), walk.client(first.grid))


# What was seen along a way


def lines(walk: Walk) -> Iterator[Found]:
    for grid in walk.grids():
        for session, known in enumerate(walk.client(grid).seen, 1):
            if line := known.page.shown(walk.name):
                yield Found(core.version_of(line, session, grid), session, grid, line)


def version_in(found: Found) -> Version:
    return found.version


def greatest(walk: Walk) -> Found | None:
    """The line that counts."""
    found = list(lines(walk))
    return max(found, key=version_in) if found else None


def number_above(walk: Walk) -> int:
    """Above the numbers of all pages that were seen, at whichever grid, and of the own journals: so that of a new version."""
    return 1 + max(page.number for grid in walk.grids() for page in core.for_change(walk.client(grid)).values())


def keeps(client: Knows, slice_number: int, move: int | None) -> bool:
    """Whether a removal has to stay: the map doesn't say that the slice came here by this move, and stands at no other grid any more (None); or a
    page or the own journal leads on."""
    pages = [known.page for known in client.seen] + ([client.journal] if client.journal else [])
    return move is None or any(each.leads(slice_number, move) for page in pages for each in page.signposts)


# What a mover does, by changes of sessions. Any of them may be the last one that it does.


def signed(client: Knows, signpost: Signpost, keeps: core.Keeps = core.keeps_none) -> Page | None:
    """The journal with a signpost, of a client of the old grid that has looked; None where its page shows it."""
    if signpost in client.seen[client.session - 1].page.signposts:
        return None
    return core.changed(client, None, keeps=keeps, signpost=signpost)


def copied(walk: Walk, content: Content | None, keeps: core.Keeps = core.keeps_none) -> Page | None:
    """The journal with a copy, at the last grid, of the line that counts and stands at a grid before it; None where there is nothing to copy."""
    found, client = greatest(walk), walk.client(walk.last.grid)
    if found is None or found.grid == client.grid:
        return None
    version, number = found.version, number_above(walk)
    copy = Copied(version.session, version.grid, walk.last.move, number)
    return core.changed(client, Line(walk.name, version.number, content, found.line.words, copy), keeps=keeps)


def raised(walk: Walk, keeps: core.Keeps = core.keeps_none) -> Page | None:
    """The journal of the last grid with a number above those of the grids before it: of removals that were forgotten there nothing else is left."""
    client = walk.client(walk.last.grid)
    if highest(walk, client.grid) >= highest_before(walk):
        return None
    return core.changed(client, None, keeps=keeps, least=number_above(walk))


def highest(walk: Walk, grid: str) -> int:
    return max(known.page.number for known in walk.client(grid).seen)


def highest_before(walk: Walk) -> int:
    return max((highest(walk, grid) for grid in walk.grids() if grid != walk.last.grid), default=0)


def has_come(walk: Walk) -> bool:
    """Whether the map may say the last grid: each page of the one before shows the signpost, and no line nor number there is above those of the last one."""
    if len(walk.stops) < 2:
        return False
    old, new, found = walk.stops[-2].grid, walk.last, greatest(walk)
    pages = [known.page for known in walk.client(old).seen]
    is_signed = all(any(each.move == new.move and each.leads(walk.slice_number, 0) for each in page.signposts) for page in pages)
    return is_signed and (found is None or found.grid == new.grid) and highest(walk, new.grid) >= highest(walk, old)


def cleared(client: Knows, signpost: Signpost, names: Collection[str], keeps: core.Keeps = core.keeps_none) -> Page | None:
    """The journal of a client of the old grid without its lines of these names, which the map has at the new grid; None where it has none of them."""
    assert client.journal
    gone = {line.name for line in client.journal.lines if line.name in names}
    return core.changed(client, None, gone, keeps) if gone and signpost in client.journal.signposts else None


def is_clear(walk: Walk, grid: str) -> bool:
    """Whether no page of an old grid shows the name any more, of which each shows the signpost: so none ever will."""
    pages = [known.page for known in walk.client(grid).seen]
    return not any(page.shown(walk.name) for page in pages) and all(any(each.leads(walk.slice_number, 0) for each in page.signposts) for page in pages)
