"""The protocol of names without input and output: a state and an answer in, a state and the next request out.

Words are those of the law of names (`gq_names/specs/Names`). Each session has two files of a bucket, its *page* and its *journal*: the page
as it is to be. A client that enters reads its journal. For a change it *looks* at the pages of the others, chooses a version above the numbers of all
that it saw, that of its own journal among them, *announces* the change by writing the journal, and once that was answered, and not before, it *carries*
it: it writes the page as the journal has it. Who gets no answer enters anew. A get looks at all pages and takes the greatest line.

A line is *gone* where a page doesn't show it any more: another page shows a greater one, or it is a removal that is *forgotten*. The page says *after*
which numbers other pages have to be seen from then on: who looks at pages looks again until all that they ask for is so.

    state = look(client)
    while request := request_of(state):
        state = told(state, ..)           # what came of the request
"""

from collections.abc import Callable, Collection, Iterable, Iterator, Set
from dataclasses import dataclass, field, replace
from functools import cached_property

from .answers import Tag
from .contents import Content, InSlots, Part, parts_of


@dataclass(frozen=True, order=True)
class Version:
    """Versions of one name are ordered by number, those with one number by session. Over several grids the session's grid counts besides; and of
    a line and its copy the copy is greater, by its move."""

    number: int
    session: int
    grid: str = ""
    move: int = 0


@dataclass(frozen=True)
class Copied:
    """Of a copy: the session and grid that chose its version, the move by which it came, and the number of the page with which it came."""

    session: int
    grid: str
    move: int
    since: int


@dataclass(frozen=True)
class Line:
    """What a page says of one name: what it holds from this version on, nothing where it was removed. `words` are those of whoever put it: nothing
    here looks into them."""

    name: str
    version: int
    content: Content | None
    words: str = ""
    copied: Copied | None = None
    text: str = field(default="", init=False, compare=False, repr=False)  # as it stands in a page, once that is known

    @property
    def since(self) -> int:
        """The number of the page with which the line came: that of its version, but for a copy."""
        return self.copied.since if self.copied else self.version


BEYOND = 999_999_999_999  # the number of a signpost to more pages of the same grid, above those of all moves


@dataclass(frozen=True)
class Signpost:
    """Names of these slices went on to this grid, by a move of this number."""

    move: int
    first: int
    last: int
    grid: str

    def leads(self, slice_number: int, move: int) -> bool:
        """Whether it leads on who came to a name of this slice by that move. (One to more pages of the same grid leads to no other one: splits.py.)"""
        return self.first <= slice_number <= self.last and move < self.move < BEYOND


@dataclass(frozen=True)
class Page:
    """The lines of one session for the names of a bucket, at most one of each; *after* which number the page of each session has to be seen beside
    this one, session 1 first; and its number, that of the version of its latest change: no line has a greater one."""

    lines: tuple[Line, ...] = ()
    after: tuple[int, ...] = ()
    number: int = 0
    signposts: tuple[Signpost, ...] = ()

    @cached_property
    def by_name(self) -> dict[str, Line]:
        """Its lines by their names. (A page is asked for many of them, and never changes.)"""
        return {line.name: line for line in reversed(self.lines)}

    def shown(self, name: str) -> Line | None:
        return self.by_name.get(name)

    def without(self, other: "Page") -> "Page":
        """A page of those lines that the other one has not."""
        kept = other.by_name
        return Page(tuple(line for line in self.lines if kept.get(line.name) is not line and kept.get(line.name) != line))

    def after_of(self, session: int) -> int:
        return self.after[session - 1] if session <= len(self.after) else 0

    def is_of_a_fleet(self) -> bool:
        """Whether names of it went to another grid, or came from one."""
        return bool(self.signposts) or any(line.copied for line in self.lines)

    @cached_property
    def removed(self) -> tuple[Line, ...]:
        return tuple(line for line in self.lines if line.content is None)

    def removals(self) -> tuple[Line, ...]:
        return self.removed

    def asks(self) -> Iterator[tuple[int, int]]:
        """Sessions, and the number that the page of each has at least, where it is seen beside this one."""
        return ((session, number) for session, number in enumerate(self.after, 1) if number)

    def in_chunks(self) -> set[Part]:
        """The contents in chunks, and the lists of such, that lines name."""
        return {part for part in parts_of(line.content for line in self.lines) if not isinstance(part, InSlots)}


@dataclass(frozen=True)
class Known:
    """A page as it was seen, with the tag of its file."""

    tag: Tag = Tag(0, 0)
    page: Page = Page()


# What a client knows and does. `seen` has what it saw last of each session's page.


@dataclass(frozen=True)
class Knows:
    """It has nothing to do. It knows its journal, or has not entered (None)."""

    session: int
    seen: tuple[Known, ...]
    journal: Page | None = None
    grid: str = ""  # of several


@dataclass(frozen=True)
class Enters:
    """It reads its journal."""

    client: Knows


@dataclass(frozen=True)
class Looks:
    """It looks at the pages of these sessions, one after another: first at the tags of all (`left` is None), then at each that it doesn't know
    as it is, or that another one asks for, each with the number that it has at least."""

    client: Knows
    whose: frozenset[int]
    left: tuple[tuple[int, int], ...] | None = None


@dataclass(frozen=True)
class Announces:
    """It writes this journal."""

    client: Knows
    journal: Page


@dataclass(frozen=True)
class Carries:
    """That was answered: it writes the page."""

    client: Knows
    journal: Page


State = Knows | Enters | Looks | Announces | Carries


# What it asks for, and what it is told: a page where it reads one, with the tag; the tags of all pages, none of one that has to be read; the tag of what it wrote.


@dataclass(frozen=True)
class ReadJournal:
    pass


@dataclass(frozen=True)
class ListPages:
    pass


@dataclass(frozen=True)
class ReadPage:
    session: int


@dataclass(frozen=True)
class WriteJournal:
    page: Page


@dataclass(frozen=True)
class WritePage:
    page: Page


Request = ReadJournal | ListPages | ReadPage | WriteJournal | WritePage
Answer = Known | tuple[Tag | None, ...] | Tag


class Older(Exception):
    """The page of this session is older than another one that was written behind it: so they are not what such clients write."""


def new_client(session: int, sessions: int, grid: str = "") -> Knows:
    return Knows(session, (Known(),) * sessions, None, grid)


def enter(client: Knows) -> Enters:
    return Enters(client)


def look(client: Knows, whose: Collection[int] | None = None) -> Looks:
    """A look at the pages of these sessions, or of all. Of its own session's page a client that knows its journal need not look at more than that."""
    return Looks(client, frozenset(range(1, len(client.seen) + 1) if whose is None else whose))


def look_for_change(client: Knows) -> Looks:
    return look(client, set(range(1, len(client.seen) + 1)) - {client.session})


def announce(client: Knows, journal: Page) -> Announces:
    return Announces(client, journal)


def request_of(state: State) -> Request | None:
    """What the client asks for next; None where it has nothing to do."""
    match state:
        case Enters():
            return ReadJournal()
        case Looks(_, _, None):
            return ListPages()
        case Looks(_, _, ((session, _), *_)):
            return ReadPage(session)
        case Announces(_, journal):
            return WriteJournal(journal)
        case Carries(_, journal):
            return WritePage(journal)
    return None


def told(state: State, answer: Answer) -> State:
    """The state once that was answered."""
    match state, answer:
        case Enters(client), Known(_, journal):
            return replace(client, journal=journal)
        case Looks(client, whose, None), tuple(tags):
            return looking(client, whose, tuple((each, 0) for each in sorted(whose) if tags[each - 1] != client.seen[each - 1].tag))
        case Looks(client, whose, ((session, least), *left)), Known() as known:
            if known.page.number < least:
                raise Older(session)
            return looking(with_seen(client, session, known), whose, tuple(left))
        case Announces(client, journal), Tag():
            return Carries(replace(client, journal=journal), journal)
        case Carries(client, journal), Tag() as tag:
            return with_seen(client, client.session, Known(tag, journal))
    raise TypeError(state, answer)


def unanswered(client: Knows) -> Knows:
    """The client behind a write that got no answer: what it would do it has forgotten, and it has to enter anew."""
    return replace(client, journal=None)


def looking(client: Knows, whose: frozenset[int], left: tuple[tuple[int, int], ...]) -> State:
    """What is to be looked at still, and where that is nothing, what pages ask for; the client, where they ask for nothing."""
    left = left or asked(client, whose)
    return Looks(client, whose, left) if left else client


def with_seen(client: Knows, session: int, known: Known) -> Knows:
    return replace(client, seen=client.seen[: session - 1] + (known,) + client.seen[session:])


# What pages say together


def view(client: Knows, whose: Collection[int]) -> dict[int, Page]:
    """What is seen of the pages of all sessions. Where a client doesn't look at its own page, its journal counts as if it were in force."""
    pages = {each: known.page for each, known in enumerate(client.seen, 1)}
    if client.session not in whose and client.journal is not None:
        pages[client.session] = client.journal
    return pages


def asked(client: Knows, whose: Collection[int]) -> tuple[tuple[int, int], ...]:
    """The pages that others ask to be seen with a later number, each with that number: none where the view is *closed*."""
    pages = view(client, whose)
    wanted: dict[int, int] = {}
    for page in pages.values():
        for session, number in page.asks():
            if pages[session].number < number:
                if session == client.session and session not in whose:
                    raise Older(session)  # (its own journal)
                wanted[session] = max(number, wanted.get(session, 0))
    return tuple(sorted(wanted.items()))


def for_change(client: Knows) -> dict[int, Page]:
    """What counts for a change: what was seen of the other pages, and the own journal."""
    return view(client, ())


def version_of(line: Line, session: int, grid: str = "") -> Version:
    """The version of a line that the page of this session has."""
    copied = line.copied
    return Version(line.version, copied.session, copied.grid, copied.move) if copied else Version(line.version, session, grid)


def lines_of(pages: dict[int, Page], name: str, grid: str = "") -> list[tuple[Version, Line]]:
    found = ((session, page.shown(name)) for session, page in pages.items())
    return [(version_of(line, session, grid), line) for session, line in found if line]


def greatest_shown(lines: Iterable[tuple[Version, Line]]) -> tuple[Version, Line] | None:
    found = list(lines)
    return max(found, key=lambda pair: pair[0]) if found else None


def new_version(client: Knows, least: int = 0) -> Version:
    """A version for a change: its number is `least` or more, and above those of all pages that were seen, and of the own journal. (Above the lines
    alone is too little: of a removal that was forgotten no line is left.)"""
    return Version(max(least, 1 + max(page.number for page in for_change(client).values())), client.session)


@dataclass(frozen=True)
class Going:
    """Names of which the own line goes, and sessions whose pages have to be seen from then on with the numbers that they have."""

    names: set[str] = field(default_factory=set)
    asks: set[int] = field(default_factory=set)


Keeps = Callable[[str], bool]


def keeps_none(_: str) -> bool:
    return False


def going(client: Knows, but: str | None = None, keeps: Keeps = keeps_none) -> Going:
    """What goes with a change of the name `but`, or of none. Lines of which another page shows a greater one; and removals that are *forgotten*,
    but those of names that it `keeps`."""
    others = for_change(client)
    own = others.pop(client.session)
    shown = owned_greatest(others, own.by_name.keys(), client.grid)
    found = Going()
    for line in own.lines:
        if line.name == but:
            continue
        beaten_by = shown.get(line.name)
        if beaten_by and beaten_by[0] > version_of(line, client.session, client.grid):
            found.names.add(line.name)
            found.asks.add(beaten_by[1])
        elif not beaten_by and line.content is None and not keeps(line.name) and is_known_to(line, client.session, others):
            found.names.add(line.name)
            found.asks.update(others)
    return found


def owned_greatest(pages: dict[int, Page], names: Set[str], grid: str = "") -> dict[str, tuple[Version, int]]:
    """Of each of these names the greatest version that is shown, and the session whose page shows it."""
    found: dict[str, tuple[Version, int]] = {}
    for session, page in pages.items():
        for name in page.by_name.keys() & names:
            here = (version_of(page.by_name[name], session, grid), session)
            found[name] = max(here, found.get(name, here))
    return found


def is_known_to(line: Line, session: int, others: dict[int, Page]) -> bool:
    """Whether each other page says that it was made beside a page of the session that had the line, or a later one."""
    return all(page.after_of(session) >= line.since for page in others.values())


def unknown(client: Knows) -> set[int]:
    """Sessions whose pages show removals that the own journal doesn't say it was made beside: it has to, before they can be forgotten."""
    others = for_change(client)
    own = others.pop(client.session)
    return {each for each, page in others.items() if any(own.after_of(each) < line.since for line in page.removals())}


def changed(
    client: Knows,
    line: Line | None,
    besides: Collection[str] = (),
    keeps: Keeps = keeps_none,
    least: int = 0,
    signpost: Signpost | None = None,
) -> Page:
    """The journal of a client that has looked, with a line on top of a new version, or none; and without lines that go. `besides` may go the lines of
    names that no other session ever wrote or will, or of which another grid shows greater ones. A change of no name has `least` as its number or more."""
    assert client.journal is not None
    journal, pages, name = client.journal, for_change(client), line.name if line else None
    found = going(client, name, keeps)
    gone = (found.names | set(besides)) - {name}
    asks = found.asks | unknown(client)
    after = [max(journal.after_of(each), pages[each].number if each in asks else 0) for each in sorted(pages)]
    while after and not after[-1]:
        after.pop()
    kept = tuple(each for each in journal.lines if each.name not in gone and each.name != name)
    number = line.since if line else new_version(client, least).number
    signposts = journal.signposts if signpost is None or signpost in journal.signposts else (*journal.signposts, signpost)
    return Page((*kept, line) if line else kept, tuple(after), number, signposts)


def with_another(journal: Page, line: Line) -> Page:
    """A journal that a line of this name is on top of, with another line of it: what else goes with the change is the same."""
    return Page((*journal.lines[:-1], line), journal.after, line.since, journal.signposts)
