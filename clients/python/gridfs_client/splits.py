"""Pages that split, without input and output: what counts of a session, of a bucket that took the place of a part of another one (docs/NAMES.md).

A later plan may give a tenant a *level* of more pages. A page of the level before *splits* into several of it. A session that is to change a name there
first puts a *signpost* into its own old page, journal first: from then on no line of that changes. Then it writes its own page of the new bucket, which
begins with all lines of the old one that are names of it. So of each session one page counts: that of the new bucket once it was written, and until
then the part of the old one that has names of the new bucket. That is read as one register, and written as one; so all that is said of pages
and journals (core.py) is said of these:

- A look reads it. Where the old page shows no signpost, the new one was never written before that moment. Where it does, its lines are fixed: if the new
  page is not written at a later moment, the old one counts then, as it was seen; and if it is written, it counts.
- It never goes back. The new page is written only once the old one was carried with the signpost, so nothing that was asked for earlier comes into the
  old page or its journal any more. The first journal of the new bucket is built on that old one, and has a greater number, or the same where that page
  is split again at once. To sign and to clear change nothing that counts of any bucket.
- Journals form one chain. Whoever enters reads the old journal. If that has the signpost it never gets another line, and the new journal decides. A
  pending first write of it was built on the same old journal, and is over once another one was answered.
- What pages ask to be seen *after* holds: these are numbers of pages that counted, and a new page has that of its session's old page, or a greater one.

    work = answering(request, split)      # what the client of the new bucket asks for (core.py)
    which, asked = next(work)             # at the old bucket or the new one; then work.send(answer), until it returns the answer and the split

A signpost is one line for all parts of a page, and changes no number: lines, number and AFTERs stay, so of each part the same counts as before.
It is put before a look, when nothing of the session is under way. So each run is, step by step, one of the protocol without levels, whose law
holds (`gq_names::laws::splits_are_one`). A level's rule holds before that of a move between grids: new pages take the signposts of a fleet along
with the lines. Unlike a move nothing is copied, no session waits for another one, and removals are forgotten as ever, since the session that
wrote the old page writes the new one too.
"""

from collections.abc import Callable, Generator
from dataclasses import dataclass, replace

from . import core
from .answers import Tag
from .core import BEYOND, Known, ListPages, Page, ReadJournal, ReadPage, Signpost, WriteJournal, WritePage

FIRST, LAST = 0, 65_535  # it is for all slices
LATER = 1 << 48  # by so much the numbers of tags of each level are greater here: a new page is later than the old one
OLD, NEW = "old", "new"


def signpost_to(level: int) -> Signpost:
    return Signpost(BEYOND, FIRST, LAST, f"level{level}")


def is_split(page: Page, level: int) -> bool:
    """Whether a page shows that its names went on to this level."""
    return signpost_to(level) in page.signposts


def splits_only(page: Page) -> bool:
    """Whether it has nothing of several grids, but for signposts to levels."""
    return not any(line.copied for line in page.lines) and all(each.move == BEYOND for each in page.signposts)


def part_of(page: Page, is_here: Callable[[str], bool]) -> Page:
    """What a page says of some of its names. Signposts to other grids go along."""
    signposts = tuple(each for each in page.signposts if each.move != BEYOND)
    return Page(tuple(line for line in page.lines if is_here(line.name)), page.after, page.number, signposts)


def signed(journal: Page, level: int) -> Page:
    """The journal of an old page with the signpost. No line goes or comes, so it has the same number."""
    return journal if is_split(journal, level) else replace(journal, signposts=(*journal.signposts, signpost_to(level)))


def cleared(journal: Page) -> Page:
    """The journal of an old page that has the signpost, once each of its lines stands in a page of the session that was carried. It has the same number, since of
    no bucket anything else counts than before."""
    return replace(journal, lines=())


def is_written(page: Page) -> bool:
    return page != Page()


@dataclass(frozen=True)
class Split:
    """What a client of a session knows of the bucket of before: the pages of all sessions as they were seen last, and the own journal once it was read."""

    session: int
    level: int  # of the new bucket
    is_here: Callable[[str], bool]  # whether a name is of it
    old: tuple[Known, ...]
    journal: Page | None = None
    is_fresh: bool = False  # the old pages were looked at within the operation
    is_new: bool = False  # the own new journal was written, though perhaps not the page: so the old page had the signpost before

    def has_signpost(self, session: int) -> bool:
        return is_split(self.old[session - 1].page, self.level)

    def is_closed(self) -> bool:
        """Whether each old page showed the signpost. What was seen of it counts for good, as long as the new one is not written: so nobody has to look at it again."""
        return all(self.has_signpost(session) for session in range(1, len(self.old) + 1))

    def old_part(self, session: int) -> Known:
        known = self.old[session - 1]
        return Known(known.tag, part_of(known.page, self.is_here))

    def saw(self, session: int, known: Known) -> "Split":
        return replace(self, old=self.old[: session - 1] + (known,) + self.old[session:])

    def later(self, tag: Tag) -> Tag:
        return Tag(tag.number + self.level * LATER, tag.session)


Asked = tuple[str, core.Request]
Work = Generator[Asked, core.Answer, tuple[core.Answer, Split]]


def answering(request: core.Request, split: Split) -> Work:
    """What has to be asked at the old bucket, and at the new one, so that a request is answered."""
    match request:
        case ReadJournal():
            return reading_journal(split)
        case ListPages():
            return listing(split)
        case ReadPage(session):
            return reading(session, split)
        case WriteJournal(journal):
            return announcing(journal, split)
        case WritePage(page):
            return carrying(page, split)


def reading_journal(split: Split) -> Work:
    """The old journal, as long as the new one was not written. Who enters is to change something, so the own old page gets the signpost first, where it isn't there: from
    then on neither the old journal nor that page gets another line, whatever an earlier client asked for."""
    old = yield OLD, ReadJournal()
    assert isinstance(old, Known)
    split = replace(split, journal=old.page)
    if not is_split(old.page, split.level):
        split = yield from signing(split)  # (so nobody wrote the new journal)
    else:
        new = yield NEW, ReadJournal()
        assert isinstance(new, Known)
        if not is_written(new.page) and not split.has_signpost(split.session):
            known = yield OLD, ReadPage(split.session)  # (a change looks at the other pages alone)
            assert isinstance(known, Known)
            split = split.saw(split.session, known)
            if not split.has_signpost(split.session):
                split = yield from signing(split)
            new = yield NEW, ReadJournal()  # what an earlier client wrote may have come meanwhile
            assert isinstance(new, Known)
        if is_written(new.page):
            return Known(split.later(new.tag), new.page), replace(split, is_new=True)
    return Known(old.tag, part_of(old.page, split.is_here)), split


def signing(split: Split) -> Generator[Asked, core.Answer, Split]:
    """Puts the signpost into the own old journal, and into the own old page once that was answered."""
    assert split.journal is not None
    first = signed(split.journal, split.level)
    yield OLD, WriteJournal(first)
    tag = yield OLD, WritePage(first)
    assert isinstance(tag, Tag)
    return replace(split.saw(split.session, Known(tag, first)), journal=first)


def listing(split: Split) -> Work:
    """Tags of what counts. The old pages come first: where one shows no signpost, nobody had written the session's new one before."""
    if not split.is_fresh and not split.is_closed():
        tags = yield OLD, ListPages()
        assert isinstance(tags, tuple)
        for session, tag in enumerate(tags, 1):
            if not split.has_signpost(session) and tag != split.old[session - 1].tag:
                known = yield OLD, ReadPage(session)
                assert isinstance(known, Known)
                split = split.saw(session, known)
    elif split.is_fresh and split.session and not split.has_signpost(split.session):
        known = yield OLD, ReadPage(split.session)  # (a look for a change is at the other pages alone)
        assert isinstance(known, Known)
        split = split.saw(split.session, known)
    split = replace(split, is_fresh=False)
    found: list[Tag | None] = [known.tag for known in split.old]
    if any(map(split.has_signpost, range(1, len(found) + 1))):
        tags = yield NEW, ListPages()
        assert isinstance(tags, tuple)
        for session, tag in enumerate(tags, 1):
            if split.has_signpost(session) and tag != Tag(0, 0):
                found[session - 1] = tag and split.later(tag)
    return tuple(found), split


def reading(session: int, split: Split) -> Work:
    if not split.has_signpost(session):
        known = yield OLD, ReadPage(session)
        assert isinstance(known, Known)
        split = split.saw(session, known)
    if split.has_signpost(session):
        new = yield NEW, ReadPage(session)
        assert isinstance(new, Known)
        if is_written(new.page):
            return Known(split.later(new.tag), new.page), split
    return split.old_part(session), split


def announcing(journal: Page, split: Split) -> Work:
    """The signpost is in the own old page, which was carried: the client saw to that when it entered. Older where that page is as it was before."""
    if not split.is_new and not split.has_signpost(split.session):
        raise core.Older(split.session)
    tag = yield NEW, WriteJournal(journal)
    assert isinstance(tag, Tag)
    return split.later(tag), replace(split, is_new=True)


def carrying(page: Page, split: Split) -> Work:
    tag = yield NEW, WritePage(page)
    assert isinstance(tag, Tag)
    return split.later(tag), split
