"""Contents in slots, as clients from before chunks put them (docs/SLOTS.md): over any sessions, those of a grid too."""

import itertools

from gridfs_client import NamedFiles
from gridfs_client.contents import InSlots, Strand, digest_of, joined
from gridfs_client.pieces import head


def table_place(layout, session):
    """Volume and file of a session's slot table."""
    return layout.levels[0].file(session, 0)


def bits(slots):
    return f"{sum(1 << slot for slot in slots):x}"


class OldClient:
    """A client of a session that puts contents into its slots, the first ones that it has not taken; those of `least` bytes or more by turns into slots that others lend
    it too."""

    def __init__(self, session, layout, lenders=(), least=0):
        self.me, self.layout, self.sessions = session.number, layout, {each.number: each for each in (session, *lenders)}
        self.files, self.least = NamedFiles(session, layout), least
        self.free_all()

    def free_all(self):
        """No line names a slot: all can be taken anew."""
        self.free = {number: iter(range(len(self.layout.slots(number)))) for number in self.sessions}
        self.own, self.lent = [], {}

    def write_tables(self):
        """That of this session says what it took and for which puts it borrows; those of the others what they lend."""
        borrows = sorted({put for lent in self.lent.values() for put in lent})
        own = "".join(f"borrows {put}\n" for put in borrows)
        self.sessions[self.me].write(*table_place(self.layout, self.me), f"slots 2\nown {bits(self.own)}\n{own}".encode())
        for number, lent in self.lent.items():
            lines = "".join(f"lent {self.me} {put} {bits(slots)}\n" for put, slots in lent.items())
            self.sessions[number].write(*table_place(self.layout, number), f"slots 2\nown 0\n{lines}".encode())

    def part(self, content):
        """The pieces of a content, in slots that the tables name."""
        put, left, chosen = self.sessions[self.me].read(*table_place(self.layout, self.me)).tag.number, content, []
        numbers = self.sessions if len(content) >= self.least else [self.me]
        for place, number in enumerate(itertools.cycle(numbers)):
            slot = next(self.free[number])
            chosen.append((number, slot))
            if number == self.me:
                self.own.append(slot)
            else:
                self.lent.setdefault(number, {}).setdefault(put, []).append(slot)
            at = self.layout.slots(number)[slot]
            begin = head(self.me, put, place)
            piece, left = left[: at.room - len(begin)], left[at.room - len(begin) :]
            self.sessions[number].write(at.volume, at.file, begin + piece)
            if not left:
                break
        self.write_tables()
        strands = tuple(Strand(number, tuple(range(slot, slot + 1) for each, slot in chosen if each == number)) for number in dict(chosen))
        return InSlots(len(content), digest_of(content), put, strands)

    def put(self, name, *contents, words="", besides=()):
        """Gives a name these contents, one behind the other; what it holds then."""
        bucket = self.files.bucket(name)
        bucket.look()
        return self.files.commit(bucket, name, joined([self.part(content) for content in contents]), words, frozenset(besides))

    def put_anew(self, name, content):
        """Takes the name away, and then gives it a content in the slots that it had."""
        self.files.remove(name)
        self.free_all()
        return self.put(name, content)


def tables(read, layout):
    """What all slot tables say."""
    return [read(*table_place(layout, session)).content for session in range(1, layout.sessions + 1)]
