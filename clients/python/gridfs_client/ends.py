"""How far a session came, and what was written by it: a note beside its lock, where a gateway lends its sessions. Each command that has the session keeps it, and says there of each
operation that it begins before it asks for that. So whoever has the session next knows which files are other ones, also where the command was killed.

    3 1204 settled=127 0.9 17.9        its home is node 3, the last operation that was begun has this number; these files (volume, file) are other ones, or may be

`settled` is there where nothing of earlier clients was under way into any page of the session when it was lent, of so many: so only into these files something may come.

The note is believed only where the session's home tells that number still, or the next one: whoever has a session without a note, as an older client, begins by an
operation that reads. So nobody has written since. No note outlives who lent the session, so none is synced.
"""

import os
import re
from contextlib import suppress
from dataclasses import dataclass, replace
from pathlib import Path

from .sessions import Session

FORM = re.compile(r"([0-9]{1,9}) ([0-9]{1,10})(?: settled=([0-9]{1,9}))?((?: [0-9]{1,9}\.[0-9]{1,9})*)\n", re.ASCII)
MOST = 4_096  # files of which a note tells
LETTERS = 10  # of a number that is kept, so that it is written over in its place


@dataclass(frozen=True)
class End:
    home: int
    last: int
    written: frozenset[tuple[int, int]] = frozenset()
    settled: int = 0  # pages of the session, all of which were

    def is_of(self, session: Session) -> bool:
        """Whether nobody had a session since, which has just begun: its beginning takes one number. (A line that the home never had took none.)"""
        return session.last is not None and self.is_last(session.home, session.last)

    def is_last(self, home: int, last: int) -> bool:
        """Whether a home that tells this last number had no write behind what is noted."""
        return home == self.home and last in (self.last, self.last + 1)

    def covers(self, home: int, last: int) -> bool:
        """The same of a note that was read once the home had told this, while somebody has the session."""
        return home == self.home and last <= self.last + 1

    def text(self) -> str:
        return " ".join([str(self.home), f"{self.last:0{LETTERS}}", *[f"settled={self.settled}"] * bool(self.settled), *(f"{volume}.{file}" for volume, file in sorted(self.written))]) + "\n"


def parse_end(text: str) -> End | None:
    found = FORM.fullmatch(text)
    if not found:
        return None
    places = (word.split(".") for word in found[4].split())
    return End(int(found[1]), int(found[2]), frozenset((int(volume), int(file)) for volume, file in places), int(found[3] or 0))


def read_end(path: Path) -> End | None:
    with suppress(OSError, UnicodeDecodeError):
        return parse_end(path.read_text("ascii"))
    return None


def write_end(path: Path, end: End | None) -> bool:
    """By whoever has the session's lock. Whether the note is there, or taken away."""
    with suppress(OSError):
        path.unlink(missing_ok=True)
        if end:
            with open(os.open(path, os.O_WRONLY | os.O_CREAT | os.O_EXCL, 0o644), "w", encoding="ascii") as out:
                out.write(end.text())
        return True
    return False


class Note:
    """A note that goes on with a session which has just begun, where nobody had that since; else there is none from now on. An OSError where the note stays and can't be kept."""

    def __init__(self, path: Path, session: Session):
        self.path, self.session, self.out = path, session, -1
        end = read_end(path)
        if end is None or session.last is None or not end.is_of(session):
            write_end(path, None)
            return
        self.end = replace(end, last=session.last)
        if write_end(path, self.end):
            try:
                self.out = os.open(path, os.O_RDWR)
            except OSError:
                if not write_end(path, None):
                    raise
            else:
                self.size = len(self.end.text())
                session.note = self

    def begins(self, number: int, written: tuple[int, int] | None) -> None:
        """An operation of this number is asked for next, which writes this file, or none. An OSError where neither that can be noted, nor that there is no note."""
        end = self.end
        is_new = written is not None and written not in end.written
        # (a number that is not the next one: the home was started again, or somebody else had the session)
        if self.session.home != end.home or number not in (end.last, end.last + 1) or is_new and len(end.written) >= MOST:
            self.drop()
            return
        self.end = replace(end, last=number, written=end.written | {written} if written and is_new else end.written)
        try:
            if written and is_new:
                self.add(f" {written[0]}.{written[1]}\n".encode("ascii"))
            os.pwrite(self.out, f"{number:0{LETTERS}}".encode("ascii"), len(f"{end.home} "))
        except OSError:
            self.drop()

    def unsettled(self, pages: int) -> frozenset[tuple[int, int]] | None:
        """The files into which something of an earlier client of the session may come, which has so many pages; None where these may be any."""
        return self.end.written if self.end.settled == pages else None

    def add(self, words: bytes) -> None:
        """In the place of the line's end. (A part of it is no note.)"""
        if os.pwrite(self.out, words, self.size - 1) < len(words):
            raise OSError
        self.size += len(words) - 1

    def drop(self) -> None:
        os.ftruncate(self.out, 0)
        self.close()
        write_end(self.path, None)

    def close(self) -> None:
        """It stays as it is."""
        self.session.note = None
        if self.out >= 0:
            os.close(self.out)
            self.out = -1
