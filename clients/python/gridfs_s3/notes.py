"""How far each session of a gateway came: a record for each, in a file beside the index, which stays whatever ends the process.

Before an operation's first line the record of its session is written into memory that is the file's: so it waits for no disk, and a process that is killed leaves it as it was then.
Where a machine ends the file may be older. It is believed only where the session's home tells the same last number, or the one before: then nobody had the session since, and what may be
under way is that operation alone. Where it writes a page, or a journal, that page is settled anew: of a change that was announced, and not carried, the journal was the last one written.

It is noted beforehand, since a note at the end would say nothing of a process that was killed.
"""

import mmap
import os
import struct
import zlib
from dataclasses import dataclass

from gridfs_client.answers import MOST_SESSIONS

RECORD = struct.Struct("<qqqqq")  # the home, the operation's number, volume and file where it writes one (or -1), and whether all pages are settled
SUM = struct.Struct("<I")
EACH = 64  # bytes of a record, with its sum behind it
NOTHING = -1


@dataclass(frozen=True)
class Begun:
    """The last operation that a session began: the file that it writes, if it does; and whether all pages were settled then."""

    home: int
    number: int
    place: tuple[int, int] | None
    is_settled: bool

    def is_last(self, home: int, last: int) -> bool:
        """Whether nobody had a session since, which has just begun: its beginning takes one number. (A line that the home never had took none.)"""
        return home == self.home and last in (self.number, self.number + 1)


class Notes:
    """The records of all sessions. An OSError where the file can't be had."""

    def __init__(self, path: str):
        handle = os.open(path, os.O_RDWR | os.O_CREAT, 0o600)
        try:
            os.ftruncate(handle, EACH * (MOST_SESSIONS + 1))
            self.memory = mmap.mmap(handle, EACH * (MOST_SESSIONS + 1))
        finally:
            os.close(handle)

    def read(self, session: int) -> Begun | None:
        """None where there is no record, or a part of one."""
        record = self.memory[EACH * session : EACH * session + RECORD.size]
        (told,) = SUM.unpack_from(self.memory, EACH * session + RECORD.size)
        home, number, volume, file, is_settled = RECORD.unpack(record)
        if not number or told != zlib.crc32(record):
            return None
        return Begun(home, number, None if volume == NOTHING else (volume, file), bool(is_settled))

    def write(self, session: int, begun: Begun) -> None:
        volume, file = begun.place or (NOTHING, NOTHING)
        record = RECORD.pack(begun.home, begun.number, volume, file, begun.is_settled)
        self.memory[EACH * session : EACH * session + RECORD.size + SUM.size] = record + SUM.pack(zlib.crc32(record))
