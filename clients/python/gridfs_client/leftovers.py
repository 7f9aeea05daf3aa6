"""What clients that were killed leave: chunks of a session that no name needs.

A note stands beside a session's lock from the first chunk that is sent, or is not needed any more, until nodes have forgotten what nothing names. So whoever has the session next finds
what a client left that was killed, and has it forgotten. Nothing rests on the note: where it can't be kept, or another machine has the session, `gridfs-client sweep` finds the same.
"""

import time
from collections.abc import Callable
from contextlib import suppress
from dataclasses import replace
from pathlib import Path

from .errors import ClientError
from .sessions import Session

TRIED = "tried\n"  # in the note, once nodes did not answer whoever looked
AGAIN = 600.0  # seconds until it is looked again then
SOON = 2.0  # seconds for an answer to who looks


class Leftovers:
    """The note of a session that was just taken."""

    def __init__(self, path: Path, session: Session):
        self.path, self.session = path, session
        self.is_noted = False  # by this client
        self.is_left = self.is_due()  # by an earlier one

    def is_due(self) -> bool:
        try:
            told = self.path.stat()
        except OSError:
            return False
        return not told.st_size or not 0 <= time.time() - told.st_mtime < AGAIN

    def begins(self) -> None:
        """From now on something may be left."""
        if not self.is_noted:
            self.is_noted = True
            with suppress(OSError):
                self.path.touch(0o644)

    def ends(self) -> None:
        """Nothing of this client is left."""
        if self.is_noted and not self.is_left:
            self.is_noted = False
            with suppress(OSError):
                self.path.unlink(missing_ok=True)

    def look(self, sweep: Callable[[], bool]) -> None:
        """Has nodes forget what an earlier client left, by a call that tells whether all answered. Where that can't be, it is tried later."""
        pace, self.is_left, is_done = self.session.pace, False, False
        self.session.pace = replace(pace, timeout=min(pace.timeout, SOON))
        try:
            is_done = sweep()
        except ClientError:
            pass
        finally:
            self.session.pace = pace
            if not is_done:
                self.is_noted = False
                with suppress(OSError):
                    self.path.write_text(TRIED)
