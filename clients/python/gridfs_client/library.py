"""The names of a tenant for a program: `gridfs_client.open`.

    import gridfs_client

    with gridfs_client.open("store/carol.ini") as files:
        files.put("greeting", "hello")
        print(files.get("greeting"), [it.name for it in files.names()])
"""

import os
import tempfile
import threading
from collections.abc import Callable
from pathlib import Path
from types import TracebackType
from typing import IO, TypeVar, cast

from .asking import ask_others, ask_plan
from .layout import layout_of
from .local import to_target
from .names import Entry, Listed, NamedFiles, time_put
from .opening import OpenSessions
from .settings import Settings

Result = TypeVar("Result")
IN_MEMORY = 1 << 20  # bytes of what is read that are kept in memory
Content = bytes | str | os.PathLike[str] | IO[bytes]


class OpenFiles:
    """The names of a tenant, by a session that no other program of this machine uses until this one is closed. Threads may share it: their calls wait for one another.

    Each fault is a `ClientError`, whose `status` is that of the command `gridfs-client`: `NoSuchName`, `NoRoom`, `Unanswered` and others.
    """

    def __init__(self, settings: Settings):
        self._guard, self._carrier = threading.RLock(), settings.carrier()
        try:
            begun = self._carrier.now()
            told = ask_plan(self._carrier, settings.pace())
            ask_others(self._carrier, begun, settings.lately_silent())
            layout = layout_of(told)
            self._sessions = OpenSessions(settings, told, self._carrier)
            session = self._sessions.first()
        except BaseException:
            self._carrier.close()
            raise
        session.pace = settings.pace()
        self._files = NamedFiles(session, layout, helpers=self._sessions.helpers, others=self._sessions.others)
        self._files.leftovers = self._sessions.leftovers(session)

    def put(self, name: str, content: Content) -> Entry:
        """Gives the name a content: bytes, a text (as UTF-8), the file at a path (`pathlib.Path`), or an open binary file from where it stands. What is told of it then."""
        if isinstance(content, os.PathLike):
            with Path(content).open("rb") as file:
                return self.put(name, file)
        given = content.encode() if isinstance(content, str) else content
        return self._call(lambda files: files.put(name, given))

    def get(self, name: str) -> bytes:
        """The content of a name."""
        return self._call(lambda files: files.get(name)[0])

    def get_to(self, name: str, target: os.PathLike[str] | IO[bytes]) -> Entry:
        """Writes the content of a name to the file at a path, which has its old content or the whole new one, or to an open binary file."""
        if isinstance(target, os.PathLike):
            return to_target(os.fspath(target), lambda file: self.get_to(name, file), time_put)
        file = target
        return self._call(lambda files: files.get_to(name, file))

    def open_reader(self, name: str, start: int = 0, length: int | None = None) -> IO[bytes]:
        """A binary file of so many bytes of a content from a start on, or of all from there; fewer where it is shorter. They are fetched at once, into a temporary file where they are many."""
        if start < 0 or length is not None and length < 0:
            raise ValueError("a range begins at 0 or later, and has 0 bytes or more")
        room = cast(IO[bytes], tempfile.SpooledTemporaryFile(IN_MEMORY))
        try:
            self._call(lambda files: files.get_range_to(name, room, start, None if length is None else start + length))
        except BaseException:
            room.close()
            raise
        room.seek(0)
        return room

    def names(self, prefix: str = "") -> list[Listed]:
        """The names that begin so, each with `name`, `size` and `time` (seconds since the epoch, by the clock of whoever put it)."""
        return self._call(lambda files: files.names(prefix))

    def stat(self, name: str) -> Entry:
        """What is told of a name, without its content."""
        return self._call(lambda files: files.stat(name))

    def remove(self, name: str) -> None:
        """Takes a name away."""
        self._call(lambda files: files.remove(name))

    def close(self) -> None:
        """Gives the session back, and has nodes forget contents that were put over or removed."""
        with self._guard:
            try:
                self._files.close()
            finally:
                self._sessions.close()
                self._carrier.close()

    def _call(self, work: Callable[[NamedFiles], Result]) -> Result:
        with self._guard:
            try:
                return work(self._files)
            except BaseException:
                self._files.let_go()
                raise

    def __enter__(self) -> "OpenFiles":
        return self

    def __exit__(self, kind: type[BaseException] | None, fault: BaseException | None, trace: TracebackType | None) -> None:
        self.close()


def open(config: str | os.PathLike[str] | None = None, **settings: str) -> OpenFiles:
    """Opens the names of a tenant by a file of settings, as `./grid` writes FOLDER/NAME.ini; without one by GRIDFS_CONFIG, as the command does. Others stand before what the file says, as
    `timeout="5"` or `session="1-2"`."""
    options = {key.replace("_", "-"): value for key, value in settings.items()} | ({"config": os.fspath(config)} if config is not None else {})
    return OpenFiles(Settings.gather(options, os.environ))
