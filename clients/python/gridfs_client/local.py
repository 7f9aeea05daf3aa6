"""Files of this machine, and standard streams: where contents of a command come from and go to."""

import errno
import io
import json
import os
import re
import stat
import sys
import tempfile
import time
import unicodedata
from collections.abc import Callable, Iterable, Iterator
from contextlib import contextmanager
from itertools import islice
from pathlib import Path
from typing import IO, TextIO, TypeVar, cast

from .errors import BadFile

Result = TypeVar("Result")
INPUT, OUTPUT = "standard input", "standard output"
SHORT = 1 << 20  # bytes of a stream that is kept in memory
SOME = 10_000  # lines that are written at a time
UNFINISHED = ".gridfs-client."  # what the names of files begin with that are being written


def standard(stream: TextIO | None, name: str) -> IO[bytes]:
    """The bytes of a standard stream; an OSError where a shell has closed it."""
    if stream is None:
        raise OSError(errno.EBADF, os.strerror(errno.EBADF), name)
    return stream.buffer


@contextmanager
def faults_of(path: str) -> Iterator[None]:
    """Has a fault of reading or writing name the file, as one of opening it does."""
    try:
        yield
    except BrokenPipeError:
        raise
    except OSError as fault:
        raise OSError(fault.errno, fault.strerror, fault.filename or path) from None


@contextmanager
def content_of(path: str) -> Iterator[IO[bytes]]:
    """The content of a file, or with `-` of standard input."""
    if path == "-":
        with faults_of(INPUT):
            yield standard(sys.stdin, INPUT)
    else:
        if os.path.isdir(path):
            raise BadFile(f"{path}: a folder: mirror takes it")
        with faults_of(path), open(path, "rb") as file:
            yield file


class Joined(io.RawIOBase):
    """What was read of a stream, and the rest of it."""

    def __init__(self, head: bytes, rest: IO[bytes]):
        self.head, self.rest = io.BytesIO(head), rest

    def read(self, length: int = -1) -> bytes:
        return self.head.read(length) or self.rest.read(length)


def rewindable(content: IO[bytes]) -> IO[bytes]:
    """The same, in memory where it is a short stream: so that it can be read again."""
    if content.seekable():
        return content
    head = content.read(SHORT)
    return io.BytesIO(head) if len(head) < SHORT else cast(IO[bytes], Joined(head, content))


def go_to(file: IO[bytes], place: int) -> None:
    file.seek(place)


def cut(file: IO[bytes], place: int) -> None:
    """Makes a file end at a place, and goes there."""
    file.seek(place)
    file.truncate()


def out(content: bytes) -> None:
    """Writes to standard output."""
    with faults_of(OUTPUT):
        target = standard(sys.stdout, OUTPUT)
        target.write(content)
        target.flush()


def visible(text: str, is_for_eyes: bool = True) -> str:
    """A text of one line, of which a terminal obeys nothing: each control character is told as an escape, and for a person's eyes each letter that
    can't be printed."""
    if text.isprintable():
        return text

    def is_odd(letter: str) -> bool:
        return not letter.isprintable() and (is_for_eyes or unicodedata.category(letter) in ("Cc", "Cs"))

    return "".join(each.encode("unicode_escape").decode("ascii") if is_odd(each) else each for each in text)


def json_of(value: object) -> str:
    """A value as JSON, whose control characters are escapes, all of them; and so are bytes of paths that are no UTF-8."""
    return re.sub("[\x7f-\x9f\ud800-\udfff]", lambda found: f"\\u{ord(found[0]):04x}", json.dumps(value, ensure_ascii=False))


def out_lines(lines: Iterable[str]) -> None:
    """Writes lines to standard output, some at a time: at a terminal for a person's eyes."""
    is_for_eyes, left = sys.stdout is not None and sys.stdout.isatty(), iter(lines)
    while content := "".join(f"{visible(line, is_for_eyes)}\n" for line in islice(left, SOME)):
        out(content.encode())


def complain(text: str, who: str = "gridfs-client") -> None:
    """Tells a fault, if standard error takes it."""
    try:
        if sys.stderr is not None:
            sys.stderr.write(f"{who}: {visible(text)}\n")
            sys.stderr.flush()
    except OSError:
        pass


def mode_of(path: str) -> int | None:
    """The type and mode of what is at a path, behind symbolic links; None where nothing is."""
    try:
        return os.stat(path).st_mode
    except OSError:
        return None


def mode_of_new_files() -> int:
    mask = os.umask(0)
    os.umask(mask)
    return 0o666 & ~mask


def to_target(path: str, write_to: Callable[[IO[bytes]], Result], time_of: Callable[[Result], float] | None = None) -> Result:
    """Has a content written to a file, or with `-` to standard output. A file has its old content or the whole new
    one, and keeps its mode: the new one is written beside it and renamed, with the time that is told of what was
    written. A device or a pipe is written itself.
    """
    if path == "-":
        with faults_of(OUTPUT):
            target = standard(sys.stdout, OUTPUT)
            result = write_to(target)
            target.flush()
        return result
    mode = mode_of(path)
    if mode is not None and not stat.S_ISREG(mode):
        with faults_of(path), open(path, "wb") as device:
            return write_to(device)
    return replace_file(path, mode_of_new_files() if mode is None else stat.S_IMODE(mode) & 0o777, write_to, time_of)


def replace_file(path: str, mode: int, write_to: Callable[[IO[bytes]], Result], time_of: Callable[[Result], float] | None) -> Result:
    try:
        handle, unfinished = tempfile.mkstemp(prefix=UNFINISHED, dir=Path(path).parent)
    except OSError as fault:
        raise OSError(fault.errno, fault.strerror, path) from None
    try:
        with faults_of(path), os.fdopen(handle, "wb") as file:
            result = write_to(file)
        os.chmod(unfinished, mode)
        if time_of:
            os.utime(unfinished, (time.time(), time_of(result)))
        os.replace(unfinished, path)
        return result
    except BaseException:
        os.unlink(unfinished)
        raise
