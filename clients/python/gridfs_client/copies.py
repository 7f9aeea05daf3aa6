"""A copy of a node, also of one that runs: its journal, and of the folder beside it what the journal names.

Segments grow at their ends alone, and no place in them is used twice. So a copy that is there already gets what is
new; a segment that grows no more is shared by the copy where the file system can (a reflink, or a hard link), and
each byte of the others is copied once. To another machine a copy goes as a stream, an archive of tar: the segments
that are named, what is new of each, and the journal.
"""

import fcntl
import io
import os
import stat
import tarfile
from collections import Counter
from collections.abc import Iterable, Mapping, Sequence
from contextlib import closing, suppress
from dataclasses import dataclass
from typing import IO, BinaryIO, cast

from .answers import MOST_PLACES
from .batches import NODE
from .errors import BadFile
from .holding import close_all, open_all
from .plans import plan_of
from .shelves import NodeFiles, folder_of, segment_name, segments_in

JOURNAL = "journal"  # in the folder of a copy
FICLONE = 0x40049409  # of Linux: a file shares the bytes of another one, until one of them is written
SOME = 1 << 20  # bytes that are copied at a time
AT = "gridfs.at"  # where in its file begins what an archive has of it


@dataclass
class Copied:
    """What a copy has: which node's it is, bytes of its journal and of its segments, how many of these were copied
    and not shared, and how many segments the node had lost.
    """

    node: int
    journal_bytes: int
    named_bytes: int
    copied_bytes: int
    lacking: int


@dataclass
class State:
    """Copies of nodes, for how many seconds these were held, and the places of which no node is there."""

    copied: list[Copied]
    seconds: float
    missing: list[int]


def copy_node(journal: str, folder: str) -> Copied:
    """Copies a node into a folder that is new, or has an earlier copy of it. BadFile where another node's is there."""
    with closing(NodeFiles(journal)) as files:
        return copy_files(files, folder)


def copy_files(files: NodeFiles, folder: str) -> Copied:
    copy = Copy(files, folder)
    copy.expect_earlier_one()
    return copy.run()


def ends_of(files: NodeFiles) -> Counter[int]:
    """Of each segment that the journal names, where the last content ends that it names there."""
    ends = Counter[int]()
    for extent in files.facts.extents():
        if extent.segment:
            ends[extent.segment] = max(ends[extent.segment], extent.at + extent.length)
    return ends


class Copy:
    def __init__(self, files: NodeFiles, folder: str):
        self.files, self.folder, self.copied = files, folder, 0
        self.journal, self.shelf = os.path.join(folder, JOURNAL), folder_of(os.path.join(folder, JOURNAL))

    def expect_earlier_one(self) -> None:
        if os.path.exists(self.journal) and os.path.samefile(self.journal, self.files.path):
            raise BadFile(f"{self.folder}: it has the journal itself, and no copy")
        expect_copy_of(self.files.node, self.folder)

    def run(self) -> Copied:
        """The journal is there once all that it names is."""
        files, ends = self.files, ends_of(self.files)
        os.makedirs(self.folder, mode=0o700, exist_ok=True)
        with open(f"{self.journal}.new", "wb") as out:
            if os.path.isdir(files.folder):
                os.makedirs(self.shelf, mode=0o700, exist_ok=True)
                like(os.stat(files.folder), self.shelf)
                self.bring_segments(ends)
            self.append(files.journal, out, files.facts.end)
        like(os.fstat(files.journal.fileno()), out.name)
        finish(self.folder, ends)
        lacking = len(ends.keys() - files.segments.keys())
        return Copied(files.node, files.facts.end, sum(ends.values()), self.copied, lacking)

    def bring_segments(self, ends: Counter[int]) -> None:
        growing = max(segments_in(self.files.folder), default=0)
        for number, end in sorted(ends.items()):
            if number in self.files.segments:
                source, path = self.files.segments[number], os.path.join(self.shelf, segment_name(number))
                if os.path.exists(path) or number >= growing or not shares(source, path):
                    self.bring(source, path, end)

    def bring(self, source: BinaryIO, path: str, end: int) -> None:
        with open(path, "ab") as out:
            self.append(source, out, end)
        like(os.fstat(source.fileno()), path)

    def append(self, source: BinaryIO, out: BinaryIO, end: int) -> None:
        """Has the file go on to that end, as the other one does."""
        at = os.fstat(out.fileno()).st_size
        while at < end and (some := os.pread(source.fileno(), min(SOME, end - at), at)):
            out.write(some)
            at += len(some)
            self.copied += len(some)
        out.flush()
        os.fsync(out.fileno())


def expect_copy_of(node: int, folder: str) -> None:
    """BadFile where the folder has something, and no earlier copy of this node."""
    journal = os.path.join(folder, JOURNAL)
    if os.path.exists(journal):
        with open(journal, "rb") as earlier:
            head = NODE.fullmatch(earlier.readline())
        if head is None or int(head[1]) != node:
            whose = f"node {int(head[1])}" if head else "no node"
            raise BadFile(f"{folder}: it has a copy of {whose}, and this is node {node}")
    elif segments_in(folder_of(journal)) and not os.path.exists(f"{journal}.new"):
        raise BadFile(f"{folder_of(journal)}: segments are there without a journal, so they may be another node's")


def copy_state(journals: Sequence[str], folder: str) -> State:
    """Copies all nodes of a grid as they stand at one moment, each into a folder of its number, with the latest plan."""
    if len({os.path.realpath(journal) for journal in journals}) < len(journals):
        raise BadFile("a journal is named twice")
    found, seconds = open_all(journals)
    try:
        numbers = [files.node for files in found]
        for number in numbers:
            if numbers.count(number) > 1:
                raise BadFile(f"two journals of node {number}")
        plans = [plan_of(files.facts.plan[1:]) for files in found]
        latest = max(range(len(plans)), key=lambda at: (plans[at].extent(), len(found[at].facts.plan)))
        copied = [copy_files(files, os.path.join(folder, f"{files.node}")) for files in found]
        with open(os.path.join(folder, "plan"), "wb") as out:
            out.write(b"".join(found[latest].facts.plan[1:]))
        here = {number % MOST_PLACES for number in numbers}
        places = range(plans[latest].rows * plans[latest].columns)
        return State(copied, seconds, [place for place in places if place not in here])
    finally:
        close_all(found)


def finish(folder: str, named: Iterable[int]) -> None:
    """The new journal takes its place, and segments go that it does not name."""
    journal = os.path.join(folder, JOURNAL)
    shelf = folder_of(journal)
    sync_folder(shelf)
    os.replace(f"{journal}.new", journal)
    for number in segments_in(shelf).keys() - set(named):
        os.unlink(os.path.join(shelf, segment_name(number)))
    sync_folder(folder)


# Streams


class Piece(io.RawIOBase):
    """The bytes of a file from one place to another."""

    def __init__(self, file: BinaryIO, at: int, end: int):
        self.file, self.at, self.end = file, at, end

    def read(self, length: int = -1) -> bytes:
        left = self.end - self.at
        content = os.pread(self.file.fileno(), left if length < 0 else min(length, left), self.at)
        self.at += len(content)
        return content


def piece(file: BinaryIO, at: int, end: int) -> IO[bytes]:
    return cast(IO[bytes], Piece(file, at, end))


def parse_had(text: str) -> dict[int, int]:
    """What a copy has already: a line for each segment, with its number and its bytes. BadFile where it is none."""
    try:
        return {int(number): int(size) for number, size in (line.split() for line in text.splitlines())}
    except ValueError:
        raise BadFile("what is there already has a line for each segment, with its number and its bytes") from None


def write_stream(files: NodeFiles, out: IO[bytes], had: Mapping[int, int]) -> None:
    """Writes a copy of a node, but for what is there already."""
    with tarfile.open(fileobj=out, mode="w|", format=tarfile.PAX_FORMAT) as stream:
        ends = ends_of(files)
        named = "".join(f"{number}\n" for number in sorted(ends)).encode()
        stream.addfile(member(f"{files.node}", len(named)), io.BytesIO(named))
        for number, end in sorted(ends.items()):
            at = had.get(number, 0)
            if number in files.segments and at < end:
                there = files.segments[number]
                stream.addfile(member(f"{number}", end - at, at), piece(there, at, end))
        stream.addfile(member(JOURNAL, files.facts.end), piece(files.journal, 0, files.facts.end))


def member(name: str, size: int, at: int = 0) -> tarfile.TarInfo:
    found = tarfile.TarInfo(name)
    found.size, found.mode, found.pax_headers = size, 0o600, {AT: str(at)}
    return found


def take_stream(stream: IO[bytes], folder: str) -> int:
    """Has a folder with no copy, or an earlier one, go on to the one that comes; the bytes that came. BadFile where
    it is none, or of another node, or has a gap.
    """
    journal = os.path.join(folder, JOURNAL)
    shelf, count = folder_of(journal), 0
    try:
        with tarfile.open(fileobj=stream, mode="r|") as members:
            first = members.next()
            if first is None:
                raise BadFile("the stream is no copy of a node")
            expect_copy_of(int(first.name), folder)
            named = [int(line) for line in content_in(members, first).read().splitlines()]
            os.makedirs(shelf, mode=0o700, exist_ok=True)
            open(f"{journal}.new", "wb").close()
            while (each := members.next()) and each.name != JOURNAL:
                path = os.path.join(shelf, segment_name(int(each.name)))
                count += take(content_in(members, each), path, int(each.pax_headers[AT]), each.size)
            if each is None:
                raise BadFile("the stream ended before the journal")
            count += take(content_in(members, each), f"{journal}.new", 0, each.size)
    except (tarfile.TarError, ValueError, KeyError):
        raise BadFile("the stream is no copy of a node, or ended amid it") from None
    finish(folder, named)
    return count


def content_in(members: tarfile.TarFile, each: tarfile.TarInfo) -> IO[bytes]:
    content = members.extractfile(each)
    if content is None:
        raise BadFile("the stream is no copy of a node")
    return content


def take(content: IO[bytes], path: str, at: int, size: int) -> int:
    with open(path, "ab") as out:
        if (have := os.fstat(out.fileno()).st_size) != at:
            raise BadFile(f"{path}: it has {have} bytes, and what comes goes on from {at}")
        left = size
        while left and (some := content.read(min(SOME, left))):
            out.write(some)
            left -= len(some)
        out.flush()
        os.fsync(out.fileno())
    if left:
        raise BadFile("the stream ended amid a file")
    return size


def shares(source: BinaryIO, path: str) -> bool:
    """Has a new file share the bytes of one that is open, and that nobody writes any more; whether that could be."""
    with suppress(OSError):
        with open(path, "xb") as out:
            try:
                fcntl.ioctl(out.fileno(), FICLONE, source.fileno())
                os.fsync(out.fileno())
            except OSError:
                os.unlink(path)
                raise
        like(os.fstat(source.fileno()), path)
        return True
    with suppress(OSError):
        os.link(f"/proc/self/fd/{source.fileno()}", path, follow_symlinks=True)
        return True
    return False


def like(there: os.stat_result, path: str) -> None:
    """Gives a file the mode and, for root, the owner of another one."""
    own = os.stat(path)
    if os.geteuid() == 0 and (own.st_uid, own.st_gid) != (there.st_uid, there.st_gid):
        os.chown(path, there.st_uid, there.st_gid)
    if stat.S_IMODE(own.st_mode) != stat.S_IMODE(there.st_mode):
        os.chmod(path, stat.S_IMODE(there.st_mode))


def sync_folder(path: str) -> None:
    if os.path.isdir(path):
        handle = os.open(path, os.O_RDONLY)
        try:
            os.fsync(handle)
        finally:
            os.close(handle)
