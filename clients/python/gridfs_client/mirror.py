"""A folder of this machine and the names with a prefix, of which one is made like the other.

The name of a file is the prefix and the file's path from the folder on. What is the same on both sides, by size and SHA-256, is not moved. What
can't be mirrored is skipped and told, and nothing is removed because of it. A file that is got has the time at which its content was put. Words beside a content, as those of S3, are kept with its file in an attribute, and count
as long as the file has that content.
"""

import abc
import errno
import fnmatch
import hashlib
import io
import os
import stat
from collections import deque
from collections.abc import Callable, Iterable, Iterator, Sequence
from contextlib import AbstractContextManager
from dataclasses import dataclass, field
from functools import partial
from typing import TypeVar

from .contents import PartTold
from .errors import BadFile, BadName, ClientError, Damaged, NoRoom, NoSuchName, Replaced, SourceChanged, Unanswered
from .fleet import MAP_NAME, FleetFiles, expect_no_map
from .local import UNFINISHED, to_target
from .names import Entry, NamedFiles, time_put
from .pages import check_name, check_words
from .progress import Progress

GRID = "grid:"  # what a prefix begins with, so that no folder is taken for one
LINK, NO_FILE = "a symbolic link is not followed", "it is not a regular file"
WORDS = "user.gridfs"  # the attribute of a file: SHA-256 of the content whose words they are, and the words
SOME = 1 << 20  # bytes that are read at a time
Result = TypeVar("Result")
AnyFiles = NamedFiles | FleetFiles
OpenNames = Callable[[str], AbstractContextManager[AnyFiles]]


def prefix_of(word: str) -> str | None:
    """The prefix that `grid:PREFIX` says, with a `/` at its end unless it is empty; None for a folder of this machine."""
    if not word.startswith(GRID):
        return None
    prefix = word.removeprefix(GRID)
    if prefix and not prefix.endswith("/"):
        prefix += "/"
    if prefix:
        check_name(prefix + "x")
    return prefix


def shown(path: str) -> str:
    """A path for a person's eyes: what can't be printed is escaped."""
    return path if path.isprintable() else repr(path)


@dataclass
class Report:
    """What came of a mirror, or would: the names that were put or got, what was removed, how many files were the same, and what was skipped, with
    the reasons. The status is that of the first one that was skipped."""

    moved: list[str] = field(default_factory=list)
    removed: list[str] = field(default_factory=list)
    same: int = 0
    skipped: dict[str, str] = field(default_factory=dict)
    status: int = 0
    wordless: int = 0  # files beside which there could be no words
    empty: int = 0  # folders without a file, of which no name tells


# The folder


def open_regular(path: str) -> io.BufferedReader:
    """Opens a regular file. A symbolic link, which may lead out of the folder, and whatever else stands there by now, is a BadFile."""
    try:
        file = open(path, "rb", opener=lambda path, flags: os.open(path, flags | os.O_NOFOLLOW | os.O_NONBLOCK))
    except OSError as fault:
        raise BadFile(LINK if fault.errno == errno.ELOOP else fault.strerror or str(fault)) from None
    if not stat.S_ISREG(os.fstat(file.fileno()).st_mode):
        file.close()
        raise BadFile(NO_FILE)
    return file


def is_same(path: str, entry: Entry, parts: Callable[[], Iterable[PartTold]]) -> bool:
    """Whether a file has the size and the digest of a name's content; of one that was put in parts, these, one behind
    the other. They are asked for where they count.
    """
    with open_regular(path) as file:
        if os.fstat(file.fileno()).st_size != entry.size:
            return False
        try:
            if not entry.parts:
                return hashlib.file_digest(file, "sha256").hexdigest() == entry.sha256
            return all(digest_of_next(file, part.size) == part.sha256 for part in parts())
        except OSError as fault:
            raise BadFile(fault.strerror or str(fault)) from None


def size_of(path: str) -> int:
    """The bytes of a file; 0 where nobody knows."""
    try:
        return os.path.getsize(path)
    except OSError:
        return 0


def digest_of_next(file: io.BufferedReader, size: int) -> str:
    """SHA-256 of so many bytes more."""
    digest = hashlib.sha256()
    while size and (some := file.read(min(SOME, size))):
        digest.update(some)
        size -= len(some)
    return digest.hexdigest()


def words_of(file: io.BufferedReader) -> str:
    """The words that are kept with a file's content, which is read for that; none where it has another content by now."""
    try:
        digest, _, words = os.getxattr(file.fileno(), WORDS).decode().partition(" ")
        check_words(words)
    except (OSError, ValueError):
        return ""
    is_its_own = hashlib.file_digest(file, "sha256").hexdigest() == digest
    file.seek(0)
    return words if is_its_own else ""


def keep_words(path: str, words: str) -> bool:
    """Keeps words with a file; whether that could be."""
    try:
        with open_regular(path) as file:
            if words_of(file) != words:
                digest = hashlib.file_digest(file, "sha256").hexdigest()
                os.setxattr(file.fileno(), WORDS, f"{digest} {words}".encode())
        return True
    except (OSError, BadFile):
        return False


class Tree:
    """What is met in a folder and below it but for what is excluded: its regular files, what can't be read or is
    none, and how many folders are empty.
    """

    def __init__(self, folder: str, skip: Callable[[str, ClientError], None], excludes: Iterable[str] = ()):
        self.folder, self.skip, self.excludes, self.empty = folder, skip, tuple(excludes), 0

    def files(self) -> Iterator[str]:
        """The files, as paths from the folder on. An OSError where it can't be read. Symbolic links are not followed,
        and what a mirror or a get was writing when it was killed is passed over.
        """
        folders = [""]
        while folders:
            inside = folders.pop()
            entries = self.entries_in(inside)
            self.empty += bool(inside) and entries == []
            for entry in entries or ():
                path = os.path.join(inside, entry.name)
                if is_excluded(path, self.excludes):
                    continue
                if entry.is_dir(follow_symlinks=False):
                    folders.append(path)
                elif not entry.is_file(follow_symlinks=False):
                    self.skip(path, BadFile(LINK if entry.is_symlink() else NO_FILE))
                elif not entry.name.startswith(UNFINISHED):
                    yield path

    def entries_in(self, inside: str) -> list[os.DirEntry[str]] | None:
        """None where a folder below can't be read."""
        try:
            with os.scandir(os.path.join(self.folder, inside) if inside else self.folder) as found:
                return sorted(found, key=lambda entry: entry.name)
        except OSError as fault:
            if not inside:
                raise
            self.skip(inside, BadFile(fault.strerror or str(fault)))
            return None


def is_excluded(path: str, excludes: Iterable[str]) -> bool:
    """Whether a path, or a folder that it leads through, is excluded: by its name, or by a pattern with a `/` as a
    path.
    """
    paths = [*folders_of(path), path]

    def matches(pattern: str, each: str) -> bool:
        return fnmatch.fnmatchcase(each if "/" in pattern else os.path.basename(each), pattern.strip("/"))

    return any(matches(pattern, each) for pattern in excludes for each in paths)


def name_of(prefix: str, path: str) -> str:
    """The name of a file; BadName where there can be none."""
    try:
        name = prefix + os.fsencode(path).decode()
    except UnicodeDecodeError:
        raise BadName("a name is UTF-8") from None
    check_name(name)
    return name


def path_of(prefix: str, name: str) -> str:
    """The path of a name's file, from the folder on; BadName where there can be none."""
    check_name(name)
    parts = name.removeprefix(prefix).split("/")
    if not all(parts) or "." in parts or ".." in parts:
        raise BadName("it can't be a path in a folder")
    if parts[-1].startswith(UNFINISHED):
        raise BadName(f"a file that begins with {UNFINISHED} is one half written")
    return os.fsdecode("/".join(parts).encode())


def make_folders(folder: str, path: str) -> None:
    """Makes the folders of a file; BadFile where something else stands in their place, as a symbolic link that may lead out of the folder."""
    os.makedirs(folder, exist_ok=True)
    place = folder
    for part in path.split("/")[:-1]:
        place = os.path.join(place, part)
        try:
            os.mkdir(place)
        except FileExistsError:
            if not stat.S_ISDIR(os.lstat(place).st_mode):
                raise BadFile(f"{shown(place)} is not a folder") from None


def kind_of(path: str) -> int | None:
    """The type of what is at a path, of a symbolic link its own; None where nothing is."""
    try:
        return stat.S_IFMT(os.lstat(path).st_mode)
    except (FileNotFoundError, NotADirectoryError):
        return None


# Both ways


class Mirror(abc.ABC):
    """One way of it. `names` gives the names by a session, which is taken for as long as the context lasts: the one on which a name depends by
    `turn_of`, if it is free. `tell` is called with a word and a name, or a path, and `complain` with what is skipped, each as soon as it is known.
    """

    word = done = ""  # what a move is called that is to be made, and one that was made
    excludes: Sequence[str] = ()  # patterns of what is left alone on both sides
    progress: Progress | None = None  # told how far it is

    def __init__(
        self,
        folder: str,
        prefix: str,
        names: OpenNames,
        turn_of: Callable[[str], int],
        tell: Callable[[str, str], None],
        complain: Callable[[str], None],
        removes: bool = False,
        is_dry: bool = False,
    ):
        self.folder, self.prefix, self.names, self.turn_of = folder, prefix, names, turn_of
        self.tell, self.complain, self.removes, self.is_dry = tell, complain, removes, is_dry
        self.report = Report()

    @abc.abstractmethod
    def run(self) -> Report:
        """Makes one side like the other. Whatever ends it before, it can be run again, and goes on with what is left."""

    def entries(self) -> dict[str, Entry]:
        with self.names("") as files:
            found = files.names(self.prefix)
            own = MAP_NAME if isinstance(files, FleetFiles) else None  # (it is gridfs-fleet's, and none of the tenant's names)
            return {entry.name: entry for entry in found if entry.name != own and not self.leaves(entry.name)}

    def leaves(self, name: str) -> bool:
        """Whether a name is left alone."""
        return is_excluded(name.removeprefix(self.prefix), self.excludes)

    def is_same(self, path: str, entry: Entry) -> bool:
        """Whether a file has what the name holds. (Of parts that lists name the lists are read, by another session's
        turn.)
        """

        def parts() -> Iterable[PartTold]:
            if not any(part.is_list for part in entry.parts):
                return entry.parts
            with self.names(entry.name) as files:
                return files.parts(entry.name)

        try:
            return is_same(path, entry, parts)
        except (NoSuchName, Replaced):
            return False

    def local(self, path: str) -> str:
        return os.path.join(self.folder, path)

    def skip(self, what: str, fault: ClientError) -> None:
        self.report.skipped[what] = str(fault)
        self.report.status = self.report.status or fault.status
        self.complain(f"skipped {shown(what)}: {fault}")

    def tried(self, what: str, call: Callable[[], Result]) -> Result | None:
        """What a call gives; None where it fails for this name or file alone, which is skipped."""
        try:
            return call()
        except (BadName, BadFile, NoRoom, SourceChanged, Replaced, Damaged) as fault:
            self.skip(what, fault)
        except OSError as fault:
            self.skip(what, BadFile(fault.strerror or str(fault)))
        return None

    def remove_all(self, names: Iterable[str]) -> None:
        for name in self.in_turns(names, self.remove_name):
            self.report.removed.append(name)
            self.tell("would remove" if self.is_dry else "removed", name)

    def remove_name(self, files: AnyFiles, name: str) -> bool:
        try:
            files.remove(name)
        except NoSuchName:
            return False
        return True

    def move(self, sizes: dict[str, int], work: Callable[[AnyFiles, str], bool]) -> None:
        """Moves the contents of names, of which it is known about how long they are; `work` tells whether there was one to move."""

        def counted(files: AnyFiles, name: str) -> bool:
            is_done = work(files, name)
            if self.progress:
                self.progress.next(self.word, sizes[name])
            return is_done

        if self.progress and not self.is_dry:
            self.progress.expect(len(sizes), sum(sizes.values()))
        for name in self.in_turns(sizes, counted):
            self.report.moved.append(name)
            self.tell(f"would {self.word}" if self.is_dry else self.done, name)

    def in_turns(self, names: Iterable[str], work: Callable[[AnyFiles, str], bool]) -> Iterator[str]:
        """The names for which work was done, or for a dry run all of them. It is done by one session after another, and a session is given back
        once others have helped it: so other commands of this machine find some, and names are spread over the pages of all. Where its home dies or is
        silent, another one begins the name anew, once."""
        left, again = deque(sorted(names, key=lambda name: (self.turn_of(name), name))), set[str]()
        if self.is_dry:
            yield from sorted(left)
            return
        while left:
            turn = self.turn_of(left[0])
            try:
                with self.names(left[0]) as files:
                    while left and self.turn_of(left[0]) == turn and not files.has_asked:
                        is_done = work(files, left[0])
                        name = left.popleft()
                        if is_done:
                            yield name
            except Unanswered as fault:
                if fault.home is None or files.is_bound or not left or left[0] in again:
                    raise
                again.add(left[0])


class ToGrid(Mirror):
    """Makes the names with the prefix like the files of the folder."""

    word, done = "put", "put"

    def run(self) -> Report:
        self.unread: list[str] = []  # paths of what can't be read: names of it, and behind it, are not removed
        self.files = self.find_files()
        if self.removes and not self.files:
            raise BadFile(f"{self.folder}: no file is there, so no name is removed")
        entries = self.entries()
        self.move({name: size_of(self.local(path)) for name, path in self.files.items() if self.choose(name, entries)}, self.put)
        if self.removes:
            self.remove_all([name for name in entries if self.is_extra(name)])
        return self.report

    def find_files(self) -> dict[str, str]:
        """The path of each name's file."""
        found = {}
        tree = Tree(self.folder, self.skip_path, self.excludes)
        for path in list(tree.files()):
            name = self.tried(self.local(path), partial(name_of, self.prefix, path))
            if name is not None:
                found[name] = path
        self.report.empty = tree.empty
        if tree.empty:
            self.complain(f"{tree.empty} empty folders have no name, and are not kept")
        return found

    def skip_path(self, path: str, fault: ClientError) -> None:
        self.unread.append(path)
        self.skip(self.local(path), fault)

    def choose(self, name: str, entries: dict[str, Entry]) -> bool:
        """Whether the name has to be put; one that is the same is counted. One whose file can't be read is skipped."""
        if name not in entries:
            return True
        path = self.local(self.files[name])
        entry = entries[name]
        same = self.tried(path, lambda: self.is_same(path, entry) and self.has_no_others(path, entry.words))
        self.report.same += same is True
        return same is False

    def has_no_others(self, path: str, words: str) -> bool:
        """Whether no other words than these are kept with a file."""
        with open_regular(path) as file:
            return words_of(file) in ("", words)

    def is_extra(self, name: str) -> bool:
        path = os.fsdecode(name.removeprefix(self.prefix).encode())
        return name not in self.files and not any(path == unread or path.startswith(unread + "/") for unread in self.unread)

    def put(self, files: AnyFiles, name: str) -> bool:
        def call() -> bool:
            with open_regular(path) as file:
                words = words_of(file)
                if isinstance(files, FleetFiles):
                    expect_no_map(name)
                files.put(name, file, lambda: words)
            return True

        path = self.local(self.files[name])
        return self.tried(path, call) is True


class Removal(Mirror):
    """Takes the names with the prefix away."""

    def run(self) -> Report:
        entries = self.entries()
        if not entries:
            raise NoSuchName(f"{shown(self.prefix)}: no name begins so" if self.prefix else "there are no names")
        self.remove_all(entries)
        return self.report


class ToFolder(Mirror):
    """Makes the files of the folder like the names with the prefix."""

    word, done = "get", "got"

    def run(self) -> Report:
        entries = self.entries()
        if not entries:
            raise NoSuchName(f"{GRID}{self.prefix}: no name begins so")
        self.paths = self.find_paths(entries)
        self.move({name: entries[name].size for name in self.paths if self.choose(entries[name])}, self.get)
        if self.removes and kind_of(self.folder) is not None:
            tree = Tree(self.folder, lambda path, fault: self.skip(self.local(path), fault), self.excludes)
            for path in [path for path in tree.files() if self.is_extra(path, entries)]:
                self.remove(path)
        if self.report.wordless:
            self.complain(f"{self.report.wordless} files are without the words beside their contents, as types and times of S3: this folder keeps none")
        return self.report

    def find_paths(self, entries: dict[str, Entry]) -> dict[str, str]:
        """The path of each name that can be a file. A name can't that others begin with as with a folder."""
        found = {}
        for name in entries:
            path = self.tried(name, partial(path_of, self.prefix, name))
            if path is not None:
                found[name] = path
        folders = {folder for path in found.values() for folder in folders_of(path)}
        for name in [name for name, path in found.items() if path in folders]:
            self.skip(name, BadName(f"other names begin with {shown(name)}/, and a file can't be a folder"))
            del found[name]
        return found

    def choose(self, entry: Entry) -> bool:
        """Whether the name has to be got; one that is the same is counted. One whose file can't be read, or is none, is skipped."""
        path = self.local(self.paths[entry.name])
        if kind_of(path) is None:
            return True
        same = self.tried(path, lambda: self.is_same(path, entry))
        self.report.same += same is True
        if same and not self.is_dry:
            self.report.wordless += not keep_words(path, entry.words)
        return same is False

    def is_extra(self, path: str, entries: dict[str, Entry]) -> bool:
        try:
            return name_of(self.prefix, path) not in entries
        except BadName:
            return True

    def get(self, files: AnyFiles, name: str) -> bool:
        def call() -> bool:
            make_folders(self.folder, self.paths[name])
            if kind_of(path) not in (None, stat.S_IFREG):
                raise BadFile(NO_FILE)
            entry = to_target(path, lambda target: files.get_to(name, target), time_put)
            self.report.wordless += not keep_words(path, entry.words)
            return True

        path = self.local(self.paths[name])
        try:
            return self.tried(path, call) is True
        except NoSuchName:  # (it was removed meanwhile)
            return False

    def remove(self, path: str) -> None:
        """Removes a file, and the folders that are empty then."""

        def call() -> bool:
            if not self.is_dry:
                os.unlink(self.local(path))
                remove_empty(self.folder, path)
            return True

        if self.tried(self.local(path), call):
            self.report.removed.append(path)
            self.tell("would remove" if self.is_dry else "removed", self.local(path))


def folders_of(path: str) -> list[str]:
    """The folders that a path leads through."""
    parts = path.split("/")
    return ["/".join(parts[:count]) for count in range(1, len(parts))]


def remove_empty(folder: str, path: str) -> None:
    """Removes the folders of a path that are empty, from the last one on."""
    for inside in reversed(folders_of(path)):
        try:
            os.rmdir(os.path.join(folder, inside))
        except OSError:
            return
