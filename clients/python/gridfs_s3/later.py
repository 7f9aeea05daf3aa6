"""Pages whose lines are read once they are asked for: of the eight pages beside which a put chooses its version it needs the names, and few lines."""

import re
from functools import cached_property
from typing import Any, Final, cast

from gridfs_client.core import Line, Page
from gridfs_client.pages import FIRST_WORDS, HEAD, parse_line, parse_page
from gridfs_client.skimming import PLAIN_NAMES

WHERE: Final = "the index"  # a text stands that is read later
FIRST_LINE: Final = re.compile(HEAD.pattern.encode() + rb"\n")


class Lines(dict[str, Line]):
    """Lines by their names, each as a text until it is asked for."""

    def __getitem__(self, name: str) -> Line:
        found: Line | str = super().__getitem__(name)
        if isinstance(found, str):
            found = self[name] = parse_line(found)
        return found

    def get(self, name: str, default: Any = None) -> Any:
        return self[name] if name in self else default

    def values(self) -> Any:
        return {name: self[name] for name in self}.values()

    def items(self) -> Any:
        return {name: self[name] for name in self}.items()


class LaterPage(Page):
    """A page by its text, which is a page's."""

    def __init__(self, text: bytes):
        number, after = head_in(text)
        super().__init__((), after, number)
        del self.__dict__["lines"]
        self.__dict__["text"] = text[text.find(b"\n") + 1 :].decode()

    text: str

    @cached_property
    def by_name(self) -> dict[str, Line]:
        texts, names = self.text.split("\n")[-2::-1], PLAIN_NAMES.findall(self.text)[::-1]  # (from the last one on)
        return Lines(zip(names, cast(list[Line], texts)) if len(names) == len(texts) else map(named, texts))

    @cached_property
    def lines(self) -> tuple[Line, ...]:
        return tuple(self.by_name[name] for name in reversed(self.by_name))

    @cached_property
    def removed(self) -> tuple[Line, ...]:
        if " - " not in self.text:
            return ()
        return tuple(line for line in self.lines if line.content is None)

    def __eq__(self, other: object) -> bool:
        return isinstance(other, Page) and whole(self) == whole(other)

    def __hash__(self) -> int:
        return hash(whole(self))


def named(text: str) -> tuple[str, Line]:
    """A line by its name, as a text where it has one of few short forms."""
    if plain := PLAIN_NAMES.fullmatch(text):
        return plain[1], cast(Line, text)
    line = parse_line(text)
    return line.name, line


def head_in(text: bytes) -> tuple[int, tuple[int, ...]]:
    """The number of a page, and after which numbers others have to be seen, by its first line; Damaged where it has none."""
    if found := FIRST_LINE.match(text):
        number, *after = map(int, found[0][len(FIRST_WORDS) :].split())
        return number, tuple(after)
    page = parse_page(text[: text.find(b"\n") + 1], WHERE)
    return page.number, page.after


def whole(page: Page) -> Page:
    """The same with all lines read."""
    return Page(page.lines, page.after, page.number) if isinstance(page, LaterPage) else page


def later_page(text: bytes) -> Page:
    """The page of a text; at once where it has signposts."""
    return parse_page(text, WHERE) if b"\n>" in text else LaterPage(text)
