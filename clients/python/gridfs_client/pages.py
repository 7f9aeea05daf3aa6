"""The text of pages and journals, which have one form.

    names 2 31 0 17                   its number is 31; beside it the page of session 2 has to be seen with number 17 at least
    7 @aGVsbG8 NAME                   the name has this version, and this content, in base64url without padding
    7 1830 DIGEST 12 1:0-1,4 NAME     the same of so many bytes, put 12 of this session, in these slots
    7 {WORDS} 1830 DIGEST .. NAME     the same with words of whoever put it
    7 1830 DIGEST 12 1:0&90 .. NAME   contents in slots one behind the other, of several puts of this session: one content
    7 1830 DIGEST 0.1:90+2 NAME       contents in chunks: at column 0, of session 1, number 90 and two more
    7 1830 DIGEST 99*0.1:93 NAME      contents of so many bytes that a list of 99 bytes names, which is in chunks
    8 - NAME                          at this version the name was removed
    7@east.2>3.40 @aGVsbG8 NAME       a copy: session 2 of this grid chose the version, and it came by move 3, with number 40 of the page
    >3 0-32767 west                   a signpost: by move 3 the names of these slices went on to this grid
"""

import re
import unicodedata
from collections.abc import Iterable

from .contents import CONTENT, content_of
from .core import Copied, Line, Page, Signpost
from .errors import BadName, Damaged

FIRST_WORDS, OLD_WORDS = "names 2 ", "names 1"
LONGEST_NAME = 255
GRID = r"[a-z][a-z0-9]{0,15}"
NUMBER = r"(?:0|[1-9][0-9]*)"
COPIED = rf"@({GRID})\.([1-9][0-9]*)>([1-9][0-9]*)\.([1-9][0-9]*)"
SIGNPOST = re.compile(rf">([1-9][0-9]*) ({NUMBER})-({NUMBER}) ({GRID})")
LINE = re.compile(rf"([1-9][0-9]*)(?:{COPIED})? (?:\{{([!-z]+)\}} )?({CONTENT.pattern}) (.+)", re.DOTALL)
HEAD = re.compile(rf"names 2(?: {NUMBER})+")
WORDS = re.compile(r"[!-z]*")
OLD_FORM = "has names of an older form: get them with the client that put them, and put them into a tenant without names"


def check_name(name: str) -> None:
    """BadName for what is no name: a name is 1 to 255 bytes of UTF-8 without control characters, and with no `/` at an end."""
    try:
        length = len(name.encode())
    except UnicodeEncodeError:
        raise BadName("a name is UTF-8") from None
    if not 1 <= length <= LONGEST_NAME:
        raise BadName(f"a name has 1 to {LONGEST_NAME} bytes, not {length}")
    if any(unicodedata.category(letter) == "Cc" for letter in name):
        raise BadName("a name has no control characters")
    if name.startswith("/") or name.endswith("/"):
        raise BadName("a name has no / at an end")


def check_words(words: str) -> None:
    """A ValueError for what a line can't have as its words: they have no space, brace, bar or tilde, and are ASCII."""
    if not WORDS.fullmatch(words):
        raise ValueError(words)


def text_of(page: Page) -> bytes:
    head = [FIRST_WORDS, " ".join(map(str, (page.number, *page.after))), "\n"]
    return "".join([*head, *map(signpost_text, page.signposts), *map(line_text, page.lines)]).encode()


def signpost_text(signpost: Signpost) -> str:
    return f">{signpost.move} {signpost.first}-{signpost.last} {signpost.grid}\n"


def length_of_signposts(page: Page) -> int:
    return sum(len(signpost_text(each)) for each in page.signposts)


def length_of_lines(lines: Iterable[Line]) -> int:
    """The bytes that lines take in a page, behind its first one."""
    return len("".join(map(line_text, lines)).encode())


def line_text(line: Line) -> str:
    """The line as it stands in a page. It is made once, since each change writes its page whole."""
    if not line.text:
        object.__setattr__(line, "text", written(line))
    return line.text


def written(line: Line) -> str:
    words = f"{{{line.words}}} " if line.words else ""
    copied = "@{0.grid}.{0.session}>{0.move}.{0.since}".format(line.copied) if line.copied else ""
    return f"{line.version}{copied} {words}{line.content.text() if line.content else '-'} {line.name}\n"


def parse_line(text: str) -> Line:
    found = LINE.fullmatch(text)
    if not found:
        raise ValueError(text)
    version, grid, session, move, since, words, _, inline, parts, name = found.groups()
    copied = Copied(int(session), grid, int(move), int(since)) if grid else None
    line = Line(name, int(version), content_of(inline, parts), words or "", copied)
    object.__setattr__(line, "text", f"{text}\n")
    return line


def parse_signpost(text: str) -> Signpost:
    found = SIGNPOST.fullmatch(text)
    if not found:
        raise ValueError(text)
    return Signpost(int(found[1]), int(found[2]), int(found[3]), found[4])


def parse_page(content: bytes, where: str) -> Page:
    """The page, or journal, that a file has, one without lines where the file is empty; Damaged, with `where`, for what is none."""
    if not content:
        return Page()
    try:
        head, *lines, rest = content.decode().split("\n")
        if (head + " ").startswith(OLD_WORDS + " "):
            raise Damaged(f"{where} {OLD_FORM}")
        if rest or not HEAD.fullmatch(head):
            raise ValueError(head)
        number, *after = map(int, head[len(FIRST_WORDS) :].split(" "))
        signposts = sum(line.startswith(">") for line in lines)
        return Page(tuple(map(parse_line, lines[signposts:])), tuple(after), number, tuple(map(parse_signpost, lines[:signposts])))
    except ValueError as fault:
        raise Damaged(f"{where} is no page: {fault}") from None
