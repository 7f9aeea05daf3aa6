"""XML: reading what requests bring, with no entities and within limits; and writing answers."""

import re
from collections.abc import Mapping, Set
from urllib.parse import quote
from xml.parsers import expat

from .errors import S3Error

SPACE = "http://s3.amazonaws.com/doc/2006-03-01/"
DEEPEST, MOST_ELEMENTS = 8, 5_000
MOST_OF = {"CompleteMultipartUpload": 70_000, "LifecycleConfiguration": 50_000}  # elements that these documents may have


class Element:
    """An element that was read: its local name, its text, and the elements in it."""

    __slots__ = ("name", "texts", "inner")

    def __init__(self, name: str):
        self.name, self.texts, self.inner = name, list[str](), list[Element]()

    @property
    def text(self) -> str:
        return "".join(self.texts)

    def all(self, name: str) -> "list[Element]":
        return [each for each in self.inner if each.name == name]

    def told(self, name: str) -> str | None:
        """The text of the first element of this name; None where there is none. A key's spaces belong to it."""
        return next((each.text if name == "Key" else each.text.strip() for each in self.all(name)), None)


def parse(text: bytes, name: str, known: Mapping[str, Set[str]] | None = None) -> Element:
    """The root of a document, which has to have this name. MalformedXML for any other, for a document type, and so for entities, and for more
    than such a document can have. NotImplemented for an element that is not known inside of another one, where that is told."""
    root, path, count = Element(""), list[Element](), 0

    def refuse(*_: object) -> None:
        raise S3Error("MalformedXML", "A request must have no document type.")

    def start(tag: str, _: object) -> None:
        nonlocal count
        count += 1
        if len(path) > DEEPEST or count > MOST_OF.get(name, MOST_ELEMENTS):
            raise S3Error("MalformedXML")
        element = Element(tag.rpartition(" ")[2])
        (path[-1] if path else root).inner.append(element)
        path.append(element)

    def end(_: str) -> None:
        path.pop()

    def add(data: str) -> None:
        path[-1].texts.append(data)

    parser = expat.ParserCreate(namespace_separator=" ")
    parser.buffer_text = True
    parser.StartDoctypeDeclHandler = parser.EntityDeclHandler = refuse
    parser.StartElementHandler, parser.EndElementHandler, parser.CharacterDataHandler = start, end, add
    try:
        parser.Parse(text, True)
    except (expat.ExpatError, ValueError, LookupError):
        raise S3Error("MalformedXML") from None
    if root.inner[0].name != name:
        raise S3Error("MalformedXML", f"The element {name} is required.")
    if known is not None:
        expect_known(root.inner[0], known)
    return root.inner[0]


def expect_known(found: Element, known: Mapping[str, Set[str]]) -> None:
    for each in found.inner:
        if each.name not in known.get(found.name, ()):
            raise S3Error("NotImplemented", f"The element {legible(each.name)} of {found.name} is not known here.")
        expect_known(each, known)


ESCAPED = re.compile(r"[&<>\"\r\x00-\x08\x0b\x0c\x0e-\x1f\x7f]")
NAMED = {"&": "&amp;", "<": "&lt;", ">": "&gt;", '"': "&quot;"}


def escape(text: str) -> str:
    return ESCAPED.sub(lambda found: NAMED.get(found[0]) or f"&#x{ord(found[0]):X};", text)


NO_CHARACTER = re.compile("[\x00-\x08\x0b\x0c\x0e-\x1f\ufffe\uffff]")


def legible(text: str) -> str:
    """A text as any parser takes it: what XML has no character for is told as in a URL. (A key of a listing is told as Amazon does, or by encoding-type=url.)"""
    return NO_CHARACTER.sub(lambda found: quote(found[0]), text)


def element(name: str, text: str | int) -> str:
    """An element with a text or a number."""
    return f"<{name}>{escape(str(text))}</{name}>"


def many(name: str, *inner: str | None) -> str:
    """An element around elements that are written already; None is left out."""
    return f"<{name}>{''.join(each for each in inner if each is not None)}</{name}>"


def document(name: str, *inner: str | None, space: str = f' xmlns="{SPACE}"') -> bytes:
    body = "".join(each for each in inner if each is not None)
    return f'<?xml version="1.0" encoding="UTF-8"?>\n<{name}{space}>{body}</{name}>'.encode()
