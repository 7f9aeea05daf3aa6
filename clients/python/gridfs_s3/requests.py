"""One request taken apart: its bucket, key and parameters, its conditions and range; and the forms of answers."""

import base64
import email.utils
import re
import secrets
import time
from collections.abc import Mapping, Set
from functools import lru_cache
from urllib.parse import unquote

from aiohttp import web

from . import signing
from .errors import S3Error
from .places import Object

SERVER = "gridfs-s3"
MOST_WORDS = 200  # of a query


def iso(ms: int) -> str:
    """A time as S3 tells it in XML: of whole seconds, as Last-Modified is."""
    return f"{iso_of_seconds(ms // 1000)}.000Z"


@lru_cache(1_024)
def iso_of_seconds(seconds: int) -> str:
    return time.strftime("%Y-%m-%dT%H:%M:%S", time.gmtime(seconds))


def http_date(ms: int) -> str:
    return http_date_of_seconds(ms // 1000)


@lru_cache(1_024)
def http_date_of_seconds(seconds: int) -> str:
    return email.utils.formatdate(seconds, usegmt=True)


def seconds_of_date(text: str) -> float | None:
    """The moment of a date of HTTP; None for what is none, which means nothing."""
    try:
        return email.utils.parsedate_to_datetime(text).timestamp()
    except (TypeError, ValueError, OverflowError):
        return None


class Asked:
    """A request with its words taken apart. InvalidURI (400) for a path that is no UTF-8."""

    def __init__(self, request: web.BaseRequest, domain: str | None):
        self.request, self.method, self.id = request, request.method, secrets.token_hex(8)
        self.ids = {"x-amz-request-id": self.id, "x-amz-id-2": self.id}  # (clients look for both)
        self.path, _, self.raw_query = request.raw_path.partition("?")
        self.headers = {name.lower(): value for name, value in request.headers.items()}
        if self.raw_query.count("&") >= MOST_WORDS:
            raise S3Error("InvalidURI", f"A query has at most {MOST_WORDS} words.")
        self.pairs = signing.pairs_of(self.raw_query)
        self.query = dict(self.pairs)
        try:
            path = unquote(self.path, errors="strict")
        except UnicodeDecodeError:
            raise S3Error("InvalidURI") from None
        if not path.startswith("/") or not signing.is_utf8(path):
            raise S3Error("InvalidURI")
        host = re.sub(r"\.?(:\d*)?\Z", "", self.headers.get("host", ""), count=1).lower()
        if domain and host.endswith("." + domain):
            self.bucket, self.key = host[: -len(domain) - 1], path[1:]
        else:
            self.bucket, _, self.key = path[1:].partition("/")
        self.operation = "Unknown"
        self.is_expecting = self.headers.get("expect", "").lower() == "100-continue"
        self.signed: signing.Signed
        self.by_anybody = self.query.get(f"{signing.IN_QUERY}Signature", "")  # the signature of a URL, or of a form, which anybody may have
        self.is_anybodys = False  # by nobody's signature
        self.cors: dict[str, str] = {}  # headers of the answer, for a browser whose page is another host's
        self.elements: Mapping[str, Set[str]] = {}  # that the XML of its body may have, by the element around them

    def number(self, name: str, default: int, most: int) -> int:
        text = self.query.get(name, str(default))
        if not re.fullmatch(r"\d{1,10}", text, re.ASCII):
            raise S3Error("InvalidArgument", f"{name} is no number.")
        return min(int(text), most)

    def all_headers(self) -> list[tuple[str, str]]:
        return [(name.lower(), value) for name, value in self.request.headers.items()]


def token_of(place: str) -> str:
    """What a client goes on by with a listing that was cut at this place."""
    return base64.urlsafe_b64encode(place.encode()).decode()


def place_of(token: str) -> str:
    """400 InvalidArgument."""
    try:
        return base64.b64decode(token, b"-_", validate=True).decode()
    except ValueError:
        raise S3Error("InvalidArgument", "The continuation token is not of this endpoint.") from None


def answer(body: bytes = b"", status: int = 200, headers: Mapping[str, str] = {}, kind: str = "application/xml") -> web.Response:
    return web.Response(body=body, status=status, headers={**({"Content-Type": kind} if body else {}), **headers})


# Conditions


def matches(header: str, etag: str) -> bool:
    return any(word.strip().removeprefix("W/").strip('"') in ("*", etag) for word in header.split(","))


def judge(headers: Mapping[str, str], found: Object, prefix: str = "", is_read: bool = True) -> None:
    """Judges the conditions of a read, or of a copy's source. 412 PreconditionFailed, 304 NotModified."""
    match, since = headers.get(prefix + "if-match"), headers.get(prefix + "if-unmodified-since")
    if match is not None:
        if not matches(match, found.etag):
            raise S3Error("PreconditionFailed", Condition="If-Match")
    elif since and (when := seconds_of_date(since)) is not None and found.time // 1000 > when:
        raise S3Error("PreconditionFailed", Condition="If-Unmodified-Since")
    none, since = headers.get(prefix + "if-none-match"), headers.get(prefix + "if-modified-since")
    code = "NotModified" if is_read else "PreconditionFailed"
    if none is not None:
        if matches(none, found.etag):
            raise S3Error(code, Condition="If-None-Match")
    elif since and (when := seconds_of_date(since)) is not None and found.time // 1000 <= when:
        raise S3Error(code, Condition="If-Modified-Since")


def range_wanted(headers: Mapping[str, str], found: Object) -> tuple[int, int] | None:
    """The range that is asked for; None for the whole, also where If-Range names another content than this. 416 InvalidRange."""
    only_of = headers.get("if-range")
    if only_of is not None and not names(only_of, found):
        return None
    return range_of(headers.get("range"), found.size)


def names(validator: str, found: Object) -> bool:
    """Whether an ETag, or a time, is that of this content. (One that another client put has no time.)"""
    return validator.strip() == f'"{found.etag}"' or bool(found.time) and seconds_of_date(validator) == found.time // 1000


def range_of(header: str | None, size: int) -> tuple[int, int] | None:
    """The first byte that is wanted, and the one after the last; None for the whole, as of a header that is malformed or names several ranges.
    416 InvalidRange where there is no such byte."""
    found = re.fullmatch(r"bytes=(\d{0,19})-(\d{0,19})", header.replace(" ", ""), re.ASCII) if header else None
    if not found or found[1] == found[2] == "":
        return None
    if found[1] == "":
        first, end = max(0, size - int(found[2])), size
        if not int(found[2]):
            raise S3Error("InvalidRange", ActualObjectSize=str(size))
    else:
        first, end = int(found[1]), min(size, int(found[2]) + 1) if found[2] else size
        if found[2] and int(found[2]) < int(found[1]):
            return None
    if first >= size:
        raise S3Error("InvalidRange", ActualObjectSize=str(size))
    return first, end
