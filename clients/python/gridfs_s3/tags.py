"""Tags of objects: what a request gives, and how they stand beside a content."""

import unicodedata
from collections.abc import Mapping, Sequence
from urllib.parse import parse_qsl

from .errors import S3Error
from .markup import Element, document, element, many
from .places import TAG, Values

HEADER, DIRECTIVE = "x-amz-tagging", "x-amz-tagging-directive"
MOST, LONGEST_KEY, LONGEST_VALUE = 10, 128, 256
ELEMENTS = {"Tagging": {"TagSet"}, "TagSet": {"Tag"}, "Tag": {"Key", "Value"}}


def is_text(text: str, longest: int) -> bool:
    """Whether a tag may have this text: as S3 has it, letters, digits, spaces and a few signs, counted in UTF-16."""
    return all(unicodedata.category(each)[0] in "LNZ" or each in "+-=._:/@" for each in text) and len(text.encode("utf-16-le")) <= 2 * longest


def words_of(pairs: Sequence[tuple[str, str]]) -> Values:
    """Tags, as they stand beside a content. 400 InvalidTag."""
    if len(pairs) > MOST:
        raise S3Error("InvalidTag", f"An object has at most {MOST} tags.")
    for key, value in pairs:
        if not key or not is_text(key, LONGEST_KEY):
            raise S3Error("InvalidTag", f"The key of a tag has 1 to {LONGEST_KEY} letters, digits, spaces and + - = . _ : / @.")
        if key.lower().startswith("aws:"):
            raise S3Error("InvalidTag", "The key of a tag does not begin with aws:.")
        if not is_text(value, LONGEST_VALUE):
            raise S3Error("InvalidTag", f"The value of a tag has at most {LONGEST_VALUE} letters, digits, spaces and + - = . _ : / @.")
    if len(dict(pairs)) < len(pairs):
        raise S3Error("InvalidTag", "Two tags have the same key.")
    return {TAG + key: value for key, value in pairs}


def in_headers(headers: Mapping[str, str]) -> Values:
    """The tags that a put brings in a header. 400 InvalidArgument, InvalidTag."""
    try:
        return words_of(parse_qsl(headers.get(HEADER, ""), keep_blank_values=True, errors="strict"))
    except UnicodeDecodeError:
        raise S3Error("InvalidArgument", f"{HEADER} is KEY=VALUE with & between, each quoted as in a URL, in UTF-8.") from None


def in_place_of_the_sources(headers: Mapping[str, str]) -> Values | None:
    """The tags that a copy brings; None where it has those of its source. 400 InvalidArgument, InvalidRequest, InvalidTag."""
    directive = headers.get(DIRECTIVE, "COPY")
    if directive not in ("COPY", "REPLACE"):
        raise S3Error("InvalidArgument", f"{DIRECTIVE} is COPY or REPLACE.")
    if directive == "COPY" and headers.get(HEADER):
        raise S3Error("InvalidRequest", f"A copy has its source's tags, not those of {HEADER}, unless {DIRECTIVE} is REPLACE.")
    return in_headers(headers) if directive == "REPLACE" else None


def in_document(root: Element) -> Values:
    """The tags of a request's XML. 400 InvalidTag, MalformedXML."""
    sets = root.all("TagSet")
    if len(sets) != 1:
        raise S3Error("MalformedXML", "Tagging has one TagSet.")
    pairs = []
    for tag in sets[0].all("Tag"):
        keys, values = tag.all("Key"), tag.all("Value")
        if len(keys) != 1 or len(values) != 1:
            raise S3Error("MalformedXML", "Each Tag has one Key and one Value.")
        pairs.append((keys[0].text, values[0].text))
    return words_of(pairs)


def among(values: Values) -> Values:
    """Those of the words beside a content that are tags."""
    return {name: value for name, value in values.items() if name.startswith(TAG)}


def document_of(values: Values) -> bytes:
    """The tags of an object, as GetObjectTagging tells them."""
    tags = [many("Tag", element("Key", name.removeprefix(TAG)), element("Value", value)) for name, value in among(values).items()]
    return document("Tagging", many("TagSet", *tags))
