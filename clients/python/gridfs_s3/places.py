"""Where buckets and objects stand among a tenant's names, and the words beside an object's content.

    BUCKET/KEY                the object, where that is a name: 1 to 255 bytes of UTF-8, no control character, no / at the end
    .s3/key/BUCKET/DIGEST     any other object: DIGEST is SHA-256 of the key, in 43 letters of base64url; the words have the key
    .s3/bucket/BUCKET         the bucket is there
    .s3/set/BUCKET/lifecycle  the rules that the bucket was given, in XML; .s3/set/BUCKET/cors as well, and .s3/set/BUCKET/policy in JSON
    .s3/up/BUCKET/ID/=DIGEST  an upload in parts that is under way: what was uploaded, in the order of the parts. DIGEST is SHA-256 of the object's
                              name, so that both are in the same page, at the same grid
    .s3/version/BUCKET/ID/=DIGEST
                              a version of an object, but for the version `null`, which is the object's name; the words have the key

A bucket's name begins with a letter or digit, so none of these are in each other's way. The words of a line are KEY=VALUE with & between, each
quoted as in a URL:

    t    when it was put, in milliseconds since the epoch          c    its content type
    m    its MD5, or of an upload in parts MD5 of the parts' MD5   h-NAME   Content-Encoding and others that are told again
    n    how many parts it was uploaded in                         x-NAME   metadata of the client
    k    its key, where the name does not tell it                  u    the upload by which it came
    s    its checksum, as `crc32.BASE64`, of an upload also -N     a    of an upload: the algorithm that was named, and its kind, as `crc32.FULL_OBJECT`
    i    of an upload: when it was begun                           g-NAME   a tag
    b    of what a bucket was given: when the bucket was made       v    of a bucket: whether its versions are Enabled or Suspended
    d    the version is a marker of a removal                      o    of a version whose words were changed: NUMBER.SESSION of what was there first
    p    of an upload: NUMBER.MD5.SIZE.SECONDS of each part, with / between: MD5 is in base64url, SECONDS are since the upload was begun. Behind that
         .CHECKSUM, where one is kept, in base64url, and its .ALGORITHM, where that is another one than was named. Parts that lists name have that there,
         between { and } (part_lists.py). (Earlier uploads have NUMBER.MD5.SIZE.TIME,
         with , between and MD5 in hexadecimal)
"""

import re
from collections.abc import Iterable
from dataclasses import dataclass, field
from functools import cached_property
from urllib.parse import parse_qsl, quote

from gridfs_client.buckets import Held
from gridfs_client.contents import digest_in_hex, digest_of, digest_to_place, from_base64, to_base64
from gridfs_client.errors import BadName, Damaged
from gridfs_client.pages import check_name

from .checksums import Checksum, of_text
from .errors import S3Error

BUCKET = re.compile(r"(?!xn--)(?!.*\.\.)(?!\d+\.\d+\.\d+\.\d+$)[a-z0-9][a-z0-9.-]{1,61}[a-z0-9]", re.ASCII)
PART = re.compile(r"([0-9]{1,5})\.([A-Za-z0-9_-]{22})\.([0-9]{1,19})\.([0-9]{1,9})(?:\.([A-Za-z0-9_-]+)(?:\.([a-z0-9]+))?)?")
OLD_PART = re.compile(r"([0-9]{1,5})\.([0-9a-f]{32})\.([0-9]{1,19})\.([0-9]{1,13})")
ORDER = re.compile(r"([0-9]{1,19})\.([0-9]{1,3})")
LONGEST_KEY, MOST_METADATA, MOST_KEPT = 1_024, 2_048, 8_192
Values = dict[str, str]  # what stands beside a content, by its letters above
TAG = "g-"
BUCKETS, KEYS, UPLOADS, SETTINGS, VERSIONS = ".s3/bucket/", ".s3/key/", ".s3/up/", ".s3/set/", ".s3/version/"
NULL = "null"  # the ID of the version that stands at the object's name
PLAIN, FROM_PLAIN = str.maketrans("+/", "-_"), str.maketrans("-_", "+/")  # of base64


def check_bucket(bucket: str) -> None:
    if not BUCKET.fullmatch(bucket):
        raise S3Error("InvalidBucketName")


def name_of(bucket: str, key: str) -> str:
    """The name under which an object stands."""
    try:
        length = len(key.encode())
    except UnicodeEncodeError:
        raise S3Error("InvalidURI", "A key is UTF-8.") from None
    if length > LONGEST_KEY:
        raise S3Error("KeyTooLongError")
    name = f"{bucket}/{key}"
    try:
        check_name(name)
        return name
    except BadName:
        return f"{KEYS}{bucket}/{digest_of(key.encode())}"


def setting_name(bucket: str, kind: str) -> str:
    """The name of what a bucket was given."""
    return f"{SETTINGS}{bucket}/{kind}"


def bucket_in(name: str) -> str:
    """The bucket to which an object, a version or an upload belongs that has this name."""
    prefix = next((each for each in (KEYS, UPLOADS, VERSIONS) if name.startswith(each)), "")
    return name.removeprefix(prefix).partition("/")[0]


def upload_name(bucket: str, upload: str, object_name: str) -> str:
    return f"{UPLOADS}{bucket}/{upload}{beside(object_name)}"


def beside(object_name: str) -> str:
    """How names end that stand in the page of an object's name."""
    return f"/={to_base64(digest_to_place(object_name))}"


def version_name(bucket: str, version: str, object_name: str) -> str:
    return f"{VERSIONS}{bucket}/{version}{beside(object_name)}"


def upload_of(name: str) -> str:
    """The ID in the name of an upload."""
    return name.removeprefix(UPLOADS).partition("/")[2].partition("/")[0]


def to_words(values: Values) -> str:
    return "&".join(f"{quote(key, safe='')}={quote(value, safe='/')}" for key, value in values.items()).replace("~", "%7E")


def of_words(words: str) -> Values:
    if "%" in words or "+" in words:
        return dict(parse_qsl(words, keep_blank_values=True))
    pairs = (word.partition("=") for word in words.split("&") if word)
    return {key: value for key, _, value in pairs}


@dataclass(frozen=True)
class Part:
    """A part of an upload."""

    number: int
    md5: str
    size: int
    time: int
    checksum: Checksum | None = None


# Words stand in lines of pages, which other clients of the tenant write too: what has no form must not hinder what is done with other names.


def number_of(values: Values, key: str) -> int:
    """A number of at most 13 digits, such as a time; 0 for what is none."""
    text = values.get(key, "")
    return int(text) if re.fullmatch(r"[0-9]{1,13}", text) else 0


def parts_of(values: Values) -> list[Part]:
    """The parts of an upload. Damaged where a word has no form."""
    return [part_in(word, values) for word in re.split("[,/]", values.get("p", "")) if word]


def part_in(word: str, values: Values) -> Part:
    """The part of an upload that a word tells. Damaged where it has no form."""
    found = PART.fullmatch(word) or OLD_PART.fullmatch(word)
    if not found:
        raise Damaged("the words of an upload have no form")
    return part_of(found, values)


def part_of(found: re.Match[str], values: Values) -> Part:
    number, md5, size, time, *rest = found.groups()
    if not rest:
        return Part(int(number), md5, int(size), int(time))
    checksum = rest[0] and of_text(f"{rest[1] or named_in(values)}.{rest[0].translate(FROM_PLAIN)}{'=' * (-len(rest[0]) % 4)}")
    return Part(int(number), from_base64(md5).hex(), int(size), number_of(values, "i") + 1_000 * int(time), checksum or None)


def words_of(parts: Iterable[Part], values: Values) -> str:
    """These parts as the words of an upload have them: few letters for each, and none that words quote, since all of them stand in one line."""
    return "/".join(word_of(part, values) for part in parts)


def word_of(part: Part, values: Values) -> str:
    word = f"{part.number}.{to_base64(bytes.fromhex(part.md5))}.{part.size}.{max(0, part.time - number_of(values, 'i')) // 1_000}"
    if part.checksum:
        word += f".{part.checksum.value.rstrip('=').translate(PLAIN)}"
        word += "" if part.checksum.algorithm == named_in(values) else f".{part.checksum.algorithm}"
    return word


def named_in(values: Values) -> str:
    """The algorithm that was named for the checksum of an upload; empty for none."""
    return values.get("a", "").partition(".")[0]


@dataclass(frozen=True)
class Object:
    """What a name holds, as S3 sees it."""

    key: str
    held: Held = field(repr=False)

    @cached_property
    def values(self) -> Values:
        return of_words(self.held.words)

    @property
    def size(self) -> int:
        return self.held.content.size

    @property
    def etag(self) -> str:
        """MD5, with the number of parts after a - where it is of parts; of a content that another client put, half of its SHA-256."""
        md5, count = self.values.get("m", ""), self.values.get("n")
        if re.fullmatch(r"[0-9a-f]{32}", md5) and re.fullmatch(r"[0-9]{1,5}", count or "1"):
            return md5 + (f"-{count}" if count else "")
        return digest_in_hex(self.held.content.digest)[:32] + "-1"

    @property
    def checksum(self) -> Checksum | None:
        return of_text(self.values.get("s", ""))

    @property
    def time(self) -> int:
        """Milliseconds since the epoch; 0 of what another client put."""
        return number_of(self.values, "t")

    @property
    def version(self) -> str:
        """Its ID among the versions of its key."""
        return self.held.name.removeprefix(VERSIONS).split("/")[1] if self.held.name.startswith(VERSIONS) else NULL

    @property
    def is_marker(self) -> bool:
        return "d" in self.values

    @cached_property
    def order(self) -> tuple[int, int]:
        """By which versions of one key come one after another: what the change that made it had as its number, and its session."""
        found = ORDER.fullmatch(self.values.get("o", ""))
        return (int(found[1]), int(found[2])) if found else (self.held.version.number, self.held.version.session)


def version_in(name: str, held: Held) -> Object | None:
    """The version that this is of the object of that name; None where it is another one's."""
    bucket = bucket_in(name)
    found = object_of(bucket, held)
    try:
        return found if found and (held.name == name or name_of(bucket, found.key) == name) else None
    except S3Error:
        return None  # (the words have no key)


def object_of(bucket: str, held: Held) -> Object | None:
    """The object that a name of this bucket holds, or the version of one."""
    if held.name.startswith(f"{bucket}/"):
        return Object(held.name[len(bucket) + 1 :], held)
    if held.name.startswith((f"{KEYS}{bucket}/", f"{VERSIONS}{bucket}/")):
        return Object(of_words(held.words).get("k", ""), held)
    return None
