"""Forms by which browsers put an object: fields, among them a policy that a key of the tenant signed, and then a file. The policy says which fields a form may
have, until when, and how long the file is: https://docs.aws.amazon.com/AmazonS3/latest/API/sigv4-HTTPPOSTConstructPolicy.html"""

import asyncio
import base64
import hmac
import json
import re
import time
from collections.abc import AsyncIterator, Mapping, Set
from contextlib import asynccontextmanager, closing, nullcontext
from dataclasses import dataclass
from datetime import datetime
from typing import Any, cast
from urllib.parse import quote, urlencode

from aiohttp import BodyPartReader, MultipartReader, StreamReader, web
from aiohttp.http_exceptions import BadHttpMessage

from . import metrics, tags
from .bodies import Checks, Spooled
from .bounds import BODY_PIECE, IDLE, LONG, Spool, is_too_slow
from .errors import S3Error
from .gateway import Operations, let_body_come
from .markup import document, element, parse
from .objects import KEPT_HEADERS, LONGEST_PUT, Objects, algorithm_wanted, values_of
from .requests import Asked, answer
from .signing import ALGORITHM, IN_QUERY, SCOPE, UNSIGNED, Signed, Signer, is_utf8, seconds_of

MOST_BEFORE, FIELDS = 32 << 10, 10.0  # bytes of a form before its file, and seconds in which they have to come
NEVER_NAMED = {"file", "policy", "x-amz-signature"}  # fields that a policy need not name
IGNORED = "x-ignore-"
OF_SIGNATURES = {"x-amz-algorithm", "x-amz-credential", "x-amz-date", "x-amz-security-token", "x-amz-signature"}
AS_HEADERS = re.compile(rf"content-type|{'|'.join(KEPT_HEADERS)}|x-amz-.*")
PAGE = re.compile(r"https?://[!-~]{1,2000}")
MALFORMED = (ValueError, AssertionError, LookupError, RuntimeError, BadHttpMessage)  # what the reader of forms raises of one


def is_form(asked: Asked) -> bool:
    """Whether it is a form, as a browser sends one to a bucket."""
    return asked.method == "POST" and not asked.key and asked.headers.get("content-type", "").lower().startswith("multipart/form-data")


# Policies


@dataclass(frozen=True)
class Condition:
    """What a policy wants of a field: that it is this text, or begins so."""

    operator: str
    name: str
    value: str

    def holds(self, fields: Mapping[str, str]) -> bool:
        found = fields.get(self.name, "")
        if self.operator == "eq":
            return found == self.value
        each = found.split(",") if self.name == "content-type" else [found]
        return all(text.strip().startswith(self.value) for text in each)

    def __str__(self) -> str:
        return json.dumps([self.operator, f"${self.name}", self.value])


@dataclass(frozen=True)
class Policy:
    """Until when a form is good, in seconds since the epoch, what is wanted of its fields, and the bytes that its file has at least and at most."""

    until: float
    conditions: tuple[Condition, ...]
    least: int = 0
    most: int = LONGEST_PUT

    def expect(self, fields: Mapping[str, str], now: float) -> None:
        """403 AccessDenied for a form that the policy does not let through."""
        if now > self.until:
            raise S3Error("AccessDenied", "Invalid according to Policy: Policy expired.")
        for condition in self.conditions:
            if not condition.holds(fields):
                raise S3Error("AccessDenied", f"Invalid according to Policy: Policy Condition failed: {condition}")
        named = NEVER_NAMED | {condition.name for condition in self.conditions}
        if others := sorted(name for name in fields if name not in named and not name.startswith(IGNORED)):
            raise S3Error("AccessDenied", f"Invalid according to Policy: Extra input fields: {', '.join(others)}")


def policy_of(text: str) -> Policy:
    """The policy that a field has, in base64. 400 InvalidPolicyDocument."""
    try:
        found = json.loads(base64.b64decode(text, validate=True).decode())
        until = datetime.fromisoformat(found["expiration"])
        if until.tzinfo is None or set(found) != {"expiration", "conditions"} or not isinstance(found["conditions"], list):
            raise ValueError
        conditions, least, most = list[Condition](), 0, LONGEST_PUT
        for each in found["conditions"]:
            if isinstance(each, list) and len(each) == 3 and each[0] == "content-length-range":
                least, most = max(least, length_of(each[1])), min(most, length_of(each[2]))
            else:
                conditions += conditions_of(each)
        return Policy(until.timestamp(), tuple(conditions), least, most)
    except (ValueError, LookupError, TypeError, AttributeError, OverflowError, RecursionError):
        raise S3Error("InvalidPolicyDocument") from None


def length_of(found: Any) -> int:
    if isinstance(found, bool) or not re.fullmatch(r"[0-9]{1,18}", str(found), re.ASCII):
        raise ValueError(found)
    return int(found)


def conditions_of(found: Any) -> list[Condition]:
    """{NAME: VALUE, ..}, [eq, $NAME, VALUE] or [starts-with, $NAME, VALUE]; a ValueError for what is none."""
    if isinstance(found, dict) and found:
        found = [("eq", f"${name}", value) for name, value in found.items()]
    else:
        found = [found]
    for operator, name, value in found:
        if operator not in ("eq", "starts-with") or not isinstance(value, str) or not re.fullmatch(r"\$.+", name):
            raise ValueError(name)
    return [Condition(operator, name[1:].lower(), value) for operator, name, value in found]


# Who signed it


def signed_by(fields: Mapping[str, str], gateway_keys: Mapping[str, Any]) -> Signed:
    """Whose key signed a form's policy. 403 AccessDenied, InvalidAccessKeyId, SignatureDoesNotMatch; 400 InvalidRequest, InvalidArgument."""
    if "policy" not in fields:
        raise S3Error("AccessDenied", "The form has no policy that is signed.")
    if "x-amz-signature" not in fields:
        raise S3Error("InvalidRequest", f"Signature version 2 is not taken here: sign by {ALGORITHM}." if "signature" in fields else "The form has no field x-amz-signature.")
    if fields.get("x-amz-algorithm") != ALGORITHM:
        raise S3Error("InvalidArgument", f"x-amz-algorithm has to be {ALGORITHM}.")
    scope, stamp, told = SCOPE.fullmatch(fields.get("x-amz-credential", "")), fields.get("x-amz-date", ""), fields["x-amz-signature"]
    if not scope:
        raise S3Error("InvalidArgument", "x-amz-credential has to be KEY/DAY/REGION/s3/aws4_request.")
    access, day, region = scope.groups()
    seconds_of(stamp, "InvalidArgument")
    if not stamp.startswith(day + "T"):
        raise S3Error("InvalidArgument", "x-amz-credential is of another day than x-amz-date.")
    if access not in gateway_keys:
        raise S3Error("InvalidAccessKeyId")
    signer = Signer(gateway_keys[access].secret, region)
    right = signer.signature(fields["policy"], stamp)
    if not hmac.compare_digest(right.encode(), told.encode(errors="surrogateescape")):
        raise S3Error("SignatureDoesNotMatch")
    return Signed(gateway_keys[access], UNSIGNED, told, signer, stamp)


# How it is read


class Few:
    """The stream of a request, of which no more than a little is given before its file. (Nobody has shown until then who he is.)"""

    def __init__(self, stream: StreamReader):
        self.stream, self.left = stream, MOST_BEFORE

    def counted(self, data: bytes) -> bytes:
        self.left -= len(data)
        if self.left < 0:
            raise S3Error("MaxPostPreDataLengthExceeded")
        return data

    async def readline(self, **words: int) -> bytes:
        return self.counted(await self.stream.readline(**words))

    async def read(self, length: int = -1) -> bytes:
        return self.counted(await self.stream.read(length))

    def unread_data(self, data: bytes) -> None:
        self.left += len(data)
        self.stream.unread_data(data)

    def at_eof(self) -> bool:
        return self.stream.at_eof()

    def all_of_it(self) -> None:
        """From here on all is given."""
        self.left = 1 << 62


@dataclass
class Form:
    """A form whose policy lets it through: what it has before its file, and the file that is to come."""

    fields: Mapping[str, str]
    policy: Policy
    file: BodyPartReader

    @property
    def headers(self) -> dict[str, str]:
        """What a put by a request would have as headers."""
        found = {name: value for name, value in self.fields.items() if AS_HEADERS.fullmatch(name) and name not in OF_SIGNATURES}
        return found | ({"x-amz-acl": self.fields["acl"]} if "acl" in self.fields else {})


async def fields_of(reader: MultipartReader) -> tuple[dict[str, str], BodyPartReader]:
    """The fields before the file, by their names in small letters, and the file. 400 IncorrectNumberOfFilesInPostRequest; a ValueError for what is no form."""
    fields = dict[str, str]()
    while part := await reader.next():
        if not isinstance(part, BodyPartReader) or not part.name or part.name.lower() in fields:
            raise ValueError(part)
        if part.name.lower() == "file":
            return fields, part
        fields[part.name.lower()] = (await part.read()).decode()
    raise S3Error("IncorrectNumberOfFilesInPostRequest")


class Forms(Operations):
    def __init__(self, objects: Objects):
        super().__init__(objects.gateway)
        self.objects = objects

    async def read(self, asked: Asked) -> Form:
        """Reads a form up to its file, and judges who signed its policy, and whether that lets it through: then `asked` has the key, the headers and the signer.

        400 IncorrectNumberOfFilesInPostRequest, InvalidArgument, InvalidPolicyDocument, InvalidRequest, MalformedPOSTRequest, MaxPostPreDataLengthExceeded,
        RequestTimeout, UserKeyMustBeSpecified; 403 AccessDenied, InvalidAccessKeyId, SignatureDoesNotMatch; 501 NotImplemented.
        """
        if words := [name for name in asked.query if not name.startswith(IN_QUERY)]:
            raise S3Error("NotImplemented", f"There is no form with ?{min(words)} here.")
        if conditions := [name for name in asked.headers if name.startswith("if-")]:
            raise S3Error("NotImplemented", f"The header {min(conditions)} is not judged here.")
        await let_body_come(asked)
        try:
            stream = Few(asked.request.content)
            async with asyncio.timeout(FIELDS):
                fields, file = await fields_of(MultipartReader(asked.request.headers, cast(StreamReader, stream)))
            stream.all_of_it()
        except asyncio.TimeoutError:
            raise S3Error("RequestTimeout") from None
        except MALFORMED:
            raise S3Error("MalformedPOSTRequest") from None
        if not all(is_utf8(text) for pair in fields.items() for text in pair):
            raise S3Error("MalformedPOSTRequest")
        asked.signed = signed_by(fields, self.gateway.keys)
        asked.by_anybody = asked.signed.signature
        key = fields.get("key", "").replace("${filename}", re.split(r"[/\\]", file.filename or "")[-1])
        if not key:
            raise S3Error("UserKeyMustBeSpecified")
        if fields.setdefault("bucket", asked.bucket) != asked.bucket:
            raise S3Error("InvalidArgument", "The field bucket names another bucket than the URL.")
        form = Form({**fields, "key": key}, policy_of(fields["policy"]), file)
        form.policy.expect(form.fields, time.time())
        kept = {name: asked.headers[name] for name in ("host", "content-length", "origin") if name in asked.headers}
        asked.key, asked.headers = key, {**form.headers, **kept}
        return form

    @asynccontextmanager
    async def source_of(self, asked: Asked, form: Form) -> AsyncIterator[Spooled]:
        """The file as a session reads it: once it is here, and found to be as long as the policy wants it."""
        length = asked.headers.get("content-length", "")
        told, checks = int(length) if re.fullmatch(r"[0-9]{1,18}", length) else LONG + 1, Checks(asked.headers, UNSIGNED)
        if told > form.policy.most + MOST_BEFORE + LONG:
            raise S3Error("EntityTooLarge")
        async with self.gateway.places.one(asked) if told > LONG else nullcontext():
            with closing(Spool()) as spool:
                await self.fill(spool, form, checks)
                metrics.taken.labels(self.gateway.tenant).inc(spool.size)
                self.gateway.expect_room(spool.size)
                yield Spooled(spool, checks.md5.hexdigest(), checks.told())

    async def fill(self, spool: Spool, form: Form, checks: Checks) -> None:
        """400 BadDigest, EntityTooLarge, EntityTooSmall, MalformedPOSTRequest, RequestTimeout."""
        begun, loop = time.monotonic(), asyncio.get_running_loop()
        try:
            while not form.file.at_eof():
                data = bytes(await asyncio.wait_for(form.file.read_chunk(4 * BODY_PIECE), IDLE))
                checks.update(data)
                if checks.size > form.policy.most:
                    raise S3Error("EntityTooLarge", "The file is longer than the policy lets it be.")
                if is_too_slow(time.monotonic() - begun, checks.size):
                    raise S3Error("RequestTimeout", "The content comes too slowly.")
                await loop.run_in_executor(None, spool.add, data)
        except asyncio.TimeoutError:
            raise S3Error("RequestTimeout") from None
        except MALFORMED:
            raise S3Error("MalformedPOSTRequest") from None
        if checks.size < form.policy.least:
            raise S3Error("EntityTooSmall")
        checks.finish(None, {})

    async def post_object(self, asked: Asked, form: Form) -> web.Response:
        """204, or as success_action_status says, or 303 to success_action_redirect. 404 NoSuchBucket; 507 InsufficientStorage; 400 BadDigest, EntityTooLarge,
        EntityTooSmall, InvalidTag, KeyTooLongError, MalformedPOSTRequest, MalformedXML, MetadataTooLarge, RequestTimeout. After these nothing was changed."""
        aim, given = await self.objects.aim_of(asked), form.fields.get("tagging")
        values = values_of(asked) | (tags.in_document(parse(given.encode(), "Tagging", tags.ELEMENTS)) if given else {})
        async with self.source_of(asked, form) as source:
            found = await self.objects.put(aim, source, values, algorithm_wanted(asked))
        etag = f'"{found.etag}"'
        scheme = asked.request.headers.get("X-Forwarded-Proto", asked.request.scheme)
        place = f"{'https' if scheme == 'https' else 'http'}://{asked.headers.get('host', '')}{asked.path.rstrip('/')}/{quote(asked.key, safe='/-_.~')}"
        headers = {"ETag": etag, "Location": place, **(found.checksum.headers() if found.checksum else {}), **aim.target.told}
        page = form.fields.get("success_action_redirect", form.fields.get("redirect", ""))
        if PAGE.fullmatch(page):
            besides = urlencode({"bucket": asked.bucket, "key": asked.key, "etag": etag}, quote_via=quote)
            return answer(status=303, headers=headers | {"Location": f"{page}{'&' if '?' in page else '?'}{besides}"})
        status = form.fields.get("success_action_status")
        if status == "201":
            inner = [element("Location", place), element("Bucket", asked.bucket), element("Key", asked.key), element("ETag", etag)]
            return answer(document("PostResponse", *inner, space=""), 201, headers)
        return answer(status=200 if status == "200" else 204, headers=headers)
