"""Policies of buckets: which objects anybody may read who signs no request. Of what
https://docs.aws.amazon.com/AmazonS3/latest/userguide/bucket-policies.html has they say that alone; what else a policy would say is not taken."""

import asyncio
import json
import re
import time
from dataclasses import dataclass
from typing import Any

from aiohttp import web

from .errors import S3Error
from .gateway import LONGEST_XML, Gateway, Operations
from .given import Given
from .keys import Key
from .markup import document, element
from .requests import Asked, answer
from .signing import UNSIGNED, Signed, Signer

KIND = "policy"
LONGEST = 20 << 10  # bytes of a policy
SURE_FOR = 2.0  # seconds for which a policy that was seen is taken to be in force
MOST_KNOWN = 1_000  # buckets
GET = "s3:GetObject"
NOBODY = "-"  # in the place of an access key, which none is
VERSIONS = ("2012-10-17", "2008-10-17")
RESOURCE = re.compile(r"arn:aws:s3:::([^/*?]+)/([^*?]*)(\*?)")
# Who signs nothing asks for an object as it is: for what other words of a query would change a signature is wanted.
OF_ANYBODY = {"x-id", "X-Amz-Credential"}


LIST = "s3:ListBucket"
OF_BUCKETS = {"s3:GetBucketLocation", LIST}  # actions of which a Resource is a bucket
OF_A_LISTING = {"prefix", "delimiter", "max-keys", "marker", "list-type", "continuation-token", "start-after", "encoding-type", "fetch-owner"}


@dataclass(frozen=True)
class Readable:
    """Keys that anybody may read: this one, or all that begin so."""

    text: str
    is_beginning: bool

    def has(self, key: str) -> bool:
        return key.startswith(self.text) if self.is_beginning else key == self.text


@dataclass(frozen=True)
class Let:
    """What anybody may: read these keys, and what he may of the bucket itself, by the names of actions."""

    keys: tuple[Readable, ...] = ()
    of_bucket: frozenset[str] = frozenset()


def policy_of(text: bytes, bucket: str) -> Let:
    """What a policy lets anybody do. 400 MalformedPolicy; 501 NotImplemented for a policy that says anything else."""
    try:
        found = json.loads(text.decode())
        statements = found["Statement"] if isinstance(found["Statement"], list) else [found["Statement"]]
        if found.get("Version", VERSIONS[0]) not in VERSIONS or not statements or not all(isinstance(each, dict) for each in statements):
            raise ValueError
    except (ValueError, LookupError, TypeError, AttributeError, RecursionError):
        raise S3Error("MalformedPolicy") from None
    if others := found.keys() - {"Version", "Id", "Statement"}:
        raise S3Error("MalformedPolicy", f"A policy has no {min(others)}.")
    every = [let_by(statement, bucket) for statement in statements]
    return Let(tuple(each for let in every for each in let.keys), frozenset[str]().union(*(let.of_bucket for let in every)))


def let_by(statement: dict[str, Any], bucket: str) -> Let:
    if others := statement.keys() - {"Sid", "Effect", "Principal", "Action", "Resource"}:
        raise S3Error("NotImplemented", f"A statement with {min(others)} is not taken here.")
    actions = set(several(statement, "Action"))
    if statement.get("Effect") != "Allow" or statement.get("Principal") not in ("*", {"AWS": "*"}, {"AWS": ["*"]}) or not actions or actions - OF_BUCKETS - {GET}:
        raise S3Error("NotImplemented", f"All that a policy says here is what anybody may: Effect Allow, Principal *, Action {GET}, {', '.join(sorted(OF_BUCKETS))}.")
    named = several(statement, "Resource")
    of_bucket, keys = [each for each in named if each == f"arn:aws:s3:::{bucket}"], [RESOURCE.fullmatch(each) for each in named]
    found = [Readable(each[2], bool(each[3])) for each in keys if each and each[1] == bucket]
    if len(of_bucket) + len(found) < len(named) or bool(of_bucket) != bool(actions & OF_BUCKETS) or bool(found) != (GET in actions):
        raise S3Error("MalformedPolicy", f"A Resource is arn:aws:s3:::{bucket}/KEY, or the beginning of keys and a *; of the bucket's own actions arn:aws:s3:::{bucket}.")
    return Let(tuple(found), frozenset(actions & OF_BUCKETS))


def several(statement: dict[str, Any], name: str) -> list[str]:
    """A text, or several. 400 MalformedPolicy."""
    found = statement.get(name)
    every = found if isinstance(found, list) else [found]
    if not all(isinstance(each, str) for each in every):
        raise S3Error("MalformedPolicy", f"{name} is a text, or a list of texts.")
    return every


class Policies(Operations):
    def __init__(self, gateway: Gateway, given: Given):
        super().__init__(gateway)
        self.given, self.known = given, dict[str, tuple[float, Let]]()
        self.asking = asyncio.Lock()  # (whoever reads has signed nothing: one bucket at a time is looked for)

    async def put_bucket_policy(self, asked: Asked) -> web.Response:
        """204: what this policy lets anybody read he may. The errors of a body; 400 MalformedPolicy; 404 NoSuchBucket; 501 NotImplemented; 507
        InsufficientStorage."""
        made, _ = await self.given.made(asked.bucket)
        text = await self.gateway.text(asked, min(LONGEST, LONGEST_XML))
        policy_of(text, asked.bucket)
        await self.given.give(asked.bucket, made, KIND, text)
        self.known.pop(asked.bucket, None)
        return answer(status=204)

    async def get_bucket_policy(self, asked: Asked) -> web.Response:
        """200, with the policy as it was given. 404 NoSuchBucket, NoSuchBucketPolicy."""
        made, _ = await self.given.made(asked.bucket)
        if not (found := await self.given.find(asked.bucket, made, KIND)):
            raise S3Error("NoSuchBucketPolicy", BucketName=asked.bucket)
        return answer(found[1], kind="application/json")

    async def get_bucket_policy_status(self, asked: Asked) -> web.Response:
        """200: whether anybody may read some of it. 404 NoSuchBucket, NoSuchBucketPolicy."""
        made, _ = await self.given.made(asked.bucket)
        if not await self.given.find(asked.bucket, made, KIND):
            raise S3Error("NoSuchBucketPolicy", BucketName=asked.bucket)
        return answer(document("PolicyStatus", element("IsPublic", "true")))

    async def delete_bucket_policy(self, asked: Asked) -> web.Response:
        """204, also where there is none. 404 NoSuchBucket."""
        await self.given.take_away(asked.bucket, KIND)
        self.known.pop(asked.bucket, None)
        return answer(status=204)

    async def in_force(self, bucket: str) -> Let:
        """What anybody may, of a bucket, as it was two seconds ago at the earliest; nothing where there is no such bucket."""
        until, found = self.known.get(bucket, (0.0, Let()))
        if until > time.monotonic():
            return found
        try:
            made, _ = await self.given.made(bucket)
            told = await self.given.find(bucket, made, KIND)
            found = policy_of(told[1], bucket) if told else Let()
        except S3Error as fault:
            if fault.status >= 500 and fault.code != "NotImplemented":
                raise
            found = Let()
        if len(self.known) > MOST_KNOWN:
            self.known.clear()
        self.known[bucket] = time.monotonic() + SURE_FOR, found
        return found

    async def let_in(self, asked: Asked) -> None:
        """Lets in who signs nothing and reads an object that anybody may, or lists the bucket, or asks where it is: from then on he is one who may read this bucket
        alone. 403 AccessDenied. 400 InvalidRequest for words of a query, which want a signature."""
        async with self.asking:
            found = await self.in_force(asked.bucket)
        action = GET if asked.key else "s3:GetBucketLocation" if "location" in asked.query else LIST
        if not (any(each.has(asked.key) for each in found.keys) if asked.key else action in found.of_bucket):
            raise S3Error("AccessDenied", "The request is not signed.")
        known = {GET: set[str](), LIST: OF_A_LISTING}.get(action, {"location"})
        if words := sorted(asked.query.keys() - OF_ANYBODY - known):
            raise S3Error("InvalidRequest", f"A request with {words[0]} is signed.")
        asked.is_anybodys = True
        key = Key(NOBODY, "", True, frozenset([asked.bucket]))
        asked.signed = Signed(key, UNSIGNED, "", Signer("", self.gateway.region), "")
