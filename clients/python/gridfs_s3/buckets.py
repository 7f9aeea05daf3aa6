"""Operations on buckets."""

import time

from aiohttp import web

from gridfs_client.buckets import Bucket, Held
from gridfs_client.contents import Content, Inline

from . import versions
from .bodies import body_of
from .errors import S3Error
from .gateway import Operations
from .index import Names
from .markup import document, element, escape, many
from .places import BUCKETS, KEYS, SETTINGS, UPLOADS, VERSIONS, check_bucket, number_of, of_words, upload_of
from .requests import Asked, answer, iso, place_of, token_of
from .store import Store


MOST_BUCKETS = 10_000  # in one answer
NEVER_GIVEN = {
    "encryption": "ServerSideEncryptionConfigurationNotFoundError",
    "object-lock": "ObjectLockConfigurationNotFoundError", "ownershipControls": "OwnershipControlsNotFoundError",
    "publicAccessBlock": "NoSuchPublicAccessBlockConfiguration", "replication": "ReplicationConfigurationNotFoundError", "tagging": "NoSuchTagSet",
    "website": "NoSuchWebsiteConfiguration",
}  # what a bucket can't be given here, and how it is told that it has none


class Buckets(Operations):
    async def list_buckets(self, asked: Asked) -> web.Response:
        """200: those that the access key sees, of a prefix and of this region, so many at a time. 400 InvalidArgument."""
        query, most = asked.query, asked.number("max-buckets", MOST_BUCKETS, MOST_BUCKETS)
        if not most:
            raise S3Error("InvalidArgument", "max-buckets is at least 1.")
        token, prefix = query.get("continuation-token"), query.get("prefix", "")
        after = place_of(token) if token else ""
        found = await self.gateway.listing(lambda names: {row.name[len(BUCKETS) :]: row for row in names.names(BUCKETS + prefix)})
        names = sorted(name for name in found if name > after and asked.signed.key.sees(name))
        names = names if query.get("bucket-region", self.gateway.region) == self.gateway.region else []
        rows = [many("Bucket", element("Name", name), element("CreationDate", iso(found[name].time))) for name in names[:most]]
        tail = [
            element("ContinuationToken", token_of(names[most - 1])) if len(names) > most else None,
            element("Prefix", prefix) if "prefix" in query else None,
        ]
        return answer(document("ListAllMyBucketsResult", self.gateway.owner(), many("Buckets", *rows), *tail))

    async def create_bucket(self, asked: Asked) -> web.Response:
        """200. 409 BucketAlreadyOwnedByYou; 400 InvalidBucketName, InvalidLocationConstraint (another region), MalformedXML."""
        check_bucket(asked.bucket)
        if body_of(asked).told_size:
            wanted = (await self.gateway.document(asked, "CreateBucketConfiguration")).told("LocationConstraint")
            if self.gateway.region_is_told and wanted not in (None, "", "EU", self.gateway.region):
                raise S3Error("InvalidLocationConstraint", f"The only region here is {self.gateway.region}.")
        name = BUCKETS + asked.bucket

        def make(store: Store) -> None:
            if store.look(name):
                raise S3Error("BucketAlreadyOwnedByYou", BucketName=asked.bucket)
            store.change(name, lambda *_: Inline(b""), dict)

        await self.gateway.change(name, make)
        return answer(headers={"Location": f"/{asked.bucket}"})

    async def head_bucket(self, asked: Asked) -> web.Response:
        """200. 404 (a HEAD has no body, so no code)."""
        await self.gateway.need_bucket(asked.bucket)
        return answer(headers={"x-amz-bucket-region": self.gateway.region})

    async def delete_bucket(self, asked: Asked) -> web.Response:
        """204; uploads that are under way go with it, and what it was given. 404 NoSuchBucket, 409 BucketNotEmpty."""
        await self.gateway.need_bucket(asked.bucket)
        contents = (f"{asked.bucket}/", f"{KEYS}{asked.bucket}/", f"{VERSIONS}{asked.bucket}/")

        def look(names: Names) -> list[str]:
            if any(map(names.has_any, contents)):
                raise S3Error("BucketNotEmpty", BucketName=asked.bucket)
            return [row.name for prefix in (UPLOADS, SETTINGS) for row in names.names(f"{prefix}{asked.bucket}/")]

        for name in [*await self.gateway.listing(look), BUCKETS + asked.bucket]:
            await self.gateway.change(name, lambda store, name=name: store.delete(name), number=self.session_of(name))  # type: ignore[misc]
        self.gateway.known_buckets.pop(asked.bucket, None)
        return answer(status=204)

    def session_of(self, name: str) -> int | None:
        """The session that an upload belongs to, where it is here."""
        word = upload_of(name).partition(".")[0] if name.startswith(UPLOADS) else ""
        return int(word) if word.isdecimal() and self.grids.has_session(int(word)) else None

    async def get_bucket_location(self, asked: Asked) -> web.Response:
        """200. 404 NoSuchBucket."""
        await self.gateway.need_bucket(asked.bucket)
        return answer(document("LocationConstraint", escape("" if self.gateway.region == "us-east-1" else self.gateway.region)))

    async def get_bucket_versioning(self, asked: Asked) -> web.Response:
        """200: whether they are enabled or suspended; neither where they never were. 404 NoSuchBucket."""
        state = await self.gateway.need_bucket(asked.bucket)
        return answer(document("VersioningConfiguration", element("Status", state) if state else None))

    async def put_bucket_versioning(self, asked: Asked) -> web.Response:
        """200. Changes that are committed from now on go by it, those of other gateways after two seconds. The errors of a body; 400 MalformedXML; 404 NoSuchBucket; 501
        NotImplemented over several grids."""
        await self.gateway.need_bucket(asked.bucket)
        state = (await self.gateway.document(asked, "VersioningConfiguration")).told("Status") or ""
        if state not in (versions.ENABLED, versions.SUSPENDED):
            raise S3Error("MalformedXML")
        if self.grids.map:
            raise S3Error("NotImplemented", "Versions are not told apart over several grids.")
        name, words = BUCKETS + asked.bucket, dict[str, str]()

        def expect(_: Bucket, held: Held | None) -> Content:
            if not held:
                raise S3Error("NoSuchBucket", BucketName=asked.bucket)
            words.update(of_words(held.words))
            return Inline(b"")

        # (the bucket was made when it was made)
        await self.gateway.change(name, lambda store: store.change(name, expect, lambda: {**words, "v": state}))
        self.gateway.knows(asked.bucket, time.monotonic(), state)
        return answer()

    async def get_bucket_acl(self, asked: Asked) -> web.Response:
        """200: all is the tenant's. 404 NoSuchBucket."""
        await self.gateway.need_bucket(asked.bucket)
        return answer(self.acl())

    async def get_what_was_never_given(self, asked: Asked) -> web.Response:
        """404 with the code of what is asked for: no bucket can be given any. 404 NoSuchBucket."""
        await self.gateway.need_bucket(asked.bucket)
        raise S3Error(next(code for word, code in NEVER_GIVEN.items() if word in asked.query), BucketName=asked.bucket)

    def acl(self) -> bytes:
        kind = 'xmlns:xsi="http://www.w3.org/2001/XMLSchema-instance" xsi:type="CanonicalUser"'
        grantee = self.gateway.owner("Grantee").replace("<Grantee>", f"<Grantee {kind}>", 1)
        grant = many("Grant", grantee, element("Permission", "FULL_CONTROL"))
        return document("AccessControlPolicy", self.gateway.owner(), many("AccessControlList", grant))
