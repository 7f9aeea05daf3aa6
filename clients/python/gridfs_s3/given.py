"""What buckets are given: documents that stand beside them, each of a kind."""

import hashlib

from gridfs_client.buckets import Held

from .bodies import Whole
from .errors import S3Error
from .gateway import Operations
from .places import BUCKETS, number_of, of_words, setting_name
from .store import Store


def text_of(store: Store, name: str) -> tuple[Held, bytes]:
    """What was given, and its text. NoSuchKey (404) where there is nothing."""

    def whole(held: Held | None) -> tuple[int, int]:
        if not held:
            raise S3Error("NoSuchKey")
        return 0, held.content.size

    held, parts, data = store.read(name, whole)
    return held, data + b"".join(parts)


class Given(Operations):
    async def made(self, bucket: str) -> tuple[int, str]:
        """When the bucket was made, and the state of its versions. What an earlier one of its name was given is not its own. 400 InvalidBucketName, 404
        NoSuchBucket."""
        await self.gateway.need_bucket(bucket)
        held = await self.gateway.held(BUCKETS + bucket)
        if not held:
            raise S3Error("NoSuchBucket", BucketName=bucket)
        words = of_words(held.words)
        return number_of(words, "t"), words.get("v", "")

    async def give(self, bucket: str, made: int, kind: str, text: bytes) -> None:
        """The bucket that was made then has this, and nothing else of its kind. 507 InsufficientStorage."""
        name, source = setting_name(bucket, kind), Whole(text, hashlib.md5(text).hexdigest())
        await self.gateway.change(name, lambda store: store.put_object(name, source, lambda: {"b": str(made)}))

    async def find(self, bucket: str, made: int, kind: str) -> tuple[Held, bytes] | None:
        """What the bucket that was made then was given; None where that is nothing."""
        name = setting_name(bucket, kind)
        try:
            held, text = await self.gateway.look(name, lambda store: text_of(store, name))
        except S3Error as fault:
            if fault.code == "NoSuchKey":
                return None
            raise
        return (held, text) if number_of(of_words(held.words), "b") == made else None

    async def take_away(self, bucket: str, kind: str) -> None:
        await self.made(bucket)
        name = setting_name(bucket, kind)
        await self.gateway.change(name, lambda store: store.delete(name))
