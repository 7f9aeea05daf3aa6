"""The lifecycles that buckets are given, and the looks by which what has expired goes.

A look removes nothing of which the gateway is not sure: an object only where it is still as it was seen, and only while the clock is one that clients and nodes agree with.
Rules that are taken back are in force for two seconds more at most. `x-amz-expiration` is not told.
"""

import asyncio
import time
from collections import Counter
from collections.abc import Callable, Iterable, Iterator
from dataclasses import dataclass

from aiohttp import web

from gridfs_client.buckets import Held

from . import lifecycle, metrics
from .buckets import Buckets
from .errors import S3Error, error_of, tell
from .gateway import Operations
from .given import Given
from .lifecycle import Rule, document_of, rules_of
from .markup import parse
from .places import BUCKETS, SETTINGS, UPLOADS, Object, bucket_in, name_of, number_of, object_of, of_words, setting_name, upload_of
from .requests import Asked, answer
from .sessions import now_ms
from .store import Changed, Store, expect_same
from .versions import Target, target_of
from .workers import who_asks

KIND = "lifecycle"
SURE_FOR = 2.0  # seconds for which rules that were seen are taken to be in force


@dataclass(frozen=True)
class InForce:
    """The rules of a bucket, as they were seen, and the state of its versions."""

    held: Held
    rules: tuple[Rule, ...]
    state: str
    seen: float


@dataclass(frozen=True)
class Going:
    """What has expired: an upload, or a version of an object."""

    bucket: str
    held: Held
    about: str | None = None  # the object's name, where the bucket has versions
    mark: Target | None = None  # the version is the latest, and gets a marker
    is_older: bool = False  # it goes only as long as it is not the latest

    @property
    def what(self) -> str:
        return "uploads" if self.held.name.startswith(UPLOADS) else "versions" if self.about and not self.mark else "objects"


class Lifecycles(Operations):
    def __init__(self, buckets: Buckets, given: Given):
        super().__init__(buckets.gateway)
        self.buckets, self.given = buckets, given

    # As they are given

    async def put_bucket_lifecycle_configuration(self, asked: Asked) -> web.Response:
        """200: the bucket has these rules and no others. The errors of a body; 400 InvalidArgument, InvalidRequest, MalformedXML; 404 NoSuchBucket; 501
        NotImplemented for what is not taken here, and for objects that go where this gateway has not all sessions; 507 InsufficientStorage."""
        made, _ = await self.given.made(asked.bucket)
        rules = rules_of(await self.gateway.document(asked, "LifecycleConfiguration"))
        if any(rule.has_objects_go for rule in rules):
            self.gateway.expect_all()
        await self.given.give(asked.bucket, made, KIND, document_of(rules))
        return answer()

    async def get_bucket_lifecycle_configuration(self, asked: Asked) -> web.Response:
        """200. 404 NoSuchBucket, NoSuchLifecycleConfiguration."""
        found = await self.in_force(asked.bucket, *await self.given.made(asked.bucket))
        if not found:
            raise S3Error("NoSuchLifecycleConfiguration", BucketName=asked.bucket)
        return answer(document_of(found.rules))

    async def delete_bucket_lifecycle(self, asked: Asked) -> web.Response:
        """204, also where there is none. 404 NoSuchBucket."""
        await self.given.take_away(asked.bucket, KIND)
        return answer(status=204)

    async def in_force(self, bucket: str, made: int, state: str) -> InForce | None:
        """The rules of a bucket that was made then; None where it has none."""
        seen, found = time.monotonic(), await self.given.find(bucket, made, KIND)
        if not found:
            return None
        held, text = found
        return InForce(held, tuple(rules_of(parse(text, "LifecycleConfiguration", lifecycle.ELEMENTS))), state, seen)

    # What has expired

    async def look_again_and_again(self, seconds: float) -> None:
        who_asks.set(("lifecycle", ""))
        while True:
            await asyncio.sleep(seconds)
            try:
                await self.remove_what_expired(now_ms())
            except Exception as fault:
                tell(f"what has expired stays for now: {error_of(fault).message}")

    async def remove_what_expired(self, now: int) -> Counter[tuple[str, str]]:
        """Has objects and uploads go by the rules of their buckets; how many of each bucket went. ClientError, S3Error: the rest stays until the next look."""
        in_force = await self.all_in_force()
        gone = Counter[tuple[str, str]]()
        if not in_force:
            return gone
        clock = self.gateway.clock
        if clock.last_put is None:
            await self.gateway.all(clock.look)
        if doubt := clock.doubt():
            tell(f"what has expired stays for now: {doubt}")
            return gone
        if others := clock.others():
            tell(f"what has expired goes by this machine's clock, as most nodes have it; {', '.join(others)}")
        if not self.grids.has_all and any(rule.is_enabled and rule.has_objects_go for found in in_force.values() for rule in found.rules):
            tell("objects that have expired stay: that they go needs a gateway that has all sessions of its tenant")
        wanted = await self.gateway.all(lambda every: list(self.expired(every, in_force, now)))
        try:
            for each in wanted:
                if await self.look_again(each.bucket, in_force) and await self.remove(each):
                    gone[each.bucket, each.what] += 1
        finally:
            for (bucket, what), count in gone.items():
                tell(f"{bucket}: {count} {what} have expired, and are gone")
                metrics.expired.labels(self.gateway.tenant, what).inc(count)
        return gone

    async def all_in_force(self) -> dict[str, InForce]:
        """The rules of each bucket that has some. What is none is told, and passed over."""
        kept = await self.gateway.listing(lambda names: [*names.names(BUCKETS), *names.names(SETTINGS)])
        words = {row.name.removeprefix(BUCKETS): of_words(row.words) for row in kept if row.name.startswith(BUCKETS)}
        found: dict[str, InForce] = {}
        for bucket in sorted(words):
            if any(row.name == setting_name(bucket, KIND) for row in kept):
                try:
                    if rules := await self.in_force(bucket, number_of(words[bucket], "t"), words[bucket].get("v", "")):
                        found[bucket] = rules
                except S3Error as fault:
                    tell(f"the lifecycle of {bucket} is passed over: {fault.message}")
        return found

    def expired(self, every: Iterable[Held], in_force: dict[str, InForce], now: int) -> Iterator[Going]:
        """What has expired and can go by this gateway."""
        versions = dict[tuple[str, str], list[Object]]()
        for held in every:
            bucket = bucket_in(held.name)
            rules = in_force[bucket].rules if bucket in in_force else ()
            if held.name.startswith(UPLOADS):
                words = of_words(held.words)
                is_here = bool(self.grids.map) or self.buckets.session_of(held.name) is not None
                if is_here and upload_of(held.name) and any(rule.has_ended(words.get("k", ""), number_of(words, "i"), now) for rule in rules):
                    yield Going(bucket, held)
            elif rules and self.grids.has_all and (found := object_of(bucket, held)):
                if in_force[bucket].state:
                    versions.setdefault((bucket, found.key), []).append(found)
                elif any(rule.has_expired(found, now) for rule in rules):
                    yield Going(bucket, held)
        for (bucket, key), several in versions.items():
            try:
                yield from expired_of(bucket, key, in_force[bucket], several, now)
            except S3Error:
                pass  # (another client wrote a line that has no key)

    async def look_again(self, bucket: str, in_force: dict[str, InForce]) -> bool:
        """Whether the bucket and its rules are as they were when it was seen what has expired; that may be some seconds ago."""
        found = in_force.get(bucket)
        if found and time.monotonic() - found.seen > SURE_FOR:
            self.gateway.known_buckets.pop(bucket, None)
            try:
                again = await self.in_force(bucket, *await self.given.made(bucket))
            except S3Error:
                again = None
            if again and (again.held.version, again.state) == (found.held.version, found.state):
                in_force[bucket] = again
            else:
                in_force.pop(bucket)
        return bucket in in_force

    async def remove(self, going: Going) -> bool:
        """Has an object go, or a version, if it is as it was seen, or an upload."""
        name, mark = going.held.name, going.mark
        if name.startswith(UPLOADS):
            return await self.gateway.change(name, lambda store: store.delete(name), number=self.buckets.session_of(name))

        def judge(now: Held | None) -> None:
            if not going.is_older:
                expect_same(now, going.held)
            elif not now or now.name == name:
                raise Changed

        condition = self.gateway.judged(name, judge)
        work: Callable[[Store], bool] = lambda store: bool(store.mark(mark, condition)) if mark else store.delete(name, condition, going.about)
        try:
            return await self.gateway.change(mark.name if mark else name, work, condition=condition)
        except Changed:
            return False


def expired_of(bucket: str, key: str, in_force: InForce, found: list[Object], now: int) -> Iterator[Going]:
    """What has expired of the versions of one key. S3Error where it is no key."""
    about, (latest, *older) = name_of(bucket, key), sorted(found, key=lambda each: each.order, reverse=True)
    if not latest.is_marker and any(rule.has_expired(latest, now) for rule in in_force.rules):
        yield Going(bucket, latest.held, about, mark=target_of(bucket, key, in_force.state))
    if any(rule.is_over(latest, len(found)) for rule in in_force.rules):
        yield Going(bucket, latest.held, about)
    for newer, (after, each) in enumerate(zip((latest, *older), older)):
        if any(rule.has_aged(each, after.time, newer, now) for rule in in_force.rules):
            yield Going(bucket, each.held, about, is_older=True)
