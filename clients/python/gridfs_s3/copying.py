"""Copies of objects, and of parts of them."""

import asyncio
import hashlib
import re
from collections.abc import Callable, Generator, Mapping, Sequence
from contextlib import closing
from typing import Any, TypeVar
from urllib.parse import unquote

from aiohttp import web

from gridfs_client.buckets import Held

from . import tags
from .bodies import Whole
from .bounds import LONG
from .checksums import ALGORITHMS, Checksum, of_digest
from .errors import S3Error
from .gateway import TURNS, NotSettled, Operations
from .grids import Want
from .markup import document, element
from .objects import DIRECTIVE, Objects, algorithm_wanted, values_by, values_of
from .places import Object, Values
from .requests import Asked, answer, iso, judge
from .store import Body, Condition, NoLine, PageFull, Store
from .trips import Elsewhere
from .versions import Place, Restated

Told = TypeVar("Told")


class Copied:
    """A content as another session reads it, for who puts it."""

    def __init__(self, data: bytes, parts: Generator[bytes, None, None], size: int, told: Sequence[Checksum] = ()):
        self.ahead, self.parts, self.told_size, self.md5 = bytearray(data), parts, size, hashlib.md5()
        self.told, self.sums = {each.algorithm: each for each in told}, dict[str, Any]()
        self.is_begun = False

    def rewind(self) -> None:
        if self.is_begun:
            raise S3Error("ServiceUnavailable", "Many others change this at the same time. Nothing was changed.")

    def read(self, length: int) -> bytes:
        self.is_begun = True
        while len(self.ahead) < length and (data := next(self.parts, b"")):
            self.ahead += data
        found = bytes(memoryview(self.ahead)[:length])
        del self.ahead[:length]
        for each in (self.md5, *self.sums.values()):
            each.update(found)
        return found

    def digest(self) -> str:
        return self.md5.hexdigest()

    def checksum(self, algorithm: str) -> Checksum | None:
        """As Body has it. It has to be asked for once before it is read."""
        if not algorithm or algorithm in self.told:
            return self.told.get(algorithm) or next(iter(self.told.values()), None)
        if algorithm not in self.sums:
            assert not self.is_begun
            self.sums[algorithm] = ALGORITHMS[algorithm]()
        return of_digest(algorithm, self.sums[algorithm].digest())


def touched_by(store: Store, name: str, found: Object, values: Callable[[Store, Object], Values], condition: Condition | None) -> Held | None:
    """Gives an object other words by this session; None where it can't be done so, also where it is to be a version of its own by now."""
    try:
        return store.touch(name, found.held, lambda: values(store, found), condition)
    except Restated:
        return None


def known_of(found: Object, part: tuple[int, int]) -> list[Checksum]:
    """The checksum of a part of an object, where it is known already."""
    return [found.checksum] if found.checksum and not found.checksum.count and part == (0, found.size) else []


class Copies(Operations):
    def __init__(self, objects: Objects):
        super().__init__(objects.gateway)
        self.objects = objects

    async def source_of(self, asked: Asked) -> Place:
        """Where the object is looked for that is to be copied. 400 InvalidArgument; 403 AccessDenied, where the access key is not for that bucket; 404
        NoSuchBucket."""
        text, mark, words = asked.headers["x-amz-copy-source"].partition("?")
        version = words.removeprefix("versionId=")
        if mark and (version == words or "&" in version):
            raise S3Error("InvalidArgument", "Unsupported copy source parameter.")
        try:
            bucket, _, key = unquote(text, errors="strict").removeprefix("/").partition("/")
            key.encode()
        except UnicodeError:
            key = ""
        if not key:
            raise S3Error("InvalidArgument", "x-amz-copy-source is BUCKET/KEY, in UTF-8.")
        asked.signed.key.expect(bucket, is_change=False)
        return await self.gateway.place_of(bucket, key, version or None)

    async def copied(
        self,
        place: Place,
        asked: Asked,
        put: Callable[[Store, Body, Object], Told],
        choose: Callable[[Object], tuple[int, int]],
        target: str,
        number: int | None = None,
        condition: Condition | None = None,
    ) -> Told:
        """Has one session read an object in the range that is chosen, and another one put it: `put` is given what reads the content. 404 NoSuchKey, NoSuchVersion; 405
        MethodNotAllowed; 412 PreconditionFailed; 416 InvalidRange."""
        name, part, found = place.name, (0, 0), list[Object]()

        def choice(held: Held | None) -> tuple[int, int]:
            nonlocal part
            found[:] = [place.expect(held)]
            judge(asked.headers, found[0], "x-amz-copy-source-", is_read=False)
            part = choose(found[0])
            return part

        def begin(store: Store) -> tuple[bytes, Generator[bytes, None, None]]:
            _, parts, data = store.read(name, choice, place.is_latest)
            return data, parts

        def small(store: Store) -> bytes | None:
            _, parts, data = store.read(name, choice, place.is_latest)
            with closing(parts):
                return data + b"".join(parts) if part[1] - part[0] <= LONG else None

        async with self.objects.small:
            whole = await self.gateway.look(name, small)
            if whole is not None:
                source = Whole(whole, hashlib.md5(whole).hexdigest(), known_of(found[0], part))
                return await self.gateway.change(target, lambda store: put(store, source, found[0]), number=number, condition=condition)
        wants = Want(name), Want(target, number)
        for _ in range(TURNS):
            async with self.gateway.judging(condition, target):
                reader, writer = await self.grids.take_all(wants)
                is_writing, rest, page = False, None, None
                try:
                    data, rest = await reader.run(begin, keep=True)
                    copied = Copied(data, rest, part[1] - part[0], known_of(found[0], part))
                    is_writing = True
                    return await writer.run(lambda store: put(store, copied, found[0]))
                except (NotSettled, Restated):
                    pass
                except Elsewhere as fault:
                    await self.gateway.go_on(wants[is_writing], fault)
                except PageFull as full:
                    page = full.page
                except NoLine:
                    if number is not None or not wants[1].passes_over(writer.pool, writer.worker):
                        raise
                finally:
                    if rest:  # (what it reads ahead ends before the next one works)
                        await asyncio.get_running_loop().run_in_executor(reader.pool.threads, rest.close)
                    reader.release()
                    if not is_writing:
                        writer.release()
            if page is not None:
                await writer.pool.sweep(page)
        raise S3Error("ServiceUnavailable", "Many others change this at the same time. Nothing was changed.")

    async def copy_object(self, asked: Asked) -> web.Response:
        """200; a copy of an object onto itself with other metadata or tags moves no content. 400 InvalidArgument, InvalidRequest (nothing would change), InvalidTag;
        404 NoSuchBucket, NoSuchKey; 412 PreconditionFailed; 507 InsufficientStorage."""
        aim, place = await self.objects.aim_of(asked), await self.source_of(asked)
        name, directive = aim.name, asked.headers.get(DIRECTIVE, "COPY")
        is_onto_itself = (place.bucket, place.key, place.version) == (asked.bucket, asked.key, None)
        if directive not in ("COPY", "REPLACE"):
            raise S3Error("InvalidArgument", f"{DIRECTIVE} is COPY or REPLACE.")
        new_tags = tags.in_place_of_the_sources(asked.headers)
        if is_onto_itself and directive == "COPY" and new_tags is None:
            raise S3Error("InvalidRequest", "A copy onto itself has to change something: REPLACE.")
        new, algorithm = values_of(asked), algorithm_wanted(asked)

        def values_for(store: Store, found: Object, source: Body | None) -> Values:
            old = found.values
            old_tags = tags.among(old)
            kept = new if directive == "REPLACE" else {each: value for each, value in old.items() if each not in ("k", "o", "u", "n", "m", "s", "t", *old_tags)}
            values = {**kept, **(old_tags if new_tags is None else new_tags), **aim.values(store)}
            if source is None:  # (the content stays where it is)
                return {**values, **{each: old[each] for each in ("m", "n", "s") if each in old}}
            return {**values, **values_by(source, algorithm or (found.checksum.algorithm if found.checksum else ""))}

        condition = await self.gateway.condition_of(asked, name)
        if is_onto_itself and not place.state and not condition and not algorithm:
            if held := await self.touched(asked, place, lambda store, found: values_for(store, found, None)):
                return self.result("CopyObjectResult", Object(asked.key, held))
        source_told = dict[str, str]()

        def put(store: Store, source: Body, found: Object) -> Held:
            source_told.update({"x-amz-copy-source-version-id": found.version} if place.state else {})
            target = aim.at(store)
            return store.put_object(target.name, source, lambda: values_for(store, found, source), condition, target.about)

        held = await self.copied(place, asked, put, lambda found: (0, found.size), name, condition=condition)
        return self.result("CopyObjectResult", Object(asked.key, held), {**source_told, **aim.target.told})

    async def touched(self, asked: Asked, place: Place, values: Callable[[Store, Object], Values], condition: Condition | None = None) -> Held | None:
        """Gives an object other words where it stands; None where it has to be put anew."""
        for _ in range(3):
            found, name = await self.objects.found(place), place.name
            judge(asked.headers, found, "x-amz-copy-source-", is_read=False)
            number = None if not found.held.content.pieces else found.held.version.session
            if number is not None and not self.grids.has_session(number):
                return None
            try:
                touch: Callable[[Store], Held | None] = lambda store: touched_by(store, name, found, values, condition)
                if held := await self.gateway.change(name, touch, number=number, condition=condition):
                    return held
            except NoLine:
                return None  # (of its own session; another one may have room)
        return None

    def result(self, name: str, found: Object, headers: Mapping[str, str] = {}) -> web.Response:
        inner = found.checksum.elements() if found.checksum else []
        return answer(document(name, element("LastModified", iso(found.time)), element("ETag", f'"{found.etag}"'), *inner), headers=headers)


def range_to_copy(text: str | None, size: int) -> tuple[int, int]:
    """The range of x-amz-copy-source-range, which has to be there wholly. 400 InvalidArgument, 416 InvalidRange."""
    if text is None:
        return 0, size
    found = re.fullmatch(r"bytes=(\d{1,19})-(\d{1,19})", text, re.ASCII)
    if not found:
        raise S3Error("InvalidArgument", "x-amz-copy-source-range is bytes=FIRST-LAST.")
    first, end = int(found[1]), int(found[2]) + 1
    if not first < end <= size:
        raise S3Error("InvalidRange", ActualObjectSize=str(size))
    return first, end
