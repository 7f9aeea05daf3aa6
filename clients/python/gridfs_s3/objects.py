"""Operations on objects."""

import asyncio
import re
from collections.abc import AsyncIterator, Awaitable, Callable, Iterator, Sequence
from contextlib import asynccontextmanager, closing, nullcontext

from aiohttp import web

from gridfs_client.buckets import Held
from gridfs_client.contents import Inline

from . import bodies, metrics, tags
from .aims import Aim
from .bodies import Spooled, Whole, body_of
from .bounds import GIVEN, IDLE, IN_HAND, IN_MEMORY, LONG, MOST_IN_MEMORY, Spool, ahead_of, is_too_slow
from .buckets import Buckets
from .checksums import HEADER, algorithm_of
from .errors import S3Error, error_of, tell
from .gateway import Gateway, Operations, let_body_come
from .looker import Looked
from .markup import document, element, many
from .places import MOST_KEPT, MOST_METADATA, Object, Values
from .reading import Stretch
from .requests import SERVER, Asked, answer, http_date, judge, range_wanted
from .store import Body, Condition, Store
from .trips import Elsewhere
from .versions import HEADER as VERSION, MARKER, Place

LONGEST_PUT, MOST_PARTS = 5 << 30, 10_000
ATTRIBUTES = {"Checksum", "ETag", "ObjectParts", "ObjectSize", "StorageClass"}
DIRECTIVE = "x-amz-metadata-directive"  # whose metadata an object gets: its source's (COPY), or those of this request (REPLACE)
BREAKS = re.compile(r"[\r\n\x00]")
KEPT_HEADERS = ("cache-control", "content-disposition", "content-encoding", "content-language", "expires")


def values_of(asked: Asked) -> Values:
    """What is to be kept beside a content. 400 MetadataTooLarge, InvalidArgument."""
    values: Values = {}
    headers = asked.headers
    if headers.get("content-type", "") not in ("", "binary/octet-stream"):
        values["c"] = headers["content-type"]
    for name in KEPT_HEADERS:
        value = headers.get(name, "")
        if name == "content-encoding":
            value = ",".join(word for word in (each.strip() for each in value.split(",")) if word != "aws-chunked")
        if value:
            values["h-" + name] = value
    if sum(len(name) + len(value) for name, value in values.items()) > MOST_KEPT:
        raise S3Error("MetadataTooLarge", f"The headers that an object is told with have at most {MOST_KEPT:,} bytes together.")
    metadata = {name[11:]: value for name, value in headers.items() if name.startswith("x-amz-meta-")}
    if sum(len(name) + len(value) for name, value in metadata.items()) > MOST_METADATA:
        raise S3Error("MetadataTooLarge")
    values |= {"x-" + name: value for name, value in metadata.items()}
    try:
        "".join(f"{name}{value}" for name, value in values.items()).encode()
    except UnicodeEncodeError:
        raise S3Error("InvalidArgument", "What is kept beside a content is UTF-8.") from None
    return values


def brought_by(asked: Asked) -> Values:
    """The same, and tags, of a put or an upload that is no copy. 400 InvalidTag; 501 NotImplemented where they are to be another object's."""
    if asked.headers.get(DIRECTIVE, "REPLACE") != "REPLACE":  # (s3fs says so of each put)
        raise S3Error("NotImplemented", "What is no copy has the metadata that it brings.")
    return values_of(asked) | tags.in_headers(asked.headers)


def number_in(text: str | None, default: int) -> int:
    """The number of a header, of at most a thousand parts or so. 400 InvalidArgument."""
    if text is None:
        return default
    if not re.fullmatch(r"[0-9]{1,5}", text):
        raise S3Error("InvalidArgument")
    return min(int(text), MOST_PARTS)


def algorithm_wanted(asked: Asked) -> str:
    """The algorithm of the checksum that is to be kept; empty where none is named. 501 NotImplemented."""
    word = asked.headers.get(f"{HEADER}algorithm", "")
    return algorithm_of(word) if word else ""


def values_by(source: Body, algorithm: str) -> Values:
    """What is kept beside a content that comes from this source."""
    checksum = source.checksum(algorithm)
    return {"m": source.digest(), **({"s": checksum.text()} if checksum else {})}


def headers_of(found: Object, asked: Asked) -> dict[str, str]:
    """The headers that an object is told with."""
    told = {
        "ETag": f'"{found.etag}"',
        "Last-Modified": http_date(found.time),
        "Accept-Ranges": "bytes",
        "Content-Type": found.values.get("c", "binary/octet-stream"),
    }
    for name, value in found.values.items():
        if name.startswith("h-") and name[2:] in KEPT_HEADERS:
            told[name[2:].title()] = value
        elif name.startswith("x-"):
            told["x-amz-meta-" + name[2:]] = value
    for name in (*KEPT_HEADERS, "content-type"):
        if "response-" + name in asked.query:
            told[name.title()] = asked.query["response-" + name]
    if not BREAKS.search("".join((*told, *told.values()))):
        return told
    return {name: value for name, value in told.items() if not BREAKS.search(name + value)}


def begun(asked: Asked, place: Place, found: Object, part: tuple[int, int] | None) -> web.StreamResponse:
    """The answer whose body is an object, or a part of it."""
    first, end = part or (0, found.size)
    # (in a browser an object is no page of this host, whatever it is: other tenants have their pages here)
    headers = {**headers_of(found, asked), **place.told(found), **asked.cors, **asked.ids, "Server": SERVER, "Content-Security-Policy": "sandbox"}
    if found.checksum and not part and asked.headers.get(f"{HEADER}mode", "").upper() == "ENABLED":
        headers |= found.checksum.headers()
    if "partNumber" in asked.query and "n" in found.values:
        headers["x-amz-mp-parts-count"] = found.values["n"]
    if count := len(tags.among(found.values)):
        headers["x-amz-tagging-count"] = str(count)
    if part:
        headers["Content-Range"] = f"bytes {first}-{end - 1}/{found.size}"
    response = web.StreamResponse(status=206 if part else 200, headers=headers)
    response.content_length = end - first
    return response


def part_wanted(asked: Asked) -> int:
    """The number of the part that is asked for; 0 for the whole. 400 InvalidArgument, InvalidRequest."""
    if "partNumber" not in asked.query:
        return 0
    number = asked.number("partNumber", 0, 99_999)
    if not 1 <= number <= MOST_PARTS:
        raise S3Error("InvalidArgument", f"partNumber is a number from 1 to {MOST_PARTS}.")
    if "range" in asked.headers:
        raise S3Error("InvalidRequest", "Cannot specify both Range header and partNumber query parameter")
    return number


def range_of_part(sizes: Sequence[int], number: int) -> tuple[int, int] | None:
    """The bytes of a part, of parts of these sizes; None of an object that is empty. 416 InvalidPartNumber; 501 NotImplemented where they are not told apart."""
    if not sizes:
        raise S3Error("NotImplemented", "The parts of this object are not told apart.")
    if number > len(sizes):
        raise S3Error("InvalidPartNumber")
    first = sum(sizes[: number - 1])
    return (first, first + sizes[number - 1]) if sizes[number - 1] else None


class IsLong(Exception):
    """An answer wants a place first. Nothing was read yet."""


class Piece:
    """Some bytes of an answer, in a file: a session writes them, and they are given as they are taken."""

    def __init__(self, before: asyncio.Task[None] | None, give: Callable[[bytes], Awaitable[None]]):
        self.spool, self.before, self.give = Spool(), before, give
        self.given, self.is_whole = 0, False
        self.came, self.is_half_taken = asyncio.Event(), asyncio.Event()
        self.giving = asyncio.get_running_loop().create_task(self.give_on())
        self.giving.add_done_callback(lambda giving: giving.cancelled() or giving.exception())  # (whoever waits for it is told)

    async def give_on(self) -> None:
        """Gives what comes into the file until it is whole, once all before was given."""
        try:
            if self.before:
                await self.before
            while True:
                self.came.clear()
                is_whole = self.is_whole
                while data := self.spool.read(self.given, GIVEN):
                    await self.give(data)
                    self.given += len(data)
                    self.judge_half()
                if is_whole:
                    return
                await self.came.wait()
        finally:
            self.is_half_taken.set()

    def judge_half(self) -> None:
        if self.is_whole and 2 * self.given >= self.spool.size:
            self.is_half_taken.set()

    def end(self) -> None:
        """All of it has come."""
        self.is_whole = True
        self.judge_half()
        self.came.set()

    def close(self) -> None:
        self.giving.cancel()
        self.spool.close()


class Get:
    """One get: what is chosen of the object, and its answer, which begins once the first bytes are there. A session puts what is longer than a little into a
    file, from which it is given as it is taken: so no session waits for who takes it. What is long comes by several files, each once half of the one before was
    taken: so whoever is slow does not fill the disk either."""

    def __init__(self, gateway: Gateway, asked: Asked, place: Place):
        self.gateway, self.asked, self.place = gateway, asked, place
        self.part: tuple[int, int] | None = None
        self.number = part_wanted(asked)
        self.response: web.StreamResponse | None = None
        self.loop = asyncio.get_running_loop()
        self.has_place, self.most_in_memory = False, IN_MEMORY  # bytes that may be in memory until they are taken
        self.held: Held | None = None
        self.looked: Looked | None = None  # at its volume, since it was asked for
        self.next, self.end = 0, 0  # of the object: the byte to read next, and that behind the last one that is wanted
        self.stretch, self.pieces = Stretch(), list[Piece]()  # what is read at a time, and the files that are there
        self.begun, self.given, self.counted = 0.0, 0, metrics.given.labels(gateway.tenant)

    def choose(self, held: Held | None, store: Store | None = None) -> tuple[int, int]:
        found = self.place.expect(held)
        judge(self.asked.headers, found)
        self.part = range_wanted(self.asked.headers, found)
        if self.number and store:
            self.part = range_of_part(store.sizes_of_parts(found.held), self.number)
        first, end = self.part or (0, found.size)
        if end - first > (IN_MEMORY if self.asked.is_anybodys else LONG) and not self.has_place:
            self.next, self.end = first, end
            raise IsLong
        return first, end

    async def begin(self, held: Held) -> None:
        response = begun(self.asked, self.place, Object(self.asked.key, held), self.part)
        await response.prepare(self.asked.request)
        self.response, self.begun = response, self.loop.time()

    async def begin_to_give(self, held: Held) -> None:
        self.leave_memory()
        await self.begin(held)
        self.begin_piece()

    def begin_piece(self) -> None:
        before = self.pieces[-1].giving if self.pieces else None
        self.pieces.append(Piece(before, self.give))

    async def give(self, data: bytes | memoryview) -> None:
        """A TimeoutError where it is not taken in time, or all is taken too slowly."""
        assert self.response is not None
        async with asyncio.timeout(IDLE):
            await self.response.write(data)
        self.given += len(data)
        if is_too_slow(self.loop.time() - self.begun, self.given):
            raise asyncio.TimeoutError("it is taken too slowly")
        self.counted.inc(len(data))

    def send(self, store: Store) -> tuple[Held, bytes] | None:
        """(A thread's.) Has what is read given; or tells it, where it is little."""
        self.stretch = Stretch(ahead_of(self.asked.is_anybodys))
        held, parts, data = store.read(self.place.name, lambda held: self.choose(held, store), self.place.is_latest, self.looked, self.stretch)
        first, end = self.part or (0, held.content.size)
        with closing(parts):  # (what it reads ahead ends before the session has other work)
            if len(data) == end - first <= self.most_in_memory:
                for _ in parts:
                    pass
                return held, data
            self.held, self.next, self.end = held, first, end
            asyncio.run_coroutine_threadsafe(self.begin_to_give(held), self.loop).result()
            self.fill(parts, data)
        return None

    async def told_by_its_line(self) -> tuple[Held, bytes] | None:
        """The object and what is wanted of it, where that stands in the line of its name, and is known of its pages as they are: no session is wanted then."""
        if self.place.is_latest or self.number:
            return None
        seen = await self.gateway.glance(self.place.name)
        self.looked = seen.looked
        if not seen.is_known:
            return None
        first, end = self.choose(seen.held)
        content = seen.held and seen.held.content
        return (seen.held, content.content[first:end]) if seen.held and isinstance(content, Inline) else None

    def send_on(self, store: Store) -> None:
        """(A thread's.) Has more of the same content given, by the next file. Replaced where it is gone."""
        assert self.held
        if self.held.version.grid != store.grid:
            raise Elsewhere(self.held.version.grid)
        self.stretch.most = ahead_of(self.asked.is_anybodys)
        with closing(store.content(self.held, self.next, self.end, self.stretch)) as parts:
            self.fill(parts, next(parts))

    def fill(self, parts: Iterator[bytes], data: bytes) -> None:
        piece = self.pieces[-1]
        while data:
            piece.spool.add(data)
            self.next += len(data)
            self.loop.call_soon_threadsafe(piece.came.set)
            if piece.giving.done():
                raise ConnectionResetError("the client has gone")
            data = next(parts, b"")

    async def give_all(self) -> None:
        """Gives the rest, file by file: of those that are there all but the last one were given."""
        while True:
            piece = self.pieces[-1]
            piece.end()
            if self.next == self.end:
                await piece.giving
                return
            await piece.is_half_taken.wait()
            if piece.giving.done():
                piece.giving.result()
            for given in self.pieces[:-1]:
                given.close()
            self.pieces, begin = [piece], self.next
            self.begin_piece()
            await self.gateway.look(self.place.name, self.send_on, lambda begin=begin: self.next > begin)  # type: ignore[misc]

    async def run(self) -> web.StreamResponse:
        try:
            return await self.answered()
        except IsLong:
            self.has_place = True
            places, is_long = self.gateway.places, self.end - self.next > LONG
            async with places.one(self.asked) if is_long else places.some_of_anybody():
                return await self.answered()

    def take_memory(self) -> None:
        if self.gateway.in_memory < MOST_IN_MEMORY:
            self.gateway.in_memory += 1
            self.most_in_memory = LONG

    def leave_memory(self) -> None:
        if self.most_in_memory == LONG:
            self.gateway.in_memory -= 1
            self.most_in_memory = IN_MEMORY

    async def answered(self) -> web.StreamResponse:
        self.take_memory()
        try:
            rest = await self.told_by_its_line() or await self.gateway.look(self.place.name, self.send, lambda: self.response is not None)
            if rest:
                held, data = rest
                await self.begin(held)
                for at in range(0, len(data), GIVEN):
                    await self.give(memoryview(data)[at : at + GIVEN])
            else:
                await self.give_all()
        except (Exception, asyncio.CancelledError) as fault:
            if self.response is None:
                raise
            # The rest of the answer can't come. The connection ends, so that nobody takes what came for the whole.
            if not self.asked.is_anybodys:  # (strangers may leave as often as they like)
                tell(f"{self.asked.path}: cut: {fault or type(fault).__name__}")
            metrics.faults.labels(self.gateway.tenant, "Cut").inc()
            if self.asked.request.transport:
                self.asked.request.transport.abort()
            raise ConnectionResetError from None
        finally:
            for piece in self.pieces:
                piece.close()
            self.leave_memory()
        assert self.response is not None
        await self.response.write_eof()
        return self.response


class Objects(Operations):
    def __init__(self, gateway: Gateway, buckets: Buckets):
        super().__init__(gateway)
        self.buckets, self.small = buckets, asyncio.Semaphore(IN_HAND)

    async def place_of(self, asked: Asked) -> Place:
        """Where the object is looked for that is asked for. 400 InvalidArgument; 404 NoSuchBucket."""
        return await self.gateway.place_of(asked.bucket, asked.key, asked.query.get("versionId"))

    async def found(self, place: Place) -> Object:
        """The object there. 404 NoSuchKey, NoSuchVersion; 405 MethodNotAllowed."""
        held = self.gateway.look(place.name, lambda store: store.latest(place.name)) if place.is_latest else self.gateway.held(place.name)
        return place.expect(await held)

    async def aim_of(self, asked: Asked, version: str = "") -> Aim:
        """Where a new version of the object that is asked for is to stand. 404 NoSuchBucket."""
        return Aim(self.gateway, asked.bucket, asked.key, await self.gateway.need_bucket(asked.bucket), version)

    async def get_object(self, asked: Asked) -> web.StreamResponse:
        """200; 206 with Range. 304 NotModified; 404 NoSuchBucket, NoSuchKey, NoSuchVersion; 405 MethodNotAllowed for a marker; 412 PreconditionFailed; 416
        InvalidRange. Where it is replaced again and again 503, or a connection that ends early."""
        place = await self.place_of(asked)
        return await Get(self.gateway, asked, place).run()

    async def head_object(self, asked: Asked) -> web.StreamResponse:
        """The same with no body."""
        place, number = await self.place_of(asked), part_wanted(asked)
        found = await self.found(place)
        judge(asked.headers, found)
        part = range_wanted(asked.headers, found)
        if number:
            part = range_of_part(await self.sizes_of_parts(place, found), number)
        response = begun(asked, place, found, part)
        await response.prepare(asked.request)
        await response.write_eof()
        return response

    async def sizes_of_parts(self, place: Place, found: Object) -> list[int]:
        return await self.gateway.look(place.name, lambda store: store.sizes_of_parts(found.held))

    async def object_parts(self, asked: Asked, place: Place, found: Object) -> str | None:
        """The parts in which an object was uploaded, so many at a time; None of one that was put whole."""
        if not (count := found.values.get("n")):
            return None
        headers = asked.headers
        most, after = (number_in(headers.get(f"x-amz-{name}"), default) for name, default in (("max-parts", 1_000), ("part-number-marker", 0)))
        numbered = list(enumerate(await self.sizes_of_parts(place, found), 1))
        shown = numbered[after : after + most]
        inner = [many("Part", element("PartNumber", number), element("Size", size)) for number, size in shown]
        is_cut = "true" if shown and shown[-1] != numbered[-1] else "false"
        last = shown[-1][0] if shown else after
        told: dict[str, str | int] = {"PartsCount": count, "PartNumberMarker": after, "NextPartNumberMarker": last, "MaxParts": most, "IsTruncated": is_cut}
        return many("ObjectParts", *(element(name, value) for name, value in told.items()), *inner)

    async def get_object_acl(self, asked: Asked) -> web.Response:
        """200: all is the tenant's. 404 NoSuchBucket, NoSuchKey, NoSuchVersion."""
        await self.found(await self.place_of(asked))
        return answer(self.buckets.acl())

    async def get_object_attributes(self, asked: Asked) -> web.Response:
        """200: those that are asked for, and that the object has. 400 InvalidArgument; 404 NoSuchBucket, NoSuchKey."""
        wanted = {word.strip() for word in asked.headers.get("x-amz-object-attributes", "").split(",")}
        if not wanted <= ATTRIBUTES:
            raise S3Error("InvalidArgument", f"x-amz-object-attributes names some of {', '.join(sorted(ATTRIBUTES))}.")
        place = await self.place_of(asked)
        found = await self.found(place)
        told = {
            "ETag": element("ETag", found.etag),
            "Checksum": many("Checksum", *found.checksum.elements()) if found.checksum else None,
            "ObjectParts": await self.object_parts(asked, place, found) if "ObjectParts" in wanted else None,
            "StorageClass": element("StorageClass", "STANDARD"),
            "ObjectSize": element("ObjectSize", found.size),
        }
        inner = [each for name, each in told.items() if name in wanted]
        return answer(document("GetObjectAttributesResponse", *inner), headers={"Last-Modified": http_date(found.time), **place.told(found)})

    @asynccontextmanager
    async def source_of(self, asked: Asked, body: bodies.Body) -> AsyncIterator[Whole | Spooled]:
        """A body as a session reads it: once it is here and judged."""
        metrics.taken.labels(self.gateway.tenant).inc(body.told_size)
        if body.told_size > IN_MEMORY:
            self.gateway.expect_room(body.told_size)
        async with self.gateway.places.one(asked) if body.told_size > LONG else nullcontext():
            await let_body_come(asked)
            if body.told_size <= IN_MEMORY:
                yield Whole(await body.all(IN_MEMORY), body.checks.md5.hexdigest(), body.checks.told(), body.checks.digest())
                return
            with closing(await body.spooled()) as spool:
                yield Spooled(spool, body.checks.md5.hexdigest(), body.checks.told(), body.checks.digest())

    async def put_object(self, asked: Asked) -> web.Response:
        """200. With If-None-Match or If-Match: 412 PreconditionFailed, 404 NoSuchKey. 404 NoSuchBucket; 411 MissingContentLength; 507
        InsufficientStorage; 400 BadDigest, EntityTooLarge, IncompleteBody, InvalidDigest, InvalidTag, KeyTooLongError, MetadataTooLarge,
        RequestTimeout, XAmzContentSHA256Mismatch; 403 SignatureDoesNotMatch (of a chunk); 501 NotImplemented (metadata of another object). After these nothing
        was changed."""
        aim, body = await self.aim_of(asked), body_of(asked)
        if body.told_size > LONGEST_PUT:
            raise S3Error("EntityTooLarge")
        values, algorithm = brought_by(asked), algorithm_wanted(asked)
        condition = await self.gateway.condition_of(asked, aim.name)
        async with self.source_of(asked, body) as source:
            found = await self.put(aim, source, values, algorithm, condition)
        return answer(headers={"ETag": f'"{found.etag}"', **(found.checksum.headers() if found.checksum else {}), **aim.target.told})

    async def put(self, aim: Aim, source: Whole | Spooled, values: Values, algorithm: str, condition: Condition | None = None) -> Object:
        """Puts a content that is here, with what is kept beside it. The errors of a change."""

        def work(store: Store) -> Held:
            target = aim.at(store)
            return store.put_object(target.name, source, lambda: {**values, **values_by(source, algorithm), **aim.values(store)}, condition, target.about)

        await self.gateway.need_bucket(aim.bucket)  # (it may have been removed while the content came)
        return Object(aim.key, await self.gateway.change(aim.name, work, condition=condition))

    async def delete_object(self, asked: Asked) -> web.Response:
        """204, also where there is no such key. In a bucket with versions a marker is put, or that version goes which is named. With If-Match: 412
        PreconditionFailed. 400 InvalidArgument; 404 NoSuchBucket."""
        place = await self.place_of(asked)
        condition = await self.gateway.condition_of(asked, place.name)
        if condition and place.state and place.version:
            raise S3Error("NotImplemented", "A condition of a removal is of the latest version, so it names none.")
        return answer(status=204, headers=await self.delete(place, condition))

    async def delete(self, place: Place, condition: Condition | None = None) -> dict[str, str]:
        """Has an object go, or one version; the headers that tell of which version."""
        if place.version is None:
            aim = Aim(self.gateway, place.bucket, place.key, place.state)
            await self.gateway.change(aim.name, lambda store: store.take_away(aim.at(store), condition), condition=condition)
            return {MARKER: "true", **aim.target.told} if aim.state else {}
        seen = list[Held]()

        def remove(store: Store) -> None:
            held = store.look(place.name) if place.state else None
            store.delete(place.name, condition, place.about)
            seen[:] = [held] if held else []

        await self.gateway.change(place.name, remove, condition=condition)
        of_marker = {MARKER: "true"} if seen and Object(place.key, seen[0]).is_marker else {}
        return {**of_marker, **({VERSION: place.version} if place.state and place.version else {})}

    async def delete_objects(self, asked: Asked) -> web.Response:
        """200, with what was told of each key. 400 MalformedXML, UserKeyMustBeSpecified, BadDigest; 404 NoSuchBucket."""
        await self.gateway.need_bucket(asked.bucket)
        wanted = await self.gateway.document(asked, "Delete")
        listed = [(each.told("Key") or "", each.told("VersionId") or None) for each in wanted.all("Object")]
        if not 1 <= len(listed) <= 1_000:
            raise S3Error("MalformedXML")
        if not all(key for key, _ in listed):
            raise S3Error("UserKeyMustBeSpecified")
        at_once = asyncio.Semaphore(max(1, self.grids.workers))

        async def one(key: str, version: str | None) -> str | None:
            named = [element("Key", key), element("VersionId", version) if version else None]
            try:
                async with at_once:
                    headers = await self.delete(await self.gateway.place_of(asked.bucket, key, version))
            except ConnectionResetError:
                raise  # (who asked has gone: no more is done)
            except Exception as fault:
                told = error_of(fault)
                return many("Error", *named, element("Code", told.code), element("Message", told.message))
            marker = [element("DeleteMarker", "true"), element("DeleteMarkerVersionId", headers[VERSION])] if MARKER in headers else []
            return None if wanted.told("Quiet") == "true" else many("Deleted", *named, *marker)

        return answer(document("DeleteResult", *await asyncio.gather(*(one(*each) for each in listed))))
