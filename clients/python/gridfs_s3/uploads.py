"""Uploads in parts (multipart). All requests of one upload go to the gateway that has the session of its ID."""

import hashlib
import re

from aiohttp import web

from gridfs_client.buckets import Held
from gridfs_client.errors import ClientError

from . import checksums, tags
from .bodies import body_of
from .checksums import HEADER, Checksum
from .bounds import OF_COMPLETIONS
from .copying import Copies, range_to_copy
from .errors import S3Error, tell
from .gateway import Operations
from .markup import Element, document, element, many
from .objects import LONGEST_PUT, MOST_PARTS, Objects, algorithm_wanted, brought_by
from .places import Object, Part, name_of, named_in, of_words, upload_name
from .requests import Asked, answer, iso
from .sessions import now_ms
from .store import Body, Store
from .workers import who_asks

UPLOAD = re.compile(r"(\d{1,2})\.[0-9a-f]{24}", re.ASCII)


def expect_key(asked: Asked, held: Held) -> None:
    """404 NoSuchUpload where the upload is of another key."""
    if of_words(held.words).get("k") != asked.key:
        raise S3Error("NoSuchUpload")


def part_number(asked: Asked) -> int:
    number = asked.number("partNumber", 0, 99_999)
    if not 1 <= number <= 10_000:
        raise S3Error("InvalidArgument", "Part number must be an integer between 1 and 10000, inclusive")
    return number


def kind_wanted(asked: Asked, algorithm: str) -> str:
    """The kind of checksum that an upload is to have. 400 InvalidRequest where this algorithm can't have that."""
    usual = checksums.FULL if algorithm == "crc64nvme" else checksums.OF_PARTS
    kind = asked.headers.get(f"{HEADER}type", usual).upper()
    if not algorithm and f"{HEADER}type" in asked.headers:
        raise S3Error("InvalidRequest", f"{HEADER}type is wanted with {HEADER}algorithm.")
    if kind not in (checksums.FULL, checksums.OF_PARTS) or (algorithm == "crc64nvme" and kind != usual) or (algorithm.startswith("sha") and kind != usual):
        raise S3Error("InvalidRequest", f"{algorithm.upper()} is not had as {kind}.")
    return kind


def whole_of(parts: list[Part], algorithm: str, kind: str) -> Checksum | None:
    """The checksum of an object in these parts; None where not all of them have one."""
    found = [(part.checksum, part.size) for part in parts if part.checksum and part.checksum.algorithm == algorithm]
    if not algorithm or len(found) < len(parts) or (kind == checksums.FULL and algorithm not in checksums.CRCS):
        return None
    return checksums.joined(found) if kind == checksums.FULL else checksums.of_parts([each for each, _ in found])


def is_part(part: Part, told: Element) -> bool:
    """Whether a part is the one that a completion means, by all that it says of it."""
    sums = {each.name: each.text.strip() for each in told.inner if each.name.startswith("Checksum")}
    return part.md5 == (told.told("ETag") or "").strip('"') and sums.items() <= ({part.checksum.element: part.checksum.value} if part.checksum else {}).items()


def judged(asked: Asked, given: dict[str, str], named: str, parts: list[Part]) -> Checksum | None:
    """The checksum of a whole object in these parts, which is compared with the one that is given; None where it is not known. 400 BadDigest, InvalidRequest."""
    begun_by, _, kind = named.partition(".")
    algorithm, value = next(iter(given.items()), (begun_by, ""))
    kind = kind or (checksums.OF_PARTS if "-" in value else checksums.FULL)
    told_kind = asked.headers.get(f"{HEADER}type", kind).upper()
    if len(given) > 1 or (named and (algorithm, told_kind) != (begun_by, kind)):
        raise S3Error("InvalidRequest", f"The upload was begun for a checksum by {begun_by.upper()}, {kind}." if named else "One checksum of the whole is judged.")
    if value and algorithm.startswith("sha") and kind == checksums.FULL:
        raise S3Error("InvalidRequest", f"{algorithm.upper()} of a whole object in parts can't be known.")
    whole = whole_of(parts, algorithm, kind)
    if value and not whole:
        raise S3Error("InvalidRequest", f"Not all parts came with a checksum by {algorithm.upper()}, so that of the whole can't be judged.")
    if value and whole and value not in (whole.told, whole.value):
        raise S3Error("BadDigest", f"The parts have another {HEADER}{algorithm} together.")
    return whole


class Uploads(Operations):
    def __init__(self, objects: Objects, copies: Copies):
        super().__init__(objects.gateway)
        self.objects, self.copies = objects, copies

    def session_of(self, asked: Asked) -> int:
        """The session that has the upload, if its slice was not moved. 404 NoSuchUpload."""
        found = UPLOAD.fullmatch(asked.query["uploadId"])
        if not found or not 1 <= int(found[1]) <= self.grids.sessions:
            raise S3Error("NoSuchUpload")
        return int(found[1])

    def name_of(self, asked: Asked) -> str:
        """The name of the upload that is asked for. 404 NoSuchUpload."""
        if not UPLOAD.fullmatch(asked.query["uploadId"]):
            raise S3Error("NoSuchUpload")
        return upload_name(asked.bucket, asked.query["uploadId"], name_of(asked.bucket, asked.key))

    async def create_multipart_upload(self, asked: Asked) -> web.Response:
        """200. 400 InvalidTag, KeyTooLongError, MetadataTooLarge; 404 NoSuchBucket; 501 NotImplemented (metadata of another object); 507 InsufficientStorage."""
        await self.gateway.need_bucket(asked.bucket)
        name, values = name_of(asked.bucket, asked.key), {**brought_by(asked), "k": asked.key, "i": str(now_ms())}
        algorithm, headers = algorithm_wanted(asked), dict[str, str]()
        kind = kind_wanted(asked, algorithm)
        if algorithm:
            values["a"] = f"{algorithm}.{kind}"
            headers = {f"{HEADER}algorithm": algorithm.upper(), f"{HEADER}type": kind}
        upload = await self.gateway.change(name, lambda store: store.begin_upload(asked.bucket, name, values))
        inner = [element("Bucket", asked.bucket), element("Key", asked.key), element("UploadId", upload)]
        return answer(document("InitiateMultipartUploadResult", *inner), headers=headers)

    async def upload_part(self, asked: Asked) -> web.Response:
        """200; a part that is there already is replaced. The errors of PutObject for the body; 400 InvalidArgument; 404 NoSuchBucket, NoSuchUpload."""
        await self.gateway.need_bucket(asked.bucket)
        number, session, body = part_number(asked), self.session_of(asked), body_of(asked)
        if body.told_size > LONGEST_PUT:
            raise S3Error("EntityTooLarge")
        put = PutPart(asked, self.name_of(asked), number)
        async with self.objects.source_of(asked, body) as source:
            md5 = await self.gateway.change(put.name, lambda store: put(store, source), session)
        return answer(headers={"ETag": f'"{md5}"', **{HEADER + each.algorithm: each.value for each in put.checksums}})

    async def upload_part_copy(self, asked: Asked) -> web.Response:
        """200. 400 InvalidArgument; 404 NoSuchBucket, NoSuchKey, NoSuchUpload; 412 PreconditionFailed; 416 InvalidRange."""
        await self.gateway.need_bucket(asked.bucket)
        number, session = part_number(asked), self.session_of(asked)
        text, put = asked.headers.get("x-amz-copy-source-range"), PutPart(asked, self.name_of(asked), number)
        md5 = await self.copies.copied(
            await self.copies.source_of(asked), asked, lambda store, source, _: put(store, source), lambda found: range_to_copy(text, found.size), put.name, session
        )
        inner = [element(each.element, each.value) for each in put.checksums]
        return answer(document("CopyPartResult", element("LastModified", iso(now_ms())), element("ETag", f'"{md5}"'), *inner))

    async def complete_multipart_upload(self, asked: Asked) -> web.Response:
        """200, also where it is asked again. 400 BadDigest (another checksum of the whole), InvalidPart, InvalidPartOrder, InvalidRequest (of another size than was
        told, or a checksum that can't be judged), MalformedXML; 404 NoSuchBucket, NoSuchUpload; 412 PreconditionFailed; 507 InsufficientStorage. The object is
        there with all parts at once, or is as it was."""
        await self.gateway.need_bucket(asked.bucket)
        given = checksums.given(asked.headers)
        size = asked.headers.get("x-amz-mp-object-size")
        if size is not None and not re.fullmatch(r"[0-9]{1,19}", size):
            raise S3Error("InvalidArgument", "x-amz-mp-object-size is no number.")
        async with self.gateway.places.share(f"completions by {who_asks.get()}", OF_COMPLETIONS):
            return await self.complete(asked, given, size)

    async def complete(self, asked: Asked, given: dict[str, str], size: str | None) -> web.Response:
        """(Few of one key's are in hand at a time: each may be long, and waits for the session of its upload.)"""
        session = self.session_of(asked)
        listed = (await self.gateway.document(asked, "CompleteMultipartUpload", is_of_content=False)).all("Part")
        if len(listed) > MOST_PARTS or not listed or not all(re.fullmatch(r"[0-9]{1,5}", each.told("PartNumber") or "") for each in listed):
            raise S3Error("MalformedXML")
        numbers = [int(each.told("PartNumber") or "") for each in listed]
        if any(one >= two for one, two in zip(numbers, numbers[1:])):
            raise S3Error("InvalidPartOrder")
        upload, place = asked.query["uploadId"], self.name_of(asked)
        aim = await self.objects.aim_of(asked, upload.partition(".")[2])
        condition = await self.gateway.condition_of(asked, aim.name)

        def finish(store: Store) -> Held:
            target = aim.at(store)
            try:
                held = store.own_upload(place)
            except S3Error:
                # (asked again by who did not hear the answer; it was done in another state of the bucket's versions, perhaps)
                for name in {target.name, aim.name, aim.version_name}:
                    if (done := store.look(name)) and of_words(done.words).get("u") == upload:
                        return done
                raise
            expect_key(asked, held)
            found = {part.number: (part, where) for part, where in store.uploaded(held)}
            for number, told in zip(numbers, listed):
                if number not in found or not is_part(found[number][0], told):
                    raise S3Error("InvalidPart", PartNumber=str(number))
            if size is not None and int(size) != sum(found[number][0].size for number in numbers):
                raise S3Error("InvalidRequest", "The parts are not as long together as x-amz-mp-object-size says.")
            words = of_words(held.words)
            values = {each: value for each, value in words.items() if each not in ("a", "p", "k", "i", "t")}
            if whole := judged(asked, given, words.get("a", ""), [found[number][0] for number in numbers]):
                values["s"] = whole.text()
            md5 = hashlib.md5(b"".join(bytes.fromhex(found[number][0].md5) for number in numbers)).hexdigest()
            values |= {"m": md5, "n": str(len(numbers)), "u": upload}
            return store.complete(place, target, lambda: {**values, **aim.values(store)}, [found[number][1] for number in numbers], condition)

        held = await self.gateway.change(aim.name, finish, number=session, condition=condition)
        if self.grids.map:
            await self.remove(place)
        inner = [element("Location", f"/{asked.bucket}/{asked.key}"), element("Bucket", asked.bucket), element("Key", asked.key)]
        done = Object(asked.key, held)
        inner += [element("ETag", f'"{done.etag}"'), *(done.checksum.elements() if done.checksum else [])]
        return answer(document("CompleteMultipartUploadResult", *inner), headers=aim.told_of(held))

    async def remove(self, name: str) -> None:
        """Has an upload go whose object is there. (Where that fails it is told to whoever runs the gateway, since the completion was done.)"""
        try:
            await self.gateway.change(name, lambda store: store.delete(name))
        except (ClientError, S3Error) as fault:
            tell(f"{name} stays: {fault}")

    async def abort_multipart_upload(self, asked: Asked) -> web.Response:
        """204. 404 NoSuchBucket, NoSuchUpload."""
        await self.gateway.need_bucket(asked.bucket)
        session, name = self.session_of(asked), self.name_of(asked)

        def give_up(store: Store) -> None:
            expect_key(asked, store.upload(name))
            store.delete(name)

        await self.gateway.change(name, give_up, number=session)
        return answer(status=204)

    async def list_parts(self, asked: Asked) -> web.Response:
        """200. 400 InvalidArgument; 404 NoSuchBucket, NoSuchUpload."""
        await self.gateway.need_bucket(asked.bucket)
        most, after = asked.number("max-parts", 1_000, 1_000), asked.number("part-number-marker", 0, 99_999)
        name = self.name_of(asked)

        def look(store: Store) -> tuple[Held, list[Part]]:
            held = store.upload(name)
            expect_key(asked, held)
            return held, [part for part, _ in store.uploaded(held) if part.number > after]

        held, parts = await self.gateway.look(name, look)
        words = of_words(held.words)
        rows = [
            many(
                "Part",
                element("PartNumber", part.number),
                element("LastModified", iso(part.time)),
                element("ETag", f'"{part.md5}"'),
                element("Size", part.size),
                element(part.checksum.element, part.checksum.value) if part.checksum else None,
            )
            for part in parts[:most]
        ]
        head = [
            element("Bucket", asked.bucket),
            element("Key", asked.key),
            element("UploadId", asked.query["uploadId"]),
            self.gateway.owner("Initiator"),
            self.gateway.owner(),
            element("StorageClass", "STANDARD"),
            element("PartNumberMarker", after),
            element("NextPartNumberMarker", parts[:most][-1].number if rows else after),
            element("MaxParts", most),
            element("IsTruncated", "true" if len(parts) > most > 0 else "false"),
        ]
        algorithm, _, kind = words.get("a", "").partition(".")
        tail = [element("ChecksumAlgorithm", algorithm.upper()), element("ChecksumType", kind)] if algorithm else []
        return answer(document("ListPartsResult", *head, *rows, *tail))


class PutPart:
    """Puts one part of an upload, whose key has to be the one that is asked for."""

    def __init__(self, asked: Asked, name: str, number: int):
        self.asked, self.name, self.number = asked, name, number
        self.checksums: list[Checksum] = []

    def __call__(self, store: Store, source: Body) -> str:
        """The part's MD5."""
        held = store.upload(self.name)
        expect_key(self.asked, held)
        algorithm = named_in(of_words(held.words))
        told = store.put_part(self.name, self.number, source, now_ms(), algorithm)
        self.checksums = [each for each in (source.checksum(algorithm),) if each]
        return told
