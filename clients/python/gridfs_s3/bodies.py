"""Bodies of requests: read as they come, and looked at on their way. None is kept.

SHA-256 of a content that the request has signed is taken as it comes, and not again as its file is read. A file that was spoilt meanwhile shows at
the first get; taken again, the digest would be that of what was spoilt.
"""

import asyncio
import base64
import hashlib
import hmac
import re
import time
from collections.abc import AsyncIterator, Mapping, Sequence

from aiohttp.http_exceptions import BadHttpMessage
from aiohttp.streams import StreamReader

from . import checksums
from .bounds import BODY_PIECE, IDLE, Spool, is_too_slow
from .checksums import Checksum
from .errors import S3Error
from .requests import Asked
from .signing import DIGEST, UNSIGNED, Signed

LONGEST_LINE, MOST_TRAILERS = 4_096, 16
LEAST_CHUNK = 8_192  # bytes of each chunk but the last one, as S3 wants it: one costs as much as some thousand bytes
CHUNKED = re.compile(r"STREAMING-(AWS4-HMAC-SHA256|UNSIGNED)-PAYLOAD(-TRAILER)?")
CHUNK = re.compile(rb"([0-9a-fA-F]{1,8})(?:;chunk-signature=([0-9a-f]{64}))?")


class Checks:
    """What a body is said to be: looked at with every byte of it, and judged at its end."""

    def __init__(self, headers: Mapping[str, str], payload: str, is_of_content: bool = True):
        self.md5, self.size = hashlib.md5(), 0
        self.wanted_md5 = self.of_base64(headers.get("content-md5"), 16)
        self.wanted_sha256 = payload if DIGEST.fullmatch(payload) else None
        self.sha256 = hashlib.sha256() if self.wanted_sha256 else None
        self.wanted = checksums.given(headers) if is_of_content else {}
        trailers = [name.strip().lower() for name in headers.get("x-amz-trailer", "").split(",") if name.strip()]
        self.trailers = checksums.by_headers(trailers)
        self.sums = {name: checksums.ALGORITHMS[name]() for name in (*self.wanted, *self.trailers.values())}

    def of_base64(self, text: str | None, length: int) -> bytes | None:
        if text is None:
            return None
        try:
            found = base64.b64decode(text, validate=True)
        except ValueError:
            found = b""
        if len(found) != length:
            raise S3Error("InvalidDigest")
        return found

    def update(self, data: bytes) -> None:
        self.size += len(data)
        for each in (self.md5, self.sha256, *self.sums.values()):
            if each is not None:
                each.update(data)

    def finish(self, size: int | None, trailers: Mapping[str, str]) -> None:
        if size is not None and self.size != size:
            raise S3Error("IncompleteBody")
        if self.wanted_md5 is not None and self.wanted_md5 != self.md5.digest():
            raise S3Error("BadDigest")
        if self.sha256 and self.sha256.hexdigest() != self.wanted_sha256:
            raise S3Error("XAmzContentSHA256Mismatch")
        for name in self.trailers:
            if name not in trailers:
                raise S3Error("InvalidRequest", f"The trailer {name} is missing.")
        told = [*self.wanted.items(), *((algorithm, trailers[name]) for name, algorithm in self.trailers.items())]
        for algorithm, value in told:
            if self.checksum(algorithm).told != value.strip():
                raise S3Error("BadDigest", f"The content has another {checksums.HEADER}{algorithm}.")

    def checksum(self, algorithm: str) -> Checksum:
        return checksums.of_digest(algorithm, self.sums[algorithm].digest())

    def digest(self) -> bytes | None:
        """SHA-256 of the content, where it was taken."""
        found = self.sha256 or self.sums.get("sha256")
        return found.digest() if found else None

    def told(self) -> list[Checksum]:
        """The checksums that the content came with, once they were judged."""
        return [self.checksum(algorithm) for algorithm in self.sums]


class Body:
    """The content of a request, as long as `told_size`."""

    def __init__(self, stream: StreamReader, headers: Mapping[str, str], signed: Signed, is_of_content: bool = True):
        self.stream, self.signed = stream, signed
        self.checks = Checks(headers, signed.payload, is_of_content)
        self.trailers: dict[str, str] = {}
        payload, chunked = signed.payload, CHUNKED.fullmatch(signed.payload)
        length = headers.get("x-amz-decoded-content-length" if chunked else "content-length")
        if length is None:
            raise S3Error("MissingContentLength")
        if not re.fullmatch(r"[0-9]{1,19}", length):
            raise S3Error("InvalidArgument", "The length of the content is no number.")
        if not chunked and not DIGEST.fullmatch(payload) and payload != UNSIGNED:
            raise S3Error("InvalidArgument", "x-amz-content-sha256 is malformed.")
        self.told_size = int(length)
        self.is_signed = bool(chunked and chunked[1] != "UNSIGNED")
        self.parts = self.chunks() if chunked else self.plain()
        self.ahead = bytearray()
        self.is_over = False
        self.begun, self.came, self.turn = 0.0, 0, 0

    async def next(self) -> bytes | None:
        """Some bytes that came; None at the end, once all was found right but the digests. 400 RequestTimeout where they don't come, or too slowly."""
        self.begun = self.begun or time.monotonic()
        try:
            async with asyncio.timeout(IDLE):
                data = await anext(self.parts, None)
        except asyncio.TimeoutError:
            raise S3Error("RequestTimeout") from None
        self.came += len(data or b"")
        if self.came - self.turn > BODY_PIECE:  # (what is here already waits for nobody: others have their turn)
            self.turn = self.came
            await asyncio.sleep(0)
        if is_too_slow(time.monotonic() - self.begun, self.came):
            raise S3Error("RequestTimeout", "The content comes too slowly.")
        return data

    async def read(self, length: int) -> bytes:
        """So many bytes, fewer only at the end."""
        while len(self.ahead) < length and not self.is_over:
            data = await self.next()
            if data is None:
                self.is_over = True
            else:
                self.ahead += data
        found = bytes(memoryview(self.ahead)[:length])
        del self.ahead[:length]
        return found

    def take(self, data: bytes) -> bytes:
        """Looks at bytes that were read, in their order; nothing at the end, when all is judged."""
        if data:
            self.checks.update(data)
        else:
            self.checks.finish(self.told_size, self.trailers)
        return data

    async def all(self, most: int) -> bytes:
        """The whole body, where it is no longer than `most`."""
        if self.told_size > most:
            raise S3Error("EntityTooLarge")
        data = await self.read(self.told_size + 1)
        self.take(data)
        if data:
            self.take(b"")
        return data

    async def spooled(self) -> Spool:
        """The whole body in a file, judged. A thread looks at some bytes and writes them while the next ones come."""
        spool, loop = Spool(), asyncio.get_running_loop()
        adding: asyncio.Future[None] | None = None

        def add(data: bytes) -> None:
            self.take(data)
            spool.add(data)

        try:
            while data := await self.read(4 * BODY_PIECE):
                if adding:
                    await adding
                adding = loop.run_in_executor(None, add, data)
            if adding:
                await adding
            self.take(b"")
        except BaseException:
            if adding:
                adding.add_done_callback(lambda done: done.cancelled() or done.exception())  # (which nobody waits for)
            spool.close()
            raise
        return spool

    # Forms of bodies

    async def plain(self) -> AsyncIterator[bytes]:
        size = 0
        async for data in self.stream.iter_any():
            size += len(data)
            if size > self.told_size:
                raise S3Error("IncompleteBody")
            yield data

    async def line(self, is_trailer: bool = False) -> bytes:
        if self.stream.at_eof():  # (a request without a body has another kind of stream)
            raise S3Error("IncompleteBody")
        try:
            found = await self.stream.readuntil(b"\n")
        except (ValueError, BadHttpMessage):  # (a line too long is of the second kind)
            raise S3Error("IncompleteBody") from None
        if len(found) > LONGEST_LINE or not found.endswith(b"\n" if is_trailer else b"\r\n"):
            raise S3Error("IncompleteBody", "The content is not in the chunks that the request says.")
        return found.removesuffix(b"\n").removesuffix(b"\r")

    async def chunks(self) -> AsyncIterator[bytes]:
        before, size, is_short = self.signed.signature, 0, False
        while True:
            found = CHUNK.fullmatch(await self.line())
            if not found or bool(found[2]) != self.is_signed:
                raise S3Error("IncompleteBody", "The content is not in the chunks that the request says.")
            left, digest = int(found[1], 16), hashlib.sha256()
            size += left
            if size > self.told_size:
                raise S3Error("IncompleteBody")
            is_last = not left
            if is_short and not is_last:
                raise S3Error("InvalidChunkSizeError")
            is_short = left < LEAST_CHUNK
            while left:
                data = await self.stream.read(min(left, 1 << 18))
                if not data:
                    raise S3Error("IncompleteBody")
                left -= len(data)
                if self.is_signed:
                    digest.update(data)
                yield data
            if self.is_signed:
                before = self.expect(self.signed.chunk_signature(before, digest.hexdigest()), (found[2] or b"").decode())
            if is_last:
                await self.take_trailers(before)
                return
            if await self.line():
                raise S3Error("IncompleteBody", "The content is not in the chunks that the request says.")

    def expect(self, right: str, told: str) -> str:
        if not hmac.compare_digest(right.encode(), told.encode()):
            raise S3Error("SignatureDoesNotMatch", "The signature of a chunk is wrong.")
        return right

    async def take_trailers(self, before: str) -> None:
        """Reads the lines after the last chunk. (minio-go ends one by a line feed alone, and has an empty one before the signature of all.)"""
        lines, count = list[tuple[str, str]](), 0
        while not self.stream.at_eof():
            line, count = (await self.line(is_trailer=True)).decode("latin1"), count + 1
            name, mark, value = line.partition(":")
            if count > MOST_TRAILERS or bool(mark) != bool(line):
                raise S3Error("IncompleteBody", "What follows the last chunk is no trailer.")
            if line:
                lines.append((name.strip().lower(), value.strip()))
        self.trailers = dict(lines)
        if self.is_signed and self.checks.trailers:
            told = self.trailers.pop("x-amz-trailer-signature", "")
            text = "".join(f"{name}:{value}\n" for name, value in lines if name != "x-amz-trailer-signature")
            self.expect(self.signed.chunk_signature(before, hashlib.sha256(text.encode()).hexdigest(), "TRAILER"), told)


def body_of(asked: Asked, is_of_content: bool = True) -> Body:
    """The body of a request. Where it is no content, checksums are of something else. 411 MissingContentLength; 400 InvalidArgument, InvalidDigest."""
    if not asked.request.can_read_body and "content-length" not in asked.headers and "transfer-encoding" not in asked.headers:
        asked.headers.setdefault("content-length", "0")
    return Body(asked.request.content, asked.headers, asked.signed, is_of_content)


class Here:
    """A content that is here already, as one that is read by a thread."""

    def __init__(self, size: int, md5: str, told: Sequence[Checksum] = (), sha256: bytes | None = None):
        self.told_size, self.md5, self.at, self.sha256 = size, md5, 0, sha256
        self.told = {each.algorithm: each for each in told}

    def piece(self, at: int, length: int) -> bytes:
        raise NotImplementedError

    def rewind(self) -> None:
        self.at = 0

    def read(self, length: int) -> bytes:
        found = self.piece(self.at, length)
        self.at += len(found)
        return found

    def digest(self) -> str:
        return self.md5

    def checksum(self, algorithm: str) -> Checksum | None:
        """That of this algorithm; without one the first that it came with, if any."""
        if not algorithm:
            return next(iter(self.told.values()), None)
        if algorithm not in self.told:
            self.told[algorithm] = checksums.computed(algorithm, (self.piece(at, BODY_PIECE) for at in range(0, self.told_size, BODY_PIECE)))
        return self.told[algorithm]


class Whole(Here):
    """One in memory."""

    def __init__(self, data: bytes, md5: str, told: Sequence[Checksum] = (), sha256: bytes | None = None):
        super().__init__(len(data), md5, told, sha256)
        self.data = data

    def piece(self, at: int, length: int) -> bytes:
        return self.data[at : at + length]


class Spooled(Here):
    """One in a file."""

    def __init__(self, spool: Spool, md5: str, told: Sequence[Checksum] = (), sha256: bytes | None = None):
        super().__init__(spool.size, md5, told, sha256)
        self.spool = spool

    def piece(self, at: int, length: int) -> bytes:
        return self.spool.read(at, length)
