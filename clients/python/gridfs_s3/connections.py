"""Connections: what comes by them before a request is known, within bounds; and what is no request is told an error of S3."""

import asyncio
from collections.abc import Awaitable, Callable, Iterator
from contextlib import contextmanager
from http import HTTPStatus
from typing import Any

from aiohttp import web
from aiohttp.http_exceptions import LineTooLong
from aiohttp.web_protocol import RequestHandler, RequestPayloadError

from .bounds import BODY_PIECE, FIRST, HEAD_PIECE, MOST_AHEAD, MOST_CONNECTIONS, MOST_HEAD
from .errors import S3Error, error_of
from .markup import document, element, legible
from .requests import SERVER, Asked, answer


def error_answer(fault: S3Error, asked: Asked | None) -> web.Response:
    """An error in the form of S3; with no body to a HEAD."""
    if fault.code == "NotModified":
        return answer(status=304)
    headers = {"Content-Type": "application/xml", **({"Retry-After": "1"} if fault.status == 503 else {}), **fault.headers}
    return answer(b"" if asked and asked.method == "HEAD" else error_text(fault, asked), fault.status, headers)


def error_text(fault: S3Error, asked: Asked | None) -> bytes:
    body = [element("Code", fault.code), element("Message", legible(fault.message)), *(element(name, legible(value)) for name, value in fault.more.items())]
    if asked:
        body += [element("Resource", asked.path), element("RequestId", asked.id), element("HostId", asked.id)]
    return document("Error", *body, space="")


class Connection(RequestHandler):
    """A connection. Of its requests few are taken apart ahead of their turn, and a head has a most length and a most time: all that costs room before somebody
    has shown who he is."""

    def connection_made(self, transport: asyncio.BaseTransport) -> None:
        super().connection_made(transport)
        self.rest, self.head = b"", 0  # bytes that wait, and how many of a head came
        self.is_unknown = False  # it sends a form of which nobody has shown yet whose it is
        self.payload: Any = None  # of the last request that came
        self.late = asyncio.get_running_loop().call_later(FIRST, self.give_up)
        if self._manager and len(self._manager.connections) > MOST_CONNECTIONS:
            others = [each for each in self._manager.connections if isinstance(each, Connection) and each is not self]
            found = next((each for each in others if not each.is_busy), None) or next((each for each in others if each.is_unknown), None)
            if found:
                found.give_up()

    def connection_lost(self, exc: BaseException | None) -> None:
        self.late.cancel()
        self.rest = b""
        super().connection_lost(exc)

    @contextmanager
    def unknown(self) -> Iterator[None]:
        """Meanwhile it is ended before others, where there are too many: the one that began first."""
        self.is_unknown = True
        try:
            yield
        finally:
            self.is_unknown = False

    @property
    def is_busy(self) -> bool:
        return bool(self._current_request or self._messages)

    def give_up(self) -> None:
        if self.transport:
            self.transport.abort()

    def data_received(self, data: bytes) -> None:
        self.rest += data
        self.feed()

    def feed(self) -> None:
        while self.rest and len(self._messages) < MOST_AHEAD and self.transport:
            is_body = self.payload is not None and not self.payload.is_eof()
            size, before = BODY_PIECE if is_body else HEAD_PIECE, len(self._messages)
            piece, self.rest = self.rest[:size], self.rest[size:]
            try:
                super().data_received(piece)
            except ValueError:  # (of a URL in place of a path)
                self.refuse(S3Error("BadRequest"))
                return
            if len(self._messages) > before:
                self.late.cancel()
                self.head, self.payload = 0, self._messages[-1][1]
            elif not is_body:
                self.head += len(piece)
            if self._upgrade:  # (there is no other protocol here)
                self.rest, self._message_tail, self._upgrade, self._close = b"", b"", False, True
            if self.head > MOST_HEAD:
                self.refuse(S3Error("RequestHeaderSectionTooLarge"))
        if self.rest:
            self.pause_reading()

    def go_on(self) -> None:
        """A request has its turn: more may be taken apart."""
        if self.rest:
            self.feed()
            if not self.rest:
                self.resume_reading()

    def refuse(self, fault: S3Error) -> None:
        """Tells a fault, where no other answer is under way, and ends the connection."""
        self.rest, self.head = b"", 0
        if self.is_busy or not self.transport:
            self.give_up()
            return
        text = error_text(fault, None)
        head = f"HTTP/1.1 {fault.status} {HTTPStatus(fault.status).phrase}\r\nServer: {SERVER}\r\nContent-Type: application/xml\r\nContent-Length: {len(text)}\r\nConnection: close\r\n\r\n"
        self.transport.write(head.encode() + text)
        self.transport.close()

    def handle_error(
        self, request: web.BaseRequest, status: int = 500, exc: BaseException | None = None, message: str | None = None
    ) -> web.StreamResponse:
        """400 RequestHeaderSectionTooLarge, BadRequest; 500 InternalError."""
        if request.writer.output_size > 0 or isinstance(exc, (ConnectionError, RequestPayloadError)):
            raise ConnectionError("the client has gone, or an answer has begun")
        if status == HTTPStatus.BAD_REQUEST:
            fault = S3Error("RequestHeaderSectionTooLarge" if isinstance(exc, LineTooLong) else "BadRequest")
        else:
            fault = error_of(exc) if exc else S3Error("InternalError")
        response = error_answer(fault, None)
        response.headers["Server"] = SERVER
        response.force_close()
        return response


class Server(web.Server):
    """What takes connections."""

    def __init__(self, handle: Callable[[web.BaseRequest], Awaitable[web.StreamResponse]]):
        self.words: dict[str, Any] = {"access_log": None, "auto_decompress": False, "max_field_size": 16_384, "max_line_size": 16_384}
        super().__init__(handle, **self.words)

    def __call__(self) -> RequestHandler:
        return Connection(self, loop=asyncio.get_running_loop(), **self.words)
