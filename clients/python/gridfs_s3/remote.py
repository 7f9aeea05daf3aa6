"""Gateways of one tenant on several machines: where this one listens for the others, and at which addresses it asks them (docs/S3.md, *What gateways tell one another*).

They say what gateways of one machine say (peers.py), through TLS, by which both show the same certificate: the tenant's own. So whoever has another one is told nothing, and asked nothing. Without a
certificate only addresses of this machine are taken.

One certificate does for both sides, since tenants' certificates are for who connects, and TLS takes none of these from who listens. There is TLS
although question and answer bear a MAC: a secret of eight letters is allowed, and who sees a question could try all of these by himself. A
connection lasts for a minute, as to make one takes ten times the processor of a question, and no longer, so that nothing is believed for long by
a certificate or a key that was replaced.
"""

import asyncio
import ipaddress
import os
import re
import socket
import ssl
import time
from collections.abc import Callable, Mapping, Sequence
from contextlib import suppress
from dataclasses import dataclass
from functools import partial

from gridfs_client.errors import BadSettings
from gridfs_client.settings import OF_GATEWAYS

from .errors import tell
from .peers import ANY, FAULTS, LONGEST, PATIENCE, Line, Reach, Streams, Told, line_to

SILENT_FOR = 5.0  # seconds for which a gateway that told nothing is not asked again
ADDRESS = re.compile(r"(?:\[([0-9a-fA-F:]+)\]|([^\s:\[\]]+)):([0-9]{1,5})")
CERTIFICATE = re.compile("-----BEGIN CERTIFICATE-----.+?-----END CERTIFICATE-----", re.DOTALL)


@dataclass(frozen=True)
class Address:
    host: str
    port: int

    def __str__(self) -> str:
        return f"[{self.host}]:{self.port}" if ":" in self.host else f"{self.host}:{self.port}"

    @property
    def is_here(self) -> bool:
        """Whether what is said there stays on this machine."""
        try:
            return ipaddress.ip_address(self.host).is_loopback
        except ValueError:
            return self.host == "localhost"


def addresses_of(values: Mapping[str, str], key: str) -> list[Address]:
    """Those that a setting names. BadSettings where one has no form."""
    words = values.get(key, "").split()
    found = [ADDRESS.fullmatch(word) for word in words]
    for word, each in zip(words, found):
        if not each or not 0 < int(each[3]) < 65_536:
            raise BadSettings(f"{key}: {word!r} is no ADDRESS:PORT")
    return [Address(each[1] or each[2], int(each[3])) for each in found if each]


def stamps_of(paths: Sequence[str]) -> list[int]:
    """When these files were written, as far as they are there."""
    found = list[int]()
    for path in paths:
        with suppress(OSError):
            found.append(os.stat(path).st_mtime_ns)
    return found


class Certificate:
    """The tenant's certificate with its key, as the files are when this is made, and how it is shown. BadSettings where they are of no use."""

    def __init__(self, paths: tuple[str, str]):
        certificate, path = paths
        self.stamps = stamps_of(paths)
        try:
            if os.stat(path).st_mode & 0o006:
                raise BadSettings(f"{path}: others may read or write it")
            path = certificate
            with open(path, encoding="utf-8") as file:
                found = CERTIFICATE.search(file.read())
            self.content = ssl.PEM_cert_to_DER_cert(found[0] if found else "")
            # (TLS takes no tenant's certificate of who listens. So it is compared, once TLS has found that who shows it has its key.)
            self.asks = self.context(ssl.PROTOCOL_TLS_CLIENT, paths)
            self.asks.check_hostname, self.asks.verify_mode = False, ssl.CERT_NONE
            self.answers = self.context(ssl.PROTOCOL_TLS_SERVER, paths)
            self.answers.verify_mode, self.answers.num_tickets = ssl.CERT_REQUIRED, 0  # type: ignore[attr-defined]
            self.answers.verify_flags |= ssl.VERIFY_X509_PARTIAL_CHAIN
            self.answers.load_verify_locations(cadata=self.content)  # (and no other one)
        except (OSError, ValueError) as fault:
            raise BadSettings(f"{path}: {getattr(fault, 'strerror', None) or 'no use to TLS'}") from None

    def context(self, side: int, paths: tuple[str, str]) -> ssl.SSLContext:
        found = ssl.SSLContext(side)
        found.minimum_version = ssl.TLSVersion.TLSv1_3
        found.load_cert_chain(*paths)
        return found


class Remote:
    """The gateways of a tenant that settings name. BadSettings where these have no form, or want a certificate and name none."""

    def __init__(self, values: Mapping[str, str]):
        self.listens = addresses_of(values, "peers-listen")
        self.others = [each for each in dict.fromkeys(addresses_of(values, "peers")) if each not in self.listens]  # (so the same line will do for all)
        self.paths = (values["certificate"], values["key"]) if {"certificate", "key"} <= values.keys() else None
        self.certificate = Certificate(self.paths) if self.paths and OF_GATEWAYS.keys() & values.keys() else None
        if far := [each for each in [*self.listens, *self.others] if not (self.certificate or each.is_here)]:
            raise BadSettings(f"{far[0]}: gateways on several machines want the tenant's certificate and key: without them only an address of this machine is taken")
        if len(self.listens) > 1:
            raise BadSettings("peers-listen: one ADDRESS:PORT is wanted")
        self.lines: dict[Address, Line] = {}  # connections to the others that are there from the last question
        self.silent: dict[Address, float] = {}  # those that told nothing when they were asked last, and when they are asked again
        self.why: dict[Address, str] = {}

    def shown(self) -> Certificate | None:
        """The certificate as its files are now. While they don't fit, as amid their making, it is the one from before."""
        if self.certificate and self.paths and self.certificate.stamps != stamps_of(self.paths):
            with suppress(BadSettings):
                self.certificate = Certificate(self.paths)
        return self.certificate

    # Others ask

    def listener(self) -> socket.socket | None:
        """Where others connect; None where no setting says so. BadSettings where that can't be had."""
        for address in self.listens:
            try:
                found = socket.create_server((address.host, address.port), family=socket.AF_INET6 if ":" in address.host else socket.AF_INET, backlog=8)
                found.setblocking(False)
                return found
            except OSError as fault:
                raise BadSettings(f"peers-listen: {address}: {fault.strerror or fault}") from None
        return None

    def accept(self, connection: socket.socket) -> Reach:
        return partial(self.accepted, connection)

    async def accepted(self, connection: socket.socket) -> Streams:
        """Speaks with who has connected and shows the certificate. Any other one keeps his place until his time is over, so that few certificates of strangers are judged."""
        own, loop = self.shown(), asyncio.get_running_loop()
        reader = asyncio.StreamReader(limit=LONGEST)
        protocol = asyncio.StreamReaderProtocol(reader)
        try:
            transport, _ = await loop.connect_accepted_socket(lambda: protocol, connection, ssl=own.answers if own else None)
        except OSError:
            await asyncio.sleep(PATIENCE)
            raise
        return reader, asyncio.StreamWriter(transport, protocol, reader, loop)

    # Others are asked

    async def connect(self, address: Address) -> Streams:
        own = self.shown()
        try:
            reader, writer = await asyncio.open_connection(address.host, address.port, ssl=own.asks if own else None, limit=LONGEST)
        except OSError as fault:
            self.why[address] = fault.strerror or str(fault)
            raise
        if own and writer.get_extra_info("ssl_object").getpeercert(True) != own.content:
            writer.transport.abort()
            self.why[address] = "it shows another certificate"
            raise ssl.SSLError
        return reader, writer

    async def ask_all(self, key: bytes, known: Callable[[str], int]) -> list[Told]:
        """What all tell that answer. One that told nothing is passed over for a while: so a machine that is down has few listings wait."""
        now = time.monotonic()
        found = await asyncio.gather(*(self.ask(each, key, known) for each in self.others if self.silent.get(each, now) <= now))
        return [told for told in found if told]

    async def told_by(self, address: Address, key: bytes, known: Callable[[str], int]) -> Told:
        """Asks by the connection that is there, or by a new one where that has ended; it is kept. Faults as those of a Line."""
        line = self.lines.pop(address, None)
        try:
            if line is None:
                raise ConnectionError
            told = await line.ask(key, ANY, known)
        except (OSError, ValueError):
            line = await line_to(partial(self.connect, address))
            told = await line.ask(key, ANY, known)
        self.lines[address] = line
        return told

    async def ask(self, address: Address, key: bytes, known: Callable[[str], int]) -> Told | None:
        self.why.pop(address, None)
        told = None
        with suppress(*FAULTS):
            async with asyncio.timeout(PATIENCE):
                told = await self.told_by(address, key, known)
        if bool(told) == (address in self.silent):
            why = self.why.get(address, f"no answer in {PATIENCE:g} s, or it has other keys or another certificate")
            tell(f"the gateway at {address} {'answers' if told else f'tells nothing: {why}'}")
        if told:
            self.silent.pop(address, None)
        else:
            self.silent[address] = time.monotonic() + SILENT_FOR
        return told
