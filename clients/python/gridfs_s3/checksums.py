"""Checksums of contents: what computes them, and those of an object in parts by those of its parts."""

import base64
import functools
import hashlib
import re
import zlib
from collections.abc import Callable, Iterable, Mapping, Sequence
from dataclasses import dataclass
from typing import Any

import crcmod

from .errors import S3Error
from .markup import element

HEADER = "x-amz-checksum-"
WORDS = ("algorithm", "mode", "type")  # of other headers that begin so
FULL, OF_PARTS = "FULL_OBJECT", "COMPOSITE"
# Polynomials, the highest power first
CRCS = {"crc32": (0x104C11DB7, 32), "crc32c": (0x11EDC6F41, 32), "crc64nvme": (0x1AD93D23594C93659, 64)}
SUM = re.compile(r"(crc32|crc32c|crc64nvme|sha1|sha256)\.([A-Za-z0-9+/]{6,43}={0,2})(?:-([0-9]{1,5}))?")


class Crc:
    """A CRC with the calls of hashlib."""

    def __init__(self, length: int, go_on: Callable[[bytes, int], int]):
        self.length, self.go_on, self.value = length, go_on, 0

    def update(self, data: bytes) -> None:
        self.value = self.go_on(data, self.value)

    def digest(self) -> bytes:
        return self.value.to_bytes(self.length, "big")


@functools.cache
def crc_of(name: str) -> Callable[[bytes, int], int]:
    polynomial, bits = CRCS[name]
    found: Callable[[bytes, int], int] = crcmod.mkCrcFun(polynomial, initCrc=0, rev=True, xorOut=(1 << bits) - 1)
    return found


ALGORITHMS: dict[str, Callable[[], Any]] = {
    "crc32": lambda: Crc(4, zlib.crc32),
    "crc32c": lambda: Crc(4, crc_of("crc32c")),
    "crc64nvme": lambda: Crc(8, crc_of("crc64nvme")),
    "sha1": hashlib.sha1,
    "sha256": hashlib.sha256,
}


def algorithm_of(word: str) -> str:
    """An algorithm by the word of a header, as `CRC32` or `crc32`. 501 NotImplemented."""
    if word.lower() not in ALGORITHMS:
        raise S3Error("NotImplemented", f"The checksum {word} is not known here; known are {', '.join(name.upper() for name in ALGORITHMS)}.")
    return word.lower()


def by_headers(names: Iterable[str]) -> dict[str, str]:
    """The algorithms of headers that tell a checksum. 501 NotImplemented."""
    return {name: algorithm_of(name.removeprefix(HEADER) if name.startswith(HEADER) else name or "of no name") for name in names}


def given(headers: Mapping[str, str]) -> dict[str, str]:
    """The checksums that headers tell, by their algorithms. 501 NotImplemented."""
    found = by_headers(name for name in headers if name.startswith(HEADER) and name.removeprefix(HEADER) not in WORDS)
    return {algorithm: headers[name].strip() for name, algorithm in found.items()}


@dataclass(frozen=True)
class Checksum:
    """A checksum as it stands beside a content: of the whole, or where it has a count of so many parts."""

    algorithm: str
    value: str  # in base64
    count: int = 0

    @property
    def kind(self) -> str:
        return OF_PARTS if self.count else FULL

    @property
    def told(self) -> str:
        return self.value + (f"-{self.count}" if self.count else "")

    @property
    def element(self) -> str:
        """The name of its element in XML."""
        return f"Checksum{self.algorithm.upper()}"

    @property
    def digest(self) -> bytes:
        return base64.b64decode(self.value)

    def text(self) -> str:
        return f"{self.algorithm}.{self.told}"

    def elements(self) -> list[str]:
        return [element(self.element, self.told), element("ChecksumType", self.kind)]

    def headers(self) -> dict[str, str]:
        return {HEADER + self.algorithm: self.told, f"{HEADER}type": self.kind}


def of_text(text: str) -> Checksum | None:
    """A checksum by its text; None for what is none."""
    found = SUM.fullmatch(text)
    return Checksum(found[1], found[2], int(found[3] or 0)) if found else None


def of_digest(algorithm: str, digest: bytes, count: int = 0) -> Checksum:
    return Checksum(algorithm, base64.b64encode(digest).decode(), count)


def computed(algorithm: str, pieces: Iterable[bytes]) -> Checksum:
    """The checksum of a content that comes in pieces."""
    found = ALGORITHMS[algorithm]()
    for piece in pieces:
        found.update(piece)
    return of_digest(algorithm, found.digest())


# Of several parts


def of_parts(parts: Sequence[Checksum]) -> Checksum:
    """That of their checksums."""
    name = parts[0].algorithm
    return of_digest(name, computed(name, [part.digest for part in parts]).digest, len(parts))


def joined(parts: Sequence[tuple[Checksum, int]]) -> Checksum:
    """That of the parts' bytes one after another, by the checksum and the length of each. The algorithm is a CRC."""
    name = parts[0][0].algorithm
    value = 0
    for part, size in parts:
        value = multiplied(name, value, power(name, 8 * size)) ^ int.from_bytes(part.digest, "big")
    return of_digest(name, value.to_bytes(CRCS[name][1] // 8, "big"))


# A CRC goes on over so many bits by a product with the power of x, modulo the polynomial. The lowest power is the highest bit.


def multiplied(name: str, one: int, two: int) -> int:
    polynomial, bits = CRCS[name]
    reversed_bits = int(f"{polynomial:b}"[1:][::-1], 2)
    product, bit = 0, 1 << bits - 1
    while bit:
        if one & bit:
            product ^= two
        two = two >> 1 ^ (reversed_bits if two & 1 else 0)
        bit >>= 1
    return product


@functools.lru_cache(1_000)
def power(name: str, exponent: int) -> int:
    found, square = 1 << CRCS[name][1] - 1, 1 << CRCS[name][1] - 2
    while exponent:
        if exponent & 1:
            found = multiplied(name, found, square)
        square, exponent = multiplied(name, square, square), exponent >> 1
    return found
