"""Access keys: whose they are, and what each may do.

A file of keys has a line for each:

    ACCESS SECRET [read] [bucket=NAME]..

ACCESS is the tenant's name, or that and a word after a dot, such as `carol.backup`: so what stands before several gateways finds the tenant by it.
A key with the word `read` changes nothing. A key with buckets sees these alone. Lines that are empty or begin with # mean nothing. The first
key may do all.
"""

import os
import re
from collections.abc import Mapping
from dataclasses import dataclass

from .errors import S3Error

ACCESS = re.compile(r"([a-z]{1,16})(?:\.[A-Za-z0-9_-]{1,40})?")
LEAST = 8  # letters of a secret


class BadKeys(Exception):
    """The file of keys can't be read, or has something wrong."""


@dataclass(frozen=True)
class Key:
    """An access key. `buckets` are those that it sees; None for all."""

    access: str
    secret: str
    is_read_only: bool = False
    buckets: frozenset[str] | None = None

    def expect(self, bucket: str, is_change: bool) -> None:
        """AccessDenied (403) where the key may not do that."""
        if is_change and self.is_read_only:
            raise S3Error("AccessDenied", "This access key may only read.")
        if bucket and self.buckets is not None and bucket not in self.buckets:
            raise S3Error("AccessDenied", "This access key is not for this bucket.")

    def sees(self, bucket: str) -> bool:
        return self.buckets is None or bucket in self.buckets


def parse_key(line: str, tenant: str) -> Key:
    access, secret, *words = (line.split(" ") + [""])[:2] + line.split(" ")[2:]
    found = ACCESS.fullmatch(access)
    if not found or found[1] != tenant:
        raise BadKeys(f"{access}: an access key here is {tenant}, or {tenant} with a dot and a word after it")
    if len(secret) < LEAST:
        raise BadKeys(f"{access}: a secret has {LEAST} letters or more")
    buckets = frozenset(word.removeprefix("bucket=") for word in words if word.startswith("bucket="))
    if unknown := [word for word in words if word == "bucket=" or word != "read" and not word.startswith("bucket=")]:
        raise BadKeys(f"{access}: {unknown[0]} is neither `read` nor bucket=NAME")
    return Key(access, secret, "read" in words, buckets or None)


def parse_keys(text: str, tenant: str) -> Mapping[str, Key]:
    """The keys of such a file, or of one whose first line is a secret alone: that is the tenant's own. BadKeys where something is wrong."""
    lines = [line.strip() for line in text.splitlines()]
    lines = [line for line in lines if line and not line.startswith("#")]
    if len(lines) == 1 and " " not in lines[0]:
        lines = [f"{tenant} {lines[0]}"]
    found: dict[str, Key] = {}
    for line in lines:
        key = parse_key(re.sub(r"\s+", " ", line), tenant)
        if key.access in found:
            raise BadKeys(f"{key.access}: stands there twice")
        found[key.access] = key
    if not found:
        raise BadKeys("there is no key")
    return found


def read_keys(path: str, tenant: str) -> Mapping[str, Key]:
    """The keys of a file, which others must not be able to read or write."""
    try:
        with open(path, encoding="utf-8") as file:
            if os.fstat(file.fileno()).st_mode & 0o006:
                raise BadKeys("others may read or write it")
            return parse_keys(file.read(), tenant)
    except OSError as fault:
        raise BadKeys(f"{path}: {fault.strerror}") from None
    except UnicodeDecodeError:
        raise BadKeys(f"{path}: no text") from None
    except BadKeys as fault:
        raise BadKeys(f"{path}: {fault}") from None
