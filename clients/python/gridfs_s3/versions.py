"""Versions of objects: where each of them stands, and which one a request means.

In a bucket with versions each put stands at a name of its own, which is written once, beside the other versions of its object: so one look at a page shows all of
them, and the latest is that whose change was the last. A removal that names no version is a version too, a *marker*. What was put while versions were off, or are
suspended, is the version `null`, and stands where an object does in a bucket without versions.
"""

import re
import secrets
from dataclasses import dataclass, field

from gridfs_client.buckets import Held

from .errors import S3Error
from .places import KEYS, NULL, Object, Values, name_of, version_name

ID = re.compile(r"[0-9a-f]{24}")
ENABLED, SUSPENDED = "Enabled", "Suspended"
ELEMENTS = {"VersioningConfiguration": {"Status"}}
HEADER, MARKER = "x-amz-version-id", "x-amz-delete-marker"


class Restated(Exception):
    """The versions of the bucket are in another state than when the place of a change was chosen. Nothing was changed."""


@dataclass(frozen=True)
class Place:
    """Where an object is looked for: at this name, or at that of the latest of all its versions."""

    bucket: str
    key: str
    state: str  # of the bucket's versions; empty where it never had any
    version: str | None = None  # the one that is asked for

    @property
    def name(self) -> str:
        name = name_of(self.bucket, self.key)
        return name if self.version in (None, NULL) else version_name(self.bucket, self.version or "", name)

    @property
    def is_latest(self) -> bool:
        return bool(self.state) and self.version is None

    @property
    def about(self) -> str | None:
        """The object's name, where it has versions."""
        return name_of(self.bucket, self.key) if self.state else None

    def expect(self, held: Held | None) -> Object:
        """The object there. 404 NoSuchKey, NoSuchVersion; 405 MethodNotAllowed for a marker that is asked for."""
        if not held:
            raise S3Error("NoSuchVersion", Key=self.key, VersionId=self.version) if self.version else S3Error("NoSuchKey", Key=self.key)
        found = Object(self.key, held)
        if found.is_marker:
            fault = S3Error("MethodNotAllowed", "This version is a marker of a removal.") if self.version else S3Error("NoSuchKey", Key=self.key)
            fault.headers = {MARKER: "true", HEADER: found.version}
            raise fault
        return found

    def told(self, found: Object) -> dict[str, str]:
        """The headers by which the version is told."""
        return {HEADER: found.version} if self.state else {}


@dataclass(frozen=True)
class Target:
    """Where a new version of an object is to stand, with what is kept beside it; and of which object it is one, where the bucket has versions."""

    name: str
    about: str | None = None
    values: Values = field(default_factory=dict)
    told: dict[str, str] = field(default_factory=dict)  # headers


def target_of(bucket: str, key: str, state: str, version: str = "") -> Target:
    """Where the next version of an object is to stand, by this ID where one is given."""
    name = name_of(bucket, key)
    beside = {"k": key} if name.startswith(KEYS) else {}
    if state != ENABLED:
        return Target(name, name if state else None, beside, {HEADER: NULL} if state else {})
    version = version or secrets.token_hex(12)
    return Target(version_name(bucket, version, name), name, {"k": key}, {HEADER: version})


def expect_id(version: str | None) -> str | None:
    """400 InvalidArgument for what is no ID of a version."""
    if version not in (None, NULL) and not ID.fullmatch(version or ""):
        raise S3Error("InvalidArgument", "This is no ID of a version.")
    return version


def is_there(held: Held | None) -> Held | None:
    """What counts as an object: a marker is none."""
    return None if held and Object("", held).is_marker else held
