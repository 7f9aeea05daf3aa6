"""Listings of objects, in both versions, and of uploads."""

from collections.abc import Callable, Sequence
from urllib.parse import quote

from aiohttp import web

from .errors import S3Error
from .gateway import Operations
from .index import Names, Row, by_keys
from .markup import document, element, escape, many
from .places import NULL, UPLOADS, number_of, of_words, upload_of
from .requests import Asked, answer, iso, place_of, token_of
from .versions import ID


def coding_of(asked: Asked) -> str | None:
    """400 InvalidArgument for an encoding-type that isn't url."""
    coding = asked.query.get("encoding-type")
    if coding not in (None, "url"):
        raise S3Error("InvalidArgument", "The only encoding-type is url.")
    return coding


def encoded(text: str, coding: str | None) -> str:
    return quote(text, safe="/") if coding else text


def group_of(key: str, prefix: str, delimiter: str) -> str | None:
    """The common prefix that a key is told by; None where it is told itself."""
    at = key.find(delimiter, len(prefix)) if delimiter else -1
    return key[: at + len(delimiter)] if at >= 0 else None


Chosen = Callable[[list[Row]], Sequence[Row]]  # of the versions of a key, the latest first, those that are listed


class Cut:
    """So many versions and common prefixes of a bucket after a place, in order. Behind a common prefix it goes on at the first key that does not begin so."""

    def __init__(self, names: Names, bucket: str, prefix: str, delimiter: str, after: str, most: int, chosen: Chosen, version: str | None = None):
        """With a version it begins behind that, of the key `after`: with all that are left of it, where that version is gone."""
        self.rows: list[Row] = []
        self.groups: list[str] = []
        self.last, self.is_cut, self.most = after, False, most
        self.base, self.prefix, self.delimiter, self.chosen, self.version = f"{bucket}/", prefix, delimiter, chosen, version
        begin, self.end = f"{self.base}{prefix}".encode(), f"{self.base}{prefix}".encode() + b"\xff"
        self.limit, limit = after.encode(), f"{self.base}{after}".encode()
        self.place: bytes | None = max(begin, limit + (b"\0" if version is None else b"")) if after else begin
        with names.at_once():
            while self.place is not None and not self.is_cut:
                self.go_on(names, self.place)

    def go_on(self, names: Names, place: bytes) -> None:
        """As far as to the next common prefix, or to the end."""
        self.place = None
        for found in by_keys(names.rows(place, self.end)):
            key = found[0].key[len(self.base) :]
            wanted, group = self.chosen(found), group_of(key, self.prefix, self.delimiter)
            if group is None and key.encode() == self.limit:
                wanted = rest_of(wanted, self.version)
            if not wanted:
                continue
            if group is not None:
                if group.encode() > self.limit and self.take(group):
                    self.groups.append(group)
                self.place = f"{self.base}{group}".encode() + b"\xff"
                return
            for row in wanted:
                if not self.take(key):
                    return
                self.rows.append(row._replace(key=key))

    def take(self, last: str) -> bool:
        """Whether one more is told, which is now the last one."""
        if len(self.rows) + len(self.groups) >= self.most:
            self.is_cut = self.most > 0
            return False
        self.last = last
        return True


def rest_of(versions: Sequence[Row], version: str | None) -> Sequence[Row]:
    """The versions of a key behind this one; all where it is not there any more."""
    return versions[next((at for at, each in enumerate(versions, 1) if each.version == version), 0) :]


def latest_of(versions: list[Row]) -> Sequence[Row]:
    """The latest, unless that is a marker."""
    return [] if versions[0].is_marker else versions[:1]


class Listings(Operations):
    async def objects(self, bucket: str, prefix: str, delimiter: str, after: str, most: int) -> Cut:
        """Objects of a bucket whose keys begin so, each as it was at some moment of the call: the latest version of its key."""
        return await self.gateway.listing(lambda names: Cut(names, bucket, prefix, delimiter, after, most, latest_of))

    async def list_objects(self, asked: Asked) -> web.Response:
        """200. 400 InvalidArgument, 404 NoSuchBucket."""
        after = asked.query.get("marker", "")
        coding = coding_of(asked)

        def marks(cut: Cut) -> list[str]:
            return [element("Marker", encoded(after, coding)), element("NextMarker", encoded(cut.last, coding)) if cut.is_cut else ""]

        return answer(document("ListBucketResult", *await self.listing(asked, after, True, marks)))

    async def list_objects_v2(self, asked: Asked) -> web.Response:
        """200. 400 InvalidArgument, also for a token that is not of this endpoint; 404 NoSuchBucket."""
        query, token = asked.query, asked.query.get("continuation-token")
        after = place_of(token) if token else query.get("start-after", "")

        def marks(cut: Cut) -> list[str]:
            return [
                element("NextContinuationToken", token_of(cut.last)) if cut.is_cut else "",
                element("ContinuationToken", token) if token else "",
                element("StartAfter", encoded(query["start-after"], coding_of(asked))) if "start-after" in query else "",
                element("KeyCount", len(cut.rows) + len(cut.groups)),
            ]

        return answer(document("ListBucketResult", *await self.listing(asked, after, query.get("fetch-owner") == "true", marks)))

    async def listing(self, asked: Asked, after: str, is_owned: bool, marks: Callable[[Cut], list[str]]) -> list[str]:
        """What both listings of objects tell."""
        await self.gateway.need_bucket(asked.bucket)
        prefix, delimiter, most = self.words_of(asked)
        cut = await self.objects(asked.bucket, prefix, delimiter, after, most)
        rows = [self.row("Contents", each, coding_of(asked), [], is_owned) for each in cut.rows]
        return self.told(asked, cut, marks(cut), rows)

    def words_of(self, asked: Asked) -> tuple[str, str, int]:
        """A prefix, a delimiter, and how many are wanted at most. 400 InvalidArgument."""
        return asked.query.get("prefix", ""), asked.query.get("delimiter", ""), asked.number("max-keys", 1_000, 1_000)

    def row(self, name: str, each: Row, coding: str | None, version: list[str], is_owned: bool) -> str:
        """One object of a listing. A marker has no content. (There may be a thousand: so it is written at once.)"""
        key, owner = escape(encoded(each.key, coding)), self.gateway.owner() if is_owned else ""
        content = f"<ETag>&quot;{escape(each.etag)}&quot;</ETag><Size>{each.size}</Size>{owner}<StorageClass>STANDARD</StorageClass>" if not each.is_marker else owner
        return f"<{name}><Key>{key}</Key>{''.join(version)}<LastModified>{iso(each.time)}</LastModified>{content}</{name}>"

    def told(self, asked: Asked, cut: Cut, marks: list[str], rows: list[str], is_of_versions: bool = False) -> list[str]:
        """What all listings tell, in the order of S3's schema: there marks say where this one begins, and the next one."""
        prefix, delimiter, most = self.words_of(asked)
        coding = coding_of(asked)
        head = [
            element("Name", asked.bucket),
            element("Prefix", encoded(prefix, coding)),
            *marks,
            element("MaxKeys", most),
            element("Delimiter", encoded(delimiter, coding)) if delimiter or (is_of_versions and "delimiter" in asked.query) else "",
            element("EncodingType", coding) if coding else "",
            element("IsTruncated", "true" if cut.is_cut else "false"),
        ]
        return head + rows + [many("CommonPrefixes", element("Prefix", encoded(group, coding))) for group in cut.groups]

    async def list_object_versions(self, asked: Asked) -> web.Response:
        """200: the versions of each key, from the latest on; in a bucket that never had versions each object is the only one, `null`. Where the version is gone at
        which the last one was cut, it goes on with all that are left of the key. 400 InvalidArgument, 404 NoSuchBucket."""
        await self.gateway.need_bucket(asked.bucket)
        after, version, coding = asked.query.get("key-marker", ""), asked.query.get("version-id-marker", ""), coding_of(asked)
        if version and "key-marker" not in asked.query:
            raise S3Error("InvalidArgument", "A version-id marker cannot be specified without a key marker.")
        if version and version != NULL and not ID.fullmatch(version):
            raise S3Error("InvalidArgument", "Invalid version id specified")
        prefix, delimiter, most = self.words_of(asked)
        latest = set[str]()  # names of those versions that are the latest of their keys

        def each_of(versions: list[Row]) -> Sequence[Row]:
            latest.add(versions[0].name)
            return versions

        cut = await self.gateway.listing(lambda names: Cut(names, asked.bucket, prefix, delimiter, after, most, each_of, version or None))
        marks = [element("KeyMarker", encoded(after, coding)), element("VersionIdMarker", version)]
        if cut.is_cut:
            is_row = bool(cut.rows) and cut.rows[-1].key == cut.last
            marks += [element("NextKeyMarker", encoded(cut.last, coding)), element("NextVersionIdMarker", cut.rows[-1].version) if is_row else ""]
        rows = []
        for each in cut.rows:
            inner = [element("VersionId", each.version), element("IsLatest", "true" if each.name in latest else "false")]
            rows.append(self.row("DeleteMarker" if each.is_marker else "Version", each, coding, inner, True))
        return answer(document("ListVersionsResult", *self.told(asked, cut, marks, rows, True)))

    async def list_multipart_uploads(self, asked: Asked) -> web.Response:
        """200. 400 InvalidArgument, 404 NoSuchBucket."""
        await self.gateway.need_bucket(asked.bucket)
        query, place, coding = asked.query, f"{UPLOADS}{asked.bucket}/", coding_of(asked)
        prefix, delimiter, most = query.get("prefix", ""), query.get("delimiter", ""), asked.number("max-uploads", 1_000, 1_000)
        found = await self.gateway.listing(lambda names: [(upload_of(each.name), of_words(each.words)) for each in names.names(place)])
        uploads = sorted((values.get("k", ""), upload, number_of(values, "i")) for upload, values in found if upload and "k" in values)
        marker = (query["key-marker"], query.get("upload-id-marker", "\uffff")) if "key-marker" in query else None
        rows: list[str] = []
        groups: list[str] = []
        last, is_cut = ("", ""), False
        for key, upload, stamp in uploads:
            group = group_of(key, prefix, delimiter)
            is_behind = marker is not None and ((key, upload) <= marker or (group is not None and group <= marker[0]))
            if not key.startswith(prefix) or is_behind or group in groups:
                continue
            if len(rows) + len(groups) >= most:
                is_cut = most > 0
                break
            last = (group or key, upload)
            if group is not None:
                groups.append(group)
                continue
            inner = [element("Key", encoded(key, coding)), element("UploadId", upload), self.gateway.owner("Initiator"), self.gateway.owner()]
            rows.append(many("Upload", *inner, element("StorageClass", "STANDARD"), element("Initiated", iso(stamp))))
        head = [
            element("Bucket", asked.bucket),
            element("KeyMarker", encoded(query.get("key-marker", ""), coding)),
            element("UploadIdMarker", query.get("upload-id-marker", "")),
            element("NextKeyMarker", encoded(last[0], coding)),
            element("NextUploadIdMarker", last[1]),
            element("Delimiter", encoded(delimiter, coding)) if delimiter else None,
            element("Prefix", encoded(prefix, coding)),
            element("MaxUploads", most),
            element("EncodingType", coding) if coding else None,
            element("IsTruncated", "true" if is_cut else "false"),
        ]
        common = [many("CommonPrefixes", element("Prefix", encoded(group, coding))) for group in groups]
        return answer(document("ListMultipartUploadsResult", *head, *rows, *common))
