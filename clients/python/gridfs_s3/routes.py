"""The endpoint: which operation a request asks for, and its way from the head of the request to the end of the answer."""

import asyncio
import time
from collections.abc import Awaitable, Callable, Mapping, Set
from contextlib import nullcontext, suppress
from dataclasses import dataclass, field

from aiohttp import web
from aiohttp.web_protocol import RequestPayloadError

from . import cors, lifecycle, metrics, signing, tags, versions
from .buckets import NEVER_GIVEN, Buckets
from .checksums import ALGORITHMS, HEADER
from .connections import Connection, error_answer
from .copying import Copies
from .cors import Cors
from .errors import S3Error, error_of, tell
from .expiring import Lifecycles
from .forms import Forms, is_form
from .gateway import Gateway
from .given import Given
from .grids import asked_by
from .listing import Listings
from .objects import DIRECTIVE, Objects
from .page import Page
from .policies import Policies
from .requests import SERVER, Asked, answer
from .tagging import Tagging
from .uploads import Uploads
from .workers import who_asks

Operation = Callable[[Asked], Awaitable[web.StreamResponse]]
SLOW = 10.0  # seconds from which on a request is told of on standard error
READS = ("GET", "HEAD")
ALIVE = ("/minio/health/live", "/minio/health/ready", "/minio/health/cluster")  # that probes and clients ask for
# What a read may ask for that is not here. Other words that are not known mean nothing to a read.
NOT_HERE = (
    "accelerate", "analytics", "inventory", "legal-hold", "logging", "metrics", "notification", "requestPayment", "restore", "retention", "select",
    "torrent", "versions", "intelligent-tiering", *NEVER_GIVEN,
)  # fmt: skip
# The headers of Amazon's that any change may have, and those that some may have besides. One that is not known may be a condition, or want something else than
# what would be done.
OF_ANY_CHANGE = {
    "x-amz-acl", "x-amz-bypass-governance-retention", "x-amz-content-sha256", "x-amz-date", "x-amz-decoded-content-length", "x-amz-expected-bucket-owner", "x-amz-request-payer",
    "x-amz-sdk-checksum-algorithm", "x-amz-security-token", "x-amz-storage-class", "x-amz-te", "x-amz-trailer", "x-amz-user-agent", *(HEADER + name for name in ALGORITHMS),
}  # fmt: skip
OF_A_COPY = {
    "x-amz-copy-source", "x-amz-copy-source-if-match", "x-amz-copy-source-if-modified-since", "x-amz-copy-source-if-none-match", "x-amz-copy-source-if-unmodified-since",
    "x-amz-source-expected-bucket-owner",
}  # fmt: skip
BY, KIND = f"{HEADER}algorithm", f"{HEADER}type"
# How headers begin of what many clients ask for each object: codes after which none asks again. (Some take a 501 for a fault of the moment.)
NEVER_HAD = {
    "x-amz-grant-": "AccessControlListNotSupported", "x-amz-server-side-encryption": "InvalidEncryptionAlgorithmError",
    "x-amz-copy-source-server-side-encryption": "InvalidEncryptionAlgorithmError",
}  # fmt: skip
# The elements of the XML that a change may have, by the element around them.
OF_BUCKETS = {"CreateBucketConfiguration": {"LocationConstraint"}}
OF_REMOVALS = {"Delete": {"Object", "Quiet"}, "Object": {"Key", "VersionId"}}
OF_PARTS = {"CompleteMultipartUpload": {"Part"}, "Part": {"ETag", "PartNumber", *(f"Checksum{name.upper()}" for name in ALGORITHMS)}}
# In the query of a URL there are these besides, in letters of any case. Some clients write other headers there too, as an owner that they expect or a lock.
OF_ANY_URL = {
    "x-id", "x-amz-algorithm", "x-amz-content-sha256", "x-amz-credential", "x-amz-date", "x-amz-expires", "x-amz-sdk-checksum-algorithm", "x-amz-security-token", "x-amz-signature",
    "x-amz-signedheaders", "x-amz-user-agent",
}  # fmt: skip
OF_A_KEY = "x-amz-server-side-encryption-customer-algorithm"
CONDITIONS, NEVER_JUDGED = {"if-match", "if-none-match"}, {"if-modified-since", "if-range", "if-unmodified-since"}


@dataclass(frozen=True)
class Change:
    """A request that changes something: the words of its query, those that it may have besides, the conditions that are judged, the headers that it knows, and
    the elements of its XML."""

    operation: Operation
    words: Set[str] = frozenset()
    besides: Set[str] = frozenset()
    conditions: Set[str] = frozenset()
    headers: Set[str] = frozenset()
    elements: Mapping[str, Set[str]] = field(default_factory=dict)

    @property
    def is_copy(self) -> bool:
        return "x-amz-copy-source" in self.headers


CLOCK_TOLD = 600.0  # seconds from one line about clients' clocks to the next


class Endpoint:
    """The operations of one tenant's gateway."""

    def __init__(self, gateway: Gateway):
        self.gateway, self.tenant = gateway, gateway.tenant
        self.buckets, self.listings = Buckets(gateway), Listings(gateway)
        self.objects = Objects(gateway, self.buckets)
        self.copies = Copies(self.objects)
        self.uploads = Uploads(self.objects, self.copies)
        self.tagging, self.forms = Tagging(self.objects, self.copies), Forms(self.objects)
        self.given = Given(gateway)
        self.lifecycles, self.cors, self.policies = Lifecycles(self.buckets, self.given), Cors(gateway, self.given), Policies(gateway, self.given)
        self.page = Page(gateway, self.listings)
        self.under_way, self.is_ending, self.is_over = 0, False, False
        self.clock_told = -CLOCK_TOLD  # when it was told last that a client's clock is off from this one

    async def handle(self, request: web.BaseRequest) -> web.StreamResponse:
        """The answer to a request, with what is counted of it."""
        begin, operation, status, asked = time.monotonic(), "Unknown", 500, None
        asked_by.set(request)
        self.under_way += 1
        if isinstance(request.protocol, Connection):
            request.protocol.go_on()
        try:
            try:
                asked = Asked(request, self.gateway.domain)
                if self.is_over:
                    raise S3Error("ServiceUnavailable", "The gateway ends. Nothing was changed.")
                response = await self.dispatch(asked)
            except (ConnectionError, asyncio.CancelledError, RequestPayloadError):
                status = 499
                raise
            except Exception as fault:
                told = error_of(fault)
                metrics.faults.labels(self.tenant, told.code).inc()
                response = error_answer(told, asked)
            status = response.status
            if asked and not response.prepared:
                response.headers.update(asked.ids)
                response.headers["Server"] = SERVER
                response.headers.update(asked.cors)
                # The rest of a body is not waited for. And a client that expects a word before its body may not know where it stands.
                if asked.is_expecting or self.is_ending or (status >= 400 and not request.content.is_eof()):
                    response.force_close()
            return response
        finally:
            self.under_way -= 1
            operation, took = asked.operation if asked else operation, time.monotonic() - begin
            if took > SLOW and asked:
                tell(f"{asked.method} {asked.path}: {operation} told {status} after {took:.1f} s")
            metrics.requests.labels(self.tenant, operation, str(status)).inc()
            metrics.seconds.labels(self.tenant, operation).observe(took)

    async def dispatch(self, asked: Asked) -> web.StreamResponse:
        """403 AccessDenied and others for who asks (signing.check, keys.Key); 501 NotImplemented, 405 MethodNotAllowed for what is asked."""
        if asked.path == "/metrics" and not self.is_signed(asked):
            asked.operation = "Metrics"
            if "x-forwarded-for" in asked.headers:
                raise S3Error("AccessDenied", "Metrics are for this machine alone.")
            return answer(metrics.text(self.tenant, self.gateway.grids, self.gateway.clock), kind=metrics.KIND)
        if asked.path in ALIVE and asked.method in READS:
            asked.operation = "Health"
            return answer(kind="text/plain")
        if asked.path == "/-" or asked.path.startswith("/-/"):
            asked.operation = "Page"
            return await self.page.show(asked)
        if asked.method == "OPTIONS" and "origin" in asked.headers and asked.bucket:
            asked.operation = "Preflight"
            return await self.cors.ask_for_leave(asked)
        if is_form(asked) and not self.is_signed(asked):
            return await self.put_by_form(asked)
        if asked.method in READS and asked.bucket and not self.is_signed(asked):
            return await self.read_by_anybody(asked)
        asked.signed = self.signed_by(asked)
        self.name_asker(asked)
        self.expect_known(asked)
        operation = self.operation_of(asked)
        asked.operation = "".join(word.capitalize() for word in getattr(operation, "__name__").split("_"))
        asked.signed.key.expect(asked.bucket, asked.method not in READS)
        if "origin" in asked.headers and asked.bucket:
            asked.cors = await self.cors.headers_for(asked)
        return await operation(asked)

    def signed_by(self, asked: Asked) -> signing.Signed:
        """Who asks. What his clock says of this one is noted; but the time of a signed URL may be days ago."""
        words = asked.method, asked.path, asked.raw_query, asked.all_headers(), self.gateway.keys
        try:
            signed = signing.check(*words)
        except S3Error as fault:
            if fault.code == "RequestTimeTooSkewed":
                with suppress(S3Error):
                    seconds = signing.seconds_of(asked.headers["x-amz-date"], fault.code)
                    signing.check(*words, now=seconds)
                    self.gateway.clock.note_disagreement()  # (a key signed it, at that time)
                    self.tell_clock(seconds)
            raise
        if not asked.by_anybody:
            self.gateway.clock.note_agreement()
        return signed

    def tell_clock(self, seconds: float) -> None:
        """A client that has a key was refused, since its clock is off from this one: told at most once in ten minutes."""
        ahead = seconds - time.time()
        metrics.skew.labels(self.gateway.tenant).set(ahead)
        if time.monotonic() >= self.clock_told + CLOCK_TOLD:
            self.clock_told = time.monotonic()
            tell(f"{self.gateway.tenant}: a client is refused (403 RequestTimeTooSkewed), whose clock is {abs(ahead):.0f} seconds {'ahead of' if ahead > 0 else 'behind'} this machine's: set the one that is wrong")

    def is_signed(self, asked: Asked) -> bool:
        return "authorization" in asked.headers or "X-Amz-Signature" in asked.query or "Signature" in asked.query

    def name_asker(self, asked: Asked) -> None:
        """Whoever asks by one access key has a share of the sessions, and of that who has one URL or form that it signed."""
        who_asks.set((asked.signed.key.access, asked.by_anybody))

    async def put_by_form(self, asked: Asked) -> web.StreamResponse:
        """Who sends a form signs no request: its policy is signed. 403 AccessDenied where that key may not put; the errors of Forms."""
        asked.operation = "PostObject"
        connection = asked.request.protocol
        with connection.unknown() if isinstance(connection, Connection) else nullcontext():
            form = await self.forms.read(asked)
        self.name_asker(asked)
        self.expect_known(asked)
        self.expect_headers(asked, {BY})
        asked.signed.key.expect(asked.bucket, True)
        if "origin" in asked.headers:
            asked.cors = await self.cors.headers_for(asked)
        return await self.forms.post_object(asked, form)

    async def read_by_anybody(self, asked: Asked) -> web.StreamResponse:
        """A get or head of an object, or a listing, by who signs nothing. 403 AccessDenied, also where there is no such key: whether there is he is not to learn; 400
        InvalidRequest."""
        await self.policies.let_in(asked)
        operation = self.read_of_object(asked) if asked.key else self.read_of_bucket(asked)
        asked.operation = "".join(word.capitalize() for word in getattr(operation, "__name__").split("_"))
        who_asks.set((asked.signed.key.access, ""))
        self.expect_known(asked)
        if "origin" in asked.headers:
            asked.cors = await self.cors.headers_for(asked)
        try:
            return await operation(asked)
        except (ConnectionError, RequestPayloadError):
            raise
        except Exception as fault:
            told = error_of(fault)
            if told.status >= 500:
                raise S3Error(told.code) from None  # (what is the matter with the grid is no stranger's business)
            raise S3Error("AccessDenied") if told.code == "NoSuchKey" else told from None

    def expect_known(self, asked: Asked) -> None:
        """501 NotImplemented, 400 InvalidArgument, 403 AccessDenied."""
        if not all(signing.is_utf8(word) for pair in asked.pairs for word in pair):
            raise S3Error("InvalidArgument", "A parameter is not UTF-8.")
        if asked.headers.get("x-amz-acl", "private") not in ("private", "bucket-owner-full-control"):
            raise S3Error("AccessControlListNotSupported")
        if asked.headers.get("x-amz-storage-class", "STANDARD") != "STANDARD":
            raise S3Error("InvalidStorageClass")
        in_query = {name.lower(): value for name, value in asked.query.items()}
        for name in ("x-amz-expected-bucket-owner", "x-amz-source-expected-bucket-owner"):
            if any(found.get(name, self.tenant) != self.tenant for found in (asked.headers, in_query)):
                raise S3Error("AccessDenied", "The bucket has another owner.")
        if asked.method in READS and (OF_A_KEY in asked.headers or OF_A_KEY in in_query):
            raise S3Error("InvalidRequest", "The object is not encrypted by a key of its own.")

    def operation_of(self, asked: Asked) -> Operation:
        if not asked.bucket:
            if asked.method != "GET":
                raise S3Error("MethodNotAllowed")
            return self.buckets.list_buckets
        if asked.method not in READS:
            return self.change_of(asked)
        return self.read_of_object(asked) if asked.key else self.read_of_bucket(asked)

    # Changes: what is not known is not done

    def changes(self, method: str, is_of_object: bool) -> list[Change]:
        """All that such a request can be."""
        upload, part, tagging, version = {"uploadId"}, {"partNumber"}, {"tagging"}, {"versionId"}
        if not is_of_object:
            of_buckets = {
                "PUT": [
                    Change(self.buckets.create_bucket, headers={"x-amz-object-ownership"}, elements=OF_BUCKETS),
                    Change(self.buckets.put_bucket_versioning, {"versioning"}, elements=versions.ELEMENTS),
                    Change(self.lifecycles.put_bucket_lifecycle_configuration, {"lifecycle"}, elements=lifecycle.ELEMENTS),
                    Change(self.cors.put_bucket_cors, {"cors"}, elements=cors.ELEMENTS),
                    Change(self.policies.put_bucket_policy, {"policy"}),
                ],
                "DELETE": [
                    Change(self.buckets.delete_bucket),
                    Change(self.lifecycles.delete_bucket_lifecycle, {"lifecycle"}),
                    Change(self.cors.delete_bucket_cors, {"cors"}),
                    Change(self.policies.delete_bucket_policy, {"policy"}),
                ],
                "POST": [Change(self.objects.delete_objects, {"delete"}, elements=OF_REMOVALS)],
            }
            return of_buckets.get(method, [])
        of_objects = {
            "PUT": [
                Change(self.objects.put_object, conditions=CONDITIONS, headers={DIRECTIVE, BY, tags.HEADER}),
                Change(self.copies.copy_object, conditions=CONDITIONS, headers={*OF_A_COPY, DIRECTIVE, BY, tags.HEADER, tags.DIRECTIVE}),
                Change(self.uploads.upload_part, upload, part, headers={BY}),
                Change(self.uploads.upload_part_copy, upload, part, headers={*OF_A_COPY, "x-amz-copy-source-range"}),
                Change(self.tagging.put_object_tagging, tagging, version, elements=tags.ELEMENTS),
            ],
            "POST": [
                Change(self.uploads.create_multipart_upload, {"uploads"}, headers={DIRECTIVE, BY, KIND, tags.HEADER}),
                Change(self.uploads.complete_multipart_upload, upload, conditions=CONDITIONS, headers={"x-amz-mp-object-size", KIND}, elements=OF_PARTS),
            ],
            "DELETE": [
                Change(self.objects.delete_object, besides=version, conditions=CONDITIONS),
                Change(self.uploads.abort_multipart_upload, upload),
                Change(self.tagging.delete_object_tagging, tagging, version),
            ],
        }
        return of_objects.get(method, [])

    def change_of(self, asked: Asked) -> Operation:
        """501 NotImplemented, 405 MethodNotAllowed."""
        words = {name for name in asked.query if name.lower() not in OF_ANY_URL}
        conditions = (CONDITIONS | NEVER_JUDGED) & asked.headers.keys()
        found = self.changes(asked.method, bool(asked.key))
        if not found:
            raise S3Error("MethodNotAllowed")
        for change in found:
            if change.words <= words <= change.words | change.besides and change.is_copy == ("x-amz-copy-source" in asked.headers):
                if conditions - change.conditions:
                    raise S3Error("NotImplemented", f"The header {min(conditions - change.conditions)} is not judged here.")
                self.expect_headers(asked, change.headers)
                asked.elements = change.elements
                return change.operation
        if words == {"acl"}:
            raise S3Error("AccessControlListNotSupported")
        raise S3Error("NotImplemented", f"There is no {asked.method} with {'?' + '&'.join(sorted(words)) if words else 'these words'} here.")

    def expect_headers(self, asked: Asked, known: Set[str]) -> None:
        """501 NotImplemented for a header of Amazon's that is neither among these, nor one that any change may have."""
        headers = {name for name in asked.headers if name.startswith("x-amz-") and not name.startswith("x-amz-meta-")}
        if unknown := headers - OF_ANY_CHANGE - known:
            name = min(unknown)
            code = next((code for begin, code in NEVER_HAD.items() if name.startswith(begin)), "NotImplemented")
            raise S3Error(code) if code != "NotImplemented" else S3Error(code, f"The header {name} is not taken here.")

    # Reads

    def read_of_bucket(self, asked: Asked) -> Operation:
        method, query = asked.method, asked.query
        by_word: dict[str, Operation] = {
            "location": self.buckets.get_bucket_location,
            "versioning": self.buckets.get_bucket_versioning,
            "acl": self.buckets.get_bucket_acl,
            "cors": self.cors.get_bucket_cors,
            "policy": self.policies.get_bucket_policy,
            "policyStatus": self.policies.get_bucket_policy_status,
            "lifecycle": self.lifecycles.get_bucket_lifecycle_configuration,
            "uploads": self.listings.list_multipart_uploads,
            "versions": self.listings.list_object_versions,
            **dict.fromkeys(NEVER_GIVEN, self.buckets.get_what_was_never_given),
        }
        for word, operation in by_word.items():
            if method == "GET" and word in query:
                return operation
        for word in (*by_word, *NOT_HERE, "delete"):
            if word in query:
                raise S3Error("NotImplemented", f"There is no ?{word} here.")
        if method == "HEAD":
            return self.buckets.head_bucket
        return self.listings.list_objects_v2 if query.get("list-type") == "2" else self.listings.list_objects

    def read_of_object(self, asked: Asked) -> Operation:
        method, query = asked.method, asked.query
        by_word: dict[str, Operation] = {
            "acl": self.objects.get_object_acl,
            "attributes": self.objects.get_object_attributes,
            "tagging": self.tagging.get_object_tagging,
            "uploadId": self.uploads.list_parts,
        }
        for word, operation in by_word.items():
            if method == "GET" and word in query:
                return operation
        for word in (*by_word, *NOT_HERE):
            if word in query:
                raise S3Error("MethodNotAllowed" if word == "uploadId" else "NotImplemented", f"There is no ?{word} here.")
        return self.objects.get_object if method == "GET" else self.objects.head_object
