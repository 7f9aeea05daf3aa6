"""Who a request is from: AWS Signature Version 4, as header or in the URL.

It is reckoned here, and not by botocore, whose signer makes a request anew for each, and the key of the day. In the tests botocore signs, so that
the two are compared.
"""

import hashlib
import hmac
import re
import time
from calendar import timegm
from collections.abc import Mapping, Sequence
from dataclasses import dataclass
from functools import lru_cache
from urllib.parse import quote, unquote

from .errors import S3Error
from .keys import Key

ALGORITHM = "AWS4-HMAC-SHA256"
SKEW, LONGEST_EXPIRY = 900, 604_800  # seconds
UNSIGNED = "UNSIGNED-PAYLOAD"
MOST_HEADERS, MOST_SIGNED = 512, 128  # of a request, and names of those that are signed
DIGEST = re.compile(r"[0-9a-f]{64}")
SCOPE = re.compile(r"([^/]+)/(\d{8})/([^/\s]{1,255})/s3/aws4_request")  # (some clients take the host for a region)
HEADER = re.compile(rf"{ALGORITHM}\s+Credential=([^,\s]+),\s*SignedHeaders=([^,\s]+),\s*Signature=([0-9a-f]{{64}})\s*")
IN_QUERY = "X-Amz-"


@dataclass(frozen=True)
class Signed:
    """A request whose signature was right: whose key it is, what is said of its body, and what signs the chunks of it."""

    key: Key
    payload: str
    signature: str
    signer: "Signer"
    stamp: str

    def chunk_signature(self, before: str, digest: str, kind: str = "PAYLOAD") -> str:
        """The signature of a chunk after one with the signature `before`; of trailers, where the kind says so."""
        scope = self.signer.scope(self.stamp)
        empty = [] if kind == "TRAILER" else ["e3b0c44298fc1c149afbf4c8996fb92427ae41e4649b934ca495991b7852b855"]
        text = "\n".join([f"{ALGORITHM}-{kind}", self.stamp, scope, before, *empty, digest])
        return self.signer.signature(text, self.stamp)


@lru_cache(256)
def key_of_day(secret: str, day: str, region: str) -> bytes:
    """What signs all requests of a day."""
    key = f"AWS4{secret}".encode()
    for word in (day, region, "s3", "aws4_request"):
        key = hmac.digest(key, word.encode(), "sha256")
    return key


@dataclass(frozen=True)
class Signer:
    """Whose secret signs, and for which region."""

    secret: str
    region: str

    def scope(self, stamp: str) -> str:
        return f"{stamp[:8]}/{self.region}/s3/aws4_request"

    def signature(self, text: str, stamp: str) -> str:
        """That of a text, at a time."""
        return hmac.digest(key_of_day(self.secret, stamp[:8], self.region), text.encode(), "sha256").hex()

    def of_request(self, request: str, stamp: str) -> str:
        """That of a request in its canonical form."""
        return self.signature("\n".join((ALGORITHM, stamp, self.scope(stamp), hashlib.sha256(request.encode()).hexdigest())), stamp)


def canonical_request(method: str, path: str, query: str, headers: Mapping[str, Sequence[str]], payload: str) -> str:
    """A request as it is signed: its headers by small names, those that it has of the ones that are signed."""
    names = sorted(headers)
    lines = [f"{name}:{','.join(' '.join(value.split()) for value in headers[name])}\n" for name in names]
    return "\n".join((method.upper(), path, query, "".join(lines), ";".join(names), payload))


@lru_cache(256)  # (many requests are of one second)
def moment_of(stamp: str) -> int:
    return timegm(time.strptime(stamp, "%Y%m%dT%H%M%SZ"))


def seconds_of(stamp: str, code: str) -> int:
    try:
        return moment_of(stamp)
    except (ValueError, OverflowError):
        raise S3Error(code, "The request has no time of the form 20260101T000000Z.") from None


def expiry_of(text: str, code: str) -> int:
    """For how many seconds a URL is good. What is wrong with it is told in the words of S3."""
    if not re.fullmatch(r"-?[0-9]{1,19}", text) or int(text) >= 1 << 63:
        raise S3Error(code, "X-Amz-Expires should be a number")
    if int(text) < 1:
        raise S3Error(code, "X-Amz-Expires must be non-negative, and is not 0")
    if int(text) > LONGEST_EXPIRY:
        raise S3Error(code, f"X-Amz-Expires must be less than a week (in seconds); that is, the given X-Amz-Expires must be less than {LONGEST_EXPIRY} seconds")
    return int(text)


ODD = re.compile("[\ud800-\udfff]")


def is_utf8(text: str) -> bool:
    """Whether it has no bytes that came and are none (which are letters of this kind)."""
    return not ODD.search(text)


def pairs_of(query: str) -> list[tuple[str, str]]:
    """Names and values of a query, as they are meant."""
    words = (word.partition("=") for word in query.split("&") if word)
    return [(quoted(name), quoted(value)) for name, _, value in words]


def quoted(text: str) -> str:
    """What a word of a query means. (What is no UTF-8 stays as it is for the signature, and is no text of any parameter.)"""
    return unquote(text.replace("+", " "), errors="surrogateescape")


def canonical(pairs: list[tuple[str, str]]) -> str:
    words = sorted([quote(each, safe="-_.~", errors="surrogateescape") for each in pair] for pair in pairs)
    return "&".join(f"{name}={value}" for name, value in words)


def check(method: str, path: str, query: str, headers: list[tuple[str, str]], keys: Mapping[str, Key], now: float | None = None) -> Signed:
    """Checks who a request is from, by its method, its path and query as they came, and its headers with small names.

    403 AccessDenied: nobody signed it, or not all of it, or the URL is no longer good. 403 InvalidAccessKeyId, SignatureDoesNotMatch,
    RequestTimeTooSkewed. 400 AuthorizationHeaderMalformed, AuthorizationQueryParametersError, InvalidRequest: it is signed in no form that is known here.
    """
    now = time.time() if now is None else now
    if len(headers) > MOST_HEADERS:
        raise S3Error("RequestHeaderSectionTooLarge")
    pairs, told = pairs_of(query), dict(headers)
    in_query = {name: value for name, value in pairs if name.startswith(IN_QUERY)}
    if "authorization" in told and IN_QUERY + "Signature" in in_query:
        raise S3Error("InvalidRequest", "A request is signed once.")
    if told.get("authorization", "").startswith("AWS "):
        raise S3Error("InvalidRequest", f"Signature version 2 is not taken here: sign by {ALGORITHM}.")
    if "authorization" in told:
        code, found = "AuthorizationHeaderMalformed", HEADER.fullmatch(told["authorization"])
        if not found:
            raise S3Error(code, f"The header Authorization has to be of {ALGORITHM}.")
        credential, names, signature = found.groups()
        stamp, payload = told.get("x-amz-date", ""), told.get("x-amz-content-sha256", "")
        if not payload:
            raise S3Error("InvalidRequest", "The header x-amz-content-sha256 is wanted.")
    elif IN_QUERY + "Signature" in in_query:
        code = "AuthorizationQueryParametersError"
        if in_query.get("X-Amz-Algorithm") != ALGORITHM:
            raise S3Error(code, f"X-Amz-Algorithm has to be {ALGORITHM}.")
        credential, names = in_query.get("X-Amz-Credential", ""), in_query.get("X-Amz-SignedHeaders", "")
        stamp, signature = in_query.get("X-Amz-Date", ""), in_query["X-Amz-Signature"]
        payload = told.get("x-amz-content-sha256", UNSIGNED) if "x-amz-content-sha256" in names.split(";") else UNSIGNED
        pairs = [(name, value) for name, value in pairs if name != "X-Amz-Signature"]
    elif "Signature" in dict(pairs):
        raise S3Error("InvalidRequest", f"Signature version 2 is not taken here: sign by {ALGORITHM}.")
    else:
        raise S3Error("AccessDenied", "The request is not signed.")
    scope = SCOPE.fullmatch(credential)
    if not scope:
        raise S3Error(code, "The credential has to be KEY/DAY/REGION/s3/aws4_request.")
    access, day, region = scope.groups()
    if "authorization" in told and not stamp:
        raise S3Error("AccessDenied", "AWS authentication requires a valid Date or x-amz-date header")
    if not stamp.startswith(day + "T"):
        raise S3Error(code, "The credential is of another day than the request.")
    seconds = seconds_of(stamp, code)
    if "authorization" in told:
        if abs(now - seconds) > SKEW:
            raise S3Error("RequestTimeTooSkewed")
    else:
        if now > seconds + expiry_of(in_query.get("X-Amz-Expires", ""), code) or now < seconds - SKEW:
            raise S3Error("AccessDenied", "Request has expired.")
    if access not in keys:
        raise S3Error("InvalidAccessKeyId")
    signed_names = names.split(";")
    if "host" not in signed_names:
        raise S3Error(code, "The header Host has to be signed.")
    if len(signed_names) > MOST_SIGNED or len(set(signed_names)) < len(signed_names):
        raise S3Error(code, f"At most {MOST_SIGNED} headers are signed, each once.")
    if not is_utf8("".join(text for header in headers for text in header)):
        raise S3Error("InvalidRequest", "A header is not UTF-8.")
    unsigned = [name for name in told if name.startswith("x-amz-") and name not in signed_names and name != "x-amz-content-sha256"]
    if unsigned:
        raise S3Error("AccessDenied", f"The header {unsigned[0]} is not signed.")
    signer, signed = Signer(keys[access].secret, region), dict[str, list[str]]()
    for name, value in headers:
        if name in signed_names and name != "x-amz-content-sha256":
            signed.setdefault(name, []).append(value)
    if "expect" in signed_names and "expect" not in told and "x-front-expect" in told:
        signed["expect"] = [told["x-front-expect"]]  # (nginx has answered it)
    if "x-amz-content-sha256" in signed_names:
        signed["x-amz-content-sha256"] = [payload]
    as_meant = quote(unquote(path, errors="surrogateescape"), safe="/-_.~", errors="surrogateescape")
    right = signer.of_request(canonical_request(method, as_meant, canonical(pairs), signed, payload), stamp)
    if not hmac.compare_digest(right.encode(), signature.encode(errors="surrogateescape")):
        raise S3Error("SignatureDoesNotMatch")
    return Signed(keys[access], payload, signature, signer, stamp)
