"""Which pages of other hosts a browser lets read a bucket's answers: rules as
https://docs.aws.amazon.com/AmazonS3/latest/userguide/ManageCorsUsing.html has them, asked before a request and told with its answer."""

import asyncio
import re
import time
from collections.abc import Sequence
from dataclasses import dataclass

from aiohttp import web

from .errors import S3Error
from .gateway import Gateway, Operations
from .given import Given
from .markup import Element, document, element, many, parse
from .requests import Asked, answer

KIND = "cors"
MOST_RULES, LONGEST_ID, LONGEST_AGE = 100, 255, 2**31 - 1
LONGEST, MOST_ASKED = 64 << 10, 100  # bytes of the rules of a bucket; names of headers that a browser asks for
METHODS = {"GET", "PUT", "POST", "DELETE", "HEAD"}
ELEMENTS = {"CORSConfiguration": {"CORSRule"}, "CORSRule": {"ID", "AllowedOrigin", "AllowedMethod", "AllowedHeader", "ExposeHeader", "MaxAgeSeconds"}}
SURE_FOR = 2.0  # seconds for which rules that were seen are taken to be in force
MOST_KNOWN = 1_000  # buckets
VARY = "Origin, Access-Control-Request-Headers, Access-Control-Request-Method"
TOKEN = re.compile(r"[!#$%&'*+.^_`|~0-9A-Za-z-]{1,128}")


def is_like(text: str, pattern: str) -> bool:
    """Whether a text is as a pattern with one * at most, which stands for any letters."""
    begin, star, end = pattern.partition("*")
    return text == pattern if not star else len(text) >= len(begin) + len(end) and text.startswith(begin) and text.endswith(end)


@dataclass(frozen=True)
class Rule:
    """Which hosts may read the answers to which requests."""

    id: str
    origins: tuple[str, ...]
    methods: tuple[str, ...]
    headers: tuple[str, ...] = ()
    told: tuple[str, ...] = ()
    age: int | None = None

    def origin_of(self, origin: str) -> str | None:
        """The first of its origins that this one is like."""
        return next((each for each in self.origins if is_like(origin, each)), None)

    def lets(self, origin: str, method: str, headers: Sequence[str] = ()) -> bool:
        allowed = [each.lower() for each in self.headers]
        return self.origin_of(origin) is not None and method in self.methods and all(any(is_like(each, pattern) for pattern in allowed) for each in headers)

    def answer(self, origin: str) -> dict[str, str]:
        """The headers by which a browser learns of it."""
        is_any = self.origin_of(origin) == "*"
        return {
            "Access-Control-Allow-Origin": "*" if is_any else origin,
            "Access-Control-Allow-Methods": ", ".join(self.methods),
            **({} if is_any else {"Access-Control-Allow-Credentials": "true"}),
            **({"Access-Control-Expose-Headers": ", ".join(self.told)} if self.told else {}),
            **({"Access-Control-Max-Age": str(self.age)} if self.age is not None else {}),
            "Vary": VARY,
        }

    def text(self) -> str:
        """The rule as XML."""
        groups = (("AllowedOrigin", self.origins), ("AllowedMethod", self.methods), ("AllowedHeader", self.headers), ("ExposeHeader", self.told))
        inner = [element(name, each) for name, found in groups for each in found]
        return many("CORSRule", element("ID", self.id) if self.id else None, *inner, element("MaxAgeSeconds", self.age) if self.age is not None else None)


def document_of(rules: Sequence[Rule]) -> bytes:
    return document("CORSConfiguration", *(rule.text() for rule in rules))


def rules_of(root: Element) -> list[Rule]:
    """The rules of a request's XML. 400 InvalidRequest, MalformedXML."""
    rules = [rule_of(each) for each in root.all("CORSRule")]
    if not 1 <= len(rules) <= MOST_RULES:
        raise S3Error("MalformedXML", f"A CORS configuration has 1 to {MOST_RULES} rules.")
    return rules


def rule_of(found: Element) -> Rule:
    origins, methods, headers, told = (tuple(each.text.strip() for each in found.all(name)) for name in ("AllowedOrigin", "AllowedMethod", "AllowedHeader", "ExposeHeader"))
    name, age = found.told("ID") or "", found.told("MaxAgeSeconds")
    if not origins or not methods or len(name) > LONGEST_ID or (age is not None and not (re.fullmatch(r"[0-9]{1,10}", age, re.ASCII) and int(age) <= LONGEST_AGE)):
        raise S3Error("MalformedXML", "A rule has origins, methods, and a MaxAgeSeconds that is a number.")
    for method in methods:
        if method not in METHODS:
            raise S3Error("InvalidRequest", f"AllowedMethod is one of {', '.join(sorted(METHODS))}.")
    for text in (*origins, *headers):
        if text.count("*") > 1:
            raise S3Error("InvalidRequest", "An AllowedOrigin or AllowedHeader has one * at most.")
    if not all(re.fullmatch(r"[!-~]{1,256}", text, re.ASCII) for text in origins) or not all(TOKEN.fullmatch(text) for text in (*headers, *told)):
        raise S3Error("InvalidRequest", "A rule has origins without spaces, and names of headers.")
    return Rule(name, origins, methods, headers, told, int(age) if age is not None else None)


class Cors(Operations):
    def __init__(self, gateway: Gateway, given: Given):
        super().__init__(gateway)
        self.given, self.known = given, dict[str, tuple[float, list[Rule]]]()
        self.asking = asyncio.Lock()  # (who asks for leave has signed nothing: one bucket at a time is looked for)

    async def put_bucket_cors(self, asked: Asked) -> web.Response:
        """200: the bucket has these rules and no others. The errors of a body; 400 InvalidRequest, MalformedXML; 404 NoSuchBucket; 507 InsufficientStorage."""
        made, _ = await self.given.made(asked.bucket)
        rules = rules_of(await self.gateway.document(asked, "CORSConfiguration"))
        if len(text := document_of(rules)) > LONGEST:
            raise S3Error("MalformedXML", f"The CORS rules of a bucket have at most {LONGEST:,} bytes.")
        await self.given.give(asked.bucket, made, KIND, text)
        self.known.pop(asked.bucket, None)
        return answer()

    async def get_bucket_cors(self, asked: Asked) -> web.Response:
        """200. 404 NoSuchBucket, NoSuchCORSConfiguration."""
        await self.given.made(asked.bucket)
        if not (rules := await self.rules(asked.bucket)):
            raise S3Error("NoSuchCORSConfiguration", BucketName=asked.bucket)
        return answer(document_of(rules))

    async def delete_bucket_cors(self, asked: Asked) -> web.Response:
        """204, also where there are none. 404 NoSuchBucket."""
        await self.given.take_away(asked.bucket, KIND)
        self.known.pop(asked.bucket, None)
        return answer(status=204)

    async def rules(self, bucket: str) -> list[Rule]:
        """The rules of a bucket, as they were two seconds ago at the earliest; none where there is no such bucket."""
        until, rules = self.known.get(bucket, (0.0, []))
        if until > time.monotonic():
            return rules
        try:
            made, _ = await self.given.made(bucket)
            found = await self.given.find(bucket, made, KIND)
            rules = rules_of(parse(found[1], "CORSConfiguration", ELEMENTS)) if found else []
        except S3Error as fault:
            if fault.status >= 500:
                raise
            rules = []
        if len(self.known) > MOST_KNOWN:
            self.known.clear()
        self.known[bucket] = time.monotonic() + SURE_FOR, rules
        return rules

    async def ask_for_leave(self, asked: Asked) -> web.Response:
        """200 to a browser that asks before a request, unsigned, whether it may send it. 400 BadRequest; 403 AccessForbidden."""
        origin, method = asked.headers["origin"], asked.headers.get("access-control-request-method", "")
        if method not in METHODS:
            raise S3Error("BadRequest", "Access-Control-Request-Method is wanted, and is one of S3's methods.")
        wanted = [each.strip().lower() for each in asked.headers.get("access-control-request-headers", "").split(",") if each.strip()]
        if len(wanted) > MOST_ASKED:
            raise S3Error("BadRequest", f"At most {MOST_ASKED} headers are asked for.")
        async with self.asking:
            rules = await self.rules(asked.bucket)
        rule = next((each for each in rules if each.lets(origin, method, wanted)), None)
        if not rule:
            raise S3Error("AccessForbidden", "The bucket's CORS rules do not allow this request, or it has none.")
        allowed = {"Access-Control-Allow-Headers": ", ".join(wanted)} if wanted and all(TOKEN.fullmatch(each) for each in wanted) else {}
        return answer(headers={**rule.answer(origin), **allowed})

    async def headers_for(self, asked: Asked) -> dict[str, str]:
        """What is told with the answer to a request that a page of another host sent."""
        origin = asked.headers["origin"]
        rule = next((each for each in await self.rules(asked.bucket) if each.lets(origin, asked.method)), None)
        return rule.answer(origin) if rule and re.fullmatch(r"[!-~]{1,1000}", origin, re.ASCII) else {}
