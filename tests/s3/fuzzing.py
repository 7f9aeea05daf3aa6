#!/usr/bin/python3
"""Random requests, signed and not: whatever comes, a gateway gives an answer of HTTP, none is 500, it tells of no fault of its own, and it stays small.

    fuzzing.py SEED SECONDS         from a seed on, for so long; the status is 1 where something is wrong
    fuzzing.py SEED SECONDS NUMBER  only the request of this number

Most requests are made of words that the gateway knows, and signed then. Of others some bytes are changed afterwards. The access key that may change something
has one bucket, and what another bucket holds has to stay as it is.
"""

import base64
import contextlib
import http.client
import os
import random
import re
import socket
import sys
import time
import xml.etree.ElementTree as ElementTree
from collections import Counter
from urllib.parse import quote

sys.path.insert(0, os.path.dirname(os.path.abspath(__file__)))
import endpoint

from botocore.auth import S3SigV4Auth
from botocore.awsrequest import AWSRequest
from botocore.credentials import Credentials

KEYS = f"carol {endpoint.SECRET}\ncarol.reader {endpoint.SECRET} read\ncarol.one {endpoint.SECRET} bucket=one\n"
LATE, SOON = 30, 0.2  # seconds for an answer; and to a request whose bytes were changed, which may want more of them
MOST_GROWN = 150  # MiB
KEPT = b"kept" * 5_000
METHODS = ["GET"] * 12 + ["PUT"] * 12 + ["POST"] * 6 + ["DELETE"] * 5 + ["HEAD"] * 3 + ["PATCH", "OPTIONS", "TRACE", "get"]
PATHS = ["/one/k"] * 40 + ["/one"] * 20 + [
    "/", "/one/", "/one/a%20b", "/one/%00", "/one/%2e%2e/%2e%2e/x", "/one/../two/kept", "/one//x", "/one/x/", "/one/%FF", "/one/%C3%A9", "/two/kept", "/two", "/.s3/bucket/one", "/.fleet", "/-/", "/-/one/", "/-/two/?prefix=k",
    "/metrics", "//", "/%6fne/k", "/one/" + "x" * 1_024, "/one/" + "x" * 1_025, "/one/" + "%F0%9F%98%80" * 60, "/UPPER/k", "/a", "/one/k%0d%0aX:y", "/one/1/=AAAAAAAAAAAAAAAAAAAAAAAAAAAAAAAAAAAAAAAAAAA",
]  # fmt: skip
ODD = ["", "0", "1", "2", "-1", "+1", "1e3", "10001", "99999999999999999999", "null", "true", "x", "k", "/", "%", "%FF", "%00", "%ED%A0%80", "%D9%A3", "%C3%A9", "a" * 3_000, "%2F", "1.000000000000000000000000", "99.x", "..", "*", "\"x\"", "url", "%0D%0A"]  # fmt: skip
WORDS = [
    "list-type", "lifecycle", "prefix", "delimiter", "max-keys", "marker", "start-after", "continuation-token", "encoding-type", "fetch-owner", "uploads", "uploadId", "partNumber", "delete", "location", "acl", "versioning", "versions",
    "tagging", "versionId", "key-marker", "upload-id-marker", "version-id-marker", "max-uploads", "max-parts", "part-number-marker", "response-content-type", "response-expires", "x-id", "torrent", "policy", "cors", "after",
    "X-Amz-Signature", "X-Amz-Credential", "X-Amz-Expires", "Signature", "attributes",
]  # fmt: skip
HEADERS = {
    "Range": ["bytes=0-0", "bytes=-1", "bytes=-0", "bytes=5-2", "bytes=0-1,3-4", "bytes=99999999999999999999-", "bytes=" + "1" * 4_000, "lines=1-2", "bytes=-99999999999999999999"],
    "If-Match": ["*", '"x"', "W/\"x\"", ",,,", ""], "If-None-Match": ["*", '"x"', ""], "If-Modified-Since": ["Mon, 01 Jan 2001 00:00:00 GMT", "x", "Mon, 99 Jan 99999 99:99:99 GMT"], "If-Range": ['"x"', "Mon, 01 Jan 2001 00:00:00 GMT", "x"],
    "If-Unmodified-Since": ["Mon, 01 Jan 2001 00:00:00 GMT", "x", "0"], "x-amz-copy-source": ["/one/k", "one/k", "/two/kept", "one/%FF", "", "/", "one", "one/k?versionId=null", "one/k?versionId=7", "/one/" + "x" * 1_100, "arn:aws:s3:::x"],
    "x-amz-copy-source-range": ["bytes=0-0", "bytes=0-99999999999999999999", "x", "bytes=5-2"], "x-amz-metadata-directive": ["COPY", "REPLACE", "x"], "x-amz-copy-source-if-match": ["*", "x"], "x-amz-copy-source-if-modified-since": ["x"],
    "x-amz-meta-a": ["x", "", "a  b", "=?UTF-8?B?w6k=?=", "=?x?q?y?=", "x" * 2_048, "x" * 2_049], "x-amz-meta-": ["x"], "Content-MD5": ["x", "", "AAAAAAAAAAAAAAAAAAAAAA=="], "Content-Type": ["text/plain", "x" * 3_000, "", "a;b=\"c"],
    "Cache-Control": ["no-store"], "Expires": ["0", "x"], "Content-Encoding": ["gzip", "aws-chunked", "aws-chunked,gzip", "br"], "Content-Disposition": ["attachment; filename=\"x\""], "Content-Language": ["x"],
    "x-amz-checksum-crc32": ["AAAAAA==", "x", ""], "x-amz-checksum-crc64nvme": ["AAAAAAAAAAA="], "x-amz-checksum-sha1": ["x"], "x-amz-checksum-sha256": ["x"], "x-amz-checksum-algorithm": ["CRC32", "x"], "x-amz-sdk-checksum-algorithm": ["CRC32", "x"],
    "x-amz-decoded-content-length": ["0", "5", "x", "-1", "99999999999999999999"], "x-amz-trailer": ["x-amz-checksum-crc32", "x", ",,"], "x-amz-acl": ["private", "public-read"], "x-amz-storage-class": ["STANDARD", "GLACIER"],
    "x-amz-expected-bucket-owner": ["carol", "dave"], "x-amz-mp-object-size": ["0", "5", "x"], "x-amz-tagging": ["a=b"], "Expect": ["100-continue", "x"], "Accept-Encoding": ["gzip"], "Connection": ["close", "keep-alive", "Upgrade"], "Upgrade": ["websocket"],
    "Access-Control-Request-Method": ["PUT", "x"], "Access-Control-Request-Headers": [",".join(f"x-{number}" for number in range(count)) for count in (1, 100, 101, 2_000)],
    "Cookie": ["a=b"], "Origin": ["http://a"], "X-Forwarded-For": ["1.2.3.4"], "X-Front-Expect": ["100-continue"], "x-amz-server-side-encryption": ["AES256"],
}  # fmt: skip
PAYLOADS = ["UNSIGNED-PAYLOAD"] * 12 + ["STREAMING-UNSIGNED-PAYLOAD-TRAILER"] * 4 + ["STREAMING-AWS4-HMAC-SHA256-PAYLOAD", "STREAMING-AWS4-HMAC-SHA256-PAYLOAD-TRAILER", "0" * 64, "x", ""]
TREES = [
    "<Delete><Quiet>true</Quiet><Object><Key>k</Key></Object><Object><Key>l</Key><VersionId>null</VersionId></Object></Delete>", "<CreateBucketConfiguration><LocationConstraint>us-east-1</LocationConstraint></CreateBucketConfiguration>",
    "<CompleteMultipartUpload><Part><PartNumber>1</PartNumber><ETag>\"x\"</ETag></Part><Part><PartNumber>2</PartNumber><ETag>x</ETag></Part></CompleteMultipartUpload>",
    "<Tagging><TagSet><Tag><Key>a</Key><Value>b</Value></Tag></TagSet></Tagging>", "<VersioningConfiguration><Status>Enabled</Status></VersioningConfiguration>",
    "<LifecycleConfiguration><Rule><Status>Enabled</Status><Prefix/><Expiration><Days>1</Days></Expiration></Rule></LifecycleConfiguration>", '<?xml version="1.0" encoding="UTF-8"?><Delete xmlns="http://s3.amazonaws.com/doc/2006-03-01/"><Object><Key>&#233;&lt;</Key></Object></Delete>',
]  # fmt: skip
CORS = "<CORSConfiguration><CORSRule><AllowedOrigin>*</AllowedOrigin><AllowedMethod>GET</AllowedMethod>{}</CORSRule></CORSConfiguration>"
TREES += [CORS.format("<AllowedHeader>a</AllowedHeader>" * count) for count in (1, 100, 5_000)]
TREES += [f"<Delete>{'<Quiet/>' * count}</Delete>" for count in (4_000, 50_000)]
TREES += ["".join(["<CompleteMultipartUpload>", *(f"<Part><PartNumber>{number}</PartNumber><ETag>x</ETag></Part>" for number in range(1, 10_002)), "</CompleteMultipartUpload>"])]
PIECES = ["<a>", "</a>", "<", ">", "&", "&amp;", "&x;", "&#0;", "<!--", "-->", "<![CDATA[x]]>", "<!DOCTYPE a>", "<?x?>", "\x00", "é", "k" * 1_100, "<Object><Key>k</Key></Object>" * 30, "-1", "10001", "9" * 5_000, "٣"]


class Draw(random.Random):
    def changed(self, data, pieces):
        """Some places of bytes, or letters, are changed, doubled, or left out."""
        for _ in range(self.choice((1, 1, 2, 5))):
            at, kind = self.randrange(len(data) + 1), self.randrange(4)
            end = min(len(data), at + self.choice((1, 1, 4, 40)))
            data = data[:at] + ("" if isinstance(data, str) else b"").join((self.choice(pieces), data[at:end] * 2, data[end : end + 3], data[:0])[kind] for _ in "x") + data[end if kind != 1 else end :]
        return data

    def some(self, found, most):
        return [self.choice(found) for _ in range(min(most, self.choice((0, 1, 1, 2, most))))]


def target(draw, upload):
    words = [(word, draw.choice([*ODD, upload, upload])) for word in draw.some(WORDS, 4 * (draw.random() < 0.5))]
    if draw.random() < 0.15:
        words += [("uploadId", upload), *([("partNumber", draw.choice(["1", "2", "1", *ODD]))] if draw.random() < 0.7 else [])]
    path = draw.choice(PATHS)
    if draw.random() < 0.03:
        path = "/one/" + quote(bytes(draw.randrange(256) for _ in range(draw.randrange(40))))
    if draw.random() < 0.02:
        words += [(f"a{number}", "1") for number in range(draw.choice((150, 300, 3_000)))]
    text = "&".join(f"{word}={value}" if draw.random() < 0.9 else word for word, value in words)
    return path + (("&" if "?" in path else "?") + text if text else "")


def body(draw, payload):
    kind = draw.random()
    if payload.startswith("STREAMING"):
        content = draw.choice((b"", b"hello", b"x" * 70_000))
        sign = b";chunk-signature=" + b"0" * 64 if "AWS4" in payload else b""
        size, end = draw.choice((1, 100, 8_192, 65_536, 70_000)), draw.choice((b"\r\n", b"\n", b"\r\n" * 20))
        chunks = [content[at : at + size] for at in range(0, len(content), size)]
        data = b"".join(b"%x%s\r\n%s\r\n" % (len(each), sign, each) for each in chunks) + b"0" + sign + b"\r\n"
        data += (b"x-amz-checksum-crc32:AAAAAA==" + end if "TRAILER" in payload else b"") + b"\r\n"
        return draw.changed(data, [b"\r\n", b"0", b"ffffffff", b":", b";", b"\xff", b"x" * 5_000]) if kind < 0.5 else data
    if kind < 0.4:
        return b""
    if kind < 0.6:
        return draw.randbytes(draw.choice((1, 5, 2_049, 70_000, 300_000)))
    tree = draw.choice(TREES)
    return (draw.changed(tree, PIECES) if draw.random() < 0.7 else tree).encode("utf-8")


FIELDS = {
    "key": ["k", "a/${filename}", "", "x" * 1_100], "policy": ["", "x", base64.b64encode(b"{}").decode(), "A" * 40_000], "x-amz-signature": ["0" * 64, "x"], "x-amz-algorithm": ["AWS4-HMAC-SHA256"],
    "x-amz-credential": ["carol.one/20260101/us-east-1/s3/aws4_request", "x"], "x-amz-date": ["20260101T000000Z", "x"], "success_action_status": ["201", "x"], "acl": ["private"], "x-ignore-a": ["x" * 9_000],
}  # fmt: skip


def form(draw):
    """A form that nobody signed rightly, whole or changed, with its length or in chunks of HTTP."""
    parts = [f'--XX\r\nContent-Disposition: form-data; name="{name}"\r\n\r\n{draw.choice(FIELDS[name])}\r\n' for name in draw.some(list(FIELDS), 9)]
    text = "".join(parts) + '--XX\r\nContent-Disposition: form-data; name="file"; filename="f"\r\n\r\n' + "x" * draw.choice((0, 5, 70_000)) + "\r\n--XX--\r\n"
    content = (draw.changed(text, ["--XX", "\r\n", '"', ";", "\x00", "é", "--XX--"]) if draw.random() < 0.5 else text).encode()
    head = b"POST /one?X-Amz-Credential=carol/ HTTP/1.1\r\nHost: a\r\nContent-Type: multipart/form-data; boundary=XX\r\n"
    if draw.random() < 0.5:
        return head + b"Content-Length: %d\r\n\r\n" % len(content) + content, True
    size = draw.choice((1, 100, 8_192))
    chunks = [content[at : at + size] for at in range(0, min(len(content), 20_000), size)]
    return head + b"Transfer-Encoding: chunked\r\n\r\n" + b"".join(b"%x\r\n%b\r\n" % (len(each), each) for each in chunks) + b"0\r\n\r\n", True


def request(draw, gateway, upload):
    """A request as bytes, and whether it is one of HTTP for sure, and whole."""
    if draw.random() < 0.05:
        return form(draw)
    method, payload = draw.choice(METHODS), draw.choice(PAYLOADS)
    where, content = target(draw, upload), body(draw, payload)
    headers = {name: draw.choice(HEADERS[name]) for name in draw.some(list(HEADERS), 4 * (draw.random() < 0.5))}
    if payload.startswith("STREAMING") and draw.random() < 0.8:
        headers["x-amz-decoded-content-length"] = draw.choice(("0", "5", "70000"))
    access = draw.choice(["carol.one"] * 18 + ["carol.reader"] * 3 + ["carol" if method in ("GET", "HEAD") else "carol.one", "nobody", ""])
    asked = AWSRequest(method, gateway.url + where, headers)
    asked.headers["X-Amz-Content-SHA256"] = payload
    if access:
        signer = S3SigV4Auth(Credentials(access, endpoint.SECRET if draw.random() < 0.97 else "wrong"), "s3", "us-east-1")
        signer.payload = lambda _: payload
        try:
            signer.add_auth(asked)
        except (ValueError, UnicodeError):
            pass
    elif draw.random() < 0.5:
        asked.headers["Authorization"] = draw.choice(("Basic " + base64.b64encode(f"carol:{endpoint.SECRET}".encode()).decode(), "Basic x", "AWS4-HMAC-SHA256 Credential=x", "AWS carol:x"))
    lines = [f"{method} {where} HTTP/1.1", f"Host: 127.0.0.1:{gateway.port}", *(f"{name}: {value}" for name, value in asked.headers.items()), f"Content-Length: {len(content)}"]
    head = "\r\n".join(lines).encode() + b"\r\n\r\n"
    if draw.random() < 0.2:
        pieces = [b"\r\n", b"\n", b"\x00", b"\xff", b":", b" ", b"%", b"/", b"?", b"&", b"Transfer-Encoding: chunked\r\n", b"Content-Length: 5\r\n", b"Host: x\r\n", b"x" * 20_000, b"a: b\r\n" * 600, b"\xc3\xa9", b"HTTP/1.0", b"http://[/"]
        return draw.changed(head, pieces) + content, False
    return head + content, True


def is_whole(found, method, text):
    """What is wrong with an answer that was read."""
    if found.status == 500:
        return "500"
    if found.status >= 400 and method != "HEAD" and found.headers.get("Content-Type", "").startswith("application/xml"):
        try:
            if ElementTree.fromstring(text).find("Code") is None:
                return "an error without a code"
        except ElementTree.ParseError as fault:
            return f"no XML: {fault}: {text[:200]!r}"
    return None


def told(gateway, data, is_sure):
    """The status that is told to these bytes, None for none; and what is wrong with that."""
    method = data.lstrip(b"\r\n").split(b" ")[0].decode("latin1")
    with socket.create_connection(("127.0.0.1", gateway.port), timeout=LATE) as connection:
        try:
            connection.sendall(data)
        except OSError:
            pass  # (it may have refused it already)
        connection.settimeout(LATE if is_sure else SOON)
        found = http.client.HTTPResponse(connection, method=method)
        try:
            found.begin()
            connection.settimeout(LATE)
            text = found.read()
        except (TimeoutError, ConnectionError, http.client.RemoteDisconnected) as fault:
            return None, f"no answer: {fault!r}" if is_sure and len(data) < 60_000 else None
        except http.client.HTTPException as fault:
            return None, f"no HTTP: {fault!r}"
        return found.status, is_whole(found, method, text)


def grown(gateway):
    with open(f"/proc/{gateway.process.pid}/status") as file:
        return next(int(line.split()[1]) for line in file if line.startswith("VmHWM")) / 1024


@contextlib.contextmanager
def gateway_of(settings, room):
    """A gateway of carol before what these settings name, or a stand-in for a grid."""
    with contextlib.nullcontext(room) if settings else endpoint.stand_in() as folder:
        gateway = endpoint.Gateway(settings or os.path.join(folder, "carol.ini"), folder, keys=KEYS)
        try:
            yield gateway
        finally:
            gateway.kill()


def run(seed, seconds, only=None, settings=None, room=None):
    """What was wrong, and how many requests were told which status; by a gateway with these settings in a folder, else before a stand-in."""
    wrong, counts = [], Counter()
    with gateway_of(settings, room) as gateway:
        s3 = gateway.client()
        s3.create_bucket(Bucket="two")
        s3.put_object(Bucket="two", Key="kept", Body=KEPT)
        before, until, number = grown(gateway), time.monotonic() + seconds, only or 0
        upload = "1." + "0" * 24
        while time.monotonic() < until and not wrong:
            draw, begun, length = Draw(f"{seed} {number}"), time.monotonic(), len(gateway.told())
            if number % 50 == 0 or not counts:
                with contextlib.suppress(s3.exceptions.BucketAlreadyOwnedByYou):
                    s3.create_bucket(Bucket="one")
                for each in s3.list_multipart_uploads(Bucket="one").get("Uploads", []):
                    s3.abort_multipart_upload(Bucket="one", Key=each["Key"], UploadId=each["UploadId"])
                for each in s3.list_objects_v2(Bucket="one").get("Contents", []):
                    s3.delete_object(Bucket="one", Key=each["Key"])
                s3.put_object(Bucket="one", Key="k", Body=b"content" * 20)
                upload = s3.create_multipart_upload(Bucket="one", Key="k")["UploadId"]
                s3.upload_part(Bucket="one", Key="k", UploadId=upload, PartNumber=1, Body=b"part")
            data, is_sure = request(draw, gateway, upload)
            status, fault = told(gateway, data, is_sure)
            counts[status] += 1
            log, took = gateway.told(length), time.monotonic() - begun
            if re.search("Traceback|Error handling|InternalError|Unclosed", log):
                fault = f"{fault or ''} it tells {log[-1_500:]}"
            if took > LATE or gateway.process.poll() is not None:
                fault = f"{fault or ''} after {took:.1f} s, status of the gateway {gateway.process.poll()}"
            if fault:
                wrong.append(f"seed {seed}, number {number}: {fault}, to {data[:1_500]!r}")
            if only is not None:
                break
            number += 1
        if not wrong and (s3.get_object(Bucket="two", Key="kept")["Body"].read() != KEPT or s3.list_objects_v2(Bucket="two")["KeyCount"] != 1):
            wrong.append(f"seed {seed}: another bucket has changed")
        if grown(gateway) > before + MOST_GROWN:
            wrong.append(f"seed {seed}: it took {grown(gateway) - before:.0f} MiB more")
    return wrong, counts


def main(seed, seconds, number=None):
    wrong, counts = run(seed, float(seconds), None if number is None else int(number))
    print("".join(f"{line}\n" for line in wrong) + f"{sum(counts.values())} requests: " + ", ".join(f"{status} {count}" for status, count in counts.most_common()))
    return bool(wrong)


if __name__ == "__main__":
    sys.exit(main(*sys.argv[1:]))
