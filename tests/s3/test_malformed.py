"""Requests that are malformed: each is told the right error of S3, nothing is stored by it, the gateway goes on, and tells of no fault of its own."""

import base64
import contextlib
import hashlib
import hmac
import html
import os
import re
import signal
import socket
import sys
import time
import unittest
import xml.etree.ElementTree as ElementTree
from urllib.parse import quote

sys.path.insert(0, os.path.dirname(os.path.abspath(__file__)))
from busy import longer
import endpoint

from botocore.auth import S3SigV4Auth
from botocore.awsrequest import AWSRequest
from botocore.credentials import Credentials

OF_ENCRYPTION = "server-side-encryption"
EMPTY = "e3b0c44298fc1c149afbf4c8996fb92427ae41e4649b934ca495991b7852b855"
KEYS = f"carol {endpoint.SECRET}\ncarol.reader {endpoint.SECRET} read\ncarol.one {endpoint.SECRET} bucket=one\n"


def setUpModule():
    global GATEWAY, S3
    room = unittest.enterModuleContext(endpoint.stand_in())
    (GATEWAY,) = unittest.enterModuleContext(endpoint.gateways(room, keys=KEYS))
    S3 = GATEWAY.client()
    for name in ("one", "two"):
        S3.create_bucket(Bucket=name)


def exchange(data, more=()):
    """What is told to these bytes, and to more of them a moment later, until the connection ends or an answer is whole."""
    with socket.create_connection(("127.0.0.1", GATEWAY.port), timeout=longer(60)) as connection:
        told = b""
        try:
            connection.sendall(data)
            for part in more:
                connection.sendall(part)
        except OSError:
            pass
        try:
            while part := connection.recv(65_536):
                told += part
                head, _, body = told.partition(b"\r\n\r\n")
                length = re.search(rb"content-length: (\d+)", head.lower())
                if length and len(body) >= int(length[1]):
                    break
        except OSError:
            pass
        return told


def code_of(told):
    """Status and code of an answer."""
    status = re.match(rb"HTTP/\d\.\d (\d+)", told)
    code = re.search(rb"<Code>(\w+)</Code>", told)
    return int(status[1]) if status else None, code[1].decode() if code else ""


def signed(method, path, headers=(), payload="UNSIGNED-PAYLOAD", access="carol", secret=endpoint.SECRET):
    """The head of a signed request, with these headers."""
    request = AWSRequest(method, GATEWAY.url + path, dict(headers))
    request.headers["X-Amz-Content-SHA256"] = payload
    signer = S3SigV4Auth(Credentials(access, secret), "s3", "us-east-1")
    signer.payload = lambda _: payload
    signer.add_auth(request)
    lines = [f"{method} {path} HTTP/1.1", f"Host: 127.0.0.1:{GATEWAY.port}", *(f"{name}: {value}" for name, value in request.headers.items())]
    return "\r\n".join(lines).encode() + b"\r\n"


class Malformed(unittest.TestCase):
    def tells(self, status, code, data, more=()):
        self.assertEqual(code_of(exchange(data, more)), (status, code), data[:120])

    def tearDown(self):
        """Nothing was stored, nothing fell, and the next request is served."""
        self.assertEqual(S3.list_objects_v2(Bucket="one").get("KeyCount"), 0)
        fallen = re.search("(?s)(Traceback|Error handling).*", GATEWAY.told())
        self.assertIsNone(fallen and fallen[0][-1_500:])

    def test_no_http(self):
        for data in (b"\x16\x03\x01\x02\x00\x01\x00\x01\xfc\x03\x03" + b"\x00" * 600, b"GET\r\n\r\n", b"GET / HTTP/9.9\r\n\r\n", b"\x00" * 100 + b"\r\n\r\n",
                     b"CONNECT \xff\xfe:1 HTTP/1.1\r\nHost: a\r\n\r\n", b"CONNECT \xc3\xa9 HTTP/1.1\r\nHost: a\r\n\r\n", b"GET / HTTP/1.1\r\nno colon\r\n\r\n", b"GET / HTTP/1.1\r\nContent-Length: x\r\n\r\n", b"GET / HTTP/1.1\r\nContent-Length: -1\r\n\r\n"):  # fmt: skip
            status, code = code_of(exchange(data))
            self.assertIn((status, code), ((400, "BadRequest"), (403, "AccessDenied")), data[:60])

    def test_headers_of_a_megabyte(self):
        for head in (b"GET / HTTP/1.1\r\nHost: a\r\nX-Long: " + b"x" * 1_000_000, b"GET /" + b"x" * 1_000_000, b"GET / HTTP/1.1\r\n" + b"x" * 1_000_000 + b": y"):
            status, code = code_of(exchange(head + b" HTTP/1.1\r\n\r\n"))
            self.assertEqual(status, 400, head[:40])
            self.assertIn(code, ("RequestHeaderSectionTooLarge", "BadRequest"), head[:40])

    def spent(self):
        """The seconds of processors that the gateway took until now."""
        with open(f"/proc/{GATEWAY.process.pid}/stat") as file:
            words = file.read().rpartition(")")[2].split()
        return (int(words[11]) + int(words[12])) / os.sysconf("SC_CLK_TCK")

    def grown(self):
        """The MiB of memory that the gateway took at most until now."""
        with open(f"/proc/{GATEWAY.process.pid}/status") as file:
            return next(int(line.split()[1]) for line in file if line.startswith("VmHWM")) / 1024

    def test_heads_that_cost(self):
        """Of strangers: in a second each, and in little memory."""
        stamp, before = time.strftime("%Y%m%dT%H%M%SZ", time.gmtime()), self.grown()

        def unsigned(names, more):
            scope = f"carol/{stamp[:8]}/us-east-1/s3/aws4_request"
            head = f"GET / HTTP/1.1\r\nHost: a\r\nx-amz-date: {stamp}\r\nx-amz-content-sha256: {EMPTY}\r\nAuthorization: AWS4-HMAC-SHA256 Credential={scope}, "
            return f"{head}SignedHeaders=host;x-amz-date{names}, Signature={'0' * 64}\r\n".encode() + more + b"\r\n"

        for data in (
            unsigned(";a" * 7_000, (b"a: " + b"x" * 16_000 + b"\r\n") * 6), unsigned("".join(f";a{number}" for number in range(200)), b""),
            unsigned("".join(f";a{number}" for number in range(100)), b"b: x\r\n" * 16_000), b"GET / HTTP/1.1\r\n" + b"b: x\r\n" * 1_000_000,
        ):  # fmt: skip
            begun = self.spent()
            self.assertEqual(code_of(exchange(data))[0], 400, data[:60])
            self.assertLess(self.spent() - begun, 4)
        self.assertLess(self.grown(), before + 40)

    def test_connections_that_cost(self):
        """Many requests at once on one of them; another protocol, and what comes then; first heads that never end."""
        before = self.grown()
        for data in (b"GET / HTTP/1.1\r\nHost: a\r\n\r\n" * 100_000, b"GET / HTTP/1.1\r\nHost: a\r\nConnection: Upgrade\r\nUpgrade: websocket\r\n\r\n" + b"x" * 60_000_000):
            with socket.create_connection(("127.0.0.1", GATEWAY.port), timeout=longer(60)) as connection:
                connection.settimeout(3)
                with contextlib.suppress(OSError):
                    connection.sendall(data)
                self.tells(403, "AccessDenied", b"GET / HTTP/1.1\r\nHost: a\r\n\r\n")
                self.assertLess(self.grown(), before + 40)
        data = b"GET / HTTP/1.1\r\nHost: a\r\n\r\n" * 50
        with socket.create_connection(("127.0.0.1", GATEWAY.port), timeout=longer(60)) as connection:
            connection.sendall(data)
            told = b""
            while told.count(b"AccessDenied") < 50:
                part = connection.recv(65_536)
                self.assertTrue(part, "not all requests of a connection are answered")
                told += part

    def test_odd_bytes(self):
        """Where letters are wanted, of strangers and of others."""
        stamp = time.strftime("%Y%m%dT%H%M%SZ", time.gmtime()).encode()
        scope = b"carol/" + stamp[:8] + b"/us-east-1/s3/aws4_request"
        base = b"Host: a\r\nx-amz-date: " + stamp + b"\r\nx-amz-content-sha256: " + EMPTY.encode() + b"\r\n"
        authorization = b"Authorization: AWS4-HMAC-SHA256 Credential=" + scope + b", SignedHeaders=host;x-amz-date;x-amz-meta-a, Signature=" + b"0" * 64 + b"\r\n"
        in_url = b"X-Amz-Algorithm=AWS4-HMAC-SHA256&X-Amz-Credential=" + scope.replace(b"/", b"%2F") + b"&X-Amz-Date=" + stamp + b"&X-Amz-Expires=60&X-Amz-SignedHeaders=host"
        basic = b"Authorization: Basic " + base64.b64encode(f"carol:{endpoint.SECRET}".encode()) + b"\r\n"
        for data in (
            b"GET /one/k?" + in_url + b"&X-Amz-Signature=%C3%A9 HTTP/1.1\r\nHost: a\r\n\r\n", b"GET /one/k?" + in_url + b"&X-Amz-Signature=%FF HTTP/1.1\r\nHost: a\r\n\r\n",
            b"GET /one/k?" + in_url + b"%FF;x&X-Amz-Signature= HTTP/1.1\r\nHost: \xff\r\n\r\n",
            b"GET / HTTP/1.1\r\n" + base + b"x-amz-meta-a: \xff\r\n" + authorization + b"\r\n", b"GET / HTTP/1.1\r\n" + base + "x-amz-meta-a: é\r\n".encode() + authorization + b"\r\n",
            b"GET /one/\xff HTTP/1.1\r\n" + base + authorization + b"\r\n", b"GET /one?prefix=\xff HTTP/1.1\r\n" + base + authorization + b"\r\n",
            b"GET /one HTTP/1.1\r\n" + base.replace(b"Host: a", b"Host: \xff") + authorization + b"\r\n", b"GET /one/%ED%A0%80 HTTP/1.1\r\n" + base + authorization + b"\r\n",
            b"GET http://[/one/k HTTP/1.1\r\n" + base + authorization + b"\r\n", b"GET //[x/one HTTP/1.1\r\n" + base + authorization + b"\r\n", b"OPTIONS * HTTP/1.1\r\n" + base + b"\r\n",
            b"GET / HTTP/1.1\r\n" + base.replace(EMPTY.encode(), b"\xff") + authorization + b"\r\n", b"GET / HTTP/1.1\r\n" + base.replace(stamp, stamp[:9] + b"\xff") + authorization + b"\r\n",
            b"GET /-/ HTTP/1.0\r\n\r\n", b"GET /-/ HTTP/1.1\r\nHost: a\r\nAuthorization: Basic \xff\r\n\r\n", b"GET /-/\xff HTTP/1.1\r\nHost: a\r\n\r\n",
            b"GET /-/one/ HTTP/1.0\r\n" + basic + b"\r\n", b"GET /-/one/?after=%FF HTTP/1.1\r\nHost: a\r\n" + basic + b"\r\n", b"GET /-/%FF/ HTTP/1.1\r\nHost: a\r\n" + basic + b"\r\n",
            signed("PUT", "/one/a") + b"Content-MD5: \xff\r\nContent-Length: 1\r\n\r\nx", signed("PUT", "/one/a") + b"Content-Type: \xff\r\nContent-Length: 1\r\n\r\nx",
            signed("PUT", "/one/a?%FF=x") + b"Content-Length: 1\r\n\r\nx", signed("PUT", "/one/a") + b"x-amz-checksum-sha256: \xff\r\nContent-Length: 1\r\n\r\nx",
        ):  # fmt: skip
            status, _ = code_of(exchange(data))
            self.assertIn(status, range(400, 500), data[:200])
        # (a trailer's signature, after a chunk whose own is right)
        head = signed("PUT", "/one/a", {"x-amz-decoded-content-length": "0", "x-amz-trailer": "x-amz-checksum-crc32"}, "STREAMING-AWS4-HMAC-SHA256-PAYLOAD-TRAILER")
        secret = f"AWS4{endpoint.SECRET}".encode()
        first, moment = re.search(rb"Signature=([0-9a-f]{64})", head)[1].decode(), re.search(rb"(?i)x-amz-date: (\S+)", head)[1].decode()
        for word in (moment[:8], "us-east-1", "s3", "aws4_request"):
            secret = hmac.new(secret, word.encode(), hashlib.sha256).digest()
        text = "\n".join(["AWS4-HMAC-SHA256-PAYLOAD", moment, f"{moment[:8]}/us-east-1/s3/aws4_request", first, EMPTY, EMPTY])
        chunk = hmac.new(secret, text.encode(), hashlib.sha256).hexdigest()
        body = f"0;chunk-signature={chunk}\r\nx-amz-checksum-crc32:AAAAAA==\r\nx-amz-trailer-signature:".encode() + b"\xe9\r\n\r\n"
        self.tells(403, "SignatureDoesNotMatch", head + f"Content-Length: {len(body)}\r\n\r\n".encode() + body)

    def test_keys_that_xml_has_no_letters_for(self):
        for key in ("%00", "a%01%1Fb", "%EF%BF%BE", "%EF%BF%BF"):
            told = exchange(signed("GET", f"/one/{key}") + b"\r\n")
            error = ElementTree.fromstring(told.partition(b"\r\n\r\n")[2])
            self.assertEqual([error.find(name).text for name in ("Code", "Key")], ["NoSuchKey", key])

    def test_who_asks(self):
        self.tells(403, "AccessDenied", b"GET / HTTP/1.1\r\nHost: a\r\n\r\n")
        self.tells(403, "InvalidAccessKeyId", signed("GET", "/", access="nobody") + b"\r\n")
        self.tells(403, "SignatureDoesNotMatch", signed("GET", "/", secret="wrong") + b"\r\n")
        self.tells(403, "SignatureDoesNotMatch", signed("PUT", "/one/a").replace(b"/one/a", b"/one/b") + b"Content-Length: 1\r\n\r\nx")
        self.tells(400, "InvalidRequest", b"GET / HTTP/1.1\r\nHost: a\r\nAuthorization: AWS carol:abc\r\n\r\n")
        for header in (b"AWS4-HMAC-SHA256", b"AWS4-HMAC-SHA256 Credential=/////, SignedHeaders=host, Signature=" + b"0" * 64, b"Basic xx", b"\xff\xfe"):
            self.tells(400, "AuthorizationHeaderMalformed", b"GET / HTTP/1.1\r\nHost: a\r\nx-amz-content-sha256: x\r\nAuthorization: " + header + b"\r\n\r\n")

    def test_dates_out_of_range(self):
        head = signed("GET", "/")
        for stamp, told in ((b"19000101T000000Z", 400), (b"99991231T235959Z", 400), (b"x", 400), (b"", 403)):
            status, _ = code_of(exchange(re.sub(rb"(?i)(x-amz-date: )\S+", lambda found: found[1] + stamp, head) + b"\r\n"))
            self.assertEqual(status, told, stamp)
        day = time.strftime("%Y%m%d", time.gmtime()).encode()
        late = b"T000000Z" if time.gmtime().tm_hour > 1 else b"T235900Z"
        self.tells(403, "RequestTimeTooSkewed", re.sub(rb"(?i)(x-amz-date: )\S+", lambda found: found[1] + day + late, head) + b"\r\n")

    def test_bodies(self):
        self.tells(400, "XAmzContentSHA256Mismatch", signed("PUT", "/one/a", payload=EMPTY) + b"Content-Length: 1\r\n\r\nx")
        self.tells(400, "BadDigest", signed("PUT", "/one/a", {"Content-MD5": "AAAAAAAAAAAAAAAAAAAAAA=="}) + b"Content-Length: 1\r\n\r\nx")
        self.tells(400, "InvalidDigest", signed("PUT", "/one/a", {"Content-MD5": "x"}) + b"Content-Length: 1\r\n\r\nx")
        self.tells(411, "MissingContentLength", signed("PUT", "/one/a") + b"Transfer-Encoding: chunked\r\n\r\n1\r\nx\r\n0\r\n\r\n")
        self.tells(400, "EntityTooLarge", signed("PUT", "/one/a") + b"Content-Length: 9999999999999\r\n\r\nx")
        self.tells(507, "InsufficientStorage", signed("PUT", "/one/a") + b"Content-Length: 900000000\r\n\r\n", [b"x" * 65_536] * 40)
        self.tells(400, "InvalidArgument", signed("PUT", "/one/a", payload="nonsense") + b"Content-Length: 1\r\n\r\nx")

    def test_chunks_that_lie(self):
        payload = "STREAMING-UNSIGNED-PAYLOAD-TRAILER"
        for body in (b"", b"6\r\nhello\r\n0\r\n\r\n", b"4\r\nhello\r\n0\r\n\r\n", b"hello", b"ffffffff\r\nhello\r\n0\r\n\r\n", b"0\r\n\r\n" + b" " * 9):
            head = signed("PUT", "/one/a", {"x-amz-decoded-content-length": "5"}, payload) + f"Content-Length: {len(body)}\r\n\r\n".encode()
            self.tells(400, "IncompleteBody", head + body)
        body = b"5;chunk-signature=" + b"0" * 64 + b"\r\nhello\r\n0;chunk-signature=" + b"0" * 64 + b"\r\n\r\n"
        head = signed("PUT", "/one/a", {"x-amz-decoded-content-length": "5"}, "STREAMING-AWS4-HMAC-SHA256-PAYLOAD")
        self.tells(403, "SignatureDoesNotMatch", head + f"Content-Length: {len(body)}\r\n\r\n".encode() + body)

    def test_a_client_that_leaves(self):
        """Amid a body, of any length."""
        for length in (100, 3_000_000):
            with socket.create_connection(("127.0.0.1", GATEWAY.port), timeout=longer(60)) as connection:
                connection.sendall(signed("PUT", "/one/a") + f"Content-Length: {length}\r\n\r\n".encode() + b"x" * (length // 2))
        time.sleep(0.3)

    def test_xml(self):
        bomb = b'<!DOCTYPE x [<!ENTITY a "aaaa"><!ENTITY b "&a;&a;&a;&a;">]><Delete><Object><Key>&b;</Key></Object></Delete>'
        for body in (bomb, b"<Delete>", b"<Other/>", b"<a>" * 100_000, b"\xff\xfe<", b"<Delete>" + b"<Object><Key>a</Key></Object>" * 1_001 + b"</Delete>", b"<Delete>" + b"<Quiet/>" * 5_000 + b"</Delete>"):
            self.tells(400, "MalformedXML", signed("POST", "/one?delete") + f"Content-Length: {len(body)}\r\n\r\n".encode() + body)
        self.tells(400, "EntityTooLarge", signed("POST", "/one?delete") + b"Content-Length: 99999999\r\n\r\nx")
        for number in ("x", "9" * 5_000, "-1", "٣"):
            body = f"<CompleteMultipartUpload><Part><PartNumber>{number}</PartNumber><ETag>x</ETag></Part></CompleteMultipartUpload>".encode()
            head = signed("POST", "/one/a?uploadId=1." + "0" * 24) + f"Content-Length: {len(body)}\r\n\r\n".encode()
            self.tells(400, "MalformedXML", head + body)
        parts = "".join(f"<Part><PartNumber>{number}</PartNumber><ETag>x</ETag></Part>" for number in range(1, 10_002))
        for text, status, code in ((parts, 400, "MalformedXML"), (parts.rpartition("<Part>")[0], 404, "NoSuchUpload")):
            body = f"<CompleteMultipartUpload>{text}</CompleteMultipartUpload>".encode()
            head = signed("POST", "/one/a?uploadId=1." + "0" * 24) + f"Content-Length: {len(body)}\r\n\r\n".encode()
            self.tells(status, code, head + body)

    def test_what_no_client_asks_again(self):
        """ACLs, storage classes and encryption have codes of Amazon's, which no client takes for a fault of the moment."""
        for headers, code in (
            ({"x-amz-acl": "public-read"}, "AccessControlListNotSupported"), ({"x-amz-grant-read": "id=x"}, "AccessControlListNotSupported"), ({"x-amz-storage-class": "STANDARD_IA"}, "InvalidStorageClass"),
            ({"x-amz-server-side-encryption": "AES256"}, "InvalidEncryptionAlgorithmError"), ({"x-amz-server-side-encryption": "aws:kms"}, "InvalidEncryptionAlgorithmError"),
        ):  # fmt: skip
            self.tells(400, code, signed("PUT", "/one/a", headers) + b"Content-Length: 1\r\n\r\nx")

    def test_guards_of_reads(self):
        """The owner that is expected, also in the URL, and the key by which an object is encrypted."""
        S3.put_object(Bucket="two", Key="guarded", Body=b"x")
        for query, headers, status, code in (
            ("?x-amz-expected-bucket-owner=dave", {}, 403, "AccessDenied"), ("?X-Amz-Expected-Bucket-Owner=dave", {}, 403, "AccessDenied"), ("?x-amz-expected-bucket-owner=carol", {}, 200, ""),
            ("", {"x-amz-server-side-encryption-customer-algorithm": "AES256"}, 400, "InvalidRequest"),
        ):  # fmt: skip
            self.tells(status, code, signed("GET", "/two/guarded" + query, headers) + b"\r\n")
        S3.delete_object(Bucket="two", Key="guarded")

    def test_probes(self):
        for path in ("/minio/health/live", "/minio/health/ready"):
            self.tells(200, "", f"GET {path} HTTP/1.1\r\nHost: a\r\n\r\n".encode())

    def test_long_queries(self):
        """Before anybody has shown who he is each word costs as much as it does later."""
        for count, status in ((200, 403), (201, 400)):
            query = "&".join(f"a{number}=1" for number in range(count))
            self.assertEqual(code_of(exchange(f"GET /one/a?{query} HTTP/1.1\r\nHost: a\r\n\r\n".encode()))[0], status)

    def test_removals_of_who_leaves(self):
        """No more is done of them, and no fault is told."""
        body = b"<Delete>" + b"".join(b"<Object><Key>none-%d</Key></Object>" % number for number in range(900)) + b"</Delete>"
        for _ in range(3):
            with socket.create_connection(("127.0.0.1", GATEWAY.port), timeout=longer(60)) as connection:
                connection.sendall(signed("POST", "/one?delete") + f"Content-Length: {len(body)}\r\n\r\n".encode() + body)
                time.sleep(0.05)
        time.sleep(2)

    def test_changes_that_are_not_known(self):
        """What might mean another operation, or a condition, is not done as the plain operation."""
        S3.create_bucket(Bucket="empty")
        S3.put_object(Bucket="two", Key="k", Body=b"kept")
        upload = {"Bucket": "two", "Key": "k", "UploadId": S3.create_multipart_upload(Bucket="two", Key="k")["UploadId"]}
        etag = S3.upload_part(**upload, PartNumber=1, Body=b"part")["ETag"]
        in_parts = f"/two/k?uploadId={upload['UploadId']}"
        empty, body = b"Content-Length: 0\r\n\r\n", b"Content-Length: 1\r\n\r\nx"
        of_parts = f"<CompleteMultipartUpload><Part><PartNumber>1</PartNumber><ETag>{etag}</ETag></Part></CompleteMultipartUpload>".encode()
        sized = lambda content: b"Content-Length: %d\r\n\r\n" % len(content) + content
        completion, tagged = sized(of_parts), sized(b"<Tagging><TagSet><Tag><Key>a</Key><Value>b</Value></Tag></TagSet></Tagging>")
        removal = lambda more: (f"Content-Length: {75 + len(more)}\r\n\r\n<Delete><Object><Key>k</Key>{more}</Object><Object><Key>l</Key></Object></Delete>").encode()
        # (a client that has the source of a copy decrypted, or its destination encrypted, by a key of its own)
        of_key = lambda which: {f"{which}server-side-encryption-customer-{name}": text for name, text in (("algorithm", "AES256"), ("key", "eA=="), ("key-md5", "nd4aPzIfCgwBfG5SAAAAAA=="))}
        of_source = {"x-amz-copy-source": "two/k", **of_key("x-amz-copy-source-")}
        for method, path, headers, rest in [
            ("PUT", "/two/l", of_source, empty), ("PUT", in_parts + "&partNumber=1", of_source, empty), ("PUT", "/two/l", {"x-amz-copy-source": "two/k", **of_key("x-amz-")}, empty),
            ("PUT", "/two/k", of_key("x-amz-"), body), ("PUT", in_parts + "&partNumber=1", of_key("x-amz-"), body), ("POST", "/two/k?uploads", of_key("x-amz-"), empty),
            ("PUT", "/two/k?renameObject", {}, empty), ("PUT", "/two/k?anything", {}, body), ("PUT", "/two/k?partNumber=1", {}, body), ("PUT", "/two/k?acl", {}, body), ("PUT", "/two?anything=1", {}, empty),
            ("PUT", in_parts + "&partNumber=1&anything", {}, body), ("DELETE", "/two/k?anything", {}, empty), ("DELETE", "/two/k?partNumber=1", {}, empty),
            ("DELETE", "/empty?metadataTable", {}, empty), ("DELETE", "/empty?x-amz-anything", {}, empty), ("DELETE", "/two/k?X-Amz-Expected-Bucket-Owner=dave", {}, empty),
            ("PUT", "/two/k?X-Amz-Object-Lock-Mode=COMPLIANCE", {}, body), ("POST", "/two/k?uploads&X-Amz-Storage-Class=GLACIER", {}, empty), ("POST", "/two/k?restore", {}, empty), ("POST", "/two/k", {}, body), ("POST", "/two", {}, body),
            ("POST", "/two/k?uploads&anything", {}, empty), ("POST", in_parts + "&anything", {}, completion), ("PUT", "/two/k", {"x-amz-rename-source": "l"}, empty), ("PUT", "/two/k", {"x-amz-anything": "l"}, body),
            ("PUT", "/two/k", {"If-Unmodified-Since": "Mon, 01 Jan 2001 00:00:00 GMT"}, body), ("DELETE", "/two/k", {"If-Modified-Since": "Mon, 01 Jan 2001 00:00:00 GMT"}, empty),
            ("DELETE", "/two/k", {"x-amz-if-match-size": "9"}, empty), ("DELETE", "/two/k", {"x-amz-if-match-last-modified-time": "Mon, 01 Jan 2001 00:00:00 GMT"}, empty),
            ("PUT", in_parts + "&partNumber=1", {"If-Match": "*"}, body), ("DELETE", in_parts, {"If-None-Match": "*"}, empty), ("DELETE", "/empty", {"If-Match": "x"}, empty),
            ("PUT", "/three", {"x-amz-bucket-object-lock-enabled": "true"}, empty), ("PUT", "/two/k", {"x-amz-server-side-encryption-aws-kms-key-id": "x"}, body),
            ("POST", "/two?delete", {}, removal("<ETag>x</ETag>")), ("POST", "/two?delete", {}, removal("<Size>9</Size>")), ("POST", in_parts, {"x-amz-checksum-md5": "AAAAAA=="}, completion),
            ("PUT", "/two/l", {"x-amz-copy-source": "two/k", "x-amz-copy-source-range": "bytes=0-0"}, empty), ("PUT", "/two/k", {"x-amz-copy-source-if-match": "x"}, body), ("PUT", "/two/k", {"x-amz-mp-object-size": "9"}, body),
            ("PUT", in_parts + "&partNumber=1", {"x-amz-metadata-directive": "REPLACE"}, body), ("DELETE", "/two/k", {"x-amz-copy-source": "two/k"}, empty), ("PUT", "/two/k", {"x-amz-checksum-type": "COMPOSITE"}, body),
            ("PUT", "/three", {}, sized(b"<CreateBucketConfiguration><Tags><Tag><Key>a</Key></Tag></Tags></CreateBucketConfiguration>")),
            ("POST", "/two?delete", {}, sized(b"<Delete><Object><Key>k</Key></Object><BypassAll>true</BypassAll></Delete>")),
            ("PUT", "/two/k?tagging", {"If-Match": "x"}, tagged), ("PUT", "/two/k?tagging&anything", {}, tagged), ("DELETE", "/two/k?tagging", {"If-Match": "x"}, empty),
            ("PUT", "/two/k?tagging", {}, sized(b"<Tagging><TagSet><Tag><Key>a</Key><Value>b</Value><Kind/></Tag></TagSet></Tagging>")), ("PUT", "/two?tagging", {}, tagged), ("DELETE", "/two?tagging", {}, empty),
            ("PUT", "/two/k", {"x-amz-metadata-directive": "COPY"}, body), ("POST", "/two/k?uploads", {"x-amz-metadata-directive": "COPY"}, empty),
            ("PUT", "/two/k", {"x-amz-tagging-directive": "REPLACE"}, body), ("PUT", in_parts + "&partNumber=1", {"x-amz-tagging": "a=b"}, body), ("POST", in_parts, {"x-amz-tagging": "a=b"}, completion),
            ("POST", in_parts, {}, sized(of_parts.replace(b"</Part>", b"<Size>4</Size></Part>"))), ("POST", in_parts, {}, sized(of_parts.replace(b"</ETag>", b"<x/></ETag>"))),
        ]:  # fmt: skip
            told = code_of(exchange(signed(method, path, headers) + rest))
            wanted = 501, "NotImplemented"
            if any(OF_ENCRYPTION in name for name in headers):
                wanted = 400, "InvalidEncryptionAlgorithmError"
            elif path.endswith("Owner=dave"):
                wanted = 403, "AccessDenied"
            elif path.endswith("?acl"):
                wanted = 400, "AccessControlListNotSupported"
            self.assertEqual(told, wanted, (method, path, headers))
        for method, path, rest in (("DELETE", "/two/k?versionId=7", empty), ("PUT", "/two/k?tagging&versionId=7", tagged), ("DELETE", "/two/k?versionId", empty)):
            self.tells(400, "InvalidArgument", signed(method, path) + rest)
        for method, path in (("PUT", "/two/k"), ("DELETE", "/two/k"), ("DELETE", "/empty")):
            self.tells(403, "AccessDenied", signed(method, path, {"x-amz-expected-bucket-owner": "dave"}) + body)
        self.tells(405, "MethodNotAllowed", signed("PATCH", "/two/k") + body)
        for text in (b"<Tagging/>", b"<TagSet/>", b"<Tagging><TagSet/><TagSet/></Tagging>", b"<Tagging><TagSet><Tag><Key>a</Key></Tag></TagSet></Tagging>", b"<Tagging>", b""):
            self.tells(400, "MalformedXML", signed("PUT", "/two/k?tagging") + sized(text))
        self.assertEqual(S3.get_object_tagging(Bucket="two", Key="k")["TagSet"], [])
        self.assertEqual(S3.get_object(Bucket="two", Key="k")["Body"].read(), b"kept")
        self.assertEqual([each["Name"] for each in S3.list_buckets()["Buckets"]], ["empty", "one", "two"])
        self.tells(400, "InvalidRequest", signed("POST", in_parts, {"x-amz-mp-object-size": "5"}) + completion)
        self.assertEqual(code_of(exchange(signed("POST", in_parts, {"x-amz-mp-object-size": "4"}) + completion))[0], 200)
        self.assertEqual(code_of(exchange(signed("PUT", "/two/k?x-id=PutObject&x-amz-sdk-checksum-algorithm=CRC32", {"x-amz-expected-bucket-owner": "carol"}) + body))[0], 200)
        told = exchange(signed("GET", "/two/k", {"Range": "bytes=0-0", "If-Range": etag}) + b"\r\n")
        self.assertTrue(told.startswith(b"HTTP/1.1 200") and told.endswith(b"\r\n\r\nx"), told)
        self.assertEqual(code_of(exchange(signed("DELETE", "/two/k?x-id=DeleteObject&versionId=null", {"Connection": "close"}) + empty))[0], 204)
        self.assertEqual(code_of(exchange(signed("DELETE", "/empty", {"Connection": "close"}) + empty))[0], 204)

    def test_long_xml(self):
        """Of many texts with elements between them: in time that goes with its length."""
        body, begun = b"<Delete>" + b"<a/>xxxxxxxxxxxxxxxxxxxxxxxxxxxxxxxxxxxxxx" * 95_000 + b"</Delete>", self.spent()
        self.tells(400, "MalformedXML", signed("POST", "/one?delete", access="carol.one") + f"Content-Length: {len(body)}\r\n\r\n".encode() + body)
        self.assertLess(self.spent() - begun, 5)

    def test_odd_words(self):
        for method, path, status, code in [
            ("GET", "/one/a%FF", 400, "InvalidURI"), ("GET", "/one?prefix=%FF", 400, "InvalidArgument"), ("GET", "/one?max-keys=-1", 400, "InvalidArgument"),
            ("GET", "/one?max-keys=" + "9" * 4_000, 400, "InvalidArgument"), ("GET", "/one?list-type=2&continuation-token=%C3%BC", 400, "InvalidArgument"),
            ("GET", "/one/" + quote("x" * 1_025), 400, "KeyTooLongError"), ("GET", "/UPPER/a", 400, "InvalidBucketName"), ("GET", "/.s3/bucket/one", 400, "InvalidBucketName"),
            ("PUT", "/one/a?partNumber=10001&uploadId=1." + "0" * 24, 400, "InvalidArgument"), ("PUT", "/one/a?partNumber=1&uploadId=..x", 404, "NoSuchUpload"),
            ("PUT", "/one/a?partNumber=1&uploadId=99." + "0" * 24, 404, "NoSuchUpload"), ("PATCH", "/one/a", 405, "MethodNotAllowed"), ("GET", "/one/a?torrent", 501, "NotImplemented"), ("PUT", "/one/a?renameObject", 501, "NotImplemented"), ("DELETE", "/one?metadataTable", 501, "NotImplemented"),
        ]:  # fmt: skip
            self.tells(status, code, signed(method, path) + b"Content-Length: 0\r\n\r\n")
        for source in ("", "x", "/one/%FF", "/one/a?versionId=7"):
            told = code_of(exchange(signed("PUT", "/one/a", {"x-amz-copy-source": source}) + b"Content-Length: 0\r\n\r\n"))
            self.assertIn(told, ((400, "InvalidArgument"), (501, "NotImplemented")), source)

    def test_keys_that_may_less(self):
        reader, one = GATEWAY.client("carol.reader"), GATEWAY.client("carol.one")
        for client, call, words in (
            (reader, "put_object", {"Bucket": "two", "Key": "a", "Body": b""}), (reader, "delete_object", {"Bucket": "two", "Key": "a"}), (reader, "create_bucket", {"Bucket": "three"}),
            (one, "list_objects_v2", {"Bucket": "two"}), (one, "put_object", {"Bucket": "two", "Key": "a", "Body": b""}),
            (one, "copy_object", {"Bucket": "one", "Key": "a", "CopySource": "two/a"}),
        ):  # fmt: skip
            with self.assertRaises(client.exceptions.ClientError) as fault:
                getattr(client, call)(**words)
            self.assertEqual(fault.exception.response["Error"]["Code"], "AccessDenied", (call, words))
        self.assertEqual([each["Name"] for each in one.list_buckets()["Buckets"]], ["one"])
        one.put_object(Bucket="one", Key="mine", Body=b"x")
        self.assertEqual(reader.get_object(Bucket="one", Key="mine")["Body"].read(), b"x")
        one.delete_object(Bucket="one", Key="mine")

    def test_keys_that_are_read_again(self):
        def write(text):
            with open(GATEWAY.keys, "w") as out:
                out.write(text)
            begun = len(GATEWAY.told())
            GATEWAY.process.send_signal(signal.SIGHUP)
            endpoint.wait(lambda: "keys" in GATEWAY.told(begun), GATEWAY.process, GATEWAY.log)
            return GATEWAY.told(begun)

        write(f"carol {endpoint.SECRET}\ncarol.new 12345678\n")
        GATEWAY.client("carol.new", "12345678").list_buckets()
        self.assertIn("stay as they were", write("nonsense here and there\n"))
        GATEWAY.client("carol.new", "12345678").list_buckets()
        write(KEYS)
        with self.assertRaises(S3.exceptions.ClientError):
            GATEWAY.client("carol.new", "12345678").list_buckets()

    def test_the_page(self):
        self.assertEqual(code_of(exchange(b"GET /-/ HTTP/1.1\r\nHost: a\r\n\r\n"))[0], 401)
        word = base64.b64encode(f"carol:{endpoint.SECRET}".encode())
        told = exchange(b"GET /-/ HTTP/1.1\r\nHost: a\r\nAuthorization: Basic " + word + b"\r\n\r\n")
        self.assertIn(b"200 OK", told)
        for part in (b"default-src 'none'", b"/-/one/", b"Room:", b"<h2>Nodes</h2>", b'class="up">0</td>'):
            self.assertIn(part, told)
        self.assertNotIn(b"<script", told)
        key = "<b>&\"'?#%/javascript:x"
        S3.put_object(Bucket="two", Key=key, Body=b"x")
        told = exchange(b"GET /-/two/?prefix=%3Cb%3E%26%22%27%3F%23%25%2F HTTP/1.1\r\nHost: a\r\nAuthorization: Basic " + word + b"\r\n\r\n")
        link = html.unescape(re.search(rb'href="(/two/[^"]*)"', told)[1].decode())
        self.assertTrue(exchange(f"GET {link} HTTP/1.1\r\nHost: a\r\n\r\n".encode()).endswith(b"\r\n\r\nx"))
        S3.delete_object(Bucket="two", Key=key)
        self.assertIn(b"javascript:x</a>", told)
        S3.put_object(Bucket="two", Key="page.html", Body=b"<script>", ContentType="text/html")
        headers = S3.get_object(Bucket="two", Key="page.html")["ResponseMetadata"]["HTTPHeaders"]
        S3.delete_object(Bucket="two", Key="page.html")
        self.assertEqual((headers["content-type"], headers["content-security-policy"]), ("text/html", "sandbox"))
        self.assertNotIn(b"<b>", told)
        self.assertNotIn(b'href="javascript', told)
        self.assertEqual(code_of(exchange(b"GET /-/NO/ HTTP/1.1\r\nHost: a\r\nAuthorization: Basic " + word + b"\r\n\r\n")), (400, "InvalidBucketName"))


if __name__ == "__main__":
    unittest.main()
