"""Forms by which browsers put an object: policies, who signed them, what they let through, and that what is refused changes nothing."""

import base64
import http.client
import json
import os
import socket
import sys
import time
import unittest
import urllib.parse
import zlib

sys.path.insert(0, os.path.dirname(os.path.abspath(__file__)))
import endpoint
from botocore.exceptions import ClientError
from gridfs_s3 import errors, forms
from urllib3 import encode_multipart_formdata

LATER = "2999-01-01T00:00:00.000Z"
KEYS = f"carol {endpoint.SECRET}\ncarol.reader {endpoint.SECRET} read\ncarol.other {endpoint.SECRET} bucket=other\n"


def in_base64(policy):
    return base64.b64encode(policy if isinstance(policy, bytes) else json.dumps(policy).encode()).decode()


def policy(*conditions, until=LATER):
    return forms.policy_of(in_base64({"expiration": until, "conditions": list(conditions)}))


class Policies(unittest.TestCase):
    def lets(self, found, **fields):
        try:
            found.expect({name.replace("_", "-"): value for name, value in fields.items()}, time.time())
            return True
        except errors.S3Error as fault:
            self.assertEqual(fault.code, "AccessDenied")
            return False

    def test_conditions(self):
        for condition, key, wanted in (
            ({"key": "a"}, "a", True), ({"key": "a"}, "ab", False), (["eq", "$key", "a"], "a", True), (["eq", "$Key", "a"], "A", False), (["eq", "$key", "a"], "", False),
            (["starts-with", "$key", "a/"], "a/b", True), (["starts-with", "$key", "a/"], "b/a/", False), (["starts-with", "$key", ""], "x", True),
        ):  # fmt: skip
            self.assertEqual(self.lets(policy(condition), key=key), wanted, (condition, key))

    def test_each_field_is_named(self):
        found = policy({"key": "a"}, ["starts-with", "$x-amz-meta-a", ""], {"bucket": "b"})
        self.assertTrue(self.lets(found, key="a", x_amz_meta_a="b", x_ignore_me="c", policy="p", x_amz_signature="s", bucket="b"))
        self.assertFalse(self.lets(found, key="a", bucket="c"))
        self.assertFalse(self.lets(policy({"key": "a"}), key="a", bucket="b"))  # (else it were good for any bucket of its key)
        self.assertFalse(self.lets(found, key="a", x_amz_meta_b="b"))
        self.assertFalse(self.lets(found, key="a", success_action_redirect="http://a"))

    def test_each_of_several_types(self):
        found = policy(["starts-with", "$Content-Type", "image/"])
        self.assertTrue(self.lets(found, content_type="image/png, image/gif"))
        self.assertFalse(self.lets(found, content_type="image/png,text/html"))

    def test_until(self):
        self.assertFalse(self.lets(policy({"key": "a"}, until="2026-01-01T00:00:00Z"), key="a"))

    def test_lengths(self):
        found = policy(["content-length-range", 1, "10"], ["content-length-range", 0, 7])
        self.assertEqual((found.least, found.most, found.conditions), (1, 7, ()))

    def test_what_is_no_policy(self):
        good = {"expiration": LATER, "conditions": [{"key": "a"}]}
        for wrong in (
            b"{", b"\xff", b"[]", b"1", b"[" * 30_000, {}, {"conditions": []}, {"expiration": LATER}, good | {"expiration": "soon"}, good | {"expiration": "2030-01-01T00:00:00"}, good | {"expiration": 1},
            good | {"other": 1}, *(good | {"conditions": each} for each in ({}, "a", None, [1], [[]], [{}], [{"key": 1}], [["eq", "$key"]], [["eq", "key", "a"]], [["is", "$key", "a"]], [["eq", 1, "a"]],
            [["content-length-range", 1]], [["content-length-range", -1, 2]], [["content-length-range", "a", 2]], [["content-length-range", True, 2]], [["content-length-range", 1, 10**400]])),
        ):  # fmt: skip
            with self.assertRaises(errors.S3Error, msg=wrong) as fault:
                forms.policy_of(in_base64(wrong))
            self.assertEqual(fault.exception.code, "InvalidPolicyDocument", wrong)
        for text in ("", "!", "e30"):
            with self.assertRaises(errors.S3Error, msg=text):
                forms.policy_of(text)


class Posts(unittest.TestCase):
    @classmethod
    def setUpClass(cls):
        cls.room = cls.enterClassContext(endpoint.stand_in())
        (cls.gateway,) = cls.enterClassContext(endpoint.gateways(cls.room, keys=KEYS, words=("--domain", "s3.example")))
        cls.s3 = cls.gateway.client()
        for bucket in ("some", "other"):
            cls.s3.create_bucket(Bucket=bucket)

    def form(self, key="a", fields={}, conditions=(), s3=None, bucket="some", **more):
        """The fields of a form that boto3 signs; a condition stands there for each."""
        named = [{name: value} for name, value in fields.items()]
        return (s3 or self.s3).generate_presigned_post(bucket, key, Fields=dict(fields), Conditions=[*named, *conditions], **more)["fields"]

    def post(self, fields, content=b"hello", name="some file.txt", path="/some", kind=None, headers={}, body=None):
        """Status, headers and body of the answer to a form, whose file is its last field."""
        found, usual = encode_multipart_formdata([*fields.items(), ("file", (name, content, "text/plain"))])
        connection = http.client.HTTPConnection(self.gateway.url[7:])
        connection.request("POST", path, found if body is None else body, {"Content-Type": kind or usual, **headers})
        told = connection.getresponse()
        return told.status, dict(told.getheaders()), told.read()

    def fails(self, code, *words, **more):
        before = self.s3.list_objects_v2(Bucket="some").get("Contents", [])
        status, _, told = self.post(*words, **more)
        self.assertIn(f"<Code>{code}</Code>".encode(), told)
        self.assertEqual(status, errors.ERRORS[code][0])
        self.assertEqual(self.s3.list_objects_v2(Bucket="some").get("Contents", []), before)

    def get(self, key, bucket="some", **words):
        found = self.s3.get_object(Bucket=bucket, Key=key, **words)
        return found["Body"].read(), found

    def test_put(self):
        tags = "<Tagging><TagSet><Tag><Key>k</Key><Value>v</Value></Tag></TagSet></Tagging>"
        fields = {"Content-Type": "image/png", "x-amz-meta-one": "two", "Cache-Control": "no-store", "tagging": tags, "acl": "private"}
        for content in (b"", b"hello", os.urandom(100_000), b"\r\n--" * 1_000, os.urandom(3 << 20)):
            status, headers, told = self.post(self.form("dir/key ü", fields), content)
            self.assertEqual((status, told), (204, b""))
            data, found = self.get("dir/key ü")
            self.assertEqual(data, content)
            self.assertEqual((found["ContentType"], found["Metadata"], found["CacheControl"], found["TagCount"]), ("image/png", {"one": "two"}, "no-store", 1))
            self.assertEqual((headers["ETag"], headers["Location"]), (found["ETag"], f"{self.gateway.url}/some/dir/key%20%C3%BC"))

    def test_names_of_files(self):
        for name, wanted in (("cat.png", "up/cat.png"), ("C:\\my\\cat.png", "up/cat.png"), ("/etc/passwd", "up/passwd")):
            self.assertEqual(self.post(self.form("up/${filename}"), name=name)[0], 204)
            self.assertEqual(self.get(wanted)[0], b"hello")
        self.fails("AccessDenied", self.form("up/cat.png") | {"key": "up/${filename}"}, name="dog.png")

    def test_answers(self):
        status, headers, told = self.post(self.form(fields={"success_action_status": "201"}))
        self.assertEqual((status, headers["Content-Type"]), (201, "application/xml"))
        self.assertIn(b"<Bucket>some</Bucket><Key>a</Key><ETag>", told)
        self.assertEqual(self.post(self.form(fields={"success_action_status": "200"}))[0], 200)
        self.assertEqual(self.post(self.form(fields={"success_action_status": "404"}))[0], 204)
        for page, wanted in (("http://shop.example/done", "?"), ("https://shop.example/done?x=1", "&")):
            status, headers, _ = self.post(self.form(fields={"success_action_redirect": page}))
            self.assertEqual((status, headers["Location"]), (303, f"{page}{wanted}bucket=some&key=a&etag=%225d41402abc4b2a76b9719d911017c592%22"))
        for page in ("javascript:alert(1)", "http://a\r\nX: y"):
            status, headers, _ = self.post(self.form(fields={"success_action_redirect": page}))
            self.assertEqual((status, headers["Location"], "X" in headers), (204, f"{self.gateway.url}/some/a", False))

    def test_checksums(self):
        right, wrong = (base64.b64encode(zlib.crc32(each).to_bytes(4, "big")).decode() for each in (b"hello", b"other"))
        self.assertEqual(self.post(self.form(fields={"x-amz-checksum-crc32": right}))[0], 204)
        self.assertEqual(self.get("a", ChecksumMode="ENABLED")[1]["ChecksumCRC32"], right)
        self.fails("BadDigest", self.form(fields={"x-amz-checksum-crc32": wrong}))

    def test_lengths(self):
        for length, code in ((1, "EntityTooSmall"), (5, None), (20, None), (21, "EntityTooLarge"), (3 << 20, "EntityTooLarge")):
            form = self.form("of a length", conditions=[["content-length-range", 2, 20]])
            if code:
                self.fails(code, form, b"x" * length)
            else:
                self.assertEqual(self.post(form, b"x" * length)[0], 204)

    def test_who(self):
        self.fails("AccessDenied", {"key": "a"})
        self.fails("InvalidRequest", {"key": "a", "policy": "e30=", "AWSAccessKeyId": "carol", "signature": "x"})
        form = self.form("b")
        self.fails("InvalidAccessKeyId", form | {"x-amz-credential": form["x-amz-credential"].replace("carol", "dave")})
        self.fails("SignatureDoesNotMatch", form | {"x-amz-signature": "0" * 64})
        self.fails("SignatureDoesNotMatch", form | {"policy": in_base64({"expiration": LATER, "conditions": [["starts-with", "$key", ""]]})})
        self.fails("SignatureDoesNotMatch", form | {"x-amz-credential": form["x-amz-credential"].replace("us-east-1", "us-east-2")})
        self.fails("InvalidArgument", form | {"x-amz-algorithm": "none"})
        for field, text in (("x-amz-date", "20260101"), ("x-amz-credential", "carol"), ("x-amz-date", "20260101T000000Z")):
            self.fails("InvalidArgument", form | {field: text})
        self.fails("AccessDenied", self.form("b", s3=self.gateway.client("carol.reader")))
        self.fails("AccessDenied", self.form("b", s3=self.gateway.client("carol.other")))

    def test_what_a_policy_does_not_let_through(self):
        self.fails("AccessDenied", self.form("b") | {"key": "c"})
        self.fails("AccessDenied", self.form("b") | {"x-amz-meta-a": "b"})
        self.fails("AccessDenied", self.form("b", bucket="other"))
        self.fails("AccessDenied", self.form("b", ExpiresIn=-1))
        self.fails("InvalidArgument", self.form("b") | {"bucket": "other"})

    def test_what_is_not_here(self):
        self.fails("AccessControlListNotSupported", self.form("b", {"acl": "public-read"}))
        self.fails("InvalidStorageClass", self.form("b", {"x-amz-storage-class": "GLACIER"}))
        self.fails("InvalidEncryptionAlgorithmError", self.form("b", {"x-amz-server-side-encryption": "AES256"}))
        self.fails("NotImplemented", self.form("b"), path="/some?uploads")
        self.fails("NotImplemented", self.form("b"), headers={"If-None-Match": "*"})
        self.fails("NoSuchBucket", self.form("b", bucket="nobody"), path="/nobody")

    def test_what_is_no_form(self):
        kind = "multipart/form-data; boundary=x"
        good = encode_multipart_formdata([*self.form("b").items(), ("file", ("n", b"hello"))], "x")[0]
        for code, body in (
            ("IncorrectNumberOfFilesInPostRequest", b"--x--\r\n"), ("IncorrectNumberOfFilesInPostRequest", encode_multipart_formdata(self.form("b"), "x")[0]), ("MalformedPOSTRequest", b""),
            ("MalformedPOSTRequest", b"hello"), ("MalformedPOSTRequest", b"--x\r\n\r\nhello\r\n--x--\r\n"), ("MalformedPOSTRequest", good[: good.rindex(b"--x--")]), ("MalformedPOSTRequest", good[: good.index(b"hello")]),
            ("MalformedPOSTRequest", b'--x\r\nContent-Disposition: form-data; name="_charset_"\r\n\r\n' + b"y" * 40 + b"\r\n" + good), ("MalformedPOSTRequest", good.replace(b'name="policy"', b'name="key"')),
            ("MalformedPOSTRequest", b'--x\r\nContent-Disposition: form-data; name="a"\r\n\r\n\xff\r\n' + good), ("MalformedPOSTRequest", b"--x\r\nContent-Type: multipart/mixed; boundary=y\r\n\r\n--y--\r\n" + good),
            ("MaxPostPreDataLengthExceeded", b"y" * 40_000), ("MaxPostPreDataLengthExceeded", b"y\r\n" * 20_000), ("MaxPostPreDataLengthExceeded", encode_multipart_formdata([("a", "y" * 40_000)], "x")[0]),
            ("UserKeyMustBeSpecified", encode_multipart_formdata([*(self.form("b") | {"key": ""}).items(), ("file", ("n", b"hello"))], "x")[0]),
        ):  # fmt: skip
            self.fails(code, {}, body=body, kind=kind)
        self.fails("MalformedPOSTRequest", {}, body=good, kind="multipart/form-data")
        self.assertEqual(self.post({}, body=b"hello, this is a form\r\n" + good, kind=kind)[0], 204)

    def test_fields_behind_the_file_mean_nothing(self):
        found, kind = encode_multipart_formdata([*self.form("d").items(), ("file", ("n", b"hello")), ("key", "e"), ("submit", "Send")])
        self.assertEqual(self.post({}, body=found, kind=kind)[0], 204)
        self.assertEqual(self.get("d")[0], b"hello")
        with self.assertRaisesRegex(ClientError, "NoSuchKey"):
            self.get("e")

    def test_by_host(self):
        self.assertEqual(self.post(self.form("by host"), path="/", headers={"Host": "some.s3.example"})[0], 204)
        self.assertEqual(self.get("by host")[0], b"hello")

    def test_other_pages(self):
        self.s3.put_bucket_cors(Bucket="other", CORSConfiguration={"CORSRules": [{"AllowedOrigins": ["https://shop.example"], "AllowedMethods": ["POST"]}]})
        for origin, wanted in (("https://shop.example", "https://shop.example"), ("https://evil.example", None)):
            status, headers, _ = self.post(self.form(bucket="other"), path="/other", headers={"Origin": origin})
            self.assertEqual((status, headers.get("Access-Control-Allow-Origin")), (204, wanted))

    def test_versions(self):
        self.s3.create_bucket(Bucket="versions")
        self.s3.put_bucket_versioning(Bucket="versions", VersioningConfiguration={"Status": "Enabled"})
        told = [self.post(self.form(bucket="versions"), content, path="/versions")[1]["x-amz-version-id"] for content in (b"one", b"two")]
        self.assertEqual([self.get("a", "versions", VersionId=version)[0] for version in told], [b"one", b"two"])

    def test_no_host(self):
        """As of HTTP/1.0: it is put, and told where as far as that is known."""
        content, kind = encode_multipart_formdata([*self.form("no host").items(), ("file", ("n", b"hello"))])
        with socket.create_connection(("127.0.0.1", self.gateway.port)) as asking:
            asking.sendall(f"POST /some HTTP/1.0\r\nContent-Type: {kind}\r\nContent-Length: {len(content)}\r\n\r\n".encode() + content)
            self.assertIn(b" 204 ", asking.makefile("rb").readline())
        self.assertEqual(self.get("no host")[0], b"hello")

    def test_expect(self):
        self.assertEqual(self.post(self.form("expected"), headers={"Expect": "100-continue"})[0], 204)

    def test_through_a_url_that_names_the_key(self):
        form = self.form("named")
        self.assertEqual(self.post(form, path=f"/some?{urllib.parse.urlencode({'X-Amz-Credential': form['x-amz-credential']})}")[0], 204)


if __name__ == "__main__":
    unittest.main()
