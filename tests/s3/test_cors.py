"""CORS: which pages of other hosts a browser lets read a bucket's answers."""

import http.client
import os
import sys
import time
import unittest
import urllib.error
import urllib.request

sys.path.insert(0, os.path.dirname(os.path.abspath(__file__)))
from busy import longer
import endpoint
from botocore.exceptions import ClientError
from gridfs_s3 import cors, errors, markup

RULES = [
    {"ID": "one", "AllowedOrigins": ["https://shop.example", "https://*.shop.example"], "AllowedMethods": ["PUT", "GET"], "AllowedHeaders": ["content-*", "x-amz-meta-a"], "ExposeHeaders": ["ETag", "x-amz-version-id"], "MaxAgeSeconds": 60},
    {"AllowedOrigins": ["*"], "AllowedMethods": ["HEAD"]},
]


def rules(text):
    return cors.rules_of(markup.parse(f"<CORSConfiguration>{text}</CORSConfiguration>".encode(), "CORSConfiguration", cors.ELEMENTS))


class Rules(unittest.TestCase):
    def test_patterns(self):
        for text, pattern, wanted in (
            ("https://a", "https://a", True), ("https://ab", "https://a", False), ("https://x.a", "https://*.a", True), ("https://.a", "https://*.a", True), ("https://a", "https://*.a", False),
            ("http://x.a", "https://*.a", False), ("https://x.a.evil", "https://*.a", False), ("anything", "*", True), ("ab", "ab*b", False), ("", "*", True),
        ):  # fmt: skip
            self.assertEqual(cors.is_like(text, pattern), wanted, (text, pattern))

    def test_what_is_refused(self):
        origin, method = "<AllowedOrigin>*</AllowedOrigin>", "<AllowedMethod>GET</AllowedMethod>"
        for code, text in (
            ("MalformedXML", ""), ("MalformedXML", "<CORSRule/>"), ("MalformedXML", f"<CORSRule>{origin}</CORSRule>"), ("MalformedXML", f"<CORSRule>{method}</CORSRule>"),
            ("MalformedXML", f"<CORSRule>{origin}{method}</CORSRule>" * 101), ("MalformedXML", f"<CORSRule>{origin}{method}<MaxAgeSeconds>-1</MaxAgeSeconds></CORSRule>"),
            ("InvalidRequest", f"<CORSRule>{origin}<AllowedMethod>PATCH</AllowedMethod></CORSRule>"), ("InvalidRequest", f"<CORSRule>{method}<AllowedOrigin>http://*.*</AllowedOrigin></CORSRule>"),
            ("InvalidRequest", f"<CORSRule>{origin}{method}<AllowedHeader>a*b*</AllowedHeader></CORSRule>"), ("InvalidRequest", f"<CORSRule>{origin}{method}<ExposeHeader>a&#13;&#10;b</ExposeHeader></CORSRule>"),
            ("InvalidRequest", f"<CORSRule>{method}<AllowedOrigin>http://a&#10;b</AllowedOrigin></CORSRule>"), ("NotImplemented", f"<CORSRule>{origin}{method}<Other/></CORSRule>"),
        ):  # fmt: skip
            with self.assertRaises(errors.S3Error) as fault:
                rules(text)
            self.assertEqual(fault.exception.code, code, text)

    def test_told_as_they_were_given(self):
        given = rules(
            "<CORSRule><ID>a&amp;b</ID><AllowedMethod>GET</AllowedMethod><AllowedMethod>HEAD</AllowedMethod><AllowedOrigin>http://*</AllowedOrigin><AllowedHeader>*</AllowedHeader>"
            "<ExposeHeader>ETag</ExposeHeader><MaxAgeSeconds>0</MaxAgeSeconds></CORSRule><CORSRule><AllowedMethod>PUT</AllowedMethod><AllowedOrigin>*</AllowedOrigin></CORSRule>"
        )
        self.assertEqual(cors.rules_of(markup.parse(cors.document_of(given), "CORSConfiguration", cors.ELEMENTS)), given)


class Browsers(unittest.TestCase):
    @classmethod
    def setUpClass(cls):
        cls.room = cls.enterClassContext(endpoint.stand_in())
        (cls.gateway,) = cls.enterClassContext(endpoint.gateways(cls.room))
        cls.s3 = cls.gateway.client()
        for bucket in ("some", "none"):
            cls.s3.create_bucket(Bucket=bucket)
            cls.s3.put_object(Bucket=bucket, Key="a", Body=b"hello", Metadata={"a": "b"})
        cls.s3.put_bucket_cors(Bucket="some", CORSConfiguration={"CORSRules": RULES})

    def ask(self, method, path, **headers):
        """Status, headers and body."""
        connection = http.client.HTTPConnection(self.gateway.url[7:])
        connection.request(method, path, headers={name.replace("_", "-"): value for name, value in headers.items()})
        told = connection.getresponse()
        return told.status, {name.lower(): value for name, value in told.getheaders()}, told.read()

    def leave(self, origin, method, wanted="", path="/some/a"):
        status, headers, _ = self.ask("OPTIONS", path, Origin=origin, Access_Control_Request_Method=method, **({"Access_Control_Request_Headers": wanted} if wanted else {}))
        return status, headers.get("access-control-allow-origin"), headers.get("access-control-allow-headers")

    def test_given(self):
        told = self.s3.get_bucket_cors(Bucket="some")["CORSRules"]
        self.assertEqual(told, RULES)
        with self.assertRaisesRegex(ClientError, "NoSuchCORSConfiguration"):
            self.s3.get_bucket_cors(Bucket="none")
        self.s3.create_bucket(Bucket="again")
        self.s3.put_bucket_cors(Bucket="again", CORSConfiguration={"CORSRules": RULES})
        self.s3.delete_bucket(Bucket="again")
        self.s3.create_bucket(Bucket="again")
        time.sleep(cors.SURE_FOR)
        with self.assertRaisesRegex(ClientError, "NoSuchCORSConfiguration"):
            self.s3.get_bucket_cors(Bucket="again")
        self.s3.put_bucket_cors(Bucket="again", CORSConfiguration={"CORSRules": RULES})
        self.assertEqual(self.leave("https://shop.example", "GET", path="/again/a")[0], 200)
        self.s3.delete_bucket_cors(Bucket="again")
        self.assertEqual(self.leave("https://shop.example", "GET", path="/again/a")[0], 403)

    def test_long_rules(self):
        """What a browser asks is compared with each: so both have bounds, and the rules that are there stay."""
        rules = [{"AllowedOrigins": ["*"], "AllowedMethods": ["GET"], "AllowedHeaders": [f"x-{number:08}-{'y' * 80}" for number in range(900)]}]
        with self.assertRaisesRegex(ClientError, "MalformedXML"):
            self.s3.put_bucket_cors(Bucket="some", CORSConfiguration={"CORSRules": rules})
        self.assertEqual(self.s3.get_bucket_cors(Bucket="some")["CORSRules"], RULES)
        for count, status in ((100, 403), (101, 400)):
            self.assertEqual(self.leave("https://nobody.example", "DELETE", ",".join(f"x-{number}" for number in range(count)))[0], status)

    def test_leave(self):
        """By origin, method and headers of one rule; nobody learns what is there."""
        shop = "https://shop.example"
        self.assertEqual(self.leave(shop, "PUT", "Content-Type, x-amz-meta-a"), (200, shop, "content-type, x-amz-meta-a"))
        self.assertEqual(self.leave("https://eu.shop.example", "GET"), (200, "https://eu.shop.example", None))
        self.assertEqual(self.leave("https://any.where", "HEAD"), (200, "*", None))
        for origin, method, wanted, path in (
            (shop, "DELETE", "", "/some/a"), (shop, "PUT", "authorization", "/some/a"), ("https://evil.example", "GET", "", "/some/a"), ("https://any.where", "HEAD", "x-a", "/some/a"),
            (shop, "GET", "", "/none/a"), (shop, "GET", "", "/missing/a"), (shop, "GET", "", "/UPPER/a"),
        ):  # fmt: skip
            self.assertEqual(self.leave(origin, method, wanted, path), (403, None, None), (origin, method, wanted, path))
        self.assertEqual(self.leave(shop, "PATCH")[0], 400)
        self.assertEqual(self.leave(shop, "PUT", path="/")[0], 403)
        _, headers, _ = self.ask("OPTIONS", "/some", Origin=shop, Access_Control_Request_Method="GET")
        told = [headers.get(f"access-control-{name}") for name in ("allow-methods", "allow-credentials", "max-age", "expose-headers")]
        self.assertEqual((told, headers["vary"]), (["PUT, GET", "true", "60", "ETag, x-amz-version-id"], cors.VARY))

    def test_leave_for_signed_urls(self):
        """A browser asks by the URL, whose signature is of another method."""
        url = self.s3.generate_presigned_url("put_object", {"Bucket": "some", "Key": "b"})
        self.assertEqual(self.leave("https://shop.example", "PUT", path=url[len(self.gateway.url) :])[0], 200)

    def test_answers(self):
        """Also of errors and ranges; to an origin that is none of the rules' nothing is told, and the request is done."""
        get = self.s3.generate_presigned_url("get_object", {"Bucket": "some", "Key": "a"})[len(self.gateway.url) :]
        missing = self.s3.generate_presigned_url("get_object", {"Bucket": "some", "Key": "missing"})[len(self.gateway.url) :]
        shop, name = {"Origin": "https://shop.example"}, "access-control-allow-origin"
        for path, more, status in ((get, {}, 200), (get, {"Range": "bytes=1-2"}, 206), (get, {"If_None_Match": "*"}, 304), (missing, {}, 404)):
            found, headers, _ = self.ask("GET", path, **shop, **more)
            self.assertEqual((found, headers.get(name), headers.get("access-control-expose-headers")), (status, shop["Origin"], "ETag, x-amz-version-id"), path)
        for origin in ("https://evil.example", "null", "https://any.where"):
            found, headers, body = self.ask("GET", get, Origin=origin)
            self.assertEqual((found, headers.get(name), body), (200, None, b"hello"))
        self.assertNotIn(name, self.ask("GET", get)[1])
        put = self.s3.generate_presigned_url("put_object", {"Bucket": "some", "Key": "put"})
        told = urllib.request.urlopen(urllib.request.Request(put, b"x", {**shop, "Content-Type": ""}, method="PUT"))
        self.assertEqual((told.status, told.headers[name]), (200, shop["Origin"]))

    def test_who_signs_nothing_asks_one_at_a_time(self):
        """Leave that many ask for at buckets that are not there hinders nobody long."""
        asked = [http.client.HTTPConnection(self.gateway.url[7:]) for _ in range(100)]
        for number, each in enumerate(asked):
            each.request("OPTIONS", f"/bucket-{number}/a", headers={"Origin": "https://a", "Access-Control-Request-Method": "GET"})
        begun = time.monotonic()
        self.assertEqual(self.s3.get_object(Bucket="some", Key="a")["Body"].read(), b"hello")
        self.assertLess(time.monotonic() - begun, longer(10))
        self.assertEqual({each.getresponse().status for each in asked}, {403})
        self.assertNotIn("Traceback", self.gateway.told())


if __name__ == "__main__":
    unittest.main()
