"""An endpoint by boto3, operation for operation, and by requests that boto3 does not make. GRIDFS_S3 is its URL, GRIDFS_S3_SECRET the secret of the
access key `carol`; without them a stand-in for a grid is started with a gateway."""

import base64
import contextlib
import hashlib
import http.client
import io
import os
import subprocess
import sys
import time
import unittest
import urllib.request
import zlib
from concurrent.futures import ThreadPoolExecutor
from urllib.parse import urlencode, urlsplit
from xml.etree import ElementTree

import boto3
import crcmod.predefined
from botocore.auth import S3SigV4Auth
from botocore.awsrequest import AWSRequest
from botocore.client import Config
from botocore.credentials import Credentials
from botocore.exceptions import ClientError

sys.path.insert(0, os.path.dirname(os.path.abspath(__file__)))
from busy import longer
import endpoint
from gridfs_client.asking import ask_plan
from gridfs_client.layout import layout_of
from gridfs_client.names import NamedFiles
from gridfs_client.opening import OpenSessions
from gridfs_client.settings import Settings

URL, SECRET = os.environ.get("GRIDFS_S3", ""), os.environ.get("GRIDFS_S3_SECRET", endpoint.SECRET)
ACCESS = os.environ.get("GRIDFS_S3_ACCESS", "carol")
RACES = 12
ROOM = None  # the folder of a stand-in
MOST = int(os.environ.get("GRIDFS_S3_MOST", 1 << 30))  # bytes of the longest contents, for a grid that is slow
IS_BEHIND = "GRIDFS_S3_FRONT" in os.environ  # nginx, which answers for itself where no tenant is meant
IS_ONE_OF_SEVERAL = "GRIDFS_S3_SEVERAL" in os.environ  # gateways of the tenant
is_long = unittest.skipIf(MOST < 10_000_000, "contents of several MB are left out")


def setUpModule():
    global URL, ROOM
    if not URL:
        ROOM = unittest.enterModuleContext(endpoint.stand_in())
        (gateway,) = unittest.enterModuleContext(endpoint.gateways(ROOM))
        URL = gateway.url


def client(access=ACCESS, secret=SECRET, retries=0):
    return boto3.client(
        "s3", endpoint_url=URL, aws_access_key_id=access, aws_secret_access_key=secret, region_name="us-east-1",
        config=Config(signature_version="s3v4", s3={"addressing_style": "path"}, retries={"max_attempts": retries}, read_timeout=longer(120)),
    )  # fmt: skip


class Case(unittest.TestCase):
    @classmethod
    def setUpClass(cls):
        cls.s3, cls.bucket = client(), f"try-{os.getpid()}-{cls.__name__.lower()}"
        cls.s3.create_bucket(Bucket=cls.bucket)

    @classmethod
    def tearDownClass(cls):
        empty(cls.s3, cls.bucket)
        cls.s3.delete_bucket(Bucket=cls.bucket)

    def put(self, key, body=b"", **more):
        return self.s3.put_object(Bucket=self.bucket, Key=key, Body=body, **more)

    def get(self, key, **more):
        return self.s3.get_object(Bucket=self.bucket, Key=key, **more)

    def fails(self, code, call, **words):
        with self.assertRaises(ClientError) as fault:
            call(**words)
        self.assertEqual(fault.exception.response["Error"]["Code"], code)
        return fault.exception.response


def told_sum(algorithm, content):
    """A checksum as a header has it."""
    sums = {"crc32": lambda: zlib.crc32(content).to_bytes(4, "big"), "crc32c": lambda: crcmod.predefined.mkPredefinedCrcFun("crc-32c")(content).to_bytes(4, "big"),
            "crc64nvme": lambda: crcmod.mkCrcFun(0x1AD93D23594C93659, initCrc=0, xorOut=(1 << 64) - 1)(content).to_bytes(8, "big")}  # fmt: skip
    return base64.b64encode(sums[algorithm]() if algorithm in sums else hashlib.new(algorithm, content).digest()).decode()


def empty(s3, bucket):
    for upload in s3.list_multipart_uploads(Bucket=bucket).get("Uploads", []):
        s3.abort_multipart_upload(Bucket=bucket, Key=upload["Key"], UploadId=upload["UploadId"])
    while found := s3.list_objects_v2(Bucket=bucket).get("Contents"):
        s3.delete_objects(Bucket=bucket, Delete={"Objects": [{"Key": each["Key"]} for each in found]})


class Words(Case):
    """What OpenStack's suites of S3 asked for, and was told otherwise."""

    def test_ids(self):
        self.put("a", b"b")
        told = [self.get("a"), self.s3.list_objects_v2(Bucket=self.bucket), self.fails("NoSuchKey", self.get, key="no-such")]
        for each in told:
            self.assertTrue(each["ResponseMetadata"]["HostId"])
            self.assertEqual(each["ResponseMetadata"]["HTTPHeaders"]["x-amz-id-2"], each["ResponseMetadata"]["HostId"])
        self.assertEqual(told[-1]["Error"]["Message"], "The specified key does not exist.")

    def test_blank_words(self):
        self.assertNotIn("Delimiter", self.s3.list_objects_v2(Bucket=self.bucket, Delimiter="", Prefix=""))
        told = self.s3.list_object_versions(Bucket=self.bucket, Delimiter="", KeyMarker="", Prefix="")
        self.assertEqual((told["Delimiter"], told["KeyMarker"], told["Prefix"]), ("", "", ""))

    def test_no_key(self):
        self.put("stays")
        s3 = boto3.client("s3", endpoint_url=URL, aws_access_key_id=ACCESS, aws_secret_access_key=SECRET, region_name="us-east-1", config=Config(s3={"addressing_style": "path"}, parameter_validation=False))
        for listed in ([{"Key": ""}], [{"Key": "stays"}, {"Key": ""}]):
            self.fails("UserKeyMustBeSpecified", s3.delete_objects, Bucket=self.bucket, Delete={"Objects": listed})
        self.get("stays")

    def test_source_of_a_copy(self):
        self.put("from", b"what is copied")
        for words in ("?nonsense", "?versionId=null&nonsense", "?nonsense&versionId=null"):
            s3 = client()
            s3.meta.events.register("before-call.s3.CopyObject", lambda params, words=words, **_: params["headers"].update({"x-amz-copy-source": f"{self.bucket}/from{words}"}))
            self.fails("InvalidArgument", s3.copy_object, Bucket=self.bucket, Key="to", CopySource="any/thing")
        self.fails("NoSuchKey", self.get, key="to")
        self.s3.copy_object(Bucket=self.bucket, Key="to", CopySource=f"{self.bucket}/from?versionId=null")
        self.assertEqual(self.get("to")["Body"].read(), b"what is copied")

    def test_times(self):
        self.put("a", b"b")
        (listed,) = self.s3.list_objects_v2(Bucket=self.bucket, Prefix="a")["Contents"]
        self.assertEqual(listed["LastModified"], self.get("a")["LastModified"])

    def test_next_uploads(self):
        told = self.s3.list_multipart_uploads(Bucket=self.bucket)
        self.assertEqual((told["NextKeyMarker"], told["NextUploadIdMarker"]), ("", ""))
        upload = self.s3.create_multipart_upload(Bucket=self.bucket, Key="a")["UploadId"]
        told = self.s3.list_multipart_uploads(Bucket=self.bucket)
        self.assertEqual((told["NextKeyMarker"], told["NextUploadIdMarker"], told["IsTruncated"]), ("a", upload, False))

    def test_status_of_versions(self):
        for state in ("Disabled", "enabled", ""):
            self.fails("MalformedXML", self.s3.put_bucket_versioning, Bucket=self.bucket, VersioningConfiguration={"Status": state})
        self.assertNotIn("Status", self.s3.get_bucket_versioning(Bucket=self.bucket))


class Buckets(Case):
    def test_buckets(self):
        names = [each["Name"] for each in self.s3.list_buckets()["Buckets"]]
        self.assertIn(self.bucket, names)
        self.assertEqual(self.s3.head_bucket(Bucket=self.bucket)["ResponseMetadata"]["HTTPStatusCode"], 200)
        self.assertIsNone(self.s3.get_bucket_location(Bucket=self.bucket)["LocationConstraint"])
        self.assertNotIn("Status", self.s3.get_bucket_versioning(Bucket=self.bucket))
        self.assertEqual(self.s3.get_bucket_acl(Bucket=self.bucket)["Grants"][0]["Permission"], "FULL_CONTROL")
        self.fails("BucketAlreadyOwnedByYou", self.s3.create_bucket, Bucket=self.bucket)
        self.fails("404", self.s3.head_bucket, Bucket="no-such-bucket")
        self.fails("NoSuchBucket", self.s3.list_objects_v2, Bucket="no-such-bucket")
        self.fails("NoSuchBucket", self.s3.put_object, Bucket="no-such-bucket", Key="a", Body=b"")
        self.fails("NoSuchBucket", self.s3.delete_bucket, Bucket="no-such-bucket")
        self.put("a")
        self.fails("BucketNotEmpty", self.s3.delete_bucket, Bucket=self.bucket)

    def test_region(self):
        """Any will do where the gateway was told none, also one that is a host."""
        name = f"{self.bucket}-elsewhere"
        self.s3.create_bucket(Bucket=name, CreateBucketConfiguration={"LocationConstraint": "eu-central-1"})
        for region in ("eu-central-1", "s3.example", "127.0.0.1"):
            request = AWSRequest("GET", f"{URL}/", {"X-Amz-Content-SHA256": "UNSIGNED-PAYLOAD"})
            signer = S3SigV4Auth(Credentials(ACCESS, SECRET), "s3", region)
            signer.payload = lambda _: "UNSIGNED-PAYLOAD"
            signer.add_auth(request)
            with urllib.request.urlopen(urllib.request.Request(f"{URL}/", headers=dict(request.headers))) as told:
                self.assertIn(f"<Name>{name}</Name>".encode(), told.read())
        self.s3.delete_bucket(Bucket=name)

    def test_some_buckets(self):
        """By their prefix, and so many at a time."""
        names = [f"{self.bucket}-{letter}" for letter in "abc"]
        for name in names:
            self.s3.create_bucket(Bucket=name)
        found, words = [], {"prefix": f"{self.bucket}-", "max-buckets": "2"}
        while words:
            status, told, _ = Requests.ask(self, "GET", "/?" + urlencode(words))
            self.assertEqual(status, 200, told)
            tree = ElementTree.fromstring(told)
            text = lambda path: [each.text for each in tree.iterfind("/".join(f"{{*}}{name}" for name in path.split("/")))]
            found.append(text("Buckets/Bucket/Name"))
            self.assertEqual(text("Prefix"), [f"{self.bucket}-"])
            token = text("ContinuationToken")
            words = {**words, "continuation-token": token[0]} if token else None
        self.assertEqual(found, [names[:2], names[2:]])
        for query, code in (("max-buckets=0", "InvalidArgument"), ("continuation-token=%C3%BC", "InvalidArgument")):
            self.assertIn(f"<Code>{code}<".encode(), Requests.ask(self, "GET", f"/?{query}")[1])
        self.assertNotIn(names[0].encode(), Requests.ask(self, "GET", "/?bucket-region=elsewhere")[1])
        for name in names:
            self.s3.delete_bucket(Bucket=name)

    def test_what_is_not_done(self):
        for code, call, words in [
            ("NotImplemented", self.s3.get_bucket_logging, {}),
            ("InvalidEncryptionAlgorithmError", self.s3.put_object, {"Key": "a", "Body": b"", "ServerSideEncryption": "AES256"}),
            ("AccessControlListNotSupported", self.s3.put_object, {"Key": "a", "Body": b"", "ACL": "public-read"}),
            ("InvalidStorageClass", self.s3.put_object, {"Key": "a", "Body": b"", "StorageClass": "GLACIER"}),
        ]:  # fmt: skip
            self.fails(code, call, Bucket=self.bucket, **words)

    def test_what_was_never_given(self):
        for code, call in [
            ("NoSuchBucketPolicy", self.s3.get_bucket_policy), ("NoSuchCORSConfiguration", self.s3.get_bucket_cors), ("NoSuchTagSet", self.s3.get_bucket_tagging),
            ("NoSuchLifecycleConfiguration", self.s3.get_bucket_lifecycle_configuration), ("NoSuchPublicAccessBlockConfiguration", self.s3.get_public_access_block),
            ("ObjectLockConfigurationNotFoundError", self.s3.get_object_lock_configuration), ("NoSuchWebsiteConfiguration", self.s3.get_bucket_website),
        ]:  # fmt: skip
            self.fails(code, call, Bucket=self.bucket)
        self.put("a")
        self.put("b")
        self.assertEqual(self.s3.get_object_tagging(Bucket=self.bucket, Key="a")["TagSet"], [])
        self.fails("NoSuchKey", self.s3.get_object_tagging, Bucket=self.bucket, Key="none")
        told = self.s3.list_object_versions(Bucket=self.bucket, MaxKeys=1)
        self.assertEqual([(each["Key"], each["VersionId"], each["IsLatest"]) for each in told["Versions"]], [("a", "null", True)])
        more = self.s3.list_object_versions(Bucket=self.bucket, KeyMarker=told["NextKeyMarker"], VersionIdMarker=told["NextVersionIdMarker"])
        self.assertEqual([each["Key"] for each in more["Versions"]], ["b"])
        self.s3.delete_objects(Bucket=self.bucket, Delete={"Objects": [{"Key": "b", "VersionId": "null"}]})
        self.assertNotIn("Versions", self.s3.list_object_versions(Bucket=self.bucket, Prefix="b"))


class Objects(Case):
    def test_contents_of_all_sizes(self):
        for size in (each for each in (0, 1, 40, 41, 1_000, 4_096, 70_000, 262_144, 1_048_576, 1_048_577, 5_000_000) if each <= MOST):
            content = os.urandom(size)
            told = self.put(f"size/{size}", content)
            md5 = hashlib.md5(content).hexdigest()
            self.assertEqual(told["ETag"], f'"{md5}"')
            found = self.get(f"size/{size}")
            self.assertEqual(found["Body"].read(), content)
            self.assertEqual((found["ETag"], found["ContentLength"], found["ContentType"]), (f'"{md5}"', size, "binary/octet-stream"))
            self.assertLess(abs(found["LastModified"].timestamp() - time.time()), 100)

    def test_words_beside_a_content(self):
        self.put("a", b"hi", ContentType="text/plain; charset=utf-8", Metadata={"one": "1 & 2 = {3} ~", "two": ""}, CacheControl="no-store",
                 ContentDisposition='attachment; filename="a b"', ContentEncoding="gzip", ContentLanguage="de")  # fmt: skip
        for found in (self.get("a"), self.s3.head_object(Bucket=self.bucket, Key="a")):
            self.assertEqual(found["Metadata"], {"one": "1 & 2 = {3} ~", "two": ""})
            told = [found[each] for each in ("ContentType", "CacheControl", "ContentDisposition", "ContentEncoding", "ContentLanguage")]
            self.assertEqual(told, ["text/plain; charset=utf-8", "no-store", 'attachment; filename="a b"', "gzip", "de"])
        self.fails("MetadataTooLarge", self.put, key="b", body=b"", Metadata={"a": "x" * 2_100})

    def test_keys(self):
        keys = ["a", "a/", "a//b", "/a", "a/../b", "./a", "x" * 1_024, "ü" * 512, "a\nb", "a b+c%2F&=?#", "%", "日本/語", "\x7f", "a" * 230 + "/", "🙂"]
        for key in keys:
            self.put(key, key.encode())
        for key in keys:
            self.assertEqual(self.get(key)["Body"].read(), key.encode(), key)
        listed = [each["Key"] for each in self.s3.list_objects_v2(Bucket=self.bucket)["Contents"]]
        self.assertEqual([each for each in listed if each in keys], sorted(keys, key=str.encode))
        self.fails("KeyTooLongError", self.put, key="x" * 1_025)
        for key in keys:
            self.s3.delete_object(Bucket=self.bucket, Key=key)
            self.fails("NoSuchKey", self.get, key=key)

    @is_long
    def test_ranges(self):
        content = os.urandom(3_000_000)
        self.put("long", content)
        for text, part in [
            ("bytes=0-0", slice(0, 1)), ("bytes=5-9", slice(5, 10)), ("bytes=1048550-1048600", slice(1_048_550, 1_048_601)),
            ("bytes=-7", slice(-7, None)), ("bytes=2999999-", slice(2_999_999, None)), ("bytes=100-9999999", slice(100, None)),
            ("bytes=-99999999", slice(None)),
        ]:  # fmt: skip
            found = self.get("long", Range=text)
            self.assertEqual(found["Body"].read(), content[part], text)
            self.assertEqual(found["ResponseMetadata"]["HTTPStatusCode"], 206)
            start = range(len(content))[part].start
            self.assertEqual(found["ContentRange"], f"bytes {start}-{start + found['ContentLength'] - 1}/3000000")
        self.fails("InvalidRange", self.get, key="long", Range="bytes=3000000-")

    def test_conditions_of_reads(self):
        etag = self.put("c", b"hi")["ETag"]
        self.assertEqual(self.get("c", IfMatch=etag)["Body"].read(), b"hi")
        self.fails("PreconditionFailed", self.get, key="c", IfMatch='"0"')
        self.fails("304", self.get, key="c", IfNoneMatch=etag)
        self.get("c", IfNoneMatch='"0"')
        self.fails("304", self.get, key="c", IfModifiedSince=time.time() + 100)
        self.get("c", IfModifiedSince=time.time() - 1_000)
        self.fails("PreconditionFailed", self.get, key="c", IfUnmodifiedSince=time.time() - 1_000)

    @unittest.skipIf(IS_ONE_OF_SEVERAL, "conditional puts need a gateway that has all sessions")
    def test_conditions_of_puts(self):
        def conditional(header, value):
            def add(request, **_):
                request.headers[header] = value

            s3 = client()
            s3.meta.events.register("before-sign.s3.PutObject", add)
            return s3

        once, key = conditional("If-None-Match", "*"), {"Bucket": self.bucket, "Key": "once"}
        etag = once.put_object(**key, Body=b"one")["ETag"]
        self.fails("PreconditionFailed", once.put_object, **key, Body=b"two")
        self.assertEqual(self.get("once")["Body"].read(), b"one")
        conditional("If-Match", etag).put_object(**key, Body=b"three")
        self.fails("PreconditionFailed", conditional("If-Match", etag).put_object, **key, Body=b"four")
        self.fails("NoSuchKey", conditional("If-Match", etag).put_object, Bucket=self.bucket, Key="nobody", Body=b"")
        with ThreadPoolExecutor(8) as pool:
            def attempt(number):
                try:
                    once.put_object(Bucket=self.bucket, Key=f"race {number // 16}", Body=b"%d" % number)
                    return number
                except ClientError as fault:
                    self.assertEqual(fault.response["Error"]["Code"], "PreconditionFailed")

            won = [each for each in pool.map(attempt, range(16 * RACES)) if each is not None]
        self.assertEqual([each // 16 for each in won], list(range(RACES)))
        for each in won:
            self.assertEqual(self.get(f"race {each // 16}")["Body"].read(), b"%d" % each)

    def test_removals(self):
        self.put("r", b"hi")
        self.s3.delete_object(Bucket=self.bucket, Key="r")
        self.fails("NoSuchKey", self.get, key="r")
        self.fails("404", self.s3.head_object, Bucket=self.bucket, Key="r")
        self.s3.delete_object(Bucket=self.bucket, Key="r")  # (which is no fault)
        for key in ("r1", "r2", "r3&<"):
            self.put(key)
        told = self.s3.delete_objects(Bucket=self.bucket, Delete={"Objects": [{"Key": key} for key in ("r1", "r3&<", "never")]})
        self.assertEqual(sorted(each["Key"] for each in told["Deleted"]), ["never", "r1", "r3&<"])
        self.assertEqual([each["Key"] for each in self.s3.list_objects(Bucket=self.bucket, Prefix="r2")["Contents"]], ["r2"])

    def test_copies(self):
        for size in (each for each in (10, 100_000, 2_500_000) if each <= MOST):
            content = os.urandom(size)
            etag = self.put(f"from {size}", content, ContentType="text/a", Metadata={"a": "b"})["ETag"]
            told = self.s3.copy_object(Bucket=self.bucket, Key=f"to {size}", CopySource={"Bucket": self.bucket, "Key": f"from {size}"})
            self.assertEqual(told["CopyObjectResult"]["ETag"], etag)
            found = self.get(f"to {size}")
            self.assertEqual((found["Body"].read(), found["Metadata"], found["ContentType"]), (content, {"a": "b"}, "text/a"))
            # other words, in place
            self.s3.copy_object(Bucket=self.bucket, Key=f"to {size}", CopySource={"Bucket": self.bucket, "Key": f"to {size}"},
                                MetadataDirective="REPLACE", Metadata={"c": "d"}, ContentType="text/b")  # fmt: skip
            found = self.get(f"to {size}")
            self.assertEqual((found["Body"].read(), found["Metadata"], found["ContentType"], found["ETag"]), (content, {"c": "d"}, "text/b", etag))
        source = {"Bucket": self.bucket, "Key": "from 10"}
        self.fails("InvalidRequest", self.s3.copy_object, Bucket=self.bucket, Key="from 10", CopySource=source)
        self.fails("PreconditionFailed", self.s3.copy_object, Bucket=self.bucket, Key="x", CopySource=source, CopySourceIfMatch='"0"')
        self.fails("NoSuchKey", self.s3.copy_object, Bucket=self.bucket, Key="x", CopySource={"Bucket": self.bucket, "Key": "never"})

    def test_signed_urls(self):
        self.put("signed key+", b"hello")
        url = self.s3.generate_presigned_url("get_object", {"Bucket": self.bucket, "Key": "signed key+", "ResponseContentType": "text/plain"})
        with urllib.request.urlopen(url) as told:
            self.assertEqual((told.read(), told.headers["Content-Type"]), (b"hello", "text/plain"))
        url = self.s3.generate_presigned_url("put_object", {"Bucket": self.bucket, "Key": "by url"})
        with urllib.request.urlopen(urllib.request.Request(url, b"there", {"Content-Type": ""}, method="PUT")):
            self.assertEqual(self.get("by url")["Body"].read(), b"there")
        for wrong in (url.replace("by%20url", "by%20url2"), url + "&x=y", url.replace("Expires=3600", "Expires=3601")):
            with self.assertRaises(urllib.error.HTTPError) as fault:
                urllib.request.urlopen(urllib.request.Request(wrong, b"there", {"Content-Type": ""}, method="PUT"))
            self.assertEqual(fault.exception.code, 403)
        late = self.s3.generate_presigned_url("get_object", {"Bucket": self.bucket, "Key": "signed key+"}, ExpiresIn=1)
        time.sleep(2.1)
        with self.assertRaises(urllib.error.HTTPError) as fault:
            urllib.request.urlopen(late)
        self.assertEqual(fault.exception.code, 403)
        post = self.s3.generate_presigned_post(self.bucket, "posted")
        with self.assertRaises(urllib.error.HTTPError) as fault:
            urllib.request.urlopen(urllib.request.Request(post["url"], b"x", method="POST"))
        self.assertEqual(fault.exception.code, 403)

    @is_long
    def test_wrong_digests_change_nothing(self):
        self.put("d", b"old")
        wrong = base64.b64encode(hashlib.md5(b"other").digest()).decode()
        self.fails("BadDigest", self.put, key="d", body=b"new", ContentMD5=wrong)
        self.fails("InvalidDigest", self.put, key="d", body=b"new", ContentMD5="xyz")
        self.fails("BadDigest", self.put, key="d", body=os.urandom(2_000_000), ContentMD5=wrong)
        self.put("d2", b"new", ContentMD5=base64.b64encode(hashlib.md5(b"new").digest()).decode())
        self.assertEqual(self.get("d")["Body"].read(), b"old")


class Listings(Case):
    def test_listings(self):
        keys = sorted([f"a/{n:02}" for n in range(12)] + [f"b/{n}/x" for n in range(3)] + ["b", "c", "z/", "z/1", "ü"], key=str.encode)
        with ThreadPoolExecutor(8) as pool:
            list(pool.map(self.put, keys))
        for name in ("list_objects", "list_objects_v2"):
            for size in (1, 2, 5, 1_000):
                pages = self.s3.get_paginator(name).paginate(Bucket=self.bucket, PaginationConfig={"PageSize": size})
                self.assertEqual([each["Key"] for page in pages for each in page.get("Contents", [])], keys, (name, size))
                found = []
                for page in self.s3.get_paginator(name).paginate(Bucket=self.bucket, Delimiter="/", PaginationConfig={"PageSize": size}):
                    found += [each["Key"] for each in page.get("Contents", [])] + [each["Prefix"] for each in page.get("CommonPrefixes", [])]
                self.assertEqual(sorted(found), ["a/", "b", "b/", "c", "z/", "ü"], (name, size))
        told = self.s3.list_objects_v2(Bucket=self.bucket, Prefix="b/", Delimiter="/")
        self.assertEqual([each["Prefix"] for each in told["CommonPrefixes"]], ["b/0/", "b/1/", "b/2/"])
        told = self.s3.list_objects_v2(Bucket=self.bucket, StartAfter="b/1/x", MaxKeys=2)
        self.assertEqual(([each["Key"] for each in told["Contents"]], told["IsTruncated"], told["KeyCount"]), (["b/2/x", "c"], True, 2))
        told = self.s3.list_objects_v2(Bucket=self.bucket, MaxKeys=0)
        self.assertEqual((told["KeyCount"], told["IsTruncated"]), (0, False))
        self.assertEqual(self.s3.list_objects_v2(Bucket=self.bucket, Prefix="nothing")["KeyCount"], 0)


class Uploads(Case):
    def upload(self, key, parts, **more):
        upload = self.s3.create_multipart_upload(Bucket=self.bucket, Key=key, **more)["UploadId"]
        words = {"Bucket": self.bucket, "Key": key, "UploadId": upload}
        told = {number: self.s3.upload_part(**words, PartNumber=number, Body=body)["ETag"] for number, body in parts.items()}
        return words, told

    def complete(self, words, told):
        parts = [{"PartNumber": number, "ETag": etag} for number, etag in told.items()]
        return self.s3.complete_multipart_upload(**words, MultipartUpload={"Parts": parts})

    def test_upload(self):
        parts = {number: os.urandom(size) for number, size in ((9, min(MOST, 700_000)), (2, min(MOST, 1_300_000)), (5, 10), (10_000, 300))}
        words, told = self.upload("multi", parts, Metadata={"a": "b"}, ContentType="x/y")
        listed = self.s3.list_parts(**words)["Parts"]
        self.assertEqual([(each["PartNumber"], each["ETag"], each["Size"]) for each in listed], [(n, told[n], len(parts[n])) for n in sorted(parts)])
        self.assertEqual([each["PartNumber"] for each in self.s3.list_parts(**words, MaxParts=2, PartNumberMarker=2)["Parts"]], [5, 9])
        self.assertEqual([each["UploadId"] for each in self.s3.list_multipart_uploads(Bucket=self.bucket)["Uploads"]], [words["UploadId"]])
        self.fails("NoSuchKey", self.get, key="multi")
        told[2] = self.s3.upload_part(**words, PartNumber=2, Body=parts[5])["ETag"]  # again, with another content
        self.fails("InvalidPartOrder", self.complete, words=words, told=told)
        self.fails("InvalidPart", self.complete, words=words, told={3: told[2]})
        self.fails("InvalidPart", self.complete, words=words, told={2: told[9]})
        chosen = {number: told[number] for number in (2, 5, 9)}
        done = self.complete(words, chosen)
        content = parts[5] + parts[5] + parts[9]
        md5 = hashlib.md5(b"".join(hashlib.md5(each).digest() for each in (parts[5], parts[5], parts[9]))).hexdigest()
        self.assertEqual(done["ETag"], f'"{md5}-3"')
        found = self.get("multi")
        self.assertEqual((found["Body"].read(), found["ETag"], found["Metadata"], found["ContentType"]), (content, f'"{md5}-3"', {"a": "b"}, "x/y"))
        self.assertEqual(self.get("multi", Range="bytes=8-30")["Body"].read(), content[8:31])
        self.assertEqual(self.complete(words, chosen)["ETag"], done["ETag"])  # asked again
        self.fails("NoSuchUpload", self.s3.list_parts, **words)
        self.s3.copy_object(Bucket=self.bucket, Key="multi", CopySource={"Bucket": self.bucket, "Key": "multi"}, MetadataDirective="REPLACE", Metadata={"e": "f"})
        found = self.get("multi")
        # (a gateway that has not the session of the content puts it anew, as one)
        etag = found["ETag"] if IS_ONE_OF_SEVERAL else f'"{md5}-3"'
        self.assertEqual((found["Body"].read(), found["ETag"], found["Metadata"]), (content, etag, {"e": "f"}))

    def test_keys_that_say_where_they_stand(self):
        """A name that ends so stands in the page that it says itself. Its parts are beside it, and are its own once it is complete."""
        body = os.urandom(min(MOST, 200_000))
        for letter in "BCD":
            words, told = self.upload(f"a/={letter * 43}", {1: body})
            self.complete(words, told)
            self.assertNotIn("Uploads", self.s3.list_multipart_uploads(Bucket=self.bucket))
            self.fails("NoSuchUpload", self.s3.abort_multipart_upload, **words)
            self.put("another", os.urandom(len(body)))
            self.assertEqual(self.get(words["Key"])["Body"].read(), body)

    def test_given_up(self):
        words, told = self.upload("never", {1: b"x" * 2_000})
        self.s3.abort_multipart_upload(**words)
        self.fails("NoSuchUpload", self.s3.upload_part, **words, PartNumber=2, Body=b"")
        self.fails("NoSuchUpload", self.complete, words=words, told=told)
        self.fails("NoSuchUpload", self.s3.abort_multipart_upload, **words)
        self.fails("NoSuchUpload", self.s3.list_parts, **{**words, "UploadId": "../../x"})
        self.assertNotIn("Uploads", self.s3.list_multipart_uploads(Bucket=self.bucket, Prefix="never"))

    @is_long
    def test_transfer_and_part_copies(self):
        content = os.urandom(11_000_000)
        self.s3.upload_fileobj(io.BytesIO(content), self.bucket, "big", Config=boto3.s3.transfer.TransferConfig(multipart_threshold=5 << 20, multipart_chunksize=5 << 20))
        found = io.BytesIO()
        self.s3.download_fileobj(self.bucket, "big", found, Config=boto3.s3.transfer.TransferConfig(multipart_threshold=2 << 20, multipart_chunksize=2 << 20))
        self.assertEqual(found.getvalue(), content)
        upload = self.s3.create_multipart_upload(Bucket=self.bucket, Key="joined")["UploadId"]
        words = {"Bucket": self.bucket, "Key": "joined", "UploadId": upload}
        source = {"Bucket": self.bucket, "Key": "big"}
        one = self.s3.upload_part_copy(**words, PartNumber=1, CopySource=source, CopySourceRange="bytes=6000000-9999999")["CopyPartResult"]["ETag"]
        two = self.s3.upload_part_copy(**words, PartNumber=2, CopySource=source, CopySourceRange="bytes=0-99")["CopyPartResult"]["ETag"]
        self.complete(words, {1: one, 2: two})
        self.assertEqual(self.get("joined")["Body"].read(), content[6_000_000:10_000_000] + content[:100])


class Checksums(Case):
    """Kept with the object, and given back to whoever asks."""

    def test_puts_and_copies(self):
        content = os.urandom(min(MOST, 100_000))
        crc, sha = (base64.b64encode(each).decode() for each in (zlib.crc32(content).to_bytes(4, "big"), hashlib.sha256(content).digest()))
        for key, words, kept in (("crc", {"ChecksumAlgorithm": "CRC32"}, {"ChecksumCRC32": crc}), ("sha", {"ChecksumSHA256": sha}, {"ChecksumSHA256": sha}), ("none", {}, {})):
            self.assertEqual(sums_in(self.put(key, content, **words)), kept)
            for call in (self.get, lambda key, **more: self.s3.head_object(Bucket=self.bucket, Key=key, **more)):
                self.assertEqual(sums_in(call(key, ChecksumMode="ENABLED")), kept)
                self.assertEqual(sums_in(call(key)), {})
            self.assertEqual(sums_in(self.get(key, ChecksumMode="ENABLED", Range="bytes=1-5")), {})  # (it is not of these bytes)
            for more, found in (({}, kept), ({"ChecksumAlgorithm": "SHA256"}, {"ChecksumSHA256": sha})):
                self.s3.copy_object(Bucket=self.bucket, Key="copy", CopySource=f"{self.bucket}/{key}", **more)
                self.assertEqual(sums_in(self.get("copy", ChecksumMode="ENABLED")), found)
            self.s3.copy_object(Bucket=self.bucket, Key=key, CopySource=f"{self.bucket}/{key}", MetadataDirective="REPLACE", Metadata={"a": "b"})
            self.assertEqual(sums_in(self.get(key, ChecksumMode="ENABLED")), kept)
        self.put("crc", b"other")
        self.assertEqual(sums_in(self.get("crc", ChecksumMode="ENABLED")), {})

    @is_long
    def test_long_copies(self):
        content = os.urandom(3_000_000)
        sha = base64.b64encode(hashlib.sha256(content).digest()).decode()
        self.put("long", content)
        self.s3.copy_object(Bucket=self.bucket, Key="copy", CopySource=f"{self.bucket}/long", ChecksumAlgorithm="SHA256")
        found = self.get("copy", ChecksumMode="ENABLED")
        self.assertEqual((found["ChecksumSHA256"], found["Body"].read()), (sha, content))

    def test_attributes(self):
        self.put("known", b"hello", ChecksumAlgorithm="SHA1")
        told = self.s3.get_object_attributes(Bucket=self.bucket, Key="known", ObjectAttributes=["ETag", "Checksum", "ObjectSize", "StorageClass", "ObjectParts"])
        sha = base64.b64encode(hashlib.sha1(b"hello").digest()).decode()
        self.assertEqual((told["ETag"], told["Checksum"], told["ObjectSize"], told["StorageClass"]), (hashlib.md5(b"hello").hexdigest(), {"ChecksumSHA1": sha}, 5, "STANDARD"))
        told = self.s3.get_object_attributes(Bucket=self.bucket, Key="known", ObjectAttributes=["ObjectSize"])
        self.assertEqual((told["ObjectSize"], "ETag" in told, "Checksum" in told), (5, False, False))
        words, told = Uploads.upload(self, "in parts", {1: b"a" * 70_000, 2: b"b" * 5, 3: b"c" * 300})
        Uploads.complete(self, words, told)
        parts = self.s3.get_object_attributes(Bucket=self.bucket, Key="in parts", ObjectAttributes=["ObjectParts"], MaxParts=2)["ObjectParts"]
        self.assertEqual((parts["TotalPartsCount"], parts["IsTruncated"], parts["NextPartNumberMarker"]), (3, True, 2))
        self.assertEqual([(each["PartNumber"], each["Size"]) for each in parts["Parts"]], [(1, 70_000), (2, 5)])
        parts = self.s3.get_object_attributes(Bucket=self.bucket, Key="in parts", ObjectAttributes=["ObjectParts"], PartNumberMarker=2)["ObjectParts"]
        self.assertEqual(([each["PartNumber"] for each in parts["Parts"]], parts["IsTruncated"]), ([3], False))
        for number, content in ((1, b"a" * 70_000), (2, b"b" * 5), (3, b"c" * 300)):
            found = self.s3.get_object(Bucket=self.bucket, Key="in parts", PartNumber=number)
            self.assertEqual((found["Body"].read(), found["PartsCount"], found["ResponseMetadata"]["HTTPStatusCode"]), (content, 3, 206))
            found = self.s3.head_object(Bucket=self.bucket, Key="in parts", PartNumber=number)
            self.assertEqual((found["ContentLength"], found["PartsCount"]), (len(content), 3))
        self.assertEqual(self.s3.get_object(Bucket=self.bucket, Key="known", PartNumber=1)["Body"].read(), b"hello")
        self.fails("InvalidPartNumber", self.s3.get_object, Bucket=self.bucket, Key="in parts", PartNumber=4)
        self.fails("InvalidRequest", self.s3.get_object, Bucket=self.bucket, Key="in parts", PartNumber=1, Range="bytes=0-1")
        self.fails("NoSuchKey", self.s3.get_object_attributes, Bucket=self.bucket, Key="none", ObjectAttributes=["ETag"])
        self.fails("InvalidArgument", self.s3.get_object_attributes, Bucket=self.bucket, Key="known", ObjectAttributes=["Anything"])


class Tags(Case):
    """They stand beside a content; a change of them leaves all else as it is."""

    GIVEN, OTHERS = {"one": "1", "two words": "ü / 日", "none": ""}, {"b:c": "d=e", "ü": "a+b"}

    def tags(self, key):
        return [(each["Key"], each["Value"]) for each in self.s3.get_object_tagging(Bucket=self.bucket, Key=key)["TagSet"]]

    def expect(self, key, wanted):
        """That an object has these tags, in their order, and is told with their number."""
        self.assertEqual(self.tags(key), list(wanted.items()))
        count = str(len(wanted)) if wanted else None
        for call in (self.get, self.s3.head_object):
            words = {"key": key} if call == self.get else {"Bucket": self.bucket, "Key": key}
            for more in ({}, {"Range": "bytes=0-0"}):
                self.assertEqual(call(**words, **more)["ResponseMetadata"]["HTTPHeaders"].get("x-amz-tagging-count"), count, (key, more))

    def give(self, key, tags, bucket=None):
        return self.s3.put_object_tagging(Bucket=bucket or self.bucket, Key=key, Tagging={"TagSet": [{"Key": name, "Value": value} for name, value in tags.items()]})

    def all_else(self, key):
        """What a change of tags leaves as it is."""
        found = self.get(key, ChecksumMode="ENABLED")
        told = {name: value for name, value in found["ResponseMetadata"]["HTTPHeaders"].items() if name not in ("date", "x-amz-request-id", "x-amz-id-2", "x-amz-tagging-count")}
        listed = self.s3.list_objects_v2(Bucket=self.bucket, Prefix=key)["Contents"]
        return found["Body"].read(), told, [(each["Key"], each["LastModified"], each["ETag"]) for each in listed]

    def objects(self):
        """Keys of objects of several kinds, which have no tags yet: contents in a line and in chunks, of parts, and under a digest."""
        words = {"Metadata": {"a": "b"}, "ContentType": "x/y", "CacheControl": "no-store"}
        self.put("short", b"hi", **words, ChecksumAlgorithm="CRC32")
        self.put("long", os.urandom(100_000), **words, ChecksumAlgorithm="SHA256")
        self.put("odd/", b"odd", **words)
        Uploads.complete(self, *Uploads.upload(self, "parts", {1: os.urandom(70_000), 2: os.urandom(80_000)}, **words))
        return "short", "long", "odd/", "parts"

    def test_puts(self):
        """Each brings all tags that the object has from then on."""
        for given in (self.GIVEN, self.OTHERS, {}):
            self.put("put", b"hi", Tagging=urlencode(given))
            self.expect("put", given)
        self.put("put", b"hi", Tagging="alone&&twice=1=2&plus=a+b")
        self.expect("put", {"alone": "", "twice": "1=2", "plus": "a b"})
        for text in ("a=1&a=2", "a=%01", "=1", "&".join(f"{number}=" for number in range(11))):
            self.fails("InvalidTag", self.put, key="put", body=b"other", Tagging=text)
        self.fails("InvalidArgument", self.put, key="put", body=b"other", Tagging="a=%FF")
        self.assertEqual(self.get("put")["Body"].read(), b"hi")

    def test_uploads(self):
        Uploads.complete(self, *Uploads.upload(self, "upload", {1: b"a" * 70_000, 2: b"b"}, Tagging=urlencode(self.GIVEN)))
        self.expect("upload", self.GIVEN)
        self.fails("InvalidTag", self.s3.create_multipart_upload, Bucket=self.bucket, Key="upload", Tagging="a=1&a=2")

    def test_copies(self):
        """They have the tags of their source, or those that they bring; also a copy onto itself, which moves no content."""
        for key in self.objects():
            self.s3.copy_object(Bucket=self.bucket, Key=key, CopySource={"Bucket": self.bucket, "Key": key}, TaggingDirective="REPLACE", Tagging=urlencode(self.GIVEN))
            self.expect(key, self.GIVEN)
            self.assertEqual(self.get(key)["Metadata"], {"a": "b"})
            for target in ("copy", key):
                copy = {"Bucket": self.bucket, "Key": target, "CopySource": {"Bucket": self.bucket, "Key": key}, "MetadataDirective": "REPLACE", "Metadata": {"c": "d"}}
                for more, wanted in (({}, self.GIVEN), ({"TaggingDirective": "REPLACE", "Tagging": urlencode(self.OTHERS)}, self.OTHERS), ({"TaggingDirective": "REPLACE"}, {})):
                    self.s3.copy_object(**copy, **more)
                    self.expect(target, wanted)
                    self.assertEqual(self.get(target)["Metadata"], {"c": "d"})
                    self.s3.copy_object(**{**copy, "Key": key, "CopySource": {"Bucket": self.bucket, "Key": key}}, TaggingDirective="REPLACE", Tagging=urlencode(self.GIVEN))
        copy = {"Bucket": self.bucket, "Key": "copy", "CopySource": f"{self.bucket}/short"}
        self.fails("InvalidRequest", self.s3.copy_object, **copy, Tagging="a=b")
        self.fails("InvalidRequest", self.s3.copy_object, **copy, TaggingDirective="COPY", Tagging="a=b")
        self.fails("InvalidArgument", self.s3.copy_object, **copy, TaggingDirective="MERGE")
        self.fails("InvalidTag", self.s3.copy_object, **copy, TaggingDirective="REPLACE", Tagging="a=1&a=2")

    @unittest.skipIf(IS_ONE_OF_SEVERAL, "tags are changed by a gateway that has all sessions")
    def test_changes(self):
        for key in self.objects():
            before = self.all_else(key)
            for given in (self.GIVEN, self.OTHERS, self.OTHERS, {}, self.GIVEN):
                self.give(key, given)
                self.expect(key, given)
                self.assertEqual(self.all_else(key), before)
            self.s3.delete_object_tagging(Bucket=self.bucket, Key=key)
            self.expect(key, {})
            self.assertEqual(self.all_else(key), before)
        for call, words in ((self.s3.delete_object_tagging, {}), (self.s3.put_object_tagging, {"Tagging": {"TagSet": []}})):
            self.fails("NoSuchKey", call, Bucket=self.bucket, Key="none", **words)
            self.fails("NoSuchBucket", call, Bucket="no-such-bucket", Key="none", **words)
        self.fails("InvalidTag", self.give, key="short", tags={"x" * 129: ""})
        self.fails("InvalidTag", self.give, key="short", tags={str(number): "" for number in range(11)})
        most = {f"{number}{'x' * 127}": "y" * 256 for number in range(10)}
        self.give("short", most)
        self.expect("short", most)

    @unittest.skipIf(IS_ONE_OF_SEVERAL, "tags are changed by a gateway that has all sessions")
    def test_no_room(self):
        """Tags that a page has no room for: the object is as it was."""
        if not ROOM:
            self.skipTest("pages of 16 KiB are wanted")
        for key in self.objects():
            self.give(key, self.GIVEN)
            before = self.all_else(key)
            told = self.fails("InsufficientStorage", self.give, key=key, tags={str(number): "日" * 256 for number in range(10)})
            self.assertIn("no room for these", told["Error"]["Message"])
            self.expect(key, self.GIVEN)
            self.assertEqual(self.all_else(key), before)

    @unittest.skipIf(IS_ONE_OF_SEVERAL, "tags are changed by a gateway that has all sessions")
    def test_beside_puts(self):
        """A change of tags undoes no put that comes meanwhile, and leaves no tags beside another content than they were given."""
        is_over, s3 = False, client()

        def change():
            while not is_over:
                try:
                    self.give("raced", {"a": "b"})
                except ClientError as fault:
                    if fault.response["Error"]["Code"] != "ServiceUnavailable":  # (where the other one is faster each time)
                        raise

        for size in (10, 60_000):
            is_over = False
            self.put("raced", b"0" * size)
            with ThreadPoolExecutor(3) as pool:
                changes = [pool.submit(change) for _ in range(3)]
                try:
                    for number in range(1, 40):
                        content = b"%d" % number * size
                        s3.put_object(Bucket=self.bucket, Key="raced", Body=content)
                        self.assertEqual(s3.get_object(Bucket=self.bucket, Key="raced")["Body"].read(), content)
                finally:
                    is_over = True
                for each in changes:
                    each.result()

    def test_other_clients(self):
        """What another client put has no time, and gets none by its tags."""
        if not ROOM:
            self.skipTest("the sessions of a stand-in are wanted")
        for key, content in (("by name", b"hi"), ("long by name", os.urandom(100_000))):
            Lent.command(self, "put", "-", f"{self.bucket}/{key}", given=content)
            before = self.all_else(key)
            self.assertEqual(self.s3.head_object(Bucket=self.bucket, Key=key)["LastModified"].timestamp(), 0)
            self.give(key, self.GIVEN)
            self.expect(key, self.GIVEN)
            self.assertEqual(self.all_else(key), before)
            self.assertEqual(Lent.command(self, "get", f"{self.bucket}/{key}"), content)

    def test_some_sessions(self):
        """A gateway that has not all sessions can't know who else puts: it takes tags with a put, and changes none."""
        with endpoint.stand_in() as room, endpoint.gateways(room, "1-4") as (gateway,):
            s3 = gateway.client()
            s3.create_bucket(Bucket="some")
            s3.put_object(Bucket="some", Key="a", Body=b"hi", Tagging="a=b")
            self.fails("NotImplemented", s3.put_object_tagging, Bucket="some", Key="a", Tagging={"TagSet": []})
            self.fails("NotImplemented", s3.delete_object_tagging, Bucket="some", Key="a")
            self.assertEqual(s3.get_object_tagging(Bucket="some", Key="a")["TagSet"], [{"Key": "a", "Value": "b"}])


def sums_in(told):
    return {name: value for name, value in told.items() if name.startswith("Checksum") and name != "ChecksumType"}


class Heads(Case):
    def test_long_ones(self):
        """What a put takes beside a content is told again, through nginx too; and a signed URL may ask for long headers."""
        words = {"Metadata": {"a": "x" * 2_000}, "ContentDisposition": "attachment; filename=" + "x" * 4_000, "CacheControl": "y" * 3_000}
        self.put("long", b"content", **words)
        for told in (self.get("long"), self.s3.head_object(Bucket=self.bucket, Key="long")):
            self.assertEqual({name: told[name] for name in words}, words)
        self.fails("MetadataTooLarge", self.put, key="longer", ContentDisposition="x" * 5_000, CacheControl="y" * 5_000)
        url = self.s3.generate_presigned_url("get_object", {"Bucket": self.bucket, "Key": "long", "ResponseContentDisposition": "z" * 10_000})
        for _ in range(3):
            with urllib.request.urlopen(url) as told:
                self.assertEqual((told.read(), told.headers["Content-Disposition"]), (b"content", "z" * 10_000))
        self.put("long")


class Requests(Case):
    """Requests that boto3 does not make."""

    def ask(self, method, path, body=b"", headers=(), payload=None, sign=True, secret=SECRET, access=ACCESS, data=None):
        address = urlsplit(URL)
        request = AWSRequest(method, f"{URL}{path}", dict(headers), body)
        if payload:
            request.headers["X-Amz-Content-SHA256"] = payload

        class Signer(S3SigV4Auth):
            def payload(self, request):
                return payload or super().payload(request)

        if sign:
            Signer(Credentials(access, secret), "s3", "us-east-1").add_auth(request)
        connection = http.client.HTTPConnection(address.hostname, address.port, timeout=longer(120))
        connection.request(method, path, data if data is not None else body, dict(request.headers))
        told = connection.getresponse()
        return told.status, told.read(), request

    def code(self, told):
        text = told[1].decode()
        return text.partition("<Code>")[2].partition("</Code>")[0]

    def test_who_asks(self):
        self.assertEqual(self.code(self.ask("GET", "/", sign=False)), "AccessDenied")
        self.assertEqual(self.code(self.ask("GET", "/", secret="wrong")), "SignatureDoesNotMatch")
        self.assertEqual(self.code(self.ask("GET", "/", access="nobody")), "AccessDenied" if IS_BEHIND else "InvalidAccessKeyId")
        self.assertEqual(self.code(self.ask("GET", "/", sign=False, headers={"Authorization": "AWS carol:abc"})), "InvalidRequest")
        self.assertEqual(self.code(self.ask("GET", f"/{self.bucket}/a?AWSAccessKeyId=carol&Signature=abc&Expires=1", sign=False)), "InvalidRequest")
        status, text, request = self.ask("GET", "/")
        self.assertEqual(status, 200)
        # A header of Amazon's that is not signed
        self.assertEqual(self.code(self.ask("GET", "/", headers={**request.headers, "x-amz-meta-a": "b"}, sign=False)), "AccessDenied")
        undated = {name: value for name, value in request.headers.items() if name != "X-Amz-Date"}
        self.assertEqual(self.code(self.ask("GET", "/", headers=undated, sign=False)), "AccessDenied")
        old = {**request.headers, "X-Amz-Date": "20200101T000000Z"}
        self.assertIn(self.code(self.ask("GET", "/", headers=old, sign=False)), ("AuthorizationHeaderMalformed", "RequestTimeTooSkewed"))
        self.assertEqual(self.code(self.ask("GET", "/?x=y", headers=dict(request.headers), sign=False)), "SignatureDoesNotMatch")
        self.assertEqual(self.code(self.ask("DELETE", "/", headers=dict(request.headers), sign=False)), "SignatureDoesNotMatch")

    @is_long
    def test_body_that_was_not_signed_so(self):
        path = f"/{self.bucket}/body"
        self.assertEqual(self.code(self.ask("PUT", path, b"one", data=b"two")), "XAmzContentSHA256Mismatch")
        big = os.urandom(2_000_000)
        self.assertEqual(self.code(self.ask("PUT", path, big, data=big[:-1] + b"x" if big[-1:] != b"x" else big[:-1] + b"y")), "XAmzContentSHA256Mismatch")
        self.fails("NoSuchKey", self.get, key="body")
        self.assertEqual(self.ask("PUT", path, b"any", payload="UNSIGNED-PAYLOAD")[0], 200)
        self.assertEqual(self.get("body")["Body"].read(), b"any")
        self.assertEqual(self.code(self.ask("PUT", path, b"any", payload="nonsense")), "InvalidArgument")

    def chunked(self, content, size, spoil=None, trailer=None, trailer_end="\r\n"):
        """A put in signed chunks."""
        kind = "STREAMING-AWS4-HMAC-SHA256-PAYLOAD" + ("-TRAILER" if trailer else "")
        headers = {"x-amz-decoded-content-length": str(len(content)), "Content-Encoding": "aws-chunked"}
        if trailer:
            headers["x-amz-trailer"] = trailer[0]
        path = f"/{self.bucket}/chunked"
        request = AWSRequest("PUT", URL + path, headers)
        request.headers["X-Amz-Content-SHA256"] = kind
        signer = S3SigV4Auth(Credentials(ACCESS, SECRET), "s3", "us-east-1")
        signer.payload = lambda _: kind
        signer.add_auth(request)
        before = request.headers["Authorization"].rpartition("=")[2]
        stamp, empty_digest, body = request.context["timestamp"], hashlib.sha256(b"").hexdigest(), b""
        scope = signer.credential_scope(request)
        for begin in [*range(0, len(content), size), len(content)]:
            data = content[begin : begin + size]
            text = "\n".join(["AWS4-HMAC-SHA256-PAYLOAD", stamp, scope, before, empty_digest, hashlib.sha256(data).hexdigest()])
            before = signer.signature(text, request)
            body += f"{len(data):x};chunk-signature={before}\r\n".encode() + data + (b"\r\n" if data else b"")
        if trailer:
            line = f"{trailer[0]}:{trailer[1]}\n"
            text = "\n".join(["AWS4-HMAC-SHA256-TRAILER", stamp, scope, before, hashlib.sha256(line.encode()).hexdigest()])
            body += line.replace("\n", trailer_end).encode() + f"x-amz-trailer-signature:{signer.signature(text, request)}\r\n".encode()
        body += b"\r\n"
        if spoil is not None:
            at = body.index(b"\r\n") + 2 + spoil
            body = body[:at] + bytes([body[at] ^ 1]) + body[at + 1 :]
        address = urlsplit(URL)
        connection = http.client.HTTPConnection(address.hostname, address.port, timeout=longer(120))
        connection.request("PUT", path, body, dict(request.headers))
        told = connection.getresponse()
        return told.status, told.read(), None

    @is_long
    def test_chunks(self):
        for length, size in ((0, 10), (5, 10), (200_000, 65_536), (2_500_000, 131_072)):
            content = os.urandom(length)
            self.assertEqual(self.chunked(content, size)[0], 200)
            found = self.get("chunked")
            self.assertEqual((found["Body"].read(), found["ETag"]), (content, f'"{hashlib.md5(content).hexdigest()}"'))
            self.assertNotIn("ContentEncoding", found)
        self.assertEqual(self.code(self.chunked(os.urandom(100_000), 65_536, spoil=17)), "SignatureDoesNotMatch")
        self.assertEqual(self.code(self.chunked(os.urandom(2_000_000), 65_536, spoil=60_000)), "SignatureDoesNotMatch")
        self.assertEqual(self.get("chunked")["Body"].read(), content)
        crc = base64.b64encode(zlib.crc32(content).to_bytes(4, "big")).decode()
        self.assertEqual(self.chunked(content, 65_536, trailer=("x-amz-checksum-crc32", crc))[0], 200)
        self.assertEqual(self.chunked(content, 65_536, trailer=("x-amz-checksum-crc32", crc), trailer_end="\n\r\n")[0], 200)
        self.assertEqual(self.code(self.chunked(content, 65_536, trailer=("x-amz-checksum-crc32", "AAAAAA=="))), "BadDigest")

    def test_unsigned_chunks_with_a_trailer(self):
        content = b"Hello world" * 1_000
        for name, digest, told in [
            ("x-amz-checksum-crc32", zlib.crc32(content).to_bytes(4, "big"), ""),
            ("x-amz-checksum-sha256", hashlib.sha256(content).digest(), ""),
            ("x-amz-checksum-sha1", b"x" * 20, "BadDigest"),
            ("x-amz-checksum-crc64nvme", b"x" * 8, "BadDigest"),
            ("x-amz-checksum-md5", b"x" * 16, "NotImplemented"),
        ]:
            headers = {"x-amz-decoded-content-length": str(len(content)), "Content-Encoding": "aws-chunked", "x-amz-trailer": name}
            trailer = f"{name}:{base64.b64encode(digest).decode()}".encode()
            for end in (b"\r\n\r\n", b"\n\r\n\r\n"):  # (the second is of minio-go)
                found = self.trailed(content, (8_192, len(content)), trailer + end, headers)
                self.assertEqual(self.code(found), told)
        self.assertEqual(self.get("trailed")["Body"].read(), content)

    def trailed(self, content, ends, rest, headers):
        """A put in unsigned chunks, each of which ends there."""
        chunks = [content[first:end] for first, end in zip((0, *ends), ends)]
        body = b"".join(b"%x\r\n%b\r\n" % (len(each), each) for each in chunks) + b"0\r\n" + rest
        return self.ask("PUT", f"/{self.bucket}/trailed", b"", headers, "STREAMING-UNSIGNED-PAYLOAD-TRAILER", data=body)

    def test_odd_chunks(self):
        """But the last one each has 8 KiB, as one of fewer bytes costs as much; and what follows that is a few trailers."""
        content = os.urandom(20_000)
        headers = {"x-amz-decoded-content-length": "20000", "Content-Encoding": "aws-chunked", "x-amz-trailer": "x-amz-checksum-crc32"}
        crc = b"x-amz-checksum-crc32:" + base64.b64encode(zlib.crc32(content).to_bytes(4, "big"))
        for ends, rest, told in (
            ((8_192, 16_384, 20_000), crc + b"\r\n\r\n", ""), ((8_191, 20_000), crc + b"\r\n\r\n", "InvalidChunkSizeError"), ((8_192, 8_193, 20_000), crc + b"\r\n\r\n", "InvalidChunkSizeError"),
            (range(1, 20_001), crc + b"\r\n\r\n", "InvalidChunkSizeError"), ((20_000,), crc + b"\n" * 40, "IncompleteBody"), ((20_000,), crc + b"\r\nmore\r\n\r\n", "IncompleteBody"),
        ):  # fmt: skip
            self.assertEqual(self.code(self.trailed(content, ends, rest, headers)), told, (len(ends), rest[-20:]))

    def in_parts(self, key, headers, parts, algorithm=None):
        """An upload by requests as SDKs of today make them; its path, and the XML that completes it."""
        status, told, _ = self.ask("POST", f"/{self.bucket}/{key}?uploads", b"", headers)
        self.assertEqual(status, 200, told)
        path, listed = f"/{self.bucket}/{key}?uploadId={told.decode().partition('<UploadId>')[2].partition('</UploadId>')[0]}", ""
        for number, content in enumerate(parts, 1):
            sums = {f"x-amz-checksum-{algorithm}": told_sum(algorithm, content)} if algorithm else {}
            status, told, _ = self.ask("PUT", f"{path}&partNumber={number}", content, sums)
            self.assertEqual(status, 200, told)
            inner = f"<Checksum{algorithm.upper()}>{sums[f'x-amz-checksum-{algorithm}']}</Checksum{algorithm.upper()}>" if algorithm else ""
            listed += f"<Part><ETag>&quot;{hashlib.md5(content).hexdigest()}&quot;</ETag>{inner}<PartNumber>{number}</PartNumber></Part>"
        return path, f"<CompleteMultipartUpload>{listed}</CompleteMultipartUpload>".encode()

    def told_with(self, key):
        """The headers of checksums that an object is told with."""
        address, request = urlsplit(URL), AWSRequest("HEAD", f"{URL}/{self.bucket}/{key}", {"x-amz-checksum-mode": "ENABLED"})
        S3SigV4Auth(Credentials(ACCESS, SECRET), "s3", "us-east-1").add_auth(request)
        connection = http.client.HTTPConnection(address.hostname, address.port, timeout=longer(120))
        connection.request("HEAD", f"/{self.bucket}/{key}", None, dict(request.headers))
        return {name.lower()[15:]: value for name, value in connection.getresponse().getheaders() if name.lower().startswith("x-amz-checksum-")}

    def test_checksums_of_the_whole(self):
        """Of an upload in parts, as SDKs of today complete it."""
        parts = [os.urandom(70_000), b"", os.urandom(10)]
        whole = b"".join(parts)
        for algorithm in ("crc32", "crc32c", "crc64nvme"):
            begun = {"x-amz-checksum-algorithm": algorithm.upper(), "x-amz-checksum-type": "FULL_OBJECT"}
            path, listed = self.in_parts("whole", begun, parts, algorithm)
            for headers, code in [
                ({f"x-amz-checksum-{algorithm}": told_sum(algorithm, b"other")}, "BadDigest"), ({"x-amz-checksum-type": "COMPOSITE"}, "InvalidRequest"),
                ({"x-amz-checksum-sha1": told_sum("sha1", whole)}, "InvalidRequest"), ({"x-amz-checksum-md5": "x"}, "NotImplemented"),
            ]:  # fmt: skip
                self.assertEqual(self.code(self.ask("POST", path, listed, headers)), code, headers)
            other = listed.replace(told_sum(algorithm, parts[0]).encode(), told_sum(algorithm, parts[2]).encode())
            self.assertEqual(self.code(self.ask("POST", path, other)), "InvalidPart")
            self.assertIn(f"<Checksum{algorithm.upper()}>{told_sum(algorithm, parts[2])}<".encode(), self.ask("GET", path)[1])
            status, told, _ = self.ask("POST", path, listed, {f"x-amz-checksum-{algorithm}": told_sum(algorithm, whole), "x-amz-checksum-type": "FULL_OBJECT"})
            self.assertEqual(status, 200, told)
            self.assertIn(f"<Checksum{algorithm.upper()}>{told_sum(algorithm, whole)}</Checksum{algorithm.upper()}><ChecksumType>FULL_OBJECT<".encode(), told)
            self.assertEqual(self.told_with("whole"), {algorithm: told_sum(algorithm, whole), "type": "FULL_OBJECT"})
            self.assertEqual(self.get("whole")["Body"].read(), whole)

    def test_checksums_of_parts(self):
        """Of checksums, where the whole's is not asked for; and of parts that came without one."""
        parts = [os.urandom(100), os.urandom(10)]
        for algorithm in ("crc32", "sha256"):
            for sent in (algorithm, None):
                path, listed = self.in_parts("composite", {"x-amz-checksum-algorithm": algorithm.upper()}, parts, sent)
                self.assertEqual(self.ask("POST", path, listed)[0], 200)
                digests = b"".join(base64.b64decode(told_sum(algorithm, part)) for part in parts)
                self.assertEqual(self.told_with("composite"), {algorithm: told_sum(algorithm, digests) + "-2", "type": "COMPOSITE"})
        path, listed = self.in_parts("none", {}, parts)
        self.assertEqual(self.code(self.ask("POST", path, listed, {"x-amz-checksum-crc32": told_sum("crc32", b"".join(parts))})), "InvalidRequest")
        self.assertEqual(self.ask("POST", path, listed)[0], 200)
        self.assertEqual(self.told_with("none"), {})
        for headers in ({"x-amz-checksum-algorithm": "SHA1", "x-amz-checksum-type": "FULL_OBJECT"}, {"x-amz-checksum-algorithm": "CRC64NVME", "x-amz-checksum-type": "COMPOSITE"}, {"x-amz-checksum-type": "COMPOSITE"}):
            self.assertEqual(self.code(self.ask("POST", f"/{self.bucket}/none?uploads", b"", headers)), "InvalidRequest")

    def test_elements_in_their_order(self):
        """That of S3's schema, which some clients check."""
        for key in ("order/a", "order/b/c", "order/b/d"):
            self.put(key)
        self.s3.create_multipart_upload(Bucket=self.bucket, Key="order/begun")
        of_object, owner = ["Key", "LastModified", "ETag", "Size"], ["Owner", "ID", "DisplayName"]
        row, group = ["Contents", *of_object, "StorageClass"], ["CommonPrefixes", "Prefix"]
        head, tail = ["Name", "Prefix"], ["MaxKeys", "Delimiter", "EncodingType", "IsTruncated"]
        query = "prefix=order%2F&delimiter=%2F&encoding-type=url&max-keys=1"
        for path, wanted in [
            (f"?{query}", ["ListBucketResult", *head, "Marker", "NextMarker", *tail, *row[:-1], *owner, "StorageClass"]),
            (f"?{query}&marker=order%2Fa", ["ListBucketResult", *head, "Marker", *tail, *group]),
            (f"?list-type=2&{query}&start-after=a", ["ListBucketResult", *head, "NextContinuationToken", "StartAfter", "KeyCount", *tail, *row]),
            (f"?versions&{query}", ["ListVersionsResult", *head, "KeyMarker", "VersionIdMarker", "NextKeyMarker", "NextVersionIdMarker", *tail, "Version", "Key", "VersionId", "IsLatest", *of_object[1:], *owner, "StorageClass"]),
            ("?uploads&prefix=order%2F&delimiter=%2F&encoding-type=url", ["ListMultipartUploadsResult", "Bucket", "KeyMarker", "UploadIdMarker", "NextKeyMarker", "NextUploadIdMarker", "Delimiter", "Prefix", "MaxUploads", "EncodingType", "IsTruncated",
                                                                      "Upload", "Key", "UploadId", "Initiator", *owner[1:], *owner, "StorageClass", "Initiated"]),
        ]:  # fmt: skip
            status, told, _ = self.ask("GET", f"/{self.bucket}{path}")
            self.assertEqual((status, [each.tag.rpartition("}")[2] for each in ElementTree.fromstring(told).iter()]), (200, wanted), path)

    def test_what_browsers_ask(self):
        """Who sign nothing: a form, and leave to ask from another page."""
        form, origin = {"Content-Type": "multipart/form-data; boundary=x"}, {"Origin": "http://a", "Access-Control-Request-Method": "PUT"}
        named = f"?X-Amz-Credential={ACCESS}/" if IS_BEHIND else ""
        self.assertEqual(self.code(self.ask("POST", f"/{self.bucket}{named}", b"--x--", form, sign=False)), "IncorrectNumberOfFilesInPostRequest")
        self.assertEqual(self.code(self.ask("OPTIONS", f"/{self.bucket}/a", b"", origin, sign=False)), "AccessForbidden")
        self.assertEqual(self.code(self.ask("POST", f"/{self.bucket}", b"x", sign=False)), "AccessDenied")

    def test_metadata_that_no_copy_brings(self):
        """s3fs says of each put, and of an upload in parts, that it brings its metadata."""
        headers = {"x-amz-metadata-directive": "REPLACE", "x-amz-meta-mode": "33188"}
        self.assertEqual(self.ask("PUT", f"/{self.bucket}/brought", b"x", headers)[0], 200)
        self.assertEqual(self.get("brought")["Metadata"], {"mode": "33188"})
        self.assertEqual(self.ask("POST", f"/{self.bucket}/brought?uploads", b"", headers)[0], 200)

    def test_faults_of_a_head(self):
        """They have no body, and the kind that one would have."""
        told = self.fails("404", self.s3.head_object, Bucket=self.bucket, Key="no-such-key")["ResponseMetadata"]
        self.assertEqual((told["HTTPHeaders"]["content-type"], told["HTTPHeaders"].get("content-length", "0")), ("application/xml", "0"))

    def test_xml_that_is_none(self):
        bomb = b'<!DOCTYPE x [<!ENTITY a "aaaa">]><Delete><Object><Key>&a;</Key></Object></Delete>'
        for body in (bomb, b"<Delete>", b"", b"<Other/>", b"<Delete/>", b"\xff", b"<a>" * 100_000, b'<!DOCTYPE x SYSTEM "file:///etc/passwd"><Delete/>'):
            self.assertEqual(self.code(self.ask("POST", f"/{self.bucket}?delete", body)), "MalformedXML", body[:30])

    def test_metadata_that_is_no_ascii(self):
        word = "\u00fc\u65e5"
        request = AWSRequest("PUT", f"{URL}/{self.bucket}/metadata", {"x-amz-meta-a": word.encode().decode("latin1")}, b"x")
        signer = S3SigV4Auth(Credentials(ACCESS, SECRET), "s3", "us-east-1")
        before = signer.canonical_request
        signer.canonical_request = lambda request: before(request).encode("latin1").decode()  # (what is signed are the bytes)
        signer.add_auth(request)
        address = urlsplit(URL)
        connection = http.client.HTTPConnection(address.hostname, address.port, timeout=longer(120))
        connection.request("PUT", f"/{self.bucket}/metadata", b"x", dict(request.headers))
        told = connection.getresponse()
        self.assertEqual((told.status, told.read()), (200, b""))
        with urllib.request.urlopen(self.s3.generate_presigned_url("get_object", {"Bucket": self.bucket, "Key": "metadata"})) as told:
            self.assertEqual(told.headers["x-amz-meta-a"].encode("latin1").decode(), word)

    def test_odd_requests(self):
        self.assertEqual(self.code(self.ask("PATCH", f"/{self.bucket}/a")), "MethodNotAllowed")
        self.assertEqual(self.code(self.ask("PUT", "/UPPER")), "InvalidBucketName")
        self.assertEqual(self.code(self.ask("PUT", "/.s3/bucket/x")), "InvalidBucketName")
        self.assertEqual(self.code(self.ask("DELETE", "/...")), "InvalidBucketName")
        self.assertEqual(self.code(self.ask("GET", "/.s3/bucket/x")), "InvalidBucketName")
        self.assertEqual(self.code(self.ask("GET", f"/{self.bucket}/a%FF")), "InvalidURI")
        self.assertEqual(self.code(self.ask("GET", f"/{self.bucket}?max-keys=x")), "InvalidArgument")
        self.assertEqual(self.code(self.ask("GET", f"/{self.bucket}?list-type=2&continuation-token=%FF")), "InvalidArgument")
        self.assertEqual(self.code(self.ask("PUT", f"/{self.bucket}/a?partNumber=0&uploadId=1.0123456789abcdef01234567")), "InvalidArgument")

    @unittest.skipIf(IS_BEHIND, "metrics are told on the machine of the gateway alone")
    def test_metrics(self):
        self.put("counted", b"x")
        with urllib.request.urlopen(f"{URL}/metrics") as told:
            text = told.read().decode()
        self.assertRegex(text, r'gridfs_s3_requests_total\{operation="PutObject",status="200",tenant="\w+"\} \d+')
        self.assertRegex(text, r'gridfs_s3_chunk_bytes\{grid="",state="left",tenant="\w+"\} [1-9]')
        self.assertEqual(self.ask("GET", "/metrics", sign=False, headers={"X-Forwarded-For": "1.2.3.4"})[0], 403)


class Lent(Case):
    def command(self, *words, given=None):
        client = os.path.join(endpoint.HERE, "..", "..", "clients", "python", "gridfs-client")
        settings = ["--config", f"{ROOM}/carol.ini", "--locks", f"{ROOM}/locks"]
        return subprocess.run([sys.executable, "-B", client, *settings, *words], input=given, capture_output=True, timeout=longer(60), check=True).stdout

    def test_a_command_on_the_same_machine(self):
        """The gateway has all sessions, and lends one; then it judges conditions again."""
        if not ROOM:
            self.skipTest("the sessions of a stand-in are wanted")
        condition = {}
        self.s3.meta.events.register("before-sign.s3.PutObject", lambda request, **_: [request.headers.__setitem__(*each) for each in condition.items()])
        for number in range(4):
            content = b"%d" % number * 50_000
            self.command("put", "-", f"{self.bucket}/key", given=content)
            told = self.s3.get_object(Bucket=self.bucket, Key="key")
            self.assertEqual(told["Body"].read(), content)
            condition.update({"If-Match": told["ETag"]})
            self.s3.put_object(Bucket=self.bucket, Key="key", Body=content + b"x")
            with self.assertRaises(ClientError):
                self.s3.put_object(Bucket=self.bucket, Key="key", Body=b"y")
            self.assertEqual(self.command("get", f"{self.bucket}/key"), content + b"x")
            condition.clear()


class OtherClients(Case):
    """Of the same tenant: they write what they like beside contents, by the same files."""

    ODD = [
        ("BUCKET/bad", "t=x"), ("BUCKET/bad", "t=999999999999999"), ("BUCKET/bad", "t=" + "9" * 4_301), ("BUCKET/bad", "t=-9"), (".s3/bucket/odd-one", "t=x"), (".s3/up/BUCKET/zzz", "t=1&i=x"), (".s3/up/BUCKET", ""),
        (".s3/up/BUCKET/1.000000000000000000000000/=" + "A" * 43, "t=1&k=a&i=x"), (".s3/up/BUCKET/1.000000000000000000000001/=" + "A" * 43, "t=1&k=a&i=1&p=1.x"), (".s3/key/BUCKET/AAAA", ""),
        ("BUCKET/bad", "t=1&m=%0D%0Ax&n=%00&c=%0D%0AX:%20y&h-set-cookie=a&h-content-length=9&h-x-accel-redirect=/&h-x%0D%0AY=z&x-a%0D%0A=b"), ("BUCKET/bad", "t=1&c=%ED%A0%80&m=%FF"),
    ]  # fmt: skip

    def by_name(self, work):
        settings = Settings.gather({"config": f"{ROOM}/carol.ini", "locks": f"{ROOM}/locks", "timeout": "20"}, {})
        with contextlib.closing(settings.carrier()) as carrier:
            told = ask_plan(carrier, settings.pace())
            with contextlib.closing(OpenSessions(settings, told, carrier, self.bucket)) as sessions:
                files = NamedFiles(sessions.first(), layout_of(told), None, sessions.helpers, others=sessions.others)
                work(files)
                files.close()

    def test_words_without_form(self):
        """They hinder nothing that is done with other names, and give no header that is not meant; times go on by the clock."""
        if not ROOM:
            self.skipTest("the sessions of a stand-in are wanted")
        self.s3.put_object(Bucket=self.bucket, Key="good", Body=b"good")
        for name, words in self.ODD:
            name = name.replace("BUCKET", self.bucket)
            self.by_name(lambda files, name=name, words=words: files.put(name, b"x", lambda: words))
            self.s3.list_buckets()
            self.assertIn("good", [each["Key"] for each in self.s3.list_objects_v2(Bucket=self.bucket)["Contents"]])
            self.s3.list_multipart_uploads(Bucket=self.bucket)
            if name.endswith("/bad"):
                told = self.s3.get_object(Bucket=self.bucket, Key="bad")
                self.assertEqual(told["Body"].read(), b"x", words)
                self.assertFalse({"set-cookie", "x-accel-redirect", "x"} & told["ResponseMetadata"]["HTTPHeaders"].keys())
            self.s3.put_object(Bucket=self.bucket, Key="good", Body=b"good")
            self.assertLess(abs(self.s3.head_object(Bucket=self.bucket, Key="good")["LastModified"].timestamp() - time.time()), 600, words)
            self.by_name(lambda files, name=name: files.remove(name))


if __name__ == "__main__":
    unittest.main()
