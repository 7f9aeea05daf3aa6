"""Versions of objects: each that was put can be had, the latest counts, and a removal is a version too."""

import contextlib
import os
import random
import re
import socket
import sys
import threading
import time
import unittest

sys.path.insert(0, os.path.dirname(os.path.abspath(__file__)))
import endpoint
import test_malformed
from botocore.exceptions import ClientError
from busy import longer
from test_lifecycle import OFTEN, PATIENCE, QUIET, Common

# Keys that are names, and such as are none; one that stands in the page of another name's choice, and one that begins as another does.
KEYS = ["a", "a/b", "a/c", "b/", "c\n", "d/=" + "A" * 43, "e"]


def code_of(work, **words):
    """The code that a request is told, with the version of a marker that it is told by headers."""
    try:
        work(**words)
        return None
    except ClientError as fault:
        headers = fault.response["ResponseMetadata"]["HTTPHeaders"]
        return fault.response["Error"]["Code"], headers.get("x-amz-delete-marker"), headers.get("x-amz-version-id")


class Model:
    """What a bucket has to hold: of each key its versions, the latest first, each with its ID and its content, or None for a marker."""

    def __init__(self, s3, bucket, seed):
        self.s3, self.bucket, self.draw, self.keys, self.is_enabled = s3, bucket, random.Random(seed), {key: [] for key in KEYS}, True

    def add(self, key, version, body):
        if version == "null":
            self.keys[key] = [each for each in self.keys[key] if each[0] != "null"]
        self.keys[key].insert(0, (version, body))

    def put(self, key):
        body = self.draw.randbytes(self.draw.choice((0, 10, 5_000, 90_000)))
        self.add(key, self.s3.put_object(Bucket=self.bucket, Key=key, Body=body)["VersionId"], body)

    def upload(self, key):
        body = self.draw.randbytes(3_000)
        upload = {"Bucket": self.bucket, "Key": key, "UploadId": self.s3.create_multipart_upload(Bucket=self.bucket, Key=key)["UploadId"]}
        parts = {"Parts": [{"PartNumber": number, "ETag": self.s3.upload_part(**upload, PartNumber=number, Body=body)["ETag"]} for number in (1, 2)]}
        told = [self.s3.complete_multipart_upload(**upload, MultipartUpload=parts)["VersionId"] for _ in range(2)]
        assert told[0] == told[1], told
        self.add(key, told[0], body * 2)

    def copy(self, key):
        found = [(each, version, body) for each, versions in self.keys.items() for version, body in versions if body is not None]
        if not found:
            return
        source, version, body = self.draw.choice(found)
        told = self.s3.copy_object(Bucket=self.bucket, Key=key, CopySource={"Bucket": self.bucket, "Key": source, "VersionId": version})
        assert told["CopySourceVersionId"] == version, told
        self.add(key, told["VersionId"], body)

    def mark(self, key):
        told = self.s3.delete_object(Bucket=self.bucket, Key=key)
        assert told["DeleteMarker"], told
        self.add(key, told["VersionId"], None)

    def remove(self, key):
        if self.keys[key]:
            version, body = self.draw.choice(self.keys[key])
            told = self.s3.delete_object(Bucket=self.bucket, Key=key, VersionId=version)
            assert (told["VersionId"], told.get("DeleteMarker", False)) == (version, body is None), (told, version, body)
            self.keys[key].remove((version, body))

    def tag(self, key):
        """A change of tags of some version leaves it where it is."""
        found = [version for version, body in self.keys[key] if body is not None]
        if found:
            self.s3.put_object_tagging(Bucket=self.bucket, Key=key, VersionId=self.draw.choice(found), Tagging={"TagSet": [{"Key": "k", "Value": "v"}]})

    def switch(self, _):
        self.is_enabled = not self.is_enabled
        self.s3.put_bucket_versioning(Bucket=self.bucket, VersioningConfiguration={"Status": "Enabled" if self.is_enabled else "Suspended"})

    def step(self):
        work = self.draw.choice([self.put] * 5 + [self.upload, self.copy, self.mark, self.mark, self.remove, self.remove, self.tag, self.switch])
        work(self.draw.choice(KEYS))

    def look(self, case):
        """All is there, and told in its order, however it is asked for."""
        s3, key = self.s3, self.draw.choice(KEYS)
        for version, body in self.keys[key]:
            if body is None:
                case.assertEqual(code_of(s3.get_object, Bucket=self.bucket, Key=key, VersionId=version), ("MethodNotAllowed", "true", version))
            else:
                told = s3.get_object(Bucket=self.bucket, Key=key, VersionId=version)
                case.assertEqual((told["Body"].read(), told["VersionId"]), (body, version))
        if not self.keys[key] or self.keys[key][0][1] is None:
            marker = ("true", self.keys[key][0][0]) if self.keys[key] else (None, None)
            case.assertEqual(code_of(s3.get_object, Bucket=self.bucket, Key=key), ("NoSuchKey", *marker))
        else:
            told = s3.get_object(Bucket=self.bucket, Key=key)
            case.assertEqual((told["VersionId"], told["Body"].read()), self.keys[key][0])
        listed = [each["Key"] for each in s3.list_objects_v2(Bucket=self.bucket).get("Contents", [])]
        case.assertEqual(listed, sorted(key for key, versions in self.keys.items() if versions and versions[0][1] is not None))
        wanted = [(key, version, body is None, at == 0) for key in sorted(self.keys) for at, (version, body) in enumerate(self.keys[key])]
        case.assertEqual(list(self.versions(self.draw.choice((1, 2, 1_000)))), wanted)

    def versions(self, most):
        words = {}
        while True:
            told = self.s3.list_object_versions(Bucket=self.bucket, MaxKeys=most, **words)
            rows = [(each["Key"], each["VersionId"], is_marker, each["IsLatest"]) for is_marker, name in enumerate(("Versions", "DeleteMarkers")) for each in told.get(name, [])]
            known = {(key, version): at for at, (key, version) in enumerate((key, version) for key in sorted(self.keys) for version, _ in self.keys[key])}
            yield from sorted(((key, version, bool(is_marker), is_latest) for key, version, is_marker, is_latest in rows), key=lambda row: known.get(row[:2], -1))
            if not told["IsTruncated"]:
                return
            words = {"KeyMarker": told["NextKeyMarker"], "VersionIdMarker": told["NextVersionIdMarker"]}


class Versions(Common):
    def begin(self, **more):
        super().begin(**more)
        self.enable()
        return self.s3

    def enable(self, status="Enabled", bucket="some"):
        self.s3.put_bucket_versioning(Bucket=bucket, VersioningConfiguration={"Status": status})

    def all(self, bucket="some", **more):
        """Key, version and whether it is the latest, of versions and then of markers."""
        told = self.s3.list_object_versions(Bucket=bucket, **more)
        return [[(each["Key"], each["VersionId"], each["IsLatest"]) for each in told.get(name, [])] for name in ("Versions", "DeleteMarkers")]

    def test_random(self):
        """Random changes, against a model."""
        self.begin()
        for seed in range(3):
            bucket = f"random-{seed}"
            self.s3.create_bucket(Bucket=bucket)
            self.enable(bucket=bucket)
            model = Model(self.s3, bucket, seed)
            for _ in range(60):
                model.step()
                model.look(self)
        self.assertNotIn("Traceback", self.found.told())

    def test_states(self):
        """What was put before is the version `null`, and is told none where versions never were; other words are refused."""
        Common.begin(self)
        s3 = self.s3
        self.assertNotIn("VersionId", s3.put_object(Bucket="some", Key="a", Body=b"first"))
        self.assertNotIn("VersionId", s3.get_object(Bucket="some", Key="a"))
        self.assertNotIn("Status", s3.get_bucket_versioning(Bucket="some"))
        made = s3.list_buckets()["Buckets"][0]["CreationDate"]
        for body in (b"", b"<VersioningConfiguration/>", b"<VersioningConfiguration><Status>On</Status></VersioningConfiguration>"):
            with self.assertRaises(ClientError):
                self.raw("PUT", "/some?versioning", body)
        self.enable()
        self.assertEqual(s3.get_bucket_versioning(Bucket="some")["Status"], "Enabled")
        self.assertEqual(s3.list_buckets()["Buckets"][0]["CreationDate"], made)
        second = s3.put_object(Bucket="some", Key="a", Body=b"second")["VersionId"]
        self.assertEqual(self.all(), [[("a", second, True), ("a", "null", False)], []])
        self.assertEqual(s3.get_object(Bucket="some", Key="a", VersionId="null")["Body"].read(), b"first")
        self.enable("Suspended")
        self.assertEqual(s3.put_object(Bucket="some", Key="a", Body=b"third")["VersionId"], "null")
        self.assertEqual(self.all(), [[("a", "null", True), ("a", second, False)], []])
        self.assertEqual(s3.get_object(Bucket="some", Key="a")["Body"].read(), b"third")
        self.assertEqual(s3.delete_object(Bucket="some", Key="a")["VersionId"], "null")
        self.assertEqual(self.all(), [[("a", second, False)], [("a", "null", True)]])
        self.assertEqual(code_of(s3.delete_bucket, Bucket="some")[0], "BucketNotEmpty")
        for version, code in (("null", "MethodNotAllowed"), ("0" * 24, "NoSuchVersion"), ("x", "InvalidArgument")):
            self.assertEqual(code_of(s3.get_object, Bucket="some", Key="a", VersionId=version)[0], code)
        s3.delete_object(Bucket="some", Key="a", VersionId="null")
        self.assertEqual(s3.get_object(Bucket="some", Key="a")["Body"].read(), b"second")
        told = s3.delete_objects(Bucket="some", Delete={"Objects": [{"Key": "a", "VersionId": second}, {"Key": "b"}, {"Key": "c", "VersionId": "x"}]})
        self.assertEqual({(each["Key"], each.get("VersionId"), each.get("DeleteMarker"), each.get("DeleteMarkerVersionId")) for each in told["Deleted"]}, {("a", second, None, None), ("b", None, True, "null")})
        self.assertEqual([(each["Key"], each["Code"]) for each in told["Errors"]], [("c", "InvalidArgument")])
        told = s3.delete_objects(Bucket="some", Delete={"Objects": [{"Key": "b", "VersionId": "null"}]})["Deleted"]
        self.assertEqual((told[0]["DeleteMarker"], told[0]["DeleteMarkerVersionId"]), (True, "null"))
        s3.delete_bucket(Bucket="some")
        s3.create_bucket(Bucket="some")
        self.assertNotIn("Status", s3.get_bucket_versioning(Bucket="some"))

    def slow(self, method, path, first):
        """A request whose body has come but for its last byte."""
        head = test_malformed.signed(method, path) + f"Content-Length: {len(first) + 1}\r\n\r\n".encode()
        made = self.enterContext(socket.create_connection(("127.0.0.1", self.found.port), timeout=longer(PATIENCE)))
        made.sendall(head + first)
        return made

    def test_what_was_begun_before(self):
        """Where a change stands is chosen as it is committed: so what comes slowly takes nothing away that was there when versions were enabled, or is `null` once
        they are suspended; and the ID that is told is the right one."""
        s3 = Common.begin(self)
        test_malformed.GATEWAY = self.found
        keys, upload = ["put", "form", "done"], s3.create_multipart_upload(Bucket="some", Key="done")["UploadId"]
        part = s3.upload_part(Bucket="some", Key="done", UploadId=upload, PartNumber=1, Body=b"new!")["ETag"]
        for key in keys:
            s3.put_object(Bucket="some", Key=key, Body=b"old")
        listed = f"<CompleteMultipartUpload><Part><PartNumber>1</PartNumber><ETag>{part}</ETag></Part></CompleteMultipartUpload"
        form = s3.generate_presigned_post("some", "form")["fields"]
        lines = [f'--B\r\nContent-Disposition: form-data; name="{name}"\r\n\r\n{value}\r\n' for name, value in form.items()]
        lines += ['--B\r\nContent-Disposition: form-data; name="file"; filename="a"\r\n\r\nnew!\r\n--B-']

        def begin():
            """All three, but for their last byte."""
            posted = "".join(lines).encode()
            made = self.enterContext(socket.create_connection(("127.0.0.1", self.found.port), timeout=longer(PATIENCE)))
            head = f"POST /some HTTP/1.1\r\nHost: a\r\nContent-Type: multipart/form-data; boundary=B\r\nContent-Length: {len(posted) + 1}\r\n\r\n"
            made.sendall(head.encode() + posted)
            asked = [self.slow("PUT", "/some/put", b"new"), made]
            return [*asked, self.slow("POST", f"/some/done?uploadId={upload}", listed.encode())] if keys[-1] == "done" else asked

        def end(asked):
            """The IDs of the versions that they are told."""
            for made, last in zip(asked, (b"!", b"-", b">")):
                made.sendall(last)
            told = [made.recv(65_536) for made in asked]
            found = [re.search(rb"(?i)x-amz-version-id: (\w+)", each) for each in told]
            self.assertTrue(all(re.match(rb"HTTP/1.1 20[04] ", each) for each in told) and all(found), told)
            return [each[1].decode() for each in found]

        asked = begin()
        time.sleep(1)
        self.enable()
        before = dict(zip(keys, end(asked)))
        self.assertNotIn("null", before.values())
        versions = sorted((key, version) for key, version, _ in self.all()[0])
        self.assertEqual(versions, sorted(each for key in keys for each in ((key, "null"), (key, before[key]))))
        for key in keys:
            self.assertEqual(s3.get_object(Bucket="some", Key=key, VersionId="null")["Body"].read(), b"old")
            self.assertEqual(s3.get_object(Bucket="some", Key=key)["Body"].read(), b"new!")
        keys.pop()
        asked = begin()
        time.sleep(1)
        self.enable("Suspended")
        self.assertEqual(end(asked), ["null", "null"])
        self.assertNotIn("Traceback", self.found.told())

    def raw(self, method, path, body):
        parse = {"PUT": self.s3.put_bucket_versioning}[method]
        handler = lambda request, **_: request.__setattr__("data", body)
        self.s3.meta.events.register("before-sign.s3.PutBucketVersioning", handler)
        try:
            parse(Bucket="some", VersioningConfiguration={"Status": "Enabled"}, ChecksumAlgorithm="SHA256")
        finally:
            self.s3.meta.events.unregister("before-sign.s3.PutBucketVersioning", handler)

    def test_what_is_beside(self):
        """Metadata, tags, checksums and ranges are those of the version; a copy onto itself is a new one, and leaves the old one as it was."""
        s3 = self.begin()
        first = s3.put_object(Bucket="some", Key="a", Body=b"first", Metadata={"at": "1"}, Tagging="k=1", ChecksumAlgorithm="SHA256")["VersionId"]
        second = s3.put_object(Bucket="some", Key="a", Body=b"second", Metadata={"at": "2"})["VersionId"]
        head = s3.head_object(Bucket="some", Key="a", VersionId=first, ChecksumMode="ENABLED")
        self.assertEqual((head["Metadata"], head["ContentLength"], "ChecksumSHA256" in head), ({"at": "1"}, 5, True))
        self.assertEqual(s3.get_object(Bucket="some", Key="a", VersionId=first, Range="bytes=1-2")["Body"].read(), b"ir")
        self.assertEqual(s3.get_object_tagging(Bucket="some", Key="a", VersionId=first)["TagSet"], [{"Key": "k", "Value": "1"}])
        self.assertEqual(s3.get_object_tagging(Bucket="some", Key="a")["TagSet"], [])
        self.assertEqual(s3.put_object_tagging(Bucket="some", Key="a", Tagging={"TagSet": [{"Key": "k", "Value": "2"}]})["VersionId"], second)
        s3.delete_object_tagging(Bucket="some", Key="a", VersionId=first)
        self.assertEqual([s3.get_object_tagging(Bucket="some", Key="a", VersionId=version)["TagSet"] for version in (first, second)], [[], [{"Key": "k", "Value": "2"}]])
        after = s3.head_object(Bucket="some", Key="a", VersionId=first)
        self.assertEqual((after["LastModified"], after["ETag"], after["Metadata"]), (head["LastModified"], head["ETag"], head["Metadata"]))
        self.assertEqual(self.all()[0], [("a", second, True), ("a", first, False)])
        third = s3.copy_object(Bucket="some", Key="a", CopySource={"Bucket": "some", "Key": "a"}, MetadataDirective="REPLACE", Metadata={"at": "3"})["VersionId"]
        self.assertEqual([s3.head_object(Bucket="some", Key="a", VersionId=version)["Metadata"]["at"] for version in (first, second, third)], ["1", "2", "3"])
        fourth = s3.copy_object(Bucket="some", Key="a", CopySource={"Bucket": "some", "Key": "a", "VersionId": first})["VersionId"]
        self.assertEqual(s3.get_object(Bucket="some", Key="a")["Body"].read(), b"first")
        self.assertEqual([each[1] for each in self.all()[0]], [fourth, third, second, first])
        self.assertEqual(s3.get_object_attributes(Bucket="some", Key="a", VersionId=second, ObjectAttributes=["ObjectSize"])["ObjectSize"], 6)
        upload = {"Bucket": "some", "Key": "b", "UploadId": s3.create_multipart_upload(Bucket="some", Key="b")["UploadId"]}
        told = s3.upload_part_copy(**upload, PartNumber=1, CopySource={"Bucket": "some", "Key": "a", "VersionId": second})["CopyPartResult"]["ETag"]
        s3.complete_multipart_upload(**upload, MultipartUpload={"Parts": [{"PartNumber": 1, "ETag": told}]})
        self.assertEqual(s3.get_object(Bucket="some", Key="b")["Body"].read(), b"second")

    def test_conditions(self):
        """They are of the latest version; a marker is nothing."""
        s3, condition = self.begin(), {}
        s3.meta.events.register("before-sign.s3", lambda request, **_: [request.headers.__setitem__(*each) for each in condition.items()])

        def told(work, headers, **words):
            condition.update(headers)
            try:
                return code_of(work, Bucket="some", Key="a", **words)
            finally:
                condition.clear()

        none = {"If-None-Match": "*"}
        self.assertIsNone(told(s3.put_object, none, Body=b"first"))
        self.assertEqual(told(s3.put_object, none, Body=b"second")[0], "PreconditionFailed")
        etag = s3.head_object(Bucket="some", Key="a")["ETag"]
        self.assertIsNone(told(s3.put_object, {"If-Match": etag}, Body=b"second"))
        self.assertEqual(told(s3.put_object, {"If-Match": etag}, Body=b"third")[0], "PreconditionFailed")
        self.assertEqual(told(s3.delete_object, {"If-Match": etag})[0], "PreconditionFailed")
        self.assertEqual(told(s3.delete_object, {"If-Match": etag}, VersionId="null")[0], "NotImplemented")
        self.assertIsNone(told(s3.delete_object, {"If-Match": s3.head_object(Bucket="some", Key="a")["ETag"]}))
        self.assertEqual(told(s3.put_object, {"If-Match": etag}, Body=b"third")[0], "NoSuchKey")
        self.assertIsNone(told(s3.put_object, none, Body=b"third"))
        self.assertEqual([len(each) for each in self.all()], [3, 1])

    def test_conditional_puts_side_by_side(self):
        """Of many that want that nothing is there one is done."""
        self.begin()
        done, at_once = [], threading.Barrier(8)

        def put(number):
            s3 = self.found.client()
            s3.meta.events.register("before-sign.s3", lambda request, **_: request.headers.__setitem__("If-None-Match", "*"))
            for key in "abcdefghijkl":
                at_once.wait()
                with contextlib.suppress(ClientError):
                    done.append((key, s3.put_object(Bucket="some", Key=key, Body=b"%d" % number)["VersionId"], True))

        each = [threading.Thread(target=put, args=(number,)) for number in range(8)]
        [thread.start() for thread in each], [thread.join() for thread in each]
        self.assertEqual(self.all(), [sorted(done), []])
        self.assertEqual(len(done), 12)

    def test_puts_side_by_side(self):
        """By two gateways: each put is a version, and one that was begun once another had ended comes after it."""
        one, two = self.gateway("1-2", "3-4")
        self.found, self.s3 = one, one.client()
        self.s3.create_bucket(Bucket="some")
        self.enable()
        time.sleep(QUIET + 0.5)  # (the other gateway goes by what it knows for two seconds)
        two.client().head_bucket(Bucket="some")
        done = []

        def put(gateway):
            s3 = gateway.client()
            for _ in range(12):
                begun = time.monotonic()
                version = s3.put_object(Bucket="some", Key="a", Body=b"x")["VersionId"]
                done.append((begun, time.monotonic(), version))

        each = [threading.Thread(target=put, args=(gateway,)) for gateway in (one, two) for _ in range(3)]
        [thread.start() for thread in each], [thread.join() for thread in each]
        listed = [version for _, version, _ in self.all()[0]]
        self.assertEqual(sorted(listed), sorted(version for *_, version in done))
        place = {version: at for at, version in enumerate(listed)}  # (the latest has the least)
        for begun, _, version in done:
            for _, ended, before in done:
                if ended < begun:
                    self.assertGreater(place[before], place[version])

    def test_listings(self):
        """Pages of versions, common prefixes, and a page whose last version was removed meanwhile: nothing is left out."""
        s3 = self.begin()
        for key in ("a", "b/1", "b/2", "c", "a"):
            s3.put_object(Bucket="some", Key=key, Body=b"x")
        told = s3.list_object_versions(Bucket="some", Delimiter="/", MaxKeys=3)
        self.assertEqual(([each["Key"] for each in told["Versions"]], [each["Prefix"] for each in told["CommonPrefixes"]]), (["a", "a"], ["b/"]))
        rest = s3.list_object_versions(Bucket="some", Delimiter="/", KeyMarker=told["NextKeyMarker"])
        self.assertEqual(([each["Key"] for each in rest["Versions"]], "CommonPrefixes" in rest), (["c"], False))
        told = s3.list_object_versions(Bucket="some", MaxKeys=1)
        first = told["Versions"][0]["VersionId"]
        s3.delete_object(Bucket="some", Key="a", VersionId=first)
        rest = s3.list_object_versions(Bucket="some", KeyMarker=told["NextKeyMarker"], VersionIdMarker=told["NextVersionIdMarker"])["Versions"]
        self.assertEqual([each["Key"] for each in rest], ["a", "b/1", "b/2", "c"])
        for words, message in (({"VersionIdMarker": first}, "without a key marker"), ({"KeyMarker": "", "VersionIdMarker": "bogus"}, "Invalid version id specified")):
            with self.assertRaises(ClientError) as fault:
                s3.list_object_versions(Bucket="some", **words)
            self.assertEqual(fault.exception.response["Error"]["Code"], "InvalidArgument")
            self.assertIn(message, fault.exception.response["Error"]["Message"])

    def test_names(self):
        """`gridfs-client` has what was put while versions were off, or are suspended, by its name."""
        s3 = self.begin()
        self.put_by_name("some/a", "")
        self.assertEqual(s3.get_object(Bucket="some", Key="a")["Body"].read(), b"hello")
        self.assertEqual(self.all()[0], [("a", "null", True)])

    def test_others_in_the_page(self):
        """A line that ends as a key's versions do, and says another key, or none, is none of them."""
        s3 = self.begin()
        first = s3.put_object(Bucket="some", Key="a", Body=b"first")["VersionId"]
        for number, words in enumerate(("k=b", "", "k=" + "x" * 1_025)):
            self.put_by_name(f".s3/version/some/{number:024}/={endpoint.digest_of('some/a')}", f"t=1&{words}")
        self.assertEqual(s3.get_object(Bucket="some", Key="a")["VersionId"], first)
        s3.delete_object(Bucket="some", Key="a")
        self.assertEqual(code_of(s3.get_object, Bucket="some", Key="a")[0], "NoSuchKey")
        self.assertNotIn("Traceback", self.found.told())

    def test_lifecycle(self):
        """The latest gets a marker when it has expired; older ones go by when the next one came; a marker goes once it is alone."""
        s3 = self.begin(words=OFTEN)
        end = "/=" + endpoint.digest_of("some/a")
        for number in range(4):  # (each the next one of the one before)
            self.put_by_name(f".s3/version/some/{number:024}{end}", f"t={1_000 + number}&k=a")
        latest = s3.put_object(Bucket="some", Key="b", Body=b"x")["VersionId"]
        self.give({"Filter": {"Prefix": ""}, "NoncurrentVersionExpiration": {"NoncurrentDays": 1, "NewerNoncurrentVersions": 1}})
        self.until(lambda: len(self.all()[0]) == 3)
        time.sleep(QUIET)
        self.assertEqual(self.all(), [[("a", f"{3:024}", True), ("a", f"{2:024}", False), ("b", latest, True)], []])
        self.give({"Filter": {"Prefix": ""}, "Expiration": {"Days": 1}})
        self.until(lambda: len(self.all()[1]) == 1)
        time.sleep(QUIET)
        versions, ((key, marker, is_latest),) = self.all()
        self.assertEqual((key, is_latest, len(versions)), ("a", True, 3))
        self.give({"Filter": {"Prefix": ""}, "Expiration": {"ExpiredObjectDeleteMarker": True}})
        time.sleep(QUIET)
        self.assertEqual(len(self.all()[1]), 1)
        for number in (2, 3):
            s3.delete_object(Bucket="some", Key="a", VersionId=f"{number:024}")
        self.until(lambda: not self.all()[1])
        self.assertEqual(self.all()[0], [("b", latest, True)])

    def test_a_version_that_is_the_latest_again(self):
        """One that was not the latest when it was seen, and is when it is to go, stays."""
        s3 = self.begin(program=self.SLOW)
        end = "/=" + endpoint.digest_of("some/a")
        for number in range(3):
            self.put_by_name(f".s3/version/some/{number:024}{end}", f"t={1_000 + number}&k=a")
        self.give({"Filter": {"Prefix": ""}, "NoncurrentVersionExpiration": {"NoncurrentDays": 1}})
        self.until(lambda: "goes .s3" in self.found.told())
        for number in (1, 2):
            with contextlib.suppress(ClientError):
                s3.delete_object(Bucket="some", Key="a", VersionId=f"{number:024}")
        time.sleep(4)
        self.assertEqual(self.all()[0], [("a", f"{0:024}", True)])


if __name__ == "__main__":
    unittest.main()
