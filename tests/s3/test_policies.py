"""Policies of buckets: what anybody may read who signs nothing, and that all else stays with those who have a key."""

import http.client
import json
import os
import sys
import time
import unittest

sys.path.insert(0, os.path.dirname(os.path.abspath(__file__)))
import endpoint
from botocore.exceptions import ClientError
from gridfs_s3 import errors, policies

READ = {"Effect": "Allow", "Principal": "*", "Action": "s3:GetObject"}


def policy(*resources, **more):
    return {"Version": "2012-10-17", "Statement": [{**READ, "Resource": [f"arn:aws:s3:::{each}" for each in resources], **more}]}


class Policies(unittest.TestCase):
    def test_what_is_read(self):
        for found, readable, others in (
            (policy("b/*"), ("a", "", "c/d"), ()), (policy("b/public/*"), ("public/", "public/a/b"), ("public", "a", "apublic/a")), (policy("b/one", "b/two*"), ("one", "two", "twofold"), ("ones", "tw", "")),
            (policy("b/a", Principal={"AWS": "*"}, Sid="x"), ("a",), ("b",)), ({"Statement": {**READ, "Action": ["s3:GetObject"], "Resource": "arn:aws:s3:::b/a"}, "Id": "x"}, ("a",), ("",)),
        ):  # fmt: skip
            rules = policies.policy_of(json.dumps(found).encode(), "b").keys
            self.assertEqual([any(rule.has(key) for rule in rules) for key in (*readable, *others)], [True] * len(readable) + [False] * len(others), found)

    def test_what_is_not_taken(self):
        good = policy("b/*")
        for code, wrong in (
            *(("MalformedPolicy", each) for each in (b"", b"{", b"\xff", b"[]", b"[" * 15_000, {}, good | {"Version": "2030-01-01"}, good | {"Other": 1}, {"Statement": []}, {"Statement": [1]}, policy("c/*"), policy("b"),
            policy("*"), policy("b/a*b"), policy("b/?"), policy("b/*", Action=1), policy(), policy("b/*", Resource=[1]), policy("b/a\n*b"), policy("b/*", Action="s3:ListBucket"), policy("b", "b/*"), policy("b", Action=["s3:ListBucket", "s3:GetObject"]))),
            *(("NotImplemented", policy("b/*", **each)) for each in ({"Effect": "Deny"}, {"Principal": {"AWS": "arn:aws:iam::1:root"}}, {"Principal": None}, {"Action": "s3:*"}, {"Action": ["s3:GetObject", "s3:PutObject"]},
            {"Action": ["s3:ListBucket", "s3:PutObject"]}, {"Condition": {"IpAddress": {"aws:SourceIp": "10.0.0.0/8"}}}, {"NotPrincipal": "*"}, {"NotResource": "x"})),
        ):  # fmt: skip
            with self.assertRaises(errors.S3Error, msg=wrong) as fault:
                policies.policy_of(wrong if isinstance(wrong, bytes) else json.dumps(wrong).encode(), "b")
            self.assertEqual(fault.exception.code, code, wrong)


class Anybody(unittest.TestCase):
    @classmethod
    def setUpClass(cls):
        cls.room = cls.enterClassContext(endpoint.stand_in())
        (cls.gateway,) = cls.enterClassContext(endpoint.gateways(cls.room, words=("--domain", "s3.example")))
        cls.s3 = cls.gateway.client()
        for bucket in ("some", "none"):
            cls.s3.create_bucket(Bucket=bucket)
            cls.s3.put_object(Bucket=bucket, Key="public/a", Body=b"hello", ContentType="text/html", Metadata={"a": "b"})
            cls.s3.put_object(Bucket=bucket, Key="private", Body=b"secret")
        cls.s3.put_object(Bucket="some", Key="public/long", Body=b"x" * (3 << 20))
        cls.s3.put_bucket_policy(Bucket="some", Policy=json.dumps(policy("some/public/*")))

    def ask(self, method, path, body=None, **headers):
        """Status, headers and body of the answer to a request that nobody signed."""
        connection = http.client.HTTPConnection(self.gateway.url[7:])
        connection.request(method, path, body, {name.replace("_", "-"): value for name, value in headers.items()})
        told = connection.getresponse()
        return told.status, {name.lower(): value for name, value in told.getheaders()}, told.read()

    def test_reads(self):
        status, headers, body = self.ask("GET", "/some/public/a")
        self.assertEqual((status, body, headers["content-type"], headers["x-amz-meta-a"], headers["content-security-policy"]), (200, b"hello", "text/html", "b", "sandbox"))
        self.assertEqual(self.ask("HEAD", "/some/public/a")[:1], (200,))
        self.assertEqual(self.ask("GET", "/some/public/a", Range="bytes=1-2")[::2], (206, b"el"))
        self.assertEqual(self.ask("GET", "/some/public/a", If_None_Match=headers["etag"])[0], 304)
        self.assertEqual(self.ask("GET", "/some/public/long")[2], b"x" * (3 << 20))
        self.assertEqual(self.ask("GET", "/public/a", Host="some.s3.example")[::2], (200, b"hello"))
        self.assertEqual(self.ask("GET", "/some/public/a?X-Amz-Credential=carol/")[0], 200)

    def test_all_else_wants_a_key(self):
        for method, path in (
            ("GET", "/"), ("GET", "/some"), ("GET", "/some/"), ("GET", "/some/private"), ("HEAD", "/some/private"), ("GET", "/none/public/a"), ("GET", "/nobody/public/a"), ("GET", "/some/public/no-such-key"), ("GET", "/some?policy"),
            ("PUT", "/some/public/a"), ("DELETE", "/some/public/a"), ("POST", "/some/public/a?uploads"), ("POST", "/some?delete"), ("GET", "/.s3/set/some/policy"), ("GET", "/some?list-type=2&prefix=public/"),
        ):  # fmt: skip
            status, _, body = self.ask(method, path, b"x" if method in ("PUT", "POST") else None)
            self.assertEqual(status, 403, (method, path))
            self.assertTrue(method == "HEAD" or b"<Code>AccessDenied</Code>" in body, (path, body))
        for words in ("acl", "tagging", "uploadId=1", "versionId=null", "response-content-type=text/html", "attributes", "anything"):
            status, _, body = self.ask("GET", f"/some/public/a?{words}")
            self.assertEqual((status, b"<Code>InvalidRequest</Code>" in body), (400, True), words)
        self.assertEqual(self.s3.get_object(Bucket="some", Key="public/a")["Body"].read(), b"hello")

    def test_what_mc_gives(self):
        """`mc anonymous set download` names the bucket's place and its listing too: so anybody may list then, and nothing else."""
        of_bucket = {"Effect": "Allow", "Principal": {"AWS": ["*"]}, "Action": ["s3:GetBucketLocation", "s3:ListBucket"], "Resource": ["arn:aws:s3:::mcs"]}
        of_keys = {**of_bucket, "Action": ["s3:GetObject"], "Resource": ["arn:aws:s3:::mcs/*"]}
        self.s3.create_bucket(Bucket="mcs")
        self.s3.put_object(Bucket="mcs", Key="a/b", Body=b"hello")
        self.assertEqual(self.ask("GET", "/mcs")[0], 403)
        self.s3.put_bucket_policy(Bucket="mcs", Policy=json.dumps({"Version": "2012-10-17", "Statement": [of_bucket, of_keys]}))
        for path in ("/mcs", "/mcs?list-type=2&prefix=a/&delimiter=/&max-keys=5", "/mcs/"):
            status, _, body = self.ask("GET", path)
            self.assertEqual((status, b"<Key>a/b</Key>" in body), (200, True), path)
        self.assertEqual([self.ask(method, path)[0] for method, path in (("GET", "/mcs?location"), ("HEAD", "/mcs"), ("GET", "/mcs/a/b"))], [200, 200, 200])
        for path in ("/mcs?uploads", "/mcs?versions", "/mcs?policy", "/mcs?versioning"):
            self.assertEqual(self.ask("GET", path)[0], 400, path)
        self.assertEqual(self.ask("PUT", "/mcs/c", b"x")[0], 403)

    def test_given_and_taken_away(self):
        self.assertEqual(json.loads(self.s3.get_bucket_policy(Bucket="some")["Policy"]), policy("some/public/*"))
        self.assertTrue(self.s3.get_bucket_policy_status(Bucket="some")["PolicyStatus"]["IsPublic"])
        for call in (self.s3.get_bucket_policy, self.s3.get_bucket_policy_status):
            with self.assertRaisesRegex(ClientError, "NoSuchBucketPolicy"):
                call(Bucket="none")
        with self.assertRaisesRegex(ClientError, "NotImplemented"):
            self.s3.put_bucket_policy(Bucket="some", Policy=json.dumps(policy("some/*", Action="s3:*")))
        with self.assertRaisesRegex(ClientError, "EntityTooLarge"):
            self.s3.put_bucket_policy(Bucket="some", Policy=json.dumps(policy("some/*", Sid="x" * 30_000)))
        self.assertEqual(self.ask("GET", "/some/public/a")[0], 200)
        self.s3.create_bucket(Bucket="gone")
        self.s3.put_bucket_policy(Bucket="gone", Policy=json.dumps(policy("gone/*")))
        self.s3.put_object(Bucket="gone", Key="a", Body=b"hello")
        self.assertEqual(self.ask("GET", "/gone/a")[0], 200)
        self.s3.delete_bucket_policy(Bucket="gone")
        self.assertEqual(self.ask("GET", "/gone/a")[0], 403)
        # What an earlier bucket of the name was given is not the new one's.
        self.s3.put_bucket_policy(Bucket="gone", Policy=json.dumps(policy("gone/*")))
        self.s3.delete_object(Bucket="gone", Key="a")
        self.s3.delete_bucket(Bucket="gone")
        self.s3.create_bucket(Bucket="gone")
        self.s3.put_object(Bucket="gone", Key="a", Body=b"hello")
        time.sleep(policies.SURE_FOR)
        self.assertEqual(self.ask("GET", "/gone/a")[0], 403)


if __name__ == "__main__":
    unittest.main()
