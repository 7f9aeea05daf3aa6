"""nginx before two gateways of one tenant, by the configuration that is made for it (front.py), over a stand-in: test_operations.py through it, and what only it can
spoil."""

import contextlib
import json
import os
import shutil
import socket
import subprocess
import sys
import time
import unittest
import urllib.error
import urllib.parse
import urllib.request
from pathlib import Path
from unittest import mock

sys.path.insert(0, os.path.dirname(os.path.abspath(__file__)))
from busy import longer
import endpoint
from gridfs_s3 import cors, policies
from gridfs_s3.front import instances_of, nginx_conf

SESSIONS = 8  # of carol in the plan
OF_AN_ADDRESS = 12  # requests under way, before several tenants here
os.environ |= {"GRIDFS_S3": f"http://127.0.0.1:{endpoint.free_port()}", "GRIDFS_S3_FRONT": "1", "GRIDFS_S3_SEVERAL": "1", "GRIDFS_S3_MOST": "1000000"}
import botocore.auth
import test_operations
from urllib3 import encode_multipart_formdata

SEVERAL = f"http://127.0.0.1:{endpoint.free_port()}"  # before another tenant too, whose gateway is away


def setUpModule():
    room = Path(unittest.enterModuleContext(endpoint.stand_in()))
    os.chmod(room, 0o755)
    both, sockets = instances_of("carol", SESSIONS, 2), {}
    for each in both:
        sockets[each.name] = str(room / f"{each.name}.socket")
        keys = room / f"{each.name}.keys"
        keys.write_text(f"carol {endpoint.SECRET}\ncarol.reader {endpoint.SECRET} read\n")
        os.chmod(keys, 0o600)
        words = [endpoint.GATEWAY, "--config", room / "carol.ini", "--keys", keys, "--listen", f"unix:{sockets[each.name]}"]
        start(room, each.name, words, {"GRIDFS_SESSION": each.sessions, "GRIDFS_LOCKS": str(room / "locks")})
    for each in both:
        until = time.monotonic() + longer(endpoint.PATIENCE)
        while not os.path.exists(sockets[each.name]):
            if time.monotonic() > until:
                raise endpoint.NotStarted((room / f"log.{each.name}").read_text())
            time.sleep(0.05)
    sockets["dave"] = "/nowhere"
    for name, url, tenants in (("nginx", test_operations.URL, {"carol": both}), ("several", SEVERAL, {"carol": both, "dave": instances_of("dave", 4, 1)})):
        (room / name).mkdir()
        conf = nginx_conf(room / name, tenants, sockets, url.partition("//")[2])
        assert "limit_conn addresses 2048;" in conf
        if name == "several":
            conf = conf.replace("limit_conn addresses 2048;", f"limit_conn addresses {OF_AN_ADDRESS};")
        (room / name / "nginx.conf").write_text(f"user root;\n{conf}")
        nginx = start(room, name, [shutil.which("nginx", path="/usr/sbin:" + os.environ["PATH"]), "-e", "stderr", "-c", room / name / "nginx.conf"])
        endpoint.wait(lambda url=url: is_there(url), nginx, room / f"log.{name}")


def start(room, name, words, more={}):
    with open(room / f"log.{name}", "wb") as log:
        process = subprocess.Popen([str(word) for word in words], env={**os.environ, **more}, stdin=subprocess.DEVNULL, stdout=log, stderr=log)
    unittest.addModuleCleanup(process.wait)
    unittest.addModuleCleanup(process.terminate)
    return process


def is_there(url):
    """Whether it answers as S3 does."""
    try:
        urllib.request.urlopen(f"{url}/?unsigned")
    except urllib.error.HTTPError as fault:
        return fault.code == 403
    except OSError:
        return False


class Buckets(test_operations.Buckets):
    pass


class Heads(test_operations.Heads):
    pass


class Requests(test_operations.Requests):
    pass


class Front(test_operations.Case):
    ask = test_operations.Requests.ask

    def test_an_answer_that_is_long_counts_for_nothing(self):
        """Neither gateway is left out because of it."""
        self.put("good", b"good")
        url = self.s3.generate_presigned_url("get_object", {"Bucket": self.bucket, "Key": "good", "ResponseContentDisposition": "x" * 9_000})
        for _ in range(30):
            with test_operations.urllib.request.urlopen(url) as told:
                self.assertEqual(told.read(), b"good")
            self.assertEqual(self.get("good")["Body"].read(), b"good")

    def test_browsers_that_ask_for_leave(self):
        """They sign nothing: nginx goes by the URL of a signed request, and where there is one tenant alone by that."""
        self.s3.put_bucket_cors(Bucket=self.bucket, CORSConfiguration={"CORSRules": [{"AllowedOrigins": ["https://shop.example"], "AllowedMethods": ["PUT"]}]})
        signed = self.s3.generate_presigned_url("put_object", {"Bucket": self.bucket, "Key": "a"})
        time.sleep(cors.SURE_FOR)  # (both gateways know of it)
        for url in (signed, signed.partition("?")[0]) * 2:
            asked = urllib.request.Request(url, headers={"Origin": "https://shop.example", "Access-Control-Request-Method": "PUT"}, method="OPTIONS")
            with urllib.request.urlopen(asked) as told:
                self.assertEqual(told.headers["Access-Control-Allow-Origin"], "https://shop.example")
        one, two = (nginx_conf(Path("/x"), {name: instances_of(name, 4, 1) for name in names}, {"carol": "a", "dave": "b"}, "x") for names in (["carol"], ["carol", "dave"]))
        self.assertIn('"~^:.*:(cors|form|read):" gateway-carol;', one)
        self.assertNotIn("(cors|form|read):\"", two)

    def test_what_anybody_may_read(self):
        """He signs nothing, and his tenant is the only one, or that of the URL."""
        self.put("public/a", b"for all")
        self.put("private", b"for few")
        policy = {"Statement": {"Effect": "Allow", "Principal": "*", "Action": "s3:GetObject", "Resource": f"arn:aws:s3:::{self.bucket}/public/*"}}
        self.s3.put_bucket_policy(Bucket=self.bucket, Policy=json.dumps(policy))
        time.sleep(policies.SURE_FOR)  # (both gateways know of it)
        for query in ("", "?X-Amz-Credential=carol/"):
            with urllib.request.urlopen(f"{test_operations.URL}/{self.bucket}/public/a{query}") as told:
                self.assertEqual(told.read(), b"for all")
            with self.assertRaises(urllib.error.HTTPError) as fault:
                urllib.request.urlopen(f"{test_operations.URL}/{self.bucket}/private{query}")
            self.assertEqual(fault.exception.code, 403)
        for host, status in (("carol.s3.example", 200), ("carol.example:9000", 200), ("dave.s3.example", 503), ("s3.example", 403), ("eve.s3.example", 403)):
            head = f"GET /{self.bucket}/public/a HTTP/1.1\r\nHost: {host}\r\nConnection: close\r\n\r\n"
            self.assertTrue(self.told(SEVERAL, head.encode()).startswith(f"HTTP/1.1 {status} ".encode()), host)

    def test_forms(self):
        """They name their tenant in the body alone, unless the URL does so too."""
        form = self.s3.generate_presigned_post(self.bucket, "posted")
        content, kind = encode_multipart_formdata([*form["fields"].items(), ("file", ("name", b"x" * 100_000))])
        for query in ("", f"?{urllib.parse.urlencode({'X-Amz-Credential': form['fields']['x-amz-credential']})}"):
            with urllib.request.urlopen(urllib.request.Request(form["url"] + query, content, {"Content-Type": kind})) as told:
                self.assertEqual((told.status, told.headers["Location"]), (204, f"{test_operations.URL}/{self.bucket}/posted"))
            self.assertEqual(self.get("posted")["Body"].read(), b"x" * 100_000)

    def told(self, url, data, whence="127.0.0.1"):
        """What is told to these bytes, which come from this address of the machine."""
        host, _, port = url.rpartition("/")[2].partition(":")
        with socket.create_connection((host, int(port)), timeout=longer(60), source_address=(whence, 0)) as made:
            made.sendall(data)
            return made.recv(65_536)

    def test_malformed_requests(self):
        """They are told so, and no fault of the moment, after which a client would ask again."""
        for data in (b"\x01ET / HTTP/1.1\r\n\r\n", b"\r\n \r\n\r\n", b"GET\r\n\r\n", b"GET  HTTP/1.1\r\n\r\n", b"GET / HTTP/x\r\n\r\n", b"GET /%zz HTTP/1.1\r\nHost: a\r\n\r\n",
                     b"GET /\x00 HTTP/1.1\r\nHost: a\r\n\r\n", b"GET / HTTP/1.1\r\nHost: a\r\nHost: b\r\n\r\n", b"GET / HTTP/1.1\r\n\r\n", b"get / HTTP/1.1\r\nHost: a\r\n\r\n",
                     b"GET / HTTP/1.1\r\nHost: a\r\nContent-Length: x\r\n\r\n", b"GET /" + b"a" * 40_000 + b" HTTP/1.1\r\nHost: a\r\n\r\n", b"a" * 70_000):  # fmt: skip
            told = self.told(test_operations.URL, data)
            self.assertRegex(told, rb"HTTP/1.1 4\d\d |<html>|\A\Z|<Error>", data[:40])
            self.assertNotRegex(told, rb"HTTP/1.1 5\d\d|\b500\b", data[:40])

    def test_one_address(self):
        """It has so many requests under way at most, and others are served."""
        head = b"POST /some?X-Amz-Credential=carol/ HTTP/1.1\r\nHost: a\r\nContent-Type: multipart/form-data; boundary=B\r\nContent-Length: 5000\r\n\r\n--B"
        ask = b"GET /?X-Amz-Credential=carol/ HTTP/1.1\r\nHost: a\r\nConnection: close\r\n\r\n"
        with contextlib.ExitStack() as stack:
            host, _, port = SEVERAL.rpartition("/")[2].partition(":")
            for _ in range(OF_AN_ADDRESS):
                stack.enter_context(socket.create_connection((host, int(port)))).sendall(head)
            time.sleep(1)
            told = self.told(SEVERAL, ask)
            self.assertTrue(told.startswith(b"HTTP/1.1 503 ") and b"<Code>SlowDown</Code>" in told, told)
            self.assertTrue(self.told(SEVERAL, ask, "127.0.0.9").startswith(b"HTTP/1.1 403 "))

    def test_before_several_tenants(self):
        """Each request goes to the tenant whose key it names, by whatever signature; one that names none is told so."""
        form, kind = encode_multipart_formdata([("key", "a"), ("file", ("name", b"x"))])
        leave = {"Origin": "https://shop.example", "Access-Control-Request-Method": "PUT"}
        with mock.patch.object(test_operations, "URL", SEVERAL):
            self.assertEqual(self.ask("GET", f"/{self.bucket}")[0], 200)
            self.assertEqual(self.ask("GET", f"/{self.bucket}", access="carol.reader")[0], 200)
            for code, status, method, path, headers, body in [
                ("InvalidRequest", 400, "GET", "/", {"Authorization": "AWS carol:abc"}, b""),
                ("InvalidRequest", 400, "GET", "/", {"Authorization": "AWS carol.reader:abc"}, b""),
                ("InvalidRequest", 400, "GET", f"/{self.bucket}/a?AWSAccessKeyId=carol&Expires=1&Signature=abc", {}, b""),
                ("InvalidRequest", 400, "GET", f"/{self.bucket}/a?Expires=1&Signature=abc&AWSAccessKeyId=carol", {}, b""),
                ("ServiceUnavailable", 503, "GET", "/", {"Authorization": "AWS dave:abc"}, b""),
                ("ServiceUnavailable", 503, "GET", "/?AWSAccessKeyId=dave&Expires=1&Signature=abc", {}, b""),
                ("AccessDenied", 403, "GET", "/", {"Authorization": "AWS eve:abc"}, b""),
                ("AccessDenied", 403, "GET", f"/{self.bucket}/a", {}, b""),
                ("AccessDenied", 403, "POST", f"/{self.bucket}", {"Content-Type": kind}, form),
                ("AccessForbidden", 403, "OPTIONS", f"/{self.bucket}/a", leave, b""),
            ]:
                told = self.ask(method, path, body, headers, sign=False)
                self.assertEqual((told[0], test_operations.Requests.code(self, told)), (status, code), (method, path, headers))
                self.assertEqual(b"No tenant is named" in told[1], code == "AccessForbidden" or method == "POST", told[1])

    def test_expect_that_is_signed(self):
        """nginx has answered it, and does not pass it on."""
        with mock.patch.object(botocore.auth, "SIGNED_HEADERS_BLACKLIST", []):
            status, told, _ = self.ask("PUT", f"/{self.bucket}/expected", b"x", {"Expect": "100-continue"}, payload="UNSIGNED-PAYLOAD")
        self.assertEqual(status, 200, told)


if __name__ == "__main__":
    unittest.main()
