"""What others get while one who means ill, or a stranger, asks for much: scenes over a grid with two tenants behind
nginx (`tests/s3/long attacked`).

In each scene somebody works against the gateways, by connections of its own, while another client of carol's has small
requests and puts of 300 KB done.
"""

import base64
import contextlib
import json
import os
import random
import signal
import socket
import threading
import time
from concurrent.futures import ThreadPoolExecutor

SLOWEST = 5  # seconds that a small get and a put may take meanwhile
COUNT = 20  # of each others' request in a scene
FORMS = 140  # of each connection maker of a stranger
GOOD, SECRET = b"good" * 500, "the.secret.of.one"
ANYBODY = {"Effect": "Allow", "Principal": "*", "Action": "s3:GetObject", "Resource": "arn:aws:s3:::shown/*"}
PUBLIC = {"Version": "2012-10-17", "Statement": [ANYBODY]}
MANY_NAMES = 20_000  # of headers


class Scenes:
    """`it` is a grid with its gateways, as tests/s3/long starts one."""

    def __init__(self, it):
        self.it, self.wrong, self.host = it, [], ("127.0.0.1", int(it.host.rpartition(":")[2]))
        self.carol, self.dave = it.client(), it.client("dave")
        self.ends = threading.Event()
        for name in ("one", "two"):
            self.carol.create_bucket(Bucket=name)
        self.carol.put_object(Bucket="two", Key="good", Body=GOOD)
        self.dave.create_bucket(Bucket="shown")
        self.dave.put_object(Bucket="shown", Key="large", Body=random.Random(1).randbytes(40 << 20))
        self.dave.put_bucket_policy(Bucket="shown", Policy=json.dumps(PUBLIC))
        self.one = self.with_key_of_one_bucket()

    def with_key_of_one_bucket(self):
        """A client by a key that has the bucket `one` alone."""
        with open(os.path.join(self.it.folder, "s3", "carol.keys"), "a") as keys:
            keys.write(f"carol.one {SECRET} bucket=one\n")
        os.kill(self.it.gateway(), signal.SIGHUP)
        s3 = self.it.client("carol.one", secret=SECRET)
        until = time.monotonic() + SLOWEST
        while True:
            try:
                s3.list_objects_v2(Bucket="one")
                return s3
            except s3.exceptions.ClientError:
                if time.monotonic() > until:
                    raise
                time.sleep(0.1)

    # Who means ill

    def sends(self, head, body=b"", again=False, pause=0.0):
        """One connection: a head, and bodies for as long as the scene goes on; what is told is read and passed over."""
        while not self.ends.is_set():
            with contextlib.suppress(OSError), socket.create_connection(self.host, 30) as made:
                made.settimeout(1)
                made.sendall(head)
                while body and not self.ends.is_set():
                    with contextlib.suppress(TimeoutError):
                        made.send(body)
                    time.sleep(pause)
                while not self.ends.is_set():
                    with contextlib.suppress(TimeoutError):
                        if not made.recv(65_536):
                            break
            if not again:
                return
            time.sleep(0.05)

    def url(self, call, **words):
        """Path and query of a URL that the key of one bucket signed."""
        return self.one.generate_presigned_url(call, Params={"Bucket": "one", **words}).partition(self.it.host)[2]

    def slow_readers(self, number):
        """A stranger, who takes 4 KiB a second of what anybody may read."""
        made = socket.socket()
        made.setsockopt(socket.SOL_SOCKET, socket.SO_RCVBUF, 4_096)
        with made, contextlib.suppress(OSError):
            made.connect(self.host)
            made.sendall(b"GET /shown/large?X-Amz-Credential=dave/ HTTP/1.1\r\nHost: a\r\n\r\n")
            while not self.ends.wait(1):
                made.recv(4_096)

    def slow_forms(self, number):
        """A stranger with many forms that never end. They name dave, whom they need not know."""
        head = b"POST /shown?X-Amz-Credential=dave/ HTTP/1.1\r\nHost: a\r\nContent-Length: 9000\r\n"
        head += b"Content-Type: multipart/form-data; boundary=XX\r\n\r\n--XX\r\n"
        with contextlib.ExitStack() as stack:
            for _ in range(FORMS):
                with contextlib.suppress(OSError):
                    made = stack.enter_context(socket.create_connection(self.host, 5))
                    made.sendall(head)
                if self.ends.is_set():
                    return
            self.ends.wait()

    def tiny_chunks(self, number):
        """Bodies in HTTP chunks, and in S3's, of one byte each."""
        path = self.url("put_object", Key=f"tiny{number}")
        s3 = b"x-amz-content-sha256: STREAMING-UNSIGNED-PAYLOAD-TRAILER\r\nx-amz-decoded-content-length: 100000000\r\n"
        words = s3 + b"Content-Length: 700000000\r\n" if number % 2 else b"Transfer-Encoding: chunked\r\n"
        head = f"PUT {path} HTTP/1.1\r\nHost: {self.it.host}\r\n".encode() + words + b"\r\n"
        self.sends(head, b"1\r\nx\r\n" * 10_000, again=True)

    def long_rules(self, number):
        """Rules that would be compared with each header that a browser asks for."""
        names = [f"n{at}" for at in range(MANY_NAMES)]
        rule = {"AllowedOrigins": ["*"], "AllowedMethods": ["GET"], "AllowedHeaders": names}
        with contextlib.suppress(Exception):
            self.one.put_bucket_cors(Bucket="one", CORSConfiguration={"CORSRules": [rule]})
            self.wrong.append("rules of 20,000 names are taken")
        asked = b",".join([b"a"] * 2_000)
        head = b"OPTIONS /one/x?X-Amz-Credential=carol/ HTTP/1.1\r\nHost: a\r\nOrigin: http://a\r\n"
        words = b"Access-Control-Request-Method: GET\r\nAccess-Control-Request-Headers: " + asked
        self.sends(head + words + b"\r\n\r\n", again=True)

    def documents(self, number):
        """XML of many elements."""
        body = b"<Delete>" + b"<Quiet/>" * 100_000 + b"</Delete>"
        while not self.ends.is_set():
            with contextlib.suppress(Exception):
                listed = [{"Key": f"none{each}"} for each in range(1_000)]
                self.one.delete_objects(Bucket="one", Delete={"Objects": listed, "Quiet": True})
            self.posted("/one?delete", body)

    def posted(self, path, body):
        """One request by the key of one bucket, whatever is told."""
        from botocore.auth import S3SigV4Auth
        from botocore.awsrequest import AWSRequest
        from botocore.credentials import Credentials

        asked = AWSRequest("POST", self.it.url + path, data=body)
        S3SigV4Auth(Credentials("carol.one", SECRET), "s3", "us-east-1").add_auth(asked)
        headers = {**asked.headers, "Host": self.it.host, "Content-Length": len(body)}
        lines = [f"POST {path} HTTP/1.1", *(f"{name}: {value}" for name, value in headers.items())]
        with contextlib.suppress(OSError), socket.create_connection(self.host, 30) as made:
            made.sendall("\r\n".join(lines).encode() + b"\r\n\r\n" + body)
            made.recv(65_536)

    def many_urls(self, number):
        """Each URL is another one, of one key."""
        for turn in range(1_000):
            if self.ends.is_set():
                return
            self.sends_once(self.url("list_objects_v2", Prefix=f"{number}.{turn}"))

    def sends_once(self, path, words=""):
        with contextlib.suppress(OSError), socket.create_connection(self.host, 30) as made:
            made.sendall(f"GET {path} HTTP/1.1\r\nHost: {self.it.host}\r\n{words}Connection: close\r\n\r\n".encode())
            while made.recv(65_536):
                pass

    def long_queries(self, number):
        """A stranger's, of 8,000 words."""
        words = b"&".join([b"a"] * 7_000)
        self.sends(b"GET /one?X-Amz-Credential=carol/&" + words + b" HTTP/1.1\r\nHost: a\r\n\r\n", again=True)

    def the_page(self, number):
        """It counts all objects."""
        word = base64.b64encode(f"carol.one:{SECRET}".encode()).decode()
        while not self.ends.is_set():
            self.sends_once("/-/", f"Authorization: Basic {word}\r\n")

    # The others

    def timed(self, call):
        begun = time.monotonic()
        try:
            call()
        except Exception as fault:
            self.wrong.append(f"{type(fault).__name__}: {fault}")
        return time.monotonic() - begun

    def small(self):
        if self.carol.get_object(Bucket="two", Key="good")["Body"].read() != GOOD:
            raise ValueError("another content")
        self.carol.put_object(Bucket="two", Key="small", Body=b"%d" % time.monotonic_ns())

    def longer(self):
        self.carol.put_object(Bucket="two", Key="longer", Body=os.urandom(300_000))

    def others(self):
        """The most seconds that each kind of request of carol's took."""
        small = max(self.timed(self.small) for _ in range(COUNT))
        return small, max(self.timed(self.longer) for _ in range(COUNT // 4))

    def played(self, work, many):
        """One scene; what is wrong."""
        self.ends.clear()
        with ThreadPoolExecutor(many) as pool:
            working = [pool.submit(work, number) for number in range(many)]
            time.sleep(1)
            begun = len(self.wrong)
            small, longer = self.others()
            self.ends.set()
        told = [f"{work.__name__}: {each}" for each in self.wrong[begun:]]
        told += [f"{work.__name__}: {each.exception()!r}" for each in working if each.exception()][:3]
        if max(small, longer) > SLOWEST:
            told.append(f"{work.__name__}: others waited {small:.1f} and {longer:.1f} s")
        told_of = f"a small get and put took {small:.2f} s at most, a put of 300 KB {longer:.2f}"
        print(f"{work.__name__}: {told_of}", flush=True)
        return told

    def all(self):
        alone = self.others()
        print(f"nobody: {alone[0]:.2f} s, {alone[1]:.2f}", flush=True)
        kinds = [
            (self.slow_readers, 12), (self.slow_forms, 8), (self.tiny_chunks, 16), (self.long_rules, 2),
            (self.documents, 16), (self.many_urls, 32), (self.long_queries, 8), (self.the_page, 32),
        ]  # fmt: skip
        wrong = [each for work, many in kinds for each in self.played(work, many)]
        return self.wrong[:5] + wrong if self.wrong and not wrong else wrong
