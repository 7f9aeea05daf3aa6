"""The forms: words beside a content, names of keys, access keys, XML, ranges, conditions, listings that are cut, bodies."""

import asyncio
import base64
import contextlib
import hashlib
import os
import pathlib
import random
import shutil
import subprocess
import sys
import tempfile
import time
import types
import unittest
from unittest import mock
from urllib.parse import quote

sys.path.insert(0, os.path.dirname(os.path.abspath(__file__)))
from code_of_s3 import TOP

from botocore.auth import S3SigV4Auth, S3SigV4QueryAuth
from botocore.awsrequest import AWSRequest
from botocore.credentials import Credentials
from gridfs_client.answers import Tag
from gridfs_client.contents import Inline, digest_of
from gridfs_client.core import Known, Line, Page, Version
from gridfs_client.buckets import Held
from gridfs_client.errors import Damaged
from gridfs_client.pages import check_words
from gridfs_client.settings import Settings
from gridfs_s3 import checksums, markup, setting_up, signing, tags
from gridfs_s3.bodies import Body
from gridfs_s3 import bounds
from gridfs_s3.bounds import IN_MEMORY, LONG, MOST_IN_MEMORY, Spool
from gridfs_s3.copying import range_to_copy
from gridfs_s3.errors import S3Error
from gridfs_s3.front import instances_of, make_keys
from gridfs_s3.index import Few, Index
from gridfs_s3.keys import BadKeys, Key, parse_keys, read_keys
from gridfs_s3.listing import Cut, latest_of
from gridfs_s3.objects import Get
from gridfs_s3.places import KEYS, Object, Part, check_bucket, name_of, of_words, parts_of, to_words, words_of
from gridfs_s3.requests import Asked, http_date, judge, range_of, range_wanted, seconds_of_date
from gridfs_s3.sessions import Pool
from gridfs_s3.shared import Turns
from gridfs_s3.workers import Lending, Wanted


def held(name, words=None, content=b"hi"):
    return Held(name, Version(1, 1), Inline(content), to_words(words or {}))


class Case(unittest.TestCase):
    def fails(self, code, call, *words):
        with self.assertRaises(S3Error, msg=words) as fault:
            call(*words)
        self.assertEqual(fault.exception.code, code, words)


class Places(Case):
    def test_words(self):
        values = {"k": "a b&c={}~|\n\r\x00ü日🙂+%", "x-one": "", "t": "1"}
        words = to_words(values)
        check_words(words)
        self.assertEqual(of_words(words), values)

    def test_keys(self):
        draw, seen = random.Random(1), {}
        keys = ["a", "a/", "/a", "//", "a\nb", "x" * 300, "x" * 301, "ü" * 512, ".", "..", " ", "key/abc"]
        keys += ["".join(draw.choice("ab/. \n") for _ in range(draw.randrange(1, 9))) for _ in range(2_000)]
        buckets = {"one", "one.two", "key"}
        for bucket in buckets:
            for key in keys:
                name = name_of(bucket, key)
                self.assertEqual(seen.setdefault(name, (bucket, key)), (bucket, key))
                it = held(name, {"k": key} if name.startswith(".s3/key/") else {})
                self.assertEqual([row.key for row in Cut(Few([it]), bucket, "", "", "", 9, latest_of).rows], [key])
                for other in buckets - {bucket}:
                    self.assertEqual(Cut(Few([it]), other, "", "", "", 9, latest_of).rows, [])
        self.fails("KeyTooLongError", name_of, "one", "x" * 1_025)
        self.fails("InvalidURI", name_of, "one", "\udc80")

    def test_buckets(self):
        for name in ("abc", "a-b.c", "1" * 63):
            check_bucket(name)
        for name in ("ab", "A" * 3, "-ab", "ab-", "a..b", "1.2.3.4", "x" * 64, "a_b", "xn--a", "a/b", "ab\n", ".s3"):
            self.fails("InvalidBucketName", check_bucket, name)

    def test_etag(self):
        self.assertEqual(Object("a", held("b/a", {"m": "f" * 32})).etag, "f" * 32)
        self.assertEqual(Object("a", held("b/a", {"m": "f" * 32, "n": "7"})).etag, "f" * 32 + "-7")
        self.assertRegex(Object("a", held("b/a")).etag, r"^[0-9a-f]{32}-1$")


class Keys(Case):
    def test_files(self):
        self.assertEqual(parse_keys("0123456789\n", "ann"), {"ann": Key("ann", "0123456789")})
        found = parse_keys("# ours\nann 12345678\n\nann.backup  abcdefgh read bucket=one bucket=two\n", "ann")
        self.assertEqual(found["ann.backup"], Key("ann.backup", "abcdefgh", True, frozenset(("one", "two"))))
        for text in ("", "ann short", "bob 12345678", "ann.a b c d", "ann 12345678 write", "ann 12345678\nann 87654321", "ann. 12345678", "annx.y 12345678", "ann 12345678 bucket="):
            with self.assertRaises(BadKeys, msg=text):
                parse_keys(text, "ann")
        with tempfile.NamedTemporaryFile() as file:
            file.write(b"0123456789\n")
            file.flush()
            self.assertEqual(list(read_keys(file.name, "ann")), ["ann"])
            os.chmod(file.name, 0o604)
            with self.assertRaisesRegex(BadKeys, "others may read"):
                read_keys(file.name, "ann")
        with tempfile.TemporaryDirectory() as folder:
            path = pathlib.Path(folder) / "ann"
            path.write_text("ann 12345678 write\n")
            path.chmod(0o600)
            with contextlib.chdir(folder), self.assertRaisesRegex(BadKeys, "^ann: ann: write is neither"):  # (also where a message begins as the path does)
                read_keys("ann", "ann")

    def test_what_they_may(self):
        key = Key("ann.a", "x", True, frozenset(("one",)))
        key.expect("one", False)
        key.expect("", False)
        self.fails("AccessDenied", key.expect, "one", True)
        self.fails("AccessDenied", key.expect, "two", False)
        Key("ann", "x").expect("two", True)


class Signing(Case):
    keys = {"ann": Key("ann", "secret")}

    def signed(self, stamp=None, region="us-east-1", secret="secret"):
        """The headers of a signed request, at a time."""
        request = AWSRequest("GET", "http://host/bucket/a%20b?x=1&y=%2F", {"host": "host"})
        request.headers["X-Amz-Content-SHA256"] = hashlib.sha256(b"").hexdigest()
        stamp = stamp or time.strftime("%Y%m%dT%H%M%SZ", time.gmtime())
        with mock.patch("botocore.auth.datetime") as clock:
            clock.datetime.utcnow.return_value.strftime.side_effect = lambda _: stamp
            S3SigV4Auth(Credentials("ann", secret), "s3", region).add_auth(request)
        return [(name.lower(), value) for name, value in request.headers.items()]

    def check(self, headers, query="x=1&y=%2F", now=None):
        return signing.check("GET", "/bucket/a%20b", query, headers, self.keys, now)

    def test_who(self):
        self.assertEqual(self.check(self.signed()).key.access, "ann")
        self.fails("SignatureDoesNotMatch", self.check, self.signed(secret="other"))
        self.fails("SignatureDoesNotMatch", self.check, self.signed(), "x=1&y=%2F&z=")
        self.fails("AccessDenied", self.check, [("host", "host")])
        self.fails("AccessDenied", self.check, [*self.signed(), ("x-amz-meta-a", "b")])

    def test_as_botocore_signs(self):
        """Random requests that botocore has signed are right, by header and by URL, and are not once anything of them is another."""
        letters, now = "aZ09-_.~ %+&=;/?:@é日\t", time.time()
        for seed in range(200):
            draw = random.Random(seed)
            word = lambda most=8: "".join(draw.choices(letters, k=draw.randrange(1, most)))
            path = "/bucket/" + quote(word(), safe="/-_.~")
            pairs = [(word(), draw.choice(("", word()))) for _ in range(draw.randrange(4))]
            pairs += [(name, word()) for name, _ in pairs[:1]]
            query = "&".join(f"{quote(name, safe='')}={quote(value, safe='')}" for name, value in pairs)
            request = AWSRequest(draw.choice(("GET", "PUT")), f"http://host{path}" + f"?{query}" * bool(query), {"host": "host"})
            for name in draw.sample(("x-amz-meta-a", "content-type", "x-amz-meta-b"), draw.randrange(4)):
                for _ in range(draw.randrange(1, 3)):
                    request.headers[name] = word(12).replace("\t", "  ")
            in_url = draw.random() < 0.3
            (S3SigV4QueryAuth if in_url else S3SigV4Auth)(Credentials("ann", "secret"), "s3", draw.choice(("us-east-1", "eu-west-3"))).add_auth(request)
            headers = [(name.lower(), value) for name, value in request.headers.items()]
            asked = [request.method, path, request.url.partition("?")[2], headers]
            self.assertEqual(signing.check(*asked, self.keys, now).key.access, "ann", seed)
            other = draw.randrange(4)
            changed = [*asked]
            changed[other] = ("HEAD", path + "x", asked[2] + "&x=1", [(name, value + "x" * (name == "host")) for name, value in headers])[other]
            self.fails("SignatureDoesNotMatch", signing.check, *changed, self.keys, now)

    def test_times(self):
        now = 1_900_000_000
        stamp = time.strftime("%Y%m%dT%H%M%SZ", time.gmtime(now))
        headers = self.signed(stamp)
        for skew, code in ((0, None), (899, None), (-899, None), (901, "RequestTimeTooSkewed"), (-901, "RequestTimeTooSkewed")):
            if code:
                self.fails(code, self.check, headers, "x=1&y=%2F", now + skew)
            else:
                self.check(headers, "x=1&y=%2F", now + skew)
        self.fails("AccessDenied", self.check, [(name, "" if name == "x-amz-date" else value) for name, value in headers])
        for wrong in ("20300101", "99999999T999999Z", "20300317T174640", "x" * 5_000, "00000000T000000Z"):
            self.fails("AuthorizationHeaderMalformed", self.check, [(name, wrong if name == "x-amz-date" else value) for name, value in headers])

    def test_urls(self):
        words = {"X-Amz-Algorithm": signing.ALGORITHM, "X-Amz-Credential": "ann/20300317/us-east-1/s3/aws4_request", "X-Amz-Date": "20300317T174640Z", "X-Amz-SignedHeaders": "host", "X-Amz-Signature": "0" * 64}
        for expires, message in (("", "a number"), ("0", "non-negative"), ("-1", "non-negative"), ("604801", "less than a week"), ("x", "a number"), (str((1 << 63) - 1), "less than a week"), (str(1 << 63), "a number"), ("9" * 5_000, "a number"), ("٣", "a number")):
            query = "&".join(f"{name}={value}" for name, value in {**words, "X-Amz-Expires": expires}.items())
            with self.assertRaises(S3Error) as fault:
                self.check([("host", "host")], query, 1_900_000_000)
            self.assertEqual(fault.exception.code, "AuthorizationQueryParametersError")
            self.assertIn(message, fault.exception.message, expires)


class Markup(Case):
    def test_what_is_refused(self):
        bombs = [
            b'<!DOCTYPE x [<!ENTITY a "aaaa"><!ENTITY b "&a;&a;">]><Delete>&b;</Delete>', b'<!DOCTYPE Delete SYSTEM "file:///etc/passwd"><Delete/>',
            b"<Delete>", b"", b"<Other/>", b"\xff", b"<a>" * 100_000, b"<Delete>" + b"<a/>" * 200_000 + b"</Delete>", b'<?xml version="1.0" encoding="none"?><Delete/>',
            b'<?xml version="1.0" encoding="utf-7"?><Delete/>', b"<Delete>&unknown;</Delete>", b"<Delete>\x00</Delete>",
        ]  # fmt: skip
        for text in bombs:
            self.fails("MalformedXML", markup.parse, text, "Delete")

    def test_what_is_taken(self):
        found = markup.parse(b'<Delete xmlns="http://s3.amazonaws.com/doc/2006-03-01/"><Object><Key> a&amp;b </Key></Object><Quiet> true </Quiet></Delete>', "Delete")
        self.assertEqual((found.all("Object")[0].told("Key"), found.told("Quiet"), found.told("None")), (" a&b ", "true", None))
        self.assertEqual(markup.element("Key", "<&\r\x01"), "<Key>&lt;&amp;&#xD;&#x1;</Key>")


class Tags(Case):
    def test_limits(self):
        """Ten tags, keys of 128 and values of 256 places in UTF-16, and the letters that S3 has."""
        most = [(f"{number}{'é' * 127}", "日" * 256) for number in range(10)]
        self.assertEqual(tags.words_of(most), {"g-" + key: value for key, value in most})
        for pair in (("k" * 128, ""), ("a b+-=._:/@", "a b+-=._:/@"), ("AWS", "aws:"), ("٣", "Ⅷ"), ("a", "𐐀" * 128)):
            self.assertEqual(tags.words_of([pair]), {"g-" + pair[0]: pair[1]})
        for pairs in (
            [*most, ("a", "")], [("", "a")], [("k" * 129, "")], [("a", "v" * 257)], [("a", "1"), ("b", ""), ("a", "2")], [("aws:a", "")], [("Aws:a", "")],
            [("a,b", "")], [("a", "<")], [("a\n", "")], [("a", "\x00")], [("a", "\udc80")], [("a", "𐐀" * 129)],
        ):  # fmt: skip
            self.fails("InvalidTag", tags.words_of, pairs)

    def test_beside_a_content(self):
        """They are told as they were given, and no word beside them is one of them."""
        given = {"a&b": "c=d", "g-": "x", "t": "1", "m": "", "ü %": "+"}
        values = {"t": "1", "x-g-a": "no tag", **{"g-" + key: value for key, value in given.items()}}
        found = of_words(to_words(values))
        self.assertEqual(found, values)
        self.assertEqual(tags.among(found), {"g-" + key: value for key, value in given.items()})

    def test_documents(self):
        pair = "<Tag><Key>a</Key><Value> b </Value></Tag>"
        root = lambda text: markup.parse(f"<Tagging>{text}</Tagging>".encode(), "Tagging", tags.ELEMENTS)
        self.assertEqual(tags.in_document(root(f"<TagSet>{pair}</TagSet>")), {"g-a": " b "})
        self.assertEqual(tags.in_document(root("<TagSet/>")), {})
        self.assertTrue(tags.document_of({"t": "1", "g-a<": "&"}).endswith(b"<TagSet><Tag><Key>a&lt;</Key><Value>&amp;</Value></Tag></TagSet></Tagging>"))
        for text in ("", "<TagSet/><TagSet/>", "<TagSet><Tag/></TagSet>", "<TagSet><Tag><Key>a</Key></Tag></TagSet>", f"<TagSet>{pair.replace('</Tag>', '<Key>b</Key></Tag>')}</TagSet>"):
            self.fails("MalformedXML", tags.in_document, root(text))
        for text in (pair, f"<TagSet>{pair}<Other/></TagSet>", f"<TagSet>{pair.replace('<Key>', '<Key><Other/>')}</TagSet>"):
            self.fails("NotImplemented", root, text)


class Hosts(Case):
    def test_buckets_by_host(self):
        """With a domain a bucket's own host name, however it is written; without, and of other hosts, the first word of the path."""
        for host, domain, told in [
            ("one.s3.example", "s3.example", ("one", "a/b")), ("one.s3.example:9000", "s3.example", ("one", "a/b")), ("one.s3.example.", "s3.example", ("one", "a/b")),
            ("one.s3.example.:80", "s3.example", ("one", "a/b")), ("ONE.S3.example", "s3.example", ("one", "a/b")), ("s3.example.", "s3.example", ("a", "b")),
            ("ones3.example", "s3.example", ("a", "b")), ("one.s3.example", None, ("a", "b")), ("", "s3.example", ("a", "b")),
        ]:  # fmt: skip
            found = Asked(types.SimpleNamespace(method="GET", raw_path="/a/b", headers={"Host": host}), domain)
            self.assertEqual((found.bucket, found.key), told, host)

    def test_secrets(self):
        """What rclone is given is the tenant's own key, wherever it stands in the file."""
        with tempfile.TemporaryDirectory() as folder:
            path = pathlib.Path(folder) / "ann.keys"
            made = make_keys(path, "ann")
            self.assertEqual(read_keys(str(path), "ann"), {"ann": Key("ann", made)})
            for text, secret in (("0123456789\n", "0123456789"), ("# x\nann.backup 12345678 read\nann 87654321\n", "87654321"), ("ann.backup 12345678 read\n", "")):
                path.write_text(text)
                self.assertEqual(make_keys(path, "ann"), secret)


class SettingUp(Case):
    def test_users(self):
        """A gateway has a user of its own, and those of one tenant have a group by which they can read its keys."""
        one, two = instances_of("ann", 8, 1), instances_of("bob", 8, 2)
        told = ["g gridfs-s3 -", 'u gridfs-s3-ann - "gateway of S3 of ann"', "g gridfs-s3-bob -"]
        for name in ("bob-1", "bob-2"):
            told += [f'u gridfs-s3-{name} - "gateway of S3 of bob"', f"m gridfs-s3-{name} gridfs-s3-bob"]
        self.assertEqual(setting_up.users_of({"ann": one, "bob": two}).splitlines(), told)
        self.assertLessEqual(len("gridfs-s3-" + "x" * 16 + "-64"), 31)  # (letters that a user's name may have)

    def test_folder(self):
        """It may be made elsewhere: nothing in it says where."""
        with tempfile.TemporaryDirectory() as folder, mock.patch("sys.stdout"), mock.patch("sys.stderr") as told:
            plan, made = pathlib.Path(folder) / "plan", pathlib.Path(folder) / "made"
            plan.write_text("grid 2 2\nroom 3000\ntenant ann 2000 4 1000 16\ngo\n" + "ann open 16 25\n" * 4 + "ann open 16 16\n")
            setting_up.set_up(made, plan, "127.0.0.1:9000", 2)
            text = (made / "nginx.conf").read_text()
            self.assertNotIn(folder, text)
            self.assertIn("pid /run/gridfs-s3-front/nginx.pid;", text)
            self.assertEqual(os.readlink(made / "ann-2.keys"), "ann.keys")
            self.assertEqual(os.stat(made / "ann.keys").st_mode & 0o777, 0o600)
            self.assertIn("systemd-sysusers", str(told.mock_calls))
            with mock.patch("shutil.chown") as given:
                setting_up.set_up(made, plan, "127.0.0.1:9000", 1)
            given.assert_called_with(made / "ann.keys", group="gridfs-s3-ann")
            self.assertEqual(os.stat(made / "ann.keys").st_mode & 0o777, 0o640)


class Requests(Case):
    def test_ranges(self):
        for text, told in [
            (None, None), ("bytes=0-0", (0, 1)), ("bytes=5-", (5, 10)), ("bytes=-3", (7, 10)), ("bytes=-99", (0, 10)), ("bytes=2-99", (2, 10)),
            ("bytes=3-2", None), ("bytes=-", None), ("bytes=0-1,3-4", None), ("bytes=" + "9" * 50 + "-", None), ("nonsense", None),
        ]:  # fmt: skip
            self.assertEqual(range_of(text, 10), told, text)
        for text in ("bytes=10-", "bytes=-0"):
            self.fails("InvalidRange", range_of, text, 10)
        self.fails("InvalidRange", range_of, "bytes=0-", 0)
        self.assertEqual((range_to_copy(None, 5), range_to_copy("bytes=1-3", 5)), ((0, 5), (1, 4)))
        for text, code in (("bytes=1-5", "InvalidRange"), ("bytes=3-1", "InvalidRange"), ("bytes=1-", "InvalidArgument"), ("x", "InvalidArgument")):
            self.fails(code, range_to_copy, text, 5)

    def test_ranges_of_one_content(self):
        found, untimed = Object("a", held("b/a", {"m": "e" * 32, "t": "1700000000500"})), Object("a", held("b/a", {"m": "e" * 32}))
        for word, told in (('"e"', (0, 1)), (' "e" ', (0, 1)), ('"f"', None), ('W/"e"', None), ("e", None), ("*", None), ("", None), (http_date(1_700_000_000_000), (0, 1)), (http_date(1_700_000_001_000), None)):
            self.assertEqual(range_wanted({"range": "bytes=0-0", "if-range": word.replace('"e"', f'"{found.etag}"')}, found), told, word)
        self.assertIsNone(range_wanted({"range": "bytes=0-0", "if-range": http_date(0)}, untimed))
        self.assertEqual(range_wanted({"range": "bytes=0-0"}, untimed), (0, 1))

    def test_conditions(self):
        found = Object("a", held("b/a", {"m": "e" * 32, "t": "1700000000500"}))
        before, then = "Tue, 14 Nov 2023 22:13:19 GMT", "Tue, 14 Nov 2023 22:13:20 GMT"
        for headers, code in [
            ({}, None), ({"if-match": '"e"'}, None), ({"if-match": "*"}, None), ({"if-match": '"x", "e"'}, None), ({"if-match": '"x"'}, "PreconditionFailed"),
            ({"if-none-match": '"e"'}, "NotModified"), ({"if-none-match": '"x"'}, None), ({"if-modified-since": then}, "NotModified"),
            ({"if-modified-since": before}, None), ({"if-unmodified-since": then}, None), ({"if-unmodified-since": before}, "PreconditionFailed"),
            ({"if-match": '"e"', "if-unmodified-since": before}, None), ({"if-none-match": '"x"', "if-modified-since": then}, None),
            ({"if-modified-since": "nonsense"}, None), ({"if-unmodified-since": "Mon, 99 Foo 99999999 99:99:99 GMT"}, None),
        ]:  # fmt: skip
            headers = {name: value.replace('"e"', f'"{found.etag}"') for name, value in headers.items()}
            if code:
                self.fails(code, judge, headers, found)
            else:
                judge(headers, found)
        self.assertIsNone(seconds_of_date("x" * 9_000))

    def test_cuts(self):
        keys = sorted(["a/1", "a/2", "b", "c/1", "ü", "a", "a/"], key=str.encode)
        every = [held(f"b/{key}") for key in [*keys, "x"] if not key.endswith("/") and key != "x"] + [held(f"{KEYS}b/{digest_of(b'a/')}", {"k": "a/"})]
        every += [held("a/a"), held("b.c/a"), held("c/a"), held(".s3/bucket/b")]
        index = Index()
        index.keep(3, 1, Known(Tag(5, 1), Page(tuple(Line(each.name, 5, each.content, each.words) for each in every), (), 5)))
        for names in (Few(every), index):

            def told(names=names, **words):
                cut = Cut(names, "b", *({"prefix": "", "delimiter": "", "after": "", "most": 1_000} | words).values(), latest_of)
                return [each.key for each in cut.rows], cut.groups, cut.is_cut

            self.assertEqual(told(), (keys, [], False))
            self.assertEqual(told(prefix="a"), (["a", "a/", "a/1", "a/2"], [], False))
            self.assertEqual(told(delimiter="/"), (["a", "b", "ü"], ["a/", "c/"], False))
            self.assertEqual(told(delimiter="/", after="a/", most=1), (["b"], [], True))
            self.assertEqual(told(delimiter="/", after="a/1"), (["b", "ü"], ["c/"], False))
            self.assertEqual(told(most=0), ([], [], False))
            self.assertEqual(told(most=7), (keys, [], False))
            for size in (1, 2, 3):
                found, after = [], ""
                while True:
                    cut = Cut(names, "b", "", "/", after, size, latest_of)
                    found, after = found + [each.key for each in cut.rows] + cut.groups, cut.last
                    if not cut.is_cut:
                        break
                self.assertEqual(sorted(found), ["a", "a/", "b", "c/", "ü"])
            self.assertEqual((names.total("b/"), names.has_any("b.c/"), names.has_any("b.d/")), ((7, 14), True, False))
            self.assertEqual([row.key for row in names.names(".s3/bucket/")], [".s3/bucket/b"])


class Stream:
    """What aiohttp gives of a body."""

    def __init__(self, data, size=7):
        self.data, self.size = data, size

    async def iter_any(self):
        while self.data:
            yield await self.read(self.size)

    async def read(self, length):
        found, self.data = self.data[:length], self.data[length:]
        return found

    async def readuntil(self, end):
        at = self.data.find(end)
        return await self.read(at + len(end) if at >= 0 else len(self.data))

    def at_eof(self):
        return not self.data


class Bodies(Case):
    def told(self, data, payload, **headers):
        """The content of a body, or the code of what is wrong with it."""
        signed = types.SimpleNamespace(payload=payload, signature="0" * 64, chunk_signature=lambda *_: "1" * 64)
        try:
            words = {name.replace("_", "-"): value for name, value in headers.items()}

            async def whole():
                return await Body(Stream(data), words, signed).all(1_000)

            return asyncio.run(whole())
        except S3Error as fault:
            return fault.code

    def test_plain(self):
        md5 = base64.b64encode(hashlib.md5(b"hello").digest()).decode()
        sha = hashlib.sha256(b"hello").hexdigest()
        for told, payload, headers in [
            (b"hello", "UNSIGNED-PAYLOAD", {"content_length": "5"}), (b"hello", sha, {"content_length": "5", "content_md5": md5}),
            ("XAmzContentSHA256Mismatch", "0" * 64, {"content_length": "5"}), ("BadDigest", sha, {"content_length": "5", "content_md5": md5[::-1][2:] + "=="}),
            ("InvalidDigest", sha, {"content_length": "5", "content_md5": "x"}), ("IncompleteBody", sha, {"content_length": "6"}),
            ("IncompleteBody", sha, {"content_length": "4"}), ("MissingContentLength", sha, {}), ("InvalidArgument", sha, {"content_length": "-1"}),
            ("InvalidArgument", sha, {"content_length": "9" * 5_000}), ("InvalidArgument", "nonsense", {"content_length": "5"}),
            ("EntityTooLarge", sha, {"content_length": "5000"}), ("NotImplemented", sha, {"content_length": "5", "x_amz_checksum_md5": "x"}),
            ("BadDigest", sha, {"content_length": "5", "x_amz_checksum_sha1": "x"}),
        ]:  # fmt: skip
            code = self.told(b"hello", payload, **headers)
            self.assertEqual(code, told, (payload, headers))

    def test_checksums(self):
        """By the check values of their definitions."""
        for name, digest in {"crc32": "cbf43926", "crc32c": "e3069283", "crc64nvme": "ae8b14860a799888", "sha1": "f7c3bc1d808e04732adf679965ccc34ca7ae3441"}.items():
            told = base64.b64encode(bytes.fromhex(digest)).decode()
            for sent, found in ((told, b"123456789"), (told[::-1], "BadDigest")):
                self.assertEqual(self.told(b"123456789", "UNSIGNED-PAYLOAD", content_length="9", **{f"x_amz_checksum_{name}": sent}), found, name)

    def test_digest(self):
        """SHA-256 is taken once, where the request says it; else by whoever keeps the content."""
        digest = hashlib.sha256(b"hello").digest()
        for payload, headers, told in (
            (digest.hex(), {}, digest), ("UNSIGNED-PAYLOAD", {"x-amz-checksum-sha256": base64.b64encode(digest).decode()}, digest), ("UNSIGNED-PAYLOAD", {"x-amz-checksum-crc32": "NhCmhg=="}, None), ("UNSIGNED-PAYLOAD", {}, None),
        ):  # fmt: skip
            body = Body(Stream(b"hello"), {"content-length": "5", **headers}, types.SimpleNamespace(payload=payload))
            asyncio.run(body.all(1_000))
            self.assertEqual(body.checks.digest(), told, (payload, headers))

    def test_checksums_of_parts(self):
        """A CRC of contents one after another, by theirs."""
        draw = random.Random(7)
        parts = [draw.randbytes(size) for size in (1, 0, 5_000, 1, 70_000, 0)]
        for name in checksums.CRCS:
            found = checksums.joined([(checksums.computed(name, [part]), len(part)) for part in parts])
            self.assertEqual(found, checksums.computed(name, parts), name)
        found = checksums.of_parts([checksums.computed("sha256", [part]) for part in parts])
        self.assertEqual(found.told, base64.b64encode(hashlib.sha256(b"".join(hashlib.sha256(part).digest() for part in parts)).digest()).decode() + "-6")

    def test_checksums_among_words(self):
        for text in ("crc32.AAAAAA==", "crc64nvme.AAAAAAAAAAA=", "sha256." + "+/" * 21 + "A=-10000"):
            self.assertEqual(checksums.of_text(text).text(), text)
        for text in ("", "crc32", "md5.AAAAAA==", "crc32.AAAAAA==-", "crc32.\u0661AAAAA==", "crc32.AAAAAA==\r\nA: b"):
            self.assertIsNone(checksums.of_text(text), text)

    def test_parts_among_words(self):
        """Few letters for each, and those of uploads that were begun before."""
        begun = 1_700_000_000_000
        for values in ({"i": str(begun)}, {"i": str(begun), "a": "sha1.COMPOSITE"}, {"i": "x"}):
            start = begun if values["i"] != "x" else 0
            parts = [Part(number, hashlib.md5(b"%d" % number).hexdigest(), size, start + 5_000 * number, one) for number, size, one in (
                (1, 0, None), (70, 1 << 40, checksums.Checksum("sha1", "+/" * 13 + "+=")), (10_000, 7, checksums.Checksum("crc64nvme", "/" * 11 + "=")),
            )]  # fmt: skip
            words = to_words({**values, "p": words_of(parts, values)})
            self.assertEqual(parts_of(of_words(words)), parts)
            self.assertNotIn("%", words)
        self.assertLess(len(words_of([Part(900, "0" * 32, 5 << 20, begun + 400_000)], {"i": str(begun)})), 40)
        old = Part(3, "0" * 32, 9, begun)
        self.assertEqual(parts_of(of_words(to_words({"i": "1", "p": f"3.{'0' * 32}.9.{begun},3.{'0' * 32}.9.{begun}"}))), [old, old])
        for text in ("3", "3.x.9.1", f"3.{'0' * 22}.9.1.A.B.c", f"3.{'0' * 22}.9.1.", f"٣.{'0' * 22}.9.1"):
            with self.assertRaises(Damaged, msg=text):
                parts_of({"p": text})

    def test_chunks_that_lie(self):
        good = b"5\r\nhello\r\n0\r\n\r\n"
        kind, length = "STREAMING-UNSIGNED-PAYLOAD-TRAILER", {"x_amz_decoded_content_length": "5"}
        self.assertEqual(self.told(good, kind, **length), b"hello")
        for data in (b"", b"5", b"6\r\nhello\r\n0\r\n\r\n", b"4\r\nhello\r\n0\r\n\r\n", b"5\r\nhello0\r\n\r\n", b"5\r\nhello\r\n", b"-5\r\nhello\r\n0\r\n\r\n",
                     b"ffffffffffffffff\r\nhello", b"ffffffff\r\nhello\r\n0\r\n\r\n", b"5;chunk-signature=" + b"1" * 64 + b"\r\nhello\r\n0\r\n\r\n", b"0\r\n\r\n", b"x" * 10_000, b"5\nhello\n0\n\n"):  # fmt: skip
            self.assertEqual(self.told(data, kind, **length), "IncompleteBody", data[:40])
        self.assertEqual(self.told(good, kind, x_amz_decoded_content_length="6"), "IncompleteBody")
        self.assertEqual(self.told(good, kind, **length, x_amz_trailer="x-amz-checksum-crc32"), "InvalidRequest")
        self.assertEqual(self.told(b"4\r\nhelljunk\r\n0\r\n\r\n", kind, x_amz_decoded_content_length="4"), "IncompleteBody")
        signed = "STREAMING-AWS4-HMAC-SHA256-PAYLOAD"
        self.assertEqual(self.told(good, signed, **length), "IncompleteBody")
        wrong = b"5;chunk-signature=" + b"2" * 64 + b"\r\nhello\r\n0;chunk-signature=" + b"1" * 64 + b"\r\n\r\n"
        self.assertEqual(self.told(wrong, signed, **length), "SignatureDoesNotMatch")


class Room(Case):
    """What bodies and answers are in meanwhile."""

    def test_a_file_that_is_closed_amid_a_call(self):
        """Whoever reads or writes then meets no file that was opened since, as another request's."""
        for call, use, told in (("pread", lambda spool: spool.read(0, 4), b"mine"), ("pwrite", lambda spool: spool.add(b"more"), None)):
            spool, real, same = Spool(), getattr(os, call), list[bool]()
            spool.add(b"mine")

            def late(handle, *words, spool=spool, real=real, same=same):
                spool.close()
                with tempfile.TemporaryFile() as other:
                    same.append(other.fileno() == handle)
                    return real(handle, *words)

            with mock.patch.object(os, call, late):
                self.assertEqual(use(spool), told)
            self.assertEqual(same, [False])
            self.assertRaises(ValueError, use, spool)

    def test_disk(self):
        """Whoever holds much leaves some of the disk to those who hold little, and has little read ahead."""
        disk = types.SimpleNamespace(f_frsize=1, f_bavail=0, f_blocks=400 << 20)
        with mock.patch.object(os, "fstatvfs", lambda _: disk), mock.patch.object(Spool, "held", 0):
            for held, least in ((0, bounds.LEFT), (bounds.OWN, bounds.LEAST_TO_OTHERS), (1 << 40, bounds.LEAST_TO_OTHERS)):
                spool = Spool()
                Spool.held, disk.f_bavail = held, least
                self.assertRaises(S3Error, spool.add, b"more")
                disk.f_bavail = least + 4
                spool.add(b"more")
                self.assertEqual(Spool.held, held + 4)
                spool.close()
                spool.close()
                self.assertEqual(Spool.held, held)
            self.assertEqual([bounds.left_to_others(bounds.OWN + 1, size << 30) for size in (8, 40, 4_000)], [512 << 20, 2_560 << 20, 4 << 30])
            told = [(Spool.held, bounds.ahead_of(False), bounds.ahead_of(True)) for Spool.held in (0, bounds.HELD + 1)]
            self.assertEqual(told, [(0, 16 << 20, 1 << 20), (bounds.HELD + 1, 1 << 20, 1 << 20)])

    def test_memory(self):
        """So many answers of up to a MiB may be in memory at a time, and no longer ones. Each leaves, however it ends, and once it is in a file."""
        gateway, under_way = types.SimpleNamespace(in_memory=0, tenant="carol"), list[int]()

        async def answer(end, is_in_file):
            get = Get(gateway, types.SimpleNamespace(query={}), types.SimpleNamespace(name="bucket/key", is_latest=True))

            async def look(*_):
                under_way.append(get.most_in_memory)
                await asyncio.sleep(0)
                if is_in_file:
                    with mock.patch.object(get, "begin", side_effect=end), self.assertRaises(type(end)):
                        await get.begin_to_give(None)
                    self.assertEqual(get.most_in_memory, IN_MEMORY)
                raise end

            gateway.look = look
            with self.assertRaises(type(end)):
                await get.answered()

        async def answers():
            for end in (S3Error("NoSuchKey"), asyncio.CancelledError()):
                for is_in_file in (False, True):
                    under_way.clear()
                    await asyncio.gather(*(answer(end, is_in_file) for _ in range(MOST_IN_MEMORY + 2)))
                    self.assertEqual(sorted(under_way), [IN_MEMORY] * 2 + [LONG] * MOST_IN_MEMORY)
                    self.assertEqual(gateway.in_memory, 0)

        asyncio.run(answers())


class Sessions(Case):
    def test_who_has_fewest_is_next(self):
        """So who asks for much has others wait for one of his requests only, by however many URLs. Among equals it goes by turns."""
        ANN = "ann", ""

        async def scenario():
            pool = Pool(Settings({}), Lending(), Turns())
            pool.workers = {number: types.SimpleNamespace(number=number, is_busy=True, is_silent=False, was_named=False, who=ANN) for number in (1, 2)}
            wanted = [Wanted(None, pool.loop.create_future(), who) for who in (ANN, ANN, ("bob", "one URL"), ("bob", "another"))]
            pool.waiting.extend(wanted)
            for place in (2, 3, 0):
                pool.release(pool.workers[1])
                self.assertEqual([each.future.done() for each in wanted].index(True), place)
                wanted[place].future = pool.loop.create_future()
            by = {1: ("bob", "one URL"), 2: ("bob", "another"), 3: ("zed", "")}
            pool.workers = {number: types.SimpleNamespace(number=number, is_busy=True, is_silent=False, was_named=False, who=who) for number, who in by.items()}
            pool.waiting.clear()
            pool.waiting.extend(wanted := [Wanted(None, pool.loop.create_future(), who) for who in (("bob", "a third"), ANN)])
            pool.release(pool.workers[3])
            self.assertEqual([each.future.done() for each in wanted], [False, True])

        asyncio.run(scenario())

    def test_who_wants_this_one_is_not_always_next(self):
        """By turns he is, and one who wants any: so what has many pages settled by it holds up nobody."""

        async def scenario():
            pool = Pool(Settings({}), Lending(), Turns())
            worker = types.SimpleNamespace(number=1, is_busy=True, is_silent=False, was_named=False, who=("ann", ""))
            pool.workers = {1: worker}
            wanted = [Wanted(number, pool.loop.create_future(), ("ann", "")) for number in (1, 1, 1, None, None)]
            pool.waiting.extend(wanted)
            served = []
            for _ in wanted:
                pool.release(worker)
                served += [at for at, each in enumerate(wanted) if each.future.done() and at not in served]
            self.assertEqual(served, [0, 3, 1, 4, 2])

        asyncio.run(scenario())


class Clock(Case):
    def test_it_never_goes_back(self):
        turns = Turns()
        with mock.patch("time.time_ns", lambda: 5_000_000_000):
            self.assertEqual([turns.time_after(0), turns.time_after(0), turns.time_after(9_000), turns.time_after(0)], [5_000, 5_001, 9_001, 9_002])
            turns.advance_past(20_000)
            self.assertEqual(turns.time_after(0), 20_001)

    def test_it_is_not_led_astray(self):
        """A time that is far ahead, since somebody's clock was wrong, is that of its name alone; and so it is where one's own clock was."""
        turns, far, now = Turns(), 3_000_000_000_000, 2_000_000_000_000
        with mock.patch("time.time_ns", lambda: now * 1_000_000):
            turns.advance_past(far)
            self.assertEqual([turns.time_after(0), turns.time_after(far), turns.time_after(far + 1), turns.time_after(0)], [now, far + 1, far + 2, now + 3])
            self.assertEqual([turns.time_after(9_999_999_999_999), turns.time_after(now + 60_000), turns.time_after(0)], [9_999_999_999_999, now + 60_001, now + 60_002])
        with mock.patch("time.time_ns", lambda: far * 1_000_000):
            self.assertEqual(turns.time_after(0), far)
        with mock.patch("time.time_ns", lambda: now * 1_000_000):
            self.assertEqual([turns.time_after(0), turns.time_after(far)], [now, far + 1])

    def test_numbers(self):
        """Each is above those that had their turn since it looked, and that may still take effect."""
        turns = Turns()
        turns.note_unsure("a", 7)
        self.assertEqual((turns.number_for("a", 3), turns.number_for("a", 9), turns.number_for("b", 3)), (8, 9, 3))
        with turns.under_way("c"):
            with turns.under_way("c"):
                self.assertEqual(turns.number_for("c", 3), 3)
            self.assertEqual((turns.number_for("c", 2), turns.number_for("c", 9), turns.number_for("d", 2)), (4, 9, 2))
        self.assertEqual((turns.number_for("c", 2), turns.locks, turns.numbers), (2, {}, {}))


class Installed(unittest.TestCase):
    """What tools/install --s3 makes: the commands, with the units that start them there; and a folder of gateways that may be copied."""

    def test_installed(self):
        with tempfile.TemporaryDirectory() as room:
            prefix, folder, copy, plan = (os.path.join(room, name) for name in ("prefix", "made", "copy", "plan"))
            with open(plan, "w") as out:
                out.write("grid 2 2\nroom 100000\ntenant carol 40000 8 1000 1024\ntenant dave 9000 1 1\ngo\n" + "carol open 16 64\n" * 2 + "carol open 8 8\n")
            told = subprocess.run([os.path.join(TOP, "tools", "install"), "--s3", prefix], capture_output=True, text=True)
            self.assertEqual((told.returncode, told.stderr), (0, ""))
            for path in told.stdout.removeprefix("install: ").split():
                self.assertTrue(os.path.isfile(path), path)
            for command in ("gridfs-client", "gridfs-fleet", "gridfs-s3", "gridfs-s3-setup"):
                self.assertIn("usage: " + command, subprocess.run([f"{prefix}/bin/{command}", "--help"], capture_output=True, text=True).stdout)
            for name in ("gridfs-s3@", "gridfs-s3-several"):
                with open(f"{prefix}/lib/systemd/system/{name}.service") as unit:
                    started = next(line for line in unit if line.startswith("ExecStart="))
                self.assertTrue(os.access(started.removeprefix("ExecStart=").split()[0], os.X_OK), started)
            told = subprocess.run([f"{prefix}/bin/gridfs-s3-setup", "--gateways", "2", folder, plan], capture_output=True, text=True)
            self.assertEqual((told.returncode, told.stdout), (0, f"setup: {folder}: carol-1 (session = 1-4), carol-2 (session = 5-8)\n"))
            shutil.copytree(folder, copy, symlinks=True)
            shutil.rmtree(folder)
            self.assertEqual(sorted(os.listdir(copy)), ["carol-1.keys", "carol-2.keys", "carol.keys", "carol.rclone", "carol.s3cfg", "nginx.conf", "several", "sysusers.conf", "tmpfiles.conf"])
            for name in os.listdir(copy):
                with open(f"{copy}/{name}") as file:
                    self.assertNotIn(room, file.read(), name)


if __name__ == "__main__":
    unittest.main()
