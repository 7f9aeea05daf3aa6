"""Lifecycles of buckets: what rules say, what goes by them, and what stays."""

import contextlib
import datetime
import email.utils
import os
import re
import sys
import time
import types
import unittest
import urllib.request
from unittest import mock

sys.path.insert(0, os.path.dirname(os.path.abspath(__file__)))
import endpoint
import test_malformed
from botocore.exceptions import ClientError
from busy import longer
from code_of_s3 import CODE
from gridfs_client.asking import ask_plan
from gridfs_client.contents import Inline
from gridfs_client.buckets import Held
from gridfs_client.core import Version
from gridfs_client.layout import layout_of
from gridfs_client.names import NamedFiles
from gridfs_client.opening import OpenSessions
from gridfs_client.settings import Settings
from gridfs_s3 import clocks, errors, lifecycle, markup
from gridfs_s3.places import Object

HOUR, DAY = 3_600_000, 86_400_000
OFTEN = ("--lifecycle", "0.3")
PAST, FUTURE = "2026-01-01T00:00:00Z", "2126-01-01T00:00:00Z"
PATIENCE = 60  # seconds until what has expired is gone
QUIET = 2.0  # seconds in which several looks are taken
# A gateway that takes a second for each object that goes, and looks before each at what is in force.
SLOW = """
import asyncio, sys
from gridfs_s3 import expiring, program
expiring.SURE_FOR, remove = 0, expiring.Lifecycles.remove
async def slowly(self, going):
    print("goes", going.held.name, file=sys.stderr, flush=True)
    await asyncio.sleep(1)
    return await remove(self, going)
expiring.Lifecycles.remove = slowly
program.main(sys.argv[1:])
"""
YEAR = 365 * 86_400
# A gateway whose clock is a year ahead.
AHEAD = """
import sys, time
now, now_ns, YEAR = time.time, time.time_ns, 365 * 86_400
time.time, time.time_ns = lambda: now() + YEAR, lambda: now_ns() + YEAR * 1_000_000_000
from gridfs_s3 import program
program.main(sys.argv[1:])
"""


def rules(text):
    return lifecycle.rules_of(markup.parse(f"<LifecycleConfiguration>{text}</LifecycleConfiguration>".encode(), "LifecycleConfiguration", lifecycle.ELEMENTS))


def rule(text, status="Enabled"):
    return rules(f"<Rule><ID>one</ID><Status>{status}</Status>{text}</Rule>")[0]


def an_object(key="a", time=DAY, size=5, words=""):
    return Object(key, Held(f"some/{key}", Version(1, 1, ""), Inline(b"x" * size), (f"t={time}&" if time else "") + words))


class Rules(unittest.TestCase):
    def fails(self, code, text):
        with self.assertRaises(errors.S3Error) as fault:
            rules(text)
        self.assertEqual(fault.exception.code, code, text)

    def test_when_objects_go(self):
        """At the first midnight behind so many days, as Amazon's page has it: of 10:30 on the 15th and 3 days at the end of the 18th."""
        three, at = rule("<Filter/><Expiration><Days>3</Days></Expiration>"), 15 * DAY + 10 * HOUR + HOUR // 2
        found = an_object(time=at)
        self.assertFalse(three.has_expired(found, 19 * DAY - 1))
        self.assertTrue(three.has_expired(found, 19 * DAY))
        self.assertFalse(three.has_expired(an_object(time=15 * DAY), 19 * DAY - 1))
        self.assertTrue(rule("<Prefix/><Expiration><Date>1970-01-20</Date></Expiration>").has_expired(found, 19 * DAY))
        self.assertFalse(rule("<Prefix/><Expiration><Date>1970-01-20</Date></Expiration>").has_expired(found, 19 * DAY - 1))

    def test_what_stays(self):
        """What has no time, of which nobody knows how old it is; and all, where the rule is disabled or of uploads."""
        for text in ("<Filter/><Expiration><Days>1</Days></Expiration>", "<Filter/><Expiration><Date>1970-01-02T00:00:00.000Z</Date></Expiration>"):
            self.assertTrue(rule(text).has_expired(an_object(), 99 * DAY))
            self.assertFalse(rule(text).has_expired(an_object(time=0), 99 * DAY))
            self.assertFalse(rule(text).has_expired(an_object(time="x"), 99 * DAY))
            self.assertFalse(rule(text, "Disabled").has_expired(an_object(), 99 * DAY))
        self.assertFalse(rule("<Filter/><AbortIncompleteMultipartUpload><DaysAfterInitiation>1</DaysAfterInitiation></AbortIncompleteMultipartUpload>").has_expired(an_object(), 99 * DAY))

    def test_uploads(self):
        text = "<Filter><Prefix>a/</Prefix></Filter><AbortIncompleteMultipartUpload><DaysAfterInitiation>2</DaysAfterInitiation></AbortIncompleteMultipartUpload>"
        two = rule(text)
        self.assertFalse(two.has_ended("a/b", DAY + 1, 4 * DAY - 1))
        self.assertTrue(two.has_ended("a/b", DAY + 1, 4 * DAY))
        for key, begun, found in (("b", DAY, two), ("a/b", 0, two), ("a/b", DAY, rule(text, "Disabled")), ("a/b", DAY, rule("<Filter/><Expiration><Days>1</Days></Expiration>"))):
            self.assertFalse(found.has_ended(key, begun, 99 * DAY), key)

    def test_versions(self):
        """An older one goes by when the next one came, as long as enough newer ones are left; a marker once it is alone."""
        two = rule("<Filter/><NoncurrentVersionExpiration><NoncurrentDays>2</NoncurrentDays><NewerNoncurrentVersions>1</NewerNoncurrentVersions></NoncurrentVersionExpiration>")
        self.assertTrue(two.has_aged(an_object(), DAY + 1, 1, 4 * DAY))
        for since, newer, now in ((DAY + 1, 0, 4 * DAY), (DAY + 1, 1, 4 * DAY - 1), (0, 1, 9 * DAY)):
            self.assertFalse(two.has_aged(an_object(), since, newer, now))
        self.assertFalse(two.has_expired(an_object(), 99 * DAY))
        alone, marker = rule("<Filter/><Expiration><ExpiredObjectDeleteMarker>true</ExpiredObjectDeleteMarker></Expiration>"), an_object(words="d=1")
        self.assertTrue(alone.is_over(marker, 1))
        for found, count in ((marker, 2), (an_object(), 1)):
            self.assertFalse(alone.is_over(found, count))
        self.assertFalse(two.is_over(marker, 1))

    def test_filters(self):
        """Each condition by itself, at its bounds, and all of them together."""
        tag, other = "<Tag><Key>k</Key><Value>v</Value></Tag>", "<Tag><Key>l</Key><Value/></Tag>"
        above, below = "<ObjectSizeGreaterThan>4</ObjectSizeGreaterThan>", "<ObjectSizeLessThan>6</ObjectSizeLessThan>"
        for text, yes, no in (
            ("", an_object(), None),
            ("<Prefix>a/</Prefix>", an_object("a/"), an_object("a")),
            (tag, an_object(words="g-k=v&g-x=y"), an_object(words="g-k=w")),
            (above, an_object(), an_object(size=4)),
            (below, an_object(), an_object(size=6)),
            (f"<And>{tag}{other}</And>", an_object(words="g-k=v&g-l="), an_object(words="g-k=v")),
            (f"<And><Prefix>a</Prefix>{tag}{above}{below}</And>", an_object(words="g-k=v"), an_object("b", words="g-k=v")),
        ):
            found = rule(f"<Filter>{text}</Filter><Expiration><Days>1</Days></Expiration>")
            self.assertTrue(found.has_expired(yes, 99 * DAY), text)
            self.assertFalse(no and found.has_expired(no, 99 * DAY), text)

    def test_told_as_they_were_given(self):
        uploads = "<AbortIncompleteMultipartUpload><DaysAfterInitiation>2</DaysAfterInitiation></AbortIncompleteMultipartUpload>"
        given = rules(
            "<Rule><ID>a&amp;b</ID><Status>Enabled</Status><Filter><And><Prefix>x/</Prefix><Tag><Key>k</Key><Value> v </Value></Tag><ObjectSizeGreaterThan>0</ObjectSizeGreaterThan>"
            "<ObjectSizeLessThan>9</ObjectSizeLessThan></And></Filter><Expiration><Days>3</Days></Expiration></Rule>"
            f"<Rule><ID>2</ID><Prefix>old</Prefix><Status>Disabled</Status><Expiration><Date>2027-01-31T00:00:00Z</Date></Expiration>{uploads}</Rule>"
            f"<Rule><Status>Enabled</Status><Filter><Prefix/></Filter>{uploads}</Rule>"
            "<Rule><Status>Enabled</Status><Filter/><NoncurrentVersionExpiration><NoncurrentDays>2</NoncurrentDays><NewerNoncurrentVersions>3</NewerNoncurrentVersions></NoncurrentVersionExpiration></Rule>"
            "<Rule><Status>Enabled</Status><Filter/><Expiration><ExpiredObjectDeleteMarker>true</ExpiredObjectDeleteMarker></Expiration></Rule>"
        )
        told = lifecycle.rules_of(markup.parse(lifecycle.document_of(given), "LifecycleConfiguration", lifecycle.ELEMENTS))
        self.assertEqual(told, given)
        self.assertEqual([each.id for each in told[:2]], ["a&b", "2"])
        self.assertTrue(told[2].id)

    def test_what_is_refused(self):
        days, prefix = "<Expiration><Days>1</Days></Expiration>", "<Prefix/>"
        one = lambda text: f"<Rule><ID>i</ID><Status>Enabled</Status>{text}</Rule>"
        size, uploads = "<ObjectSizeLessThan>9</ObjectSizeLessThan>", "<AbortIncompleteMultipartUpload><DaysAfterInitiation>1</DaysAfterInitiation></AbortIncompleteMultipartUpload>"
        for code, text in (
            ("MalformedXML", ""), ("MalformedXML", one(days)), ("MalformedXML", one(f"{prefix}<Filter/>{days}")), ("InvalidRequest", one(prefix)),
            ("MalformedXML", f"<Rule><Status>On</Status>{prefix}{days}</Rule>"), ("MalformedXML", f"<Rule>{prefix}{days}</Rule>"), ("InvalidArgument", one(prefix + days) * 2),
            ("InvalidArgument", one(f"{prefix}<Expiration><Days>0</Days></Expiration>")), ("InvalidArgument", one(f"{prefix}<Expiration><Days>-1</Days></Expiration>")),
            ("InvalidArgument", one(f"{prefix}<Expiration><Days>{2**31}</Days></Expiration>")), ("MalformedXML", one(f"{prefix}<Expiration/>")),
            ("MalformedXML", one(f"{prefix}<Expiration><Days>1</Days><Date>2027-01-31T00:00:00Z</Date></Expiration>")), ("MalformedXML", one(prefix + days + days)),
            ("InvalidArgument", one(f"{prefix}<Expiration><Date>2027-01-31T01:00:00Z</Date></Expiration>")), ("InvalidArgument", one(f"{prefix}<Expiration><Date>soon</Date></Expiration>")),
            ("InvalidArgument", one(f"{prefix}<AbortIncompleteMultipartUpload/>")), ("InvalidRequest", one(f"<Filter>{size}</Filter>{uploads}")),
            ("MalformedXML", one(f"<Filter><Prefix>a</Prefix>{size}</Filter>{days}")), ("MalformedXML", one(f"<Filter><And>{size}</And>{size}</Filter>{days}")),
            ("InvalidArgument", one(f"<Filter><ObjectSizeLessThan>x</ObjectSizeLessThan></Filter>{days}")), ("InvalidArgument", one(f"<Filter><Tag><Value>v</Value></Tag></Filter>{days}")),
            ("InvalidArgument", f"<Rule><ID>{'i' * 256}</ID><Status>Enabled</Status>{prefix}{days}</Rule>"),
            ("NotImplemented", one(f"{prefix}<Transition><Days>1</Days><StorageClass>GLACIER</StorageClass></Transition>")),
            ("NotImplemented", one(f"{prefix}{days}<NoncurrentVersionTransition><NoncurrentDays>1</NoncurrentDays></NoncurrentVersionTransition>")),
            ("MalformedXML", one(f"{prefix}<Expiration><Days>1</Days><ExpiredObjectDeleteMarker>true</ExpiredObjectDeleteMarker></Expiration>")),
            ("MalformedXML", one(f"{prefix}<Expiration><ExpiredObjectDeleteMarker>false</ExpiredObjectDeleteMarker></Expiration>")),
            ("InvalidRequest", one("<Filter><Tag><Key>k</Key><Value/></Tag></Filter><Expiration><ExpiredObjectDeleteMarker>true</ExpiredObjectDeleteMarker></Expiration>")),
            ("InvalidArgument", one(f"{prefix}<NoncurrentVersionExpiration/>")),
            ("InvalidArgument", one(f"{prefix}<NoncurrentVersionExpiration><NoncurrentDays>1</NoncurrentDays><NewerNoncurrentVersions>101</NewerNoncurrentVersions></NoncurrentVersionExpiration>")),
        ):  # fmt: skip
            self.fails(code, text)

    def test_clocks_of_nodes(self):
        """More than half of those that tell theirs have to agree; others are told."""
        for told, differ, is_doubted in (({}, 0, False), ({"node 0": 899, "node 1": -899}, 0, False), ({"node 0": 900}, 1, True), ({"node 0": -900, "node 1": 0}, 1, True), ({"node 0": 900, "node 1": 0, "node 2": 5}, 1, False)):
            clock = clocks.Clock(nodes=lambda told=told: told)
            clock.note_agreement()
            self.assertEqual((len(clock.others()), clock.doubt() is not None), (differ, is_doubted), told)
        self.assertEqual(clocks.Clock(nodes=lambda: {"a: node 3": 4 * clocks.DAY, "b: node 1": -5_400}).others(), ["that of a: node 3 is 4 days ahead", "that of b: node 1 is 90 minutes behind"])

    def test_clock(self):
        """Age is told by it once a client signed by it, until it is set to another time, or a client is refused; and not at once where what was put last is old."""
        at = {"wall": 1_800_000_000.0, "steady": 70.0}
        pass_by = lambda seconds: at.update(wall=at["wall"] + seconds, steady=at["steady"] + seconds)
        clock = clocks.Clock(lambda: at["wall"], lambda: at["steady"])
        clock.look([an_object(time=1_000).held])
        self.assertIn("no client", clock.doubt())
        clock.note_agreement()
        self.assertIsNone(clock.doubt())
        pass_by(1_000_000)
        self.assertIsNone(clock.doubt())
        at.update(wall=at["wall"] + 1_000)
        self.assertIn("no client", clock.doubt())
        clock.note_agreement()
        self.assertIsNone(clock.doubt())
        clock.note_disagreement()
        clock.note_agreement()
        self.assertIn("another one", clock.doubt())
        pass_by(clocks.DAY)
        self.assertIsNone(clock.doubt())
        for age, is_old in ((365 * clocks.DAY, True), (clocks.DAY / 2, False)):
            clock = clocks.Clock(lambda: at["wall"], lambda: at["steady"])
            clock.note_agreement()
            times = (clock.began - age, clock.began + 5, 1_000)  # (the second was put since, by this clock)
            clock.look([an_object(time=int(1_000 * each)).held for each in times])
            self.assertEqual(clock.doubt() is not None, is_old)
            pass_by(clocks.DAY)
            self.assertIsNone(clock.doubt())


class Common(unittest.TestCase):
    """A stand-in with gateways, and what an earlier one left."""

    SLOW = (sys.executable, "-B", "-c", SLOW)

    def setUp(self):
        self.room = self.enterContext(endpoint.stand_in())

    def gateway(self, *sessions, **more):
        return self.enterContext(endpoint.gateways(self.room, *sessions, **{"words": OFTEN, **more}))

    def begin(self, **more):
        (self.found,) = self.gateway(**more)
        self.s3 = self.found.client()
        self.s3.create_bucket(Bucket="some")
        return self.s3

    def give(self, *given, s3=None, bucket="some"):
        (s3 or self.s3).put_bucket_lifecycle_configuration(Bucket=bucket, LifecycleConfiguration={"Rules": [{"ID": str(at), "Status": "Enabled", **each} for at, each in enumerate(given)]})

    def keys(self, bucket="some"):
        return [each["Key"] for each in self.s3.list_objects_v2(Bucket=bucket).get("Contents", [])]

    def put(self, *keys, bucket="some", **more):
        for key in keys:
            self.s3.put_object(Bucket=bucket, Key=key, Body=b"hello", **more)

    def until(self, what):
        until = time.monotonic() + longer(PATIENCE)
        while not what():
            self.assertLess(time.monotonic(), until, self.found.told())
            time.sleep(0.1)

    def put_by_name(self, name, words):
        """As an earlier gateway left it."""
        settings = Settings.gather({"config": f"{self.room}/carol.ini", "locks": f"{self.room}/locks", "timeout": "20"}, {})
        with contextlib.closing(settings.carrier()) as carrier:
            told = ask_plan(carrier, settings.pace())
            with contextlib.closing(OpenSessions(settings, told, carrier, name)) as sessions:
                files = NamedFiles(sessions.first(), layout_of(told), None, sessions.helpers, others=sessions.others)
                files.put(name, b"hello", lambda: words)
                files.close()


class Looks(Common):
    """By gateways that look often."""

    def test_what_goes(self):
        """By date, days, tags and sizes, in that bucket alone; also where the page tells of names that are none."""
        s3 = self.begin()
        s3.create_bucket(Bucket="other")
        self.put("old/a", "old/b\n", "new/a")
        self.put("old/a", bucket="other")
        self.put("tagged", Tagging="k=v")
        self.put("tagged-too", Tagging="k=w")
        s3.put_object(Bucket="some", Key="large", Body=b"x" * 70_000)
        self.put_by_name("some/of-1970", "t=1000")
        self.put_by_name("some/without-time", "")
        self.give(
            {"Filter": {"Prefix": "old/"}, "Expiration": {"Date": PAST}},
            {"Filter": {"Prefix": "new/"}, "Expiration": {"Date": FUTURE}},
            {"Filter": {"Prefix": ""}, "Expiration": {"Days": 3}},
            {"Filter": {"Tag": {"Key": "k", "Value": "v"}}, "Expiration": {"Date": PAST}},
            {"Filter": {"ObjectSizeGreaterThan": 60_000}, "Expiration": {"Date": PAST}},
        )
        self.until(lambda: self.keys() == ["new/a", "tagged-too", "without-time"])
        time.sleep(QUIET)
        self.assertEqual(self.keys(), ["new/a", "tagged-too", "without-time"])
        self.assertEqual(self.keys("other"), ["old/a"])
        self.put("old/late")
        self.until(lambda: "old/late" not in self.keys())
        self.assertIn("some: 1 objects have expired, and are gone", self.found.told())
        s3.delete_bucket_lifecycle(Bucket="some")
        self.put("old/later")
        time.sleep(QUIET)
        self.assertIn("old/later", self.keys())

    def test_uploads(self):
        """One that was begun long ago goes, with the room of its parts; one that was begun today stays, and is completed."""
        s3 = self.begin()
        self.put_by_name(f".s3/up/some/1.{'0' * 24}/=" + endpoint.digest_of("some/a"), "t=1000&k=a&i=1000")
        upload = s3.create_multipart_upload(Bucket="some", Key="b")["UploadId"]
        part = s3.upload_part(Bucket="some", Key="b", UploadId=upload, PartNumber=1, Body=b"hello")["ETag"]
        under_way = lambda: [each["Key"] for each in s3.list_multipart_uploads(Bucket="some").get("Uploads", [])]
        self.assertEqual(under_way(), ["a", "b"])
        self.give({"Filter": {"Prefix": ""}, "AbortIncompleteMultipartUpload": {"DaysAfterInitiation": 1}})
        self.until(lambda: under_way() == ["b"])
        time.sleep(QUIET)
        s3.complete_multipart_upload(Bucket="some", Key="b", UploadId=upload, MultipartUpload={"Parts": [{"PartNumber": 1, "ETag": part}]})
        time.sleep(QUIET)
        self.assertEqual(self.keys(), ["b"])

    def test_what_was_given(self):
        """It is told as it was given, goes with its bucket, and is none of a later bucket of that name."""
        s3 = self.begin()
        none = lambda: self.assertRaisesRegex(ClientError, "NoSuchLifecycleConfiguration")
        with none():
            s3.get_bucket_lifecycle_configuration(Bucket="some")
        s3.delete_bucket_lifecycle(Bucket="some")
        given = {"ID": "x", "Status": "Enabled", "Filter": {"Prefix": "a"}, "Expiration": {"Days": 1}}
        many = [{**given, "ID": f"{number:0200}"} for number in range(1_000)]
        for each in ([given], many):
            self.give(*each)
            self.assertEqual(s3.get_bucket_lifecycle_configuration(Bucket="some")["Rules"], each)
        with self.assertRaisesRegex(ClientError, "MalformedXML"):
            self.give(*many, given)
        with self.assertRaisesRegex(ClientError, "NotImplemented"):
            self.give({"Filter": {"Prefix": "a"}, "Transitions": [{"Days": 1, "StorageClass": "GLACIER"}]})
        self.assertEqual(s3.get_bucket_lifecycle_configuration(Bucket="some")["Rules"], many)
        for call in (s3.get_bucket_lifecycle_configuration, s3.delete_bucket_lifecycle):
            with self.assertRaisesRegex(ClientError, "NoSuchBucket"):
                call(Bucket="none")
        s3.delete_bucket(Bucket="some")
        s3.create_bucket(Bucket="some")
        with none():
            s3.get_bucket_lifecycle_configuration(Bucket="some")
        self.put_by_name(".s3/set/some/lifecycle", "b=1000")  # (of an earlier bucket, by a gateway that was killed)
        with none():
            s3.get_bucket_lifecycle_configuration(Bucket="some")

    def test_clock(self):
        """Nothing goes before a client has signed a request by the gateway's clock."""
        self.begin()
        self.give({"Filter": {"Prefix": ""}, "Expiration": {"Days": 1}})
        self.found.kill()
        self.put_by_name("some/of-1970", "t=1000")
        self.found.start()
        begun = len(self.found.told())
        self.until(lambda: "stays for now: no client has signed" in self.found.told(begun))
        self.assertNotIn("are gone", self.found.told(begun))
        self.until(lambda: not self.keys())

    def test_a_clock_that_is_ahead(self):
        """Nothing goes by it, though a client corrects its own clock by the gateway's; whoever runs the gateway is told."""
        self.begin()
        self.put("a")
        self.give({"Filter": {"Prefix": ""}, "Expiration": {"Days": 90}})
        self.found.kill()
        (ahead,) = self.gateway(program=(sys.executable, "-B", "-c", AHEAD))
        test_malformed.GATEWAY = ahead
        told = test_malformed.exchange(test_malformed.signed("GET", "/some/a") + b"\r\n")
        self.assertEqual(test_malformed.code_of(told), (403, "RequestTimeTooSkewed"))
        self.assertRegex(ahead.told(), r"carol: a client is refused \(403 RequestTimeTooSkewed\), whose clock is \d+ seconds (ahead of|behind) this machine's: set the one that is wrong")
        told_by_it = email.utils.parsedate_to_datetime(re.search(rb"(?i)\r\ndate: ([^\r]*)", told)[1].decode()).replace(tzinfo=None)
        for when in (told_by_it, told_by_it.replace(year=told_by_it.year + 1)):
            with mock.patch("botocore.auth.datetime", types.SimpleNamespace(datetime=types.SimpleNamespace(utcnow=lambda when=when: when))):
                told = test_malformed.exchange(test_malformed.signed("GET", "/some/a") + b"\r\n")
            if test_malformed.code_of(told)[0] == 200:
                break
        self.assertEqual(test_malformed.code_of(told)[0], 200)
        self.found = ahead
        self.until(lambda: "stays for now: a client's clock is another one" in ahead.told())
        time.sleep(QUIET)
        self.assertNotIn("are gone", ahead.told())
        ahead.kill()
        (self.found,) = self.gateway()
        self.s3 = self.found.client()
        self.assertEqual(self.keys(), ["a"])

    def test_clocks_of_nodes(self):
        """By a clock with which clients agree, and what was put last, nothing goes as long as nodes have another one; whoever runs the gateway is told."""
        self.begin()
        self.put("a")
        self.give({"Filter": {"Prefix": ""}, "Expiration": {"Days": 90}})
        self.found.kill()
        self.nodes_are(0)
        (ahead,) = self.gateway(program=(sys.executable, "-B", "-c", AHEAD))
        test_malformed.GATEWAY = self.found = ahead
        put = lambda key: self.by_a_clock(YEAR, "PUT", f"/some/{key}")
        self.assertEqual(put("b"), 200)
        ahead.kill()
        ahead.start()  # (what was put last is as late as the start)
        begun = len(ahead.told())
        self.assertEqual(put("c"), 200)
        self.until(lambda: "is not that of 1 of 1 nodes (that of node 0 is 365 days behind)" in ahead.told(begun))
        time.sleep(QUIET)
        self.assertNotIn("are gone", ahead.told())
        self.assertEqual(self.told_as_metrics(), {"gridfs_s3_age_doubted": 1, "gridfs_s3_clock_ahead_seconds": YEAR})
        self.nodes_are(YEAR)
        ahead.kill()
        ahead.start()
        begun = len(ahead.told())
        self.assertEqual(put("d"), 200)
        self.until(lambda: "1 objects have expired" in ahead.told(begun))
        self.assertEqual(self.told_as_metrics(), {"gridfs_s3_age_doubted": 0, "gridfs_s3_clock_ahead_seconds": 0})

    def nodes_are(self, ahead):
        with open(os.path.join(self.room, "clock"), "w") as out:
            out.write(str(ahead))

    def by_a_clock(self, ahead, method, path):
        """The status of a request by a client whose clock is so many seconds ahead."""
        when = datetime.datetime.utcfromtimestamp(time.time() + ahead)
        with mock.patch("botocore.auth.datetime", types.SimpleNamespace(datetime=types.SimpleNamespace(utcnow=lambda: when))):
            return test_malformed.code_of(test_malformed.exchange(test_malformed.signed(method, path, [("Content-Length", "0")]) + b"\r\n"))[0]

    def told_as_metrics(self):
        """Of clocks, to tens of seconds."""
        with urllib.request.urlopen(f"{self.found.url}/metrics") as told:
            found = re.findall(r"(?m)^(gridfs_s3_(?:age_doubted|clock_ahead_seconds))\{.*\} (\S+)$", told.read().decode())
        return {name: round(float(value), -1) if "clock" in name else float(value) for name, value in found}

    def test_put_meanwhile(self):
        """An object that is put anew after it was seen to have expired stays; so does what is left when the rules are taken back."""
        s3 = self.begin(program=self.SLOW)
        for key in "abc":
            self.put_by_name(f"some/{key}", "t=1000")
        self.give({"Filter": {"Prefix": ""}, "Expiration": {"Days": 1}})
        self.until(lambda: "goes some/" in self.found.told())
        first = self.found.told().split("goes some/")[1][0]
        self.put(first)
        self.until(lambda: self.found.told().count("goes some/") >= 2)
        self.assertIn(first, self.keys())
        s3.delete_bucket_lifecycle(Bucket="some")
        time.sleep(3)
        self.assertIn(first, self.keys())
        self.assertEqual(len(self.keys()), 2, self.found.told())

    def test_some_sessions(self):
        """Others write by the rest, so no object is removed; uploads are each one session's."""
        one, two = self.gateway("1-2", "3-4")
        self.found, self.s3 = one, one.client()
        self.s3.create_bucket(Bucket="some")
        with self.assertRaisesRegex(ClientError, "NotImplemented"):
            self.give({"Filter": {"Prefix": ""}, "Expiration": {"Days": 1}})
        for session in (1, 3):
            self.put_by_name(f".s3/up/some/{session}.{'0' * 24}/=" + endpoint.digest_of("some/a"), "t=1000&k=a&i=1000")
        self.give({"Filter": {"Prefix": ""}, "AbortIncompleteMultipartUpload": {"DaysAfterInitiation": 1}})
        two.client().list_buckets()
        self.until(lambda: "Uploads" not in self.s3.list_multipart_uploads(Bucket="some"))


os.environ["PYTHONPATH"] = CODE  # (of SLOW)
if __name__ == "__main__":
    unittest.main()
