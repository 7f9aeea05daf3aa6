"""The plan that S3 begins with (deploy/s3/plan), and what docs/S3.md says of room: of names in pages, and of contents in chunks."""

import argparse
import base64
import collections
import os
import re
import sys
import tempfile
import unittest
import urllib.request
from concurrent.futures import ThreadPoolExecutor
from pathlib import Path
from unittest import mock

HERE = os.path.dirname(os.path.abspath(__file__))
sys.path.insert(0, HERE)
import code_of_s3
import endpoint
import stand_in
from gridfs_client.chunk_lines import CHUNK_CHARGE
from gridfs_client.layout import Layout, Volume
from gridfs_s3.front import instances_of
from gridfs_s3.page import size_of

PLAN = os.path.join(code_of_s3.TOP, "deploy", "s3", "plan")
KIB = 1 << 10
PAGE_BLOCKS, COLUMNS = 512, 2
FULL = 7 / 8  # of a page, that may be lines


class WhatGridStarts(unittest.TestCase):
    """The gateways of `./grid --s3`."""

    def test_locks(self):
        """Who uses the settings that it writes shares the gateway's locks."""
        from gridfs_client.settings import Settings
        from gridfs_grid.one_machine import write_settings
        from gridfs_grid.s3 import All

        with tempfile.TemporaryDirectory() as folder, mock.patch.dict(os.environ, HOME=folder):
            os.environ.pop("GRIDFS_LOCKS", None)
            started, every = {}, All(argparse.Namespace(), Path(folder) / "shop")
            every.run = lambda name, words, env: started.update(words=words, env=env)
            every.grid_folder.mkdir(parents=True)
            path = write_settings(every.grid_folder, "carol", "2x2", {"socket": str(every.grid_folder / "socket")})
            (gateway,) = instances_of("carol", 8, 1)
            every.start_gateway(gateway)
            named = str(started["words"][started["words"].index("--config") + 1])
            with Settings.gather({"config": named}, started["env"]).lock(3):
                self.assertIsNone(Settings.gather({"config": path}, os.environ).lock(3))


def told(pattern):
    """What docs/S3.md says at a place: numbers."""
    with open(os.path.join(code_of_s3.TOP, "docs", "S3.md")) as page:
        found = re.search(pattern, page.read())
    return [int(each.replace(",", "")) for each in found.groups()]


def tenants():
    with open(PLAN) as text:
        return stand_in.tenants_of(text.read())


def layout_of(tenant):
    return Layout(tenant.sessions, tuple(Volume(files, blocks) for files, blocks in tenant.volumes))


def key_of(number):
    """A key of 40 bytes, as photographs and mail have them."""
    return f"photographs/2026/november/{number:09d}.jpeg"


class Shipped(unittest.TestCase):
    def test_contents_are_in_chunks(self):
        """No tenant has slots that a content could be in, nor pages as long as others need; and the page tells the room."""
        gigabytes = told(r"`carol` room for (\d+) GiB .*`dave` for (\d+) GiB")
        for tenant, each in zip(tenants().values(), gigabytes, strict=True):
            self.assertEqual(COLUMNS * tenant.chunks.allowed, each << 30)
            names, (files, blocks) = set(tenant.volumes[:-1]), tenant.volumes[-1]
            self.assertEqual((names, files, blocks), ({(tenant.sessions, PAGE_BLOCKS)}, 1, 1))

    def test_an_upload_of_many_parts(self):
        """More than the line of an upload has room for; and what is told of room is that of chunks."""
        with endpoint.stand_in(PLAN) as room, endpoint.gateways(room) as (gateway,):
            client, words = gateway.client(), {"Bucket": "bucket", "Key": "key"}
            client.create_bucket(Bucket="bucket")
            upload, count = {**words, "UploadId": client.create_multipart_upload(**words)["UploadId"]}, 400

            def put(number):
                return {"PartNumber": number, "ETag": client.upload_part(**upload, PartNumber=number, Body=b"%d" % number)["ETag"]}

            with ThreadPoolExecutor(4) as threads:
                parts = list(threads.map(put, range(1, count + 1)))
            client.complete_multipart_upload(**upload, MultipartUpload={"Parts": parts})
            self.assertEqual(client.get_object(**words)["Body"].read(), b"".join(b"%d" % number for number in range(1, count + 1)))

    def test_room_is_told(self):
        """By metrics and by the page for a browser."""
        allowed = tenants()["carol"].chunks.allowed
        with endpoint.stand_in(PLAN) as room, endpoint.gateways(room) as (gateway,):
            client = gateway.client()
            client.create_bucket(Bucket="bucket")
            client.put_object(Bucket="bucket", Key="key", Body=bytes(3 << 20))
            client.put_object(Bucket="bucket", Key="other", Body=bytes(200_000))  # (before which nodes are asked)
            gateway.end()
            gateway.start()
            text = urllib.request.urlopen(f"{gateway.url}/metrics").read().decode()
            used = (3 << 20) + 200_000 + 4 * CHUNK_CHARGE
            for state, size in (("used", used), ("left", allowed - used)):
                (found,) = re.findall(rf'^gridfs_s3_chunk_bytes\{{grid="",state="{state}",tenant="carol"\}} (\S+)$', text, re.MULTILINE)
                self.assertEqual(float(found), size)
            word = base64.b64encode(f"carol:{endpoint.SECRET}".encode()).decode()
            asked = urllib.request.Request(f"{gateway.url}/-/", headers={"Authorization": f"Basic {word}"})
            self.assertIn(f"{size_of(used)} used, {size_of(allowed - used)} left", urllib.request.urlopen(asked).read().decode())


class Names(unittest.TestCase):
    def test_what_a_name_takes(self):
        """Pages of two sessions, each of one page as long as the plan's, are filled: each name takes some so many bytes, and no page is left empty."""
        (each,) = told(r"each takes some (\d+) bytes of a page")
        with tempfile.TemporaryDirectory() as folder:
            plan = os.path.join(folder, "plan")
            with open(plan, "w") as out:
                out.write(f"grid 1 1\nroom 10000\ntenant carol 9000 2 1000 {PAGE_BLOCKS}\ngo\ncarol open 2 {PAGE_BLOCKS} times 4\ncarol open 1 1\ncarol chunks 90000\n")
            with endpoint.stand_in(plan) as room, endpoint.gateways(room) as (gateway,):
                client, count = gateway.client(), 0
                client.create_bucket(Bucket="bucket")
                with self.assertRaises(client.exceptions.ClientError) as fault:
                    while count < 1_000:
                        client.put_object(Bucket="bucket", Key=key_of(count), Body=bytes(3_000), ContentType="image/jpeg")
                        count += 1
                self.assertEqual(fault.exception.response["Error"]["Code"], "InsufficientStorage")
        room = 2 * FULL * 64 * PAGE_BLOCKS
        self.assertTrue(0.85 * each < room / count <= 1.02 * each, room / count)

    def test_names_that_the_plan_has_room_for(self):
        """As many as the page says, as their digests spread them over pages; and not twice as many."""
        (each,) = told(r"each takes some (\d+) bytes of a page")
        counts = told(r"`carol` .* and some ([0-9,]+) names, `dave` .* and ([0-9,]+)")
        for tenant, count in zip(tenants().values(), counts, strict=True):
            layout = layout_of(tenant)
            most = tenant.sessions * int(FULL * 64 * PAGE_BLOCKS / each)  # (a gateway tries the pages of all sessions)
            spread = collections.Counter(layout.page_of(f"bucket/{key_of(number)}") for number in range(count))
            self.assertLess(max(spread.values()), most)
            self.assertGreater(2 * count / layout.pages, most)


class Contents(unittest.TestCase):
    def fill(self, lines, size, most):
        """How many objects of so many bytes have room, by a plan with these lines."""
        with tempfile.TemporaryDirectory() as folder:
            plan = os.path.join(folder, "plan")
            with open(plan, "w") as out:
                out.write("grid 1 1\nroom 300000\ntenant carol 290000 2 1000 16384\ngo\ncarol open 8 512\ncarol open 8 512\n" + lines)
            with endpoint.stand_in(plan) as room, endpoint.gateways(room) as (gateway,):
                client = gateway.client()
                client.create_bucket(Bucket="bucket")
                for count in range(most):
                    try:
                        client.put_object(Bucket="bucket", Key=f"key-{count}", Body=os.urandom(size))
                    except client.exceptions.ClientError as fault:
                        self.assertEqual(fault.response["Error"]["Code"], "InsufficientStorage")
                        return count
                return most

    def test_room_in_chunks(self):
        """An object takes its bytes, and some for each chunk."""
        (charge,) = told(r"takes its bytes, and (\d+) for each chunk of a MiB or less")
        for size, count in ((150_000, 60), ((1 << 20) + 5, 9)):
            kib = -(-count * (size + charge * -(-size // (1 << 20))) // KIB)
            self.assertEqual(self.fill(f"carol open 1 1\ncarol chunks {kib}\n", size, 2 * count), count)



if __name__ == "__main__":
    unittest.main()
