#!/usr/bin/python3
"""Many at once want more room than a session has, over small pages: each request is done or told that there is no room, none waits for ever, and after
it all room is free and removals are swept.

    crowd.py SECONDS        over a stand-in for a grid; the status is 1 where something is wrong
"""

import os
import random
import sys
import threading
import time
import urllib.request

sys.path.insert(0, os.path.dirname(os.path.abspath(__file__)))
from busy import longer
import endpoint

from botocore.exceptions import BotoCoreError, ClientError

PLAN = (
    "grid 1 1\nroom 100000\ntenant carol 20000 4 1000 1024\ngo\n" + "carol open 8 128\n" * 4 + "carol open 1 1\ncarol chunks 800\n"
)  # pages of 8 KiB
ROOM = 800 << 10
CLIENTS, PATIENCE = 10, 120


class Crowd:
    """Clients with keys of their own, each of which knows what its keys hold."""

    def __init__(self, gateway, seconds):
        self.gateway, self.until, self.wrong, self.counts, self.guard = gateway, time.monotonic() + seconds, [], {}, threading.Lock()

    def count(self, what):
        with self.guard:
            self.counts[what] = self.counts.get(what, 0) + 1

    def work(self, number):
        try:
            self.ask_on(number, random.Random(number), self.gateway.client(read_timeout=PATIENCE))
        except Exception as fault:
            self.wrong.append(f"client {number}: {type(fault).__name__}: {fault}")

    def ask_on(self, number, draw, s3):
        contents = {}
        while time.monotonic() < self.until:
            key, kind = f"{number}/{draw.randrange(30)}", draw.choice(("put", "put", "get", "remove", "remove", "copy"))
            words = {"Bucket": "crowd", "Key": key}
            try:
                if kind == "put":
                    body = draw.randbytes(draw.choice((10, 1_000, 60_000, 150_000, 250_000, 400_000)))
                    s3.put_object(**words, Body=body)
                    contents[key] = body
                elif kind == "remove":
                    s3.delete_object(**words)
                    contents.pop(key, None)
                elif kind == "copy" and contents:
                    source = draw.choice(sorted(contents))
                    if source != key:
                        s3.copy_object(**words, CopySource={"Bucket": "crowd", "Key": source})
                        contents[key] = contents[source]
                elif key in contents:
                    found = s3.get_object(**words)["Body"].read()
                    if found != contents[key]:
                        self.wrong.append(f"{key}: another content")
                self.count(kind)
            except ClientError as fault:
                code = fault.response["Error"]["Code"]
                self.count(code)
                if code not in ("InsufficientStorage", "ServiceUnavailable"):
                    self.wrong.append(f"{kind} of {key}: {code}")
            except BotoCoreError as fault:
                self.wrong.append(f"{kind} of {key}: {fault}")

    def run(self):
        threads = [threading.Thread(target=self.work, args=(number,)) for number in range(CLIENTS)]
        for thread in threads:
            thread.start()
        for thread in threads:
            thread.join()
        return self.wrong


def left_in(gateway):
    """The bytes that are free, by the metrics."""
    with urllib.request.urlopen(f"{gateway.url}/metrics") as told:
        lines = told.read().decode().splitlines()
    return float(next(line.split()[-1] for line in lines if line.startswith('gridfs_s3_chunk_bytes{grid="",state="left"')))


def main(seconds):
    with open("crowd.plan", "w") as out:
        out.write(PLAN)
    with endpoint.stand_in("crowd.plan") as room, endpoint.gateways(room) as (gateway,):
        s3 = gateway.client()
        s3.create_bucket(Bucket="crowd")
        crowd = Crowd(gateway, float(seconds))
        wrong = crowd.run()
        # All is taken away, and all room is free again.
        while found := s3.list_objects_v2(Bucket="crowd").get("Contents"):
            for told in s3.delete_objects(Bucket="crowd", Delete={"Objects": [{"Key": each["Key"]} for each in found]}).get("Errors", []):
                wrong.append(f"{told['Key']} can't be taken away: {told['Code']}")
        gateway.kill()
        gateway.start()
        until = time.monotonic() + longer(60)
        while (left := left_in(gateway)) < ROOM and time.monotonic() < until:
            time.sleep(0.2)
        wrong += [f"{left:.0f} of {ROOM} bytes are free"] if left != ROOM else []
        wrong += ["a traceback"] if "Traceback" in gateway.told() else []
    print("".join(f"{line}\n" for line in wrong[:20]) + f"{crowd.counts}")
    return bool(wrong)


if __name__ == "__main__":
    sys.exit(main(*sys.argv[1:]))
