#!/usr/bin/python3
"""A client of names beside a gateway, which lends it a session for each operation, until it is killed.

    beside_client.py SETTINGS LOCKS BUCKET KEYS NUMBER

Each line tells the beginning or the end of an operation: `begins AT KEY WORD` (`-` for a removal), `done AT`, `failed`. Between operations it waits for a while.
"""

import contextlib
import hashlib
import random
import sys
import time

from gridfs_client import ClientError, NamedFiles, NoSuchName
from gridfs_client.asking import ask_plan
from gridfs_client.layout import layout_of
from gridfs_client.opening import OpenSessions
from gridfs_client.settings import Settings


def main(config, locks, bucket, keys, number):
    draw, count = random.Random(number), 0
    settings = Settings.gather({"config": config, "locks": locks}, {})
    carrier = settings.carrier()
    told = ask_plan(carrier)
    while True:
        count += 1
        key, word = f"key/{draw.randrange(int(keys))}", f"beside.{number}.{count}"
        with contextlib.closing(OpenSessions(settings, told, carrier, key)) as sessions:
            files, kind = NamedFiles(sessions.first(), layout_of(told)), draw.choice(("put", "put", "put", "remove", "names"))
            body = f"{word} ".encode() + draw.randbytes(draw.choice((5, 500)))
            print("begins", time.monotonic(), key, "-" if kind == "remove" else word, hashlib.md5(body).hexdigest(), kind, flush=True)
            try:
                if kind == "put":
                    files.put(f"{bucket}/{key}", body, lambda: f"t=1&m={hashlib.md5(body).hexdigest()}&x-word={word}")
                elif kind == "remove":
                    files.remove(f"{bucket}/{key}")
                else:
                    files.names()
                print("done", time.monotonic(), flush=True)
            except NoSuchName:
                print("absent", time.monotonic(), flush=True)
            except ClientError:
                print("failed", flush=True)
        time.sleep(draw.choice((0, 0.1, 0.5)))


main(*sys.argv[1:])
