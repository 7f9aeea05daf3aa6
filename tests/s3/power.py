#!/usr/bin/python3
"""Cuts of power: a gateway's index lies on a loop device with ext4, which is copied as it is amid work. Then the
gateway is killed, and goes on with the copy. What it tells at once has to be what was put last: each listing, and each
content. The index has to be whole, since it is synced in order.

    power.py CUTS           over a stand-in for a grid, by root; the status is 1 where something is wrong
"""

import contextlib
import ctypes
import os
import random
import signal
import subprocess
import sys
import tempfile
import threading
import time

sys.path.insert(0, os.path.dirname(os.path.abspath(__file__)))
import endpoint
from botocore.exceptions import BotoCoreError, ClientError

CLIENTS, KEYS, SIZE = 4, 400, 64 << 20
PLAN = os.path.join(endpoint.HERE, "..", "..", "deploy", "s3", "plan")  # with long pages: the index has much to write
SHARE = 0.2  # of keys that are got
LEAST, MOST = 2.0, 8.0  # seconds of work before a cut: commits are two seconds apart
DAMAGED = "is damaged"
ONE_IN = 6  # a copy is not of one moment: so few may be torn by that
SOME, ALL = 16_384, 7  # bytes that are written down at a time; waits, writes, and waits
SILENT = {"stdout": subprocess.DEVNULL, "stderr": subprocess.DEVNULL}


def run(*words):
    subprocess.run(words, check=True, **SILENT)


class Disk:
    """A file system in a file."""

    def __init__(self, folder):
        self.image, self.at = os.path.join(folder, "disk"), os.path.join(folder, "mounted")
        os.mkdir(self.at)
        with open(self.image, "wb") as file:
            file.truncate(SIZE)
        run("mkfs.ext4", "-q", "-F", self.image)
        self.mount()

    def mount(self):
        run("mount", "-o", "loop,commit=1", self.image, self.at)

    def cut(self):
        """It goes on as what is there now."""
        run("cp", "--sparse=always", self.image, f"{self.image}.cut")

    def go_on(self):
        run("umount", self.at)
        os.rename(f"{self.image}.cut", self.image)
        self.mount()

    def end(self):
        subprocess.run(["umount", "-l", self.at], **SILENT)


def flush(path, draw, ends):
    """Has parts of a file written down at any moment, as a kernel may: so what is not synced comes to the disk in any
    order."""
    system = ctypes.CDLL(None, use_errno=True)
    with contextlib.suppress(OSError), open(path, "rb") as file:
        while not ends.wait(0.02):
            at = draw.randrange(max(1, os.fstat(file.fileno()).st_size)) // SOME * SOME
            system.sync_file_range(file.fileno(), ctypes.c_int64(at), ctypes.c_int64(SOME), ALL)


class Client:
    """It has keys of its own, and knows what each of them may hold: several contents where changes got no answer, until
    a later one did."""

    def __init__(self, number, seed):
        self.number, self.draw, self.may = number, random.Random(f"{seed} {number}"), {}
        self.changes = 0

    def work(self, gateway, ends):
        s3 = gateway.client(read_timeout=20)
        while not ends.is_set():
            key = f"{self.number}/{self.draw.randrange(KEYS)}"
            body = None if self.draw.random() < 0.2 else self.draw.randbytes(self.draw.choice((1, 40, 700, 1_500)))
            words = {"Bucket": "cut", "Key": key}
            before = self.may.get(key, {None})
            self.may[key] = before | {body}
            with contextlib.suppress(ClientError, BotoCoreError):
                beside = {"a": "x" * self.draw.choice((1, 600))}
                s3.delete_object(**words) if body is None else s3.put_object(**words, Body=body, Metadata=beside)
                self.may[key] = {body}
                self.changes += 1


def what_is_told(s3, clients, draw):
    """What is wrong of a listing of all keys, and of gets of some."""
    pages = s3.get_paginator("list_objects_v2").paginate(Bucket="cut")
    listed = {each["Key"]: each["Size"] for page in pages for each in page.get("Contents", [])}
    may = {key: contents for client in clients for key, contents in client.may.items()}
    yield from (f"{key} is listed, and was never put" for key in listed.keys() - may.keys())
    for key, contents in may.items():
        if listed.get(key) not in {None if each is None else len(each) for each in contents}:
            yield f"{key} is listed with {listed.get(key)} bytes"
        if len(contents) < 2 and draw.random() > SHARE:
            continue
        try:
            got = s3.get_object(Bucket="cut", Key=key)["Body"].read()
        except ClientError as fault:
            got = None if fault.response["Error"]["Code"] == "NoSuchKey" else fault
        if got not in contents:
            yield f"{key} has other bytes, or none: {str(got)[:80]}"


def cut_and_go_on(gateway, disk, clients, seconds):
    """Works for some seconds, cuts the power amid that, and tells what is wrong afterwards, and whether the index was
    whole."""
    ends = threading.Event()
    threads = [threading.Thread(target=client.work, args=(gateway, ends)) for client in clients]
    threads += [threading.Thread(target=flush, args=(os.path.join(disk.at, "index"), random.Random(seconds), ends))]
    for thread in threads:
        thread.start()
    time.sleep(seconds)
    gateway.process.send_signal(signal.SIGSTOP)
    disk.cut()
    gateway.kill()
    ends.set()
    for thread in threads:
        thread.join()
    disk.go_on()
    begun = os.path.getsize(gateway.log)
    gateway.start()
    wrong = list(what_is_told(gateway.client(), clients, random.Random(seconds)))
    return wrong, DAMAGED not in gateway.told(begun)


def main(cuts):
    seed, wrong, torn = f"{time.time_ns()}", [], 0
    clients, draw = [Client(number, seed) for number in range(CLIENTS)], random.Random(seed)
    with tempfile.TemporaryDirectory(prefix="gridfs-s3-power-") as folder, contextlib.ExitStack() as stack:
        try:
            disk = Disk(folder)
        except (OSError, subprocess.CalledProcessError) as fault:
            print(f"power: not tried, since no loop device can be mounted here (root can): {fault}")
            return 0
        stack.callback(disk.end)
        room = stack.enter_context(endpoint.stand_in(PLAN))
        (gateway,) = stack.enter_context(endpoint.gateways(room, words=("--index", os.path.join(disk.at, "index"))))
        gateway.client().create_bucket(Bucket="cut")
        for number in range(cuts):
            found, is_whole = cut_and_go_on(gateway, disk, clients, draw.uniform(LEAST, MOST))
            wrong += [f"after cut {number}: {each}" for each in found[:5]]
            torn += not is_whole
    if torn > cuts // ONE_IN:
        wrong.append(f"{torn} of {cuts} indexes were damaged")
    told = f"{cuts} cuts, {sum(client.changes for client in clients)} changes, {torn} indexes damaged, seed {seed}"
    print("".join(f"{each}\n" for each in wrong) + f"power: {told}; {len(wrong)} wrong")
    return min(1, len(wrong))


if __name__ == "__main__":
    sys.exit(main(int(sys.argv[1])))
