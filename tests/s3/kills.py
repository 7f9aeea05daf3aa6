#!/usr/bin/python3
"""Histories over gateways that are killed amid what they do; each key has to be one register of content and metadata.

    kills.py SETTINGS SECONDS KILLS GATEWAYS        puts, gets, heads, removals, uploads in parts and listings, by so many gateways, each with some of eight sessions
    kills.py --indexed SETTINGS SECONDS KILLS       the same by one gateway that has all sessions, and goes on with the index of the one that was killed
    kills.py --indexed SECONDS KILLS                the same over a stand-in for a grid; it is tried up to ten times, until something is wrong
    kills.py --growing SETTINGS SECONDS KILLS       the same of a tenant with more pages, to which names go on meanwhile: by `gridfs-client grow`, which is killed too, and by full pages
    kills.py --growing SECONDS KILLS                the same over a stand-in for a grid
    kills.py --lent SECONDS KILLS                   the same beside a client of names, to which the gateway lends a session for each operation, and which is killed too
    kills.py --apart SECONDS KILLS                  the same by two gateways that reach each other by addresses alone, over wires that fail; above all puts and listings
    kills.py --conditional SETTINGS SECONDS KILLS   puts with If-None-Match and If-Match, by one gateway that has all sessions: links of a chain

SETTINGS is a file as for gridfs-client, of the tenant carol. The status is 1 where something is wrong.
"""

import collections
import contextlib
import hashlib
import itertools
import math
import os
import random
import subprocess
import sys
import tempfile
import threading
import time
from dataclasses import replace

sys.path.insert(0, os.path.dirname(os.path.abspath(__file__)))
from busy import longer
import code_of_s3
import apart
import endpoint
from code_of_s3 import CODE, HERE
from linearizability import Operation, is_linearizable

from botocore.exceptions import BotoCoreError, ClientError

NEVER = math.inf  # the end of what was not answered
SIZES = (20, 20, 700, 5_000, 40_000)
CLIENTS, KEYS, SESSIONS = 6, 4, 8
FAULTS = (ClientError, BotoCoreError, OSError)
OF_NOW = "import sys; from gridfs_client import command, open_grids; sys.exit(command.main())"
OF_BEFORE = OF_NOW.replace("sys.exit", "open_grids.GROWTH = 99; sys.exit")  # (it waits for what no gateway heeds)
PLAN_THAT_GROWS = os.path.join(os.path.dirname(os.path.abspath(__file__)), "plan-that-grows")


def code_of(fault):
    """S3's word for a fault, or the fault's own. (An answer 200 of a completion that was cut off is a fault to botocore, without a word.)"""
    return fault.response.get("Error", {"Code": "CutOff"})["Code"] if isinstance(fault, ClientError) else type(fault).__name__


def body_of(word, draw):
    size = draw.choice(SIZES)
    return (word + " ").encode() + draw.randbytes(max(0, size - len(word) - 1))


def word_of(body):
    return body.split(b" ", 1)[0].decode()


class Etag(str):
    """What a listing told of a content. Whose that is may be known only later: a client beside it tells so by lines."""


class Trial:
    """Clients that ask, and gateways that are killed and started again."""

    weights = {"put": 30, "get": 35, "head": 8, "remove": 10, "upload": 10, "list": 7}

    @staticmethod
    def words(room):
        """More words of a gateway."""
        return ()

    def __init__(self, gateways, seconds, kills, seed):
        self.gateways, self.seconds, self.kills, self.draw = gateways, seconds, kills, random.Random(seed)
        self.bucket = f"{type(self).__name__.lower()}-{os.getpid()}"
        self.history, self.guard, self.faults, self.wrong = collections.defaultdict(list), threading.Lock(), collections.Counter(), []
        self.begun, self.by_etag = time.monotonic(), {}  # (words of contents)
        gateways[0].client().create_bucket(Bucket=self.bucket)

    def now(self):
        return time.monotonic() - self.begun

    def note(self, key, what):
        with self.guard:
            self.history[key].append(what)

    def fault(self, fault):
        with self.guard:
            self.faults[code_of(fault)] += 1
        time.sleep(0.1)

    def run(self):
        """The clients ask until the time is over; what is wrong."""
        self.until = time.monotonic() + self.seconds
        threads = [threading.Thread(target=self.guarded, args=(number,)) for number in range(CLIENTS)]
        for thread in threads:
            thread.start()
        for _ in range(self.kills):
            time.sleep(self.seconds / (self.kills + 1) * self.draw.uniform(0.6, 1.2))
            gateway = self.draw.choice(self.gateways)
            gateway.kill()
            gateway.start()
            self.until = max(self.until, time.monotonic() + self.seconds / (self.kills + 1))  # (it begins slowly on a machine that does much else)
        for thread in threads:
            thread.join()
        self.look_at_last()
        self.judge()
        fallen = [gateway.log for gateway in self.gateways if "Traceback" in gateway.told()]
        return self.wrong + [f"{log} has a traceback" for log in fallen]

    def guarded(self, number):
        draw = random.Random(f"{number} {self.draw.random()}")
        try:
            self.client(number, draw)
        except Exception as fault:
            self.wrong.append(f"a client fell: {type(fault).__name__}: {fault}")

    def client(self, number, draw):
        clients, count = [gateway.client() for gateway in self.gateways], 0
        while time.monotonic() < self.until:
            count += 1
            self.ask(draw.choice(clients), draw, f"{number}.{count}")

    def ask(self, s3, draw, word):
        words, begin = {"Bucket": self.bucket, "Key": f"key/{draw.randrange(KEYS)}"}, self.now()
        kind = draw.choices(list(self.weights), self.weights.values())[0]
        if kind == "list":
            return self.list(s3)
        if kind in ("get", "head"):
            try:
                self.note(words["Key"], Operation(False, self.read(s3, kind, words), begin, self.now()))
            except FAULTS as fault:
                self.fault(fault)
            return
        value = None if kind == "remove" else word
        body = body_of(word, draw)
        digest = hashlib.md5(body)
        self.by_etag.update({digest.hexdigest(): word, f"{hashlib.md5(digest.digest()).hexdigest()}-1": word})
        try:
            if kind == "put":
                s3.put_object(**words, Body=body, Metadata={"word": word})
            elif kind == "remove":
                s3.delete_object(**words)
            else:
                upload = s3.create_multipart_upload(**words, Metadata={"word": word})["UploadId"]
                etag = s3.upload_part(**words, UploadId=upload, PartNumber=1, Body=body)["ETag"]
                begin, kind = self.now(), "complete"
                s3.complete_multipart_upload(**words, UploadId=upload, MultipartUpload={"Parts": [{"PartNumber": 1, "ETag": etag}]})
            self.note(words["Key"], Operation(True, value, begin, self.now()))
        except FAULTS as fault:
            self.fault(fault)
            if kind != "upload" and code_of(fault) != "EndpointConnectionError":  # (that one was never sent)
                self.note(words["Key"], Operation(True, value, begin, NEVER))

    def list(self, s3):
        """A listing, which tells of each key what it held at some moment of it."""
        begin = self.now()
        try:
            told = s3.list_objects_v2(Bucket=self.bucket, Prefix="key/")
            if "Name" not in told:  # (botocore minds no length: an answer that a kill cut off behind its head is an empty one to it)
                raise OSError("cut off")
        except FAULTS as fault:
            return self.fault(fault)
        end, held = self.now(), {each["Key"]: Etag(each["ETag"].strip('"')) for each in told.get("Contents", [])}
        for key in map("key/{}".format, range(KEYS)):
            self.note(key, Operation(False, held.get(key), begin, end))

    def read(self, s3, kind, words):
        """The word of an object, None where there is none."""
        try:
            told = s3.get_object(**words) if kind == "get" else s3.head_object(**words)
        except ClientError as fault:
            if code_of(fault) in ("NoSuchKey", "404"):
                return None
            raise
        value = told["Metadata"]["word"]
        if kind == "get":
            body = told["Body"].read()
            etag = told["ETag"].strip('"')
            if word_of(body) != value or (etag.endswith("-1") and etag[:32] != hashlib.md5(hashlib.md5(body).digest()).hexdigest()) or ("-" not in etag and etag != hashlib.md5(body).hexdigest()):
                self.wrong.append(f"{words['Key']}: a content with the words of another one: {word_of(body)}, {value}")
        return value

    def look_at_last(self):
        """What is there at the end, by each gateway."""
        for key in list(self.history):
            for gateway in self.gateways:
                begin = self.now()
                self.note(key, Operation(False, self.read(gateway.client(), "get", {"Bucket": self.bucket, "Key": key}), begin, self.now()))

    def judge(self):
        for key, found in sorted(self.history.items()):
            operations = [replace(each, value=self.by_etag.get(each.value, "nobody's")) if isinstance(each.value, Etag) else each for each in found]
            if not (answer := is_linearizable(operations)):
                self.wrong.append(f"{key}: {'no order' if answer is False else 'no order was found in time'} of {len(operations)} operations")

    def told(self):
        count = sum(map(len, self.history.values()))
        unanswered = sum(each.is_write and each.end is NEVER for found in self.history.values() for each in found)
        return f"{count} operations, {unanswered} changes unanswered, {self.kills} kills, {dict(self.faults)}"


class Indexed(Trial):
    """One gateway, whose listings read its index: it has to be right behind a kill too."""

    weights = {"put": 30, "get": 5, "head": 5, "remove": 10, "upload": 10, "list": 40}

    @staticmethod
    def words(room):
        return ("--index", os.path.join(room, "index"))

    def look_at_last(self):
        try:
            super().look_at_last()
        except FAULTS as fault:
            self.wrong.append(f"at the end: {fault}")
        self.list(self.gateways[0].client())


class Growing(Indexed):
    """One gateway before a tenant whose pages split: its gets and listings have to be right all the time."""

    weights = {"put": 30, "get": 20, "head": 10, "remove": 10, "upload": 5, "list": 25}

    def run(self):
        self.fillers, self.until = itertools.count(), time.monotonic() + self.seconds
        grows = threading.Thread(target=self.grow)
        grows.start()
        wrong = super().run()
        grows.join()
        return wrong

    def ask(self, s3, draw, word):
        if draw.random() < 0.1:
            try:
                s3.put_object(Bucket=self.bucket, Key=f"full/{next(self.fillers)}", Body=b"", Metadata={"word": "x" * 1_000})
            except FAULTS as fault:
                self.fault(fault)
        super().ask(s3, draw, word)

    def grow(self):
        while time.monotonic() < self.until:
            time.sleep(self.draw.uniform(0, self.seconds / 8))
            self.grow_for(self.draw.uniform(0.5, self.seconds))

    def grow_for(self, seconds):
        """Whether the command came to its end in so many seconds. Half of them wait until the gateway has its pages split; to the others it lends its sessions, as to a command of before."""
        gateway = self.gateways[0]
        words = [sys.executable, "-B", "-c", OF_BEFORE if self.draw.random() < 0.5 else OF_NOW, "--config", gateway.settings, "--locks", os.path.join(gateway.room, "locks"), "grow"]
        command = subprocess.Popen(words, env={**os.environ, "PYTHONPATH": code_of_s3.CLIENT}, stdin=subprocess.DEVNULL, stdout=subprocess.PIPE, stderr=subprocess.PIPE)
        try:
            told = command.communicate(timeout=seconds)
            self.faults[f"grow: {command.returncode}"] += 1
            if command.returncode not in (0, 4, 7):
                self.wrong.append(f"grow: {command.returncode}: {told}")
            return command.returncode == 0
        except subprocess.TimeoutExpired:
            command.kill()
            command.communicate()
            self.faults["grow: killed"] += 1
            return False

    def look_at_last(self):
        super().look_at_last()
        if not self.grow_for(120):
            self.wrong.append("not all pages split at last")
        super().look_at_last()


def killed_after(seconds, process, does):
    """What is done, amid which a process is killed after so many seconds."""
    timer = threading.Timer(seconds, process.kill)
    timer.start()
    try:
        return does()
    finally:
        timer.cancel()


class Lent(Indexed):
    """Beside it a client of names, to which it lends a session for each operation, is killed again and again. Listings mind its note, amid what it does and behind that."""

    weights = {"put": 12, "get": 5, "head": 3, "remove": 5, "upload": 3, "list": 70}

    def run(self):
        beside = threading.Thread(target=self.beside)
        beside.start()
        wrong = super().run()
        beside.join()
        return wrong

    def beside(self):
        gateway, number = self.gateways[0], 0
        while time.monotonic() < self.begun + self.seconds or time.monotonic() < getattr(self, "until", 0):
            number += 1
            words = [sys.executable, "-B", os.path.join(HERE, "beside_client.py"), gateway.settings, os.path.join(gateway.room, "locks"), self.bucket, KEYS, number]
            with subprocess.Popen(list(map(str, words)), env={**os.environ, "PYTHONPATH": CODE}, stdout=subprocess.PIPE, text=True) as process:
                first = killed_after(longer(10), process, process.stdout.readline)  # (its time begins once it does something, however slowly it starts)
                killed_after(self.draw.uniform(2, 6), process, lambda: self.note_lines(itertools.chain([first], process.stdout)))

    def note_lines(self, lines):
        """What such a client did, as its lines tell it."""
        under_way = None
        for line in lines:
            if not line.endswith("\n"):
                break  # (a kill cut it off: what it was to tell is not known)
            kind, *rest = line.split()
            if kind == "begins":
                at, key, word, md5, what = rest
                under_way = (key, None if word == "-" else word, float(at) - self.begun) if what != "names" else None
                self.by_etag[md5] = word
            elif under_way:
                if kind in ("done", "absent"):
                    self.note(under_way[0], Operation(kind == "done", under_way[1], under_way[2], float(rest[0]) - self.begun))
                    self.beside_done += 1
                else:
                    self.note(under_way[0], Operation(True, under_way[1], under_way[2], NEVER))
                under_way = None
        if under_way:
            self.note(under_way[0], Operation(True, under_way[1], under_way[2], NEVER))

    beside_done = 0

    def told(self):
        return f"{super().told()}, {self.beside_done} changes by clients beside it"


class Apart(Trial):
    """Two gateways as on two machines: their listings have to be right whatever they can ask of each other."""

    weights = {"put": 30, "get": 3, "head": 2, "remove": 10, "upload": 5, "list": 50}

    def run(self):
        self.until = time.monotonic() + self.seconds
        fails = threading.Thread(target=self.fail)
        fails.start()
        wrong = super().run()
        fails.join()
        return wrong

    def fail(self):
        while time.monotonic() < self.until:
            for wire in self.wires:
                wire.how = self.draw.choice(["up"] * 6 + ["slow"] * 4 + ["down", "stuck"])
            time.sleep(self.draw.uniform(0.2, 2))

    def told(self):
        return f"{super().told()}, {sum(wire.count for wire in self.wires)} connections between them"


class Conditional(Trial):
    """Each client puts the successor of what it read, if that is there still. So those that were told to have succeeded are links of one chain."""

    def client(self, number, draw):
        s3, count, header = self.gateways[0].client(), 0, {}
        s3.meta.events.register("before-sign.s3.PutObject", lambda request, **_: [request.headers.__setitem__(*each) for each in header.items()])
        while time.monotonic() < self.until:
            words, word, count = {"Bucket": self.bucket, "Key": f"chain/{draw.randrange(3)}"}, f"{number}.{count}", count + 1
            try:
                before, etag = self.last(s3, words)
            except FAULTS as fault:
                self.fault(fault)
                continue
            header.clear()
            header.update({"If-Match": etag} if before else {"If-None-Match": "*"})
            link = f"{word}<{before}"
            try:
                s3.put_object(**words, Body=body_of(link, draw))
                self.note(words["Key"], (link, before, True))
            except FAULTS as fault:
                if code_of(fault) != "PreconditionFailed":
                    self.note(words["Key"], (link, before, False))
                self.fault(fault)

    def last(self, s3, words):
        """What an object has, and its ETag."""
        try:
            told = s3.get_object(**words)
            return word_of(told["Body"].read()), told["ETag"]
        except ClientError as fault:
            if code_of(fault) == "NoSuchKey":
                return None, None
            raise

    def look_at_last(self):
        self.ends = {key: self.last(self.gateways[0].client(), {"Bucket": self.bucket, "Key": key})[0] for key in self.history}

    def judge(self):
        for key, puts in sorted(self.history.items()):
            known = {link: before for link, before, _ in puts}
            chain, last = set(), self.ends[key]
            while last is not None and last not in chain:
                chain.add(last)
                last = known.get(last)
            befores = collections.Counter(before for _, before, is_done in puts if is_done)
            twice = [before for before, count in befores.items() if count > 1]
            lost = [link for link, _, is_done in puts if is_done and link not in chain]
            if twice or lost:
                self.wrong.append(f"{key}: two have the same link before them: {twice}; not in the chain: {lost}")

    def told(self):
        done = sum(is_done for puts in self.history.values() for _, _, is_done in puts)
        return f"{done} links done, {sum(map(len, self.history.values())) - done} unanswered, {self.kills} kills, {dict(self.faults)}"


def tried(kind, settings, seconds, kills, count, seed, room):
    """A trial; what is wrong, and what was done."""
    each = SESSIONS // count
    ranges = [f"{1 + each * number}-{SESSIONS if number == count - 1 else each * (number + 1)}" for number in range(count)]
    gateways = [endpoint.Gateway(settings, room, sessions, words=kind.words(room)) for sessions in ranges]
    try:
        trial = kind(gateways, seconds, kills, seed)
        return trial.run(), trial.told()
    finally:
        for gateway in gateways:
            gateway.kill()


def apart_over_a_stand_in(seconds, kills, seed=None):
    """A trial of two gateways as on two machines; what is wrong, and what was done."""
    with endpoint.stand_in() as room, contextlib.ExitStack() as stack:
        machines = apart.machines(room, stack, ["1-4", "5-8"])
        gateways = [endpoint.Gateway(machine.path, room, sessions) for sessions, machine in machines.items()]
        try:
            trial = Apart(gateways, seconds, kills, os.getpid() if seed is None else seed)
            trial.wires = [machine.wire for machine in machines.values()]
            return trial.run(), trial.told()
        finally:
            for gateway in gateways:
                gateway.kill()


def over_a_stand_in(kind, seconds, kills):
    """Trials of listings behind kills, until one is wrong; what was done."""
    for turn in range(10):
        with endpoint.stand_in(*[PLAN_THAT_GROWS] * (kind is Growing)) as room:
            wrong, told = tried(kind, os.path.join(room, "carol.ini"), seconds, kills, 1, turn, room)
        if wrong:
            break
    return wrong, told


def main(words):
    kind = {"--conditional": Conditional, "--indexed": Indexed, "--growing": Growing, "--lent": Lent, "--apart": Apart}.get(words[0], Trial)
    words = words[kind is not Trial :]
    if kind is Apart:
        wrong, told = apart_over_a_stand_in(float(words[0]), int(words[1]))
    elif kind in (Indexed, Growing, Lent) and len(words) == 2:
        wrong, told = over_a_stand_in(kind, float(words[0]), int(words[1]))
    else:
        settings, seconds, kills, *count = words
        with tempfile.TemporaryDirectory(prefix="gridfs-s3-") as room:
            wrong, told = tried(kind, settings, float(seconds), int(kills), int(count[0]) if count else 1, os.getpid(), room)
    print("".join(f"{line}\n" for line in wrong) + f"{told}, {len(wrong)} wrong")
    return bool(wrong)


if __name__ == "__main__":
    sys.exit(main(sys.argv[1:]))
