#!/usr/bin/python3
"""The gateway over several grids, whose slices a mover moves from one to another all the time.

    over_grids.py histories SECONDS KILLS [GRIDFS]     puts, gets, heads, removals and uploads in parts, by two gateways that share the sessions (kills.py)
    over_grids.py conditions SECONDS KILLS [GRIDFS]    conditional puts, by one gateway that has all sessions (kills.py)
    over_grids.py operations [MOVES]                   each operation at each stage of moves, by a gateway that follows maps and one that does not
    over_grids.py once                                 the same of one move, by one that does not
    over_grids.py apart                                moves by a mover that can't have the sessions of the gateway
    over_grids.py silent                               what a gateway answers while a grid does not
    over_grids.py names [GRIDFS]                       maps that whoever may put names puts in the place of the fleet's copy: no other tenant's names, no command

Each grid is a stand-in, or four nodes where a program is named. Gateways and movers are killed (kill -9), and begun again. A mover has its sessions from the
gateways. The status is 1 where something is wrong, and where no move ended.
"""

import contextlib
import os
import random
import shutil
import signal
import subprocess
import sys
import tempfile
import threading
import time

sys.path.insert(0, os.path.dirname(os.path.abspath(__file__)))
from busy import longer
import code_of_s3
import endpoint
import kills
from gridfs_client.fleet import sign
from gridfs_client.fleet_map import read_map
from gridfs_client.moving import Mover
from gridfs_client.open_grids import OpenGrids
from gridfs_client.settings import Settings
from gridfs_client.ways import SLICES, slice_of

LABELS = ["east", "west", "south"]
STAGES = 5  # of a move
FLEET = [sys.executable, "-B", os.path.join(code_of_s3.CLIENT, "gridfs-fleet")]


class Fleet:
    """Grids with a map, and a mover."""

    def __init__(self, room, labels):
        self.room, self.labels, self.map, self.log = room, labels, os.path.join(room, "map"), os.path.join(room, "log.mover")
        self.settings = os.path.join(room, "carol.ini")
        with open(self.settings, "w", encoding="ascii") as out:
            out.write(f"[gridfs]\nmap = {self.map}\n")
        for label in labels:
            with open(os.path.join(room, f"{label}.ini"), "w", encoding="ascii") as out:
                out.write(f"[gridfs]\ntenant = carol\nsocket = {room}/{label}/socket\nlocks = {room}/locks.{label}\n")
        self.tell("begin", labels[0], f"{labels[0]}.ini")
        for label in labels[1:]:
            self.tell("add", label, f"{label}.ini")
        self.mover, self.is_over, self.statuses = None, False, []

    def tell(self, *words):
        with open(self.log, "ab") as log:
            subprocess.run([*FLEET, "--map", self.map, *words], check=True, stdout=log, stderr=log)

    def move_on(self, draw, kills):
        """Moves slices until it is over; so many movers are killed."""
        while not self.is_over:
            now = read_map(self.map)
            words = ["move"]
            if not now.moves:
                each = draw.choice(now.ranges)
                first = draw.choice([each.first, draw.randint(each.first, each.last)])
                words = ["move", f"{first}-{each.last}", draw.choice([label for label in self.labels if label != each.grid])]
            with open(self.log, "ab") as log:
                self.mover = subprocess.Popen([*FLEET, "--map", self.map, "--timeout", "20", *words], stdout=log, stderr=log)
            if kills and draw.random() < 0.5:
                kills -= 1
                time.sleep(draw.uniform(0.3, 2))
                self.mover.kill()
            self.statuses.append(self.mover.wait())

    @property
    def moves(self):
        now = read_map(self.map)
        return now.last_move - len(now.moves)


@contextlib.contextmanager
def nodes(program, folder, plan=endpoint.PLAN, name="carol"):
    """A grid of four nodes, in place of a stand-in; it is there once this tenant's settings are."""
    words = [os.path.join(code_of_s3.TOP, "grid"), "--plan", plan, "--program", program, folder]
    with open(f"{folder}.log", "wb") as log:
        process = subprocess.Popen(words, stdin=subprocess.DEVNULL, stdout=log, stderr=log)
    try:
        endpoint.wait(lambda: os.path.exists(f"{folder}/{name}.ini") and os.path.exists(f"{folder}/socket"), process, f"{folder}.log")
        yield
    finally:
        process.send_signal(signal.SIGINT)
        process.wait(60)


@contextlib.contextmanager
def fleet(labels=LABELS, program=None):
    with contextlib.ExitStack() as grids:
        room, processes = grids.enter_context(tempfile.TemporaryDirectory(prefix="gridfs-s3-")), {}
        for label in labels:
            folder = os.path.join(room, label)
            grids.enter_context(nodes(program, folder) if program else endpoint.stand_in(folder=folder, processes=processes))
        found = Fleet(room, labels)
        found.processes = {os.path.basename(folder): process for folder, process in processes.items()}
        yield found


def tried(kind, count, seconds, kills_of_each, program=None):
    """A trial of kills.py while slices move; what is wrong, and what was done."""
    draw = random.Random()
    with fleet(LABELS[:2] if program else LABELS, program) as found:
        begun = threading.Thread(target=found.move_on, args=(draw, kills_of_each))

        class Moved(kind):
            def run(self):
                begun.start()
                try:
                    return super().run()
                finally:
                    until = time.monotonic() + longer(endpoint.PATIENCE)
                    while found.moves < 1 and time.monotonic() < until:
                        time.sleep(0.2)
                    found.is_over = True
                    begun.join()

        wrong, told = kills.tried(Moved, found.settings, seconds, kills_of_each, count, draw.randrange(1 << 30), found.room)
        if found.moves < 1:
            with open(found.log, encoding="utf-8") as log:
                wrong.append(f"{found.moves} moves have ended: {log.read()[-1500:]}")
        statuses = {status: found.statuses.count(status) for status in sorted(set(found.statuses))}
        return wrong, f"{told}, {found.moves} moves, statuses of movers {statuses}"


class Model:
    """What a bucket has to hold, and each operation on it."""

    def __init__(self, s3):
        self.s3, self.objects, self.draw, self.uploads, self.wrong, self.stage = s3, {}, random.Random(1), {}, [], "before"
        self.beside, self.condition = {}, {}  # metadata; headers of the next put
        s3.meta.events.register("before-sign.s3.PutObject", lambda request, **_: [request.headers.__setitem__(*each) for each in self.condition.items()])
        s3.create_bucket(Bucket="moved")
        for key in ("short", "long", "copied", "touched", "removed", "odd/", "given/a", "given/b", "tagged", "tagged by stages"):
            self.put(key)
        self.tags, self.at_first = {}, {key: self.told(key) for key in ("tagged", "tagged by stages")}
        for key in self.at_first:
            self.tag(key, "first")
        for key in ("from the beginning", *(f"begun {number}" for number in range(STAGES))):
            self.begin(key)
        self.rules = [{"ID": "goes", "Status": "Enabled", "Filter": {"Prefix": "expires"}, "Expiration": {"Date": "2026-01-01T00:00:00Z"}}]
        self.refused(s3.put_bucket_versioning, "NotImplemented", VersioningConfiguration={"Status": "Enabled"})
        s3.put_bucket_lifecycle_configuration(Bucket="moved", LifecycleConfiguration={"Rules": self.rules})

    def expect(self, what, found, wanted):
        if found != wanted:
            self.wrong.append(f"{self.stage}: {what}: {str(found)[:200]} in place of {str(wanted)[:200]}")

    def body(self, key):
        return self.draw.randbytes({"long": 2_500_000, "touched": 100_000, "tagged by stages": 1_300_000}.get(key) or self.draw.choice((10, 5_000)))

    def put(self, key, **condition):
        body = self.body(key)
        self.condition = condition
        self.s3.put_object(Bucket="moved", Key=key, Body=body, Metadata={"of": key.strip("/")})
        self.condition, self.objects[key], self.beside[key] = {}, body, key.strip("/")

    def tag(self, key, value):
        self.s3.put_object_tagging(Bucket="moved", Key=key, Tagging={"TagSet": [{"Key": "of", "Value": value}]})
        self.tags[key] = [{"Key": "of", "Value": value}]

    def told(self, key):
        """What a change of tags leaves as it is, beside content and metadata."""
        found = self.s3.head_object(Bucket="moved", Key=key)
        return found["ETag"], found["LastModified"]

    def begin(self, key):
        self.uploads[key] = self.s3.create_multipart_upload(Bucket="moved", Key=key, Metadata={"of": key})["UploadId"], []
        self.part(key)

    def part(self, key):
        upload, parts = self.uploads[key]
        body = self.draw.randbytes(self.draw.choice((200, 300_000)))
        told = self.s3.upload_part(Bucket="moved", Key=key, UploadId=upload, PartNumber=len(parts) + 1, Body=body)
        parts.append((body, told["ETag"]))

    def complete(self, key):
        upload, parts = self.uploads.pop(key)
        wanted = [{"PartNumber": number, "ETag": etag} for number, (_, etag) in enumerate(parts, 1)]
        told = self.s3.list_parts(Bucket="moved", Key=key, UploadId=upload)["Parts"]
        self.expect("parts of an upload", [(each["Size"], each["ETag"]) for each in told], [(len(body), etag) for body, etag in parts])
        self.s3.complete_multipart_upload(Bucket="moved", Key=key, UploadId=upload, MultipartUpload={"Parts": wanted})
        self.objects[key], self.beside[key] = b"".join(body for body, _ in parts), key

    def refused(self, work, *codes, **words):
        try:
            work(Bucket="moved", **words)
            self.expect(f"{work.__name__} of {words.get('Key')}", "done", codes)
        except kills.ClientError as fault:
            self.expect(f"{work.__name__} of {words.get('Key')}", kills.code_of(fault) in codes or kills.code_of(fault), True)

    def use(self, stage):
        """Each operation once; and what is there then."""
        self.stage, s3 = stage, self.s3
        self.look()
        for key in ("short", "long", f"new {stage}"):
            self.put(key)
        s3.copy_object(Bucket="moved", Key="copied", CopySource={"Bucket": "moved", "Key": "long"})
        self.objects["copied"], self.beside["copied"] = self.objects["long"], "long"
        s3.copy_object(Bucket="moved", Key="touched", CopySource={"Bucket": "moved", "Key": "touched"}, MetadataDirective="REPLACE", Metadata={"of": "touched", "at": stage})
        self.tag("tagged by stages", stage.replace(",", ""))
        s3.delete_object(Bucket="moved", Key="removed")
        self.objects.pop("removed", None)
        self.refused(s3.get_object, "NoSuchKey", Key="removed")
        self.condition = {"If-None-Match": "*"}
        self.refused(s3.put_object, "PreconditionFailed", Key="short", Body=b"x")
        self.put("removed", **{"If-None-Match": "*"})
        self.put("short", **{"If-Match": s3.head_object(Bucket="moved", Key="short")["ETag"]})
        told = s3.delete_objects(Bucket="moved", Delete={"Objects": [{"Key": "given/a"}, {"Key": "given/b"}]})
        self.expect("removals", len(told["Deleted"]), 2)
        self.objects = {key: body for key, body in self.objects.items() if not key.startswith("given/")}
        self.put("given/a")
        self.part("from the beginning")
        for key in [key for key in self.uploads if key.startswith("upload")] + [key for key in self.uploads if key.startswith("begun")][:1]:
            self.part(key)
            self.complete(key)
        self.begin(f"upload {stage}")
        self.begin("given up")
        upload, _ = self.uploads.pop("given up")
        s3.abort_multipart_upload(Bucket="moved", Key="given up", UploadId=upload)
        self.refused(s3.list_parts, "NoSuchUpload", Key="given up", UploadId=upload)
        self.expire(f"expires {stage}")
        self.look()

    def expire(self, key):
        """What is put goes by the rules of the bucket."""
        told = self.s3.get_bucket_lifecycle_configuration(Bucket="moved")["Rules"]
        self.expect("the rules", [{**each, "Expiration": {"Date": each["Expiration"]["Date"].strftime("%Y-%m-%dT%H:%M:%SZ")}} for each in told], self.rules)
        self.s3.put_object(Bucket="moved", Key=key, Body=b"hello")
        until = time.monotonic() + longer(endpoint.PATIENCE)
        while (left := "Contents" in self.s3.list_objects_v2(Bucket="moved", Prefix=key)) and time.monotonic() < until:
            time.sleep(0.1)
        self.expect(f"{key} is there", left, False)

    def look(self):
        for key, body in self.objects.items():
            found = self.s3.get_object(Bucket="moved", Key=key)
            self.expect(f"the content of {key}", found["Body"].read(), body)
            self.expect(f"what is beside {key}", (found["Metadata"].get("of"), found["ContentLength"]), (self.beside[key], len(body)))
            self.expect(f"a range of {key}", self.s3.get_object(Bucket="moved", Key=key, Range="bytes=3-8")["Body"].read(), body[3:9])
        for key, tags in self.tags.items():
            self.expect(f"the tags of {key}", self.s3.get_object_tagging(Bucket="moved", Key=key)["TagSet"], tags)
            self.expect(f"what tags leave of {key}", self.told(key), self.at_first[key])
        told = self.s3.list_objects_v2(Bucket="moved").get("Contents", [])
        self.expect("a listing", {each["Key"]: each["Size"] for each in told}, {key: len(body) for key, body in self.objects.items()})
        told = self.s3.list_multipart_uploads(Bucket="moved").get("Uploads", [])
        self.expect("uploads", {each["Key"]: each["UploadId"] for each in told}, {key: upload for key, (upload, _) in self.uploads.items()})
        self.expect("buckets", [each["Name"] for each in self.s3.list_buckets()["Buckets"]], ["moved"])


def at_each_stage(is_following, count=3):
    """Each operation at each stage of moves there, and of a part back, by a gateway that finds later maps, or has none but the first."""
    with fleet(LABELS[:2]) as found:
        first, settings = os.path.join(found.room, "first"), os.path.join(found.room, "first.ini")
        with open(first, "w", encoding="ascii") as out:
            out.write(read_map(found.map).text())
        with open(settings, "w", encoding="ascii") as out:
            out.write(f"[gridfs]\nmap = {found.map if is_following else first}\n")
        gateway = endpoint.Gateway(settings, found.room, words=("--lifecycle", "0.3"))
        try:
            model = Model(gateway.client())
            for number, (slices, target) in enumerate((((0, SLICES - 1), "west"), ((0, 40_000), "east"), ((20_000, 60_000), "west"))[:count]):
                for part in [each for each in read_map(found.map).ranges if each.grid != target]:
                    if max(part.first, slices[0]) <= min(part.last, slices[1]):
                        stages(found, model, read_map(found.map).begun(max(part.first, slices[0]), min(part.last, slices[1]), target), f"move {number}")
            model.complete("from the beginning")
            model.look()
            gateway.kill()
            gateway.settings = found.settings
            gateway.start()
            model.stage = "by the last map"
            model.look()
            return model.wrong + (["a traceback"] if "Traceback" in gateway.told() else [])
        except kills.FAULTS as fault:
            return [*model.wrong, f"{model.stage}: {fault}"]
        finally:
            gateway.kill()


def while_one_is_silent():
    """A grid does not answer: requests for its names and listings get 503, and others go on. A gateway that begins then does so too; all is there once the grid
    answers again."""
    wrong = []

    def told(what, work, code):
        try:
            work()
            found = None
        except kills.FAULTS as fault:
            found = kills.code_of(fault)
        if found != code:
            wrong.append(f"{what}: {found} in place of {code}")

    with fleet(LABELS[:2]) as found:
        gateway = endpoint.Gateway(found.settings, found.room)
        try:
            s3, keys = gateway.client(), {}
            s3.create_bucket(Bucket="moved")
            for number in range(12):
                s3.put_object(Bucket="moved", Key=f"key {number}", Body=b"%d" % number)
            at_west = slice_of(".s3/bucket/moved") < SLICES // 2
            found.tell("move", f"{SLICES // 2}-{SLICES - 1}" if at_west else f"0-{SLICES // 2 - 1}", "west")  # (the bucket itself stays)
            now = read_map(found.map)
            keys = {f"key {number}": now.stop(slice_of(f"moved/key {number}")).grid for number in range(12)}
            if set(keys.values()) != {"east", "west"}:
                wrong.append(f"all keys are at one grid: {keys}")
            for is_begun_anew in (False, True):
                found.processes["west"].send_signal(signal.SIGSTOP)
                if is_begun_anew:
                    gateway.kill()
                    gateway.start()
                for key, grid in keys.items():
                    code = None if grid == "east" else "ServiceUnavailable"
                    told(f"a get of {key} at {grid}", lambda key=key: s3.get_object(Bucket="moved", Key=key), code)
                    told(f"a put of {key} at {grid}", lambda key=key: s3.put_object(Bucket="moved", Key=key, Body=key.split()[1].encode()), code)
                told("a listing", lambda: s3.list_objects_v2(Bucket="moved"), "ServiceUnavailable")
                found.processes["west"].send_signal(signal.SIGCONT)
                until = time.monotonic() + longer(60)
                while time.monotonic() < until:
                    with contextlib.suppress(*kills.FAULTS):
                        if len(s3.list_objects_v2(Bucket="moved")["Contents"]) == len(keys):
                            break
                    time.sleep(0.5)
                for key, grid in keys.items():
                    told(f"a put of {key} at {grid} that answers again", lambda key=key: s3.put_object(Bucket="moved", Key=key, Body=key.split()[1].encode()), None)
                    if s3.get_object(Bucket="moved", Key=key)["Body"].read() != key.split()[1].encode():
                        wrong.append(f"{key} has another content")
            return wrong + (["a traceback"] if "Traceback" in gateway.told() else [])
        finally:
            found.processes["west"].send_signal(signal.SIGCONT)
            gateway.kill()


def on_two_machines():
    """A mover that can have two sessions of each grid, and a gateway that has the others, and neither sees what the other locks."""
    with fleet(LABELS[:2]) as found:
        other = os.path.join(found.room, "other")
        os.mkdir(other)
        for label in found.labels:
            with open(os.path.join(found.room, f"{label}.ini"), encoding="ascii") as file:
                text = file.read()
            with open(os.path.join(other, f"{label}.ini"), "w", encoding="ascii") as out:
                out.write(text.replace("/locks.", "/other/locks."))
            with open(os.path.join(found.room, f"{label}.ini"), "a", encoding="ascii") as out:
                out.write("session = 7-8\n")
        shutil.copy(found.map, other)
        with open(os.path.join(other, "carol.ini"), "w", encoding="ascii") as out:
            out.write(f"[gridfs]\nmap = {other}/map\n")
        gateway = endpoint.Gateway(os.path.join(other, "carol.ini"), other, "1-6")
        try:
            s3, wrong = gateway.client(), []
            s3.create_bucket(Bucket="moved")
            for number in range(12):
                s3.put_object(Bucket="moved", Key=f"key {number}", Body=b"%d" % number)
            for slices, target in (("0-65535", "west"), ("0-40000", "east")):
                done = subprocess.run([*FLEET, "--map", found.map, "--timeout", "30", "move", slices, target], capture_output=True, text=True, check=False)
                wrong += [f"the move to {target}: {done.stdout}{done.stderr}"] if done.returncode else []
                for number in range(12):
                    if s3.get_object(Bucket="moved", Key=f"key {number}")["Body"].read() != b"%d" % number:
                        wrong.append(f"key {number} has another content")
            return wrong + (["a traceback"] if "Traceback" in gateway.told() else [])
        finally:
            gateway.kill()


def by_other_maps(program=None):
    """The settings of grids are said by the gateway's own map. What the tenant puts under the map's name gives it no other tenant's names, and no command."""
    with fleet(LABELS[:2], program) as found, contextlib.ExitStack() as others:
        room, slices = found.room, f"slices 0-{SLICES - 1} 900"
        with open(endpoint.PLAN) as file, open(os.path.join(room, "plan"), "w") as out:
            out.write(file.read().replace("carol", "dave"))
        plan, theirs = os.path.join(room, "plan"), os.path.join(room, "theirs")
        others.enter_context(nodes(program, theirs, plan, "dave") if program else endpoint.stand_in(plan, theirs))
        client = [os.path.join(code_of_s3.CLIENT, "gridfs-client"), "--config"]
        for name in (".s3/bucket/payroll", "payroll/2026"):
            subprocess.run([*client, f"{room}/theirs/dave.ini", "put", "-", name], input=b"dave's", check=True)
        with open(os.path.join(room, "command.ini"), "w", encoding="ascii") as out:
            out.write(f"[gridfs]\ntenant = carol\nvia = touch {room}/was.run\n")
        gateway = endpoint.Gateway(found.settings, room)
        try:
            s3, wrong = gateway.client(), []
            s3.create_bucket(Bucket="mine")
            s3.put_object(Bucket="mine", Key="a", Body=b"carol's")
            for file in ("theirs/dave.ini", "command.ini"):
                begun, text = len(gateway.told()), f"fleet 1\ngrid east east.ini\ngrid west west.ini\ngrid other {file}\n{slices} other\n"
                subprocess.run([*client, f"{room}/east.ini", "put", "-", ".fleet"], input=text.encode(), check=True)
                until = time.monotonic() + longer(30)
                while " map is not found: .fleet: it has the grid other" not in gateway.told(begun) and time.monotonic() < until:
                    time.sleep(0.2)
                buckets = [each["Name"] for each in s3.list_buckets()["Buckets"]]
                if buckets != ["mine"] or s3.get_object(Bucket="mine", Key="a")["Body"].read() != b"carol's":
                    wrong.append(f"by a map with {file} it has the buckets {buckets}")
                if time.monotonic() > until:
                    wrong.append(f"it does not say that it passes over a map with {file}")
                subprocess.run([*client, f"{room}/east.ini", "rm", ".fleet"], check=True)
                time.sleep(6)  # (so that the same fault is told anew)
            return wrong + (["a command was run"] if os.path.exists(f"{room}/was.run") else []) + (["a traceback"] if "Traceback" in gateway.told() else [])
        finally:
            gateway.kill()


def stages(found, model, now, word):
    """A move, with all operations between its steps."""
    now.save()
    move = now.moves[-1]
    with contextlib.closing(OpenGrids(now, Settings({"timeout": "20", "helpers": "0", "session": "all"}))) as grids:
        mover = Mover(now, move, grids.session, grids.layout, lambda change: change(now))
        for session, page in mover.lacking()[::3]:
            with mover.files(move.source, [session]) as files:
                sign(files, files.writer.bucket(page), move.signpost)
        model.use(f"{word}, some pages are signed")
        mover.sign_all()
        model.use(f"{word}, all pages are signed")
        mover.copy_all()
        model.use(f"{word}, all is copied")
        now = now.come(move)
        now.save()
        mover.map = now
        model.use(f"{word}, the map has changed")
        mover.clear_all()
        now.ended(move).save()
        model.use(f"{word}, it has ended")


def main(words):
    alone = {"silent": while_one_is_silent, "apart": on_two_machines, "names": by_other_maps}
    if words[0] in alone:
        os.environ["GRIDFS_TIMEOUT"] = "4"
        wrong = alone[words[0]](*words[1:])
        print("".join(f"{line}\n" for line in wrong) + f"{len(wrong)} wrong")
        return bool(wrong)
    if words[0] in ("operations", "once"):
        count = int(words[1]) if words[1:] else 3
        runs = [(True, count), (False, count)] if words[0] == "operations" else [(False, 1)]
        wrong = [f"{text} (later maps: {run[0]})" for run in runs for text in at_each_stage(*run)]
        print("".join(f"{line}\n" for line in wrong[:20]) + f"{len(wrong)} wrong")
        return bool(wrong)
    kind, count = {"histories": (kills.Trial, 2), "conditions": (kills.Conditional, 1)}[words[0]]
    wrong, told = tried(kind, count, float(words[1]), int(words[2]), *words[3:])
    print("".join(f"{line}\n" for line in wrong) + told)
    return bool(wrong)


if __name__ == "__main__":
    sys.exit(main(sys.argv[1:]))
