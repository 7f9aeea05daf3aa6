"""Clients that others wrote, from Debian's packages, over an endpoint: each thing that is tried, and what is wrong of it."""

import filecmp
import json
import os
import random
import shutil
import sqlite3
import subprocess
import time
import urllib.request
from contextlib import closing

SIZES = {"empty": 0, "small.txt": 12, "one kib": 1_024, "dir/äöü.bin": 70_000, "dir/deep/er/two.bin": 2_000_000, "dir/plus+and&.bin": 4_097}
BIG = 12_000_000  # bytes of what goes in parts of 5 MiB
LONGEST = 900  # seconds of one command


class Wrong(Exception):
    pass


def run(*words, **more):
    done = subprocess.run(list(map(str, words)), capture_output=True, timeout=LONGEST, **more)
    if done.returncode:
        told = (done.stderr or done.stdout).decode(errors="replace").strip()[-400:]
        raise Wrong(f"{' '.join(map(str, words))[:90]}: status {done.returncode}: {told}")
    return done.stdout


def expect(found, wanted, what):
    if found != wanted:
        raise Wrong(f"{what}: {str(found)[:200]!r}, not {str(wanted)[:200]!r}")


def files_in(folder):
    return sorted(os.path.relpath(os.path.join(at, name), folder) for at, _, names in os.walk(folder) for name in names)


def same(one, two):
    """Whether two folders have the same files."""
    expect(files_in(two), files_in(one), "the files")
    expect(filecmp.cmpfiles(one, two, files_in(one), shallow=False)[1:], ([], []), "the contents")


def content_of(path):
    with open(path, "rb") as file:
        return file.read()


class Clients:
    """The clients at an endpoint, in a folder of their own."""

    def __init__(self, url, access, secret, room, tree=None):
        self.url, self.access, self.secret, self.room, self.wrong = url, access, secret, room, []
        self.host = url.partition("://")[2]
        self.files, self.big, draw = os.path.join(room, "files"), os.path.join(room, "big"), random.Random(1)
        for name, size in SIZES.items():
            os.makedirs(os.path.dirname(os.path.join(self.files, name)), exist_ok=True)
            with open(os.path.join(self.files, name), "wb") as out:
                out.write(draw.randbytes(size))
        with open(self.big, "wb") as out:
            out.write(draw.randbytes(BIG))
        if tree:
            shutil.copytree(tree, os.path.join(self.files, "tree"), symlinks=False)

    def step(self, what, call):
        begin, told = time.monotonic(), "ok"
        try:
            call()
        except (Wrong, OSError, subprocess.TimeoutExpired) as fault:
            self.wrong.append(f"{what}: {fault}")
            told = f"WRONG: {fault}"
        print(f"{what:<60} {time.monotonic() - begin:6.1f} s  {told}", flush=True)

    def boto3(self):
        import boto3

        return boto3.client("s3", endpoint_url=self.url, aws_access_key_id=self.access, aws_secret_access_key=self.secret, region_name="us-east-1")

    def place(self, name):
        return os.path.join(self.room, name)

    def s3cmd(self):
        config = self.place("s3cfg")
        with open(config, "w") as out:
            out.write(
                f"[default]\naccess_key = {self.access}\nsecret_key = {self.secret}\nhost_base = {self.host}\nhost_bucket = {self.host}\n"
                "use_https = False\nsignature_v2 = False\nmultipart_chunk_size_mb = 5\n"
            )
        s3cmd, there, back = ["s3cmd", "-c", config, "--no-progress"], f"s3://s3cmd-{os.getpid()}", self.place("s3cmd back")
        small = f"{there}/tree/small.txt"
        os.makedirs(back)
        self.step("s3cmd mb", lambda: run(*s3cmd, "mb", there))
        self.step("s3cmd sync, of all files", lambda: run(*s3cmd, "sync", f"{self.files}/", f"{there}/tree/"))
        self.step("s3cmd put in parts of 5 MB", lambda: run(*s3cmd, "put", self.big, f"{there}/big"))
        self.step("s3cmd sync back, the same files", lambda: (run(*s3cmd, "sync", f"{there}/tree/", f"{back}/"), same(self.files, back)))
        self.step("s3cmd get, the same bytes", lambda: (run(*s3cmd, "get", f"{there}/big", f"{back}.big"), expect(filecmp.cmp(self.big, f"{back}.big", False), True, "big")))
        self.step("s3cmd sync again moves nothing", lambda: expect(b"upload:" in run(*s3cmd, "sync", f"{self.files}/", f"{there}/tree/"), False, "uploads"))
        self.step("s3cmd ls -r, info, du", lambda: (expect(run(*s3cmd, "ls", "-r", f"{there}/").count(b"\n"), len(files_in(self.files)) + 1, "lines"), run(*s3cmd, "info", small), run(*s3cmd, "du", there)))
        self.step("s3cmd cp, mv, modify", lambda: (run(*s3cmd, "cp", small, f"{there}/c"), run(*s3cmd, "mv", f"{there}/c", f"{there}/d"), run(*s3cmd, "modify", "--add-header=x-amz-meta-a:b", f"{there}/d")))
        self.step("s3cmd multipart, which lists uploads", lambda: run(*s3cmd, "multipart", there))
        self.step("s3cmd del -r, rb", lambda: (run(*s3cmd, "del", "-r", "-f", f"{there}/"), expect(run(*s3cmd, "ls", "-r", f"{there}/"), b"", "left"), run(*s3cmd, "rb", there)))

    def rclone(self):
        config = self.place("rclone.conf")
        with open(config, "w") as out:
            out.write(
                f"[grid]\ntype = s3\nprovider = Other\naccess_key_id = {self.access}\nsecret_access_key = {self.secret}\nendpoint = {self.url}\n"
                "acl = private\nregion = us-east-1\nforce_path_style = true\n"
            )
        rclone, there, back = ["rclone", "--config", config, "--retries", "1"], f"grid:rclone-{os.getpid()}", self.place("rclone back")
        middle = content_of(self.big)[BIG // 3 : BIG // 3 + BIG // 5]
        self.step("rclone mkdir, copy", lambda: (run(*rclone, "mkdir", there), run(*rclone, "copy", self.files, f"{there}/tree")))
        self.step("rclone check (by MD5)", lambda: run(*rclone, "check", self.files, f"{there}/tree"))
        self.step("rclone check --download", lambda: run(*rclone, "check", "--download", self.files, f"{there}/tree"))
        self.step("rclone sync again moves nothing", lambda: expect(b"Copied" in run(*rclone, "-v", "sync", self.files, f"{there}/tree"), False, "copies"))
        self.step("rclone copy in parts of 5 MiB", lambda: run(*rclone, "copyto", "--s3-upload-cutoff", "5M", "--s3-chunk-size", "5M", self.big, f"{there}/big"))
        self.step("rclone cat of a range", lambda: expect(run(*rclone, "cat", "--offset", BIG // 3, "--count", BIG // 5, f"{there}/big") == middle, True, "content"))
        self.step("rclone rcat, cat, of unknown length", lambda: (run(*rclone, "rcat", f"{there}/piped", input=middle), expect(run(*rclone, "cat", f"{there}/piped") == middle, True, "content")))
        self.step("rclone copy back, the same files", lambda: (run(*rclone, "copy", f"{there}/tree", back), same(self.files, back)))
        self.step("rclone moveto, touch", lambda: (run(*rclone, "moveto", f"{there}/piped", f"{there}/moved"), run(*rclone, "touch", "-t", "2020-01-02T03:04:05", f"{there}/moved"), expect(b"2020-01-02 03:04:05" in run(*rclone, "lsl", f"{there}/moved"), True, "time")))
        self.step("rclone sync with removals", lambda: (run(*rclone, "sync", f"{self.files}/dir", f"{there}/tree"), run(*rclone, "check", f"{self.files}/dir", f"{there}/tree")))
        self.step("rclone purge", lambda: run(*rclone, "purge", there))

    def restic(self):
        bucket, back = f"restic-{os.getpid()}", self.place("restic back")
        words = {**os.environ, "AWS_ACCESS_KEY_ID": self.access, "AWS_SECRET_ACCESS_KEY": self.secret, "RESTIC_PASSWORD": "open sesame",
                 "RESTIC_REPOSITORY": f"s3:{self.url}/{bucket}/backup", "RESTIC_CACHE_DIR": self.place("cache")}  # fmt: skip
        self.step("restic init (which makes the bucket)", lambda: run("restic", "init", env=words))
        self.step("restic backup", lambda: run("restic", "backup", self.files, self.big, env=words))
        with open(os.path.join(self.files, "small.txt"), "ab") as out:
            out.write(b"more")
        self.step("restic backup again", lambda: run("restic", "backup", self.files, self.big, env=words))
        self.step("restic check --read-data", lambda: run("restic", "check", "--read-data", env=words))
        self.step("restic restore, the same files", lambda: (run("restic", "restore", "latest", "--target", back, env=words), same(self.files, back + self.files), expect(filecmp.cmp(self.big, back + self.big, False), True, "big")))
        self.step("restic forget --prune, check", lambda: (run("restic", "forget", "--keep-last", "1", "--prune", env=words), run("restic", "check", env=words)))

    def aws(self):
        """Debian's AWS CLI, which another one before it on the path must not stand for."""
        words = {**os.environ, "AWS_ACCESS_KEY_ID": self.access, "AWS_SECRET_ACCESS_KEY": self.secret, "AWS_DEFAULT_REGION": "us-east-1", "AWS_EC2_METADATA_DISABLED": "true"}
        bucket, back = f"aws-{os.getpid()}", self.place("aws back")
        there = f"s3://{bucket}"

        def aws(*told):
            return run("/usr/bin/aws", "--endpoint-url", self.url, *told, env=words)

        def told_of(*told):
            return json.loads(aws("s3api", *told, "--bucket", bucket) or b"{}")

        self.step("aws s3 mb, sync of all files", lambda: (aws("s3", "mb", there), aws("s3", "sync", self.files, f"{there}/tree")))
        self.step("aws s3 sync again moves nothing", lambda: expect(aws("s3", "sync", self.files, f"{there}/tree"), b"", "what it did"))
        self.step("aws s3 sync back, the same files", lambda: (aws("s3", "sync", f"{there}/tree", back), same(self.files, back)))
        self.step("aws s3 cp in parts of 8 MiB, and back", lambda: (aws("s3", "cp", self.big, f"{there}/big"), aws("s3", "cp", f"{there}/big", f"{back}.big"), expect(filecmp.cmp(self.big, f"{back}.big", False), True, "big")))
        self.step("aws s3 cp and mv within the bucket, in parts", lambda: (aws("s3", "cp", f"{there}/big", f"{there}/copy"), aws("s3", "mv", f"{there}/copy", f"{there}/moved"), expect(told_of("head-object", "--key", "moved")["ContentLength"], BIG, "length")))
        self.step("aws s3 sync --delete, ls --summarize", lambda: (aws("s3", "sync", "--delete", os.path.join(self.files, "dir"), f"{there}/tree"), expect(aws("s3", "ls", "--recursive", "--summarize", f"{there}/tree").count(b"tree/"), len(files_in(os.path.join(self.files, "dir"))), "objects")))
        self.step("aws s3 presign, got by anybody", lambda: expect(urllib.request.urlopen(aws("s3", "presign", f"{there}/moved").decode().strip()).read() == content_of(self.big), True, "content"))
        small = ("--key", "small", "--body", os.path.join(self.files, "small.txt"))
        for name in ("CRC32", "SHA1", "SHA256"):  # (others want a library that Debian 12 has not)
            self.step(f"aws s3api put-object with {name}, told again", lambda name=name: expect(told_of("put-object", *small, "--checksum-algorithm", name)[f"Checksum{name}"], told_of("head-object", "--key", "small", "--checksum-mode", "ENABLED")[f"Checksum{name}"], "checksum"))
        self.step("aws s3api get-object-attributes", lambda: expect(told_of("get-object-attributes", "--key", "small", "--object-attributes", "ObjectSize")["ObjectSize"], os.path.getsize(small[-1]), "size"))
        self.step("aws s3api versions: two, one of them got again", lambda: (aws("s3api", "put-bucket-versioning", "--bucket", bucket, "--versioning-configuration", "Status=Enabled"), told_of("put-object", *small), told_of("put-object", *small[:2]), expect(self.lengths_of(told_of("list-object-versions", "--prefix", "small")), [0, os.path.getsize(small[-1]), os.path.getsize(small[-1])], "sizes")))
        self.step("aws s3api tags", lambda: (told_of("put-object-tagging", "--key", "small", "--tagging", "TagSet=[{Key=a,Value=b}]"), expect(told_of("get-object-tagging", "--key", "small")["TagSet"], [{"Key": "a", "Value": "b"}], "tags")))
        self.step("aws s3 rm --recursive leaves versions, which go by delete-objects", lambda: (aws("s3", "rm", "--recursive", there), aws("s3api", "delete-objects", "--bucket", bucket, "--delete", json.dumps({"Objects": self.versions_of(told_of("list-object-versions"))})), aws("s3", "rb", there)))

    @staticmethod
    def lengths_of(told):
        return [each["Size"] for each in told["Versions"]]

    @staticmethod
    def versions_of(told):
        return [{"Key": each["Key"], "VersionId": each["VersionId"]} for kind in ("Versions", "DeleteMarkers") for each in told.get(kind, [])]

    def s3fs(self):
        """A bucket as a folder of this machine."""
        bucket, there, keys = f"s3fs-{os.getpid()}", self.place("mounted"), self.place("s3fs.keys")
        with open(os.open(keys, os.O_WRONLY | os.O_CREAT, 0o600), "w") as out:
            out.write(f"{self.access}:{self.secret}\n")
        os.makedirs(there)
        self.step("s3fs: its bucket (by boto3)", lambda: self.boto3().create_bucket(Bucket=bucket))
        options = f"passwd_file={keys},url={self.url},use_path_request_style,sigv4,endpoint=us-east-1"
        with subprocess.Popen(["s3fs", bucket, there, "-f", "-o", options], stdin=subprocess.DEVNULL, stdout=subprocess.DEVNULL, stderr=subprocess.DEVNULL) as mounted:
            try:
                while not os.path.ismount(there) and mounted.poll() is None:
                    time.sleep(0.05)
                self.in_folder(os.path.join(there, "folder"))
            finally:
                subprocess.run(["fusermount", "-u", "-z", there], stderr=subprocess.DEVNULL)

    def in_folder(self, there):
        """What programs do with files and folders."""
        big, moved = os.path.join(there, "big"), os.path.join(there, "moved")
        self.step("s3fs cp -r, the same files", lambda: (run("cp", "-r", self.files, there), same(self.files, there)))
        self.step("s3fs cp of what goes in parts", lambda: (run("cp", self.big, big), expect(filecmp.cmp(self.big, big, False), True, "big")))
        self.step("s3fs writes amid a long file", lambda: (write_at(big, BIG // 2, b"MIDDLE"), write_at(self.big, BIG // 2, b"MIDDLE"), expect(filecmp.cmp(self.big, big, False), True, "big")))
        self.step("s3fs mv of a long file", lambda: (run("mv", big, moved), expect(filecmp.cmp(self.big, moved, False), True, "big")))
        self.step("s3fs chmod, touch -d", lambda: (run("chmod", "640", moved), run("touch", "-d", "2020-01-02T03:04:05Z", moved), expect((os.stat(moved).st_mode & 0o777, int(os.stat(moved).st_mtime)), (0o640, 1_577_934_245), "mode and time")))
        self.step("s3fs mv of a folder", lambda: (run("mv", os.path.join(there, "dir"), os.path.join(there, "other")), expect(sorted(os.listdir(os.path.join(there, "other"))), sorted(os.listdir(os.path.join(self.files, "dir"))), "names")))
        git = ["git", "-C", os.path.join(there, "repository"), "-c", "user.name=a", "-c", "user.email=a@b"]
        self.step("s3fs git init, add, commit, fsck", lambda: (run("git", "init", "-q", git[2]), run("cp", os.path.join(self.files, "small.txt"), git[2]), run(*git, "add", "."), run(*git, "commit", "-qm", "x"), run(*git, "fsck", "--full")))
        self.step("s3fs sqlite", lambda: expect(rows_of_a_table(os.path.join(there, "base")), 2_000, "rows"))
        self.step("s3fs rm -r", lambda: (run("rm", "-r", there), expect(os.path.exists(there), False, "whether it is there")))


def write_at(path, place, content):
    with open(path, "r+b") as file:
        file.seek(place)
        file.write(content)


def rows_of_a_table(path):
    """How many rows a base has, opened again after they were written."""
    with closing(sqlite3.connect(path)) as base, base:
        base.execute("create table numbers (number)")
        base.executemany("insert into numbers values (?)", ((number,) for number in range(2_000)))
    with closing(sqlite3.connect(path)) as base:
        return base.execute("select count(*) from numbers").fetchone()[0]
