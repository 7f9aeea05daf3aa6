"""A stand-in for a grid with gateways before it, as tests start them; and clients of theirs."""

import contextlib
import json
import os
import socket
import subprocess
import sys
import tempfile
import threading
import time

sys.path.insert(0, os.path.dirname(os.path.abspath(__file__)))
from busy import longer
from code_of_s3 import GATEWAY, HERE

import gridfs_client.contents

SECRET = "a.secret.of.the.tests"
PLAN = os.path.join(HERE, "plan")
MAKING = threading.Lock()  # of clients: boto3 makes one at a time
PATIENCE = 60  # seconds until something is up


class NotStarted(Exception):
    pass


def digest_of(name):
    """By which a name that ends so stands beside this one."""
    return gridfs_client.contents.digest_of(name.encode())


def free_port():
    with socket.create_server(("127.0.0.1", 0)) as listener:
        return listener.getsockname()[1]


def wait(is_there, process, log):
    until = time.monotonic() + longer(PATIENCE)
    while not is_there():
        if process.poll() is not None or time.monotonic() > until:
            with open(log, errors="replace") as file:
                raise NotStarted(file.read()[-800:])
        time.sleep(0.02)


class Gateway:
    """A gateway with some sessions of carol, which is killed and started again."""

    def __init__(self, settings, room, sessions="all", keys=f"carol {SECRET}\n", port=None, program=(GATEWAY,), words=()):
        self.settings, self.sessions, self.room, self.port = settings, sessions, room, port or free_port()
        self.program, self.words = program, words
        self.url = f"http://127.0.0.1:{self.port}"
        self.keys, self.log = os.path.join(room, f"keys.{sessions}"), os.path.join(room, f"log.{sessions}")
        with open(os.open(self.keys, os.O_WRONLY | os.O_CREAT | os.O_TRUNC, 0o600), "w") as out:
            out.write(keys)
        self.process = None
        self.start()

    def start(self):
        words = [*self.program, "--config", self.settings, "--keys", self.keys, "--listen", f"127.0.0.1:{self.port}", *self.words]
        environment = {"GRIDFS_TIMEOUT": f"{longer(20):.0f}", **os.environ, "GRIDFS_SESSION": self.sessions, "GRIDFS_LOCKS": os.path.join(self.room, "locks")}
        with open(self.log, "ab") as log:
            begun = log.tell()
            self.process = subprocess.Popen(words, env=environment, stdin=subprocess.DEVNULL, stdout=log, stderr=log)
        wait(lambda: " at 127.0.0.1:" in self.told(begun), self.process, self.log)

    def told(self, begun=0):
        with open(self.log, errors="replace") as file:
            file.seek(begun)
            return file.read()

    def kill(self):
        self.process.kill()
        self.process.wait()

    def end(self):
        """By SIGTERM; the status."""
        self.process.terminate()
        try:
            return self.process.wait(longer(PATIENCE))
        except subprocess.TimeoutExpired:
            self.kill()
            return None

    def client(self, access="carol", secret=SECRET, read_timeout=120):
        import boto3
        from botocore.client import Config

        with MAKING:
            return boto3.client(
                "s3", endpoint_url=self.url, aws_access_key_id=access, aws_secret_access_key=secret, region_name="us-east-1",
                config=Config(signature_version="s3v4", s3={"addressing_style": "path"}, retries={"max_attempts": 0}, read_timeout=longer(read_timeout)),
            )  # fmt: skip


def held_in_files(process):
    """The bytes in files without a name that a process has open."""
    found = 0
    for number in os.listdir(f"/proc/{process}/fd"):
        with contextlib.suppress(OSError):
            path = f"/proc/{process}/fd/{number}"
            found += os.stat(path).st_size if os.readlink(path).endswith(" (deleted)") else 0
    return found


def counts(room):
    """How many requests of carol of each kind a stand-in had since it was asked last."""
    with socket.socket(socket.AF_UNIX) as made:
        made.connect(os.path.join(room, "socket"))
        made.sendall(b"0 counts\n")
        return json.loads(made.makefile("rb").readline())["carol"]


@contextlib.contextmanager
def stand_in(plan=PLAN, folder=None, processes=None):
    """A stand-in for a grid; the folder of its settings, and of all that belongs to it. Its process is noted under that folder, where that is wanted."""
    for name in [name for name in os.environ if name.startswith("AWS_")]:
        del os.environ[name]
    with contextlib.nullcontext(folder) if folder else tempfile.TemporaryDirectory(prefix="gridfs-s3-") as room:
        os.makedirs(room, exist_ok=True)
        log = os.path.join(room, "log.grid")
        with open(log, "wb") as out:
            process = subprocess.Popen([sys.executable, "-B", os.path.join(HERE, "stand_in.py"), plan, room], stdin=subprocess.DEVNULL, stdout=out, stderr=out)
        if processes is not None:
            processes[folder] = process
        try:
            wait(lambda: os.path.getsize(log), process, log)
            yield room
        finally:
            process.kill()
            process.wait()


@contextlib.contextmanager
def gateways(room, *sessions, **more):
    """Gateways of carol, each with some sessions."""
    found = []
    try:
        for some in sessions or ("all",):
            found.append(Gateway(os.path.join(room, "carol.ini"), room, some, **more))
        yield found
    finally:
        for gateway in found:
            gateway.kill()
