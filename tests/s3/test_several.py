"""Gateways of two tenants by one program: each a process of its own, and what one is told the other is not."""

import contextlib
import grp
import os
import signal
import subprocess
import sys
import tempfile
import time
import unittest

import boto3
from botocore.client import Config
from botocore.exceptions import BotoCoreError, ClientError

sys.path.insert(0, os.path.dirname(os.path.abspath(__file__)))
import endpoint
from busy import longer
from code_of_s3 import GATEWAY

PLAN = "grid 2 2\nroom 3000000\n" + "".join(f"tenant {name} 1400000 8 1000 16384\n" for name in ("carol", "dave")) + "go\n" + "".join(
    f"{name} open {files} {blocks}\n" for name in ("carol", "dave") for files, blocks in ((16, 256), (16, 256), (1, 1))
) + "carol chunks 100000\ndave chunks 100000\n"  # fmt: skip
PATIENCE, TENANTS = 60, ("carol", "dave")


def secret_of(name):
    return f"the.secret.of.{name}"


def children_of(pid):
    with contextlib.suppress(FileNotFoundError), open(f"/proc/{pid}/task/{pid}/children") as file:
        return [int(word) for word in file.read().split()]
    return []


def is_there(pid):
    with contextlib.suppress(FileNotFoundError), open(f"/proc/{pid}/stat") as file:
        return file.read().rsplit(") ", 1)[1][0] != "Z"
    return False


def kill(pids):
    """Those of them that are there still, where a test has failed."""
    for pid in filter(is_there, pids):
        with contextlib.suppress(ProcessLookupError):
            os.kill(pid, signal.SIGKILL)


def own_memory(pid):
    """Bytes that no other process has too."""
    with open(f"/proc/{pid}/smaps_rollup") as file:
        return sum(int(line.split()[1]) << 10 for line in file if line.startswith("Private_"))


def until(told):
    end = time.monotonic() + longer(PATIENCE)
    while not (found := told()):
        assert time.monotonic() < end
        time.sleep(0.05)
    return found


class Several(unittest.TestCase):
    def setUp(self):
        self.room = self.enterContext(tempfile.TemporaryDirectory(prefix="gridfs-several-"))
        os.chmod(self.room, 0o711)
        plan = os.path.join(self.room, "plan")
        with open(plan, "w") as out:
            out.write(PLAN)
        self.grid = self.enterContext(endpoint.stand_in(plan, os.path.join(self.room, "grid")))
        self.ports = {name: endpoint.free_port() for name in TENANTS}
        for name in TENANTS:
            self.give_keys(name, f"{name} {secret_of(name)}\n")
        self.file, self.process = os.path.join(self.room, "several"), None
        self.addCleanup(self.end)

    def give_keys(self, name, text):
        path = os.path.join(self.room, f"{name}.keys")
        with open(os.open(path, os.O_WRONLY | os.O_CREAT | os.O_TRUNC, 0o600), "w") as out:
            out.write(text)
        return path

    def line(self, name, before="", after=""):
        locks = os.path.join(self.room, f"locks.{name}")
        return f"{before}GRIDFS_LOCKS={locks} --config {self.grid}/{name}.ini --keys {self.room}/{name}.keys --listen 127.0.0.1:{self.ports[name]}{after}\n"

    def write(self, *lines):
        with open(self.file, "w") as out:
            out.write("# gateways\n\n" + "".join(lines))

    def start(self, *lines):
        self.write(*(lines or map(self.line, TENANTS)))
        self.log = os.path.join(self.room, "log")
        with open(self.log, "wb") as log:
            self.process = subprocess.Popen([sys.executable, "-B", GATEWAY, "--several", self.file], stdin=subprocess.DEVNULL, stdout=log, stderr=log)

    def told(self):
        with open(self.log) as file:
            return file.read()

    def end(self):
        if self.process and self.process.poll() is None:
            self.process.kill()
            self.process.wait()

    def client(self, name, access=None, secret=None):
        return boto3.client(
            "s3", endpoint_url=f"http://127.0.0.1:{self.ports[name]}", aws_access_key_id=access or name, aws_secret_access_key=secret or secret_of(name), region_name="us-east-1",
            config=Config(s3={"addressing_style": "path"}, retries={"max_attempts": 0}),
        )  # fmt: skip

    def code(self, name, access=None, secret=None):
        """What who lists the buckets of a gateway is told; None where it is not there."""
        try:
            self.client(name, access, secret).list_buckets()
            return "200"
        except ClientError as fault:
            return fault.response["Error"]["Code"]
        except BotoCoreError:
            return None

    def pid_of(self, name):
        """The process that serves a tenant, once it does."""
        until(lambda: self.code(name) == "200")
        return until(lambda: next((pid for pid in children_of(self.process.pid) if self.listening(name) & self.files_of(pid)), None))

    @staticmethod
    def files_of(pid):
        found = set()
        for each in os.listdir(f"/proc/{pid}/fd"):
            with contextlib.suppress(FileNotFoundError):
                found.add(os.readlink(f"/proc/{pid}/fd/{each}"))
        return found

    def listening(self, name):
        with open("/proc/net/tcp") as file:
            rows = [row.split() for row in file.readlines()[1:]]
        return {f"socket:[{row[9]}]" for row in rows if row[1].endswith(f":{self.ports[name]:04X}") and row[3] == "0A"}

    def test_each_has_its_own(self):
        self.start()
        pids = {name: self.pid_of(name) for name in TENANTS}
        self.assertEqual(len(set(pids.values())), 2)
        for name in TENANTS:
            s3 = self.client(name)
            s3.create_bucket(Bucket="same-name")
            s3.put_object(Bucket="same-name", Key="a", Body=name.encode())
        for name, other in (TENANTS, TENANTS[::-1]):
            self.assertEqual(self.client(name).get_object(Bucket="same-name", Key="a")["Body"].read(), name.encode())
            self.assertEqual(self.code(name, other, secret_of(other)), "InvalidAccessKeyId")
            told = subprocess.run(["curl", "-s", f"http://127.0.0.1:{self.ports[name]}/metrics"], capture_output=True, text=True).stdout
            self.assertIn(f'tenant="{name}"', told)
            self.assertNotIn(f'tenant="{other}"', told)
            # No file, socket or environment of the other's
            with open(f"/proc/{pids[name]}/environ", "rb") as file:
                self.assertNotIn(other.encode(), file.read())
            self.assertFalse([each for each in self.files_of(pids[name]) if f"locks.{other}" in each])
        self.assertIn(f"gridfs-s3: dave: dave at 127.0.0.1:{self.ports['dave']}", self.told())

    def test_memory(self):
        """What each has for itself is less than half of what a gateway has that is alone."""
        self.start()
        several = [own_memory(self.pid_of(name)) for name in TENANTS]
        self.end()
        with endpoint.gateways(self.grid) as (alone,):
            alone.client().list_buckets()
            self.assertLess(max(several), own_memory(alone.process.pid) / 2)

    def test_one_falls(self):
        self.start()
        carol, dave = map(self.pid_of, TENANTS)
        os.kill(carol, signal.SIGKILL)
        until(lambda: "carol ended with status -9; it is begun again in 2 s" in self.told())
        self.assertEqual(self.code("dave"), "200")
        self.assertNotEqual(self.pid_of("carol"), carol)
        self.assertEqual(self.pid_of("dave"), dave)

    def test_one_whose_grid_is_silent(self):
        """A gateway that can't start is tried again and again, and others are served."""
        silent = self.line("carol").replace("carol.ini", "no-such.ini")
        self.start(silent, self.line("dave"))
        self.pid_of("dave")
        until(lambda: self.told().count("no-such ended with status 2") >= 2)
        self.assertEqual(self.code("dave"), "200")

    def test_lines_that_change(self):
        self.start(self.line("carol"))
        carol = self.pid_of("carol")
        self.write(*map(self.line, TENANTS))
        self.give_keys("carol", f"carol {secret_of('carol')}\ncarol.more another.secret.of.carol\n")
        self.process.send_signal(signal.SIGHUP)
        until(lambda: self.code("carol", "carol.more", "another.secret.of.carol") == "200")
        self.pid_of("dave")
        self.assertEqual(self.pid_of("carol"), carol)
        # A line that is wrong: all stay as they were
        self.write(self.line("carol"), self.line("dave", after=" --no-such"))
        self.process.send_signal(signal.SIGHUP)
        until(lambda: "line 4: unrecognized arguments: --no-such; the gateways stay as they were" in self.told())
        self.assertEqual((self.pid_of("carol"), self.code("dave")), (carol, "200"))
        # One that is another now is begun anew, and one that is gone ends
        self.write(self.line("carol", after=" --region eu-west-1"))
        self.process.send_signal(signal.SIGHUP)
        until(lambda: self.code("dave") is None)
        until(lambda: not is_there(carol))
        carol = self.pid_of("carol")
        until(lambda: children_of(self.process.pid) == [carol])
        # One that is another for a moment, and as it was before its gateway has ended, is begun anew too
        os.kill(carol, signal.SIGSTOP)
        self.write(self.line("carol"))
        self.read_again()
        self.write(self.line("carol", after=" --region eu-west-1"))
        self.read_again()
        os.kill(carol, signal.SIGCONT)
        until(lambda: not is_there(carol))
        self.assertNotEqual(self.pid_of("carol"), carol)

    def read_again(self):
        """The file, once more, to its end."""
        told = f"{self.file} is read again"
        before = self.told().count(told)
        self.process.send_signal(signal.SIGHUP)
        until(lambda: self.told().count(told) > before)

    def test_ends(self):
        self.start()
        pids = list(map(self.pid_of, TENANTS))
        self.process.terminate()
        self.assertEqual(self.process.wait(longer(PATIENCE)), 0)
        self.assertFalse(list(filter(is_there, pids)))
        self.start()
        pids = list(map(self.pid_of, TENANTS))
        self.addCleanup(kill, pids)
        self.end()  # by a kill: nobody sees to gateways any more, so they end too
        until(lambda: not list(filter(is_there, pids)))

    def test_lines_that_are_wrong(self):
        other = self.line("dave").replace(str(self.ports["dave"]), str(self.ports["carol"]))
        for line, why in (
            (self.line("dave", after=" --no-such"), "unrecognized arguments: --no-such"),
            (self.line("dave", after=" 'x"), "No closing quotation"),
            (self.line("dave", before="user=no-such-user "), "there is no user no-such-user"),
            (self.line("dave", after=" --several x"), "--several is for all gateways, not for one"),
            (self.line("dave", before="user=root group=no-such-group "), "there is no user root, or no group no-such-group"),
            (self.line("dave", before="group=root "), "group= is wanted with user="),
            ("--config x\n", "--keys is wanted"),
            ("--keys x\n", "--config or --map is wanted"),
            (other, f"an earlier line listens at 127.0.0.1:{self.ports['carol']}"),
        ):
            self.start(self.line("carol"), line)
            self.assertEqual(self.process.wait(longer(PATIENCE)), 2)
            self.assertEqual(self.told(), f"gridfs-s3: {self.file}: line 4: {why}\n")
        self.start("# nobody\n")
        self.assertEqual((self.process.wait(longer(PATIENCE)), self.told()), (2, f"gridfs-s3: {self.file}: no line has a gateway\n"))

    @unittest.skipUnless(os.getuid() == 0, "who is not root can't be another user")
    def test_users(self):
        """A gateway is its user's from before it reads anything: keys of another's it can't have."""
        self.start(self.line("carol", before="user=nobody group=daemon "), self.line("dave"))
        dave = self.pid_of("dave")
        until(lambda: "carol ended with status 2" in self.told())
        self.assertIn("carol.keys: Permission denied", self.told())
        for path in (os.path.join(self.room, "carol.keys"), os.path.join(self.grid, "carol.ini")):
            os.chown(path, 65534, -1)
        os.mkdir(os.path.join(self.room, "locks.carol"))
        os.chown(os.path.join(self.room, "locks.carol"), 65534, -1)
        os.chmod(self.grid, 0o711)
        os.chmod(os.path.join(self.grid, "socket"), 0o666)
        self.assertEqual([os.stat(f"/proc/{pid}").st_uid for pid in (self.pid_of("carol"), dave)], [65534, 0])
        with open(f"/proc/{self.pid_of('carol')}/status") as file:
            found = dict(line.split(":\t", 1) for line in file if line.startswith(("Gid:", "CapEff:")))
        self.assertEqual((set(found["Gid"].split()), int(found["CapEff"], 16)), ({str(grp.getgrnam("daemon").gr_gid)}, 0))


if __name__ == "__main__":
    unittest.main()
