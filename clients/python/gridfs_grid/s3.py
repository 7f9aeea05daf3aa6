"""`./grid --s3`: a grid on this machine with an endpoint of S3, the nodes, a gateway for each tenant with names, and nginx before them.

FOLDER/grid has the grid's files (FOLDER itself, where a grid without S3 was there before), FOLDER/s3 the access keys of each tenant and configurations for s3cmd and rclone, FOLDER/log.NAME what each process told. A
browser finds a page at http://ADDRESS:PORT/-/; it asks for an access key and its secret.

It starts another `./grid` for the nodes: each has its own log, and either can be killed and started alone.
"""

import os
import shutil
import signal
import subprocess
import tempfile
import time
import urllib.error
import urllib.request
from pathlib import Path

from gridfs_grid.carried import free_ports
from gridfs_grid.one_machine import NotStarted, end, how_ended, lock, look_at, tell
from gridfs_grid.options import OF_S3, expect_free, keep_options
from gridfs_grid.places import CLIENT, COMMAND, GATEWAY, S3_PLAN, folder_of_grid
from gridfs_s3 import config
from gridfs_s3.front import instances_of, nginx_conf, tenants_of, write_for

os.environ["PATH"] += ":/usr/sbin"  # (where Debian has nginx)
STARTED, ENDED = 300, 40  # seconds in which a process has to be up, and to end
LISTEN = "127.0.0.1:9000"
PASSED_ON = ("http", "port", "replace", "tick", "metrics", "grid", "tls", "rate")  # words that are the grid's own


class All:
    """The processes: a grid, gateways, nginx."""

    def __init__(self, asked, folder):
        self.asked, self.folder = asked, folder.absolute()
        self.s3, self.grid_folder = self.folder / "s3", Path(folder_of_grid(self.folder, True))
        self.processes, self.words, self.begins, self.tenants, self.gateways = {}, {}, {}, {}, {}

    def run(self, name, words, **more):
        """Starts a process. An interrupt of the terminal reaches this program alone, which ends the others in order."""
        with open(self.folder / f"log.{name}", "ab") as log:
            self.begins[name] = log.tell()
            self.processes[name] = subprocess.Popen([str(word) for word in words], stdin=subprocess.DEVNULL, stdout=log, stderr=log, preexec_fn=os.setpgrp, **more)
        self.words[name] = words, more

    def told(self, name):
        """What a process told since its last start."""
        with open(self.folder / f"log.{name}", errors="replace") as log:
            log.seek(self.begins[name])
            return log.read()

    def start(self):
        missing = config.missing() + ([] if shutil.which("nginx") else ["nginx-light"])
        if missing:
            raise NotStarted(f"not there: {' '.join(missing)} (as root on Debian: apt-get install {' '.join(missing)})")
        look_at(self.asked.program)
        self.s3.mkdir(parents=True, exist_ok=True)
        # (the grid locks its own folder)
        lock(self.s3 if self.grid_folder == self.folder else self.folder)
        address, _, port = self.asked.listen.rpartition(":")
        if not address or not port.isdecimal():
            raise NotStarted(f"--listen {self.asked.listen}: no ADDRESS:PORT")
        expect_free(address.strip("[]"), [int(port)], "listen")
        self.start_grid()
        self.gateways = {name: instances_of(name, sessions, self.asked.gateways or 1) for name, sessions in self.tenants.items()}
        every = [each for found in self.gateways.values() for each in found]
        for name in self.tenants:
            write_for(self.s3, name, self.asked.listen)
        for each in every:
            self.start_gateway(each)
        user = "user root;\n" if os.getuid() == 0 else ""
        sockets = {each.name: str(self.s3 / f"{each.name}.socket") for each in every}
        (self.s3 / "nginx.conf").write_text(user + nginx_conf(self.s3, self.gateways, sockets, self.asked.listen))
        self.run("nginx", ["nginx", "-e", "stderr", "-p", self.s3, "-c", self.s3 / "nginx.conf"])
        for each in every:
            self.wait_for_gateway(each)
        self.wait("nginx", self.answers)

    def start_grid(self):
        kept = self.grid_folder / "plan"
        plan = self.asked.plan or (None if kept.exists() else S3_PLAN)
        self.tenants = tenants_of(Path(plan or kept).read_bytes())
        if not self.tenants:
            raise NotStarted(f"{plan or kept}: no tenant has volumes for names, and others after them")
        more = {"plan": plan, **{name: getattr(self.asked, name) for name in PASSED_ON}}
        words = [word for name, value in more.items() if value not in (None, "") for word in (f"--{name}", value)]
        self.run("grid", [COMMAND, "--no-s3", "--over", self.asked.over, *words, "--program", self.asked.program, self.grid_folder])
        self.wait("grid", lambda: "nodes are up" in self.told("grid") and all((self.grid_folder / f"{name}.ini").exists() for name in self.tenants))

    def start_gateway(self, it):
        words = ["--config", self.grid_folder / f"{it.tenant}.ini", "--keys", self.s3 / f"{it.tenant}.keys", "--listen", f"unix:{self.s3 / it.name}.socket"]
        words += ["--index", self.s3 / f"{it.name}.index"]
        self.run(f"s3.{it.name}", [GATEWAY, *words], env={**os.environ, "GRIDFS_SESSION": it.sessions})

    def wait_for_gateway(self, it):
        self.wait(f"s3.{it.name}", lambda: f"gridfs-s3: {it.tenant} at" in self.told(f"s3.{it.name}"))

    def end_gateway(self, it):
        """By SIGTERM, so that it answers what is under way."""
        self.processes[f"s3.{it.name}"].terminate()
        self.processes[f"s3.{it.name}"].wait(ENDED)

    def answers(self):
        try:
            urllib.request.urlopen(f"http://{self.asked.listen}/").close()
        except urllib.error.HTTPError:
            return True
        except OSError:
            pass
        return False

    def wait(self, name, is_there):
        until = time.monotonic() + STARTED
        while not is_there():
            if self.processes[name].poll() is not None or time.monotonic() > until:
                raise NotStarted(f"{name} did not start:\n{self.told(name)[-600:].strip()}")
            time.sleep(0.05)

    def look_after(self):
        """Starts again what ends, but for the grid, which looks after its nodes itself."""
        while True:
            for name, process in list(self.processes.items()):
                if process.poll() is not None:
                    if name == "grid":
                        raise NotStarted(f"the grid has ended:\n{self.told('grid')[-600:].strip()}")
                    tell(f"{name} has ended {how_ended(process.returncode)}: it starts again")
                    words, more = self.words[name]
                    self.run(name, words, **more)
            time.sleep(1)

    def end(self):
        """Ends all, what is before first: a gateway answers what is under way."""
        for name in reversed(list(self.processes)):
            process = self.processes[name]
            if process.poll() is None:
                process.send_signal(signal.SIGINT if name == "grid" else signal.SIGTERM)
                try:
                    process.wait(timeout=ENDED)
                except subprocess.TimeoutExpired:
                    process.kill()
                    process.wait()


def ask(all_of_it, name, method, path, body=b""):
    """One signed request, again as long as the gateway is away; the body of the answer."""
    from botocore.auth import S3SigV4Auth
    from botocore.awsrequest import AWSRequest
    from botocore.credentials import Credentials

    secret = (all_of_it.s3 / f"{name}.keys").read_text().split()[1]
    for _ in range(600):
        request = AWSRequest(method, f"http://{all_of_it.asked.listen}{path}", {}, body)
        S3SigV4Auth(Credentials(name, secret), "s3", "us-east-1").add_auth(request)
        try:
            with urllib.request.urlopen(urllib.request.Request(request.url, body or None, dict(request.headers), method=method)) as told:
                return told.read()
        except urllib.error.HTTPError as fault:
            if fault.code != 503:
                raise NotStarted(f"{method} {path}: {fault.read().decode(errors='replace')}") from None
            time.sleep(0.1)
    raise NotStarted(f"{method} {path}: there is no answer")


def show(all_of_it):
    """Puts an object, kills its gateway, and gets it; and by `gridfs-client` too. The status."""
    name, content = next(iter(all_of_it.tenants)), os.urandom(100_000)
    gateways = all_of_it.gateways[name]
    print(f"{name} makes a bucket, and puts an object of {len(content):,} bytes.", flush=True)
    ask(all_of_it, name, "PUT", "/first-bucket")
    ask(all_of_it, name, "PUT", "/first-bucket/hello", content)
    print(f"The gateway of {name} is killed (kill -9), and starts again:", flush=True)
    for it in gateways:
        all_of_it.processes[f"s3.{it.name}"].kill()
        all_of_it.processes[f"s3.{it.name}"].wait()
        all_of_it.start_gateway(it)
        all_of_it.wait_for_gateway(it)
    is_same = ask(all_of_it, name, "GET", "/first-bucket/hello") == content
    print(f"{name} gets {'the same bytes' if is_same else 'OTHER BYTES'}. The gateway ends, and its sessions are free:", flush=True)
    for it in gateways:
        all_of_it.end_gateway(it)
    command = [CLIENT, "--config", all_of_it.grid_folder / f"{name}.ini", "get", "first-bucket/hello"]
    is_file = subprocess.run(list(map(str, command)), stdout=subprocess.PIPE).stdout == content
    print(f"gridfs-client get first-bucket/hello gives {'them too' if is_file else 'OTHER BYTES'}.", flush=True)
    return 0 if is_same and is_file else 1


def run(asked):
    """Does what is asked for; the status."""
    asked.listen = asked.listen or (f"127.0.0.1:{free_ports(1)}" if asked.is_try else LISTEN)
    with tempfile.TemporaryDirectory(prefix="gridfs-s3-") as room:
        all_of_it = All(asked, Path(room if asked.is_try else asked.folder))
        try:
            all_of_it.start()
            keep_options(all_of_it.s3, asked, OF_S3)
            if asked.is_try:
                return show(all_of_it)
            tell(f"S3 at http://{asked.listen} for {', '.join(all_of_it.tenants)}; a page for a browser at http://{asked.listen}/-/. Now for instance:")
            print(f"rclone --config {os.path.relpath(all_of_it.s3 / next(iter(all_of_it.tenants)))}.rclone mkdir grid:first-bucket", flush=True)
            all_of_it.look_after()
        except NotStarted as fault:
            tell(fault)
            return 1
        except OSError as fault:
            tell(f"{fault.filename}: {fault.strerror}" if fault.filename else fault)
            return 1
        except KeyboardInterrupt:
            return 0
        finally:
            end()
            all_of_it.end()
