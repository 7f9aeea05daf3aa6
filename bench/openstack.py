"""OpenStack Swift on this machine: a proxy with `s3api`, and three servers each of accounts, containers and objects, a replica on each."""

import os
import runpy
import shutil
import subprocess
import sys
import time
import urllib.request
from pathlib import Path

PROGRAMS = ("swift-proxy-server", "swift-account-server", "swift-container-server", "swift-object-server", "swift-ring-builder", "memcached")
KINDS, REPLICAS, PARTITIONS = ("account", "container", "object"), 3, 8  # (partitions as a power of 2)
ACCESS, SECRET = "test:tester", "testing"
READY = 300  # seconds, on a machine that does much else

PIPELINE = "catch_errors gatekeeper healthcheck proxy-logging cache listing_formats bulk s3api tempauth copy slo dlo versioned_writes symlink proxy-logging proxy-server"

PROXY = """[DEFAULT]
bind_ip = 127.0.0.1
bind_port = {port}
workers = {workers}
user = root
swift_dir = {etc}
log_level = WARNING
[pipeline:main]
pipeline = {pipeline}
[filter:cache]
use = egg:swift#memcache
memcache_servers = 127.0.0.1:{cache}
[filter:s3api]
use = egg:swift#s3api
location = us-east-1
[filter:tempauth]
use = egg:swift#tempauth
user_test_tester = testing .admin
[filter:versioned_writes]
use = egg:swift#versioned_writes
allow_object_versioning = true
[app:proxy-server]
use = egg:swift#proxy
allow_account_management = true
account_autocreate = true
"""

SERVER = """[DEFAULT]
devices = {devices}
mount_check = false
bind_ip = 127.0.0.1
bind_port = {port}
workers = 1
user = root
swift_dir = {etc}
log_level = WARNING
[pipeline:main]
pipeline = {kind}-server
[app:{kind}-server]
use = egg:swift#{kind}
[object-updater]
[container-updater]
"""

SWIFT = """[swift-hash]
swift_hash_path_prefix = gridfs
swift_hash_path_suffix = beside
[storage-policy:0]
name = only
policy_type = replication
default = yes
"""


def missing():
    """The programs that are wanted and not there."""
    return [program for program in PROGRAMS if not shutil.which(program)]


class Swift:
    """Swift in this folder, which has to be on a disk whose files have attributes. Its background processes are left out."""

    def __init__(self, folder, ports, workers=2):
        self.folder, self.etc, self.processes = Path(folder), Path(folder) / "etc", []
        self.etc.mkdir(parents=True)
        cache, port, *servers = ports
        self.url = f"http://127.0.0.1:{port}"
        (self.etc / "swift.conf").write_text(SWIFT)
        filters = "".join(f"[filter:{name}]\nuse = egg:swift#{name.replace('-', '_')}\n" for name in sorted(set(PIPELINE.split())) if f"[filter:{name}]" not in PROXY and name != "proxy-server")
        (self.etc / "proxy-server.conf").write_text(PROXY.format(port=port, workers=workers, etc=self.etc, pipeline=PIPELINE, cache=cache) + filters)
        self.log = open(self.folder / "log", "wb")
        self.begin("memcached", "-u", "root", "-l", "127.0.0.1", "-p", str(cache))
        for kind in KINDS:
            self.ring(kind, servers[:REPLICAS])
            for number in range(REPLICAS):
                devices = self.folder / str(number)
                (devices / "disk").mkdir(parents=True, exist_ok=True)
                path = self.etc / f"{kind}-{number}.conf"
                path.write_text(SERVER.format(devices=devices, port=servers.pop(0), etc=self.etc, kind=kind))
                self.swift(f"swift-{kind}-server", path)
        self.swift("swift-proxy-server", self.etc / "proxy-server.conf")
        self.wait()

    def ring(self, kind, ports):
        builder = self.etc / f"{kind}.builder"
        words = [["create", PARTITIONS, REPLICAS, 1], *(["add", f"r1z{number}-127.0.0.1:{port}/disk", 100] for number, port in enumerate(ports)), ["rebalance"]]
        for each in words:
            subprocess.run(["swift-ring-builder", builder, *map(str, each)], check=True, stdout=self.log, stderr=self.log)

    def begin(self, *words):
        self.processes.append(subprocess.Popen(list(map(str, words)), stdin=subprocess.DEVNULL, stdout=self.log, stderr=self.log, start_new_session=True))

    def swift(self, program, path):
        self.begin("/usr/bin/python3", "-W", "ignore", __file__, self.etc, shutil.which(program), path)

    def wait(self):
        until = time.monotonic() + READY
        while True:
            try:
                with urllib.request.urlopen(self.url + "/healthcheck", timeout=5) as told:
                    assert told.read() == b"OK"
                    return
            except OSError:
                if time.monotonic() > until or any(process.poll() is not None for process in self.processes):
                    self.end()
                    raise SystemExit(f"Swift did not start: {(self.folder / 'log').read_text(errors='replace')[-2000:]}") from None
                time.sleep(0.2)

    def roots(self):
        return [process.pid for process in self.processes]

    def end(self):
        for process in self.processes:
            process.terminate()
        for process in self.processes:
            try:
                process.wait(10)
            except subprocess.TimeoutExpired:
                os.killpg(process.pid, 9)
                process.wait()


if __name__ == "__main__":  # one program of Swift, by this folder in place of /etc/swift
    from swift.common import utils

    etc, program, *words = sys.argv[1:]
    utils.set_swift_dir(etc)
    sys.argv = [program, *words]
    runpy.run_path(program, run_name="__main__")
