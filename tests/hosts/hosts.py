"""Hosts of a test on one machine. Each has a root file system of its own, with this machine's below it (or another folder's), in which the repository
and what else was installed by hand are hidden. It has an address, and systemd as its first process. All of it is in namespaces of the process that
made it, and ends with that."""

import contextlib
import os
import signal
import subprocess
import sys
import tarfile
import time
from io import BytesIO

HERE = os.path.dirname(os.path.abspath(__file__))
TOP = os.path.realpath(os.path.join(HERE, "..", ".."))
sys.path.insert(0, os.path.join(HERE, "..", "nodes"))
from processes import Wrong, check

SYSTEMD = "/usr/lib/systemd/systemd"
SPACES = ["-m", "-p", "-n", "-C", "-u", "-i"]  # namespaces of a host: mounts, processes, network, control groups, name, messages
NETWORK = "10.98.7."
SWITCH = 254
BOOT = 60  # seconds
# What of the root file system below is not seen: the kit, programs that were built here, homes.
HIDDEN = ["/usr/local", "/opt", "/home", "/srv", "/mnt", "/media", os.path.dirname(TOP) if os.path.dirname(TOP) != "/" else TOP]
HOME = "/var/home"  # of root on a host
ENVIRONMENT = ["env", "-i", "PATH=/usr/sbin:/usr/bin:/sbin:/bin", f"HOME={HOME}", "LANG=C.UTF-8", "container=other"]
DEVICES = "null zero full random urandom tty"
# Makes this process the first one of a host, whose root file system is ROOT.
BEGIN = f"""
root=$1 name=$2
shift 2
for folder; do [ ! -d "$root$folder" ] || mount -t tmpfs none "$root$folder"; done
for folder in run tmp dev; do mount -t tmpfs -o mode=755 none "$root/$folder"; done
chmod 1777 "$root/tmp"
mount -t sysfs -o ro none "$root/sys"
mount -t cgroup2 none "$root/sys/fs/cgroup"
for device in {DEVICES}; do : >"$root/dev/$device"; mount --bind "/dev/$device" "$root/dev/$device"; done
mkdir "$root/dev/pts" "$root/dev/shm" "$root/.old"
mount -t devpts -o newinstance,ptmxmode=0666 none "$root/dev/pts"
ln -s pts/ptmx "$root/dev/ptmx"
ln -s /proc/self/fd "$root/dev/fd"
hostname "$name"
cd "$root"
pivot_root . .old
mount -t proc none /proc
umount -l /.old
rmdir /.old
exec {' '.join(ENVIRONMENT)} {SYSTEMD} --system --unit=multi-user.target </dev/null >/dev/null 2>&1
"""


def run(*words, **more):
    return subprocess.run(words, check=True, capture_output=True, text=True, **more).stdout


def why_not():
    """Why there can be no hosts here; empty where there can be."""
    if os.getuid():
        return "only root can"
    if not os.path.exists(SYSTEMD):
        return "there is no systemd"
    # (tried: whether namespaces, an overlay of the root and a network of its own are allowed)
    tried = 'mount -t tmpfs none "$0" && mkdir "$0/u" "$0/w" "$0/m" && mount -t overlay -o lowerdir=/,upperdir="$0/u",workdir="$0/w" none "$0/m" && ip link add gridfs type bridge && mount -t cgroup2 none "$0/u"'
    done = subprocess.run(["unshare", *SPACES, "-f", "sh", "-ec", tried, "/mnt"], capture_output=True, text=True)
    return f"namespaces are wanted: {done.stderr.strip()}" if done.returncode else ""


def begin_network():
    """A switch for the hosts, in the network of this process."""
    run("ip", "link", "set", "lo", "up")
    run("ip", "link", "add", "switch", "type", "bridge")
    run("ip", "addr", "add", f"{NETWORK}{SWITCH}/24", "dev", "switch")
    run("ip", "link", "set", "switch", "up")


class Host:
    """A host. Its files are in FOLDER/NAME, and stay while it is stopped."""

    def __init__(self, folder, name, number, lower="/"):
        self.folder, self.name, self.address, self.lower = os.path.join(folder, name), name, f"{NETWORK}{number}", lower
        self.cable, self.hardware, self.outer, self.pid = f"to-{name}", f"02:00:00:00:00:{number:02x}", None, 0

    def begin(self, names):
        """Starts it with an empty disk; names are of all hosts, with their addresses."""
        for part in ("upper", "work", "root"):
            os.makedirs(os.path.join(self.folder, part))
        places = ",".join(f"{key}dir={value}" for key, value in (("lower", self.lower), ("upper", f"{self.folder}/upper"), ("work", f"{self.folder}/work")))
        run("mount", "-t", "overlay", "-o", places, "none", f"{self.folder}/root")
        self.write("/etc/hosts", "127.0.0.1 localhost\n" + "".join(f"{address} {name}.example {name}\n" for name, address in names.items()), is_up=False)
        self.write("/etc/hostname", f"{self.name}\n", is_up=False)
        # (services of the machine below are none of the host's; it needs no index of manual pages, and the barest Debian has no program kill)
        run("sh", "-c", 'rm -rf "$0"/etc/systemd/system/*.wants "$0"/etc/machine-id "$0"/var/lib/man-db/auto-update "$0"/usr/bin/kill && systemd-id128 new >"$0/etc/machine-id"', f"{self.folder}/root")
        self.start()

    def start(self):
        hidden = [] if self.lower != "/" else HIDDEN
        words = ["setpriv", "--pdeathsig", "KILL", "unshare", *SPACES, "-f", "--kill-child", "--propagation", "private", "sh", "-ec", BEGIN, "sh", f"{self.folder}/root", self.name, *hidden]
        self.outer = subprocess.Popen(words, stdin=subprocess.DEVNULL, stdout=subprocess.DEVNULL, stderr=subprocess.PIPE, text=True)
        self.pid = self.waits_for(self.child, "it has no first process")
        # (with the same hardware's address each time, which others remember for a minute)
        run("ip", "link", "add", self.cable, "type", "veth", "peer", "name", "eth0", "address", self.hardware, "netns", str(self.pid))
        run("ip", "link", "set", self.cable, "master", "switch", "up")
        for words in (["addr", "add", f"{self.address}/24", "dev", "eth0"], ["link", "set", "eth0", "up"], ["link", "set", "lo", "up"]):
            run("nsenter", "-t", str(self.pid), "-n", "ip", *words)

    def wait_until_up(self):
        self.waits_for(lambda: self.run("systemctl", "is-system-running").stdout.strip() in ("running", "degraded"), "systemd is not up")

    def child(self):
        with open(f"/proc/{self.outer.pid}/task/{self.outer.pid}/children", encoding="ascii") as file:
            return int((file.read().split() or ["0"])[0])

    def waits_for(self, holds, what, seconds=BOOT):
        until = time.monotonic() + seconds
        while not (found := holds()):
            check(self.outer.poll() is None, f"{self.name}: it has ended")
            check(time.monotonic() < until, f"{self.name}: {what}")
            time.sleep(0.1)
        return found

    def words(self, *words):
        return ["nsenter", "-t", str(self.pid), *SPACES, "--", *ENVIRONMENT, *words]

    def run(self, *words, given=None, seconds=120):
        """A command on the host, however it ends."""
        return subprocess.run(self.words(*words), input=given, capture_output=True, text=not isinstance(given, bytes), timeout=seconds)

    def starts(self, *words):
        """A command on the host that goes on meanwhile."""
        return subprocess.Popen(self.words(*words), stdin=subprocess.DEVNULL, stdout=subprocess.PIPE, stderr=subprocess.PIPE, text=True)

    def does(self, *words, given=None, seconds=120):
        """What a command tells that has to succeed."""
        done = self.run(*words, given=given, seconds=seconds)
        check(done.returncode == 0, f"{self.name}: {' '.join(words)[-300:]}: status {done.returncode}: {done.stderr or done.stdout}")
        return done.stdout

    def shell(self, script):
        return self.does("sh", "-ec", script)

    def write(self, path, text, is_up=True):
        if is_up:
            self.does("sh", "-ec", 'mkdir -p "$(dirname "$1")" && cat >"$1"', "sh", path, given=text)
            return
        with open(f"{self.folder}/root{path}", "w", encoding="utf-8") as out:
            out.write(text)

    def brings(self, other, folder, names):
        """Copies these files of a folder to the same folder of another host, as tar and ssh do."""
        packed = subprocess.run(self.words("tar", "-C", folder, "-c", *names), check=True, capture_output=True).stdout
        other.does("mkdir", "-p", folder)
        other.does("tar", "-C", folder, "-x", given=packed)

    def takes(self, folder, paths):
        """Files of this machine in a folder of the host."""
        packed = BytesIO()
        with tarfile.open(fileobj=packed, mode="w") as out:
            for path in paths:
                out.add(path, os.path.basename(path))
        self.does("mkdir", "-p", folder)
        self.does("tar", "-C", folder, "--no-same-owner", "-x", given=packed.getvalue())

    def cut_off(self, is_off=True):
        run("ip", "link", "set", self.cable, "down" if is_off else "up")

    def power_off(self):
        """Ends all of its processes at once."""
        with contextlib.suppress(ProcessLookupError):
            os.kill(self.pid, signal.SIGKILL)
        self.outer.wait()
        self.outer.stderr.close()
        subprocess.run(["ip", "link", "del", self.cable], stderr=subprocess.DEVNULL)

    def lose_disk(self):
        """Ends it, and with it all that was ever written there."""
        self.power_off()
        run("umount", f"{self.folder}/root")
        run("rm", "-rf", self.folder)

    def main_pid(self, unit):
        return self.does("systemctl", "show", "--value", "-p", "MainPID", unit).strip()


__all__ = ["Host", "Wrong", "begin_network", "check", "run", "why_not"]
