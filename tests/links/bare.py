"""A machine that has nothing of a grid, set up by deploy/links/machine: folders of its own in place of /etc, /var/lib, /usr/local and /run, in a
mount namespace. Two nodes on it are started by the words of their unit, as the user gridfs."""

import os
import pwd
import shutil
import stat
import subprocess
import sys

import machine_of_units
from carrying import DEPLOY, HERE, check, set_up
from gridfs_grid.links import free_ports
from gridfs_grid.places import CLIENT

PLAN = "grid 1 2\nblocks 4096\ntenant ann 2000 4 1000\ngo\n" + "ann open 16 16\n" * 4 + "ann open 64 4\n"
MADE = {
    "/etc/gridfs": 0o755,
    "/etc/gridfs/plan": 0o644,
    "/etc/gridfs/hosts": 0o644,
    "/etc/gridfs/secret/0.crt": 0o644,
    "/etc/gridfs/secret/0.key": 0o600,
    "/var/lib/gridfs/0": 0o700,
    "/var/lib/gridfs/0/journal": 0o600,
}


class Machine(machine_of_units.Machine):
    """This machine, with the paths as they are."""

    UNIT, places = os.path.join(DEPLOY, "gridfs-linked@.service"), {}

    def __init__(self, folder):
        self.folder, self.processes = folder, {}


def asked(*words):
    done = subprocess.run([os.path.join(DEPLOY, "machine"), *words], stdin=subprocess.DEVNULL, capture_output=True, text=True)
    return done.returncode, done.stderr


def refuses(words, status, says):
    seen = asked(*words)
    check(seen[0] == status and says in seen[1], f"{words}: {seen}")


def client(*words, given=None):
    """A command of ann's; once it is done well, what it told."""
    done = subprocess.run([CLIENT, "--config", "ann.ini", *words], input=given, capture_output=True, timeout=120)
    check(done.returncode == 0, f"{words}: {done.stderr}")
    return done.stdout


def walk(folder, program, carry):
    """(In the namespace.) What it is set up by, refuses, and keeps."""
    links = os.path.join(folder, "links")
    shutil.copy(os.path.join(folder, "plan"), links)
    refuses(["0", "none"], 1, "none/plan: there is none")
    refuses(["--new", "0", links], 1, "/usr/local/bin/gridfs-node: there is none")
    check(not os.path.exists("/etc/gridfs"), "something was made")
    for path, name in ((program, "gridfs-node"), (carry, "gridfs-carry-links")):
        os.makedirs("/usr/local/bin", exist_ok=True)
        shutil.copy(path, f"/usr/local/bin/{name}")
        os.chmod(f"/usr/local/bin/{name}", 0o755)
    refuses(["0"], 2, "a node's number and a folder")
    refuses(["x", links], 2, "no number of a node")
    refuses(["--memory", "much", "0", links], 2, "--memory: much")
    refuses(["0", links], 1, "journal: there is none. At the node's first start say --new")
    check(not os.path.exists("/var/lib/gridfs"), "a journal that is lost is begun")
    for node in ("0", "1"):
        check(asked("--new", "--memory", "256M", node, links)[0] == 0, f"node {node}: {asked('--new', node, links)}")
    seen = {path: stat.S_IMODE(os.stat(path).st_mode) for path in MADE}
    check(seen == MADE, f"{seen}")
    owner = pwd.getpwnam("gridfs").pw_uid
    check(all(os.stat(path).st_uid == owner for path in MADE), "not all are of the user gridfs")
    with open("/etc/systemd/system/gridfs-linked@0.service.d/memory.conf", encoding="ascii") as file:
        check(file.read() == "[Service]\nEnvironment=MEMORY=256M\n", "its memory")
    machine = Machine(folder)
    os.makedirs("/run/gridfs")
    os.chown("/run/gridfs", owner, -1)
    try:
        for node in ("0", "1"):
            machine.run_unit(node, ["runuser", "-u", "gridfs", "--", *machine.words_of(node)])
        client("put", "-", "name", given=b"hello")
        with open("/var/lib/gridfs/0/journal", "rb") as file:
            before = file.read()
        refuses(["--new", "0", links], 1, "journal: there is one")
        check(asked("0", links)[0] == 0, "once more")
        with open("/var/lib/gridfs/0/journal", "rb") as file:
            check(file.read().startswith(before), "the journal is another one")
        check(client("get", "name") == b"hello", "the content is another one")
    finally:
        machine.end()


def in_namespace(words):
    """A program in the current folder, where folders there stand in place of /etc, /var/lib, /usr/local and /run."""
    mounts = ["cp -a /etc etc", "mkdir lib local", "mount --bind etc /etc", "mount --bind lib /var/lib", "mount --bind local /usr/local", "mount -t tmpfs none /run"]
    return ["unshare", "--mount", "--pid", "--fork", "--kill-child", "--mount-proc", "sh", "-ec", "; ".join([*mounts, '"$@"; exit $?']), "sh", *words]


def wrong_in_namespace(words):
    """What is wrong with a program there."""
    folders = [os.path.join(HERE, *names) for names in ((), ("..",), ("..", "nodes"), ("..", "..", "clients", "python"))]
    done = subprocess.run(in_namespace(words), env={**os.environ, "PYTHONPATH": os.pathsep.join(folders)}, capture_output=True, text=True)
    return [done.stderr.strip()[-600:]] if done.returncode else []


def told(program, carry):
    if os.getuid():
        return "not tried: only root can", []
    folder = os.getcwd()
    links = set_up(folder, PLAN, "--local", str(free_ports(4)))
    with open("ann.ini", "w", encoding="ascii") as out:
        at = lambda what: os.path.join(links, what)
        settings = {"tenant": "ann", "hosts": at("hosts"), "ca-file": at("ca.crt"), "certificate": at("secret/ann.crt"), "key": at("secret/ann.key"), "locks": "locks"}
        out.write("[gridfs]\n" + "".join(f"{key} = {value}\n" for key, value in settings.items()))
    return "a node's machine, and one more", wrong_in_namespace([sys.executable, "-B", os.path.abspath(__file__), folder, program, carry])


if __name__ == "__main__":
    del os.environ["PYTHONPATH"]  # (the client has its own)
    walk(*sys.argv[1:])
