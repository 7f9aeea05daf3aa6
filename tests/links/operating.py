"""What deploy/links/operate does, on a machine of folders of its own, as bare.py has it: four nodes there are set up, restarted one after another with a
later plan, and looked at; systemctl is a script that starts their units' words."""

import glob
import json
import os
import re
import shlex
import shutil
import stat
import subprocess
import sys
import time

from bare import Machine, wrong_in_namespace
from carrying import DEPLOY, HERE, check
from gridfs_grid.links import free_ports
from gridfs_grid.places import CLIENT

TOP = os.path.join(HERE, "..", "..")
JOURNALS = os.path.join(os.path.dirname(CLIENT), "gridfs-journals")
NODES = ("0", "1", "2", "3")
OPENED = "ann open 16 16\n" * 4 + "ann open 64 4\nann chunks 20000\n"
PLAN = f"grid 2 2\nblocks 4096\ntenant ann 2000 4 1000\ngo\n{OPENED}"
LATER = PLAN.replace("go\n", "tenant bob 1000 4 1000\ngo\n") + "bob open 8 16\n" * 2 + "bob open 16 4\n"
WRONG = PLAN.replace("ann 2000 4", "ann 2000 5")
# It starts, ends and reloads what is in /run/words, and notes what it was asked.
SYSTEMCTL = """#!/bin/sh
echo "$@" >>/run/asked
node=${2#gridfs-linked@}
is_there() { [ -f /run/pid.$node ] && kill -0 "$(cat /run/pid.$node)" 2>/dev/null; }
case $1 in
daemon-reload) exit ;;
enable) [ "$2" != --now ] && exit; node=${3#gridfs-linked@} ;;
disable)
    node=${3#gridfs-linked@}
    kill "$(cat /run/pid.$node)"
    while is_there; do sleep 0.05; done
    exit
    ;;
stop)
    kill "$(cat /run/pid.$node)"
    while is_there; do sleep 0.05; done
    exit
    ;;
start) is_there && exit ;;
reload | reload-or-restart) is_there && exec kill -HUP "$(cat /run/pid.$node)" ;;
esac
if is_there; then
    kill "$(cat /run/pid.$node)"
    while is_there; do sleep 0.05; done
fi
setsid sh /run/words.$node </dev/null >>/run/log.$node 2>&1 &
echo $! >/run/pid.$node
"""
# The machine 127.0.0.2 has folders of its own.
RUN = """#!/bin/sh
case $2 in *"$(cat /run/fails)"*) exit 9 ;; esac
bound="mount --bind /run/other/lib /var/lib/gridfs && mount --bind /run/other/etc /etc/gridfs"
[ "$1" != 127.0.0.2 ] || exec unshare -m sh -c "$bound && $2"
exec sh -c "$(printf %s "$2" | sed 's|tar -C / |tar -C /run/root |')"
"""
MOVED, NEVER = "2", "no such command"


def asked(*words):
    done = subprocess.run([os.path.join(DEPLOY, "operate"), *words], stdin=subprocess.DEVNULL, capture_output=True, text=True, timeout=200)
    return done.returncode, done.stdout, done.stderr


def does(*words):
    status, told, why = asked(*words)
    check(status == 0, f"{words}: {status} {told} {why}")
    return told


def refuses(status, says, *words):
    seen = asked(*words)
    check(seen[0] == status and says in seen[2], f"{words}: {seen}")


def client(name, *words, given=None):
    done = subprocess.run([CLIENT, "--config", f"desk/tenants/{name}/{name}.ini", *words], input=given, capture_output=True, timeout=120)
    check(done.returncode == 0, f"{name}, {words}: {done.stderr}")
    return done.stdout


def write(path, text, mode=0o644):
    with open(path, "w", encoding="ascii") as out:
        out.write(text)
    os.chmod(path, mode)


def asked_of_systemd(word):
    """The nodes for which systemctl was asked that, in their order; all is forgotten then."""
    with open("/run/asked", encoding="ascii") as file:
        found = [line.split()[1].removeprefix("gridfs-linked@") for line in file if line.startswith(word)]
    write("/run/asked", "")
    return found


def words_for(node):
    words = Machine("").words_of(node)
    write(f"/run/words.{node}", f"exec setpriv --reuid gridfs --regid gridfs --clear-groups {shlex.join(words)}\n")


def bundles_are_whole():
    write("plan", PLAN)
    refuses(1, "hosts: No such file", "bundles", "desk", "plan")
    port = free_ports(8)
    hosts = "".join(f"{node} 127.0.0.1:{port + 2 * int(node)} 127.0.0.1:{port + 2 * int(node) + 1}\n" for node in NODES)
    write("desk/hosts", hosts.partition("\n3 ")[0] + "\n")
    refuses(1, "it has no line of node 3", "bundles", "desk", "plan")
    check(os.listdir("desk") == ["hosts"], f"{os.listdir('desk')}")
    write("desk/hosts", hosts)
    for text, told in ("[operate]\n[later]\n", "[later] is not known"), ("[operate]\nran = x\n", "there is no ran"), ("[operate]\nx\n", "line 2: 'x' is no"):
        write("desk/operate.ini", text)
        refuses(1, f"desk/operate.ini: {told}", "bundles", "desk", "plan")
    run, customer = os.path.abspath("run"), os.path.abspath("desk/tenants")
    settings = f"run = {run} {{host}} {{command}}\nthere = /run/bundle\ncustomer = {customer}\n"
    write("desk/operate.ini", f"[operate]\n{settings}")
    does("bundles", "--days", "30", "desk", "plan")
    refuses(2, "unrecognized arguments: --dayz", "bundles", "desk", "plan", "--dayz")
    for node in NODES:
        files = sorted(os.path.relpath(os.path.join(inside, name), f"desk/nodes/{node}") for inside, _, names in os.walk(f"desk/nodes/{node}") for name in names)
        check(files == ["ca.crt", "denied", "hosts", "plan", f"secret/{node}.crt", f"secret/{node}.key"], f"node {node}: {files}")
    check(sorted(os.listdir("desk/tenants/ann")) == ["ann.crt", "ann.ini", "ann.key", "ca.crt", "hosts"], "ann's files")
    check(stat.S_IMODE(os.stat("desk/tenants/ann/ann.key").st_mode) == 0o600, "her key may be read")


def nodes_begin():
    os.makedirs("tree/usr/share/hello")
    write("tree/usr/share/hello/file", "hello", 0o755)
    os.chmod("tree", 0o700)
    os.makedirs("/run/root/usr")
    before = os.stat("/run/root").st_ctime_ns
    does("bring", "--new", "--programs", "tree", "desk")
    check(os.stat("/run/root").st_ctime_ns == before, "/ had another mode, if only for a moment")
    modes = [stat.S_IMODE(os.stat(f"/run/root/usr/share/{name}").st_mode) for name in (".", "hello", "hello/file")]
    check(modes == [0o755] * 3, f"the modes of programs are {modes}")
    check(not os.path.exists("/run/bundle"), "the bundle stays")
    check(asked_of_systemd("enable") == list(NODES), "not all are enabled")
    bounds = [node for node in NODES if os.path.exists(f"/etc/systemd/system/gridfs-linked@{node}.service.d/memory.conf")]
    check(not bounds, f"units of nodes {bounds} have a bound of memory that is not the plan's")
    client("ann", "put", "-", "name", given=b"hello" * 10)
    refuses(1, "journal: there is one", "bring", "--new", "desk", "0")


def plans_go_on():
    before = {name: os.stat(f"desk/{name}").st_mtime_ns for name in ("plan", "nodes", "tenants")}
    write("wrong", WRONG)
    refuses(1, "wrong: does not go on from desk/plan: line 3: the tenant had 4 sessions, and may not have more or fewer; nothing was touched", "bundles", "desk", "wrong")
    check({name: os.stat(f"desk/{name}").st_mtime_ns for name in before} == before, "a plan that does not go on changed something")
    write("later", LATER)
    does("bundles", "desk", "later", "--days", "30")
    told = does("bring", "--restart", "desk")
    check(asked_of_systemd("restart") == list(NODES), "not all were restarted, or in another order")
    steps = [f"operate: node {node}{what}" for node in NODES for what in (": files", ": restarts", " answers")]
    lines = told.splitlines()
    check(len(lines) == len(steps) and all(map(str.startswith, lines, steps)), told)
    client("bob", "put", "-", "his", given=b"bob")
    check(client("ann", "get", "name") == b"hello" * 10, "the content is another one")


def a_node_that_does_not_come():
    write("/run/words.1", "exec sleep 1000\n")
    refuses(1, "node 1 does not answer after 1 s", "bring", "--restart", "--wait", "1", "desk")
    check(asked_of_systemd("restart") == ["0", "1"], "nodes after one that does not come were touched")
    refuses(1, "node 1 does not answer, so node 0 is not touched", "bring", "--restart", "--wait", "5", "desk")
    check(asked_of_systemd("re") == [], "node 0 was touched")
    words_for("1")
    does("bring", "--restart", "desk", "1")
    with open("/run/pid.2", encoding="ascii") as file:
        before = file.read()
    does("bring", "desk", "2")
    with open("/run/pid.2", encoding="ascii") as file:
        check(file.read() == before, "a node was restarted")
    for node in NODES:
        with open(f"/run/log.{node}", encoding="utf-8", errors="replace") as file:
            check("has other ports" not in file.read(), f"node {node} tells of other ports behind a reload, and has the same")
    refuses(1, "the plan has no node 7", "bring", "desk", "7")


def ann_by(folder, *words, **how):
    """A command of ann's by files that she was given earlier."""
    with open("desk/tenants/ann/ann.ini", encoding="ascii") as file:
        write("earlier.ini", file.read().replace(os.path.abspath("desk/tenants/ann"), os.path.abspath(folder)))
    return subprocess.run([CLIENT, "--config", "earlier.ini", "--timeout", "5", *words], capture_output=True, timeout=120, **how)


def authorities_change():
    """By the steps of docs/MACHINES.md: nodes and customers answer at each of them, and at the end the old authority is believed by nobody."""
    shutil.copytree("desk/tenants/ann", "first")
    os.makedirs("away")
    for name in ("ca.crt", "ca.key"):
        os.rename(f"desk/{name}", f"away/{name}")
    does("bundles", "desk", "later", "--days", "30")
    with open("desk/trusted.crt", "wb") as out:
        for path in ("desk/ca.crt", "away/ca.crt"):
            with open(path, "rb") as file:
                out.write(file.read())
    does("bring", "--authorities", "desk")
    check(ann_by("first", "get", "name").stdout == b"hello" * 10, "the old authority is not believed any more")
    does("bundles", "desk", "later", "--days", "30")
    shutil.copytree("desk/tenants/ann", "second")
    does("bring", "desk")
    check(ann_by("second", "get", "name").stdout == b"hello" * 10, "the new certificate is not taken")
    os.unlink("desk/trusted.crt")
    does("bundles", "desk", "later", "--days", "30")
    does("bring", "desk")
    check(client("ann", "get", "name") == b"hello" * 10, "the content is another one")
    check(ann_by("first", "get", "name").returncode in (4, 6), "the old authority is believed")


def journals_tell():
    told, wanted = json.loads(does("room", "--json", "desk")), json.loads(client("ann", "status", "--json"))
    found = told["tenants"]["ann"]
    alike = [(each["names"], each["in_slots"], each["bytes"]["used"]) for each in (found, wanted)]
    check(told["has_whole_row"] and alike[0] == alike[1], f"{found}, not {wanted}")
    does("room", "--metrics", "metrics", "desk")
    with open("metrics", encoding="ascii") as file:
        check('gridfs_tenant_names{node="0,1",tenant="bob"} 1\n' in file.read(), "the metrics")
    nodes_are_copied()


def nodes_are_copied():
    """While they run, with what lies beside their journals; what `operate copy` tells to type gets all of it."""
    contents = {"name": b"hello" * 10, "long": os.urandom(3_000_000), "journal": os.urandom(9_000)}
    for name in ("long", "journal"):
        client("ann", "put", "-", name, given=contents[name])
    told = does("copy", "desk", "kept")
    check(all(f"node {node}: " in told for node in NODES), told)
    again = does("copy", "desk", "kept")
    came = sum(int(count) for count in re.findall(r": ([0-9]+) bytes came", again))
    check(came < 1_000_000, f"all came again: {again}")
    typed = re.search("gridfs-journals (get .*) reads names", again)[1]
    words = shlex.split(typed.replace("TENANT", "ann").replace("FOLDER", "out"))
    expect_all(contents, [*words[:3], *sorted(glob.glob(words[3]))])
    for row in (("0", "1"), ("2", "3")):
        expect_all(contents, ["get", "ann", "out", *(f"kept/{node}/journal" for node in row)])
    os.rename("/var/lib/gridfs/0/journal", "/var/lib/gridfs/0/away")
    status, told, why = asked("copy", "desk", "kept")
    check(status == 0 and "node 0 is left out" in why, why)
    os.rename("/var/lib/gridfs/3/journal", "/var/lib/gridfs/3/away")
    refuses(1, "no row of nodes is copied whole", "copy", "desk", "kept")
    for node in (0, 3):
        os.rename(f"/var/lib/gridfs/{node}/away", f"/var/lib/gridfs/{node}/journal")


def expect_all(contents, words):
    shutil.rmtree("out", ignore_errors=True)
    done = subprocess.run([JOURNALS, *words], capture_output=True, text=True)
    check(done.returncode == 0, f"{words}: {done.stdout} {done.stderr}")
    for name, content in contents.items():
        with open(f"out/{name}", "rb") as file:
            check(file.read() == content, f"{name}: another content was copied")


def a_state_is_kept():
    """All nodes are given up together, and a grid starts from copies of one moment."""
    kept = os.urandom(300_000)
    client("ann", "put", "-", "kept", given=kept)
    told = does("copy", "desk", "state")
    check("4 nodes were held for 0." in told, told)
    client("ann", "put", "-", "later", given=b"later")
    for node in NODES:
        subprocess.run(["systemctl", "stop", f"gridfs-linked@{node}"], check=True)
    for node in NODES:
        place = f"/var/lib/gridfs/{node}"
        shutil.rmtree(place)
        shutil.copytree(f"state/{node}", place)
        subprocess.run(["chown", "-R", "gridfs:gridfs", place], check=True)
    for node in NODES:
        subprocess.run(["systemctl", "start", f"gridfs-linked@{node}"], check=True)
    does("bring", "desk", "0", "--without", "1", "--without", "2", "--without", "3")
    names = client("ann", "ls")
    check(client("ann", "get", "kept") == kept and b"later" not in names, f"another state: {names}")


def a_node_moves():
    """It goes on elsewhere with what was put before and meanwhile; the old machine can't be it any more."""
    os.makedirs("/run/other/lib")
    os.makedirs("/run/other/etc")
    for path in ("/run/other/lib", "/run/other/etc"):
        os.chmod(path, 0o755)
    contents = {f"before {number}": os.urandom(300_000) for number in range(3)}
    for name, content in contents.items():
        client("ann", "put", "-", name, given=content)
    refuses(1, "the plan has no node 9", "move", "desk", "9", "127.0.0.2")
    old = f"/var/lib/gridfs/{MOVED}"
    told = does("move", "desk", MOVED, "127.0.0.2")
    first, last = (int(count) for count in re.findall("([0-9]+) bytes came", told))
    check(last < first, f"all came again: {told}")
    is_away = not os.path.exists(old) and os.path.exists(f"{old}.moved/journal")
    check(is_away, "the original stays where it can be started")
    with open("desk/hosts", encoding="ascii") as file:
        check(f"\n{MOVED} 127.0.0.2:" in file.read(), "hosts")
    with open("/etc/gridfs/denied", encoding="ascii") as here, open("desk/denied", encoding="ascii") as made:
        check(here.read() == made.read() != "", "the old certificate is not denied")
    contents["behind"] = os.urandom(300_000)
    client("ann", "put", "-", "behind", given=contents["behind"])
    check(all(client("ann", "get", name) == content for name, content in contents.items()), "another content")
    check(os.path.exists(f"/run/other/lib/{MOVED}/journal.lock"), "it was not started at the new machine")
    wait_until_whole()


def a_move_that_fails(node="3"):
    """Ahead of the journal's arrival it goes on where it was; later it is told how the move goes on."""
    content = os.urandom(300_000)
    client("ann", "put", "-", "amid", given=content)
    write("/run/fails", "/coming/journal*")
    refuses(1, f"node {node} goes on at 127.0.0.1. Move it again", "move", "desk", node, "127.0.0.2")
    wait_until_whole()
    with open("desk/hosts", encoding="ascii") as file:
        check(f"\n{node} 127.0.0.1:" in file.read(), "hosts has a host to which it did not move")
    write("/run/fails", "gridfs-machine")
    arrived = ["move", "--arrived", "desk", node, "127.0.0.2"]
    refuses(1, f"Go on by `operate {shlex.join(arrived)}`", *arrived[:1], *arrived[2:])
    write("/run/fails", NEVER)
    does(*arrived)
    wait_until_whole()
    check(client("ann", "get", "amid") == content, "another content")


def a_disk_arrives(node="1"):
    """Its machine is dead, and its disk is at another one."""
    subprocess.run(["systemctl", "stop", f"gridfs-linked@{node}"], check=True)
    refuses(1, "ended with status", "move", "--arrived", "desk", node, "127.0.0.2")
    subprocess.run(["cp", "-a", f"/var/lib/gridfs/{node}", "/run/other/lib"], check=True)
    does("move", "--arrived", "desk", node, "127.0.0.2")
    wait_until_whole()
    check(client("ann", "get", "amid"), "no content")


def wait_until_whole():
    until = time.monotonic() + 100
    while (told := json.loads(client("ann", "status", "--json")))["columns_up"] != [0, 1]:
        check(time.monotonic() < until, f"some node does not go on: {told}")


STEPS = [
    bundles_are_whole, nodes_begin, plans_go_on, a_node_that_does_not_come, authorities_change, journals_tell,
    a_state_is_kept, a_node_moves, a_move_that_fails, a_disk_arrives,
]  # fmt: skip


def walk(folder, program, carry):
    """(In the namespace.)"""
    for path in ("/run/systemd/system", "/run/root", "/usr/local/bin", "desk", "/run/gridfs"):
        os.makedirs(path)
    os.chmod("/run/root", 0o755)
    for path, name in ((program, "gridfs-node"), (carry, "gridfs-carry-links"), (os.path.join(DEPLOY, "machine"), "gridfs-machine")):
        shutil.copy(path, f"/usr/local/bin/{name}")
        os.chmod(f"/usr/local/bin/{name}", 0o755)
    write("/usr/local/bin/gridfs-journals", f'#!/bin/sh\nexec {JOURNALS} "$@"\n', 0o755)
    write("/usr/local/bin/systemctl", SYSTEMCTL, 0o755)
    write("run", RUN, 0o755)
    write("/run/fails", NEVER)
    os.environ["PATH"] = f"/usr/local/bin:{os.environ['PATH']}"
    os.chmod("/run/gridfs", 0o777)
    for node in NODES:
        words_for(node)
    try:
        for step in STEPS:
            step()
    finally:
        for node in NODES:
            if os.path.exists(f"/run/pid.{node}"):
                with open(f"/run/pid.{node}", encoding="ascii") as file:
                    subprocess.run(["kill", file.read().strip()], stderr=subprocess.DEVNULL)


def told(program, carry):
    if os.getuid():
        return "not tried: only root can", []
    inside = [sys.executable, "-B", os.path.abspath(__file__), os.getcwd(), program, carry]
    return "four nodes of one machine", wrong_in_namespace(inside)


if __name__ == "__main__":
    del os.environ["PYTHONPATH"]  # (the client has its own)
    walk(*sys.argv[1:])
