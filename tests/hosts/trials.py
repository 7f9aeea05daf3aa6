"""A grid on four hosts and a fifth, set up by the steps of docs/MACHINES.md, docs/FAULTS.md and docs/S3.md from packages, and what has to hold there."""

import json
import os
import re
import time
from concurrent.futures import ThreadPoolExecutor

from hosts import HOME, TOP, Host, check
from rules import metrics_shown

NAMES = ["one", "two", "three", "four", "five"]
PORTS = "8870", "8871"
FOLDER = "/var/grid"  # where the grid's files are at first, and come to on each host
SETTINGS = f"{HOME}/.config/gridfs/client.ini"
WISHES = "ann 100K 10 names 2 commands\ncarol 500K 30 names 2 commands\n"
BY_HAND = 1  # the node that is set up by hand
READY = 40  # seconds in which nodes and gateways are there
GREETED = 90  # seconds in which a node has greeted the others, and its carrier has written metrics since
CONTENTS = {f"name {number}": f"content {number}\n" * 2000 for number in range(2)}
# Puts and gets until the file stop is there. Tells how many were done, what failed, and what each name has.
LOAD = """
import json, os, subprocess
def done(*words, given=None):
    return subprocess.run(["gridfs-client", *words], input=given, capture_output=True, text=True)
many, faults, last = 0, [], {}
while not os.path.exists("/run/load.stop"):
    name, content = f"load/{many % 4}", f"{many}\\n" * 500
    put, many = done("put", "-", name, given=content), many + 1
    got = done("get", name)
    faults += [each.stderr for each in (put, got) if each.returncode] + ["another content"] * (got.stdout != content)
    last[name] = content
print(json.dumps([many, faults, last]))
"""
ELSEWHERE = {"gridfs_carrier_broker_up", "gridfs_tenant_fullest_page_ratio"}  # told over a broker, and by deploy/links/operate
OF_GATEWAY = """
import http.client, socket
told = http.client.HTTPConnection("localhost")
told.sock = socket.socket(socket.AF_UNIX)
told.sock.connect("/run/gridfs-s3-carol/socket")
told.request("GET", "/metrics")
print(told.getresponse().read().decode())
"""
OBJECTS = """
import boto3, botocore.config
access, secret = open("/etc/gridfs/s3/carol.keys").read().split()[:2]
s3 = boto3.client("s3", endpoint_url="http://127.0.0.1:9000", aws_access_key_id=access, aws_secret_access_key=secret, region_name="us-east-1",
                  config=botocore.config.Config(s3={"addressing_style": "path"}))
"bucket" in [each["Name"] for each in s3.list_buckets()["Buckets"]] or s3.create_bucket(Bucket="bucket")
s3.put_object(Bucket="bucket", Key="a/b", Body=b"body" * 5000)
print(s3.get_object(Bucket="bucket", Key="a/b")["Body"].read() == b"body" * 5000)
"""


def by_hand(node):
    """The commands that docs/MACHINES.md has for a node that is set up by hand."""
    with open(os.path.join(TOP, "docs", "MACHINES.md"), encoding="utf-8") as page:
        found = re.search(r"```\n(id gridfs .*?)```", page.read(), re.DOTALL)[1]
    for word in ("secret/0.", "node 0 ", "gridfs/0", "linked@0"):
        check(word in found, f"docs/MACHINES.md has no {word}")
        found = found.replace(word, word.replace("0", str(node)))
    return found


class Grid:
    """Four nodes of 2 by 2 on the first four hosts. The fifth has the authority, ann's and carol's clients, and a gateway."""

    def __init__(self, folder, packages, lower):
        self.folder, self.packages, self.later = folder, packages, {}
        self.hosts = [Host(folder, name, number, lower) for number, name in enumerate(NAMES, 1)]
        self.addresses = {host.name: host.address for host in self.hosts} | {"broker": self.hosts[-1].address}
        *self.machines, self.desk = self.hosts
        self.nodes = [0, 1, 2, 3]  # the node of each machine

    def end(self):
        for host in self.hosts:
            if host.outer and host.outer.poll() is None:
                host.power_off()

    # The steps of the pages

    def begin(self):
        for host in self.hosts:
            host.begin(self.addresses)
        for host in self.hosts:
            host.wait_until_up()
        with ThreadPoolExecutor() as pool:
            done = [pool.submit(self.install, host, "gridfs", "gridfs-client") for host in self.machines]
            done.append(pool.submit(self.install, self.desk, "gridfs", "gridfs-client", "gridfs-s3"))
        for each in done:
            each.result()

    def install(self, host, *names, packages=None):
        paths = [(packages or self.packages)[name] for name in names]
        host.takes("/var/packages", paths)
        host.does("dpkg", "-i", *(f"/var/packages/{os.path.basename(path)}" for path in paths))

    def set_up(self):
        """Plan, certificates, hosts, each node's machine, and the clients' settings."""
        desk = self.desk
        desk.write(f"{FOLDER}/wishes", WISHES)
        desk.shell(f"cd {FOLDER} && gridfs-plan wishes >plan && gridfs-links-setup . plan && : >>denied")
        self.write_hosts()
        for node, host in zip(self.nodes, self.machines):
            self.bring(host, node)
            if node == BY_HAND:
                host.shell(f"cd {FOLDER}\n{by_hand(node)}")
            else:
                host.does("gridfs-machine", "--new", str(node), FOLDER)
        desk.shell(f"mkdir -p /etc/gridfs && cd {FOLDER} && cp hosts ca.crt plan /etc/gridfs")
        desk.write(SETTINGS, f"[gridfs]\ntenant = ann\ncertificate = {FOLDER}/secret/ann.crt\nkey = {FOLDER}/secret/ann.key\n")

    def write_hosts(self):
        self.desk.write(f"{FOLDER}/hosts", "".join(f"{node} {host.name}.example:{PORTS[0]} {host.name}.example:{PORTS[1]}\n" for node, host in zip(self.nodes, self.machines)))

    def bring(self, host, node):
        self.desk.brings(host, FOLDER, ["plan", "hosts", "ca.crt", "denied", f"secret/{node}.crt", f"secret/{node}.key"])

    def unit(self, place):
        return f"gridfs-linked@{self.nodes[place]}"

    # What holds

    def waits_for_nodes(self, holds=lambda told: "all 4 nodes answer" in told, what="not all nodes answer"):
        until = time.monotonic() + READY
        while not holds((told := self.desk.run("gridfs-client", "status")).stdout):
            check(time.monotonic() < until, f"{what}: {told.stdout}{told.stderr}")
            time.sleep(0.3)

    def puts(self, contents=None):
        for name, content in (contents or CONTENTS).items():
            self.desk.does("gridfs-client", "put", "-", name, given=content)

    def gets(self, contents=None):
        for name, content in (contents or CONTENTS).items():
            check(self.desk.does("gridfs-client", "get", name) == content, f"{name} has another content")

    def restarts(self, place):
        """Restarts a node, and waits until it has read its journal."""
        host, unit = self.machines[place], self.unit(place)
        host.does("systemctl", "restart", unit)
        life = host.does("systemctl", "show", "--value", "-p", "InvocationID", unit).strip()
        host.waits_for(lambda: " facts" in host.run("journalctl", "-o", "cat", f"_SYSTEMD_INVOCATION_ID={life}").stdout, f"{unit} is not ready", READY)

    def runs(self, host, name):
        """The ids of the processes of a program on a host."""
        return host.run("pidof", name).stdout.split()


# The trials, in their order

def nothing_else(grid):
    """The hosts have the packages, whose commands tell their words, and nothing of the repository."""
    for command in ("machine", "plan", "journals", "links-setup", "mqtt-setup", "carry", "carry-links", "client", "fleet"):
        grid.desk.does(f"gridfs-{command}", "--help")
    for host in grid.hosts:
        check(host.run("test", "-e", os.path.join(TOP, "README.md")).returncode, f"{host.name} has the repository")
        found = host.run("sh", "-c", "command -v gridfs-node gridfs-client gridfs-carry-links rt cc-of-the-kit").stdout.split()
        check(found and all(path.startswith("/usr/bin/gridfs") for path in found), f"{host.name} has {found}")


def files(grid):
    """Names are put and got from the fifth host, over links that its settings don't name."""
    grid.waits_for_nodes()
    grid.puts()
    grid.gets()


def bounds(grid):
    """Each unit has the bound of memory that the plan wants."""
    wanted = int(grid.desk.does("gridfs-plan", "--memory", f"{FOLDER}/plan").strip().removesuffix("M")) << 20
    for place, host in enumerate(grid.machines):
        found = host.does("systemctl", "show", "--value", "-p", "MemoryMax", grid.unit(place)).strip()
        check(found == str(wanted), f"{host.name}: MemoryMax={found}, where the plan wants {wanted}")
    host.does("gridfs-machine", "--memory", "256M", str(grid.nodes[place]), FOLDER)
    scrubs = lambda days: check(f" --scrub {days}" in host.does("ps", "-C", "gridfs-node", "-o", "args="), f"{host.name}: its shelf is not read in {days} days")
    scrubs(14)
    host.write(f"/etc/gridfs/{grid.nodes[place]}.node", "SCRUB=7\n")
    grid.restarts(place)
    scrubs(7)
    found = host.does("systemctl", "show", "--value", "-p", "MemoryMax", grid.unit(place)).strip()
    check(found == str(256 << 20), f"{host.name}: MemoryMax={found}, where 256M is asked for")


def objects(grid):
    """docs/S3.md, Operating it: a gateway of carol's, with nginx before it; an object is put and got."""
    desk = grid.desk
    desk.shell("gridfs-s3-setup /etc/gridfs/s3 /etc/gridfs/plan && systemd-sysusers /etc/gridfs/s3/sysusers.conf && gridfs-s3-setup /etc/gridfs/s3 /etc/gridfs/plan")
    desk.write("/etc/gridfs/s3/carol.ini", "[gridfs]\ntenant = carol\ncertificate = /etc/gridfs/s3/carol.crt\nkey = /etc/gridfs/s3/carol.key\n")
    desk.shell(f"""cd /etc/gridfs/s3 && cp {FOLDER}/secret/carol.crt {FOLDER}/secret/carol.key . && chgrp gridfs-s3-carol carol.ini carol.key carol.crt
        chmod 640 carol.ini carol.key carol.crt && systemctl start gridfs-s3@carol gridfs-s3-front""")
    desk.waits_for(lambda: desk.run("test", "-S", "/run/gridfs-s3-carol/socket").returncode == 0, "the gateway is not there", READY)
    check(desk.does("/usr/bin/python3", "-", given=OBJECTS) == "True\n", "an object has another content")
    if desk.run("sh", "-c", "command -v rclone").returncode == 0:
        words = ["rclone", "--config", "/etc/gridfs/s3/carol.rclone"]
        desk.does(*words, "copy", "/usr/share/gridfs", "grid:bucket/shared")
        desk.does(*words, "check", "--download", "/usr/share/gridfs", "grid:bucket/shared")
    # Several tenants: the same object by the unit that has all gateways
    desk.shell("systemctl stop gridfs-s3@carol && rm -f /run/gridfs-s3-carol/socket && systemctl start gridfs-s3-several")
    desk.waits_for(lambda: desk.run("test", "-S", "/run/gridfs-s3-carol/socket").returncode == 0, "the gateway of several is not there", READY)
    check(desk.does("ps", "-C", "gridfs-s3", "-o", "user:20=").split() == ["root", "gridfs-s3-carol"], "several: other users")
    check(desk.does("/usr/bin/python3", "-", given=OBJECTS) == "True\n", "several: an object has another content")


def metrics(grid):
    """What the dashboard shows, and what rules name, is told by a node over links or by the gateway."""
    with open(os.path.join(TOP, "deploy", "prometheus", "rules.yml"), encoding="ascii") as file:
        named = set(re.findall(r"expr:.*?\b(gridfs_\w+)", file.read()))

    def unknown():
        files = [grid.machines[0].does("cat", "/run/gridfs/0.prom", "/run/gridfs/0-shelf.prom"), grid.desk.does("/usr/bin/python3", "-c", OF_GATEWAY)]
        return (metrics_shown() | named - ELSEWHERE) - set(re.findall(r"^# TYPE (\S+) ", "\n".join(files), re.MULTILINE))

    grid.machines[0].does("systemctl", "enable", "--now", "gridfs-shelf@0.timer")
    grid.machines[0].waits_for(lambda: grid.machines[0].run("test", "-s", "/run/gridfs/0-shelf.prom").returncode == 0, "nobody tells of its shelf", GREETED)
    until = time.monotonic() + GREETED
    while unknown() and time.monotonic() < until:
        time.sleep(1)
    check(not unknown(), f"nobody tells {sorted(unknown())}")
    for name in ("rules.yml", "dashboard.json"):
        grid.desk.does("test", "-s", f"/usr/share/gridfs/{name}")


def over_a_broker(grid):
    """docs/MACHINES.md, A broker and four machines: the fifth host has the broker. A host's power fails, and it starts its node by itself."""
    desk, begun = grid.desk, "gridfs-node node {0} --plan /etc/gridfs/plan --journal /var/lib/gridfs/{0}/journal --new </dev/null"
    desk.write(f"{FOLDER}/wishes", WISHES)
    desk.shell(f"""cd {FOLDER} && gridfs-plan wishes >plan && mkdir -p /etc/gridfs
        gridfs-mqtt-setup --bind 0.0.0.0 --connections many --test-authority --host broker.example /etc/gridfs/broker-folder plan
        systemctl enable --now gridfs-broker gridfs-front
        cp -r /etc/gridfs/broker-folder/ca.crt /etc/gridfs/broker-folder/secret . && echo BROKER=broker.example:8883 >broker""")
    for node, host in zip(grid.nodes, grid.machines):
        desk.brings(host, FOLDER, ["plan", "ca.crt", "broker", f"secret/{node}"])
        host.shell(f"""cd {FOLDER} && install -d -o gridfs -g gridfs -m 755 /etc/gridfs /etc/gridfs/secret && install -o gridfs -m 644 -t /etc/gridfs plan ca.crt broker
            install -o gridfs -m 600 -t /etc/gridfs/secret secret/{node} && install -d -o gridfs -g gridfs -m 700 /var/lib/gridfs/{node}
            runuser -u gridfs -- {begun.format(node)}
            systemctl enable --now gridfs-carried@{node}""")
    desk.write(SETTINGS, f"[gridfs]\ntenant = ann\nbroker = broker.example:8884\nca-file = {FOLDER}/ca.crt\npassword-file = {FOLDER}/secret/ann\n")
    files(grid)
    bound = desk.does("gridfs-plan", "--memory", f"{FOLDER}/plan").strip().removesuffix("M")
    found = grid.machines[0].does("systemctl", "show", "--value", "-p", "MemoryMax", "gridfs-carried@0").strip()
    check(found == str(int(bound) << 20), f"MemoryMax={found}, where the plan wants {bound}M")
    desk.does("systemctl", "reload", "gridfs-broker", "gridfs-front")
    host = grid.machines[0]
    host.power_off()
    grid.gets()
    host.start()
    host.wait_until_up()
    files(grid)


def cut_off(grid):
    """A host that is cut off holds nobody up, and is back by itself."""
    host = grid.machines[2]
    host.cut_off()
    try:
        grid.waits_for_nodes(lambda told: "node 2 is silent" in told, "node 2 is heard")
        grid.gets()
        grid.puts({"while one is cut off": "x"})
    finally:
        host.cut_off(False)
    grid.waits_for_nodes()
    grid.gets({**CONTENTS, "while one is cut off": "x"})


def stopped(grid):
    """A host whose power fails; it starts its node by itself."""
    host = grid.machines[0]
    host.power_off()
    grid.puts({"while one is off": "y"})
    host.start()
    host.wait_until_up()
    grid.waits_for_nodes()
    grid.gets({**CONTENTS, "while one is off": "y"})


def lost(grid):
    """docs/FAULTS.md, When a disk is lost: a new node on a new disk. Then a host of its column is off, and all is got from its row."""
    desk, host = grid.desk, grid.machines[3]
    host.lose_disk()
    desk.shell(f"cd {FOLDER} && echo 'replace 3' >>plan && gridfs-links-setup . plan && gridfs-links-setup --deny 3 . plan")
    grid.nodes[3] = 67
    grid.write_hosts()
    desk.shell(f"cp {FOLDER}/plan {FOLDER}/hosts /etc/gridfs")
    for place, other in enumerate(grid.machines[:3]):
        grid.bring(other, grid.nodes[place])
        other.does("gridfs-machine", str(grid.nodes[place]), FOLDER)
        grid.restarts(place)
    host.begin(grid.addresses)
    host.wait_until_up()
    grid.install(host, "gridfs", "gridfs-client")
    grid.bring(host, 67)
    host.does("gridfs-machine", "--new", "67", FOLDER)
    host.waits_for(lambda: "node 67: has all files" in host.run("journalctl", "-u", "gridfs-linked@67").stdout, "the new node has not all files")
    grid.waits_for_nodes()
    grid.machines[1].power_off()
    grid.gets()
    grid.machines[1].start()
    grid.machines[1].wait_until_up()
    grid.waits_for_nodes()


def changed(grid):
    """New packages on one host after another, under load: what runs is left alone until it is restarted, and nothing fails."""
    grid.desk.does("rm", "-f", "/run/load.stop")
    load = grid.desk.starts("/usr/bin/python3", "-c", LOAD)
    for place, host in enumerate(grid.machines):
        before = host.main_pid(grid.unit(place))
        grid.install(host, "gridfs", packages=grid.later)
        check(host.main_pid(grid.unit(place)) == before, f"{host.name}: the node was restarted")
        check("(deleted)" in host.does("sh", "-c", "readlink /proc/$(pidof gridfs-node)/exe"), f"{host.name}: the program is the one of before")
        grid.restarts(place)
        grid.waits_for_nodes()
        check(host.does("sh", "-c", "readlink /proc/$(pidof gridfs-node)/exe") == "/usr/bin/gridfs-node\n", f"{host.name}: it runs another program")
    grid.desk.does("touch", "/run/load.stop")
    told, why = load.communicate(timeout=120)
    many, faults, last = json.loads(told or "[0, [], {}]")
    check(many >= 2 and not faults, f"{many} puts and gets, of which {len(faults)} failed: {faults[:2]} {why}")
    grid.gets({**CONTENTS, **last})
    return f"{many} puts and gets meanwhile"


def removed(grid):
    """A package that is removed and purged ends the node, and leaves its journal, which goes on once it is installed again."""
    host, journal = grid.machines[0], "/var/lib/gridfs/0/journal"
    host.does("dpkg", "--remove", "gridfs")
    check(not grid.runs(host, "gridfs-node"), "the node runs on")
    before = host.does("sha256sum", journal)
    check("/var/lib/gridfs stays" in host.does("dpkg", "--purge", "gridfs"), "a purge does not tell what stays")
    check(host.does("sha256sum", journal) == before and host.run("test", "-e", "/etc/gridfs/secret/0.key").returncode == 0, "journal or keys are gone")
    grid.install(host, "gridfs")
    host.does("systemctl", "start", grid.unit(0))
    grid.waits_for_nodes()
    grid.gets()


TRIALS = [nothing_else, files, bounds, objects, metrics, cut_off, stopped, lost, changed, removed]
