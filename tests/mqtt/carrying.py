"""What a carrier owes, point by point, between a command of some lines of Python and a broker that says anything (for TLS mosquitto).

Each check is a function of a Checked, in a folder of its own, which is the current one.
"""

import os
import random
import re
import signal
import socket
import subprocess
import threading
import time

import metrics
from gridfs_grid.mqtt import free_ports
from peers import COPY, DEPLOY, HERE, Broker, Carry, end_all, got, got_size, node, wait_for

LONGEST = 4_095
LONG = b"x" * (LONGEST - len("0 ann "))
NO_TICKS = ("--tick", "60")
CHECKS = []
# A node that writes the file `out` in pieces of all sizes, and one that writes lines of all lengths to three others.
IN_PIECES = """time.sleep(0.7)
text, at = open('out', 'rb').read(), 0
while at < len(text):
    size = at * 7919 % 9000 + 1
    put(text[at:at + size])
    at += size
    time.sleep(0.0005)
"""
NUMBERED = """put(b' ?\\n')
time.sleep(0.5)
for turn in range(300):
    put(b''.join(b'%d 0 out %05d %s\\n' % (1 + k % 3, turn * 30 + k, b'x' * (k * 50)) for k in range(30)))
    time.sleep(0.005)
"""


def check(function):
    CHECKS.append(function)
    return function


class Checked:
    """What was looked at and what was wrong; and the carriers that were started, which end with it. `plain` is the program as it is
    used, `program` the one with sanitizers, which takes more memory and time."""

    def __init__(self, program, plain):
        self.program, self.plain = program, plain
        self.tried, self.wrong, self.processes, self.brokers = 0, [], [], []

    def held(self, is_so, what):
        self.tried += 1
        if not is_so:
            self.wrong.append(what)

    def broker(self, *words, **more):
        self.brokers.append(Broker(*words, **more))
        return self.brokers[-1]

    def carry(self, port, command, *words, program=None, **more):
        carry = Carry(program or self.program, port, command, *words, **more)
        self.processes.append(carry.process)
        return carry

    def end(self):
        end_all(self.processes)
        for broker in self.brokers:
            broker.end()


@check
def words(checked):
    def run(*words):
        return subprocess.run([checked.program, *words], capture_output=True, text=True, timeout=10)

    done = run("--help")
    checked.held(done.returncode == 0 and done.stdout.startswith("usage: carry --broker") and not done.stderr, "--help")
    broker, password, rest = ["--broker", "localhost:1"], ["--password-file", "secret"], ["0", "--", "cat"]
    good = broker + password
    bad = [[], ["--broken"], good, good + ["0"], good + ["0", "--"], good + ["0", "cat", "x"]]
    bad += [good + [number, "--", "cat"] for number in ("1000", "ann", "00", "067", "-1", "")]
    bad += [["--broker", place] + password + rest for place in ("localhost", ":1", "x:65536", "x:0", "x:1x")]
    bad += [good + ["--tick", word] + rest for word in ("0", "nan", "x")] + [good + ["--longest", word] + rest for word in ("100", "5000x")]
    bad += [good + ["--grid", word] + rest for word in ("East", "1a", "a-b", "a" * 17)]
    bad += [good + ["--key", "k"] + rest, good + ["--certificate", "c"] + rest, broker + rest, good + ["--user", "ann"] + rest]
    for each in bad:
        done = run(*each)
        checked.held(done.returncode == 2 and done.stderr.startswith("carry: ") and not done.stdout, f"status 2 of {each}: {done}")


@check
def files(checked):
    broker = checked.broker()
    for name, text, mode, told in (
        ("nowhere", None, 0, "nowhere: No such file or directory"),
        ("empty", "\n", 0o600, "empty: no password on its first line"),
        ("open", "word\n", 0o644, "open: others may read or write it"),
    ):
        if text is not None:
            with open(name, "w", encoding="ascii") as out:
                out.write(text)
            os.chmod(name, mode)
        carry = checked.carry(broker.port, node(COPY), password=name)
        checked.held((carry.status(), carry.first()) == (1, f"carry: {told}"), f"a password file: {told}: {carry.lines}")
    carry = checked.carry(broker.port, node(COPY))
    checked.held(wait_for(lambda: broker.subscribed == 1), "it subscribes")  # (which it does after it has said that it is connected)
    os.chmod("secret", 0o644)
    broker.peer.shutdown(socket.SHUT_RDWR)
    checked.held(carry.says("secret: others may read or write it") and carry.says("disconnected"), "one that others may read later is told")
    checked.held(wait_for(lambda: broker.subscribed == 2) and carry.stop() == 0, "and the last password is used again")


@check
def into(checked):
    broker = checked.broker()
    carry = checked.carry(broker.port, node(COPY), *NO_TICKS)
    checked.held(wait_for(lambda: broker.subscribed), "connects and subscribes")
    tail = b"/ /Ann /ann/x /007 /1000 /abcdefghijklmnopq /+ /\xc3\xa9 /0".split(b" ")
    topics = [b"gridfs/0" + each for each in [b"", *tail]]
    for topic in [*topics, b"gridfs/0/ann ", b"gridfs/1/ann", b"other/0/ann", b"gridfs/00/ann", b"gridfs//ann", b"/0/ann", b"ann"]:
        broker.tells(topic, b"wrong")
    broker.tells(b"gridfs/0/ann", b"retained", retain=True)
    bodies = [b"", b"\n", b"\n\n\n", b"a\0b\r", b"\r", b"one\ntwo\n", b"three\n\nfour", LONG, LONG + b"y", b"y" * 65_536, b"end " + b"\0" * 60, b" spaces  "]
    for body in bodies:
        broker.tells(b"gridfs/0/ann", body)
    broker.tells(b"gridfs/0/7", b"from 7")
    broker.tells(b"gridfs/0/131", b"from 131")
    broker.tells(b"gridfs/0/abcdefghijklmnop", b"from p")
    whole = [b"a\0b\r", b"\r", b"one", b"two", b"three", b"four", LONG, b"end " + b"\0" * 60, b" spaces  "]
    wanted = [b"0 ann " + each for each in whole]
    wait_for(lambda: len(got()) > len(wanted) + 3)  # (a tenant's further lines come once the node has read those before)
    checked.held(sorted(got()) == sorted([*wanted, b"0 7 from 7", b"0 131 from 131", b"0 abcdefghijklmnop from p", b""]), "lines are whole, and others nothing")
    checked.held([line for line in got() if line.startswith(b"0 ann")] == wanted, "in their order")
    checked.held(carry.stop() == 0 and carry.counts()["long"] == 2 and carry.counts()["in"] == 12, f"status 0, and counts: {carry.counts()}")


@check
def of_a_grid(checked):
    """One grid of several at a broker, whose name is in all topics and in its metrics."""
    broker = checked.broker()
    carry = checked.carry(broker.port, node(COPY + "    put(b'1 0 out\\n')\n"), *NO_TICKS, "--grid", "east", "--metrics", "0.prom")
    checked.held(wait_for(lambda: broker.subscribed), "connects and subscribes")
    for topic in (b"gridfs/0/ann", b"gridfs/west/0/ann", b"gridfs/east/1/ann", b"gridfs/east/ann", b"gridfs/east/0/east/ann", b"east/0/ann"):
        broker.tells(topic, b"wrong")
    broker.tells(b"gridfs/east/0/ann", b"right")
    checked.held(wait_for(lambda: got() == [b"0 ann right", b""]), f"takes the lines of its grid alone: {got()}")
    checked.held(wait_for(lambda: broker.lines("gridfs/east/1/0") == [b"out"]), f"and carries the node's lines to it: {broker.said}")
    checked.held(carry.stop() == 0 and {topic for topic, _ in broker.said} == {"gridfs/east/0/0", "gridfs/east/1/0"}, "it says nothing under other topics")
    samples = metrics.read("0.prom")
    checked.held(samples and all('grid="east"' in labels for _, labels in samples), f"its name is in each sample: {samples}")


@check
def out_of(checked):
    broker, long = checked.broker(), b"1 0 " + b"x" * (LONGEST - 4)
    forged = b"1 1 x|ann bob x|Ann 0 x|1 0|1 0 |1||1  0 x| 1 0 x|1000 0 x|007 0 x|abcdefghijklmnopq 0 x|1 00 x|+ 0 x|gridfs/1 0 x|server/+ 0 x"
    text = b" ?\n1 0 one\nann 0 two\n1 0 three\n0 0 self\n" + forged.replace(b"|", b"\n") + b"\n" + long + b"\n" + long + b"y\n"
    text += b"1 0 " + b"z" * 200_000 + b"\n" + (b"1 0 evil " * 9_000 + b"\n") * 40
    text += b"1 0 nul\0cr\r\n1 0 store 5 1 ab ?\nann 0 four\n1 0 torn"
    with open("out", "wb") as out:
        out.write(text)
    carry = checked.carry(broker.port, node("put(b' ?\\n'); time.sleep(0.7); put(open('out', 'rb').read())\n" + COPY), *NO_TICKS)
    checked.held(wait_for(lambda: broker.lines("gridfs/ann/0")[1:]), "what a node writes comes to the broker")
    said = {topic: broker.lines(topic) for topic, body in broker.said if body}
    wanted = {"gridfs/1/0": [b"one", b"three", long[4:], b"nul\0cr\r", b"store 5 1 ab ?"], "gridfs/ann/0": [b"two", b"four"]}
    checked.held(said == wanted, "lines with the node's own number, whole and in order, and no others")
    first = next((body for topic, body in broker.said if topic == "gridfs/1/0"), b"")
    checked.held(first.startswith(b"one\nthree"), "lines of one read to one place go in one message")
    wait_for(lambda: b"0 0 self" in got())
    checked.held(got() == [b"0 0 self", b""], "a line to itself comes back")
    checked.held(carry.stop() == 0 and not any(b"torn" in body for _, body in broker.said), "what stands behind the last LF is no line")


@check
def longer(checked):
    broker, body = checked.broker(), b"a" * 300_000
    speak = "put(b' ?\\n'); time.sleep(0.7); put(b'1 0 ' + b'b' * 300000 + b'\\n')\n"
    carry = checked.carry(broker.port, node(speak + COPY), *NO_TICKS, "--longest", "300100")
    wait_for(lambda: broker.subscribed)
    for each in (b"s", body, b"t", body + b"b" * 100, b"end"):
        broker.tells(b"gridfs/0/ann", each)
    wait_for(lambda: b"0 ann end" in got())
    checked.held(got() == [b"0 ann s", b"0 ann " + body, b"0 ann t", b"0 ann end", b""], "--longest: a line of 300,000 bytes comes whole, a longer one not")
    checked.held(wait_for(lambda: ("gridfs/1/0", b"b" * 300_000) in broker.said), "and goes out whole")
    checked.held(carry.stop() == 0, "status 0")


@check
def turns(checked):
    """A node that stood still gets all that was within the bound, of each in order, and both by turns."""
    broker = checked.broker()
    carry = checked.carry(broker.port, node(COPY), *NO_TICKS)
    wait_for(lambda: broker.subscribed and os.path.exists("got"))
    os.kill(carry.child(), signal.SIGSTOP)
    lines = [b"%05d " % place + b"x" * (place % 90) for place in range(10_000)]
    blocks = [lines[place : place + 100] for place in range(0, len(lines), 100)]
    for name, mine in ((b"bob", blocks[::2]), (b"ann", blocks[1::2])):
        for block in mine:
            broker.tells(b"gridfs/0/" + name, b"\n".join(block))
    time.sleep(0.5)
    os.kill(carry.child(), signal.SIGCONT)
    wanted = {name: [b"0 %s " % name + line for block in mine for line in block] for name, mine in ((b"bob", blocks[::2]), (b"ann", blocks[1::2]))}
    wait_for(lambda: len(got()) > sum(map(len, wanted.values())))
    lines = got()
    checked.held({name: [line for line in lines if line.startswith(b"0 " + name)] for name in wanted} == wanted, "what waited comes whole, of each in order")
    first = next((place for place, line in enumerate(lines) if line.startswith(b"0 ann")), len(lines))
    checked.held(first < 1_000, f"the first of ann's lines stands behind {first} of bob's")
    checked.held(carry.stop() == 0, "status 0")


@check
def whole_writes(checked):
    """Writes to the node are of whole lines, and at most as long as a pipe takes whole: so a carrier that is killed tears no line."""
    broker = checked.broker()
    for _ in range(3):
        broker.subscribed = 0
        carry = checked.carry(broker.port, node("time.sleep(0.4)\n" + COPY), *NO_TICKS, program=checked.plain)
        wait_for(lambda: broker.subscribed)
        for place in range(400):
            broker.tells(b"gridfs/0/" + b"abcdefghijklmnopqrst"[place % 20 :][:1], b"\n".join(b"%04d " % place + b"y" * 990 for _ in range(10)))
        wait_for(lambda: got_size() > 200_000)
        carry.process.kill()
        carry.process.wait()
        time.sleep(0.3)
        checked.held(all(re.fullmatch(rb"0 [a-t] \d{4} y{990}", line) for line in got()[:-1]) and got()[-1] == b"", "a carrier that is killed tears no line")


@check
def ticks(checked):
    broker = checked.broker()
    carry = checked.carry(broker.port, node(COPY), "--tick", "0.02")
    wait_for(lambda: broker.subscribed and got(True))
    before, begun = len(got(True)), time.monotonic()
    time.sleep(1)
    came, seconds = len(got(True)) - before, time.monotonic() - begun
    checked.held(5 < came <= seconds / 0.018 + 1, f"ticks come: {came} within {seconds:.1f} seconds, one each 0.02")
    os.kill(carry.child(), signal.SIGSTOP)
    time.sleep(0.1)
    before = len(got(True))
    broker.tells(b"gridfs/0/ann", b"while it stood")
    time.sleep(1.5)
    os.kill(carry.child(), signal.SIGCONT)
    wait_for(lambda: b"0 ann while it stood" in got())
    behind = got(True).index(b"0 ann while it stood") - before
    checked.held(behind <= 2, f"a node that stood still for 1.5 s is met by one tick, not by 75: {behind}")
    count = len(got(True))
    checked.held(wait_for(lambda: len(got(True)) > count + 5), "and ticks go on")
    carry.stop()


@check
def flood_for_node(checked):
    """A node stops reading while bob floods: the memory stays, ann's lines come, bob's are dropped, whole."""
    broker = checked.broker()
    carry = checked.carry(broker.port, node(COPY), *NO_TICKS, program=checked.plain)
    wait_for(lambda: broker.subscribed and os.path.exists("got"))
    os.kill(carry.child(), signal.SIGSTOP)
    block = b"\n".join(b"%04d " % place + b"b" * 60 for place in range(900))
    for place in range(200):
        broker.tells(b"gridfs/0/bob", block)
        broker.tells(b"gridfs/0/ann", b"line %d" % place)
    broker.tells(b"gridfs/0/7", b"last")
    time.sleep(0.3)
    checked.held(carry.memory() < 16, f"12 MB for a node that stands still take {carry.memory():.1f} MiB")
    os.kill(carry.child(), signal.SIGCONT)
    wait_for(lambda: b"0 7 last" in got())
    came = -1
    while came < got_size():  # (at bob's rate)
        came = got_size()
        time.sleep(0.5)
    mine, bobs = ([line for line in got() if line.startswith(b"0 " + name)] for name in (b"ann", b"bob"))
    checked.held(mine == [b"0 ann line %d" % place for place in range(200)], "none of ann's lines is lost")
    checked.held(0 < len(bobs) < 180_000 and all(re.fullmatch(rb"0 bob \d{4} b{60}", line) for line in bobs), "bob's are dropped in whole lines")
    checked.held(carry.stop() == 0 and carry.counts()["full"] == 180_000 - len(bobs), "each dropped one is counted")
    checked.held(carry.says("lines from bob were more than the bound"), "and told whose they were")


@check
def told_metrics(checked):
    """Of a broker that comes and goes, a tenant of whom more waits than may, and more tenants than a plan has."""
    broker = checked.broker()
    carry = checked.carry(broker.port, node(COPY), *NO_TICKS, "--metrics", "0.prom")

    def tells(holds):
        def is_so():
            carry.process.send_signal(signal.SIGUSR1)
            told = metrics.read("0.prom")
            return told and holds(told)
        return wait_for(is_so)

    wait_for(lambda: broker.subscribed and os.path.exists("got"))
    checked.held(tells(lambda told: told.of("carrier_broker_up") == 1 and told.of("carrier_messages_in_total") > 0), "a broker that is there")
    os.kill(carry.child(), signal.SIGSTOP)
    for _ in range(40):
        broker.tells(b"gridfs/0/bob", b"\n".join([b"b" * 60] * 900))
    broker.tells(b"gridfs/0/ann", b"one")
    checked.held(tells(lambda told: told.of("tenant_lines_total", 'tenant="ann"') == 1), "lines that came")
    told = metrics.read("0.prom")
    lines, dropped = (told.of(f"tenant_{what}_total", 'tenant="bob"') for what in ("lines", "lines_dropped"))
    checked.held(dropped > 0 and lines + dropped == 36_000 and told.of("tenant_bytes_total", 'tenant="bob"') == 61 * lines, f"bob's: {lines}, {dropped}")
    checked.held(told.of("carrier_lines_dropped_total", 'reason="full"') == dropped, "the same of all")
    checked.held(told.of("tenant_lines_dropped_total", 'tenant="ann"') == 0, "none of ann's")
    checked.held(told.of("node_waiting_bytes") > 1_000_000, f"what waits: {told.of('node_waiting_bytes')}")
    os.kill(carry.child(), signal.SIGCONT)
    for number in range(70):
        broker.tells(b"gridfs/0/many" + bytes([97 + number // 26, 97 + number % 26]), b"one\ntwo")
    checked.held(tells(lambda told: told.of("tenant_lines_total", 'tenant="OTHERS"') == 16), f"more tenants than a plan has: {metrics.read('0.prom')}")
    checked.held(sum(name == "tenant_lines_total" for name, _ in metrics.read("0.prom")) == 65, "their labels are bounded")
    broker.end()
    checked.held(tells(lambda told: told.of("carrier_broker_up") == 0), "a broker that is gone")
    checked.held(carry.stop() == 0, "status 0")


@check
def forms(checked):
    """A node that is ready is to greet the others; which forms of lines it tells them, and others tell it, is in the metrics."""
    broker = checked.broker()
    speak = "put(b' ?\\n1 0 speaks 3\\n2 0 speaks 3\\nann 0 speaks 4\\n')\n"
    carry = checked.carry(broker.port, node(speak + COPY), *NO_TICKS, "--metrics", "0.prom")
    checked.held(wait_for(lambda: broker.subscribed and os.path.exists("got")), "connects and subscribes")
    for topic, body in ((b"gridfs/0/1", b"speaks 2"), (b"gridfs/0/67", b"speaks 4294967295"), (b"gridfs/0/3", b"speaks 2"), (b"gridfs/0/ann", b"speaks 5"), (b"gridfs/0/2", b"speaks two\nspeaks 2 ?\nspeaks")):
        broker.tells(topic, body)
    wanted = {"": 3, 'peer="1"': 2, 'peer="67"': 4294967295}  # (3 stood at the place of 67 before)

    def told():
        carry.process.send_signal(signal.SIGUSR1)
        return {labels: value for (name, labels), value in metrics.read("0.prom").items() if name.endswith("_line_form")}

    checked.held(wait_for(lambda: told() == wanted), f"forms of lines: {told()}, not {wanted}")
    checked.held(wait_for(lambda: got(True).count(b"0 0 greet") == 1), f"it is to greet once: {got(True)}")
    checked.held(carry.stop() == 0, "status 0")


@check
def deaf_broker(checked):
    """A broker that does not read: the node's output is read all the same."""
    broker = checked.broker()
    speak = "for i in range(400): put(b''.join(b'ann 0 %06d ' % (i * 1000 + k) + b'x' * 90 + b'\\n' for k in range(1000)))\nopen('written', 'w').close()\n"
    carry = checked.carry(broker.port, node("put(b' ?\\n'); time.sleep(0.7)\n" + speak + COPY), program=checked.plain)
    wait_for(lambda: broker.subscribed)
    broker.reads = False
    checked.held(wait_for(lambda: os.path.exists("written")), "the node writes 40 MB and waits for nobody")
    checked.held(carry.memory() < 24, f"at most {carry.memory():.1f} MiB")
    checked.held(carry.says("the broker takes less than node 0 writes"), "it is told")
    checked.held(carry.says("no answer within 5 s", 15), "and the connection is given up")
    broker.reads = True
    checked.held(wait_for(lambda: broker.subscribed == 2), "and made again")
    said = broker.lines("gridfs/ann/0")
    checked.held(said and all(re.fullmatch(rb"\d{6} x{90}", line) for line in said) and said == sorted(said), "what came, came whole and in order")
    checked.held(carry.stop() == 0, "status 0")
    checked.held(carry.counts()["slow"] + carry.counts()["lost"] > 0, f"what was dropped is counted: {carry.counts()}")


@check
def no_broker(checked):
    broker = checked.broker()
    port = broker.port
    broker.end()
    carry = checked.carry(port, node(COPY))
    checked.held(carry.says("Connection refused: tries again"), "no broker at the start is told")
    time.sleep(2)
    checked.held(carry.many("refused") == 1, "once")
    broker = checked.broker(port)
    checked.held(wait_for(lambda: broker.subscribed) and carry.says("connected to"), "it connects when one is there")
    broker.end()
    checked.held(carry.says("disconnected"), "no broker later is told")
    time.sleep(1)
    checked.held(carry.many("disconnected") == 1 and carry.many("refused") <= 2, "once")
    broker = checked.broker(port)
    checked.held(wait_for(lambda: broker.subscribed), "it connects again")
    broker.tells(b"gridfs/0/ann", b"still here")
    checked.held(wait_for(lambda: b"0 ann still here" in got()), "and carries")
    checked.held(carry.stop() == 0, "SIGTERM: status 0")
    broker.end()
    carry = checked.carry(port, ["sh", "-c", "sleep 0.3; exit 5"])
    checked.held(carry.status() == 5, "a node that ends without any broker: its status")


@check
def silent_hosts(checked):
    hole = socket.create_server(("127.0.0.1", 0), backlog=0)  # (whose queue is full: no answer to a SYN)
    fill = [socket.socket() for _ in range(4)]
    for each in fill:
        each.setblocking(False)
        each.connect_ex(hole.getsockname())
    carry = checked.carry(hole.getsockname()[1], node("put(b'1 0 x\\n' * 100000); open('written', 'w').close()\n" + COPY))
    checked.held(wait_for(lambda: os.path.exists("written")), "a host that does not answer: the node's output is read")
    checked.held(carry.says("no answer within 5 s: tries again", 15), f"it is told: {carry.lines}")
    begun = time.monotonic()
    checked.held(carry.stop() == 0 and time.monotonic() < begun + 4, "SIGTERM ends it at once")
    for each in [*fill, hole]:
        each.close()
    silent = checked.broker(answer=None)
    carry = checked.carry(silent.port, node(COPY))
    checked.held(carry.says("no answer within 5 s: tries again", 15), "a broker that never says whether it lets in is told")
    carry.stop()
    carry = checked.carry(1, node(COPY), host="nowhere.invalid")
    checked.held(carry.says("nowhere.invalid:1: ", 30) and carry.stop() == 0, "so is a name without an address")


@check
def refused(checked):
    broker = checked.broker(answer=5)
    carry = checked.carry(broker.port, node(COPY))
    checked.held(carry.status() == 1 and carry.many("authorised") == 1, f"a wrong password at first: status 1, told once: {carry.lines}")
    broker.answer = 3
    carry = checked.carry(broker.port, node(COPY))
    checked.held(carry.says("unavailable") and carry.process.poll() is None, "a broker that is not ready yet: tried again")
    broker.answer = 0
    checked.held(wait_for(lambda: broker.subscribed), "and connected")
    broker.answer = 5
    broker.peer.shutdown(socket.SHUT_RDWR)
    checked.held(carry.says("not authorised") and carry.process.poll() is None, "a password that is refused later: tried again")
    broker.answer = 0
    checked.held(wait_for(lambda: broker.subscribed == 2), "and connected")
    time.sleep(5.5)
    carry.stop()
    checked.held(not carry.many("doesn't carry"), "where a broker carries all, nothing is told of its access list")
    broker.echo = False
    carry = checked.carry(broker.port, node(COPY))
    checked.held(carry.says("doesn't carry what node 0 tells itself"), "an access list that refuses without a word is told")
    begun = time.monotonic()
    checked.held(carry.stop() == 0 and time.monotonic() < begun + 4, "and the end does not wait for it long")


@check
def ends(checked):
    broker = checked.broker()
    last = "time.sleep(0.3)\nput(b''.join(b'ann 0 last %d\\n' % i for i in range(5000)))\nsys.exit(7)"
    carry = checked.carry(broker.port, node("put(b' ?\\n')\n" + COPY + last))
    wait_for(lambda: broker.subscribed)
    checked.held(carry.stop() == 7, "SIGTERM: the input ends, and the node's status is carry's")
    checked.held(wait_for(lambda: broker.lines("gridfs/ann/0") == [b"last %d" % place for place in range(5_000)]), "what it still wrote is sent, to the last line")
    many = "time.sleep(0.2)\nput(b''.join(b'%s 0 %04d ' % (x, i) + b'x' * 990 + b'\\n' for i in range(900) for x in b'a b c d e f g h'.split()))"
    carry = checked.carry(broker.port, node(COPY + many), program=checked.plain)
    wait_for(lambda: broker.subscribed == 2)
    broker.reads = False
    threading.Timer(0.7, setattr, [broker, "reads", True]).start()
    carry.stop()
    lines = lambda: sum(len(broker.lines(f"gridfs/{name}/0")) for name in "abcdefgh")
    checked.held(wait_for(lambda: lines() == 7_200), f"7 MB too, to a broker that stands still for a while: {lines()}")
    carry = checked.carry(broker.port, node(COPY))
    wait_for(lambda: broker.subscribed == 3)
    os.kill(carry.child(), signal.SIGKILL)
    checked.held(carry.status() == 137 and carry.says("ended by signal 9: killed, maybe for lack of memory"), "a node that is killed: 137, told")
    carry = checked.carry(broker.port, ["/nowhere"])
    checked.held(carry.status() == 127 and carry.many("carry: /nowhere: No such file or directory") == 1, f"no such command: 127: {carry.lines}")
    carry = checked.carry(broker.port, ["sh", "-c", "exec <&-; sleep 1; exit 3"])
    checked.held(carry.status() == 3, "a node that closes its input")
    carry = checked.carry(broker.port, node(COPY), program=checked.plain)
    carry.says("connected to")
    child = carry.child()
    carry.process.kill()
    carry.process.wait()

    def is_gone():
        if not os.path.exists(f"/proc/{child}"):
            return True
        with open(f"/proc/{child}/stat") as file:
            return file.read().rsplit(") ", 1)[1][0] == "Z"

    checked.held(wait_for(is_gone), "where carry is killed, the node's input ends, and so does it")


@check
def inherited(checked):
    """The node has no signal blocked, none ignored but what was at the carrier's start, and no descriptor but the three."""
    broker = checked.broker()
    # (a shell would unblock what is blocked, and Python ignores some signals itself; the fourth descriptor is that of the look)
    look = "sys.stderr.write([line for line in open('/proc/self/status') if line.startswith('SigBlk')][0])"
    carry = checked.carry(broker.port, node(look))
    carry.status()
    checked.held(carry.many("SigBlk:\t0000000000000000") == 1, f"no signal is blocked: {carry.lines}")
    carry = checked.carry(broker.port, ["sh", "-c", "grep SigIgn /proc/self/status >&2; ls /proc/self/fd >&2"])
    carry.status()
    ignored = next((int(line.split()[1], 16) for line in carry.lines if line.startswith("SigIgn")), -1)
    wanted = sum(1 << number - 1 for number in (signal.SIGPIPE, signal.SIGTERM, signal.SIGUSR1, signal.SIGUSR2))
    checked.held(ignored & wanted == 0, f"no signal is ignored: {carry.lines}")
    checked.held([line for line in carry.lines if line.isdecimal()] == ["0", "1", "2", "3"], f"three descriptors: {carry.lines}")


def start_mosquitto(checked, folder):
    with open(f"{folder}.log", "ab") as log:
        checked.processes.append(subprocess.Popen(["mosquitto", "-c", f"{folder}/mosquitto.conf"], stderr=log))
    return checked.processes[-1]


@check
def certificates(checked):
    with open("plan", "w", encoding="ascii") as out:
        out.write("grid 2 2\nblocks 4096\ntenant ann 256 16 1\ngo\nann open 64 2\n")
    port, wrong_port = free_ports(), free_ports()
    more = ["--user", "root"] if os.getuid() == 0 else []
    for name, at, words in (("grid", port, []), ("other", 8883, []), ("far", wrong_port, ["--host", "elsewhere.invalid"])):
        subprocess.run([os.path.join(DEPLOY, "setup"), "--test-authority", "--tls", "broker", "--port", str(at), *more, *words, name, "plan"], check=True)
    broker, far = start_mosquitto(checked, "grid"), start_mosquitto(checked, "far")
    time.sleep(0.5)

    def carry(*words, at=port, password="grid/secret/0"):
        return checked.carry(at, node(COPY), *words, password=password, host="localhost")

    trusted = ["--ca-file", "grid/ca.crt"]
    ours = carry(*trusted)
    checked.held(ours.says("connected to"), f"TLS: it connects: {ours.lines}")
    count = len(ours.lines)
    broker.kill()
    broker.wait()
    checked.held(ours.says("disconnected") and ours.says("tries again"), "TLS: a broker that is away is told")
    broker = start_mosquitto(checked, "grid")
    checked.held(wait_for(lambda: ours.many("connected to") == 2) and len(ours.lines) <= count + 3, "and it connects again")
    checked.held(ours.stop() == 0, "status 0")
    refused = [
        ("a broker of another authority", "certificate verify failed", dict(words=["--ca-file", "other/ca.crt"])),
        ("a certificate of another host", "host name verification failed", dict(words=["--ca-file", "far/ca.crt"], at=wrong_port, password="far/secret/0")),
        ("no such file of authorities", "nowhere: No such file", dict(words=["--ca-file", "nowhere"])),
        ("a file without a certificate", "certificate", dict(words=["--ca-file", "plan"])),
        ("a certificate and a key that don't fit", "client key file", dict(words=[*trusted, "--certificate", "grid/ca.crt", "--key", "grid/broker.key"])),
        ("a wrong password", "not authorised", dict(words=trusted, password="grid/secret/1")),
    ]
    for what, told, how in refused:
        its = carry(*how.pop("words"), **how)
        checked.held(its.status() == 1 and its.many(told) == 1, f"{what}: status 1, told once: {its.lines}")
    plain = carry()
    checked.held(plain.says("tries again") or plain.says("disconnected"), "no TLS where the broker wants it is told")
    plain.stop()
    for each in (broker, far):
        each.terminate()
        each.wait()


@check
def resets(checked):
    """A connection that is reset while TLS is made is told at once."""
    rude = socket.create_server(("127.0.0.1", 0))

    def reset():
        while True:
            peer, _ = rude.accept()
            peer.recv(100)
            peer.setsockopt(socket.SOL_SOCKET, socket.SO_LINGER, b"\1\0\0\0\0\0\0\0")
            peer.close()

    words = ["openssl", "req", "-x509", "-newkey", "rsa:2048", "-nodes", "-keyout", "key", "-out", "ca", "-subj", "/CN=x"]
    subprocess.run(words, check=True, stderr=subprocess.DEVNULL)
    threading.Thread(target=reset, daemon=True).start()
    carry = checked.carry(rude.getsockname()[1], node(COPY), "--ca-file", "ca")
    checked.held(carry.says(":", 4) and not carry.many("no answer"), f"it is told at once: {carry.lines}")


@check
def random_bytes(checked):
    """What any bytes become, beside a few lines of Python."""
    draw = random.Random(5)
    parts = [b"0 ", b"1 0 ", b"ann 0 ", b"0 0 ", b"1", b" ", b"a", b"x\0", b"\n", b"\n", b"10 0 ", b"?", b"\r"]
    text = b"".join(draw.choice([*parts, b"z" * draw.choice((1, 50, 4_090, 5_000))]) for _ in range(60_000))
    with open("out", "wb") as out:
        out.write(text)
    form, wanted = re.compile(rb"([a-z]{1,16}|[0-9]|[1-9][0-9]{1,2}) 0 (.+)", re.S), {}
    for line in text.split(b"\n")[:-1]:
        right = form.fullmatch(line) if len(line) <= LONGEST else None
        if right:
            wanted.setdefault(right[1].decode(), []).append(right[2])
    broker = checked.broker()
    carry = checked.carry(broker.port, node(IN_PIECES + COPY), *NO_TICKS)
    wait_for(lambda: broker.subscribed)
    came = []
    for place in range(2_000):
        body = b"".join(draw.choice((b"\n", b"a ", b"\0", b"0 0 tick", b"x" * draw.choice((1, 4_080, 4_089, 4_090)))) for _ in range(draw.randrange(8)))
        came += [b"0 ann " + line for line in body.split(b"\n") if line and len(line) <= LONGEST - len("0 ann ")]
        broker.tells(b"gridfs/0/ann", body)
        if place % 40 == 0:
            time.sleep(0.02)
    own = [b"0 0 " + line for line in wanted.pop("0")]
    wait_for(lambda: all(broker.lines(f"gridfs/{name}/0") == lines for name, lines in wanted.items()) and len(got()) > len(own) + len(came), 30)
    checked.held({name: broker.lines(f"gridfs/{name}/0") for name in wanted} == wanted, "random output: each line that has the form, and nothing else")
    lines = got()
    checked.held([line for line in lines if line.startswith(b"0 0 ")] == own, "random lines to itself: the same")
    checked.held([line for line in lines if line.startswith(b"0 ann ")] == came and len(lines) == len(own) + len(came) + 1, "random messages: the same")
    checked.held(carry.stop() == 0 and carry.counts()["full"] == 0, "status 0")


@check
def any_broker(checked):
    """A broker that says anything at all."""
    draw, broker = random.Random(6), checked.broker()
    carry = checked.carry(broker.port, node(COPY))
    kinds = (0, 1, 2, 0x20, 0x30, 0x31, 0x32, 0x40, 0x90, 0xD0, 255)
    for place in range(25):
        count = broker.subscribed
        wait_for(lambda: broker.subscribed > count or place == 0, 0.3)
        try:
            broker.peer.sendall(bytes(draw.choice([*kinds, draw.randrange(256)]) for _ in range(draw.randrange(1, 400))))
            broker.peer.shutdown(socket.SHUT_RDWR)
        except (OSError, AttributeError):
            pass
        time.sleep(0.1)
    checked.held(carry.process.poll() is None and carry.stop() == 0, f"a broker that says anything: carry goes on: {carry.lines[-3:]}")


@check
def memory(checked):
    """Memory that is refused at random, by a library that is loaded first: each line that comes is right, and no signal ends the carrier."""
    subprocess.run([os.environ.get("CC", "cc"), "-O1", "-shared", "-fPIC", "-o", "refuse.so", os.path.join(HERE, "refuse.c"), "-ldl"], check=True)
    for each in (3, 10, 50, 300):
        broker = checked.broker()
        environment = {"LD_PRELOAD": os.path.abspath("refuse.so"), "REFUSE": str(each)}
        carry = checked.carry(broker.port, ["env", "-u", "LD_PRELOAD", *node(NUMBERED + COPY)], program=checked.plain, environment=environment)
        place, until = 0, time.monotonic() + 4
        while place < 3_000 and time.monotonic() < until:
            place += 1
            try:
                broker.tells(b"gridfs/0/" + (b"ann", b"bob", b"cat")[place % 3], b"\n".join(b"in %05d " % place + b"y" * (place % 50) for _ in range(20)))
            except (OSError, AttributeError):
                time.sleep(0.01)
        time.sleep(0.3)
        status = carry.stop()
        came = [re.fullmatch(rb"0 (?:ann|bob|cat) in (\d{5}) (y*)", line) for line in got()[:-1]] if os.path.exists("got") else []
        said = [line for topic, body in broker.said if body for line in body.split(b"\n")]
        is_right = all(line and len(line[2]) == int(line[1]) % 50 for line in came) and all(re.fullmatch(rb"out \d{5} x*", line) for line in said)
        checked.held(is_right and status in (0, 1, 3), f"one request for memory of {each} is refused: status {status}, {len(came)} lines in, {len(said)} out")
        broker.end()
        if os.path.exists("got"):
            os.remove("got")
