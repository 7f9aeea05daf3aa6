"""What a carrier over links owes, point by point. The node is a stand-in: what it is given goes to a file, and it says what the test writes into
a pipe."""

import contextlib
import os
import re
import resource
import shutil
import signal
import socket
import ssl
import subprocess
import time

import metrics
from gridfs_grid.links import free_ports
from processes import Wrong, check

HERE = os.path.dirname(os.path.abspath(__file__))
DEPLOY = os.path.join(HERE, "..", "..", "deploy", "links")

PLAN = "grid 1 2\nblocks 64\ntenant ann 8 16 1\ntenant bob 8 16 1\ngo\nann open 2 2\nbob open 2 2\n"
LATER = "grid 1 2\nblocks 64\ntenant ann 8 16 1\ntenant cid 8 16 1\ngo\nann open 2 2\ngone bob\n"
THREE = "grid 1 3\nblocks 64\ntenant ann 8 16 1\ngo\nann open 2 2\n"
ROOM = "grid 1 2\nroom 20000\ntenant ann 16384 16 1 16384\ngo\n"
RUNS = "grid 1 2\nroom 916\ntenant bob 16 1 1 16\ntenant ann 900 16 1 16 600\ngo\nbob open 1 1\n" + "ann open 1 1\nann open 2 1\n" * 300
WIDE = "grid 1 2\nroom 20000\ntenant ann 4094 16 1 4094\ntenant bob 16 1 1 16\ngo\n"  # (the longest lines that don't raise the rate above 8 MiB a second)
CHUNKS = "grid 1 2\nblocks 64\ntenant ann 8 16 1\ntenant bob 8 16 1\ngo\nann open 2 2\nbob open 2 2\nann chunks 9000\nbob chunks 9000\n"
LONG = b"6" * 500_000  # of a line by WIDE: it costs three quarters of what a tenant may use at once
SOON = 5  # seconds in which what is to come has come
NODE = "exec 3<&0; cat <&3 >{folder}/in.{number} & exec cat {folder}/out.{number}"
STILL = "exec cat {folder}/out.{number}"


def wait_for(holds, what, seconds=SOON):
    until = time.monotonic() + seconds
    while not holds():
        check(time.monotonic() < until, what)
        time.sleep(0.02)


def set_up(folder, plan=PLAN, *words):
    os.makedirs(folder, exist_ok=True)
    path = os.path.join(folder, "plan")
    with open(path, "w", encoding="ascii") as out:
        out.write(plan)
    done = subprocess.run([os.path.join(DEPLOY, "setup"), *words, os.path.join(folder, "links"), path], stderr=subprocess.PIPE, text=True)
    check(done.returncode == 0, done.stderr)
    return os.path.join(folder, "links")


class Carry:
    """A carrier and its stand-in."""

    def __init__(self, program, folder, number=0, script=NODE, *words):
        self.folder, self.number, self.links = folder, number, os.path.join(folder, "links")
        with open(os.path.join(self.links, "hosts"), encoding="ascii") as file:
            places = {line.split()[0]: [int(word.rpartition(":")[2]) for word in line.split()[1:]] for line in file}
        self.for_nodes, self.for_tenants = places[str(number)]
        self.out_path, self.in_path, self.log = (os.path.join(folder, f"{what}.{number}") for what in ("out", "in", "log"))
        with contextlib.suppress(FileNotFoundError):
            os.unlink(self.in_path)
        open(self.in_path, "w").close()
        if not os.path.exists(self.out_path):
            os.mkfifo(self.out_path)
        command = ["sh", "-c", script.format(folder=folder, number=number), "--journal", os.path.join(folder, "journal")]
        at = lambda what: os.path.join(self.links, what)
        options = {"--hosts": at("hosts"), "--ca-file": at("ca.crt"), "--certificate": at(f"secret/{number}.crt"), "--key": at(f"secret/{number}.key"), "--denied": at("denied"), "--bind": "127.0.0.1", "--plan": os.path.join(folder, "plan")}
        options.update(zip(words[::2], words[1::2]))
        with contextlib.suppress(FileNotFoundError):
            os.unlink(self.log)
        with open(self.log, "ab") as log:
            environment = {**os.environ, "ASAN_OPTIONS": "quarantine_size_mb=1"}  # (what was given back is not to be counted)
            self.process = subprocess.Popen([program, *(word for pair in options.items() for word in pair), str(number), "--", *command], stdin=subprocess.DEVNULL, stdout=log, stderr=log, env=environment, restore_signals=False)  # (so that a file that gets too long is a fault, as on a full disk)
        self.out = None

    def ready(self):
        self.out = open(self.out_path, "wb", 0)
        for port in (self.for_nodes, self.for_tenants):
            wait_for(lambda: can_connect(port), f"port {port} is not there: {self.told()}")
        return self

    def told(self):
        with open(self.log, encoding="latin1") as file:
            return file.read()

    def lines(self):
        """What the node was given, but for ticks and greetings."""
        with open(self.in_path, "rb") as file:
            return [line for line in file.read().split(b"\n")[:-1] if not line.endswith((b" tick", b" greet"))]

    def greets(self):
        with open(self.in_path, "rb") as file:
            return file.read().count(b"%d %d greet\n" % (self.number, self.number))

    def ticks(self):
        with open(self.in_path, "rb") as file:
            return file.read().count(b"tick\n")

    def gets(self, *lines, seconds=SOON):
        wait_for(lambda: all(line in self.lines() for line in lines), f"not given: {lines}; given: {self.lines()[-5:]}", seconds)

    def says(self, text):
        self.out.write(text)

    def tells(self, path, holds, what):
        """Has it write its metrics until they are so; they."""
        def told():
            self.process.send_signal(signal.SIGUSR1)
            return holds(metrics.read(path))
        wait_for(told, what)
        return metrics.read(path)

    def memory(self):
        with open(f"/proc/{self.process.pid}/statm") as file:
            return int(file.read().split()[1]) * os.sysconf("SC_PAGE_SIZE")

    def end(self):
        if self.out:
            self.out.close()
        if self.process.poll() is None:
            self.process.terminate()
        try:
            return self.process.wait(10)
        except subprocess.TimeoutExpired:
            self.process.kill()
            self.process.wait()
            raise Wrong("it does not end") from None


def can_connect(port):
    try:
        socket.create_connection(("127.0.0.1", port), 1).close()
        return True
    except OSError:
        return False


def context_of(links, name, authority="ca.crt"):
    context = ssl.SSLContext(ssl.PROTOCOL_TLS_CLIENT)
    context.load_verify_locations(os.path.join(links, authority))
    if name:
        context.load_cert_chain(os.path.join(links, "secret", f"{name}.crt"), os.path.join(links, "secret", f"{name}.key"))
    return context


def come(carry, name, port=None, links=None, context=None):
    made = (context or context_of(links or carry.links, name)).wrap_socket(socket.create_connection(("127.0.0.1", port or carry.for_tenants), 5), server_hostname=f"node{carry.number}")
    made.settimeout(5)
    return made


def is_refused(come_in):
    """Whether a connection that is made so ends, or is never made."""
    try:
        with come_in() as made:
            made.sendall(b"read 1 1 0 0\n")
            return made.recv(1) == b""
    except TimeoutError:
        return False
    except OSError:
        return True


def meets_end(made):
    """Whether the other end ends this connection, and says nothing before."""
    try:
        return made.recv(1) == b""
    except TimeoutError:
        return False
    except OSError:
        return True


def is_taken(carry, come_in, line):
    """Whether the node is given a line of a connection that is made so."""
    try:
        with come_in() as made:
            made.sendall(line.encode() + b"\n")
            carry.gets(b"0 ann " + line.encode())
            return True
    except OSError:
        return False


def hear(made, many=1):
    """So many lines."""
    parts = []
    while many > 0:
        parts.append(made.recv(65536))
        check(parts[-1], "the connection ended")
        many -= parts[-1].count(b"\n")
    return b"".join(parts).split(b"\n")[:-1]


def fresh(program, folder, plan=PLAN, script=NODE, *words, other=None):
    port = free_ports(4)
    set_up(folder, plan, "--local", str(port))
    return Carry(program, folder, 0, script, *words).ready()


# The checks

def who_may_come(program, folder):
    carry = fresh(program, folder)
    try:
        other = set_up(os.path.join(folder, "other"))  # another authority, with the same names
        with open(os.path.join(other, "ca.crt"), "a") as both, open(os.path.join(carry.links, "ca.crt")) as ours:
            both.write(ours.read())
        check(not is_refused(lambda: come(carry, "bob")), "bob is not taken")
        check(is_refused(lambda: come(carry, None)), "one without a certificate is taken")
        check(is_refused(lambda: come(carry, "ann", links=other)), "a certificate of another authority is taken")
        check(is_refused(lambda: come(carry, "ann", carry.for_nodes)), "a tenant is taken at the port for nodes")
        check(is_refused(lambda: come(carry, "1")), "a node is taken at the port for tenants")
        check(is_refused(lambda: come(carry, "0", carry.for_nodes)), "one with the node's own number is taken")
        old = context_of(carry.links, "ann")
        old.maximum_version = ssl.TLSVersion.TLSv1_2
        check(is_refused(lambda: come(carry, None, context=old)), "TLS 1.2 is taken")
        with socket.create_connection(("127.0.0.1", carry.for_tenants)) as plain:
            plain.settimeout(5)
            plain.sendall(b"read 1 1 0 0\n" * 3)
            with contextlib.suppress(OSError):
                while plain.recv(4096):
                    pass
        with come(carry, "ann") as ann, come(carry, "1", carry.for_nodes) as node:
            ann.sendall(b"plan\n"), node.sendall(b"ann 1 1 1 0 0 ask\n")
            carry.gets(b"0 ann plan", b"0 1 ann 1 1 1 0 0 ask")
            check(len(carry.lines()) == 3, f"the node was given {carry.lines()}")
            set_up(folder, PLAN, "--deny", "ann")
            old = context_of(carry.links, "ann")  # (the new one)
            carry.process.send_signal(signal.SIGHUP)
            check(meets_end(ann), "who is denied stays")
            with come(carry, None, context=old) as again:
                again.sendall(b"again\n")
                carry.gets(b"0 ann again")
            node.sendall(b"still here\n")
            carry.gets(b"0 1 still here")
    finally:
        check(carry.end() == 0, carry.told())


def a_denied_one_stays_out(program, folder):
    carry = fresh(program, folder)
    try:
        kept = context_of(carry.links, "ann")
        set_up(folder, PLAN, "--deny", "ann")
        carry.process.send_signal(signal.SIGHUP)
        time.sleep(0.3)
        check(is_refused(lambda: come(carry, None, context=kept)), "a certificate that is denied is taken")
    finally:
        carry.end()


MOST_UNREAD = 16 << 20  # bytes that the buffers of a connection hold at most


def who_is_gone_is_told(program, folder):
    """Once on each connection; and what he brings is charged, so that he is not read as fast as he sends."""
    fresh(program, folder).end()
    with open(os.path.join(folder, "plan"), "w", encoding="ascii") as out:
        out.write(LATER)
    carry = Carry(program, folder).ready()
    try:
        with come(carry, "ann") as ann, come(carry, "bob") as bob, come(carry, "bob") as again:
            bob.sendall(b"plan\nread 1 1 0 0\n"), ann.sendall(b"plan\n")
            carry.gets(b"0 ann plan")
            check(hear(bob) == [b"gone"], "who is gone is told something else")
            again.sendall(b"plan\n")
            check(hear(again) == [b"gone"], "he is not told so on another connection")
            check(not any(line.startswith(b"0 bob ") for line in carry.lines()), "the node is given lines of who is gone")
            check(taken_of(bob, b"plan\n" * 20_000, 4) < MOST_UNREAD, "what he brings is not charged")
            ann.sendall(b"plan\n")
            carry.gets(b"0 ann plan")
            bob.settimeout(1)
            check(not hears_more(bob), "he is told so again")
    finally:
        check(carry.end() == 0, carry.told())


def taken_of(made, data, seconds):
    """How many bytes are taken of this, again and again, in so many seconds, or until they are more than buffers hold."""
    count, until = 0, time.monotonic() + seconds
    made.settimeout(0.2)
    while time.monotonic() < until and count < MOST_UNREAD:
        with contextlib.suppress(TimeoutError):
            count += made.send(data)
    return count


def hears_more(made):
    try:
        return bool(made.recv(100))
    except TimeoutError:
        return False


def who_is_dialed(program, folder):
    """Node 0 dials node 1, and speaks to nobody else who is there."""
    port = free_ports(6)
    links = set_up(folder, THREE, "--local", str(port))
    for name in ("ann", "0", "2"):
        context = ssl.SSLContext(ssl.PROTOCOL_TLS_SERVER)
        context.load_cert_chain(os.path.join(links, "secret", f"{name}.crt"), os.path.join(links, "secret", f"{name}.key"))
        with socket.create_server(("127.0.0.1", port + 2)) as listener:
            listener.settimeout(10)
            carry = Carry(program, folder).ready()
            try:
                plain, _ = listener.accept()
                plain.settimeout(5)
                carry.says(b"1 0 ann 1 1 1 0 0 ask\n")
                with contextlib.suppress(OSError):
                    with context.wrap_socket(plain, server_side=True) as made:
                        check(made.recv(100) == b"", f"node 0 speaks to {name} as to node 1")
                check("is linked" not in carry.told(), f"node 0 is linked to {name}")
            finally:
                carry.end()


def lines_are_whole(program, folder):
    carry = fresh(program, folder)
    try:
        with come(carry, "ann") as ann:
            ann.sendall(b"0 bob write 1 1 0 0 aa\n\n\nwith \0 and \r\n")
            carry.gets(b"0 ann 0 bob write 1 1 0 0 aa", b"0 ann with \0 and \r")
            longest = 4095 - len(b"0 ann ")
            for byte in b"one byte\n":
                ann.sendall(bytes([byte]))
            ann.sendall(b"x" * longest + b"\n" + b"y" * (longest + 1) + b"\n" + b"z" * 100_000)
            ann.sendall(b"z" * 100_000 + b"\nbehind\n")
            carry.gets(b"0 ann one byte", b"0 ann " + b"x" * longest, b"0 ann behind")
            check(not any(b"yy" in line or b"zz" in line for line in carry.lines()), "a line that is too long is given")
            ann.setsockopt(socket.IPPROTO_TCP, socket.TCP_CORK, 1)  # three records in one packet
            for line in (b"record 1\n", b"record 2\n", b"record 3\n"):
                ann.sendall(line)
            ann.setsockopt(socket.IPPROTO_TCP, socket.TCP_CORK, 0)
            carry.gets(b"0 ann record 1", b"0 ann record 2", b"0 ann record 3")
            ann.sendall(b"cut off")
        with come(carry, "ann") as ann:
            ann.sendall(b"whole\n")
            carry.gets(b"0 ann whole")
        check(not any(b"cut off" in line for line in carry.lines()), "a part of a line is given")
        many = [b"line %d " % number + b"ab" * (number % 700) for number in range(3000)]
        with come(carry, "ann") as ann:
            ann.sendall(b"\n".join(many) + b"\n")
            wait_for(lambda: len(carry.lines()) >= 3000 + 9, "lines are wanting", 20)
        check([line for line in carry.lines() if line.startswith(b"0 ann line")] == [b"0 ann " + line for line in many], "lines are not as they were sent")
    finally:
        check(carry.end() == 0, carry.told())


def without_clock(lines):
    """These lines; of each answer `plan` it is looked whether it tells this machine's clock."""
    found = []
    for line in lines:
        plan, _, clock = line.partition(b" clock=")
        check(clock.isdigit() == line.startswith(b"plan ") and (not clock or abs(int(clock) - time.time()) < 10), f"of a clock {line[-40:]} tells")
        found.append(plan)
    return found


def answers_go_home(program, folder):
    carry = fresh(program, folder)
    try:
        with come(carry, "ann") as first, come(carry, "ann") as second, come(carry, "bob") as bob:
            first.sendall(b"read 1 7 0 0\n"), second.sendall(b"write 2 9 0 0 aa\nabandon 3 4\n"), bob.sendall(b"read 1 1 0 0\n")
            carry.gets(b"0 ann read 1 7 0 0", b"0 ann write 2 9 0 0 aa", b"0 ann abandon 3 4", b"0 bob read 1 1 0 0")
            carry.says(b"ann 0 done read 1 7 tag 0 0 -\nann 0 done write 2 9 tag 1 2\nann 0 gone 3 4\nann 0 refused home 1 2 9\nann 0 refused early 1 7 6\n")
            carry.says(b"bob 0 done read 1 1 tag 0 0 bb\nann 0 plan 2 0 16 8 2\nann 0 refused bad\nbob 1 of another\nann 0\nann 0 \n0 0 own\n \ncid 0 nobody\n")
            check(without_clock(hear(first, 4)) == [b"done read 1 7 tag 0 0 -", b"refused early 1 7 6", b"plan 2 0 16 8 2", b"refused bad"], "the first connection gets something else")
            check(without_clock(hear(second, 5)) == [b"done write 2 9 tag 1 2", b"gone 3 4", b"refused home 1 2 9", b"plan 2 0 16 8 2", b"refused bad"], "the second gets something else")
            check(hear(bob) == [b"done read 1 1 tag 0 0 bb"], "bob gets something else")
            second.sendall(b"abandon 1 4000000000\n")  # (it only asks)
            carry.gets(b"0 ann abandon 1 4000000000")
            carry.says(b"ann 0 refused early 1 4000000000 7\nann 0 done read 1 8 tag 0 0 -\n")
            check((hear(first), hear(second)) == ([b"done read 1 8 tag 0 0 -"], [b"refused early 1 4000000000 7"]), "who asks how far a session came takes its answers")
            second.sendall(b"abandon 1 4000000001\nabandon 1 4000000001\n")
            carry.gets(b"0 ann abandon 1 4000000001", b"0 ann abandon 1 4000000001")
            carry.says(b"ann 0 gone 1 4000000001\n")
            check(hear(second) == [b"gone 1 4000000001"], "who asks twice is not told")
            carry.gets(b"0 0 own")
            second.close()
            wait_for(lambda: second.fileno() < 0, "")
            time.sleep(0.2)
            carry.says(b"ann 0 done write 2 9 tag 1 2\n")
            check(hear(first) == [b"done write 2 9 tag 1 2"], "an answer of a session whose connection has ended is not told")
    finally:
        check(carry.end() == 0, carry.told())
        check("strange 4 " in carry.told() and "lost 1 " in carry.told(), carry.told())


def chunks_go_home(program, folder):
    """Of a tenant's connections each is told what it asked of chunks, whosever they are, and what it saw, and no other is; neither takes a session away."""
    carry = fresh(program, folder)
    numbers = [b"%d" % (1 << 40 | each) for each in range(4)]
    try:
        with come(carry, "ann") as first, come(carry, "ann") as second:
            first.sendall(b"write 1 7 0 0 aa\nget 3 %b 0 9\nkeep 1 %b ~a\nroom\nlook 8 0\nforget 3 9 5 6\n" % (numbers[0], numbers[1]))
            carry.gets(b"0 ann forget 3 9 5 6")
            second.sendall(b"get 1 %b 0 9\nget 3 %b 0 9\nget 3 %b 0 9\nchunks 3 0\nlook 1 0\nlook 9 70\nforget 3 9 6 6\n" % (numbers[2], numbers[0], numbers[3]))
            carry.gets(b"0 ann forget 3 9 6 6")
            carry.says(b"".join(b"ann 0 %b\n" % line for line in [
                b"done write 1 7 tag 1 2", b"got 3 %b 9 0 ~first" % numbers[0], b"refused room 1 %b 5" % numbers[1], b"room 5 7 0 0", b"forgot 3 9 5 6",
                b"damaged 1 %b" % numbers[2], b"got 3 %b 9 0 ~second" % numbers[0], b"none 3 %b" % numbers[3], b"chunks 3 0 0 7.1 end",
                b"looked 1 0 0 0:0.0", b"looked 8 0 0 0:0.0", b"refused novolume 9 70", b"forgot 3 9 6 6", b"kept 1 9 0", b"looked 5 0 0 -", b"refused bad",
            ]))  # fmt: skip
            told = [line.split(b" ")[0] for line in hear(first, 7)], [line.split(b" ")[0] for line in hear(second, 8)]
            check(told == ([b"done", b"got", b"refused", b"room", b"forgot", b"looked", b"refused"], [b"damaged", b"got", b"none", b"chunks", b"looked", b"refused", b"forgot", b"refused"]), f"they are told {told}")
            first.sendall(b"room\nroom\n"), second.sendall(b"room\nread 2 1 0 0\n")
            carry.gets(b"0 ann read 2 1 0 0")
            wait_for(lambda: carry.lines().count(b"0 ann room") == 4, "lines are wanting")
            carry.says(b"ann 0 room 1 7 0 0\nann 0 room 2 7 0 0\nann 0 refused bad\n")
            told = hear(first, 2), hear(second, 2)
            check(told == ([b"room 1 7 0 0", b"refused bad"],) * 2, f"of room they are told {told}")
    finally:
        check(carry.end() == 0, carry.told())
        check("lost 2 " in carry.told(), carry.told())


def a_tenant_who_takes_his_time(program, folder):
    """Amid answers that wait for a tenant no more of his lines are given, so that none is dropped; another's are, and his too once he has taken nothing at all for a
    while."""
    carry = fresh(program, folder, CHUNKS)
    content, most = b"x" * 900_000, 40  # (the system takes some of them)
    try:
        with come(carry, "ann") as ann, come(carry, "bob") as bob:
            for number in range(most):
                ann.sendall(b"get 1 %d 0 9\n" % number)
                try:
                    carry.gets(b"0 ann get 1 %d 0 9" % number, seconds=SOON if number < 4 else 0.5)
                except Wrong:
                    break
                carry.says(b"ann 0 got 1 %d 9 0 ~" % number + content + b"\n")
            check(number < most - 1, "lines are given, however much waits for their tenant")
            bob.sendall(b"get 1 3 0 9\n")
            carry.gets(b"0 bob get 1 3 0 9")
            carry.gets(b"0 ann get 1 %d 0 9" % number, seconds=4 * SOON)
            check(not gone(ann), "it is given once the connection was ended, and no sooner")
    finally:
        check(carry.end() == 0, carry.told())
        check(" slow 0 " in carry.told(), carry.told())


def nodes_are_linked(program, folder):
    port = free_ports(4)
    set_up(folder, PLAN, "--local", str(port))
    nodes = [Carry(program, folder, number) for number in (0, 1)]
    try:
        for node in nodes:
            node.ready()
        for node in nodes:
            wait_for(lambda: "is linked to" in node.told(), node.told())
        text = [b"%d" % number + b" x" * (number % 900) for number in range(2000)]
        nodes[0].says(b"".join(b"1 0 " + line + b"\n" for line in text)), nodes[1].says(b"0 1 back\n")
        wait_for(lambda: len(nodes[1].lines()) == 2000, "lines are wanting", 20)
        check(nodes[1].lines() == [b"1 0 " + line for line in text], "lines are not as they were sent")
        nodes[0].gets(b"0 1 back")
        nodes[1].process.kill()
        nodes[1].process.wait()
        nodes[1].out.close()
        nodes[0].says(b"1 0 lost\n")
        nodes[1] = Carry(program, folder, 1).ready()
        wait_for(lambda: "is linked to" in nodes[1].told(), nodes[1].told())
        nodes[0].says(b"1 0 again\n")
        nodes[1].gets(b"1 0 again")
        check(b"1 0 lost" not in nodes[1].lines(), "a line for a node that is away is kept")
    finally:
        for node in nodes:
            node.end()


def an_older_journal(program, folder):
    """A node whose session begins an operation again that it had begun is heard no more, until files are read again.
    Sessions of others, replies and whatever has another form say nothing of it.
    """
    path = os.path.join(folder, "metrics")
    carry = fresh(program, folder, PLAN, NODE, "--metrics", path)
    older = lambda told: told.of("carrier_journal_older", 'peer="1"')
    letter = lambda tenant, session, operation, what="ask": f"{tenant} {session} {operation} 1 0 0 {what}".encode()
    linked = lambda: come(carry, "1", carry.for_nodes)

    def says(made, *lines):
        made.sendall(b"".join(line + b"\n" for line in lines))

    try:
        made = linked()
        says(made, letter("ann", 1, 7), letter("ann", 1, 7, "store 1 1 -"), letter("ann", 2, 900), letter("bob", 1, 3), letter("ann", 1, 2048))
        others = [letter("ann", 1, 5, "stored"), letter("ann", 1, 5, "copy 0 0 -"), letter("ann", 1, 5, "tag 1 1"), letter("ann", 1, 5, "want"), b"ann 1 5", b"ann 1 5 ask", b"ann fetch 1 5", b"speaks 3", b"ann 1 x 1 0 0 ask", b"ann  1 5 1 0 0 ask"]
        says(made, *others, letter("ann", 1, 2048), letter("ann", 1, 3072, "confirm 9 1"), letter("bob", 2, 1))
        carry.gets(*(b"0 1 " + line for line in others), b"0 1 bob 2 1 1 0 0 ask")
        made.close()
        made = linked()  # (a start goes on above what is reserved)
        says(made, letter("ann", 1, 4097), letter("bob", 1, 1025, "confirm 1 1"))
        carry.gets(b"0 1 ann 1 4097 1 0 0 ask", b"0 1 bob 1 1025 1 0 0 confirm 1 1")
        carry.tells(path, lambda told: older(told) == 0, "it is older")
        check("older journal" not in carry.told(), carry.told())
        for operation, last in ((3073, "ask 3 1"), (4096, "store 7 1 -")):
            says(made, letter("ann", 2, 901), letter("ann", 1, operation, last), letter("ann", 2, 902))
            check(meets_end(made), "it is heard")
            check(is_refused(linked), "it is heard when it comes again")
            carry.tells(path, lambda told: older(told) == 1, "it is not told")
            told = f"node 1 goes on from an older journal: session 1 of ann is at operation {operation}, and was at 4097"
            check(told in carry.told(), carry.told())
            check(letter("ann", 1, operation, last) not in b"\n".join(carry.lines()), "its letter is given")
            carry.process.send_signal(signal.SIGHUP)
            carry.tells(path, lambda told: older(told) == 0, "it is older behind a reload")
            made = linked()
        says(made, letter("ann", 1, 5121))
        carry.gets(b"0 1 ann 1 5121 1 0 0 ask")
        other = come(carry, "ann")  # (a tenant says nothing of a node)
        other.sendall(letter("ann", 1, 1) + b"\n")
        carry.gets(b"0 ann ann 1 1 1 0 0 ask")
        made.sendall(letter("ann", 1, 5122)[:9])
        time.sleep(0.2)
        says(made, letter("ann", 1, 5122)[9:], letter("ann", 1, 5121))
        check(meets_end(made), "it is heard behind a line that came in parts")
        other.close()
    finally:
        carry.end()


def a_number_that_is_held_twice(program, folder):
    """Of two who hold a node's number the one with the later certificate is it, whoever came last, also while it is
    away. It is told and counted.
    """
    path = os.path.join(folder, "metrics")
    carry = fresh(program, folder, PLAN, NODE, "--metrics", path)
    named = lambda context, address="127.0.0.1": context.wrap_socket(
        socket.create_connection(("127.0.0.1", carry.for_nodes), 5, (address, 0)), server_hostname="node0"
    )
    counted = lambda told: told.of("carrier_second_holders_total", 'peer="1"')
    try:
        early = context_of(carry.links, "1")
        time.sleep(1.1)  # (certificates begin at a whole second)
        for ending in ("crt", "key"):
            os.unlink(os.path.join(carry.links, "secret", f"1.{ending}"))
        set_up(folder)
        late = context_of(carry.links, "1")
        first = named(early)
        wait_for(lambda: "node 0 is linked to node 1" in carry.told(), carry.told())
        first.settimeout(5)
        second = named(late)
        check(meets_end(first), "who has the earlier certificate stays")
        check("held twice" not in carry.told(), f"a renewed certificate is told: {carry.told()}")
        check(is_refused(lambda: named(early)), "who has the earlier certificate takes over")
        wait_for(lambda: "node 1 is held twice: one with an earlier certificate is refused, at " in carry.told(), carry.told())
        second.sendall(b"still here\n")
        carry.gets(b"0 1 still here")
        carry.tells(path, lambda told: counted(told) == 1, "it is not counted")
        second.close()
        wait_for(lambda: "is not linked to node 1 any more" in carry.told(), carry.told())
        check(is_refused(lambda: named(early)), "who has the earlier certificate comes once the other one is away")
        third = named(late)
        third.sendall(b"once more\n")
        carry.gets(b"0 1 once more")
        other = named(late, "127.0.0.2")
        other.sendall(b"from another address\n")
        carry.gets(b"0 1 from another address")
        carry.tells(path, lambda told: counted(told) == 3, "one from another address is not counted")
        other.close(), third.close()
    finally:
        carry.end()


def a_still_node(program, folder):
    """It reads nothing, and writes: the carrier's memory stays, and ticks don't heap up."""
    carry = fresh(program, folder, PLAN, STILL)
    try:
        before = carry.memory()
        with come(carry, "ann") as ann, come(carry, "bob") as bob:
            ann.settimeout(1)
            sent = 0
            with contextlib.suppress(OSError):
                while sent < 100_000_000:
                    sent += ann.send(b"read 1 1 0 0\n" * 1000)
            check(sent < 20_000_000, f"{sent} bytes are taken for a node that reads nothing")
            bob.sendall(b"read 1 1 0 0\n")
            carry.says(b"bob 0 done read 1 1 tag 0 0 -\n")
            check(hear(bob) == [b"done read 1 1 tag 0 0 -"], "bob is not told")
            check(carry.memory() < before + (8 << 20), f"memory went from {before} to {carry.memory()}")
    finally:
        carry.end()


def reader_of(carry):
    """The process of the stand-in that reads."""
    node = subprocess.run(["pgrep", "-P", str(carry.process.pid)], stdout=subprocess.PIPE, text=True).stdout.split()
    return int(subprocess.run(["pgrep", "-P", node[0]], stdout=subprocess.PIPE, text=True).stdout.split()[0])


def ticks(program, folder):
    carry = fresh(program, folder, PLAN, NODE, "--tick", "0.05")
    try:
        time.sleep(1)
        check(10 <= carry.ticks() <= 25, f"{carry.ticks()} ticks in a second")
        reader = reader_of(carry)
        os.kill(reader, signal.SIGSTOP)
        time.sleep(1.5)
        before = carry.ticks()
        os.kill(reader, signal.SIGCONT)
        time.sleep(0.2)
        check(carry.ticks() - before <= 6, f"{carry.ticks() - before} ticks waited for one that stood still")
    finally:
        carry.end()


def ticks_while_a_node_is_silent(program, folder):
    """By a plan with chunks a tick comes each 2.25 s, and more often while a node that was asked tells nothing; but not while this one asks for chunks that it lacks."""

    def come(seconds):
        before = carry.ticks()
        time.sleep(seconds)
        return carry.ticks() - before

    carry = fresh(program, folder, CHUNKS)
    try:
        for line in (b"1 0 speaks 3\n", b"1 0 ann 1 5 1 0 0 copy 7 1 00\n"):  # (what wants no answer)
            carry.says(line)
        check(come(3) <= 2, "ticks come quickly, and nobody was asked")
        carry.says(b"1 0 ann 1 5 1 0 0 ask\n")
        wait_for(lambda: come(3) > 4, "ticks come slowly while a node is silent", 10 * SOON)
        carry.says(b"1 0 ann seeks 1 1 0\n")
        time.sleep(0.5)
        check(come(3) <= 2, "ticks come quickly while chunks are lacking")
    finally:
        carry.end()


def a_burst(program, folder):
    """While the node reads nothing, few lines of ann's burst are given to it, and so bob's line comes right behind these."""
    path = os.path.join(folder, "0.prom")
    carry = fresh(program, folder, PLAN, NODE, "--metrics", path)
    try:
        with come(carry, "ann") as ann, come(carry, "bob") as bob:
            reader = reader_of(carry)
            os.kill(reader, signal.SIGSTOP)
            ann.sendall(b"read 1 1 0 0\n" * 1000)
            carry.tells(path, lambda told: told.of("tenant_lines_total", 'tenant="ann"') == 1000, "ann's lines are not taken")
            bob.sendall(b"read 1 1 0 0\n")
            carry.tells(path, lambda told: told.of("tenant_lines_total", 'tenant="bob"') == 1, "bob's line is not taken")
            os.kill(reader, signal.SIGCONT)
            carry.gets(b"0 bob read 1 1 0 0")
            place = carry.lines().index(b"0 bob read 1 1 0 0")
            check(place <= 32, f"{place} lines of a burst stand before another's line")  # (the reader may have had some already)
            wait_for(lambda: len(carry.lines()) == 1001, f"{len(carry.lines())} of 1001 lines are given")
    finally:
        carry.end()


def long_answers(program, folder):
    """A tenant pays for the long lines that the node writes for it, answers and letters, and for no short ones, nor for another's."""
    path = os.path.join(folder, "0.prom")
    carry = fresh(program, folder, WIDE, NODE, "--metrics", path)
    many = 192
    over = lambda told, name: told.of("tenant_over_rate_seconds_total", f'tenant="{name}"')
    told_so = lambda holds, what: carry.tells(path, holds, what)
    try:
        with come(carry, "ann") as ann, come(carry, "bob") as bob:
            ann.sendall(b"read 1 1 0 0\n"), bob.sendall(b"read 1 1 0 0\n")
            carry.gets(b"0 ann read 1 1 0 0", b"0 bob read 1 1 0 0")
            carry.says(b"ann 0 done read 1 1 tag 0 0 -\n" * 10_000)
            told = told_so(lambda told: told.of("carrier_lines_out_total") >= 10_000, "short answers are not told")
            check((over(told, "ann"), over(told, "bob")) == (0, 0), f"somebody pays for short answers: {told}")
            waited = 0
            for what, line in (("answers", b"ann 0 done read 1 1 tag 0 0 "), ("letters", b"1 0 ann 1 1 2 0 0 store 1 1 ")):
                for _ in range(many):
                    carry.says(line + LONG + b"\n")
                told = told_so(lambda told: over(told, "ann") > waited + 0.02, f"ann pays nothing for long {what}")
                waited = over(told, "ann")
            check(over(told, "bob") == 0, f"bob pays for another's: {told}")
            begun = time.monotonic()
            bob.sendall(b"read 1 2 0 0\n")
            carry.gets(b"0 bob read 1 2 0 0")
            check(time.monotonic() - begun < 0.5, "bob waits for what ann has used")
    finally:
        carry.end()


def a_slow_reader(program, folder):
    """Ann reads nothing: lines for her are dropped, her connection ends, and bob gets his answer at once."""
    carry = fresh(program, folder)
    try:
        before = carry.memory()
        with come(carry, "ann") as ann, come(carry, "bob") as bob:
            ann.sendall(b"read 1 1 0 0\n"), bob.sendall(b"read 1 1 0 0\n")
            carry.gets(b"0 ann read 1 1 0 0", b"0 bob read 1 1 0 0")
            begun = time.monotonic()
            for _ in range(200):
                carry.says(b"".join(b"ann 0 done read 1 1 tag 0 0 " + b"ab" * 1900 + b"\n" for _ in range(50)) + b"bob 0 done read 1 1 tag 0 0 -\n")
            check(time.monotonic() - begun < 10, "the node waits for a reader")
            check(len(hear(bob, 200)) >= 200, "bob is not told")
            check(carry.memory() < before + (12 << 20), f"memory went from {before} to {carry.memory()}")
            carry.process.send_signal(signal.SIGUSR1)
            wait_for(lambda: re.search(r"slow [1-9]", carry.told()), "nothing was dropped")
            check(not gone(ann), "it has ended at once")
            wait_for(lambda: gone(ann), "a reader that takes nothing stays", 20)
    finally:
        carry.end()


def gone(made):
    """Whether the other end has ended this connection. (Nothing is read from it, so its own end of it tells.)"""
    own, other = made.getsockname()[1], made.getpeername()[1]
    with open("/proc/net/tcp", encoding="ascii") as file:
        ends = [line.split()[1:4] for line in file.read().splitlines()[1:]]
    return not any(local.endswith(f":{other:04X}") and remote.endswith(f":{own:04X}") and state == "01" for local, remote, state in ends)


def too_many(program, folder):
    carry = fresh(program, folder)
    try:
        here = [come(carry, "ann") for _ in range(32)]
        check(is_refused(lambda: come(carry, "ann")), "a tenant has more than 32 connections")
        here[0].sendall(b"read 1 1 0 0\n")
        carry.gets(b"0 ann read 1 1 0 0")
        silent = [socket.create_connection(("127.0.0.1", carry.for_tenants)) for _ in range(60)]
        begun = time.monotonic()
        with come(carry, "bob") as bob:
            bob.sendall(b"read 2 1 0 0\n")
            carry.gets(b"0 bob read 2 1 0 0")
        check(time.monotonic() - begun < 5, "those who say nothing keep others out")
        silent += [socket.create_connection(("127.0.0.1", carry.for_nodes)) for _ in range(60)]
        with come(carry, "1", carry.for_nodes) as node:
            node.sendall(b"ann 1 1 1 0 0 ask\n")
            carry.gets(b"0 1 ann 1 1 1 0 0 ask")
        for made in here + silent:
            made.close()
        wait_for(lambda: not is_refused_now(carry), "who has left is still counted")
    finally:
        carry.end()


def is_refused_now(carry):
    with come(carry, "ann") as ann:
        ann.sendall(b"read 3 1 0 0\n")
        try:
            ann.settimeout(0.2)
            return ann.recv(1) == b""
        except (TimeoutError, ssl.SSLError):
            return False
        except OSError:
            return True


def long_lines(program, folder):
    """Lines of 2 MiB, and thirty beginnings of such lines at once."""
    carry = fresh(program, folder, ROOM)
    try:
        before = carry.memory()
        content = b"5a" * (1 << 20)
        with come(carry, "ann") as ann:
            ann.sendall(b"write 1 1 0 0 " + content + b"\n")
            wait_for(lambda: b"0 ann write 1 1 0 0 " + content in carry.lines(), "a long line is wanting", 20)
            carry.says(b"ann 0 done read 1 1 tag 0 0 " + content + b"\n")
            check(hear(ann)[0] == b"done read 1 1 tag 0 0 " + content, "a long answer is another")
        many = []
        for _ in range(30):
            with contextlib.suppress(OSError):
                many.append(come(carry, "ann"))
                many[-1].sendall(b"write 1 1 0 0 " + b"5a" * 1_000_000)
        time.sleep(0.5)
        check(carry.memory() < before + (48 << 20), f"memory went from {before} to {carry.memory()}")
        for made in many:
            made.close()
        with come(carry, "ann") as ann:
            ann.sendall(b"short\n")
            carry.gets(b"0 ann short")
    finally:
        carry.end()


def what_a_tenant_of_many_volumes_has(program, folder):
    """A line of 400 bytes, and 15 for each line `open` of ann, goes to her; one byte more does not."""
    carry = fresh(program, folder, RUNS)
    try:
        longest = b"plan ".ljust(400 + 15 * 600 - len(b"ann 0 "), b"1")
        with come(carry, "ann") as ann:
            carry.says(b"ann 0 " + longest + b"1\nann 0 " + longest + b"\n")
            check(without_clock(hear(ann))[0] == longest, "what ann has does not come, or something longer")
    finally:
        carry.end()


def its_end(program, folder):
    """Ann begins to read when the node has ended: the carrier has what doesn't fit between them, and waits for a second."""
    carry = fresh(program, folder, ROOM)
    with come(carry, "ann") as ann:
        ann.sendall(b"read 1 1 0 0\n")
        carry.gets(b"0 ann read 1 1 0 0")
        text = [b"done read 1 1 tag 0 %d " % number + b"ab" * 600_000 for number in range(6)]
        for line in text:
            carry.says(b"ann 0 " + line + b"\n")
        carry.out.close()
        carry.out = None
        time.sleep(0.3)
        check(hear(ann, 6) == text, "last lines are lost")
    check(carry.process.wait(10) == 0 and "ended with status 0" in carry.told(), carry.told())


def its_words(program, folder):
    set_up(folder, PLAN, "--local", str(free_ports(4)))
    links = os.path.join(folder, "links")
    good = {"--hosts": "hosts", "--ca-file": "ca.crt", "--certificate": "secret/0.crt", "--key": "secret/0.key"}
    os.chmod(os.path.join(links, "secret", "1.key"), 0o644)
    with open(os.path.join(links, "none"), "w") as out:
        out.write("1 127.0.0.1:5 127.0.0.1:6\n")
    for change, status, says in (({"--hosts": "no"}, 1, "No such file"), ({"--hosts": "none"}, 1, "no line of node 0"), ({"--ca-file": "secret/0.key"}, 1, "secret/0.key"), ({"--key": "secret/ann.key"}, 1, "secret/ann.key"), ({"--key": "secret/1.key"}, 1, "others may read"), ({"--denied": "no"}, 1, "No such file"), ({"--port": "1"}, 2, "no such word"), ({"--tick": "0"}, 2, "--tick")):
        words = [word for key, value in {**good, **change}.items() for word in (key, value if key == "--tick" else os.path.join(links, value))]
        done = subprocess.run([program, *words, "--bind", "127.0.0.1", "0", "--", "cat"], stdin=subprocess.DEVNULL, stdout=subprocess.PIPE, stderr=subprocess.PIPE, text=True, timeout=20)
        check(done.returncode == status and says in done.stderr, f"{change}: {done.returncode} {done.stderr[:300]}")
    done = subprocess.run([program, *(word for key, value in good.items() for word in (key, os.path.join(links, value))), "--bind", "127.0.0.1", "0", "--", "sh", "-c", "exit 4"], stdin=subprocess.DEVNULL, stdout=subprocess.PIPE, stderr=subprocess.PIPE, text=True, timeout=20)
    check(done.returncode == 4, f"the node's status is lost: {done.returncode}")


def odd_files(program, folder):
    """A number of a certificate counts in each form in which openssl tells it; a file with an odd line takes nothing away."""
    carry = fresh(program, folder)
    try:
        kept = context_of(carry.links, "ann")
        shown = subprocess.run(["openssl", "x509", "-in", os.path.join(carry.links, "secret", "ann.crt"), "-noout", "-serial"], stdout=subprocess.PIPE, text=True).stdout.strip()
        number = shown.partition("=")[2]
        pairs = ":".join(number[at : at + 2] for at in range(0, len(number), 2)).lower()
        for form in (shown, pairs, f" {number}\t# ann's", f"0x{number}", f"00{number}", f"{number} ann", f"no number\n{number}"):
            with open(os.path.join(carry.links, "denied"), "w") as out:
                out.write(form + "\n")
            carry.process.send_signal(signal.SIGHUP)
            time.sleep(0.3)
            check(is_refused(lambda: come(carry, None, context=kept)), f"denied as {form!r} and taken")
            with open(os.path.join(carry.links, "denied"), "w") as out:
                out.write("# nobody\n")
            carry.process.send_signal(signal.SIGHUP)
            time.sleep(0.3)
            check(is_taken(carry, lambda: come(carry, None, context=kept), form.encode().hex()), "nobody is denied, and ann is not taken")
        check("denied: line 1 is no number" in carry.told(), carry.told())
    finally:
        check(carry.end() == 0, carry.told())


def hosts_amid_a_write(program, folder):
    port = free_ports(4)
    links = set_up(folder, PLAN, "--local", str(port))
    nodes = [Carry(program, folder, number) for number in (0, 1)]
    try:
        for node in nodes:
            node.ready()
        for node in nodes:
            wait_for(lambda: "is linked to" in node.told(), node.told())
        with open(os.path.join(links, "hosts")) as file:
            own, other = file.read().splitlines()
        for text, told in ((f"{own}\nodd\n{other}\n", "hosts: line 2"), ("", "no line of node 0"), (f"{own}\n1 127.0.0.1:70000 127.0.0.1:1\n", "hosts: line 2")):
            before = nodes[0].told().count(told)
            with open(os.path.join(links, "hosts"), "w") as out:
                out.write(text)
            nodes[0].process.send_signal(signal.SIGHUP)
            wait_for(lambda: nodes[0].told().count(told) > before, nodes[0].told())
            time.sleep(0.3)
            check("not linked" not in nodes[0].told(), f"a link is lost by the file of hosts: {nodes[0].told()}")
        with open(os.path.join(links, "hosts"), "w") as out:
            out.write(f"0 127.0.0.1:1 127.0.0.1:2\n{other}\n")
        nodes[0].process.send_signal(signal.SIGHUP)
        wait_for(lambda: "hosts: node 0 has other ports there: it takes them at its next start" in nodes[0].told(), nodes[0].told())
    finally:
        for node in nodes:
            node.end()


def its_own_ports(program, folder):
    """Of whatever length, and whatever the stack has, it does not say that they are others where they are the same."""
    first = next(port for port in range(9_000, 9_990) if not any(can_connect(each) for each in range(port, port + 4)))
    set_up(folder, PLAN, "--local", str(first))
    carry = Carry(wrapped(program, folder, "fclose", "used_stack"), folder).ready()
    try:
        for number in range(2):
            with open(os.path.join(carry.links, "denied"), "w") as out:
                out.write("odd\n" * (1 + number))
            carry.process.send_signal(signal.SIGHUP)
            wait_for(lambda: f"denied: line {1 + number} is no number" in carry.told(), carry.told())
            time.sleep(0.2)
            check("has other ports" not in carry.told(), carry.told())
    finally:
        carry.end()


def another_authority(program, folder):
    carry = fresh(program, folder)
    try:
        other = set_up(os.path.join(folder, "other"))
        with come(carry, "ann") as ann:
            ann.sendall(b"plan\n")
            carry.gets(b"0 ann plan")
            carry.process.send_signal(signal.SIGHUP)  # (nothing is another yet)
            ann.sendall(b"again\n")
            carry.gets(b"0 ann again")
            for what in ("ca.crt", "secret/0.crt", "secret/0.key"):
                shutil.copy(os.path.join(other, what), os.path.join(carry.links, what))
            carry.process.send_signal(signal.SIGHUP)
            check(meets_end(ann), "one whom an authority before made stays")
    finally:
        carry.end()


def costly_ones(program, folder):
    """Groups that take long to reckon, and new keys without end."""
    carry = fresh(program, folder)
    try:
        place = ["-connect", f"127.0.0.1:{carry.for_tenants}"]
        done = subprocess.run(["openssl", "s_client", *place, "-groups", "ffdhe8192"], stdin=subprocess.DEVNULL, stdout=subprocess.PIPE, stderr=subprocess.STDOUT, text=True, timeout=60)
        check("handshake failure" in done.stdout, f"a group of 8192 bits is taken: {done.stdout[-300:]}")
        secret = [os.path.join(carry.links, "secret", f"ann.{what}") for what in ("crt", "key")]
        with subprocess.Popen(["openssl", "s_client", *place, "-cert", secret[0], "-key", secret[1]], stdin=subprocess.PIPE, stdout=subprocess.DEVNULL, stderr=subprocess.DEVNULL) as ann:
            with contextlib.suppress(BrokenPipeError):
                for turn in range(120):
                    ann.stdin.write(b"K\n")  # (a key update that asks for one)
                    ann.stdin.flush()
                    time.sleep(0.03)
                    if ann.poll() is not None:
                        break
                    if turn == 20:
                        carry.process.send_signal(signal.SIGUSR1)
                        wait_for(lambda: " tenants 1 " in carry.told(), f"twenty new keys are too many: {carry.told()}")
            over = ann.poll() is not None
            ann.terminate()
        check(over, "new keys without end are taken")
    finally:
        carry.end()


def ends_soon(program, folder):
    """A certificate that ends soon is reported at each start, and a new one is taken at SIGHUP."""
    set_up(folder, PLAN, "--local", str(free_ports(4)), "--days", "20")
    carry = Carry(program, folder).ready()
    try:
        check(re.search(r"secret/0\.crt: this certificate ends in (19|20) days\n", carry.told()), carry.told())
        set_up(folder, PLAN)  # (which has it last for a year)
        with come(carry, "ann") as ann:
            carry.process.send_signal(signal.SIGHUP)
            ann.sendall(b"here still\n")
            carry.gets(b"0 ann here still")
        check(carry.told().count("this certificate ends") == 1, carry.told())
    finally:
        carry.end()


def wrapped(program, folder, call, source):
    """A carrier with another function in the place of this one."""
    made = os.path.join(folder, source)
    planted = os.path.join(os.path.dirname(program), "sources")  # (those of a program with a planted fault)
    of = planted if os.path.exists(planted) else os.path.join(DEPLOY, "..", "carrier")
    sources = [os.path.join(of, f"{name}.c") for name in ("node", "metrics", "links", "loop", "stream")]
    words = ["-std=c11", f"-Wl,--wrap={call}", *sources, os.path.join(HERE, f"{source}.c"), "-o", made, "-lssl", "-lcrypto", "-lpthread"]
    subprocess.run([os.environ.get("CC", "cc"), *words], check=True)
    return made


def linked_by_name(program, folder, name, other):
    """Node 1 has this name in the file of hosts: node 0 is linked to another node."""
    links = set_up(folder, THREE, "--local", str(free_ports(6)))
    with open(os.path.join(links, "hosts"), encoding="ascii") as file:
        lines = file.read().replace("1 127.0.0.1:", f"1 {name}:", 1)
    with open(os.path.join(links, "hosts"), "w", encoding="ascii") as out:
        out.write(lines)
    nodes = [Carry(wrapped(program, folder, "getaddrinfo", "slow_name"), folder), Carry(program, folder, other)]
    try:
        for node in nodes:
            node.ready()
        wait_for(lambda: f"is linked to node {other}" in nodes[0].told(), f"node {other} is not linked: {nodes[0].told()}")
    finally:
        for node in nodes:
            node.end()


def a_first_line_behind_a_handshake(program, folder):
    """A line that came with the end of the handshake is taken, though no more bytes come."""
    set_up(folder, PLAN, "--local", str(free_ports(4)))
    carry = Carry(wrapped(program, folder, "SSL_do_handshake", "held_up"), folder).ready()
    try:
        with come(carry, "ann") as ann:
            ann.sendall(b"first\n")
            carry.gets(b"0 ann first")
    finally:
        carry.end()


def a_slow_name(program, folder):
    """Node 1 has a name that takes long to look up: node 2 is dialed meanwhile."""
    linked_by_name(program, folder, "slow.example", 2)


def a_name_of_two_addresses(program, folder):
    """Nobody is at the first address of node 1's name: the next one is tried."""
    linked_by_name(program, folder, "two.example", 1)


def a_node_that_does_not_end(program, folder):
    """It has closed its output: it is killed after ten seconds, also where the carrier is told to end meanwhile."""
    carry = fresh(program, folder, PLAN, "exec 3<{folder}/out.{number}; exec 1>&-; exec sleep 60")
    try:
        carry.process.terminate()
        begun = time.monotonic()
        check(carry.process.wait(30) == 137 and "does not end: it is killed" in carry.told(), carry.told())
        check(time.monotonic() - begun > 5, "it is given no time")
    finally:
        carry.end()


def what_a_denied_one_said(program, folder):
    """Lines of one who is denied, and that the node has not taken yet, are dropped; those of others are not."""
    carry = fresh(program, folder)
    reader = subprocess.run(["pgrep", "-P", str(carry.process.pid)], stdout=subprocess.PIPE, text=True).stdout.split()[0]
    cat = int(subprocess.run(["pgrep", "-P", reader], stdout=subprocess.PIPE, text=True).stdout.split()[0])
    try:
        with come(carry, "ann") as ann, come(carry, "bob") as bob:
            os.kill(cat, signal.SIGSTOP)
            ann.sendall(b"".join(b"early %d " % number + b"x" * 90 + b"\n" for number in range(1000)))
            bob.sendall(b"of bob's\n" * 3)
            wait_for(lambda: carry.process.send_signal(signal.SIGUSR1) or re.findall(r"in (\d+) ", carry.told())[-1:] >= ["1003"], "they do not come")
            ann.sendall(b"late\n")
            time.sleep(0.3)
            set_up(folder, PLAN, "--deny", "ann")
            carry.process.send_signal(signal.SIGHUP)
            check(meets_end(ann), "who is denied stays")
            os.kill(cat, signal.SIGCONT)
            wait_for(lambda: carry.lines().count(b"0 bob of bob's") == 3, "bob's lines are lost")
            time.sleep(1)
            check(b"0 ann late" not in carry.lines() and len(carry.lines()) < 900, f"{len(carry.lines())} lines are given, also of one who is denied")
    finally:
        with contextlib.suppress(ProcessLookupError):
            os.kill(cat, signal.SIGCONT)
        check(carry.end() == 0, carry.told())


def metrics_are_true(program, folder):
    port, path = free_ports(4), os.path.join(folder, "0.prom")
    set_up(folder, WIDE, "--local", str(port))
    nodes = [Carry(program, folder, 0, NODE, "--metrics", path), Carry(program, folder, 1)]
    carry = nodes[0]
    try:
        for node in nodes:
            node.ready()
        begun = time.time()
        told = carry.tells(path, lambda told: told.of("carrier_link_up", 'peer="1"') == 1, "the link is not told")
        check((told.of("node_ready"), told.of("node_last_line_timestamp_seconds"), told.of("node_journal_bytes")) == (0, 0, None), f"before the node is ready: {told}")
        with open(os.path.join(folder, "journal"), "wb") as out:
            out.write(b"x" * 5000)
        carry.says(b" ?\n")
        told = carry.tells(path, lambda told: told.of("node_ready") == 1, "a node that is ready is not told")
        check(begun - 1 < told.of("node_last_line_timestamp_seconds") < time.time() + 1 and told.of("node_journal_bytes") == 5000, f"when it is ready: {told}")
        with come(carry, "ann") as ann, come(carry, "bob"):
            ann.sendall(b"read 1 1 0 0\n" * 10)
            told = carry.tells(path, lambda told: told.of("tenant_lines_total", 'tenant="ann"') == 10, "ann's lines are not told")
            check((told.of("tenant_bytes_total", 'tenant="ann"'), told.of("carrier_lines_in_total"), told.of("carrier_tenant_connections")) == (130, 10, 2), f"of ann's lines: {told}")
            check((told.of("tenant_lines_total", 'tenant="bob"'), told.of("tenant_over_rate_seconds_total", 'tenant="ann"')) == (0, 0), f"of bob's and of waits: {told}")
            carry.says(b"ann 0 done read 1 1 tag 0 0 -\nbob 1 of another\ncid 0 nobody\n")
            told = carry.tells(path, lambda told: told.of("carrier_lines_out_total") == 1, "a line of the node is not told")
            dropped = {reason: told.of("carrier_lines_dropped_total", f'reason="{reason}"') for reason in ("lost", "full", "slow", "long", "strange", "memory")}
            check(dropped == {"lost": 1, "full": 0, "slow": 0, "long": 0, "strange": 1, "memory": 0}, f"of lines that were dropped: {dropped}")
            for _ in range(30):
                ann.sendall(b"write 1 1 0 0 " + LONG + b"\n")
            told = carry.tells(path, lambda told: told.of("tenant_lines_total", 'tenant="ann"') == 40, "long lines are not told")
            check(told.of("tenant_over_rate_seconds_total", 'tenant="ann"') < 1, f"long lines cost as much as short ones: {told}")
            for _ in range(120):
                ann.sendall(b"write 1 1 0 0 " + LONG + b"\n")
            told = carry.tells(path, lambda told: told.of("tenant_lines_total", 'tenant="ann"') == 160, "a flood is not told")
            told = carry.tells(path, lambda told: told.of("tenant_over_rate_seconds_total", 'tenant="ann"') > 1, "that ann had to wait is not told")
            ticks = told.of("node_ticks_total")
            carry.tells(path, lambda told: told.of("node_ticks_total") > ticks, "ticks are not told")
        nodes[1].process.kill()
        carry.tells(path, lambda told: told.of("carrier_link_up", 'peer="1"') == 0, "a link that is lost is not told")
        ends = subprocess.run(["openssl", "x509", "-noout", "-enddate", "-in", os.path.join(carry.links, "secret", "0.crt")], stdout=subprocess.PIPE, text=True).stdout
        check(told.of("carrier_certificate_end_timestamp_seconds") == ssl.cert_time_to_seconds(ends.strip().partition("=")[2]), f"the end of the certificate: {told}")
        carry.out.close()
        carry.out = None
        check(carry.process.wait(10) == 0 and metrics.read(path).of("node_ready") == 0, "a node that has ended is told to be ready")
    finally:
        for node in nodes:
            node.end()


def forms_are_told(program, folder):
    """A node that is ready is to greet the others: soon, and not again at once. What it tells them, and what others tell it, is in the metrics."""
    path = os.path.join(folder, "0.prom")
    set_up(folder, THREE, "--local", str(free_ports(6)))
    carry = Carry(program, folder, 0, NODE, "--metrics", path).ready()
    forms = lambda told: {labels: value for (name, labels), value in told.items() if name.endswith("_line_form")}
    try:
        time.sleep(4)
        check(carry.greets() == 0, "a node that has not read its journal is to greet")
        carry.says(b" ?\n")
        wait_for(lambda: carry.greets(), "a node that is ready is not to greet", 10)
        check(forms(carry.tells(path, lambda told: told.of("node_ready") == 1, "it is not ready")) == {}, "forms that nobody told")
        carry.says(b"1 0 speaks 4294967295\n2 0 speaks 4294967295\n")
        carry.tells(path, lambda told: forms(told) == {"": 4294967295}, "the node's own form")
        with come(carry, "1", carry.for_nodes) as one, come(carry, "2", carry.for_nodes) as two, come(carry, "ann") as ann:
            ann.sendall(b"speaks 7\n")
            two.sendall(b"speaks\nspeaks \nspeaks x\nspeaks 7 \nspeaks 77777777777\nspeak 7\n0 speaks 7\nann speaks 7\n")
            one.sendall(b"speaks 2\nspeaks 0\n")
            carry.gets(b"0 1 speaks 0", b"0 2 ann speaks 7", b"0 ann speaks 7")
            carry.tells(path, lambda told: forms(told) == {"": 4294967295, 'peer="1"': 0}, f"what others tell: {forms(metrics.read(path))}")
            two.sendall(b"speaks 1\n")
            carry.tells(path, lambda told: forms(told) == {"": 4294967295, 'peer="1"': 0, 'peer="2"': 1}, f"what both tell: {forms(metrics.read(path))}")
        check(carry.greets() == 1, f"it is to greet {carry.greets()} times within seconds")
    finally:
        check(carry.end() == 0, carry.told())


def forms_are_told_again(program, folder):
    """Once a minute; and what a node told is believed for three."""
    path = os.path.join(folder, "0.prom")
    carry = fresh(program, folder, PLAN, NODE, "--metrics", path)
    try:
        carry.says(b" ?\n1 0 speaks 1\n")
        with come(carry, "1", carry.for_nodes) as node:
            node.sendall(b"speaks 1\n")
            carry.tells(path, lambda told: told.of("carrier_line_form", 'peer="1"') == told.of("node_line_form") == 1, "the forms are not told")
        time.sleep(150)
        check(carry.greets() == 3, f"in two minutes and a half it is to greet {carry.greets()} times")
        carry.tells(path, lambda told: told.of("carrier_line_form", 'peer="1"') == 1, "a form is forgotten too soon")
        time.sleep(40)
        carry.tells(path, lambda told: told.of("carrier_line_form", 'peer="1"') is None, "a form is never forgotten")
    finally:
        carry.end()


def metrics_are_whole(program, folder):
    """Whoever reads the file has all of it, while it is written anew, and also on a disk that is full. What is wrong is told once, and stops nothing."""
    at = os.path.join(folder, "metrics")
    path = os.path.join(at, "0.prom")
    carry = fresh(program, folder, PLAN, NODE, "--metrics", path)
    told = lambda what: carry.told().count(f"carry: {path}: {what}: there are no metrics\n")

    def asks(times):
        for _ in range(times):
            before = carry.told().count("carry: in ")
            carry.process.send_signal(signal.SIGUSR1)
            wait_for(lambda: carry.told().count("carry: in ") > before, carry.told())

    try:
        asks(3)
        check(told("No such file or directory") == 1, f"a folder that is not there: {carry.told()}")
        os.mkdir(at)
        asks(2)
        is_alone = lambda: os.listdir(at) == ["0.prom"]  # (a file that is being written stands beside it; it is written after what was asked for is told)
        wait_for(is_alone, f"what is there: {os.listdir(at)}")
        check(os.stat(path).st_mode & 0o777 == 0o644, "others can't read it, or can write it")
        until, seen = time.monotonic() + 2, 0
        while time.monotonic() < until:
            carry.process.send_signal(signal.SIGUSR1)
            for _ in range(20):
                seen += metrics.read(path).of("carrier_cut_off_total") is not None
        check(seen > 0, "nothing was read")
        time.sleep(0.3)  # (what was asked for is done)
        with open(path, "rb") as file:
            whole = file.read()
        os.truncate(carry.log, 0)  # (so that it is shorter than the bound)
        resource.prlimit(carry.process.pid, resource.RLIMIT_FSIZE, (3000, resource.RLIM_INFINITY))
        asks(3)
        check(told("File too large") == 1, f"a disk that is full: {carry.told()}")
        wait_for(is_alone, f"what could not be written stays: {os.listdir(at)}")
        with open(path, "rb") as file:
            check(file.read() == whole, "what was there is gone")
        resource.prlimit(carry.process.pid, resource.RLIMIT_FSIZE, (resource.RLIM_INFINITY, resource.RLIM_INFINITY))
        with come(carry, "ann") as ann:
            ann.sendall(b"plan\n")
            carry.gets(b"0 ann plan")
        carry.tells(path, lambda told: told.of("carrier_lines_in_total") == 1, "metrics are not written again")
        os.rename(at, f"{at}.gone")  # (at once: a file may be under way)
        asks(1)
        check(told("No such file or directory") == 1, f"what is wrong again is not told: {carry.told()}")
    finally:
        check(carry.end() == 0, carry.told())


def metrics_as_prometheus_reads(program, folder):
    path = os.path.join(folder, "0.prom")
    carry = fresh(program, folder, PLAN, NODE, "--metrics", path, "--grid", "east")
    try:
        with come(carry, "ann") as ann:
            ann.sendall(b"plan\n")
            told = carry.tells(path, lambda told: told.of("carrier_lines_in_total", 'grid="east"') == 1, "ann's line is not told")
        seen = metrics.as_prometheus_reads(path)
        check(seen.keys() == told.keys() and seen[("carrier_lines_in_total", 'grid="east"')] == 1, f"{seen} and not {told}")
    finally:
        carry.end()


CHECKS = [odd_files, hosts_amid_a_write, its_own_ports, another_authority, costly_ones, who_may_come, a_denied_one_stays_out, who_is_gone_is_told, who_is_dialed, lines_are_whole, answers_go_home, chunks_go_home, a_tenant_who_takes_his_time, nodes_are_linked, a_number_that_is_held_twice, an_older_journal, a_still_node, ticks, ticks_while_a_node_is_silent, a_burst, long_answers, a_slow_reader, too_many, long_lines, what_a_tenant_of_many_volumes_has, its_end, its_words, ends_soon, a_first_line_behind_a_handshake, a_slow_name, a_name_of_two_addresses, a_node_that_does_not_end, what_a_denied_one_said, metrics_are_true, forms_are_told, metrics_are_whole]
LONG_CHECKS = [metrics_as_prometheus_reads, forms_are_told_again]
