"""Contents of 1 KiB, 64 KiB and 1 MiB: what a write and a read of them take, beside `sha256sum` and a plain hexadecimal coder over the same
bytes; and what a node takes to start from a journal of contents of 1 MiB."""

import collections
import os
import random
import resource
import statistics
import subprocess
import sys
import tempfile
import time

HERE = os.path.dirname(os.path.abspath(__file__))
sys.path.insert(0, os.path.join(HERE, "..", "clients", "python"))
sys.path.insert(0, os.path.join(HERE, "..", "tests", "nodes"))
from gridfs_grid.carrier import Carrier, Node, journal_of
from contents import word_of
from journals import sealed
from processes import room, words_of
from gridfs_grid.planned import planned

MIB = 1 << 20
# Bytes of a content, and how many are written and read: the script of the writes has at most 16 MiB.
SIZES = {1 << 10: (5_000, 5_000), 1 << 16: (100, 400), MIB: (7, 30)}
AT_NODES = {1 << 10: 400, 1 << 16: 100, MIB: 12}  # operations of each kind by one session
BESIDE = 64 * MIB
PLAN = "grid 2 2\nroom 65536\ntenant ann 65536 4 1000000 16384\ngo\nann open 4 16384\n"
MESSAGES = 8  # of an operation on 2 by 2
NAMES = "gridfs run", "four nodes", "sha256sum", "hexadecimal digits"
# What a journal has: how many contents of each file, and whether in digits, as nodes wrote them before. The last one is what the node made of the one before it.
JOURNALS = [
    ("in digits, each of another file", 1, True),
    ("in bytes, each of another file", 1, False),
    ("in bytes, sixteen of each file", 16, False),
    ("the last one, written anew", 0, False),
]
# Bytes to digits, or digits to bytes.
CODER = r"""
#include <stdio.h>
static unsigned char in[1 << 16], out[1 << 17];
static int value(int digit) { return digit <= '9' ? digit - '0' : digit - 'a' + 10; }
int main(int count, char **words) {
    size_t size;
    (void)words;
    while ((size = fread(in, 1, sizeof in, stdin)) > 0) {
        if (count > 1) {
            for (size_t i = 0; i < size / 2; i++) out[i] = (unsigned char)(value(in[2 * i]) << 4 | value(in[2 * i + 1]));
            fwrite(out, 1, size / 2, stdout);
        } else {
            for (size_t i = 0; i < size; i++) out[2 * i] = "0123456789abcdef"[in[i] >> 4], out[2 * i + 1] = "0123456789abcdef"[in[i] & 15];
            fwrite(out, 1, 2 * size, stdout);
        }
    }
    return 0;
}
"""


def spent(words, path, output=subprocess.DEVNULL):
    """Seconds by the clock and of the processor that the words take with this input."""
    before, begun = resource.getrusage(resource.RUSAGE_CHILDREN), time.perf_counter()
    with open(path, "rb") as given:
        subprocess.run(words, stdin=given, stdout=output, stderr=subprocess.DEVNULL, check=True)
    after = resource.getrusage(resource.RUSAGE_CHILDREN)
    return time.perf_counter() - begun, after.ru_utime + after.ru_stime - before.ru_utime - before.ru_stime


def best(each):
    """Of some turns the least time by the clock, and the least of the processor."""
    return min(clock for clock, _ in each), min(used for _, used in each)


def scripts(folder, size):
    """The paths of three scripts: one write, all writes, and one write with all reads behind it."""
    writes, reads = SIZES[size]
    draw, paths = random.Random(size), []
    for name, kinds in ("one", ["write"]), ("writes", ["write"] * writes), ("reads", ["write"] + ["read"] * reads):
        paths.append(os.path.join(folder, f"{name}{size}"))
        with open(paths[-1], "w", encoding="ascii") as out:
            out.write(PLAN)
            for at, kind in enumerate(kinds):
                out.write(f"ann {kind} 1 0 0" + (f" {draw.randbytes(size).hex()}" if kind == "write" else "") + "\n")
                out.writelines(f"ann deliver {MESSAGES * at + message}\n" for message in range(MESSAGES))
    return paths


class Nodes:
    """Four nodes over pipes, and one session that does one thing after another."""

    def __init__(self, program, folder):
        plan = os.path.join(folder, "plan")
        with open(plan, "w", encoding="ascii") as out:
            out.write(PLAN)
        count = len(planned(program, PLAN).nodes)
        self.nodes = [Node(program, number, plan, journal_of(folder, number)) for number in range(count)]
        self.carrier, self.told, self.number = Carrier(self.nodes, self.hear, self.fall, 3600), None, 0
        self.carrier.most_waiting = 64 * MIB
        for node in self.nodes:
            node.start(True, stderr=subprocess.DEVNULL)
        while not all(node.is_ready for node in self.nodes):
            self.carrier.turn(0.1)

    def hear(self, line):
        self.told = line

    def fall(self, node, status):
        sys.exit(f"bench: node {node.number} has ended with status {status}")

    def used(self):
        """What the nodes took of the processors until now."""
        used = 0
        for node in self.nodes:
            with open(f"/proc/{node.child.pid}/schedstat", encoding="ascii") as file:
                used += int(file.read().split()[0]) / 1e9
        return used

    def ask(self, kind, content=b""):
        """Seconds by the clock and of the nodes' processors for one operation."""
        self.number, self.told, before, begun = self.number + 1, None, self.used(), time.perf_counter()
        self.carrier.send(b"0 ann %s 1 %d 0 0%s" % (kind, self.number, content))
        while self.told is None:
            self.carrier.turn(1)
        seconds = time.perf_counter() - begun
        if not self.told.startswith(b"ann 0 done %s 1 %d " % (kind, self.number)):
            sys.exit(f"bench: a node says {self.told[:80]!r}")
        return seconds, self.used() - before

    def end(self):
        for node in self.nodes:
            node.gone()


def at_nodes(program, size, count):
    """Of so many writes and reads the median by the clock, and the mean of the processors (a journal is written anew now and then)."""
    with room() as folder:
        nodes, draw, found = Nodes(program, folder), random.Random(size), []
        try:
            for kind in (b"write", b"read"):
                taken = [nodes.ask(kind, b" " + draw.randbytes(size).hex().encode() if kind == b"write" else b"") for _ in range(count)]
                found.append((statistics.median(clock for clock, _ in taken), statistics.mean(used for _, used in taken)))
        finally:
            nodes.end()
    return found


def start(program, folder):
    """Seconds by the clock and of the processor until a node is ready and has ended, and how many facts it read."""
    words = words_of(program, 0, "plan", "journal")
    before, begun = resource.getrusage(resource.RUSAGE_CHILDREN), time.perf_counter()
    done = subprocess.run(words, stdin=subprocess.DEVNULL, stdout=subprocess.DEVNULL, stderr=subprocess.PIPE, cwd=folder, check=True)
    after = resource.getrusage(resource.RUSAGE_CHILDREN)
    used = after.ru_utime + after.ru_stime - before.ru_utime - before.ru_stime
    return time.perf_counter() - begun, used, int(done.stderr.split()[-2])


def write_journal(folder, facts, times, in_digits):
    """A journal of so many facts of 1 MiB, so many of each file."""
    files = max(1, facts // times)
    plan = f"grid 2 2\nroom {16384 * files}\ntenant ann {16384 * files} 4 1 16384\ngo\n"
    plan += "".join(f"ann open {min(64, files - at)} 16384\n" for at in range(0, files, 64))
    with open(os.path.join(folder, "plan"), "w", encoding="ascii") as out:
        out.write(plan)
    with open(os.path.join(folder, "journal"), "wb") as out:
        out.write(sealed(1, b"node 0 of 2 by 2\n" + plan.encode()))
        for at in range(facts):
            file, content = at % files, os.urandom(MIB).hex().encode()
            out.write(sealed(at + 2, b"kept ann %d %d %d 4 %s\n" % (file // 64, file % 64, at + 1, content if in_digits else word_of(content))))


def starts(program, mib, turns, sha):
    """Prints what a start takes from a journal of so many MiB, and from the one that the node made of it."""
    with room() as folder:
        for what, times, in_digits in JOURNALS:
            journal = os.path.join(folder, "journal")
            if times:
                write_journal(folder, mib // 2, times, in_digits)
            else:
                subprocess.run(words_of(program, 0, "plan", "journal"), input=b"0 ann read 1 1 0 0\n", stdout=subprocess.DEVNULL, stderr=subprocess.DEVNULL, cwd=folder, check=True)
            size, taken = os.path.getsize(journal), [start(program, folder) for _ in range(turns)]
            clock, used = min(it[0] for it in taken), min(it[1] for it in taken)
            print(f"a start from {size / MIB:.0f} MiB {what}: {clock:.2f} s, {used:.2f} of the processor, {taken[0][2]} facts; {size / used / sha:.2f} of sha256sum's bytes a second", flush=True)
            if not times:
                break


def report(program, node, turns, mib):
    with room() as folder, tempfile.TemporaryDirectory() as built:
        coder = os.path.join(built, "coder")
        subprocess.run([os.environ.get("CC", "cc"), "-O2", "-x", "c", "-o", coder, "-"], input=CODER.encode(), check=True)
        plain, digits = os.path.join(folder, "plain"), os.path.join(folder, "digits")
        with open(plain, "wb") as out:
            out.write(os.urandom(BESIDE))
        with open(digits, "wb") as out:
            subprocess.run([coder], stdin=open(plain, "rb"), stdout=out, check=True)
        paths, taken = {size: scripts(folder, size) for size in SIZES}, collections.defaultdict(list)
        for _ in range(turns):
            for size, (one, writes, reads) in paths.items():
                for name, path in ("one", one), ("writes", writes), ("reads", reads):
                    taken[name, size].append(spent([program, "run"], path))
                for kind, found in zip(("write", "read"), at_nodes(node, size, AT_NODES[size])):
                    taken[kind, size].append(found)
            taken["sha"].append(spent(["sha256sum"], plain))
            taken["coded"].append(spent([coder], plain))
            taken["decoded"].append(spent([coder, "back"], digits))
    sha, coded, decoded = (BESIDE / best(taken[name])[1] for name in ("sha", "coded", "decoded"))
    print(f"sha256sum {sha / MIB:.0f} MiB a second of the processor; bytes to digits {coded / MIB:.0f}, digits to bytes {decoded / MIB:.0f}; best of {turns} turns")
    for size, (writes, reads) in SIZES.items():
        one = best(taken["one", size])[1]
        for kind, count, plain_coder in ("write", writes - 1, decoded), ("read", reads, coded):
            run = size * count / max(best(taken[f"{kind}s", size])[1] - one, 1e-6)
            clock, used = best(taken[kind, size])
            print(
                f"{kind} of {size // 1024} KiB: gridfs run {run / MIB:.1f} MiB a second, {run / sha:.2f} of sha256sum, {run / plain_coder:.2f} of the coder; "
                f"four nodes {size / clock / MIB:.2f} MiB a second by the clock, {clock * 1000:.1f} ms, and of the processors {used * 1000:.1f} ms, {size / used / sha:.3f} of sha256sum",
                flush=True,
            )
    starts(node, mib, turns, sha)
