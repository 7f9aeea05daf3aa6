"""Names over real nodes of a plan with room: contents of many sizes, some at once, kills amid a long put, and as many names as are wanted."""

import contextlib
import os
import signal
import subprocess
import sys
import time
from concurrent.futures import ThreadPoolExecutor

from commands import CLIENT, PYTHON, SECONDS, TOP
from histories import Held

from gridfs_client import NamedFiles, Session, SocketCarrier, ask_plan, layout_of

PLAN = os.path.join(TOP, "examples", "nodes", "plan-in-chunks")
TENANT = "carol"
SIZES = {"1 KiB": 1 << 10, "100 KiB": 100 << 10, "2 MB": 2_000_000}
LONG, MOST_MEMORY = 60_000_000, 64  # bytes of a content, and MiB of the client that moves it
MORE_REQUESTS = 3  # that an operation may take among many names
SHORT = b"as small as a word is"


class Grid:
    """A grid in the folder `grid`, whose nodes can be killed and started."""

    def __init__(self, program, plan=PLAN, *more):
        with open("told", "wb") as told:
            words = [os.path.join(TOP, "grid"), "--lines", *more, "--program", program, "--plan", plan, "grid"]
            self.process = subprocess.Popen(words, stdin=subprocess.PIPE, stdout=told, stderr=told)
        until = time.monotonic() + SECONDS
        while b"nodes are up" not in self.told():
            if self.process.poll() is not None or time.monotonic() > until:
                raise OSError(f"./grid did not start: {self.told()!r}")
            time.sleep(0.02)

    def told(self):
        with open("told", "rb") as told:
            return told.read()

    def ask(self, line):
        self.process.stdin.write(line.encode() + b"\n")
        self.process.stdin.flush()

    def end(self):
        self.process.stdin.close()
        self.process.wait(SECONDS)


@contextlib.contextmanager
def grid_of(program, plan=PLAN, *more):
    started = Grid(program, plan, *more)
    try:
        yield started
    finally:
        started.end()


grid = grid_of


def begin(*words, given=None, tenant=TENANT):
    environment = {**os.environ, "GRIDFS_CONFIG": f"grid/{tenant}.ini", "GRIDFS_LOCKS": "locks"}
    if given is not None:
        with open("given", "wb") as out:
            out.write(given)
        words = tuple("given" if word == "-" else word for word in words)
    return subprocess.Popen([PYTHON, "-B", CLIENT, *words], stdout=subprocess.PIPE, stderr=subprocess.PIPE, env=environment)


def run(*words, given=None, **more):
    """A command to its end: status and standard output."""
    command = begin(*words, given=given, **more)
    told, why = command.communicate(timeout=4 * SECONDS)
    return command.returncode, told if command.returncode == 0 else why


class Seen:
    def __init__(self):
        self.count, self.wrong = 0, []

    def held(self, name, seen, wanted):
        self.count += 1
        if seen != wanted:
            self.wrong.append(f"{name}: {str(seen)[:100]}")


MOMENTS, NODES = (0.2, 0.3, 0.45, 0.6), 4  # seconds behind which a put's client is killed, and the nodes that are


def contents(program, moments=len(MOMENTS), killed=NODES):
    """Contents of each size, alone and by four commands at once, and what is left when a client or a node is killed amid a put."""
    seen = Seen()
    with grid(program) as nodes:
        for name, size in SIZES.items():
            content = os.urandom(size)
            seen.held(f"put of {name}", run("put", "-", name, given=content), (0, b""))
            seen.held(f"get of {name}", run("get", name), (0, content))
        content = os.urandom(SIZES["2 MB"])
        for tenant in ("ann", "bob"):
            seen.held(f"put of {tenant}", run("put", "-", "name", given=content, tenant=tenant), (0, b""))
            seen.held(f"get of {tenant}", run("get", "name", tenant=tenant), (0, content))
        several = [begin("put", "-", f"at once {number}", given=content) for number in range(4)]
        seen.held("four puts at once", [each.wait(SECONDS) for each in several], [0] * 4)
        several = [begin("get", f"at once {number}") for number in range(4)]
        with ThreadPoolExecutor(4) as pool:
            seen.held("four gets at once", [each[0] == content for each in pool.map(lambda it: it.communicate(timeout=SECONDS), several)], [True] * 4)
        kill_clients(seen, MOMENTS[:moments])
        kill_nodes(nodes, seen, range(NODES - killed, NODES))
    return f"{seen.count} compared: {', '.join(SIZES)}; four at once; kills of clients and nodes", seen.wrong


def kill_clients(seen, moments, name="2 MB"):
    held = Held(run("get", name)[1])
    for number, moment in enumerate(moments):
        content = os.urandom(SIZES[name])
        put = begin("put", "-", name, given=content)
        time.sleep(moment)
        put.send_signal(signal.SIGKILL)
        put.communicate()
        held.put(content, put.returncode == 0)
        status, told = run("get", name)
        seen.held(f"what is held after a client was killed, {number}", (status, held.take(told)), (0, True))


def kill_nodes(nodes, seen, numbers, name="2 MB"):
    """A node is killed amid a put, and started again amid it or behind it."""
    held = os.urandom(SIZES[name])
    seen.held("put before nodes are killed", run("put", "-", name, given=held), (0, b""))  # (so that no put that was killed before takes effect any more)
    for number in numbers:
        content = os.urandom(SIZES[name])
        put = begin("put", "-", name, given=content)
        time.sleep(0.3)
        nodes.ask(f"kill {number}")
        time.sleep(0.2)
        if number % 2:
            nodes.ask(f"start {number}")
        status, why = put.wait(SECONDS), put.communicate()[1]
        told = run("get", name)
        seen.held(f"old or new behind node {number} that was killed: {why!r}", (told[0], told[1] in (held, content)), (0, True))
        seen.held(f"a put that ended, behind node {number} that was killed", status or told[1] == content, status or True)
        if not number % 2:
            nodes.ask(f"start {number}")
        seen.held(f"the next put, node {number}", run("put", "-", name, given=content), (0, b""))
        held = content


def long_content(program):
    """A content of many MB, and the memory of the client."""
    seen, most = Seen(), []
    block = os.urandom(1_000_000)
    with open("long", "wb") as out:
        for number in range(LONG // len(block)):
            out.write(number.to_bytes(8, "big") + block[8:])
    with grid(program):
        for words in (("put", "long", "long"), ("get", "long", "copy")):
            begun, command = time.monotonic(), begin(*words)
            _, status, used = os.wait4(command.pid, 0)
            command.returncode = os.waitstatus_to_exitcode(status)
            most.append(f"{words[0]} {LONG / 1e6 / (time.monotonic() - begun):.1f} MB a second, {used.ru_maxrss // 1024} MiB")
            seen.held(f"{words[0]} of {LONG} bytes: {command.stderr.read()!r}", command.returncode, 0)
            seen.held(f"memory of a {words[0]}: {used.ru_maxrss} KiB", used.ru_maxrss // 1024 <= MOST_MEMORY, True)
        seen.held("the long content", subprocess.run(["cmp", "long", "copy"]).returncode, 0)
    return f"{LONG // 1_000_000} MB: {'; '.join(most)}", seen.wrong


class Lasting:
    """Clients that last, one for each session, at one connection."""

    def __init__(self):
        self.carrier = SocketCarrier(TENANT, "grid/socket")
        told = ask_plan(self.carrier)
        self.sessions = [Session(self.carrier, number, told.home_of(number)) for number in range(1, told.sessions + 1)]
        self.layout = layout_of(told)
        self.files = [NamedFiles(session, self.layout) for session in self.sessions]

    def bulk(self, numbers):
        """Puts names by all sessions side by side."""
        shares = [numbers[place :: len(self.files)] for place in range(len(self.files))]

        def put(files, share):
            for number in share:
                files.put(f"name {number}", SHORT)

        with ThreadPoolExecutor(len(self.files)) as pool:
            list(pool.map(put, self.files, shares))

    def cost(self, call, *words):
        """What a call gives, the requests that it took, and its milliseconds."""
        before, begun = self.sessions[0].counts["requests"], time.perf_counter()
        told = call(*words)
        return told, self.sessions[0].counts["requests"] - before, 1000 * (time.perf_counter() - begun)

    def costs(self, turns, seen, count):
        """The most requests, and the median of milliseconds, of each kind."""
        files, found = self.files[0], {"put": [], "get": [], "rm": [], "ls": []}
        for number in range(turns):
            for kind, call, words in (
                ("put", files.put, (f"name {number}", SHORT)),
                ("get", files.get, (f"name {number}",)),
                ("rm", files.remove, (f"name {number}",)),
                ("put", files.put, (f"name {number}", SHORT)),
            ):
                told, requests, time_taken = self.cost(call, *words)
                found[kind].append((requests, time_taken))
                if kind == "get":
                    seen.held(f"get of name {number}", told[0], SHORT)
        told, *cost = self.cost(files.names)
        found["ls"].append(tuple(cost))
        seen.held(f"ls of {count} names", {each.name for each in told}, {f"name {number}" for number in range(count)})
        return {kind: (max(it for it, _ in all_of), sorted(it for _, it in all_of)[len(all_of) // 2]) for kind, all_of in found.items()}


def many_names(program, many, turns=5):
    """What operations cost among ten names, and among many, which are put by all sessions side by side."""
    seen = Seen()
    with grid(program):
        client = Lasting()
        client.bulk(range(10))
        client.costs(turns, seen, 10)  # so that each page is known
        few = client.costs(turns, seen, 10)
        begun = time.monotonic()
        client.bulk(range(10, many))
        seconds = time.monotonic() - begun
        client.costs(1, seen, many)
        costs = client.costs(turns, seen, many)
        for kind in few:
            more = costs[kind][0] - few[kind][0]
            seen.held(f"{kind} among {many} takes {more} requests more than among ten", more <= MORE_REQUESTS, True)
        listed = run("ls")
        seen.held("ls, the command", (listed[0], listed[1].count(b"\n")), (0, many))
        client.carrier.close()
    told = ", ".join(f"{kind} {few[kind][0]} and {costs[kind][0]} ({few[kind][1]:.0f} and {costs[kind][1]:.0f} ms)" for kind in few)
    return f"requests among 10 and among {many} names: {told}; {many - 10} put in {seconds:.0f} seconds", seen.wrong


if __name__ == "__main__":
    # with_room.py CALL GRIDFS [WORD..], in the folder where it is
    call, program, *more = sys.argv[1:]
    print(*globals()[call](program, *map(int, more)), sep="\n")
