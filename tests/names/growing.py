"""A tenant that gets more pages, over real nodes: a later plan, a put that finds its page full, `grow` amid puts and gets and killed now and then, and what commands
of before say."""

import itertools
import os
import signal
import subprocess
import threading
import time

import with_room
from commands import PYTHON, TOP
from with_room import Seen, run

PLANNED = os.path.join(TOP, "tools", "plan")
MOST, FULL = 30, 200  # names, and those that fill a page at the most
MOMENTS = (0.6, 0.9, 1.3, 2.0)  # seconds after which `grow` is killed


def planned(program, name, text, *words):
    told = subprocess.run([PYTHON, "-B", PLANNED, *words, "-"], input=text, capture_output=True, text=True, env={**os.environ, "GRIDFS": os.path.abspath(program)})
    with open(name, "w") as out:
        out.write(told.stdout)
    return told.returncode


class Beside(threading.Thread):
    """Puts and gets one name again and again: what it gets is what it put last."""

    def __init__(self, name):
        super().__init__()
        self.name_put, self.is_over, self.count, self.wrong = name, False, 0, []
        self.start()

    def run(self):
        while not self.is_over and not self.wrong:
            content = f"{self.name_put} {self.count}".encode()
            for words, given, wanted in (("put", "-", self.name_put), content, b""), (("get", self.name_put), None, content):
                environment = {**os.environ, "GRIDFS_CONFIG": f"grid/{with_room.TENANT}.ini", "GRIDFS_LOCKS": "locks"}
                done = subprocess.run([PYTHON, "-B", with_room.CLIENT, *words], input=given, capture_output=True, env=environment)
                if (done.returncode, done.stdout) != (0, wanted):
                    self.wrong.append(f"{words}: {done.returncode} {done.stdout[:50]} {done.stderr[:200]}")
            self.count += 1

    def end(self):
        self.is_over = True
        self.join()
        return self.wrong


def growing(program):
    seen, contents = Seen(), {}
    seen.held("a plan", planned(program, "first", f"{with_room.TENANT} 20M 10 names 3 commands\n"), 0)
    seen.held("a later plan", planned(program, "later", f"grow {with_room.TENANT} 500 names\n", "--from", "first"), 0)
    with with_room.grid_of(program, "first"):
        seen.held("grow without more pages", run("grow")[0], 2)
        for number in range(MOST):
            name = f"name {number}"
            contents[name] = name.encode()
            seen.held(name, run("put", "-", name, given=contents[name])[0], 0)
        gone = contents.popitem()[0]
        seen.held("rm", run("rm", gone)[0], 0)
    with with_room.grid_of(program, "later"):
        held(seen, contents, "with the later plan")
        full(seen, contents)
        held(seen, contents, "once a put found its page full")
        beside = [Beside(f"beside {number}") for number in range(2)]
        for moment in MOMENTS:
            grows = with_room.begin("grow")
            time.sleep(moment)
            grows.send_signal(signal.SIGKILL)
            grows.communicate()
            held(seen, contents, f"killed after {moment} s")
        until = time.monotonic() + 120
        while (told := run("grow", "--json"))[0] == 0 and b'"absent": []' not in told[1] and time.monotonic() < until:
            pass
        seen.held("grow", told[0], 0)
        seen.held("all pages have split", (run("grow", "--json")[1], b"level1" in run("read", "1", "0")[1]), (b'{"pages": 0, "lines": 0, "absent": []}\n', True))
        for each in beside:
            seen.wrong += each.end()
            seen.held("puts beside", each.count > 1, True)
            contents[each.name_put] = f"{each.name_put} {each.count - 1}".encode()
        held(seen, contents, "once it has grown")
        for number in range(MOST, MOST + 15):
            contents[f"name {number}"] = content = os.urandom(2_000 if number % 3 else 20)
            seen.held("a put behind", run("put", "-", f"name {number}", given=content)[0], 0)
        seen.held("sweep", run("sweep")[0], 0)
        held(seen, contents, "at last")
    return f"more pages: {seen.count} compared; {sum(each.count for each in beside)} puts beside `grow`, {len(MOMENTS)} kills of it", seen.wrong


def full(seen, contents):
    """A page gets as many names as it has room for, and one more: that splits it."""
    number, layout = 0, looked_at()[0]
    for name in (f"full {each} {'x' * 150}" for each in itertools.count()):
        if layout.page_of(name):
            continue
        number, contents[name] = number + 1, os.urandom(40)
        seen.held("a put into a page that fills", run("put", "-", name, given=contents[name])[0], 0)
        if looked_at()[1] or number == FULL:
            break
    seen.held("a put has split its page", (number > 1, looked_at()[1]), (True, True))


def looked_at():
    """The tenant's layout, and whether a page of the first bucket shows that it has split."""
    client = with_room.Lasting()
    try:
        files = [client.layout.page(session, 0) for session in range(1, client.layout.sessions + 1)]
        return client.layout, any(b"level1" in client.sessions[0].read(*file).content for file in files)
    finally:
        client.carrier.close()


def held(seen, contents, when):
    status, told = run("ls")
    listed = sorted(line.decode().split("  ")[-1] for line in told.splitlines()) if status == 0 else told
    seen.held(f"ls {when}", [name for name in listed if not name.startswith("beside")] if status == 0 else told, sorted(name for name in contents if not name.startswith("beside")))
    for name in sorted(contents)[::5]:
        seen.held(f"get {when}", run("get", name), (0, contents[name]))

