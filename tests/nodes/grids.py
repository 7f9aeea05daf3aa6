"""What ./grid shows, takes and refuses, and that it leaves nothing behind."""

import contextlib
import hashlib
import os
import re
import signal
import subprocess
import time

from processes import SECONDS, room

GRID = os.path.join(os.path.dirname(os.path.abspath(__file__)), "..", "..", "examples", "grid")
PLAN = os.path.join(os.path.dirname(GRID), "nodes", "plan")  # (one with `blocks`, whose lines are short)
# Words that another way has, and words that are none: what is told of each.
NO_REQUESTS = {
    "--port 1": "--port is for --over links and mqtt",
    "--over links --tick 1": "--tick is for --over pipes",
    "--over links --tls none": "--tls is for --over mqtt",
    "--listen 127.0.0.1:1": "--listen is for --s3",
    "--s3 --gateways 17": "--gateways is from 1 to 16",
    "--over air": "argument --over: invalid choice: 'air' (choose from 'pipes', 'links', 'mqtt')",
}
SHOWN = "All 16 files are as they were acknowledged.\n"
LINES = "ann write 1 0 0 6869\nwait\nann read 2 0 0\nbob list 1 0\nwait\nkill 3\nann write 1 0 1 ff\nwait\nstart 3\nann read 4 0 1\nbob plan\n"
ANSWERS = [
    "ann done write 1 2 tag 1 1",
    "ann done read 2 2 tag 1 1 6869",
    "bob done list 1 2 0:0.0 0:0.0 0:0.0 0:0.0 0:0.0 0:0.0 0:0.0 0:0.0",
    "ann done write 1 3 tag 2 1",
    "ann done read 4 2 tag 2 1 ff",
    "bob plan 4 0 2 16 16 8.2 lines=3 rows=2 columns=2",
]
OF_A_LOSS = 1_099_511_627_776  # numbers of tags that are left for what is written between two losses
# A node's journal is lost, and a new node takes its place; so twice at one place, and then at the place of its peer.
LOSSES = (
    "ann write 4 0 0 6869\nwait\nlose 3\nann read 4 0 0\nann read 1 0 0\nreplace 3\nwait 67\nwait\nann write 4 0 1 aa\nwait\n"
    + "lose 67\nreplace 67\nwait 131\nlose 1\nreplace 1\nwait 65\nann read 4 0 1\nann read 3 0 0\nbob plan\nwait\nlose 131\n"
)
LOST = [  # (operations without their numbers, which hang on when a node starts again)
    "ann done write 4 tag 1 4",
    "node 3 is lost: it is down, and its journal is gone",
    "ann done read 1 tag 1 4 6869",
    "node 67 stands in the place of node 3",
    "ann done read 20 tag 1 4 6869",
    f"ann done write 20 tag {OF_A_LOSS + 1} 20",
    "node 67 is lost: it is down, and its journal is gone",
    "node 131 stands in the place of node 67",
    "node 1 is lost: it is down, and its journal is gone",
    "node 65 stands in the place of node 1",
    f"ann done read 36 tag {OF_A_LOSS + 1} 20 aa",
    "ann done read 3 tag 1 4 6869",
    "bob plan 4 0 2 16 16 8.2 65 131 lines=3 rows=2 columns=2",
    "node 131 is lost: it is down, and its journal is gone",
]
LOST_AGAIN = "grid: node 131 is down: its journal is gone (`replace 131` puts a new node in its place)"
# Lines that are refused, and what is told of each.
BAD = {
    "ann write 1 0 0": "no request (the line `help` tells the forms)",
    "ann write 1 0 0 6": "no request (the line `help` tells the forms)",
    "zed read 1 0 0": "the plan has no session 1 of zed",
    "ann read 5 0 0": "the plan has no session 5 of ann",
    "zed plan": "the plan has no tenant zed",
    "kill 4": "there are nodes 0 to 3",
    "start 2": "node 2 is up",
    "replace 2": "node 2 is up",
    "lose 67": "there are nodes 0 to 3",
    "replace 4": "there are nodes 0 to 3",
    "wait 1": "node 1 is not new",
    "ann write 1 0 0 " + "aa" * 2000: "longer than 4000 bytes",
}
# A plan with room, and lines which no pipe takes whole, two of them of 2 MiB: four sessions send them at once, and a node is killed meanwhile.
PLAN_WITH_ROOM = "grid 2 2\nroom 65536\ntenant ann 65536 4 1 16384\ngo\nann open 4 16384\n"
LARGE = [f"{file + 1:02x}" * size for file, size in enumerate([1 << 20, 1 << 20, 100_000, 300_000])]
LONGEST = 128 * 16384 + 255 - 95
LARGE_LINES = (
    "".join(f"ann write {file + 1} 0 {file} {content}\n" for file, content in enumerate(LARGE))
    + "wait\n"
    + f"ann write 2 0 2 {LARGE[3]}\nann write 3 0 3 {LARGE[2]}\n"
    + "kill 3\nwait\nstart 3\nkill 0\nkill 1\nkill 2\nkill 3\nstart 0\nstart 1\nstart 2\nstart 3\n"
    + "".join(f"ann read {file + 1} 0 {file}\n" for file in range(4))
)
PLAN_WITH_A_FAULT = "grid 2 2\nblocks 1\ntenant ann 0 1 1\ngo\n"


def ignore_interrupt():
    signal.signal(signal.SIGINT, signal.SIG_IGN)


def states_of(folder):
    """The folder, and each file in it."""
    return {path: os.stat(path) for path in [folder, *(os.path.join(folder, name) for name in os.listdir(folder))]}


class Grids:
    """Runs of examples/grid, which is `./grid --over pipes --lines`, each compared with what it has to do."""

    def __init__(self, program):
        self.environment = {**os.environ, "GRIDFS": program}
        self.tried, self.wrong = 0, []

    def held(self, name, seen, wanted):
        self.tried += 1
        if seen != wanted:
            self.wrong.append(f"{name}: {seen!r}, not {wanted!r}")

    def run(self, *words, given=""):
        pipes = dict.fromkeys(["stdout", "stderr"], subprocess.PIPE)
        done = subprocess.run([GRID, *words], input=given, text=True, env=self.environment, timeout=3 * SECONDS, **pipes)
        told = re.sub(r"(?m)( plan .*) clock=\d{10}$", r"\1", done.stdout)  # (which a carrier adds)
        return done.returncode, told, [line for line in done.stderr.splitlines() if line.startswith("grid: ")]

    def shows(self):
        status, shown, _ = self.run("try")
        self.held("examples/grid try", (status, shown.splitlines(keepends=True)[-1:]), (0, [SHOWN]))

    def takes_lines(self, folder):
        status, answers, _ = self.run("--plan", PLAN, folder, given=LINES)
        self.held("lines from a pipe", (status, sorted(answers.splitlines())), (0, sorted(ANSWERS)))
        status, answers, _ = self.run(folder, given="ann read 3 0 0")
        words = answers.split()
        self.held("a second start in the folder", (status, words[:3], words[-1:]), (0, ["ann", "done", "read"], ["6869"]))
        status, answers, told = self.run(folder, given="".join(f"{line}\n" for line in BAD))
        self.held("bad lines", (status, answers, told[1:]), (1, "", [f"grid: line {at}: {text}" for at, text in enumerate(BAD.values(), 1)]))

    def replaces(self, folder):
        """Nodes are lost, and others take their places: all files are there. A grid whose node was lost starts without it."""
        status, answers, told = self.run("--plan", PLAN, folder + ".losses", given=LOSSES)
        answers = re.sub(r"(done \w+ \d+) \d+", r"\1", answers)
        self.held("nodes that are lost and replaced", (status, sorted(answers.splitlines()), told[1:]), (0, sorted(LOST), []))
        lines = "nodes\nann read 4 0 1\nreplace 131\nwait 195\nann read 1 0 0\nwait\nlose 65\nlose 195\nreplace 65\n"
        status, answers, told = self.run(folder + ".losses", given=lines)
        answers = [line.split(",")[0] for line in answers.splitlines()]
        wanted = ["node 0 is up", "node 65 is up", "node 2 is up", "node 131 is down", "node 195 stands in the place of node 131"]
        self.held("a start without a node that was lost", (status, answers[:5], told[0]), (0, wanted, LOST_AGAIN))
        self.held("reads behind it", sorted(answer.split()[-1] for answer in answers if "done read" in answer), ["6869", "aa"])
        vain = ["node 65 is lost: it is down", "node 195 is lost: it is down", "node 129 stands in the place of node 65"]
        waits = ["node 129 gets its files once node 195 has started too", "no other node of its column has all files and chunks: what they lack is lost"]
        self.held("a column that is lost", answers[-5:], vain + waits)
        with open(folder + ".row", "w", encoding="ascii") as out:
            out.write("grid 1 2\nblocks 4\ntenant ann 4 2 1\ngo\nann open 4 1\n")
        status, _, told = self.run("--plan", folder + ".row", folder + ".one", given="lose 0\nreplace 0\n")
        fault = "grid: line 2: no node 64 may be put in the place of node 0: gridfs: the plan: line 6: replace"
        self.held("a grid of one row", (status, told[1:]), (1, [fault]))
        self.held("and starts again without its node", self.run(folder + ".one", given="ann plan\n")[:2], (0, "ann plan 2 0 2 4 16 4.1 lines=3 rows=1 columns=2\n"))

    def takes_large_lines(self, folder):
        with open(folder + ".plan", "w", encoding="ascii") as out:
            out.write(PLAN_WITH_ROOM)
        status, answers, told = self.run("--plan", folder + ".plan", folder + ".large", given=LARGE_LINES)
        reads = sorted((words[3], words[-1]) for words in map(str.split, answers.splitlines()) if words[1:3] == ["done", "read"])
        seen = [(session, hashlib.sha256(content.encode()).hexdigest()) for session, content in reads]
        contents = [LARGE[0], LARGE[1], LARGE[3], LARGE[2]]
        self.held("large lines", (status, answers.count("done write"), told[1:]), (0, 6, []))
        self.held("large contents", seen, [(f"{file + 1}", hashlib.sha256(content.encode()).hexdigest()) for file, content in enumerate(contents)])
        status, answers, told = self.run(folder + ".large", given="ann write 1 0 0 ".ljust(LONGEST + 1, "a") + "\nann write 1 0 0 aaa\nann list 1 0\n")
        no_lines = [f"grid: line 1: longer than {LONGEST} bytes", "grid: line 2: no request (the line `help` tells the forms)"]
        self.held("a line that is too long", (status, answers.split()[1:3], told[1:]), (1, ["done", "list"], no_lines))

    def refuses(self, folder):
        self.held("no words", self.run()[0], 2)
        self.held("an option that is not there", self.run("--fast", folder)[0], 2)
        status, shown, _ = self.run("--help")
        self.held("--help", (status, "./grid [OPTION..] FOLDER" in shown), (0, True))
        for words, why in NO_REQUESTS.items():
            self.held(words, self.run(*words.split(), folder + ".none")[::2], (2, [f"grid: error: {why}"]))
        self.held("no folder was made", os.path.exists(folder + ".none"), False)
        self.held("a program that is not there", self.run("--program", "/none", folder)[::2], (1, ["grid: /none: No such file or directory"]))
        self.held("a plan that is not there", self.run("--plan", "/none", folder + ".none")[::2], (1, ["grid: /none: No such file or directory"]))
        with open(folder + ".plan", "w", encoding="ascii") as out:
            out.write(PLAN_WITH_A_FAULT)
        self.held("a plan with a fault", self.run("--plan", folder + ".plan", folder + ".fault")[::2], (1, [f"grid: {folder}.plan: line 3: zeroshare"]))

    @contextlib.contextmanager
    def served(self, folder, *words):
        """A grid in the folder, once it says how many nodes are up, and what it said until then."""
        pipes = dict.fromkeys(["stdin", "stdout", "stderr"], subprocess.PIPE)
        grid = subprocess.Popen([GRID, *words, folder], text=True, env=self.environment, **pipes)
        told = [grid.stderr.readline()]
        while told[-1] and " up, " not in told[-1]:
            told.append(grid.stderr.readline())
        try:
            yield grid, [line.rstrip("\n") for line in told if line.startswith("grid: ")]
        finally:
            grid.kill()
            grid.communicate()

    def refuses_a_second(self, folder):
        """A second grid is refused in a folder that is in use, also where all nodes are dead, and changes nothing; nobody else may read what is
        there; and no traceback comes of a socket that was removed."""
        with self.served(folder, "--plan", PLAN) as (grid, told):
            self.held("a start", [line.split(",")[0] for line in told], ["grid: 4 nodes are up"])
            before = states_of(folder)
            self.held("what others may read", [name for name, state in before.items() if state.st_mode & 0o077], [])
            grid.stdin.write("".join(f"kill {number}\n" for number in range(4)) + "nodes\n")
            grid.stdin.flush()
            self.held("all nodes are killed", [grid.stdout.readline() for _ in range(4)], [f"node {number} is down\n" for number in range(4)])
            wanted = 1, "", [f"grid: {folder}: a grid runs there (processes {grid.pid})"]
            self.held("a second grid in the folder", self.run(folder), wanted)
            changed = [name for name, state in states_of(folder).items() if name not in before or state.st_mtime_ns != before[name].st_mtime_ns]
            self.held("what it has changed", changed, [])
            with contextlib.suppress(FileNotFoundError):
                os.unlink(os.path.join(folder, "socket"))
            grid.send_signal(signal.SIGTERM)
            _, told = grid.communicate(timeout=SECONDS)
            self.held("an end without its socket", (grid.returncode, told), (130, ""))

    def bears_damage(self, folder):
        """A journal that is damaged: the other nodes go on, a new one can take its place, and once all are dead a grid for clients ends."""
        with open(os.path.join(folder, "node3.journal"), "r+b") as file:
            text = bytearray(file.read())
            text[20] ^= 1
            file.seek(0)
            file.write(text)
        replacing = f"`./grid --replace 3 {os.path.relpath(folder)}`"
        wanted = f"its journal is damaged: a person has to look (docs/FAULTS.md, Faults); where it is lost, {replacing} puts a new node in its place"
        with self.served(folder, "--serve") as (grid, told):
            self.held("a journal that is damaged", (told[1:2], told[-1].split(",")[0]), ([f"grid: node 3 is down: {wanted}"], "grid: 3 of 4 nodes are up"))
            with open(f"/proc/{grid.pid}/task/{grid.pid}/children", encoding="ascii") as children:
                for pid in map(int, children.read().split()):
                    os.kill(pid, signal.SIGKILL)
            ends = sorted(f"grid: node {number} has ended by signal 9 (killed, maybe for lack of memory): it starts again with the grid" for number in range(3))
            try:
                _, told = grid.communicate(timeout=SECONDS)
            except subprocess.TimeoutExpired:
                told = ""
            told = [line for line in told.splitlines() if line.startswith("grid: ")]
            self.held("a grid for clients whose nodes are dead", (grid.poll(), sorted(told[:3]), told[3:]), (1, ends, ["grid: all nodes are down"]))
        self.held("a new node in the place of one that is up", self.run("--replace", "0", folder)[2][-1:], ["grid: node 0 is up"])
        self.held("in a place that is not there", self.run("--replace", "9", folder)[2][-1:], ["grid: there are the nodes 0, 1, 2, 3"])
        with self.served(folder, "--replace", "3", "--serve") as (grid, told):
            self.held("a new node at a start", told[-1].split(",")[0], "grid: 4 nodes are up")
            grid.send_signal(signal.SIGINT)
            self.held("the status of one that is interrupted", grid.wait(SECONDS), 0)
        status, answers, _ = self.run(folder, given="wait 67\nann read 3 0 0\nann read 4 0 1\n")
        self.held("a new node in its place", (status, sorted(line.split()[-1] for line in answers.splitlines())), (0, ["6869", "ff"]))

    def ends_by(self, folder, number):
        """A signal ends it, also a script's background job, and with it its nodes: another grid starts in the folder at once."""
        pipes = dict.fromkeys(["stdin", "stdout", "stderr"], subprocess.PIPE)
        grid = subprocess.Popen([GRID, folder], text=True, env=self.environment, preexec_fn=ignore_interrupt, **pipes)
        while "nodes are up" not in (line := grid.stderr.readline()) and line:
            pass
        grid.stdin.write("ann write 1 0 0 aa\n" * 100)
        grid.stdin.flush()
        time.sleep(0.05)
        grid.send_signal(number)
        grid.communicate(timeout=SECONDS)
        self.held(f"signal {number}", grid.returncode in (130, -number), True)
        self.held(f"a start behind signal {number}", self.run(folder, given="ann read 2 0 0\n")[0], 0)


def tell_grid(program):
    """How many things were compared, and what is wrong."""
    grids = Grids(program)
    grids.shows()
    with room() as folder:
        folder = os.path.join(folder, "grid")
        grids.takes_lines(folder)
        grids.replaces(folder)
        grids.takes_large_lines(folder)
        grids.refuses(folder)
        for number in (signal.SIGINT, signal.SIGTERM, signal.SIGKILL):
            grids.ends_by(folder, number)
        grids.refuses_a_second(folder + ".alone")
        grids.takes_lines(folder + ".damaged")
        grids.bears_damage(folder + ".damaged")
    return grids.tried, grids.wrong
