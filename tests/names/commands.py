"""The command over real nodes: what each word tells, what bad input comes to, and what an interrupted command leaves."""

import base64
import contextlib
import fcntl
import hashlib
import json
import os
import pty
import re
import shlex
import signal
import socket
import stat
import subprocess
import time

from histories import HERE, Held

from gridfs_client.buckets import FIRST_MOMENT, MOMENTS

TOP = os.path.join(HERE, "..", "..")
CLIENT = os.path.join(TOP, "clients", "python", "gridfs-client")
ENDING = os.path.join(HERE, "ending.py")
PYTHON = "/usr/bin/python3"  # (which finds the library for MQTT that Debian has)
# ann has room, and bob next to none.
PLAN = """grid 2 2
blocks 4096
tenant ann 2560 4 1
tenant bob 160 2 1
go
ann open 8 16
ann open 8 16
ann open 8 16
ann open 8 16
ann open 64 15
ann open 64 15
ann open 64 2
bob open 4 16
bob open 4 16
bob open 8 4
ann chunks 4096
bob chunks 2
"""
SECONDS = 60
STOPS = 6  # interrupted puts
ATTEMPTS = 5  # of a command that may find a node silent that is up


def clock():
    """The clock, as versions have it."""
    return int((time.time() - FIRST_MOMENT) * MOMENTS)


class Commands:
    """Runs of the command, each compared with what it has to do. `settings` are those of a tenant."""

    def __init__(self, settings):
        self.settings, self.tried, self.wrong = settings, 0, []

    def held(self, name, seen, wanted):
        self.tried += 1
        if seen != wanted:
            self.wrong.append(f"{name}: {seen!r}, not {wanted!r}")

    def environment(self, tenant="ann", **more):
        return {**os.environ, "GRIDFS_CONFIG": f"grid/{tenant}.ini", "GRIDFS_LOCKS": "locks", **self.settings, **more}

    def run(self, *words, given=b"", **more):
        done = subprocess.run([PYTHON, "-B", CLIENT, *words], input=given, capture_output=True, env=self.environment(**more), timeout=SECONDS)
        return done.returncode, done.stdout, done.stderr.decode(errors="replace")

    def shell(self, words):
        """The command with these words, for a shell."""
        return f"{PYTHON} -B {shlex.quote(CLIENT)} {words}"

    def told(self, name, words, told, given=b"", **more):
        """A command that has to end well, without a word on standard error."""
        self.held(name, self.run(*words, given=given, **more), (0, told, ""))

    def refused(self, name, words, status, why, given=b"", **more):
        """A command that has to end with this status, and a line that has these words."""
        seen = self.run(*words, given=given, **more)
        is_one_line = seen[2].startswith("gridfs-client: ") and seen[2].count("\n") == 1 and seen[2].endswith("\n")
        self.held(name, (seen[0], seen[1], is_one_line and why in seen[2] or seen[2]), (status, b"", True))

    # Names

    def names(self):
        content = os.urandom(20_000)
        with open("content", "wb") as out:
            out.write(content)
        self.told("put of standard input", ["put", "-", "ä b"], b"", given=content)
        self.told("get to standard output", ["get", "ä b"], content)
        self.told("get to a file", ["get", "ä b", "copy"], b"")
        with open("copy", "rb") as copy:
            self.held("the file", copy.read(), content)
        version = json.loads(self.run("stat", "ä b", "--json")[1])["version"]
        self.held("the time of the file", round(10 * (os.stat("copy").st_mtime - FIRST_MOMENT)), version)
        began = clock()
        status, told, _ = self.run("put", "content", "x/y", "--json")
        entry = json.loads(told)
        digest = hashlib.sha256(content).hexdigest()
        self.held("put --json", (status, entry["name"], entry["size"], entry["sha256"]), (0, "x/y", 20_000, digest))
        self.held("a version by the clock", began <= entry["version"] <= clock() + 1 or entry["version"], True)
        self.held("stat --json", json.loads(self.run("stat", "x/y", "--json")[1]), entry)
        self.several()
        self.held("stat", self.run("stat", "x/y")[1].splitlines()[0], b"name: x/y")
        self.held("get --json", base64.b64decode(json.loads(self.run("get", "--json", "x/y")[1])["content"]), content)
        self.held("ls --json", [each["name"] for each in json.loads(self.run("ls", "--json")[1])], ["x/y", "ä b"])
        self.held("ls of a prefix", self.run("ls", "ä")[1].split()[::2], [b"20000", "ä".encode()])
        self.told("put of nothing", ["put", "-", "x/y"], b"")
        self.told("get of nothing", ["get", "x/y"], b"")
        self.told("rm", ["rm", "x/y", "ä b"], b"")
        before = self.run("ls")
        status, told, why = self.run("sweep", GRIDFS_SESSION="1")
        swept = rb"removals: \d+ forgotten, %b left(; chunks: \d+ forgotten)?"
        self.held("a sweep of one session", (status, bool(re.fullmatch(swept % rb"\d+" + rb"; sessions 2, 3 and 4 could not be had\n", told)) or told, why), (0, True, ""))
        status, told, why = self.run("sweep")
        self.held("sweep", (status, bool(re.fullmatch(swept % b"0" + b"\n", told)) or told, why), (0, True, ""))
        self.told("a sweep behind it", ["sweep", "--json"], b'{"forgotten": 0, "left": 0, "absent": []}\n')
        self.held("ls behind a sweep", self.run("ls"), before)
        self.told("ls of nothing", ["ls"], b"")
        for word in ("get", "stat", "rm"):
            self.refused(f"{word} of no name", [word, "x/y"], 1, "x/y: no such name")

    def several(self):
        """Several files at once, with what is told of each."""
        os.makedirs("several", exist_ok=True)
        for name, given in (("one", b"1"), ("two", b"22")):
            with open(f"several/{name}", "wb") as out:
                out.write(given)
        status, told, why = self.run("put", "several/one", "several/two", "s/", "-v", "--json")
        self.held("put of several", (status, [each["name"] for each in json.loads(told)]), (0, ["s/one", "s/two"]))
        self.held("put -v", [line.split(":")[1] for line in why.splitlines()], [" put s/one", " put s/two", " put"])
        self.held("which session it was", bool(re.search(r"^gridfs-client: put: session [1-4] of node [0-3]; [0-9.]+ s$", why, re.M)) or why, True)
        os.makedirs("got", exist_ok=True)
        self.told("get of several", ["get", "s/one", "s/two", "got"], b"")
        self.held("what is got", [open(f"got/{name}", "rb").read() for name in ("one", "two")], [b"1", b"22"])
        self.held("cat --json", [base64.b64decode(each["content"]) for each in json.loads(self.run("cat", "s/one", "s/two", "--json")[1])], [b"1", b"22"])
        self.held("get --range --json", base64.b64decode(json.loads(self.run("get", "--range", "1-", "--json", "s/two")[1])["content"]), b"2")
        self.refused("put of several to one name", ["put", "several/one", "several/two", "s"], 2, "s: several files go to names that begin with it: end it with /")
        self.refused("put of two of one name", ["put", "several/one", "got/one", "s/"], 2, "two of the same last part, one,")
        self.refused("get of several to no folder", ["get", "s/one", "s/two", "none"], 9, "none: no folder: several names go into one")
        self.told("rm of several", ["rm", "s/one", "s/two"], b"")

    def numbered_files(self):
        status, told, _ = self.run("write", "6", "63", "-", "--json", given=b"hi\n", GRIDFS_SESSION="4")
        tag = json.loads(told)["tag"]
        self.held("write", (status, tag[1]), (0, 4))
        self.told("read", ["read", "6", "63"], b"hi\n")
        rows = json.loads(self.run("list", "6", "--json")[1])
        self.held("list", (len(rows), rows[63]), (64, {"file": 63, "length": 3, "tag": tag}))
        self.refused("a content that is too long", ["write", "6", "62", "-"], 3, "more than 128 bytes are too long", given=bytes(5_000))
        self.refused("a volume that is not there", ["read", "9", "0"], 3, "there is no volume 9")
        self.refused("a file that is not there", ["read", "6", "64"], 3, "there is no file 64 of volume 6")
        has = json.loads(self.run("plan", "--json")[1])
        self.held("plan", (has["nodes"], has["sessions"], has["share"], has["volumes"][6]), (4, 4, 2560, {"files": 64, "blocks": 2}))

    # Mirrors and the status

    def mirror(self):
        """A folder and back; a backup of all names, and a restore."""
        contents = {"a": b"1", "b/ä b": os.urandom(5_000), "b/c/empty": b""}
        for path, content in contents.items():
            os.makedirs(os.path.dirname(f"tree/{path}"), exist_ok=True)
            with open(f"tree/{path}", "wb") as out:
                out.write(content)
        every = [f"back/{path}".encode() for path in sorted(contents)]
        would = [b"would put " + name for name in every]
        self.lines("mirror, dry", ["mirror", "--dry-run", "tree", "grid:back"], would, b"would put 3, remove 0; 0 the same")
        self.told("what a dry one has put", ["ls"], b"")
        self.lines("mirror to the grid", ["mirror", "tree", "grid:back/"], [b"put " + name for name in every], b"put 3, removed 0; 0 the same")
        self.told("the same once more", ["mirror", "tree", "grid:back"], b"put 0, removed 0; 3 the same\n")
        self.told("a name of another prefix", ["put", "-", "other"], b"", given=b"other")
        through = os.path.abspath("connections")
        carrier = f'echo >> {through}; exec {shlex.join([PYTHON, "-B", ENDING, os.path.abspath("grid/socket"), "1000"])}'
        status, told, _ = self.run("mirror", "--json", "grid:", "backup", GRIDFS_VIA=shlex.join(["sh", "-c", carrier]))
        told = json.loads(told)
        self.held("a backup", (status, sorted(told["get"]), told["same"], told["skipped"]), (0, sorted([*(n.decode() for n in every), "other"]), 0, {}))
        with open(through, "rb") as connections:
            self.held("its connections", connections.read(), b"\n")
        self.held("what it got", subprocess.run(["diff", "-r", "tree", "backup/back"], capture_output=True).stdout, b"")
        self.told("rm of a name", ["rm", "back/a"], b"")
        self.told("put of another content", ["put", "-", "back/b/ä b"], b"", given=bytes(5_000))
        self.told("put of a new name", ["put", "-", "new"], b"", given=b"new")
        done = [b"put back/a", "put back/b/ä b".encode(), b"removed new"]
        self.lines("a restore", ["mirror", "--delete", "backup", "grid:"], done, b"put 2, removed 1; 2 the same")
        for path, content in contents.items():
            self.told(f"get of {path} after it", ["get", f"back/{path}"], content)
        os.symlink("/etc/passwd", "tree/link")
        status, told, why = self.run("mirror", "--quiet", "tree", "grid:back")
        skipped = "gridfs-client: skipped tree/link: a symbolic link is not followed\ngridfs-client: 1 skipped\n"
        self.held("a link", (status, told, why), (9, b"", skipped))
        self.refused("a prefix of no name", ["mirror", "grid:bakc", "backup"], 1, "grid:bakc/: no name begins so")
        self.refused("a folder that is not there", ["mirror", "nowhere", "grid:"], 9, "nowhere: No such file")
        for words in (["a", "b"], ["grid:a", "grid:b"], ["", "grid:a"]):
            self.refused(f"mirror {words}", ["mirror", *words], 2, "mirror wants a folder and grid:PREFIX")
        self.refused("a prefix that has no form", ["mirror", "tree", "grid:/a"], 2, "no / at an end")
        os.mkdir("hollow")
        self.refused("an empty source", ["mirror", "--delete", "hollow", "grid:back"], 9, "hollow: no file is there, so no name is removed")
        self.told("rm of it", ["rm", "back/a", "back/b/c/empty", "back/b/ä b", "other"], b"")

    def whole_prefixes(self):
        """All names of a prefix are taken away, and no others."""
        names = ["gone/a", "gone/b c", "gone/d/e"]
        for name in [*names, "gonex", "gone"]:
            self.told(f"put of {name}", ["put", "-", name], b"", given=b"x")
        would = [f"would remove {name}".encode() for name in names]
        self.lines("rm -r, dry", ["rm", "-r", "--dry-run", "gone"], would, b"would remove 3")
        self.held("what a dry one has left", len(self.run("ls", "gone")[1].splitlines()), 5)
        self.lines("rm -r", ["rm", "-r", "gone/"], [b"removed " + name.encode() for name in names], b"removed 3")
        self.held("what is left", [line.split()[-1] for line in self.run("ls")[1].splitlines()], [b"gone", b"gonex"])
        self.refused("rm -r of no name", ["rm", "-r", "gone"], 1, "gridfs-client: gone/: no name begins so")
        self.refused("a dry run of one name", ["rm", "--dry-run", "gone"], 2, "--dry-run goes with -r")
        status, told, _ = self.run("rm", "-r", "--json", "grid:")
        self.held("rm -r of all names", (status, sorted(json.loads(told)["removed"])), (0, ["gone", "gonex"]))
        self.told("ls of nothing left", ["ls"], b"")

    def lines(self, name, words, wanted, last):
        """A command that has to end well, with these lines in any order, and this one at last."""
        status, told, why = self.run(*words)
        *lines, end = told.splitlines()
        self.held(name, (status, sorted(lines), end, why), (0, sorted(wanted), last, ""))

    def run_until(self, silence, *words, **more):
        """Runs a command until it tells that these nodes are silent, and no others: on a machine that is very busy one that is up may be silent too."""
        for _ in range(ATTEMPTS):
            done = self.run(*words, **more)
            if silence in done[1].decode() + done[2]:
                break
        return done

    def status(self):
        self.told("put for a status", ["put", "-", "long"], b"", given=bytes(3_000))
        status, told, why = self.run_until("\nall 4 nodes answer\n", "status")
        self.held("status", (status, why), (0, ""))
        for line in (b"  row 1   2   3", b"all 4 nodes answer", b"wholly up: rows 0 and 1, columns 0 and 1", b"session 4: home 3", b"names: 1"):
            self.held(f"status tells {line}", line in told.splitlines(), True)
        value = json.loads(self.run_until('"columns_up": [0, 1]', "--grid", "2x2", "status", "--json")[1])
        keys = ["tenant", "nodes", "rows", "columns", "is_arrangement_said", "rows_up", "columns_up", "goes_on", "sessions"]
        keys += ["names", "pages", "in_slots", "bytes", "left_out", "chunks"]
        self.held("status --json", (list(value), value["goes_on"], value["names"], value["bytes"]["used"]), (keys, True, 1, 3_000))
        self.held("its chunks", [(each["used"], each["allowed"]) for each in value["chunks"]].count((0, 4 << 20)), 1)
        self.refused("a grid of other nodes", ["--grid", "3x3", "status"], 2, "3x3 are 9 nodes, and there are 4")
        self.refused("a grid that has no form", ["--grid", "2", "status"], 2, "'2' is no ROWSxCOLUMNS")
        self.told("--version", ["--version"], b"gridfs-client 0.1.0\n")
        told = self.run("--help")[1]
        for words in (b"--timeout SECONDS", b"--helpers N", b"--socket PATH", b"--session N|N-M|all"):
            self.held(f"--help tells {words}", words in told, True)
        self.told("rm for a status", ["rm", "long"], b"")

    # Bad input

    def bad_input(self):
        for name, why in (("", "1 to 255 bytes, not 0"), ("x" * 256, "not 256"), (b"\xff", "UTF-8"), ("a\nb", "control"), ("/a", "/ at"), ("a/", "/ at")):
            self.refused(f"put of the name {name!r:.9}", ["put", "-", name], 2, why)
        for word in ("get", "rm", "stat"):
            self.refused(f"{word} of a name that is none", [word, "a/"], 2, "no / at an end")
        self.refused("a file that is not there", ["put", "nothing", "x"], 9, "nothing: No such file")
        self.refused("a folder in place of a file", ["put", ".", "x"], 9, ".: a folder: mirror takes it")
        self.told("a name for what follows", ["put", "-", "here"], b"", given=b"here")
        self.refused("a target in no folder", ["get", "here", "no/copy"], 9, "no/copy: No such file")
        os.makedirs("folder", exist_ok=True)
        before = set(os.listdir("."))
        self.told("a target that is a folder", ["get", "here", "folder"], b"")
        with open("folder/here", "rb") as file:
            self.held("what is in it", file.read(), b"here")
        os.unlink("folder/here")
        self.refused("a target for no name", ["get", "nowhere", "new"], 1, "no such name")
        self.held("nothing half written is left", set(os.listdir(".")), before)
        if os.getuid():
            os.makedirs("closed", 0o500, exist_ok=True)
            self.refused("a target that can't be written", ["get", "here", "closed/copy"], 9, "closed/copy: Permission denied")
        words = self.run("put", "x")
        self.held("words that are no request", (words[0], words[1]), (2, b""))
        self.held("options before the word and behind it", [json.loads(self.run(*words)[1])["size"] for words in (["--json", "stat", "here"], ["stat", "here", "--json", "--timeout", "20"])], [4, 4])
        self.told("rm of it", ["rm", "here"], b"")
        self.held("help of a word", (self.run("help", "put")[:2], self.run("help")[:2]), (self.run("put", "--help")[:2], self.run("--help")[:2]))
        self.refused("no settings", ["ls"], 2, "no settings: name a file of them by --config", **dict.fromkeys(("GRIDFS_CONFIG", *(f"GRIDFS_{word.upper()}" for word in self.settings)), ""), HOME=os.getcwd())
        self.refused("a grid that does not run", ["ls"], 6, "folder/socket: No such file or directory: no grid runs there (./grid starts one)", GRIDFS_SOCKET="folder/socket")
        self.held("--help", (self.run("--help")[0], b"may a change still take effect?" in self.run("--help")[1]), (0, True))
        self.refused("a file of settings that is not there", ["ls"], 2, "grid/nobody.ini: no such file", tenant="nobody")
        self.refused("a tenant that has no form", ["ls"], 2, "tenant: 'Ann'", GRIDFS_TENANT="Ann")
        self.refused("a session that is not there", ["ls"], 2, "sessions 1 to 4", GRIDFS_SESSION="5")
        with open("grid/ann.ini", encoding="utf-8") as own, open("grid/spoilt.ini", "w", encoding="utf-8") as out:
            out.write(own.read() + "tenent = x\n")
        self.refused("a setting of no meaning", ["ls"], 2, "there is no setting tenent", tenant="spoilt")

    def streams(self):
        """Targets that are no files, or exist already; standard streams that are closed or full."""
        self.told("a content for what follows", ["put", "-", "here"], b"", given=b"here")
        os.mkfifo("pipe")
        pipe = os.open("pipe", os.O_RDONLY | os.O_NONBLOCK)
        main, other = pty.openpty()  # (a device in whose folder no file can be made, so that nothing is spoilt by a client that would)
        os.set_blocking(main, False)
        for reader, path in ((pipe, "pipe"), (main, os.ttyname(other))):
            self.told(f"get to {path}", ["get", "here", path], b"")
            came = b""
            with contextlib.suppress(BlockingIOError):
                came = os.read(reader, 100)
            self.held(f"what came to {path}", (came, stat.S_ISREG(os.stat(path).st_mode)), (b"here", False))
        for each in (pipe, main, other):
            os.close(each)
        with open("private", "w", opener=lambda path, flags: os.open(path, flags, 0o600)) as file:
            file.write("old")
        self.told("get to a file that others may not read", ["get", "here", "private"], b"")
        self.held("others may not read it still", stat.S_IMODE(os.stat("private").st_mode), 0o600)
        for words, closed, told in (
            ("get here", ">&-", "gridfs-client: standard output: Bad file descriptor\n"),
            ("put - here", "<&-", "gridfs-client: standard input: Bad file descriptor\n"),
            ("get here", ">/dev/full", "gridfs-client: standard output: No space left on device\n"),
            ("get here copied", "", "gridfs-client: copied: File too large\n"),
            ("ls", ">/dev/full", "gridfs-client: standard output: No space left on device\n"),
        ):
            done = subprocess.run(["sh", "-c", f"ulimit -f 0; {self.shell(words)} {closed}"], capture_output=True, text=True, env=self.environment())
            self.held(f"{words} {closed}", (done.returncode, done.stderr), (9, told))
        self.held("nothing half written is left", [each for each in os.listdir(".") if "copied" in each], [])
        for words, closed, status in (("ls", "2>&-", 0), ("get nowhere", "2>&-", 1), ("get nowhere", "2>/dev/full", 1), ("get a/", "2>/dev/full", 2)):
            done = subprocess.run(["sh", "-c", f"{self.shell(words)} {closed}"], capture_output=True, env=self.environment())
            self.held(f"{words} {closed}", done.returncode, status)
        self.told("rm of it", ["rm", "here"], b"")

    def full(self):
        self.refused("a content for which there is no room", ["put", "-", "big"], 3, "no room: ", given=bytes(5_000), tenant="bob")
        self.told("one for which there is", ["put", "-", "small"], b"", given=bytes(700), tenant="bob")
        self.refused("the next one", ["put", "-", "other"], 3, "no room: ", given=bytes(1_600), tenant="bob", GRIDFS_SESSION="1")
        for number in range(40):
            status, _, why = self.run("put", "-", f"a name of some length, {number}", given=b"x", tenant="bob", GRIDFS_SESSION="1")
            if status:
                break
        self.held("a page that is full", (status, "page 0 of session 1 has no room for one more line" in why), (3, True))
        self.held("names that it holds", len(json.loads(self.run("ls", "--json", "a", tenant="bob")[1])), number)
        self.told("rm from a full page", ["rm", "a name of some length, 0"], b"", tenant="bob")
        self.told("get from it", ["get", "small"], bytes(700), tenant="bob")

    def carriers(self):
        # (what says how a broker or a socket is found stands in the settings, and what says otherwise before it)
        self.refused("a command that is not there", ["ls"], 6, "/nowhere: No such file", GRIDFS_VIA="/nowhere")
        self.refused("one that ends", ["ls"], 6, "the lines have ended", GRIDFS_VIA="true")
        self.refused("one that says nothing", ["ls"], 4, "no node answered in 0.5 s", GRIDFS_VIA="sleep 5", GRIDFS_TIMEOUT="0.5")

    def sessions(self):
        os.makedirs("locks", exist_ok=True)
        with open("locks/ann-3.lock", "w") as lock:
            fcntl.flock(lock, fcntl.LOCK_EX)
            self.refused("a session that is used", ["ls"], 7, "session 3 is used", GRIDFS_SESSION="3", GRIDFS_TIMEOUT="3")
            self.told("another one", ["ls"], b"", GRIDFS_SESSION="3-4")
        with open("content", "wb") as out:
            out.write(os.urandom(5_000))
        several = [subprocess.Popen([PYTHON, "-B", CLIENT, "put", "content", f"at once {number}"], env=self.environment()) for number in range(4)]
        self.held("four at once", [each.wait(SECONDS) for each in several], [0] * 4)
        self.held("what they put", len(json.loads(self.run("ls", "--json", "at once")[1])), 4)
        self.told("rm of it", ["rm", *(f"at once {number}" for number in range(4))], b"")

    # Interrupts, terminals

    def interrupts(self):
        """What an interrupted put leaves is finished or taken back by the next change, and no room is lost."""
        contents = [bytes([number]) * 15_000 for number in range(STOPS)]
        held, seen = Held(), []
        for number, content in enumerate(contents):
            put = subprocess.Popen([PYTHON, "-B", CLIENT, "put", "-", "torn"], stdin=subprocess.PIPE, stderr=subprocess.PIPE, env=self.environment())
            with contextlib.suppress(BrokenPipeError):
                put.stdin.write(content)
                put.stdin.close()
            time.sleep(0.1 + 0.06 * number)
            put.send_signal(signal.SIGINT if number % 2 else signal.SIGTERM)
            status = put.wait(SECONDS)
            said = put.stderr.read()
            put.stderr.close()
            seen.append(status)
            # (before its own words stand, Python says its own)
            if status not in (0, 130, 143, -2, -15) or (status == 143 and said):
                self.wrong.append(f"an interrupted put: status {status}, {said!r}")
            held.put(content, status == 0)
            told = self.run("get", "torn")
            self.held(f"status of a get after interrupt {number}", told[0], 1 if told[0] == 1 and held.content is None else 0)
            self.held(f"what is held after interrupt {number} may be so", held.take(told[1] if told[0] == 0 else held.content), True)
        self.held("some were interrupted", any(seen), True)
        self.told("put of nothing in its place", ["put", "-", "torn"], b"", given=b"")
        self.told("rm of it", ["rm", "torn"], b"")
        self.held("a sweep behind it", self.run("sweep")[0], 0)
        self.held("all room is free", [each["used"] for each in json.loads(self.run("status", "--json")[1])["chunks"]], [0, 0])

    # Room

    def used(self):
        """The bytes of chunks in each column."""
        return [each["used"] for each in json.loads(self.run("status", "--json", GRIDFS_SESSION="4")[1])["chunks"]]

    @contextlib.contextmanager
    def put_from_a_pipe(self, size, **more):
        """A put by session 1 of which nodes have chunks, and which waits for more."""
        put = subprocess.Popen([PYTHON, "-B", CLIENT, "put", "-", "half"], stdin=subprocess.PIPE, stderr=subprocess.PIPE, env=self.environment(GRIDFS_SESSION="1", **more))
        with contextlib.suppress(BrokenPipeError), put:
            with contextlib.suppress(BrokenPipeError):  # (it may find no room before it has read all)
                put.stdin.write(os.urandom(size))
            until = time.monotonic() + SECONDS
            while not any(self.used()) and time.monotonic() < until:
                time.sleep(0.05)
            yield put

    def room_that_is_given_back(self):
        """Whatever a command ends with, and also where it is killed, nothing stays taken but what names need."""
        self.held("a sweep of what was removed by another session than put it", (self.run("sweep")[0], self.used()), (0, [0, 0]))
        content = os.urandom(1 << 20)
        for name in ("a", "b"):
            self.told(f"put of {name}", ["put", "-", name], b"", given=content)
        self.refused("rm of a name that is not there, among others", ["rm", "a", "missing", "b"], 1, "missing: no such name")
        self.held("what rm left", (self.run("ls"), self.used()), ((0, b"", ""), [0, 0]))
        self.told("rm -f of no name", ["rm", "-f", "a", "b"], b"")
        self.told("rm -r -f of no name", ["rm", "-r", "-f", "--quiet", "a"], b"")
        status, told, why = self.run("rm", "a", "b")
        self.held("rm of no name at all", (status, told, why), (1, b"", "gridfs-client: a: no such name\ngridfs-client: b: no such name\n"))
        self.refused("a put from a pipe that has no room", ["put", "-", "long"], 3, "has room for", given=os.urandom(10 << 20))
        self.held("used behind it", self.used(), [0, 0])
        for number, status in ((signal.SIGINT, 130), (signal.SIGTERM, 143)):
            with self.put_from_a_pipe(3 << 20) as put:
                put.send_signal(number)
                self.held(f"a put that is ended by {number.name}", (put.wait(SECONDS), put.stderr.read(), self.used()), (status, b"", [0, 0]))
        with self.put_from_a_pipe(3 << 20) as put:
            put.kill()
        self.held("a put that is killed leaves something", any(self.used()), True)
        self.told("the next put of the session", ["put", "-", "small"], b"", given=b"hello", GRIDFS_SESSION="1")
        self.held("used behind that", self.used(), [0, 0])
        with self.put_from_a_pipe(7 << 20, GRIDFS_LOCKS="elsewhere") as put:
            while sum(self.used()) < 5 << 20:
                time.sleep(0.05)
            put.kill()
        self.refused("a put from a pipe that wants the room which another machine's left", ["put", "-", "long"], 3, "gridfs-client sweep", given=os.urandom(5 << 20), GRIDFS_SESSION="1")
        with open("long", "wb") as out:
            out.write(os.urandom(5 << 20))
        self.told("a put of a file that wants it", ["put", "long", "long"], b"", GRIDFS_SESSION="1")
        with self.put_from_a_pipe(2 << 20) as put:
            put.kill()
        self.refused("a put from a pipe behind one that was killed", ["put", "-", "more"], 3, "has room for", given=os.urandom(10 << 20), GRIDFS_SESSION="1")
        self.held("used behind that, by a name", sum(self.used()) < 6 << 20, True)
        self.told("rm of all", ["rm", "long", "small"], b"", GRIDFS_SESSION="1")
        self.held("used at last", self.used(), [0, 0])

    def more_words(self):
        """What people type besides."""
        content = os.urandom(1_500_000)
        with open("long", "wb") as out:
            out.write(content)
        self.told("put of a long one", ["put", "long", "d/e/long"], b"")
        self.told("put of a short one", ["put", "-", "d/short"], b"", given=b"hello\n")
        self.told("cat", ["cat", "d/short", "d/e/long", "d/short"], b"hello\n" + content + b"hello\n")
        for words, wanted in (("0-3", content[:4]), ("1048570-1048585", content[1_048_570:1_048_586]), ("1499990-", content[-10:]), ("1499999-1600000", content[-1:]), ("1500000-", b"")):
            self.told(f"bytes {words}", ["get", "--range", words, "d/e/long"], wanted)
        self.told("bytes of a short one", ["get", "d/short", "--range", "1-2"], b"el")
        self.held("a range that is none", self.run("get", "--range", "5-2", "d/short")[0], 2)
        self.told("cp", ["cp", "d/e/long", "copied"], b"")
        self.told("get of it", ["get", "copied"], content)
        self.told("mv", ["mv", "d/short", "moved"], b"")
        self.refused("the old name", ["get", "d/short"], 1, "no such name")
        self.refused("cp of a name to itself", ["cp", "moved", "moved"], 2, "one name")
        self.refused("mv of no name", ["mv", "d/short", "x"], 1, "d/short: no such name")
        lines = self.run("ls", "-l")[1].decode().splitlines()
        now = time.time()
        times = [time.mktime(time.strptime(line[14:33], "%Y-%m-%d %H:%M:%S")) for line in lines]
        self.held("ls -l", ([line.split()[0] for line in lines], [line[35:] for line in lines], all(now - 300 < it < now + 60 for it in times)), (["1500000", "1500000", "6"], ["copied", "d/e/long", "moved"], True))
        self.held("du", json.loads(self.run("du", "--json")[1]), [{"prefix": "d/", "names": 1, "bytes": 1_500_000}, {"prefix": "all", "names": 3, "bytes": 3_000_006}])
        self.held("du of a prefix", [line.split() for line in self.run("du", "d/")[1].decode().splitlines()], [["1500000", "1", "names", "d/e/"], ["1500000", "1", "names", "d/"]])
        told = json.loads(self.run("df", "--json")[1])
        self.held("df", ([it["column"] for it in told], sum(it["used"] for it in told), {it["used"] + it["free"] for it in told}), ([0, 1], 3_000_000 + 4 * 512, {4 << 20}))
        self.held("df in lines", self.run("df")[1].decode().splitlines()[0].split(), ["column", "used", "free", "allowed"])
        self.told("rm of all", ["rm", "copied", "d/e/long", "moved"], b"")
        for shell in ("bash", "zsh"):
            status, told, why = self.run("completion", shell, GRIDFS_CONFIG="")
            self.held(f"completion of {shell}", (status, b"complete -o default -F _gridfs_client gridfs-client" in told, why), (0, True, ""))
        asked = "source <(cat); COMP_WORDS=(gridfs-client {}); COMP_CWORD={}; _gridfs_client; echo ${{COMPREPLY[@]}}"
        for words, at, wanted in (("mir", 1, "mirror"), ("put --js", 2, "--json"), ("get --ra", 2, "--range"), ("--loc", 1, "--locks")):
            done = subprocess.run(["bash", "-c", asked.format(words, at)], input=self.run("completion", "bash")[1], capture_output=True)
            self.held(f"completion of {words}", done.stdout.decode().strip(), wanted)

    def library(self):
        """A program that has names by `gridfs_client.open`, beside commands."""
        program = subprocess.Popen([PYTHON, "-B", os.path.join(TOP, "examples", "files.py"), "grid/ann.ini"], stdout=subprocess.PIPE, stderr=subprocess.PIPE, env=self.environment(PYTHONPATH=os.path.join(TOP, "clients", "python")))
        beside = [self.run("put", "-", f"beside{number}", given=b"beside")[0] for number in range(3)]
        told, why = program.communicate(timeout=SECONDS)
        small = ", ".join(f"('example/{number}', 1)" for number in range(4))
        wanted = f"hello\n2560000 bytes\n[0, 1, 2, 3]\nthe same\n[{small}, ('example/greeting', 5), ('example/long', 2560000)] True\nexample/greeting: no such name 1\n"
        self.held("the example", (program.returncode, told.decode(), why.decode()), (0, wanted, ""))
        self.held("commands beside it", beside, [0, 0, 0])
        self.told("rm of these", ["rm", *(f"beside{number}" for number in range(3))], b"")
        self.held("used behind it", self.used(), [0, 0])

    def interrupted(self, content, write):
        """A put by session 1, which is interrupted in place of the answer to its first write, of the journal, or to its second one, of the page."""
        ended = self.run("put", "-", "ended", given=content, GRIDFS_VIA=shlex.join([PYTHON, "-B", ENDING, "grid/socket", str(write)]), GRIDFS_SESSION="1")
        self.held(f"put of {content} that is interrupted", ended, (130, b"", ""))

    def carried_by_another_put(self):
        """A put that was interrupted after its announcement takes effect with the session's next change of the page, of whatever name; and one
        that was interrupted after it was carried has taken effect."""
        beside = [f"beside{number}" for number in range(8)]  # (there are three buckets)
        self.told("put of an old content", ["put", "-", "ended"], b"", given=b"old", GRIDFS_SESSION="1")
        self.interrupted(b"first", 1)
        self.told("get of what was announced", ["get", "ended"], b"old")
        for name in beside:
            self.told(f"put of {name}", ["put", "-", name], b"", GRIDFS_SESSION="1")
        self.told("get of what was carried by another put", ["get", "ended"], b"first")
        self.interrupted(b"second", 2)
        self.told("get of what was carried", ["get", "ended"], b"second")
        self.told("a put after them", ["put", "-", "ended"], b"", given=b"last", GRIDFS_SESSION="1")
        self.told("a get after it", ["get", "ended"], b"last")
        self.told("rm of it", ["rm", "ended", *beside], b"")

    def terminal(self):
        """A bar of progress stands on a terminal, and only behind a second."""
        main, other = pty.openpty()
        words = [PYTHON, "-B", "-c", PROGRESS]
        environment = {**os.environ, "PYTHONPATH": os.path.join(TOP, "clients", "python")}
        subprocess.run(words, stderr=other, env=environment, check=True, timeout=SECONDS)
        told = os.read(main, 1000)
        os.close(main)
        os.close(other)
        self.held("progress", told, b"\r\x1b[Kput [##########          ] 2.0 MB of 4.0 MB, 1.0 MB/s, 2 s left\r\x1b[Kput [####################] 4.0 MB, 1.0 MB/s, 4 s\r\n")

    # A broker

    def broker(self, grid):
        """What a broker refuses, and one that isn't there."""
        words = dict(zip(grid.words_for("ann")[::2], grid.words_for("ann")[1::2]))
        own = {"GRIDFS_" + word.strip("-").upper().replace("-", "_"): value for word, value in words.items()}
        with socket.create_server(("127.0.0.1", 0)) as listener:
            nobody = f"localhost:{listener.getsockname()[1]}"
        with open("open", "w", encoding="ascii") as out:
            out.write("word\n")
        os.chmod("open", 0o644)
        bobs = words["--password-file"].replace("ann", "bob")
        for name, other, status, why in (
            ("a wrong password", {"GRIDFS_PASSWORD_FILE": bobs}, 6, "not authorised"),
            ("a certificate of another authority", {"GRIDFS_CA_FILE": "/etc/ssl/certs/ca-certificates.crt"}, 6, "certificate"),
            ("a certificate of another host", {"GRIDFS_BROKER": words["--broker"].replace("localhost", "localhost.localdomain")}, 6, ""),
            ("a broker that is not there", {"GRIDFS_BROKER": nobody}, 6, "Connection refused"),
            ("a broker without a port", {"GRIDFS_BROKER": "localhost"}, 6, "HOST:PORT"),
            ("no such file of authorities", {"GRIDFS_CA_FILE": "none"}, 6, "none: No such file"),
            ("no such password file", {"GRIDFS_PASSWORD_FILE": "none"}, 2, "none: No such file"),
            ("a password file that others may read", {"GRIDFS_PASSWORD_FILE": "open"}, 2, "others may read"),
        ):
            self.refused(name, ["ls"], status, why, **{**own, "GRIDFS_TIMEOUT": "1", **other})


PROGRESS = """
import sys
from gridfs_client.progress import Progress
clock = [100.0]
progress = Progress(sys.stderr, lambda: clock[0])
progress("put", 1_000_000, 4_000_000)
clock[0] += 2
progress("put", 2_000_000, 4_000_000)
progress("put", 3_000_000, 4_000_000)
clock[0] += 2
progress("put", 4_000_000, 4_000_000)
Progress(sys.stderr)("put", 4, 4)
"""


@contextlib.contextmanager
def served(program):
    """A grid for clients, in the folder `grid`."""
    with open("plan", "w", encoding="ascii") as out:
        out.write(PLAN)
    for tenant in "ann", "bob":
        with contextlib.suppress(FileNotFoundError):
            os.unlink(f"grid/{tenant}.ini")  # of an earlier one
    with open("told", "wb") as told:
        words = [os.path.join(TOP, "grid"), "--program", program, "--plan", "plan", "grid"]
        grid = subprocess.Popen(words, stdin=subprocess.DEVNULL, stdout=told, stderr=told)
    try:
        until = time.monotonic() + SECONDS
        while not os.path.exists("grid/bob.ini") or not os.path.exists("grid/ann.ini"):
            if grid.poll() is not None or time.monotonic() > until:
                raise OSError("./grid did not start")
            time.sleep(0.02)
        yield
    finally:
        grid.terminate()
        grid.wait()


PARTS = (
    ["names", "numbered_files", "full", "carriers", "sessions"],
    ["bad_input", "streams", "carried_by_another_put", "interrupts"],
    ["status", "mirror", "whole_prefixes", "terminal"],
    ["more_words", "room_that_is_given_back", "library"],
)


def try_commands(program, parts):
    """The command over nodes in pipes: how much was compared, and what is wrong."""
    commands = Commands({})
    with served(program):
        for part in parts:
            getattr(commands, part)()
    return f"{commands.tried} compared: {', '.join(parts)}", commands.wrong
