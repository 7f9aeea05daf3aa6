"""What one line costs, kind by kind: its instructions, and the requests for memory that it makes."""

import os
import re
import shutil
import subprocess
import sys
import tempfile

PLAN = "grid 3 3\nblocks 64\ntenant ann 64 4 1000000\ngo\nann open 4 2\n"
FEW, MANY = 1_000, 3_000  # turns of which the difference is told


def own(*lines):
    return "".join(f"ann {line}\n" for line in lines)


def again(*lines):
    """Lines that come again and again."""
    text = own(*lines)
    return lambda turns: text * turns


def operations(request, rounds, sent=0):
    """Whole operations: a request, and the deliveries of so many rounds, each to three servers and back, where so many messages were sent before."""

    def script(turns, sent=sent):
        lines = []
        for _ in range(turns):
            lines.append(request)
            for _ in range(rounds):
                lines += [f"deliver {number}" for number in range(sent, sent + 6)]
                sent += 6
        return own(*lines)

    return script


WRITE = own("write 1 0 0 6869", *[f"deliver {number}" for number in range(6)])
# Of each kind: what it is, the lines before it, the lines that are counted by their turns, and how many lines a turn has.
KINDS = [
    ("a line that is refused: no such session", "", again("retry 9"), 1),
    ("an ask comes to its server, which sends its copy", own("read 1 0 0"), again("deliver 0"), 1),
    ("an ask comes to a server that is down", own("read 1 0 0") + "server 0 down\n", again("deliver 0"), 1),
    ("a store comes to its server, which has a copy as new", WRITE, again("deliver 6"), 1),
    ("a copy comes to its session, and the round goes on", own("read 1 0 0", "deliver 0"), again("deliver 3"), 1),
    ("a reply comes to a session that has no operation", own("read 1 0 0", "deliver 0", "abandon 1"), again("deliver 3"), 1),
    ("a message is lost, and the round's message goes out again", own("read 1 0 0"), again("retry 1"), 1),
    ("a whole write of two bytes: 13 lines, 12 messages", "", operations("write 1 0 0 6869", 2), 13),
    ("a whole read of them: 13 lines, 12 messages", WRITE + own(*[f"deliver {number}" for number in range(6, 12)]), operations("read 1 0 0", 2, 12), 13),
]


def taken(program, script):
    """The instructions that the program takes for the script, and its requests for memory, as valgrind counts them."""
    with tempfile.TemporaryDirectory() as room:
        path = os.path.join(room, "script")
        with open(path, "w", encoding="ascii") as file:
            file.write(PLAN + script)
        told = []
        for tool in (["--tool=callgrind", f"--callgrind-out-file={os.path.join(room, 'counts')}"], ["--tool=memcheck", "--leak-check=no"]):
            with open(path, "rb") as given:
                done = subprocess.run(["valgrind", *tool, program, "run"], stdin=given, stdout=subprocess.PIPE, stderr=subprocess.PIPE)
            if done.returncode != 0:
                sys.exit(f"{program}: status {done.returncode}")
            told.append(done.stderr.decode())
        instructions = int(re.search(r"Collected : (\d+)", told[0])[1])
        requests = int(re.search(r"total heap usage: ([\d,]+) allocs", told[1])[1].replace(",", ""))
        return instructions, requests, done.stdout.decode().splitlines()


def report(program):
    """Prints what a line of each kind takes."""
    if not shutil.which("valgrind"):
        sys.exit("bench: valgrind is not here, and nothing else counts instructions")
    for what, before, script, lines in KINDS:
        few, many = [taken(program, before + script(turns)) for turns in (FEW, MANY)]
        a_line = [(more - less) / (MANY - FEW) / lines for less, more in zip(few[:2], many[:2])]
        print(f"{what:<62}{a_line[0]:8.0f} instructions a line, {a_line[1]:.2f} requests for memory   {many[2][-1]}")
