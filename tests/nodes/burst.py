"""A burst of one tenant: short lines that ask for long answers. However many of them one read brings, and however slowly who asked
reads, a node holds a few of the answers, and tells all of them, in order."""

import subprocess
import threading
import time

from processes import Wrong, check, put, words_of

BLOCKS = 16_384
CONTENT = 64 * BLOCKS  # bytes
PLAN = f"grid 1 1\nroom 20000\ntenant ann {BLOCKS} 1 1 {BLOCKS}\ngo\nann open 1 {BLOCKS}\n".encode()
WRITE = b"0 ann write 1 1 0 0 =" + CONTENT * b"x" + b"\n"
READ = b"0 ann read 1 2 0 0\n"
TOLD = b"ann 0 done read 1 2 tag 1 1 " + CONTENT * b"78" + b"\n"
PLACE, PLACED = b"0 ann abandon 99 %d\n", b"ann 0 refused nosession 99 %d\n"  # says where in the burst an answer is
READS = 60  # of which all answers would take 120 MiB
MOST = 32  # MiB that a node may have had at any time
WHILE = 0.5  # seconds in which nothing is read


def most_memory(child):
    """The most that the process has had of memory until now, in MiB."""
    with open(f"/proc/{child.pid}/status", encoding="ascii") as file:
        return next(int(line.split()[1]) for line in file if line.startswith("VmHWM:")) // 1024


def burst(program, folder, waits):
    """The most memory of a node that is given a burst of which nothing is read for so many seconds."""
    put(f"{folder}/plan", PLAN)
    with subprocess.Popen(words_of(program, 0, f"{folder}/plan", f"{folder}/journal {waits}", True), stdin=subprocess.PIPE, stdout=subprocess.PIPE, stderr=subprocess.DEVNULL) as child:
        try:
            child.stdin.write(WRITE + READ)
            child.stdin.flush()
            check([child.stdout.readline() for _ in range(3)] == [b" ?\n", b"ann 0 done write 1 1 tag 1 1\n", TOLD], "the first answers are others")
            giving = threading.Thread(target=give, args=(child, b"".join(READ + PLACE % at for at in range(1, READS + 1))))
            giving.start()
            time.sleep(waits)
            waiting = most_memory(child)
            told = sum(child.stdout.readline() == TOLD and child.stdout.readline() == PLACED % at for at in range(1, READS + 1))
            most = most_memory(child)
            giving.join()
            check(told == READS, f"{told} of {READS} answers were told, each in its place")
            check(waiting <= most <= MOST, f"a node has had {waiting} MiB, and {most} once its answers were read; {MOST} are enough")
        finally:
            child.kill()


def give(child, lines):
    try:
        child.stdin.write(lines)
        child.stdin.flush()
    except BrokenPipeError:
        pass


def tell_burst(program, folder):
    """How many were tried, and what is wrong."""
    tried, wrong = [0, WHILE], []
    for waits in tried:
        try:
            burst(program, folder, waits)
        except (Wrong, OSError, ValueError) as fault:
            wrong.append(f"nothing is read for {waits} seconds: {fault}")
    return len(tried), wrong
