"""Jobs of a test that wait on clocks: side by side, and what is wrong is tried once more, alone."""

import multiprocessing
import os
import signal
import subprocess
import sys
import time

sys.path.insert(0, os.path.join(os.path.dirname(os.path.abspath(__file__)), "..", "..", "clients", "python"))
from gridfs_grid.one_machine import NotStarted
from processes import WRONG, interrupt, room

NO_OTHER_WORK = (" is not linearizable", " says: ")  # in what is wrong, where no other work on the machine can bring it about
SANITIZED = "-O1 -g -fsanitize=address,undefined -fno-sanitize-recover=all -fno-omit-frame-pointer"


def in_a_room(job):
    """Does a job in a folder of its own: its part and name, what was counted, and what is wrong."""
    part, name, call, words = job
    signal.signal(signal.SIGTERM, interrupt)
    with room() as folder:
        os.chdir(folder)
        begun = time.monotonic()
        try:
            counted, wrong = call(*words)
        except (*WRONG, NotStarted, subprocess.SubprocessError) as fault:
            counted, wrong = 0, [repr(fault)]
        except KeyboardInterrupt:
            sys.exit(130)
        finally:
            os.chdir("/")
            signal.signal(signal.SIGTERM, signal.SIG_DFL)
        return part, name, counted, wrong, time.monotonic() - begun


def told(test, result):
    """Tells what came of a job; how much of it is wrong."""
    part, name, counted, wrong, seconds = result
    print(f"{test}: {part}: {name}: {counted}; {seconds:.0f} seconds", flush=True)
    for fault in wrong:
        print(f"{test}: {part}: {name}: {fault}", file=sys.stderr, flush=True)
    return len(wrong)


def tried(test, pool, jobs, longest):
    """Does all jobs, in at most so many seconds; how much is wrong."""
    until, count, again = time.monotonic() + longest, 0, []
    results = pool.imap_unordered(in_a_room, jobs)
    for left in range(len(jobs), 0, -1):
        try:
            result = results.next(max(0, until - time.monotonic()))
        except multiprocessing.TimeoutError:
            print(f"{test}: {left} of {len(jobs)} are not done after {longest} seconds", file=sys.stderr)
            count += left
            break
        wrong = told(test, result)
        if wrong and not any(sign in fault for fault in result[3] for sign in NO_OTHER_WORK):
            again += [job for job in jobs if job[:2] == result[:2]]
        else:
            count += wrong
    for job in again:
        print(f"{test}: {job[0]}: {job[1]}: once more, alone", flush=True)
        count += told(test, pool.apply(in_a_room, (job,)))
    return count
