"""How far a command is that proves crates, told on standard error; which crates there are, how many are proved at once, and that
no two commands build the same at once."""

import contextlib
import fcntl
import os
import shutil
import subprocess
import sys
import time

TOP = os.path.dirname(os.path.dirname(os.path.abspath(__file__)))
# What the check of one crate is planned to take.
BYTES_OF_A_CHECK = 3_500_000_000


def at_once():
    """How many crates can be proved side by side here, by the processors and the memory."""
    with open("/proc/meminfo") as lines:
        free = next(1024 * int(it.split()[1]) for it in lines if it.startswith("MemAvailable:"))
    return max(1, min(len(os.sched_getaffinity(0)), free // BYTES_OF_A_CHECK))


def crates_below(program: str | None = None) -> dict[str, list[str]]:
    """The crates that a program stands on and the program, or all crates, each with those of the repository that its line in
    crates.txt names. The lowest are first."""
    below = {}
    with open(f"{TOP}/crates.txt") as lines:
        for line in lines:
            name, is_crate, words = line.partition("#")[0].partition(":")
            if is_crate:
                below[name.split()[0]] = words.split()
    wanted = [program] if program else list(below)
    for name in wanted:
        wanted += [it for it in below[name] if it in below and it not in wanted]
    return {name: [it for it in below[name] if it in below] for name in below if name in wanted}


def kept_seconds(name):
    """The seconds that things took the last time, by their names."""
    try:
        with open(f"{TOP}/.{name}.seconds") as lines:
            return {it: float(seconds) for it, seconds in map(str.split, lines)}
    except (OSError, ValueError):
        return {}


def keep_seconds(name, seconds):
    with open(f"{TOP}/.{name}.seconds", "w") as out:
        out.writelines(f"{it} {seconds[it]:.1f}\n" for it in seconds)


@contextlib.contextmanager
def alone(path):
    """One command at a time is here, by a lock on the file; another is told that it waits."""
    with open(path, "w") as lock:
        try:
            fcntl.flock(lock, fcntl.LOCK_EX | fcntl.LOCK_NB)
        except BlockingIOError:
            print("gridfs: another command builds it; waiting for that one", file=sys.stderr)
            fcntl.flock(lock, fcntl.LOCK_EX)
        yield


class Shown:
    """One line on standard error that moves where that is a terminal; elsewhere a line for each thing that has ended."""

    def __init__(self, name):
        self.name, self.begun, self.moves = name, time.monotonic(), sys.stderr.isatty()

    def seconds(self):
        return time.monotonic() - self.begun

    def at_hand(self, text, left):
        """What is at hand, and the seconds that are expected to be left, if that is known."""
        if self.moves:
            now = self.seconds()
            of = f" of some {now + left:.0f}" if left is not None else ""
            line = f"{self.name}: {now:.0f}{of} seconds; {text}"
            self.write(f"\r\x1b[K{line[:shutil.get_terminal_size().columns - 1]}")

    def ended(self, text):
        if not self.moves:
            self.write(f"{self.name}: {text}; {self.seconds():.0f} seconds\n")

    def clear(self):
        if self.moves:
            self.write("\r\x1b[K")

    def write(self, text):
        sys.stderr.write(text)
        sys.stderr.flush()
