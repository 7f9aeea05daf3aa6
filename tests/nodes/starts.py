"""What a node takes of memory: as it starts from its journal, takes its first lines, and writes a long journal anew. `tools/plan` tells how
much that is at most."""

import os
import re
import subprocess

from burst import most_memory
from processes import Wrong, check, put, words_of

FILES, BLOCKS = 24, 16_384
CONTENT = b"x" * (64 * BLOCKS)
SERVER = FILES * BLOCKS  # blocks
PLAN = f"grid 1 1\nroom {SERVER}\ntenant ann {SERVER} 1 1 {BLOCKS}\ngo\nann open {FILES} {BLOCKS}\n".encode()
TOOL = os.path.join(os.path.dirname(os.path.abspath(__file__)), "..", "..", "tools", "plan")
MOST = re.compile(r"at most ([0-9,]+) MiB")
RESERVED = 1_024  # numbers of operations that a start passes over
FIRST_LINES = 4  # MiB that they may add to what the start took


class Kept:
    """A node of one server with its journal."""

    def __init__(self, program, folder):
        self.program, self.folder, self.writes = program, folder, 0
        put(f"{folder}/plan", PLAN)

    def journal(self):
        return os.path.getsize(f"{self.folder}/journal") >> 20

    def told(self):
        """The most that `tools/plan` says that a node takes, in MiB."""
        said = subprocess.run([TOOL, "--used", f"{self.folder}/plan"], capture_output=True, text=True, check=True, env={**os.environ, "GRIDFS": self.program})
        return int(MOST.search(said.stdout + said.stderr)[1].replace(",", ""))

    def lives(self, writes, begins=False):
        """The most memory at its start, and in its whole life: it takes so many writes, one after another, each of a whole file."""
        words = words_of(self.program, 0, f"{self.folder}/plan", f"{self.folder}/journal", begins)
        with subprocess.Popen(words, stdin=subprocess.PIPE, stdout=subprocess.PIPE, stderr=subprocess.DEVNULL) as child:
            try:
                check(child.stdout.readline() == b" ?\n", "it does not start")
                start = most_memory(child)
                self.writes = -(-self.writes // RESERVED) * RESERVED
                for _ in range(writes):
                    self.writes += 1
                    child.stdin.write(b"0 ann write 1 %d 0 %d =%s\n" % (self.writes, self.writes % FILES, CONTENT))
                    child.stdin.flush()
                    check(child.stdout.readline().startswith(b"ann 0 done write 1 %d " % self.writes), f"write {self.writes} is not done")
                return start, most_memory(child)
            finally:
                child.kill()


def first_lines(kept):
    """A journal without anything that is not needed: the first lines after a start take no more than the start did."""
    kept.lives(FILES, True)
    start, most = kept.lives(2)
    check(most <= start + FIRST_LINES, f"a start took {start} MiB, and the first lines behind it {most}")


def longest_journal(kept):
    """A journal gets as long as it may, is written anew, and gets so long again; then a start reads it."""
    most, lengths = 0, []
    while len(lengths) < 2 or lengths[-1] >= lengths[-2]:
        most = max(most, *kept.lives(FILES // 2))
        lengths.append(kept.journal())
        check(len(lengths) < 20, f"the journal is never written anew: {lengths}")
    told = kept.told()
    check(max(lengths) > 3 * FILES, f"the journal was short: {lengths}")
    check(most <= told, f"a node took {most} MiB with a journal of up to {max(lengths)}; tools/plan says at most {told}")


def tell_starts(program, folder):
    """How many were tried, and what is wrong."""
    kept, wrong = Kept(program, folder), []
    for it in (first_lines, longest_journal):
        try:
            it(kept)
        except (Wrong, OSError, ValueError, TypeError, subprocess.CalledProcessError) as fault:
            wrong.append(f"{it.__name__}: {fault}")
    return 2, wrong
