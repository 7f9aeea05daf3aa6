"""Nodes of a grid that runs, restarted one after another, as for a new plan or a new program: `./grid --roll`.

Who asks leaves the plan in the folder, as `roll`. The grid takes it, and tells line by line in `rolled` how far it is; once it is over, `roll` is gone.
"""

import contextlib
import os
import time

from gridfs_client.errors import BadFile
from gridfs_client.plans import ask as ask_program
from gridfs_grid.one_machine import InUse, NotStarted, keep, lock, tell
from gridfs_grid.planned import planned

ASKED, TOLD = "roll", "rolled"
PATIENCE = 10  # seconds in which a grid that runs takes what is asked
OVER = "all nodes are up again"


def ask(folder, program, path):
    """Has the grid that runs in a folder restart its nodes, with the plan at this path or the one it has; the status."""
    expect_running(folder)
    asked, told, kept = os.path.join(folder, ASKED), os.path.join(folder, TOLD), os.path.join(folder, "plan")
    text = text_of(path or kept)
    planned(program, text, path or kept)
    if path:
        expect_next(program, path, kept)
    if os.path.exists(asked):
        raise NotStarted(f"{folder}: nodes are restarted there already")
    with contextlib.suppress(FileNotFoundError):
        os.unlink(told)
    keep(asked, text)
    return follow(asked, told)


def expect_running(folder):
    try:
        os.close(lock(folder))
    except InUse:
        return
    except OSError as fault:
        raise NotStarted(f"{folder}: {fault.strerror}") from None
    raise NotStarted(f"{folder}: no grid runs there; `./grid --plan FILE {folder}` starts it with another plan")


def expect_next(program, path, kept):
    """NotStarted where a plan does not go on from the one that is kept."""
    try:
        ask_program(path, "--next", kept, by=program)
    except BadFile as fault:
        raise NotStarted(str(fault)) from None


def text_of(path):
    try:
        with open(path, encoding="latin1") as file:
            return file.read()
    except OSError as fault:
        raise NotStarted(f"{path}: {fault.strerror}") from None


def follow(asked, told):
    """Tells what the grid tells, until it is over; the status."""
    seen, begun, line = 0, time.monotonic(), ""
    while True:
        is_over = not os.path.exists(asked)
        lines = text_of(told).splitlines() if os.path.exists(told) else []
        for line in lines[seen:]:
            tell(line)
        seen = len(lines)
        if is_over:
            return 0 if line == OVER else 1
        if not lines and time.monotonic() > begun + PATIENCE:
            os.unlink(asked)
            raise NotStarted("the grid did not take it: a grid of before has to be ended and started once")
        time.sleep(0.1)


def take(folder, do):
    """(The grid's.) Does what is asked, if anything is: `do` is called with the text of a plan, and with what tells a line."""
    asked = os.path.join(folder, ASKED)
    if not os.path.exists(asked):
        return
    with open(os.path.join(folder, TOLD), "w", encoding="utf-8") as out:

        def say(line):
            out.write(f"{line}\n")
            out.flush()

        say("nodes are restarted, one after another")
        try:
            do(text_of(asked), say)
            say(OVER)
        except NotStarted as fault:
            say(str(fault))
            tell(fault)
        finally:
            os.unlink(asked)
