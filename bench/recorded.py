#!/usr/bin/env python3
"""Runs a bench, and keeps what it prints as a run: bench/recorded.py RUN COMMAND..

RUN is the name by which docs/SPEED.md cites it, as `keeps`. The file is bench/results/DATE-RUN.md: the commit, the kit, whether the
program that the command names is the proved one, the machine, the load before and after, the command, and then what it printed. A
command that fails leaves no file, and its status is this one's.
"""

import datetime
import os
import re
import subprocess
import sys

sys.dont_write_bytecode = True
TOP = os.path.dirname(os.path.dirname(os.path.abspath(__file__)))
sys.path[:0] = [f"{TOP}/tools"]
from record import PROGRAMS, commit, digest_of_file, digests, kept_record, kit


def _program(command: list[str]) -> str:
    """What is known of the program that the command names."""
    named = [word for word in command[1:] if os.path.isfile(word) and os.access(word, os.X_OK)]
    if not named:
        return "the one that the bench takes by itself"
    for program in PROGRAMS:
        record = kept_record(program)
        if record and digest_of_file(named[-1]) == record["program"]:
            of_now = digests(record["kit"], program)[program] == record["sources"]
            return f"proved on {record['date']}" + ("" if of_now else f", of commit {record['commit']}")
    return "nothing is proved of it"


def _machine() -> str:
    with open("/proc/cpuinfo", encoding="utf-8") as file:
        models = re.findall(r"^model name\s*: (.*)$", file.read(), re.MULTILINE)
    memory = os.sysconf("SC_PHYS_PAGES") * os.sysconf("SC_PAGE_SIZE") >> 30
    return f"{len(models)} cores, {models[0] if models else 'unknown'}, {memory} GiB"


def _load() -> str:
    return f"{os.getloadavg()[0]:.1f}"


def main(words: list[str]) -> int:
    if len(words) < 2 or not re.fullmatch(r"[a-z][a-z0-9-]*", words[0]):
        sys.exit(__doc__)
    run, command = words[0], words[1:]
    of_commit, program, before = commit(), _program(command), _load()
    printed = []
    with subprocess.Popen(command, stdout=subprocess.PIPE, text=True) as bench:
        assert bench.stdout is not None
        for line in bench.stdout:
            print(line, end="", flush=True)
            printed.append(line)
    if bench.returncode:
        return bench.returncode
    shown = " ".join(os.path.relpath(word, TOP) if os.path.isabs(word) and word.startswith(TOP) else word for word in command)
    path = f"{TOP}/bench/results/{datetime.date.today()}-{run}.md"
    with open(path, "w", encoding="utf-8") as file:
        file.write(
            f"# {run}\n\ncommit: {of_commit}; kit: {kit().split()[0]}; program: {program}\n"
            f"machine: {_machine()}; load before and after: {before}, {_load()}\ncommand: `{shown}`\n\n```\n{''.join(printed)}```\n"
        )
    print(os.path.relpath(path, TOP), file=sys.stderr)
    return 0


if __name__ == "__main__":
    sys.exit(main(sys.argv[1:]))
