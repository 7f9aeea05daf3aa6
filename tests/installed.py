#!/usr/bin/env python3
"""Tells which packages of tests/packages are not installed, a line each: tests/installed.py [--without GROUP]..

The status is 0 where all are there, and 1 else."""

import os
import shutil
import subprocess
import sys

HERE = os.path.dirname(os.path.abspath(__file__))
PATH = os.environ.get("PATH", "") + ":/usr/sbin"  # (where Debian has mosquitto and nginx)


def is_there(how, what):
    if how == "command":
        return shutil.which(what, path=PATH) is not None
    if how == "file":
        return os.path.exists(what)
    if how == "header":
        words, given = [os.environ.get("CC", "cc"), "-fsyntax-only", "-x", "c", "-"], f"#include <{what}>\n".encode()
    else:
        words, given = ["/usr/bin/python3", "-c", f"import {what}"], b""
    try:
        return subprocess.run(words, input=given, stderr=subprocess.DEVNULL).returncode == 0
    except OSError:
        return False


def packages():
    """Of each package its name, how it is seen, what is looked for, and its group."""
    with open(f"{HERE}/packages", encoding="ascii") as file:
        return [line.split() for line in file if not line.startswith("#")]


def missing(groups):
    """The packages of these groups that are not there."""
    return [package for package, how, what, group in packages() if group in groups and not is_there(how, what)]


def main(words):
    groups = dict.fromkeys(group for *_, group in packages())
    while words[:1] == ["--without"] and words[1:2] and words[1] in groups and words[1] != "all":
        groups.pop(words[1], None)
        words = words[2:]
    if words:
        sys.exit(__doc__)
    found = missing(groups)
    print("".join(f"{package}\n" for package in found), end="")
    return bool(found)


if __name__ == "__main__":
    sys.exit(main(sys.argv[1:]))
