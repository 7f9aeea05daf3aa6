"""What was proved: digests of the sources, and the record that a build leaves beside a program: that of a node, or the reference.

A crate's digest is of the kit, of the file HANDLES, of the crate's line in crates.txt, of its files in src/, specs/ and proofs/, and of the digests
of the crates below it. So two trees with one digest of a program are proved alike. The record is crates/PROGRAM/out/PROGRAM.proved: lines of a word
and a value, which `./gridfs --version` compares with the tree and the program.
"""

import datetime
import hashlib
import os
import subprocess

from progress import TOP, crates_below

NODE = "gridfs_node"
REFERENCE = "gridfs"
PROGRAMS = (NODE, REFERENCE)
PARTS = ("src", "specs", "proofs")


def built(program: str) -> str:
    """Where a build leaves the program."""
    return f"{TOP}/crates/{program}/out/{program}"


def record_of(program: str) -> str:
    """Where the record of its proof is."""
    return f"{built(program)}.proved"


def digest_of_file(path: str) -> str:
    with open(path, "rb") as file:
        return hashlib.file_digest(file, "sha256").hexdigest()


def kit() -> str:
    """The kit that is on the path, as it names itself."""
    return subprocess.run(["rt", "version"], capture_output=True, text=True, check=True).stdout.strip()


def commit() -> str:
    """The commit of the checkout, or where it is none that this isn't known."""
    git = ["git", "-C", TOP]
    try:
        named = subprocess.run([*git, "log", "-1", "--format=%h of %cs"], capture_output=True, text=True, check=True).stdout.strip()
        changed = subprocess.run([*git, "status", "--porcelain", "--untracked-files=no"], capture_output=True, text=True, check=True).stdout
    except (OSError, subprocess.CalledProcessError):
        return "unknown: this is no checkout"
    return named + (", and changes that were not committed" if changed else "")


def own_digest(crate: str, line: str, by: str) -> str:
    """The digest of the crate's own files and of its line in crates.txt, with this kit."""
    digest = hashlib.sha256(repr((by, line, digest_of_file(f"{TOP}/HANDLES"))).encode())
    for part in PARTS:
        for at, folders, names in os.walk(f"{TOP}/crates/{crate}/{part}"):
            folders.sort()
            for name in sorted(names):
                path = os.path.join(at, name)
                digest.update(repr((os.path.relpath(path, TOP), digest_of_file(path))).encode())
    return digest.hexdigest()


def digests(by: str, program: str) -> dict[str, str]:
    """The digests of the crates that a program stands on and of the program, with this kit."""
    below = crates_below(program)
    with open(f"{TOP}/crates.txt") as listed:
        lines = {line.partition(":")[0].split()[0]: line.strip() for line in listed if ":" in line.partition("#")[0]}
    found: dict[str, str] = {}

    def found_for(crate: str) -> str:
        if crate not in found:
            lower = [found_for(it) for it in below[crate]]
            found[crate] = hashlib.sha256(repr((own_digest(crate, lines[crate], by), lower)).encode()).hexdigest()
        return found[crate]

    for crate in below:
        found_for(crate)
    return found


def keep_record(program: str, sources: str, by: str, of_commit: str) -> None:
    """Says beside the program that its whole build and all proofs were run on sources of this digest, by this kit."""
    values = {
        "sources": sources,
        "program": digest_of_file(built(program)),
        "kit": by,
        "commit": of_commit,
        "date": datetime.datetime.now(datetime.timezone.utc).strftime("%Y-%m-%d"),
    }
    with open(f"{record_of(program)}.new", "w") as out:
        out.writelines(f"{name} {value}\n" for name, value in values.items())
    os.replace(f"{record_of(program)}.new", record_of(program))


def kept_record(program: str) -> dict[str, str]:
    """The values of the record; none where there is no whole one."""
    try:
        with open(record_of(program)) as lines:
            values = dict(line.rstrip("\n").split(" ", 1) for line in lines)
    except (OSError, ValueError):
        return {}
    return values if {"sources", "program", "kit", "commit", "date"} <= values.keys() else {}


def is_of(program: str, record: dict[str, str], sources: str) -> bool:
    """Whether the program that is there is the one of the record, of sources of this digest."""
    path = built(program)
    return bool(record) and record["sources"] == sources and os.path.isfile(path) and digest_of_file(path) == record["program"]
