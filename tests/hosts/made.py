"""What tools/packages makes."""

import glob
import os
import shutil
import subprocess
import sys
import time

from hosts import TOP, check, run

TOOL = os.path.join(TOP, "tools", "packages")
NAMES = ["gridfs", "gridfs-client", "gridfs-s3"]


def found_in(folder):
    return {name: next(iter(glob.glob(f"{folder}/{name}_*.deb"))) for name in NAMES}


def packages(program, out):
    """The packages of a program, by their names."""
    done = subprocess.run([TOOL, "--program", program, out], capture_output=True, text=True)
    check(done.returncode == 0, f"tools/packages: {done.stdout}{done.stderr}")
    check(sorted(done.stdout.split()) == sorted(found_in(out).values()), f"it tells others than it has made: {done.stdout}")
    return found_in(out)


def field(path, name):
    return run("dpkg-deb", "-f", path, name).strip()


def anew(path, room, change):
    """The package once more, after a change of its files."""
    shutil.rmtree(room, ignore_errors=True)
    run("dpkg-deb", "-R", path, room)
    change(room)
    out = f"{room}.{os.path.basename(path)}"
    run("dpkg-deb", "--root-owner-group", "-b", room, out)
    return out


def make_later(room):
    """Makes the package a later version, whose program has other bytes."""
    path = f"{room}/DEBIAN/control"
    with open(path, encoding="utf-8") as file:
        text = file.read()
    with open(path, "w", encoding="utf-8") as out:
        out.write(text.replace("\nVersion: ", "\nVersion: 1:"))
    if os.path.exists(f"{room}/usr/bin/gridfs-node"):
        with open(f"{room}/usr/bin/gridfs-node", "ab") as out:
            out.write(b"later")


def later(folder, found, change=make_later):
    """A later package of the program."""
    return {"gridfs": anew(found["gridfs"], f"{folder}.later", change)}


# The trials

def without_errors(_, __, found):
    """lintian has no error, where it is there; all of a package is root's."""
    for path in found.values():
        check(all(line.split()[1] == "root/root" for line in run("dpkg-deb", "-c", path).splitlines()), f"{path}: not all is root's")
    if shutil.which("lintian"):
        done = subprocess.run(["lintian", "--allow-root", *found.values()], capture_output=True, text=True)
        check("E: " not in done.stdout and done.returncode == 0, done.stdout + done.stderr)
        return "by lintian"
    return "lintian is not there"


def says_unproved(_, folder, found):
    """Packages of a program of which no proof is known say so, and are older than proved ones."""
    for path in found.values():
        check("NOT proved, as far as is known" in " ".join(field(path, "Description").split()), f"{path}: {field(path, 'Description')}")
    version = field(found["gridfs"], "Version")
    check(version.endswith("~unproved"), version)
    run("dpkg", "--compare-versions", version, "lt", version.removesuffix("~unproved"))
    check(field(found["gridfs-s3"], "Depends").startswith(f"gridfs-client (= {version})"), "the gateway wants another client")
    run("dpkg-deb", "-x", found["gridfs"], f"{folder}/unpacked")
    with open(f"{folder}/unpacked/usr/share/gridfs/proof", encoding="utf-8") as file:
        check(file.readline().startswith("NOT proved"), "its record says that it is proved")


def says_proved(program, folder, _):
    """In a copy of the sources whose program has a record of a proof: that is told, and it is in the package. Without one nothing is made."""
    copy = f"{folder}/copy"
    shutil.copytree(TOP, copy, symlinks=True, ignore=shutil.ignore_patterns("out", ".git", ".unproved", ".build*", "__pycache__", "store", "shop"))
    for name in ("gridfs_node", "gridfs"):
        os.makedirs(f"{copy}/crates/{name}/out")
        shutil.copy(program, f"{copy}/crates/{name}/out/{name}")
    refused = subprocess.run([f"{copy}/tools/packages", f"{folder}/none"], capture_output=True, text=True)
    check(refused.returncode == 1 and "./gridfs --prove proves it" in refused.stderr and not os.path.exists(f"{folder}/none"), f"without a record: {refused}")
    keep = "from record import *; by = 'rattle-kit-test logic 0'; [keep_record(it, digests(by, it)[it], by, 'c0ffee of a day') for it in PROGRAMS]"
    run(sys.executable, "-B", "-c", keep, cwd=f"{copy}/tools")
    with open(f"{copy}/.build.seconds", "w", encoding="ascii") as out:
        out.write("gq_memory 12.5\n")
    run(f"{copy}/tools/packages", f"{folder}/proved")
    found = found_in(f"{folder}/proved")
    without_errors(program, folder, found)
    for path in found.values():
        said = " ".join(field(path, "Description").split())
        check("by rattle-kit-test, of these sources (commit c0ffee of a day)" in said and "NOT" not in said, said)
        check("unproved" not in field(path, "Version"), field(path, "Version"))
    run("dpkg-deb", "-x", found["gridfs"], f"{folder}/unpacked")
    with open(f"{folder}/unpacked/usr/share/gridfs/proof", encoding="utf-8") as file:
        record = file.read()
    for line in ("kit rattle-kit-test logic 0", "commit c0ffee of a day", "crate gq_memory 12.5 seconds"):
        check(f"\n{line}\n" in record, f"the record has no line {line}: {record}")
    digest = run("sha256sum", f"{folder}/unpacked/usr/bin/gridfs-node").split()[0]
    check(f"\nprogram {digest}\n" in record, "the record is of another program")


TRIALS = [without_errors, says_unproved, says_proved]


def tried(program, folder, found, tell):
    """How many are wrong."""
    wrong = 0
    for trial in TRIALS:
        begun, fault, what = time.monotonic(), "", "held"
        try:
            what = trial(program, folder, found) or what
        except Exception as error:  # (whatever it is, it is told)
            fault = f"wrong: {getattr(error, 'stderr', '') or error}"
        wrong += tell(f"made: {trial.__name__}", fault, begun, what)
    return wrong
