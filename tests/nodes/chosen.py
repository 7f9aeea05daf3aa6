"""Which program `./gridfs` runs, a node's or the reference: it and a build that is played are in a folder of their own, so that nothing is compiled."""

import os
import shutil
import subprocess

TOP = os.path.join(os.path.dirname(os.path.abspath(__file__)), "..", "..")
OWN = {"GRIDFS", "GIT_DIR"}
PROGRAMS = ("gridfs", "gridfs_node")
# In place of tools/quick: a program that says its words, and a line for each build.
QUICK = """#!/bin/sh
[ "$1" != --is-new ] || exit 1
cd "$(dirname "$0")/.." && mkdir -p .unproved && echo "$*" >>builds || exit 2
[ ! -e refuses ] || exit 1
printf '#!/bin/sh\\necho quick %s "$@"\\n' "$1" >".unproved/$1" && chmod +x ".unproved/$1"
"""
# In place of tools/build: a program that says its words, with its record.
BUILD = """#!/usr/bin/env python3
import os, sys
sys.path.insert(0, os.path.dirname(os.path.abspath(__file__)))
from record import TOP, built, commit, digests, keep_record, kit
program = sys.argv[1]
open(f"{TOP}/builds", "a").write(f"proof of {program}\\n")
os.makedirs(f"{TOP}/crates/{program}/out", exist_ok=True)
with open(built(program), "w") as out:
    out.write(f'#!/bin/sh\\necho proved {program} "$@"\\n')
os.chmod(built(program), 0o755)
keep_record(program, digests(kit(), program)[program], kit(), commit())
"""
SOURCES = 1_000_000_000  # the time of their last change
KIT = "#!/bin/sh\necho rattle-kit-13f\n"


class Checkout:
    """A folder with `gridfs`, a source, and what it builds by and asks."""

    def __init__(self, folder):
        self.folder, self.tried, self.wrong = folder, 0, []
        for program in PROGRAMS:
            os.makedirs(f"{folder}/crates/{program}/src")
        os.makedirs(f"{folder}/tools")
        os.makedirs(f"{folder}/path")
        shutil.copy(os.path.join(TOP, "gridfs"), f"{folder}/gridfs")
        for name in ("proved", "record.py", "progress.py"):
            shutil.copy(os.path.join(TOP, "tools", name), f"{folder}/tools/{name}")
        files = {"tools/quick": QUICK, "tools/build": BUILD, "path/rt": KIT, "HANDLES": "", "crates.txt": "gridfs:\ngridfs_node:\n"}
        files |= {f"crates/{program}/src/main.rt": "" for program in PROGRAMS}
        for path, text in files.items():
            self.write(path, text)
        made = [f"crates/{program}/src{at}" for program in PROGRAMS for at in ("/main.rt", "")]
        for at in (*made, "crates.txt"):
            os.utime(f"{folder}/{at}", (SOURCES, SOURCES))
        self.environment = {name: value for name, value in os.environ.items() if name not in OWN}
        self.environment["PATH"] = f"{folder}/path:{os.environ['PATH']}"

    def write(self, path, text):
        with open(f"{self.folder}/{path}", "w", encoding="ascii") as out:
            out.write(text)
        os.chmod(f"{self.folder}/{path}", 0o755)

    def change(self):
        """Makes what was built older than the sources."""
        for name in os.listdir(f"{self.folder}/.unproved"):
            os.utime(f"{self.folder}/.unproved/{name}", (SOURCES - 1, SOURCES - 1))

    def held(self, name, seen, wanted):
        self.tried += 1
        if seen != wanted:
            self.wrong.append(f"{name}: {seen!r}, not {wanted!r}")

    def run(self, *words):
        """What the program said, and what was told on standard error."""
        done = subprocess.run([f"{self.folder}/gridfs", *words], stdin=subprocess.DEVNULL, capture_output=True, text=True, env=self.environment, timeout=60)
        return done.returncode, done.stdout, done.stderr

    def builds(self):
        with open(f"{self.folder}/builds", encoding="ascii") as file:
            return file.read().split("\n")[:-1]

    def version(self):
        """What is told behind the version of the program of a node."""
        return self.run("--version")[1].splitlines()[1:]

    def chooses(self):
        status, told, said = self.run("run")
        self.held("a first answer", (status, told, self.builds()), (0, "quick gridfs run\n", ["gridfs"]))
        self.held("and its notice", "gridfs: this program is not proved" in said, True)
        self.held("a node", (self.run("node", "0")[1], self.builds()[1:]), ("quick gridfs_node node 0\n", ["gridfs_node"]))
        self.held("a plan, and what has been built by then", (self.run("plan", "p")[1:], len(self.builds())), (("quick gridfs_node plan p\n", ""), 2))
        self.held("words that are none", self.run("--help")[1], "quick gridfs_node --help\n")
        self.held("its version", self.version()[:2], ["gridfs_node: not proved: .unproved/gridfs_node", "gridfs: not proved: .unproved/gridfs"])
        self.change()
        self.held("a first answer of changed sources", (self.run("node")[1], self.builds()[2:]), ("quick gridfs_node node\n", ["gridfs_node"]))
        self.refuses()
        self.proves()

    def refuses(self):
        """Where none can be built, a node does not run on the one that is there."""
        self.change()
        self.write("refuses", "")
        self.held("a node that can't be built", self.run("node")[:2], (125, ""))
        os.unlink(f"{self.folder}/refuses")
        self.held("and once it can", self.run("node")[1], "quick gridfs_node node\n")

    def proves(self):
        """Only a program with the record of its proof is run as the proved one, and told as such while the sources are those of the record."""
        os.makedirs(f"{self.folder}/crates/gridfs_node/out")
        self.write("crates/gridfs_node/out/gridfs_node", '#!/bin/sh\necho copied "$@"\n')
        self.held("a program that was copied there", self.run("node")[1], "quick gridfs_node node\n")
        self.held("and its version", ["no record of a proof" in it for it in self.version()[:2]], [False, True])
        self.held("--prove node", (self.run("--prove", "node")[0], self.builds()[-1]), (0, "proof of gridfs_node"))
        self.held("the other one then", self.run("run")[1], "quick gridfs run\n")
        self.held("--prove", (self.run("--prove")[0], self.builds()[-1]), (0, "proof of gridfs"))
        count = len(self.builds())
        self.held("--prove once more", (self.run("--prove")[0], len(self.builds())), (0, count))
        self.held("what runs then", (self.run("node")[1:], len(self.builds())), (("proved gridfs_node node\n", ""), count))
        self.held("and for a script", (self.run("run")[1:], len(self.builds())), (("proved gridfs run\n", ""), count))
        self.held("its version then", self.version()[0].startswith("gridfs_node: proved on "), True)
        self.write("crates/gridfs_node/src/main.rt", "// changed, with the time of before\n")
        os.utime(f"{self.folder}/crates/gridfs_node/src/main.rt", (SOURCES, SOURCES))
        self.held("the version over changed sources", "of other sources" in self.version()[0], True)
        self.held("--prove over changed sources", (self.run("--prove")[0], len(self.builds())), (0, count + 1))
        self.write("crates/gridfs_node/out/gridfs_node", '#!/bin/sh\necho copied "$@"\n')
        self.held("a program copied over a proved one", self.run("node")[1], "quick gridfs_node node\n")
        self.held("and its version then", "the record beside it is of another program" in self.version()[1], True)


def tell_chosen(folder):
    """How many things were compared, and what is wrong."""
    checkout = Checkout(os.path.join(folder, "checkout"))
    checkout.chooses()
    return checkout.tried, checkout.wrong
