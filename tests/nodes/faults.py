"""Each fault of a start with its text and its status, plans that go on from another and plans that don't, standard streams that are
closed, a second process on one journal."""

import os
import re
import resource
import signal
import subprocess

from journals import batches, sealed
from processes import MARKER, SECONDS, ended, get, put, words_of

PLAN = f"grid 2 2\nblocks 64\ntenant ann 16 4 1\ntenant bob 16 2 1\n{MARKER}go\nann open 4 2\nbob open 1 1\nann open 1 1\n".encode()
WIDE = PLAN.replace(b"blocks 64", b"room 128").replace(b"ann 16 4 1", b"ann 99 4 1 16 70").replace(b"bob 16 2 1", b"bob 16 2 1 16").replace(b" 1 1 1\n", b" 1 1 1 1\n")
READY = b"gridfs: node 0 of 2 by 2: %d facts\n"
NO_JOURNAL = b"gridfs: journal: no journal of a node\n"
STRANGE = b"gridfs: journal: a line says no fact of this node\n"
FIRST = b" ?\n"
NO_OPENS = [b"ann write 1 0 0 aa", b"server 1 down", b"ann", b"", b"cat open 1 1", b"ann open 1", b"ann open 1 1 ", b"ann open 1 1 times 0", b"ann open 1 1 times", b"ann open 1 1 times 2 ", b"ann open 1 1 times -", b"ann open 1 1 Times 2", b"ann open 1 1 times 4294967296", b"cat open 1 1 times 2", b"ann write 1 1 times 2", b"ann open 1 x times 2"]
SIZE, SHARE = "files or blocks of a file", "share, 7 blocks are left"
WRONG_OPENS = {b"ann open 65 1": SIZE, b"ann open 0 1": SIZE, b"ann open 1 17": SIZE, b"ann open 8 1": SHARE, b"ann open 4294967295 1": SIZE, b"ann open 65 1 times 2": SIZE, b"ann open 3 1 times 3": "share, 1 blocks are left"}
# A plan's fault, and what is told of it.
PLANS = [
    (b"", "line 1: end"),
    (b"grid 2\n", "line 1: form"),
    (b"grid 9 2\nblocks 1\n", "line 1: rows"),
    (b"grid 2 2\n", "line 2: end"),
    (b"grid 2 2\nblocks 64\ngo\n", "line 3: notenant"),
    (PLAN.replace(b"bob 16", b"bob 0"), "line 4: zeroshare"),
    (PLAN.replace(b"bob 16", b"bob 64"), "line 6: overblocks 81 64"),
    *((PLAN + line + b"\n", "line 10: live") for line in NO_OPENS),
    *((PLAN + line + b"\n", f"line 10: open: {cause}") for line, cause in WRONG_OPENS.items()),
    (PLAN.replace(b"ann 16", b"ann 99").replace(b"blocks 64", b"blocks 128") + b"ann open 1 1\n" * 63, "line 72: open: volumes"),
    (PLAN.replace(b"ann 16", b"ann 99").replace(b"blocks 64", b"blocks 128") + b"ann open 1 1 times 60\nann open 1 1 times 3\n", "line 11: open: volumes"),
    (WIDE.replace(b"ann 99 4 1 16 70", b"ann 99 4 1 16 0"), "line 3: volumes"),
    (WIDE.replace(b"ann 99 4 1 16 70", b"ann 99 4 1 16 65537"), "line 3: volumes"),
    (WIDE.replace(b"ann 99 4 1 16 70", b"ann 99 4 1 0 0"), "line 3: most"),
    (WIDE.replace(b"ann 99 4 1 16 70", b"ann 99 4 1 16 70 1"), "line 3: form"),
    (WIDE + b"ann open 1 1 times 69\n", "line 10: open: volumes"),
]
# Plans that do not go on from the first one, with what is told, and plans that do.
NOT_BEHIND = {
    "another grid": (PLAN.replace(b"grid 2 2", b"grid 2 3"), "line 1: the grid was 2 by 2"),
    "fewer blocks": (PLAN.replace(b"blocks 64", b"blocks 63"), "line 2: each server had 64 blocks, and may not have fewer"),
    "tenants in another order": (PLAN.replace(b"tenant ann 16 4 1\ntenant bob 16 2 1", b"tenant bob 16 2 1\ntenant ann 16 4 1"), "line 3: another tenant stood here"),
    "a session more": (PLAN.replace(b"bob 16 2", b"bob 16 3"), "line 4: the tenant had 2 sessions, and may not have more or fewer"),
    "a session less": (PLAN.replace(b"bob 16 2", b"bob 16 1"), "line 4: the tenant had 2 sessions, and may not have more or fewer"),
    "a smaller share": (PLAN.replace(b"bob 16", b"bob 15"), "line 4: the tenant's share was 16 blocks, and may not be smaller"),
    "volumes in another order": (PLAN.replace(b"ann open 4 2\n", b"") + b"ann open 4 2\n", "line 3: volume 0 of the tenant was `open 4 2`"),
    "a volume less": (PLAN.replace(b"bob open 1 1\n", b""), "line 4: volume 0 of the tenant was `open 1 1`"),
    "a tenant less": (PLAN.replace(b"tenant bob 16 2 1\n", b"").replace(b"bob open 1 1\n", b""), "line 4: another tenant stood here"),
    "the last tenant less": (PLAN.replace(MARKER.encode(), b""), "line 5: another tenant stood here"),
    "more by one line before others": (PLAN.replace(b"ann 16", b"ann 17").replace(b"ann open 4 2\n", b"ann open 4 2 times 2\n"), "line 3: volume 1 of the tenant was `open 1 1`"),
    "a larger file": (PLAN.replace(b"bob open 1 1", b"bob open 1 2"), "line 4: volume 0 of the tenant was `open 1 1`"),
}
BEHIND = {
    "a tenant more": PLAN.replace(b"go\n", b"tenant cat 8 3 1\ngo\n") + b"cat open 2 1\n",
    "a volume more": PLAN + b"bob open 2 2\n",
    "more blocks": PLAN.replace(b"blocks 64", b"blocks 65"),
    "room in place of blocks, and more in all": PLAN.replace(b"blocks 64", b"room 9000").replace(b"16 4 1\n", b"16 4 1 64\n").replace(b"16 2 1\n", b"40 2 1 64\n").replace(b"1 1 1\n", b"1 1 1 1\n") + b"bob open 1 30\n",
    "a greater share": PLAN.replace(b"bob 16", b"bob 20"),
    "other steps": PLAN.replace(b"ann 16 4 1", b"ann 16 4 7"),
    "volumes of tenants mixed otherwise": PLAN.replace(b"bob open 1 1\nann open 1 1\n", b"ann open 1 1\nbob open 1 1\n"),
    "no newline at the end": PLAN[:-1],
    "volumes by one line": PLAN.replace(b"bob open 1 1\nann open 1 1\n", b"ann open 1 1 times 1\nbob open 1 1 times 5\n"),
    "more volumes than before, and more than 64": WIDE + b"ann open 1 1 times 68\n",
}
BOTH = "--plan plan --journal journal"
NO_REQUESTS = ["node", f"node x {BOTH}", "node 0 --plan plan", "node 0 --journal journal", f"node 0 1 {BOTH}", f"node 0 {BOTH} --old"]


def first_journal():
    return sealed(1, b"node 0 of 2 by 2\n" + PLAN)


# Journals of a later form. The batches behind its line may be sealed as those of today, or in any other way.
LATER = b"journal 2\n"
LATER_FORMS = {
    "a later form": sealed(1, LATER + b"node 0 of 2 by 2\n" + PLAN),
    "a later form with batches of today": sealed(1, LATER + b"node 0 of 2 by 2\n" + PLAN) + sealed(2, b"began ann 1 1024\n"),
    "a later form whose first batch has another seal": LATER + b"node 0 of 2 by 2\n" + PLAN + b"seal s:00112233\n",
    "the same, with a batch of today after it": LATER + b"node 0 of 2 by 2\n" + PLAN + b"seal s:00112233\n" + sealed(2, b"began ann 1 1024\n"),
    "a later form of bytes": LATER + bytes(range(256)) * 40,
    "a later form's line alone": LATER,
    "a later form's line with more words": b"journal 2 of pieces\n" + first_journal(),
}
NO_FORMS = {"a form that is no number": b"journal two\n" + bytes(99), "no form": b"journal\n", "half a line of a form": b"journal 2", "an empty journal": b""}


def of_node(number):
    return b"gridfs: journal: of node %d\n" % number


def not_kept(plan, told):
    return f"gridfs: {plan}: does not go on from the plan in journal: {told}\n".encode()


def one_by_one(plan):
    """The plan with a line for each volume, where one opens several."""
    return re.sub(rb"(\w+ open \d+ \d+) times (\d+)\n", lambda found: (found[1] + b"\n") * int(found[2]), plan)


class Faults:
    """Starts in one folder, each compared with what it has to do."""

    def __init__(self, program, folder):
        self.program, self.folder, self.tried, self.wrong = program, folder, 0, []

    def at(self, name):
        return os.path.join(self.folder, name)

    def held(self, name, seen, wanted):
        self.tried += 1
        if seen != wanted:
            self.wrong.append(f"{name}: {seen}, not {wanted}")

    def node(self, given=b"", number=0, plan="plan", journal="journal", is_new=False, is_anew=False, **more):
        return ended(words_of(self.program, number, plan, journal, is_new) + ["--anew"] * is_anew, given, cwd=self.folder, **more)

    def refused(self, name, status, told, **more):
        """A start that is refused writes nothing, and leaves the journal as it was."""
        before = get(self.at("journal"))
        self.held(name, self.node(**more), (status, told, b""))
        self.held(f"the journal behind {name}", get(self.at("journal")), before)

    def first_start(self):
        put(self.at("plan"), PLAN)
        self.held("a first start", self.node(is_new=True), (0, READY % 0, FIRST))
        text = get(self.at("journal"))
        self.held("its journal", text, first_journal())
        self.held("no JOURNAL.new", sorted(os.listdir(self.folder)), ["journal", "journal.lock", "plan"])
        self.held("a second start", (self.node(), get(self.at("journal"))), ((0, READY % 0, FIRST), text))
        put(self.at("again.new"), b"left by another start")
        self.held("a JOURNAL.new that was left", self.node(journal="again", is_new=True), (0, READY % 0, FIRST))
        self.held("its journal", get(self.at("again")), text)
        os.mkdir(self.at("deep"))
        self.held("a journal in a folder", self.node(journal="deep/journal", is_new=True), (0, READY % 0, FIRST))
        put(self.at("wide"), PLAN.replace(b"grid 2 2", b"grid 1 3"))
        ready = READY.replace(b"node 0 of 2 by 2", b"node 2 of 1 by 3") % 0
        self.held("a grid that is no square", self.node(number=2, plan="wide", journal="wide.journal", is_new=True), (0, ready, FIRST))

    def journals(self):
        self.refused("--new, and a journal is there", 1, b"gridfs: journal: a journal\n", is_new=True)
        self.held("no journal", self.node(journal="other"), (1, b"gridfs: other: no journal\n", b""))
        self.held("a folder that is not there", self.node(journal="none/journal", is_new=True), (1, b"gridfs: none/journal: write fault\n", b""))
        self.refused("another number", 1, of_node(0), number=1)
        self.refused("no such server", 1, b"gridfs: node 4: of 4\n", number=4)

    def chunks(self):
        """A plan that gives room for chunks. Faults of its shelf are in tests/chunks/nodes."""
        put(self.at("chunks"), PLAN + b"bob chunks 9\n")
        self.held("no journal, with room for chunks", self.node(plan="chunks", journal="of_chunks"), (1, b"gridfs: of_chunks: no journal\n", b""))
        self.held("no files of it", [name for name in os.listdir(self.folder) if name.startswith("of_chunks")], ["of_chunks.lock"])
        put(self.at("twice"), PLAN + b"bob chunks 9\nbob chunks 10\n")
        self.refused("room for chunks, twice", 1, b"gridfs: twice: line 11: chunks\n", plan="twice")
        self.refused("no such server, with room for chunks", 1, b"gridfs: node 4: of 4\n", number=4, plan="chunks")

    def forms(self):
        """A journal of a form that a later program writes is told so, and stays as it is, to the byte, whatever comes after its first line."""
        text = get(self.at("journal"))
        for name, later in LATER_FORMS.items():
            put(self.at("journal"), later)
            self.refused(name, 1, b"gridfs: journal: form 2, of a later program: this one reads form 1\n")
        for name, other in NO_FORMS.items():
            put(self.at("journal"), other)
            self.refused(name, 1, b"gridfs: journal: no journal of a node\n")
        put(self.at("journal"), text)

    def anew(self):
        """A journal that is written anew at a start: what was replaced stands in it no more, and another start reads the same."""
        text = get(self.at("journal"))
        facts = [b"began ann 1 1024\n", b"kept ann 0 0 1 1 =replaced\n", b"kept ann 0 1 1 1 =stays\n", b"kept ann 0 0 2 1 -\n"]
        put(self.at("journal"), text + b"".join(sealed(number, fact) for number, fact in enumerate(facts, 2)))
        before = get(self.at("journal"))
        self.held("a start that is not told so", (self.node(), get(self.at("journal"))), ((0, READY % 4, FIRST), before))
        self.held("a start by --anew", self.node(is_anew=True), (0, READY % 4, FIRST))
        found, ends = batches(get(self.at("journal")))
        needed = sorted(facts[0:1] + facts[2:])
        self.held("the journal behind it", (found[0], sorted(found[1].splitlines(True)), ends[1:]), (batches(text)[0][0], needed, [len(get(self.at("journal")))]))
        self.held("no JOURNAL.new behind it", os.path.exists(self.at("journal.new")), False)
        self.held("a start behind it", self.node(), (0, READY % len(needed), FIRST))
        self.held("a first start by --anew", (self.node(journal="anew", is_new=True, is_anew=True), get(self.at("anew"))), ((0, READY % 0, FIRST), text))
        self.refused("another number, by --anew", 1, of_node(0), number=1, is_anew=True)
        put(self.at("journal"), text)

    def plans(self):
        for text, fault in PLANS:
            put(self.at("wrong"), text)
            self.refused(f"the plan {text[-40:]}", 1, b"gridfs: wrong: %s\n" % fault.encode(), plan="wrong")
        self.refused("no plan file", 1, b"gridfs: none: read fault\n", plan="none")
        put(self.at("wrong"), PLAN.replace(b"grid", b"crid"))
        self.refused("a plan's fault before all others", 1, b"gridfs: wrong: line 1: form\n", plan="wrong", number=9, is_new=True)
        self.refused("the number before the journal", 1, b"gridfs: node 9: of 4\n", number=9, is_new=True)

    def plans_that_go_on(self):
        text = get(self.at("journal"))
        for name, (plan, told) in NOT_BEHIND.items():
            put(self.at("next"), plan)
            self.refused(name, 1, not_kept("next", told), plan="next")
        for name, plan in BEHIND.items():
            put(self.at("journal"), text)
            put(self.at("next"), plan)
            self.held(name, self.node(plan="next"), (0, READY % 0, FIRST))
            canonical = b"node 0 of 2 by 2\n" + one_by_one(plan if plan.endswith(b"\n") else plan + b"\n")
            is_same = canonical == b"node 0 of 2 by 2\n" + PLAN
            found, ends = batches(get(self.at("journal")))
            self.held(f"the journal behind {name}", (found[1:], ends[-1]), ([] if is_same else [canonical], len(get(self.at("journal")))))
            self.held(f"{name}, again", self.node(plan="next"), (0, READY % 0, FIRST))
        put(self.at("journal"), text)
        put(self.at("next"), BEHIND["a tenant more"])
        self.node(plan="next")
        self.refused("the plan before", 1, not_kept("plan", "line 6: another tenant stood here"))
        put(self.at("journal"), text)

    def words(self):
        for words in NO_REQUESTS:
            status, told, wrote = ended([self.program, *words.split()], cwd=self.folder)
            self.held(f"the words {words}", (status, told != b"", wrote), (2, True, b""))
        words = [self.program, "node", "--journal", "journal", "--plan", "plan", "0"]
        self.held("the words in another order", ended(words, cwd=self.folder), (0, READY % 0, FIRST))
        status, told, wrote = ended([self.program, "node", "--help"])
        self.held("--help", (status, told, b"--journal" in wrote), (0, b"", True))

    def by_shell(self, name, status, told, redirected):
        """A start with standard streams that a shell has redirected or closed. (What is closed is told before a file is opened.)"""
        put(self.at("journal"), text := first_journal())
        line = f'exec "$0" node 0 --plan plan --journal journal {redirected}'
        seen = ended(["sh", "-c", line, self.program], cwd=self.folder)
        self.held(name, (seen[0], seen[1]), (status, told))
        self.held(f"the journal behind {name}", get(self.at("journal")), text)

    def streams(self):
        self.by_shell("a full output", 1, READY % 0 + b"gridfs: write fault\n", ">/dev/full")
        self.by_shell("an input that can't be read", 1, READY % 0 + b"gridfs: read fault\n", "<.")
        self.by_shell("a closed input", 1, b"gridfs: read fault\n", "<&-")
        self.by_shell("a closed output", 1, b"gridfs: write fault\n", ">&-")
        self.by_shell("a closed input and output", 1, b"gridfs: read fault\n", "<&- >&-")
        self.by_shell("a closed standard error", 1, b"", "2>&-")
        put(self.at("journal"), first_journal())
        reader, writer = os.pipe()
        os.close(reader)
        words = words_of(self.program, 0, "plan", "journal")
        run = subprocess.run(words, stdin=subprocess.DEVNULL, stdout=writer, stderr=subprocess.PIPE, cwd=self.folder, timeout=SECONDS)
        os.close(writer)
        self.held("an output that nobody reads", (run.returncode, run.stderr), (1, READY % 0 + b"gridfs: write fault\n"))

    def limit_of_a_file(self):
        """A journal that must not grow (as where the disk is full): nothing that rests on the fact is written."""
        size = len(get(self.at("journal"))) + 20

        def limited():
            signal.signal(signal.SIGXFSZ, signal.SIG_IGN)
            resource.setrlimit(resource.RLIMIT_FSIZE, (size, size))

        told = READY % 0 + b"gridfs: journal: write fault\n"
        self.held("a journal that must not grow", self.node(b"0 ann read 1 1 0 0\n", preexec_fn=limited), (1, told, FIRST))
        status, told, wrote = self.node(b"0 ann abandon 1 9\n")
        cut = b"gridfs: journal: cut at byte %d\n" % (size - 20)
        self.held("a start behind it", (status, told, wrote), (0, cut + READY % 0, FIRST + b"ann 0 refused early 1 9 0\n"))

    def limit_of_memory(self):
        """Servers with more blocks than there is memory for: the journal stays, and the node starts with the old plan again."""

        def limited():
            resource.setrlimit(resource.RLIMIT_AS, (1 << 29, 1 << 29))

        large = PLAN.replace(b"blocks 64", b"room 67108864").replace(b"16 4 1\n", b"16 4 1 16\n").replace(b"16 2 1\n", b"16 2 1 16\n").replace(b"1 1 1\n", b"1 1 1 1\n")
        put(self.at("large"), large)
        self.refused("a plan for which memory is wanting", 3, b"gridfs: out of memory\n", plan="large", preexec_fn=limited)
        self.held("the old plan again", self.node(), (0, READY % 0, FIRST))

    def two_processes(self):
        words, pipes = words_of(self.program, 0, "plan", "journal"), dict.fromkeys(["stdin", "stdout", "stderr"], subprocess.PIPE)
        first = subprocess.Popen(words, cwd=self.folder, **pipes)
        self.held("the first of two", first.stdout.readline(), FIRST)
        self.refused("a second process", 1, b"gridfs: journal: in use\n")
        self.refused("a second process, by --new", 1, b"gridfs: journal: in use\n", is_new=True)
        first.kill()
        first.communicate()
        self.held("a start behind a process that was killed", self.node(), (0, READY % 0, FIRST))


def tell_faults(program, folder):
    """How many things were compared, and what is wrong."""
    faults = Faults(program, folder)
    faults.first_start()
    faults.journals()
    faults.chunks()
    faults.anew()
    faults.forms()
    faults.plans()
    faults.plans_that_go_on()
    faults.words()
    faults.streams()
    faults.two_processes()
    faults.limit_of_a_file()
    faults.limit_of_memory()
    return faults.tried, faults.wrong
