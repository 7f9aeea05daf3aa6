"""A journal that is cut at every byte, or of which a byte is another: a start cuts the torn end off and tells it, or tells damage and
leaves all as it was."""

import random

from contents import in_bytes, in_digits, word_of
from faults import NO_JOURNAL, STRANGE, not_kept, of_node
from journals import batches, sealed
from processes import MARKER, WRONG, Wrong, ended, get, put, words_of
from reserved import RUN

PLAN = f"grid 2 2\nblocks 64\ntenant ann 16 4 1\ntenant bob 16 2 1\n{MARKER}go\nann open 4 2\nbob open 1 1\n".encode()
HEAD = b"node 0 of 2 by 2\n" + PLAN
# Three times a read that is given up, and a store.
LINES = [
    line
    for at in (1, 2, 3)
    for line in (b"0 ann read 1 %d 0 0\n" % (RUN * at - RUN + 1), b"0 ann abandon 1 %d\n" % (RUN * at), b"0 2 ann 3 %d 2 0 %d store %d 3 5c%02x\n" % (at, at, 7 * at, at))
]
OLDER = b"5c02"  # the content that a node wrote in digits
QUESTIONS = b"".join(b"0 2 ann 3 9 1 0 %d ask\n" % file for file in range(4)) + b"0 ann abandon 1 9999\n"


class Journal:
    """A whole journal, whose batches are known."""

    def __init__(self, program, folder):
        self.program, self.folder = program, folder
        put(f"{folder}/plan", PLAN)
        self.start(is_new=True)
        for line in LINES:
            self.start(line)
        # (one of the copies in digits, as nodes wrote them before: its batch has another kind of seal)
        texts = [text.replace(word_of(OLDER), OLDER) for text in batches(get(f"{folder}/journal"))[0]]
        self.whole = b"".join(sealed(number, text) for number, text in enumerate(texts, 1))
        self.batches, self.ends = batches(self.whole)
        if len(self.batches) != 7 or self.ends[-1] != len(self.whole) or self.batches[0] != HEAD:
            raise Wrong(f"the journal is {self.whole!r}")

    def start(self, given=b"", is_new=False):
        return ended(words_of(self.program, 0, "plan", "journal", is_new), given, cwd=self.folder)

    def seen(self, text, given=b""):
        """What a start on a journal with this text tells and writes, and what the journal is then."""
        put(f"{self.folder}/journal", text)
        return *self.start(given), get(f"{self.folder}/journal")

    def wanted(self, count, is_cut):
        """The same where so many batches are right, and what is behind them is cut off."""
        facts = b"".join(self.batches[1:count]).split(b"\n")[:-1]
        end = self.ends[count - 1]
        copies = {}
        for fact in facts:
            if fact.startswith(b"kept"):
                words = fact.split(b" ")
                copies[int(words[3])] = [*words[4:6], in_digits(words[6])]
        last = RUN * sum(fact.startswith(b"began") for fact in facts)
        answers = [b"2 0 ann 3 9 1 0 %d copy %s" % (file, b" ".join(copies.get(file, [b"0", b"0", b"-"]))) for file in range(4)]
        wrote = in_bytes(b"\n".join([b" ?", *answers, b"ann 0 refused early 1 9999 %d" % last, b""]))
        cut = b"gridfs: journal: cut at byte %d\n" % end if is_cut else b""
        return 0, cut + b"gridfs: node 0 of 2 by 2: %d facts\n" % len(facts), wrote, self.whole[:end]


def cut(journal, place):
    """The journal ends at this place."""
    text = journal.whole[:place]
    count = sum(end <= place for end in journal.ends)
    wanted = journal.wanted(count, place not in journal.ends) if count else (1, NO_JOURNAL, b"", text)
    seen = journal.seen(text, QUESTIONS)
    if seen != wanted:
        raise Wrong(f"cut at {place}: {seen}, not {wanted}")


def turned(journal, place, bits):
    """The byte at this place is another: a right batch is behind it, but for the last one."""
    text = bytearray(journal.whole)
    text[place] ^= bits
    count = sum(end <= place for end in journal.ends)
    start = journal.ends[count - 1] if count else 0
    if count == len(journal.batches) - 1:
        wanted = journal.wanted(count, True)
    else:
        wanted = 4, b"gridfs: journal: damaged at byte %d\n" % start, b"", bytes(text)
    seen = journal.seen(bytes(text), QUESTIONS)
    if seen != wanted:
        raise Wrong(f"byte {place} turned by {bits}: {seen}, not {wanted}")


def others(journal):
    """Texts that are whole, and no journal of this node and plan, or are damaged."""
    whole, ends = journal.whole, journal.ends
    yield "twice", whole + whole, 4, b"gridfs: journal: damaged at byte %d\n" % len(whole)
    yield "a batch left out", whole[: ends[2]] + whole[ends[3] :], 4, b"gridfs: journal: damaged at byte %d\n" % ends[2]
    yield "no plan", whole[ends[0] :], 4, b"gridfs: journal: damaged at byte 0\n"
    yield "empty", b"", 1, NO_JOURNAL
    yield "of another node", sealed(1, HEAD.replace(b"node 0", b"node 1")), 1, of_node(1)
    told = not_kept("plan", "line 1: the grid was 2 by 3")
    yield "of a plan with another grid", sealed(1, HEAD.replace(b"2 by 2", b"2 by 3").replace(b"grid 2 2", b"grid 2 3")), 1, told
    for fact in (b"strange ann 1 1", b"began zed 1 1", b"began ann 9 1", b"began ann 1", b"kept ann 7 0 1 1 aa", b"kept ann 0 0 1 1 " + b"aa" * 200):
        yield f"with the fact {fact[:20]}", whole + sealed(len(ends) + 1, fact + b"\n"), 1, STRANGE


def other(journal, name, text, status, told):
    seen = journal.seen(text)
    if seen != (status, told, b"", text):
        raise Wrong(f"a journal {name}: {seen}, not status {status} and {told}")


def torn(program, folder, share, of, seed):
    """This share of all cuts and turns. How many there were, and what is wrong."""
    journal, tried, wrong = Journal(program, folder), 0, []
    draw = random.Random(f"{seed} {share}")
    size = len(journal.whole)
    last = journal.ends[-2]
    # (of the last batch each byte is turned in two ways)
    trials = [(cut, (place,)) for place in range(size + 1)]
    trials += [(turned, (place, draw.randint(1, 255))) for place in list(range(size)) + list(range(last, size))]
    trials += [(other, it) for it in others(journal)]
    for trial, words in trials[share::of]:
        tried += 1
        try:
            trial(journal, *words)
        except WRONG as fault:
            wrong.append(repr(fault))
    return tried, wrong
