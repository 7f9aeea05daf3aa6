"""Pages that are skimmed: what a listing tells of them is what a bucket tells, and where it can't be told by so little, a bucket tells it."""

import os
import random
import sys
import unittest
from unittest import mock

sys.path.insert(0, os.path.dirname(os.path.abspath(__file__)))
import planted
from memory import Memory
from registers import Skims

from gridfs_client import BadSettings, Damaged, NamedFiles, names
from gridfs_client.contents import InChunks, Inline, InSlots, Joined, PartList, Strand
from gridfs_client.core import Copied, Line, Page, Signpost
from gridfs_client.pages import line_text, parse_line, text_of
from gridfs_client.runs import MOST_NUMBER, Run
from gridfs_client.side_by_side import line_of_sortable, sortable
from gridfs_client.skimming import PLAIN, Skimmed, counting

DIGEST = "Aa0_-" * 8 + "xyz"
NAMES = ["a", "a b", "- 1", "@ b", "5", "ä", "1 @ 2", "{t=1} x", "\u2028", "0.1:7"]
CONTENTS = [
    None, *(Inline(b"x" * size) for size in range(5)), InChunks(1, DIGEST, (Run(0, 1, 0),)), InChunks(2**63, DIGEST, (Run(1, 8, 10**18),)),
    InChunks(9, DIGEST, (Run(0, 1, MOST_NUMBER),)), InChunks(9, DIGEST, (Run(0, 1, 5, 3), Run(1, 1, 9))), PartList(7_000, DIGEST, 90, (Run(1, 2, 3),)),
    InSlots(5, DIGEST, 0, (Strand(1, (range(0, 1),)),)), InSlots(50, DIGEST, 17, (Strand(1, (range(0, 3), range(9, 10))), Strand(2, (range(4, 5),)))),
    InSlots(5, DIGEST, 3, (Strand(3, (range(4_194_303, 4_194_304),)),)), Joined((InChunks(30, DIGEST, (Run(0, 1, 7),)), InChunks(4, DIGEST, (Run(0, 1, 8),)))),
]  # fmt: skip


def random_page(draw):
    names = draw.sample(NAMES, draw.randrange(len(NAMES)))
    lines = tuple(Line(name, draw.randrange(1, 9), draw.choice(CONTENTS), draw.choice(("", "t=5", "!-z=|".replace("|", "")))) for name in names)
    return Page(lines, (), max([line.version for line in lines], default=0) + 1)


def right(pages):
    """What each name holds, by these pages: version, session, size and text."""
    found = {}
    for session, page in pages.items():
        for line in page.lines:
            found[line.name] = max(found.get(line.name, (0, 0, None)), (line.version, session, line), key=lambda each: each[:2])
    return sorted((name, version, session, line.content.size, line.content.text()) for name, (version, session, line) in found.items() if line.content)


class Skimming(unittest.TestCase):
    def test_random_pages(self):
        draw, plain = random.Random(1), 0
        for _ in range(2_000):
            pages = {session: random_page(draw) for session in (1, 2, 3)}
            told = counting({session: text_of(page) for session, page in pages.items()})
            self.assertEqual(sorted((each.name, each.version, each.session, each.size, each.content) for each in told), right(pages))
            plain += sum(bool(PLAIN.fullmatch(line_text(line)[:-1])) for page in pages.values() for line in page.lines)
        self.assertGreater(plain, 5_000)

    def test_what_is_plain_is_a_line(self):
        """What the short expression takes for a line is one, and the same one."""
        draw, letters, seen = random.Random(2), ["1", "0", "9" * 19, "9" * 20, "{a=1}", "-", "@", "@abcde", "@abcd", DIGEST, "0.1:5", "0.1:5+2", "3:4", "3:4-9", "4194304:1", "1:4194304", "1:999999", "a", "", "&", "5*0.1:1"], 0
        for _ in range(60_000):
            text = " ".join(draw.choice(letters) for _ in range(draw.randrange(2, 8)))
            if found := PLAIN.fullmatch(text):
                line, seen = parse_line(text), seen + 1
                self.assertEqual((int(found[1]), found[3], found[2]), (line.version, line.name, line.content.text() if line.content else "-"))
        self.assertGreater(seen, 1_000)

    def test_where_a_bucket_looks(self):
        line = Line("a", 1, Inline(b"a"))
        told = lambda *pages: counting(dict(enumerate(pages, 1)))
        self.assertEqual(told(text_of(Page((line,), (0, 3), 1)), text_of(Page((), (), 3))), [Skimmed(1, 1, "a", "@YQ")])
        for pages in [
            (text_of(Page((line,), (0, 4), 1)), text_of(Page((), (), 3))), (text_of(Page((line,), (0, 4), 1)), b""), (text_of(Page((line,), (0, 1), 1)),),
            (text_of(Page((line,), (), 1, (Signpost(1, 0, 9, "west"),))),), (text_of(Page((Line("a", 1, Inline(b"a"), "", Copied(1, "east", 1, 1)),), (), 1)),),
            (b"names 1 1\n",), (b"names 2\n",), (b"no page",), (b"names 2 1\n1 @YQ a",), (b"names 2 1\n1 @YQ \xff\n",), (b"names 2 1\n1 @YQQQQ a\n",), (b"names 2 1\n01 @YQ a\n",),
        ]:  # fmt: skip
            self.assertIsNone(told(*pages), pages)

    def test_faults_are_those_of_a_bucket(self):
        memory = Memory()
        files = memory.client(1)
        files.put("a", b"")
        for text, fault in ((b"no page", Damaged), (b"names 2 1\n1 5 " + DIGEST.encode() + b" 1 1:9-4 a\n", Damaged), (text_of(Page((), (), 1, (Signpost(1, 0, 9, "west"),))), BadSettings)):
            memory.client(2).session.write(*memory.layout.page(1, 0), text)
            for call in (NamedFiles.names, lambda files: files.skimmed(str)):
                with self.assertRaises(fault):
                    call(memory.client(2))

    def test_what_is_told(self):
        names = ["a", "a b", "a!", "ä", "b", "a/b", "a\u00a0"]
        told = sorted(sortable(Skimmed(7, 2, name, "@YQ")) for name in names)
        self.assertEqual([line_of_sortable(each) for each in told], [f"           1  7.2  {name}" for name in sorted(names)])

    def test_prefix(self):
        files = Memory(pages=3).client(1)
        for name in ("a/1", "a/2", "b"):
            files.put(name, b"")
        self.assertEqual(sorted(files.skimmed(lambda found: found.name, "a/")), ["a/1", "a/2"])

    def listed(self, step, kind=Skims):
        """What a listing tells of a name that always holds something, where its line goes from page 2 to page 1 at a step."""
        memory = Memory(sessions=2)
        one, two = memory.client(1), memory.client(2)
        one.put("b", b"")
        two.put("a", b"old")

        def at_step(now):
            if now == step:
                one.put("a", b"new")
                two.put("c", b"")

        return [each.name for each in memory.client(2, at_step, kind).names() if each.name == "a"]

    def test_a_line_that_goes_meanwhile(self):
        for step in range(1, 9):
            self.assertEqual(self.listed(step), ["a"], step)

    def test_that_is_found_without_what_pages_ask_for(self):
        with mock.patch.object(names, "counting", lambda contents: counting({each: planted.without_after(content) for each, content in contents.items()})):
            self.assertIn([], [self.listed(step) for step in range(1, 9)])


if __name__ == "__main__":
    unittest.main()
