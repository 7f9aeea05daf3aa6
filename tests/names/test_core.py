"""The core step by step: what it asks for, and what it makes of the answers."""

import os
import sys
import unittest

sys.path.insert(0, os.path.join(os.path.dirname(os.path.abspath(__file__)), "..", "..", "clients", "python"))
from gridfs_client import Tag, core
from gridfs_client.contents import Inline
from gridfs_client.core import Known, Line, ListPages, Page, ReadJournal, ReadPage, Version, WriteJournal, WritePage

NONE = Tag(0, 0)


def line(name, version, content=b"x"):
    return Line(name, version, None if content is None else Inline(content))


def entered(journal, sessions=2):
    return core.told(core.enter(core.new_client(1, sessions)), Known(Tag(1, 1), journal))


def looked(client, *pages):
    """The client behind a look at these pages of the other sessions."""
    state = core.told(core.look_for_change(client), (NONE, *(Tag(9, 2) for _ in pages)))
    for page in pages:
        state = core.told(state, Known(Tag(9, 2), page))
    return state


class Put(unittest.TestCase):
    def test_requests(self):
        client = core.new_client(1, 2)
        self.assertIsNone(core.request_of(client))
        state = core.enter(client)
        self.assertEqual(core.request_of(state), ReadJournal())
        client = core.told(state, Known(NONE, Page()))
        state = core.look_for_change(client)
        self.assertEqual(core.request_of(state), ListPages())
        state = core.told(state, (Tag(5, 1), Tag(3, 2)))  # (of its own page nothing is wanted)
        self.assertEqual(core.request_of(state), ReadPage(2))
        client = core.told(state, Known(Tag(3, 2), Page((line("a", 4),), (), 6)))
        self.assertEqual(core.new_version(client), Version(7, 1))
        journal = core.changed(client, line("a", 7))
        self.assertEqual(journal, Page((line("a", 7),), (), 7))
        state = core.announce(client, journal)
        self.assertEqual(core.request_of(state), WriteJournal(journal))
        state = core.told(state, Tag(1, 1))
        self.assertEqual(core.request_of(state), WritePage(journal))
        client = core.told(state, Tag(6, 1))
        self.assertIsNone(core.request_of(client))
        self.assertEqual((client.journal, client.seen[0]), (journal, Known(Tag(6, 1), journal)))
        # Who looks again asks for no page that it knows.
        self.assertEqual(core.told(core.look(client), (Tag(6, 1), Tag(3, 2))), client)
        self.assertIsNone(core.unanswered(client).journal)

    def test_own_journal(self):
        """A version is above the number of the own journal, which nobody may have carried."""
        client = looked(entered(Page((line("a", 7),), (), 7)), Page((line("a", 2),), (), 2))
        self.assertEqual(core.new_version(client), Version(8, 1))
        self.assertEqual(core.changed(client, None), Page((line("a", 7),), (), 8))

    def test_forgotten_versions(self):
        """A version is above the numbers of pages: of a removal that was forgotten no line is left."""
        self.assertEqual(core.new_version(looked(entered(Page((), (), 3)), Page((), (), 6))), Version(7, 1))

    def test_gone(self):
        """A line goes because of a greater one, which has to be seen from then on; a number that was asked for stays asked for."""
        client = looked(entered(Page((line("a", 2), line("b", 2), line("c", 2, None)), (0, 3), 5)), Page((line("a", 2), line("b", 1)), (), 4))
        self.assertEqual(core.changed(client, line("d", 6)), Page((line("b", 2), line("c", 2, None), line("d", 6)), (0, 4), 6))
        client = looked(entered(Page((line("a", 2),), (0, 3), 5)), Page((), (), 4))
        self.assertEqual(core.changed(client, line("d", 6)).after, (0, 3))

    def test_forgotten(self):
        """A removal is forgotten where each other page was made beside it, and shows no line of its name. All others have to be seen then."""
        removals = (line("a", 5, None), line("b", 5, None))
        for others, left, after in (
            ((Page((), (5,), 6), Page((), (6,), 7)), (), (0, 6, 7)),
            ((Page((line("b", 1),), (5,), 6), Page((), (5,), 7)), removals[1:], (0, 6, 7)),  # (it hides a line)
            ((Page((line("b", 1, None),), (5,), 6), Page((), (5,), 7)), removals[1:], (0, 6, 7)),
            ((Page((), (5,), 6), Page((), (4,), 7)), removals, ()),  # (one was not made beside it)
            ((Page((), (), 6), Page((), (5,), 7)), removals, ()),
        ):
            client = looked(entered(Page(removals, (), 6), 3), *others)
            self.assertEqual(core.changed(client, None), Page(left, after, 8))

    def test_known(self):
        """A change says that it was made beside removals that it saw, so that they can be forgotten; of pages without any nothing is asked."""
        client = looked(entered(Page((), (), 1), 3), Page((line("a", 4, None),), (), 6), Page((line("b", 5),), (), 5))
        self.assertEqual(core.changed(client, None).after, (0, 6))
        client = looked(entered(Page((), (0, 4), 1), 3), Page((line("a", 4, None),), (), 6), Page())
        self.assertEqual(core.changed(client, None).after, (0, 4))

    def test_besides(self):
        client = looked(entered(Page((line("part", 1), line("a", 1)), (), 2)), Page())
        self.assertEqual(core.changed(client, line("b", 3), besides={"part"}).lines, (line("a", 1), line("b", 3)))


class Looks(unittest.TestCase):
    def test_after(self):
        """A page that another one asks for is read again."""
        state = core.told(core.look(core.new_client(0, 3)), (NONE, Tag(1, 2), Tag(1, 3)))
        state = core.told(state, Known(Tag(1, 2), Page((), (), 1)))
        state = core.told(state, Known(Tag(1, 3), Page((), (0, 2), 1)))
        self.assertEqual(core.request_of(state), ReadPage(2))
        with self.assertRaises(core.Older):
            core.told(state, Known(Tag(1, 2), Page((), (), 1)))
        client = core.told(state, Known(Tag(2, 2), Page((), (), 2)))
        self.assertIsNone(core.request_of(client))

    def test_own_page_is_older(self):
        with self.assertRaises(core.Older):
            looked(entered(Page((), (), 3)), Page((), (4,), 1))

    def test_get(self):
        pages = {1: Page((line("a", 2, b"1"),)), 2: Page((line("a", 2, b"2"), line("b", 3, None)))}
        self.assertEqual(core.greatest_shown(core.lines_of(pages, "a")), (Version(2, 2), line("a", 2, b"2")))
        self.assertEqual(core.greatest_shown(core.lines_of(pages, "b")), (Version(3, 2), line("b", 3, None)))
        self.assertIsNone(core.greatest_shown(core.lines_of(pages, "c")))

    def test_what_is_no_answer(self):
        for state in (core.enter(core.new_client(1, 2)), core.look(core.new_client(1, 2)), core.announce(entered(Page()), Page())):
            with self.assertRaises(TypeError):
                core.told(state, "word")
        with self.assertRaises(TypeError):
            core.told(core.new_client(1, 2), Tag(1, 1))


if __name__ == "__main__":
    unittest.main()
