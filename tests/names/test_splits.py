"""Pages that split: where they stand, and what clients do that die at each step."""

import unittest
from contextlib import suppress
from dataclasses import replace

from histories import HERE, Killed
from in_slots import OldClient
from memory import Memory, Write

from gridfs_client import BadSettings, Copy, Damaged, Layout, NoRoom, Tag, Unanswered, Volume, core, splits
from gridfs_client.layout import MARK
from gridfs_client.pages import parse_page, text_of
from gridfs_client.usage import usage_of

assert HERE
NAMES = [f"name {number}" for number in range(8)]


def page_in(memory, session, number):
    return parse_page(memory.read(memory.layout.page(session, number)).content, "")


def held(files):
    names = sorted(entry.name for entry in files.names())
    assert sorted(files.skimmed(lambda found: found.name)) == names
    return {name: files.get(name)[0] for name in names}


def filled(**words):
    """Names at two sessions, of which one is put over and one is removed."""
    memory, contents = Memory(sessions=2, **words), {}
    for session, names in ((1, NAMES[:5]), (2, NAMES[3:])):
        files = memory.client(session)
        for name in names:
            contents[name] = f"{name} by {session}".encode()
            files.put(name, contents[name])
    memory.client(1).remove(contents.popitem()[0])
    return memory, contents


def grow(memory, *sessions):
    return [memory.client(session).grow() for session in sessions or range(1, memory.layout.sessions + 1)]


class Places(unittest.TestCase):
    def test_today(self):
        """Plans of before are read as before: with one volume of one block, or two, or two around what is no level."""
        names, slots = Volume(8, 64), Volume(16, 2)
        for volumes in [(MARK,), (slots,), (MARK, slots), (slots, MARK), (MARK, MARK), (MARK, slots, slots), (MARK, slots, MARK), (MARK, slots, Volume(16, 3), MARK),
                        (MARK, *[Volume(16, 63)] * 2, MARK), (MARK, *[names] * 2, MARK)]:  # fmt: skip
            layout = Layout(4, (*[names] * 4, *volumes))
            self.assertEqual(len(layout.levels), 1, volumes)
            self.assertEqual(sum(map(len, layout.all_slots.values())), sum(volume.files for volume in volumes))
            self.assertEqual([layout.page(2, 0), layout.page(2, 2), layout.journal(2, 2), layout.pages], [(0, 5), (1, 5), (3, 5), 3])

    def test_levels(self):
        names, slots = Volume(8, 64), Volume(16, 2)
        layout = Layout(4, (*[names] * 4, slots, MARK, *[Volume(16, 64)] * 4, MARK, *[Volume(40, 65)] * 4, MARK, slots))
        self.assertEqual([(level.pages, level.first) for level in layout.levels], [(3, 0), (6, 3), (18, 9)])
        self.assertEqual([layout.page(1, 3), layout.page(4, 8), layout.journal(4, 8), layout.page(1, 9), layout.page(2, 26)], [(6, 0), (7, 7), (9, 7), (11, 0), (12, 29)])
        self.assertEqual([list(layout.parts_of(2)), list(layout.parts_of(4)), layout.before(8), layout.before(26), layout.before(2)], [[5, 8], [10, 16, 22], 2, 8, None])
        self.assertEqual({layout.before(page) for page in layout.parts_of(7)}, {7})
        self.assertEqual([len(layout.slots(session)) for session in (1, 2)], [4 + 3 + 4, 4 + 4])
        files = [place(session, page) for page in range(27) for session in range(1, 5) for place in (layout.page, layout.journal)]
        self.assertEqual(len(set(files)), len(files))
        for page in range(27):
            for session in range(1, 5):
                self.assertEqual([layout.page_at(*layout.page(session, page)), layout.page_at(*layout.journal(session, page))], [page, page])
                self.assertIn(page, layout.pages_in(layout.page(session, page)[0]))
        self.assertEqual(sorted(page for volume in layout.all_pages_volumes for page in layout.pages_in(volume)), list(range(27)))
        for name in NAMES:
            self.assertEqual(layout.before(layout.page_of(name, 2)), layout.page_of(name, 1))
            self.assertEqual(layout.before(layout.page_of(name, 1)), layout.page_of(name))

    def test_a_later_plan_moves_nothing(self):
        volumes = (*[Volume(8, 64)] * 4, MARK, *[Volume(16, 64)] * 4, MARK)
        for more in ((), (Volume(16, 64),) * 2, (MARK,), (Volume(16, 2),)):
            self.assertEqual(Layout(4, (*volumes, *more)).levels, Layout(4, volumes).levels)


class Splitting(unittest.TestCase):
    def test_all_is_there(self):
        for levels in ((2,), (3,), (2, 2)):
            memory, contents = filled(levels=levels, pages=2)
            old = memory.client(2)
            for session in (1, 2):
                told = memory.client(session).grow()
                self.assertGreaterEqual(told.lines, 4)
                for files in (memory.client(1), memory.client(2), old):
                    self.assertEqual(held(files), contents)
            self.assertEqual(sum(told.pages + told.lines for told in grow(memory)), 0)
            for page in range(memory.layout.levels[-1].first):
                for session in (1, 2):
                    self.assertEqual(page_in(memory, session, page).lines, ())
                    if page < memory.layout.pages:
                        self.assertTrue(splits.is_split(page_in(memory, session, page), 1))

    def test_what_it_asks_for(self):
        """Who has a page split reads no page twice, and of what is split the own page alone; and keeps none."""
        memory, _ = filled(levels=(2,))
        parts = {session: len({memory.layout.page_of(line.name, 1) for line in page_in(memory, session, 0).lines}) for session in (1, 2)}
        reads = {1: 0, 2: parts[1]}  # of new pages of the others
        for session in (1, 2):
            files = memory.client(session)
            memory.counts.clear()
            files.grow()
            # (both pages and the journal, and then those to which the lines go)
            self.assertEqual(dict(memory.counts), {"read": 3 + reads[session], "list": 1 + parts[session], "write": 4 + 2 * parts[session]})
            self.assertEqual(files.writer.buckets, {})
            memory.counts.clear()
            files.grow()
            self.assertEqual(dict(memory.counts), {"read": 1})

    def test_bytes_of_before(self):
        """Where no page splits, a tenant with more pages writes what one without writes."""
        written = []
        for levels in ((), (2,)):
            memory, contents = filled(levels=levels)
            memory.client(1, others=(2,)).sweep()
            written.append(memory.registers)
            self.assertEqual(held(memory.client(2)), contents)
        self.assertEqual(*written)

    def test_requests_of_before(self):
        counted = []
        for levels in ((), (2,)):
            memory, _ = filled(levels=levels)
            memory.counts.clear()
            files = memory.client(1)
            files.put(NAMES[0], b"x")
            files.get(NAMES[0])
            files.remove(NAMES[0])
            files.names()
            counted.append(dict(memory.counts))
        self.assertEqual(*counted)

    def test_requests_behind(self):
        """Once its pages have split a put and a get of a client that lasts take what they took before."""
        memory, _ = filled(levels=(2,))
        grow(memory)
        files = memory.client(1)
        files.put(NAMES[0], b"x")
        for call, told in ((lambda: files.put(NAMES[0], b"y"), dict(list=1, write=2)), (lambda: files.get(NAMES[0]), dict(list=1))):
            memory.counts.clear()
            call()
            self.assertEqual(dict(memory.counts), told)

    def test_one_session_alone(self):
        """Others put meanwhile, and their pages split by that."""
        memory, contents = filled(levels=(2,))
        before, other = memory.client(2), memory.client(2)
        self.assertEqual(held(before), contents)
        grow(memory, 1)
        self.assertFalse(splits.is_split(page_in(memory, 2, 0), 1))
        other.put(NAMES[0], b"later")
        self.assertTrue(splits.is_split(page_in(memory, 2, 0), 1))
        self.assertEqual(held(memory.client(1)), contents | {NAMES[0]: b"later"})
        self.assertTrue(page_in(memory, 2, 0).lines)  # (of the other part)
        for name in list(contents):
            memory.client(2).remove(name)
        self.assertEqual((held(memory.client(1)), held(memory.client(2))), ({}, {}))
        grow(memory)
        memory.client(1, others=(2,)).sweep()
        told = memory.client(1, others=(2,)).sweep()
        self.assertEqual((told.left, held(memory.client(2))), (0, {}))

    def test_dies_at_each_step(self):
        """Whoever goes on finds all, and what was not answered comes late, or at once, or never."""
        for late in ("never", "at once", "at last"):
            for step in range(1, 1_000):
                memory, contents = filled(levels=(2,))
                for session in (1, 2):
                    memory.client(session).put(NAMES[7], b"again")
                contents[NAMES[7]] = b"again"

                def dies(now, step=step):
                    if now == step:
                        raise Killed

                try:
                    memory.client(1, dies).grow()
                except Killed:
                    pass
                else:
                    break
                if late == "at once":
                    memory.surface()
                self.assertEqual([held(memory.client(session)) for session in (1, 2)], [contents] * 2, (late, step))
                memory.client(2).put(NAMES[0], b"by another one")
                memory.client(1).remove(NAMES[1])
                contents |= {NAMES[0]: b"by another one"}
                contents = {name: content for name, content in contents.items() if name != NAMES[1]}
                self.assertEqual([held(memory.client(session)) for session in (1, 2)], [contents] * 2, (late, step))
                grow(memory)
                self.assertEqual([told.pages for told in grow(memory)], [0, 0], (late, step))
                memory.surface()
                self.assertEqual([held(memory.client(session)) for session in (1, 2)], [contents] * 2, (late, step))
                memory.client(2, others=(1,)).sweep()
                self.assertEqual([held(memory.client(session)) for session in (1, 2)], [contents] * 2, (late, step))
            self.assertGreater(step, 15)

    def test_puts_amid(self):
        """At each step another session puts, removes and sweeps; and goes on with what it knew before."""
        for step in range(1, 1_000):
            memory, contents = filled(levels=(2,))
            other, steps = memory.client(2), []
            held(other)

            def amid(now, step=step, other=other, contents=contents, steps=steps):
                if now == step:
                    steps.append(step)
                    other.put(NAMES[0], b"amid")
                    other.remove(NAMES[4])
                    contents[NAMES[0]] = b"amid"
                    del contents[NAMES[4]]
                    self.assertEqual(held(other), contents, step)

            memory.client(1, amid).grow()
            self.assertEqual([held(memory.client(1)), held(memory.client(2)), held(other)], [contents] * 3, step)
            if not steps:
                break
        self.assertGreater(step, 15)

    def test_a_full_page(self):
        """A put that finds no room goes on to more pages where it may; else it is refused, and nothing has changed."""
        memory = Memory(levels=(4,), page_blocks=16)
        files = memory.client(1)
        with self.assertRaises(NoRoom):
            for number in range(100):
                files.put(f"{number:02}", b"x" * 30)
        self.assertEqual(page_in(memory, 1, 0).signposts, ())
        files.may_grow = lambda: True
        for count in range(number, 40):
            files.put(f"{count:02}", b"x" * 30)
        self.assertEqual(len(held(memory.client(2))), 40)

    def test_a_put_that_failed(self):
        """One that was to go on to more pages, and found no room for its content, brings nothing back: what is removed after it stays so."""
        memory = Memory(levels=(2,), page_blocks=16)
        files = memory.client(1)
        names = [f"{number:02}" for number in range(100)]
        with self.assertRaises(NoRoom):
            for name in names:
                files.put(name, b"x" * 30)
        files.may_grow = lambda: True
        self.assertRaises(NoRoom, files.put, "new", b"x" * 5_000)
        gone = next(name for name in names if memory.layout.page_of(name, 1) == memory.layout.page_of("new", 1))
        files.remove(gone)
        files.put("new", b"y" * 30)
        self.assertTrue(splits.is_split(page_in(memory, 1, 0), 1))
        self.assertNotIn(gone, held(memory.client(1)))

    def test_tags_of_both(self):
        """Tags of an old and a new page may be the same: they are two files."""

        class Apart(Memory):
            """Each file has numbers of its own."""

            def take(self, write: Write):
                before = self.read(write.place).tag.number
                super().take(write)
                self.registers[write.place] = Copy(Tag(before + 1, write.session), write.content)
                return self.registers[write.place].tag

        memory = Apart(levels=(2,))
        one, two = memory.client(1), memory.client(2)
        one.put("a", b"1")
        one.put("a", b"2")
        self.assertEqual(two.get("a")[0], b"2")
        grow(memory, 2)
        self.assertEqual(two.get("a")[0], b"2")
        one.put("a", b"3")
        while memory.read(memory.layout.page(1, memory.layout.page_of("a", 1))).tag.number < 2:
            one.put("a", b"4")
        self.assertEqual(two.get("a"), one.get("a"))

    def test_a_later_plan(self):
        """Who knows an earlier plan stops at a signpost."""
        memory, contents = filled(levels=(2,))
        before = memory.client(2)
        before.layout = before.writer.layout = Layout(2, memory.layout.volumes[:4])
        self.assertEqual(held(before), contents)
        grow(memory, 1)
        self.assertRaisesRegex(BadSettings, "not known here", before.get, NAMES[0])
        self.assertRaises(BadSettings, before.put, NAMES[0], b"")
        self.assertRaises(BadSettings, before.names)
        self.assertRaises(BadSettings, before.sweep)
        self.assertRaisesRegex(BadSettings, "no more pages", before.grow)
        self.assertEqual(held(memory.client(2)), contents)

    def test_catch_up(self):
        """A page that others ask for in vain catches up, an old one or a new one."""
        for sessions in ((), (1, 2)):
            memory, contents = filled(levels=(2,))
            if sessions:
                grow(memory, *sessions)
            for number in range(memory.layout.levels[-1].first, memory.layout.levels[-1].first + 2) if sessions else (0,):
                place = memory.layout.page(1, number)
                memory.take(memory.begin(place, 1, text_of(replace(page_in(memory, 1, number), after=(0, 10**9)))))
            self.assertRaises(Damaged, memory.client(1).names)
            self.assertEqual(memory.client(1, others=(2,)).catch_up(), 2 if sessions else 1)
            self.assertEqual(held(memory.client(1)), contents)

    def test_usage(self):
        memory, contents = filled(levels=(2, 3), pages=2)
        self.assertEqual(usage_of(memory.client(1)).pages, 2 * 2)
        memory.client(2).grow()
        used = usage_of(memory.client(1))
        self.assertEqual((used.pages, used.names), (2 * 12, len(contents)))

    def test_a_look_that_failed(self):
        """What was looked at within an operation is looked at anew within the next one."""
        for step in range(1, 40):
            memory, fails = Memory(sessions=3, levels=(2,)), [step]
            memory.client(2).put(NAMES[0], b"first")
            beside = next(name for name in NAMES[1:] if memory.layout.page_of(name, 1) == memory.layout.page_of(NAMES[0], 1))
            memory.client(1).put(beside, b"beside")
            grow(memory, 2)

            def at_step(now, fails=fails):
                if now in fails:
                    raise Unanswered("no answer")

            files = memory.client(1, at_step)
            with suppress(Unanswered):
                files.put(NAMES[0], b"next")
            fails.clear()
            self.assertEqual(files.get(beside)[0], b"beside", step)
            memory.client(3).put(NAMES[0], b"last")
            self.assertEqual(files.get(NAMES[0])[0], b"last", step)
            files.put(NAMES[0], b"later")
            self.assertEqual(memory.client(2).get(NAMES[0])[0], b"later", step)

    def test_goes_on_behind_one_that_died(self):
        """One client of a session dies amid a put, the next one gets no answer amid another, and goes on."""
        for died in range(4, 16):
            for step in range(1, 16):
                memory, fails = Memory(sessions=2, levels=(2,)), [step]
                beside = next(name for name in NAMES[1:] if memory.layout.page_of(name, 1) == memory.layout.page_of(NAMES[0], 1))
                memory.client(1).put(beside, b"beside")
                grow(memory, 2)

                def dies(now, died=died):
                    if now == died:
                        raise Killed

                def at_step(now, fails=fails):
                    if now in fails:
                        raise Unanswered("no answer")

                with suppress(Killed):
                    memory.client(1, dies).put(NAMES[0], b"first")
                files = memory.client(1, at_step)
                with suppress(Unanswered):
                    files.put(NAMES[0], b"next")
                fails.clear()
                self.assertEqual((files.get(beside)[0], memory.client(2).get(beside)[0]), (b"beside", b"beside"), (died, step))

    def test_no_room_for_a_signpost(self):
        memory = Memory(levels=(2,), page_blocks=16)
        lines = tuple(core.Line(f"{number:03}", 1, None) for number in range(200))
        while len(text_of(core.Page(lines, (), 1))) > memory.layout.page_room:
            lines = lines[1:]
        for place in (memory.layout.page(1, 0), memory.layout.journal(1, 0)):
            memory.take(memory.begin(place, 1, text_of(core.Page(lines, (), 1))))
        before = dict(memory.registers)
        self.assertRaises(NoRoom, memory.client(1).grow)
        self.assertEqual(memory.registers, before)


class Kinds(unittest.TestCase):
    def test_slots(self):
        """A content in slots stays where it is, and is read by the new page's line."""
        memory = Memory(slots=8, levels=(2,))
        OldClient(memory.client(1).session, memory.layout).put("a", b"x" * 300)
        grow(memory)
        self.assertEqual(memory.client(2).get("a")[0], b"x" * 300)
        memory.client(1).put("a", b"short")
        memory.client(2, others=(1,)).sweep()
        self.assertEqual(memory.client(2).get("a")[0], b"short")


if __name__ == "__main__":
    unittest.main()
