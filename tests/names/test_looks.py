"""Looks at nodes that are played line by line: what is concluded from which answers, who is asked and waited for, and what names cost over them."""

import collections
import os
import random
import sys
import unittest

sys.path.insert(0, os.path.dirname(os.path.abspath(__file__)))
import looking
from test_sessions import Played

from gridfs_client import NamedFiles, NoSuchName, Pace, Row, Session, SessionTaken, Tag, layout_of, looks
from gridfs_client.answers import LookTold, parse_look
from gridfs_client.asking import ask_plan
from gridfs_client.grid import Shape

SESSIONS, FILES, PLACES = 2, 4, 64
PAGE = 0, 2  # of session 1
SQUARE = Shape(2, 2)


class Nodes:
    """Four nodes of 2 by 2, with what each has itself. An operation asks all that are up, and stores at a column; it ends at once."""

    def __init__(self, form=looks.LOOK_FORM):
        self.forms = {place: form for place in range(4)}
        self.numbers, self.losses = {place: place for place in range(4)}, dict.fromkeys(range(4), 0)
        self.copies = collections.defaultdict(lambda: (Tag(0, 0), ""))  # by place and file
        self.lacks, self.silent, self.column, self.is_busy = set(), set(), 0, False
        self.last, self.told = collections.Counter(), {}
        self.counts = collections.Counter()

    def __call__(self, node, body):
        place = node % PLACES
        words = body.split(" ")
        if place not in self.numbers or self.numbers[place] != node or place in self.silent:
            return []
        self.counts[words[0]] += 1
        if body == "plan":
            new = "".join(f" {number}" for number in sorted(self.numbers.values()) if number >= PLACES and self.losses[place])
            return [(str(node), f"plan 4 0 {SESSIONS} 900 16 {FILES}.16 {FILES}.16 8.2{new} lines={self.forms[place]} rows=2 columns=2")]
        if words[0] == "look":
            return [(str(node), self.look(place, words))] if self.forms[place] >= looks.LOOK_FORM else [(str(node), "refused bad")]
        return [(str(node), answer)] if (answer := self.ask(place, *words[:3], *words[3:])) else []

    def look(self, place, words):
        _, number, volume = words
        if int(volume) > 2:
            return f"refused novolume {number} {volume}"
        told = (self.word(place, (int(volume), file)) for file in range(FILES if int(volume) < 2 else 8))
        return f"looked {number} {volume} {self.losses[place]} {' '.join(told)}"

    def word(self, place, file):
        if (place, file) in self.lacks:
            return "-"
        tag, content = self.copies[place, file]
        return f"{len(content) // 2}:{tag.number}.{tag.session}"

    def ask(self, place, kind, session, operation, *rest):
        session, operation = int(session), int(operation)
        last = self.last[session]
        if operation == last and last:
            return self.told.get(session) or f"gone {session} {operation}"
        if operation <= last:
            return f"refused old {session} {operation} {last}"
        if operation > last + 1 or kind == "abandon":
            return f"refused early {session} {operation} {last}"
        self.last[session] = operation
        if kind == "list":
            rows = (self.greatest((int(rest[0]), file)) for file in range(FILES))
            told = " ".join(f"{len(content) // 2}:{tag.number}.{tag.session}" for tag, content in rows)
        else:
            file = int(rest[0]), int(rest[1])
            tag, content = self.greatest(file)
            if kind == "write":
                tag, content = Tag(tag.number + 1, session), rest[2]
            self.store(file, tag, content)
            told = f"tag {tag.number} {tag.session}{f' {content or chr(45)}' if kind == 'read' else ''}"
        self.told[session] = f"done {kind} {session} {operation} {told}"
        return self.told[session]

    def greatest(self, file):
        return max(self.copies[place, file] for place in range(4))

    def store(self, file, tag, content, places=None):
        for place in SQUARE.column(self.column) if places is None else places:
            self.copies[place, file] = tag, content


def carrier_of(nodes):
    carrier = Played(nodes)
    ask_plan(carrier)
    while carrier.coming:
        carrier.deliver(*carrier.coming.popleft())
    carrier.sent.clear()
    nodes.counts.clear()
    return carrier


def session_of(carrier, number=1, **pace):
    return Session(carrier, number, (number - 1) % 4, Pace(**pace), random.Random(number))


def files_of(carrier, number=1):
    return NamedFiles(session_of(carrier, number), layout_of(carrier.told))


def looks_in(carrier):
    return [(node, body) for node, body in carrier.sent if body.startswith("look ")]


class Settled(unittest.TestCase):
    def test_square(self):
        old, new, later = "2:4.1", "3:5.1", "3:6.2"
        for words, told in (
            ([old, old, old, old], old),
            ([new, old, new, old], new),  # (one column has it)
            ([new, new, old, old], old),  # (by the other row: a write is under way)
            ([new, old, old, old], old),
            ([new, old, old, new], None),  # each row has told a tag that no whole column has
            ([later, new, new, new], new),
            ([later, old, later, new], later),
            ([later, old, new, later], None),
            (["-", old, old, old], old),  # a row without it, and a column
            (["-", old, new, old], None),
            (["-", old, old, "-"], None),
            (["-", "-", old, old], None),  # no column
            (["-", old, "-", old], None),  # no row
            (["?", "4", "1:2", "1:02.3"], None),
            (["0:0.0"] * 4, "0:0.0"),
        ):
            self.assertEqual(looks.settled(dict(enumerate(words)), SQUARE), told and looks.row_of(told), words)
        self.assertEqual(looks.settled({0: old, 1: old, 2: old}, SQUARE), Row(2, Tag(4, 1)))  # who is silent is not waited for
        self.assertIsNone(looks.settled({0: old, 2: old}, SQUARE))
        self.assertIsNone(looks.settled({}, SQUARE))

    def test_other_shapes(self):
        row, column = Shape(1, 3), Shape(3, 1)
        self.assertEqual(looks.settled(dict(enumerate(["1:1.1", "1:3.1", "1:2.1"])), row), Row(1, Tag(3, 1)))
        self.assertIsNone(looks.settled({0: "1:1.1", 1: "1:3.1"}, row))
        self.assertEqual(looks.settled(dict(enumerate(["1:1.1", "1:3.1", "1:2.1"])), column), Row(1, Tag(1, 1)))
        self.assertIsNone(looks.settled({0: "1:1.1", 1: "1:3.1"}, column))

    def test_words(self):
        most = (1 << 64) - 1
        self.assertEqual(parse_look(3, f"looked {most} 7 2 4:5.1 -"), LookTold(3, most, 7, 2, ("4:5.1", "-")))
        self.assertEqual(parse_look(3, "looked 1 7 0"), LookTold(3, 1, 7, 0))
        self.assertEqual(parse_look(3, "refused novolume 1 7"), LookTold(3, 1, 7))
        for body in ("looked", "looked 1 7", "looked 1 -7 0 1:1.1", "looked 01 7 0", "refused novolume 1 7 3", "refused novolume 1", "refused nofile 1 7", "gone 1 7"):
            self.assertIsNone(parse_look(3, body), body)


class Looks(unittest.TestCase):
    def setUp(self):
        self.nodes = Nodes()
        self.carrier = carrier_of(self.nodes)

    def look(self, volume=0, wanted=None):
        return looks.looked(self.carrier, volume, wanted, 1e6)

    def test_one_round_trip(self):
        self.nodes.store((0, 1), Tag(5, 2), "6162")
        for _ in range(2):
            look = self.look()
            self.assertEqual(look.rows, [Row(0, Tag(0, 0)), Row(2, Tag(5, 2)), *[Row(0, Tag(0, 0))] * 2])
        sent = looks_in(self.carrier)
        self.assertEqual([node for node, _ in sent], [0, 1, 2, 3] * 2)
        self.assertEqual((len(set(sent)), len({body for _, body in sent}), len(self.carrier.sent)), (8, 2, 8))
        self.assertEqual((self.carrier.clock, self.carrier.looks), (0, {}))

    def test_who_comes_late_is_not_waited_for(self):
        self.nodes.silent.add(3)
        self.assertEqual(self.look().left, set())
        self.assertEqual(self.carrier.clock, 0)

    def test_what_does_not_count(self):
        """Answers to other looks, of other volumes, of nodes that don't stand there, of others, and without a word for each file."""
        told = " ".join(["2:9.1"] * FILES)
        number = "0"
        for sender, body in (
            ("1", f"looked 7 0 0 {told}"),
            ("1", "looked {} 1 0 " + told),
            ("65", "looked {} 0 0 " + told),
            ("bob", "looked {} 0 0 " + told),
            ("1", "looked {} 0 0 2:9.1"),
            ("1", "refused novolume {} 0"),
        ):
            nodes = self.nodes = Nodes()
            carrier = self.carrier = carrier_of(nodes)
            nodes.silent.update((1, 3))

            def answer(node, sent, sender=sender, body=body, carrier=carrier, before=carrier.send):
                before(node, sent)
                if node == 0:
                    carrier.coming.appendleft((sender, body.format(sent.decode().split(" ")[1])))

            carrier.send = answer
            look = self.look()
            self.assertEqual((look.rows, len(look.told)), ([None] * FILES, 2), (sender, body, number))

    def test_a_silent_node(self):
        """It costs a short time once, and none until it has answered a look again."""
        self.nodes.store((0, 0), Tag(5, 1), "6162", [0, 2])
        self.nodes.silent.add(2)
        self.assertEqual((self.look().left, looks_in(self.carrier)[2][0]), ({0}, 2))
        first = self.carrier.clock
        self.assertLessEqual(first, looks.SHORT)
        self.assertEqual((self.look().left, self.carrier.clock), ({0}, first))
        self.nodes.silent.clear()
        self.assertEqual((self.look().left, self.carrier.clock), (set(), first))
        self.nodes.silent.add(2)
        self.look()
        self.assertGreater(self.carrier.clock, first)

    def test_all_are_silent(self):
        self.nodes.silent.update(range(4))
        self.assertEqual(self.look().rows, [None] * FILES)
        self.assertLessEqual(self.carrier.clock, looks.PATIENCE + 0.1)
        self.assertEqual(self.look().rows, [None] * FILES)
        self.assertLessEqual(self.carrier.clock, looks.PATIENCE + 0.1)

    def test_nodes_of_before(self):
        """They are asked for no look, and a listing tells all."""
        for form, count in ((looks.LOOK_FORM - 1, 0), (looks.LOOK_FORM, 4)):
            nodes = Nodes(form)
            session = session_of(carrier_of(nodes))
            self.assertEqual(session.look(0), (Row(0, Tag(0, 0)),) * FILES)
            self.assertEqual((nodes.counts["look"], nodes.counts["list"]), (count, 0 if count else 1))

    def test_some_of_before(self):
        """One of them leaves a row and a column; two may leave none."""
        self.nodes.forms[3] = looks.LOOK_FORM - 1
        self.carrier = carrier_of(self.nodes)
        self.assertEqual((self.look().left, self.nodes.counts["look"]), (set(), 3))
        self.nodes.forms[0] = looks.LOOK_FORM - 1
        self.carrier = carrier_of(self.nodes)
        self.assertIsNone(self.look())
        self.assertEqual(self.nodes.counts["look"], 0)

    def test_nodes_that_told_nothing_yet(self):
        """They are asked which lines they know, and then for the look; where they don't tell, not again at once."""
        for node in (1, 2, 3):
            del self.carrier.forms[node]
        self.assertEqual(self.look().left, set())
        self.assertEqual([body.split(" ")[0] for _, body in self.carrier.sent], ["look", *["plan"] * 3, *["look"] * 3])
        self.carrier.forms.clear()
        self.nodes.silent.update(range(4))
        self.carrier.sent.clear()
        for _ in range(3):
            self.assertEqual(len(self.look().left), FILES)
        self.assertLessEqual(len(self.carrier.sent), 4)

    def test_no_such_volume(self):
        self.assertIsNone(self.look(7))
        self.carrier.told = self.carrier.told.__class__(**{**self.carrier.told.__dict__, "volumes": (*self.carrier.told.volumes, (FILES, 1))})
        self.assertEqual(self.look(3).rows, [None] * FILES)  # (nodes with an earlier plan)

    def test_plans(self):
        """Answers by one plan are counted, by the latest that told; and of a place that of the node that stands there."""
        self.nodes.losses[0] = 1
        self.assertEqual((self.look().rows, self.carrier.clock), ([None] * FILES, 0))
        self.nodes.losses.update(dict.fromkeys((2, 3), 1))
        self.assertEqual(self.look().left, set())
        self.nodes.numbers[1], self.nodes.losses[1] = 65, 1
        self.nodes.lacks.update((1, (0, file)) for file in range(FILES))
        self.carrier.deliver(*self.nodes(0, "plan")[0])
        self.assertEqual(self.look().left, set())
        self.assertEqual({node for node, _ in looks_in(self.carrier)[-4:]} | {65}, {0, 2, 3, 65})
        self.nodes.store((0, 0), Tag(5, 1), "6162", [3])  # (node 65 lacks the file, so that the other row has to tell)
        self.assertEqual(self.look().left, {0})

    def test_lost_amid(self):
        self.assertTrue(looking.lost_amid())

    def test_several_volumes_at_once(self):
        """Each is looked at as if it were alone: one of which a write is under way keeps no other one waiting, and a volume that is not there has no look."""
        self.nodes.store((0, 1), Tag(5, 2), "6162")
        self.nodes.store((1, 2), Tag(7, 1), "61", [1])
        self.nodes.silent.add(2)
        found = looks.looked_at(self.carrier, {0: [1], 1: None, 2: [3], 7: None}, 1e6)
        self.assertEqual({volume: look.left for volume, look in found.items()}, {0: {1}, 1: {2}, 2: set()})
        self.nodes.silent.clear()
        found = looks.looked_at(self.carrier, {0: [1], 1: None, 2: [3]}, 1e6)
        self.assertEqual({volume: look.left for volume, look in found.items()}, {0: set(), 1: set(), 2: set()})
        self.assertEqual((found[0].rows[1], found[1].rows[2]), (Row(2, Tag(5, 2)), Row(0, Tag(0, 0))))  # (by the row that the write did not reach)
        self.assertEqual(self.carrier.looks, {})

    def test_sessions_side_by_side(self):
        """Each look has its own answers, though all come over one connection."""
        one = looks.Look(self.carrier, SQUARE, 0, FILES, range(FILES))
        box = self.carrier.attach_looks([one.number])
        self.assertEqual((self.look().left, self.carrier.boxes[box].empty()), (set(), True))


class Names(unittest.TestCase):
    def setUp(self):
        self.nodes = Nodes()
        self.carrier = carrier_of(self.nodes)
        self.one, self.two = files_of(self.carrier), files_of(self.carrier, 2)

    def cost(self, call, *words):
        self.nodes.counts.clear()
        told = call(*words)
        return told, dict(self.nodes.counts)

    def test_what_names_cost(self):
        self.one.put("a", b"1")
        self.two.put("b", b"2")
        for files, call, words, counts in (
            (self.one, "put", ("a", b"3"), {"look": 4, "read": 1, "write": 2}),
            (self.one, "put", ("a", b"4"), {"look": 4, "write": 2}),
            (self.one, "get", ("a",), {"look": 4}),
            (self.two, "get", ("a",), {"look": 4, "read": 1}),
            (self.two, "get", ("b",), {"look": 4}),
            (self.two, "names", (), {"look": 4}),
        ):
            self.assertEqual(self.cost(getattr(files, call), *words)[1], counts, (call, words))
        self.assertEqual(self.two.get("a")[0], b"4")
        self.assertEqual(self.one.session.counts["looks"], 4)

    def test_what_is_not_settled_is_read(self):
        """A write that reached one node alone: an operation is asked, which decides."""
        self.one.put("a", b"1")
        self.two.get("a")
        self.nodes.store(PAGE, Tag(9, 1), self.nodes.greatest(PAGE)[1], [1])
        self.nodes.silent.add(2)
        (content, _), counts = self.cost(self.two.get, "a")
        self.nodes.silent.clear()
        self.assertEqual((content, counts), (b"1", {"look": 3, "read": 1}))
        self.assertEqual(self.cost(self.two.get, "a")[1], {"look": 4})

    def test_much_that_is_not_settled_is_listed(self):
        for file in range(3):
            self.nodes.store((0, file), Tag(9, file % 2 + 1), "", [3])
        self.nodes.silent.add(1)
        self.assertEqual(self.cost(self.one.session.look, 0)[1]["list"], 1)

    def test_nodes_of_before(self):
        nodes = Nodes(looks.LOOK_FORM - 1)
        self.nodes, files = nodes, files_of(carrier_of(nodes))
        files.put("a", b"1")
        self.assertEqual(self.cost(files.get, "a")[1], {"list": 1})

    def test_another_client_of_the_session(self):
        """Who has carried a page, and sees another one there, is told, whether the look or a read shows it."""
        for is_settled in (True, False):
            self.one.put("a", b"1")
            tag, content = self.nodes.greatest(PAGE)
            self.nodes.store(PAGE, Tag(tag.number + 1, 1), content, [0, 2] if is_settled else [1])
            self.nodes.silent.update(set() if is_settled else {2})
            with self.assertRaises(SessionTaken):
                self.one.get("a")
            self.nodes.silent.clear()

    def test_an_answer_to_somebody_else(self):
        """A page that is read after a look, and is older, was read by another client of the session."""
        self.one.put("a", b"1")
        self.one.put("a", b"2")
        play = self.nodes.ask

        def ask(place, kind, *words):
            return play(place, kind, *words[:2], "1", "3") if kind == "read" else play(place, kind, *words)

        self.two.session.read(0, 0)
        self.nodes.ask = ask
        with self.assertRaises(SessionTaken):
            self.two.get("a")

    def test_no_such_name(self):
        with self.assertRaises(NoSuchName):
            self.one.get("a")
        self.assertEqual(self.cost(self.two.names)[1], {"look": 4})


if __name__ == "__main__":
    unittest.main()
