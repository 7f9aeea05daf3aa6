"""Who answers, what that comes to for a grid, what a tenant has used, and how long a command waits."""

import contextlib
import dataclasses
import os
import sys
import tempfile
import time
import tomllib
import unittest
from unittest import mock

sys.path.insert(0, os.path.dirname(os.path.abspath(__file__)))
from histories import HERE, Killed
from in_slots import OldClient
from memory import Memory
from test_names import kill_at
from test_sessions import Home, Played

import gridfs_client
from gridfs_grid import carrier as grid_carrier
from gridfs_client import PlanTold, Unanswered
from gridfs_client.answers import parse
from gridfs_client.asking import FEW, LAST_CALL, SILENCE, ask_all, ask_others, ask_plan, ask_soon, why_unanswered
from gridfs_client.errors import BadSettings, CarrierFault, SessionTaken
from gridfs_client.grid import Nodes, Shape, possible_shapes
from gridfs_client.opening import OpenSessions, soon_of
from gridfs_client.settings import Settings
from gridfs_client.status import nodes_lines, nodes_value, usage_lines, usage_value
from gridfs_client.usage import usage_of

PLAN = "plan 4 0 4 3000 16 8.16 64.2"


def nodes_of(count, silent, said=None, new_nodes=(), forms=None):
    return Nodes(PlanTold(count, 0, 2, 300, 16, (), new_nodes), frozenset(silent), said, forms or {})


class Grids(unittest.TestCase):
    def test_what_silence_comes_to(self):
        two = Shape(2, 2)
        for silent, told, goes_on in (
            ((), "all 4 nodes answer", True),
            ((3,), "node 3 is silent", True),
            ((0, 1), "nodes 0 and 1 are silent: no column is wholly up", False),
            ((0, 2), "nodes 0 and 2 are silent: no row is wholly up", False),
            ((0, 3), "nodes 0 and 3 are silent: no row and no column is wholly up", False),
            ((0, 1, 2, 3), "nodes 0, 1, 2 and 3 are silent: no row and no column is wholly up", False),
        ):
            nodes = nodes_of(4, silent, two)
            self.assertEqual((nodes.summary(), nodes.goes_on()), (told, goes_on))
        self.assertEqual(nodes_of(6, (1, 5), Shape(2, 3)).summary(), "nodes 1 and 5 are silent: no row is wholly up")
        self.assertEqual(nodes_of(6, (1, 4), Shape(2, 3)).summary(), "nodes 1 and 4 are silent: no row is wholly up")
        self.assertEqual(nodes_of(6, (1, 2), Shape(2, 3)).goes_on(), True)
        self.assertEqual(nodes_of(6, (1, 2), Shape(3, 2)).goes_on(), False)

    def test_an_arrangement_that_is_not_said(self):
        """A square is drawn, and what depends on it is told with an if, or is not known."""
        self.assertEqual(nodes_of(4, (0, 1)).summary(), "nodes 0 and 1 are silent: no column is wholly up, if the grid is 2 by 2")
        self.assertEqual(nodes_of(6, (1, 2)).summary(), "nodes 1 and 2 are silent")
        self.assertEqual({(it.rows, it.columns) for it in possible_shapes(12)}, {(2, 6), (3, 4), (4, 3), (6, 2)})
        for count, silent, goes_on in ((4, (3,), True), (4, (0, 1), False), (6, (), True), (6, (1, 2), None), (6, (0, 1, 2, 3, 5), False), (2, (1,), False)):
            self.assertEqual(nodes_of(count, silent).goes_on(), goes_on, (count, silent))
        # Rows 0 and 1 of 4 by 4 and a node of row 2 are up: no column of the square is, and one of 2 by 8 would be.
        self.assertIsNone(nodes_of(16, set(range(9, 16))).goes_on())

    def test_what_is_told(self):
        nodes = nodes_of(4, (67,), Shape(2, 2), (67,))
        lines = nodes_lines(nodes)
        self.assertEqual(lines[:5], ["grid: 2 by 2", "  row 0    0    1", "  row 1    2  (67)", "node 67 is silent", "wholly up: row 0, column 0"])
        self.assertEqual(lines[5:], ["session 1: home 0", "session 2: home 1"])
        self.assertIn("session 2: home 1, silent", nodes_lines(nodes_of(4, (1,))))
        value = nodes_value(nodes)
        self.assertEqual(value["nodes"][3], {"node": 67, "row": 1, "column": 1, "answers": False, "form": None})
        self.assertEqual((value["rows_up"], value["columns_up"], value["goes_on"], value["is_arrangement_said"]), ([0], [0], True, True))
        self.assertEqual(value["sessions"], [{"session": 1, "home": 0, "answers": True}, {"session": 2, "home": 1, "answers": True}])
        unknown = nodes_value(nodes_of(6, (1, 2)))
        self.assertEqual(unknown.keys(), value.keys())
        self.assertEqual((unknown["rows"], unknown["rows_up"], unknown["nodes"][0]["row"], unknown["goes_on"]), (None,) * 4)
        self.assertEqual(nodes_lines(nodes_of(6, ()))[:2], ["grid: 6 nodes; how they are arranged is not said (--grid)", "all 6 nodes answer"])

    def test_forms(self):
        """Which nodes that answer speak an earlier form of lines than others."""
        for forms, silent, told in (
            ({}, (), []),
            ({0: 1, 1: 1, 2: 1, 67: 1}, (), []),
            ({0: 1, 1: 1, 2: 0, 67: 1}, (), ["node 2 speaks form 0 of lines, others form 1: its program is of before"]),
            ({0: 0, 1: 1, 2: 0, 67: 1}, (), ["nodes 0 and 2 speak form 0 of lines, others form 1: their program is of before"]),
            ({0: 0, 1: 3, 2: 2, 67: 0}, (), ["nodes 0 and 67 speak form 0 of lines, others form 3: their program is of before", "node 2 speaks form 2 of lines, others form 3: its program is of before"]),
            ({0: 1, 1: 1, 2: 0, 67: 1}, (2,), []),
            ({0: 1, 2: 0, 3: 0}, (), ["node 2 speaks form 0 of lines, others form 1: its program is of before"]),  # (3 was lost)
        ):
            nodes = nodes_of(4, silent, Shape(2, 2), (67,), forms)
            self.assertEqual(nodes.of_before(), told)
            lines = nodes_lines(nodes)
            self.assertEqual(lines[lines.index(nodes.summary()) + 1 :][: len(told)], told)
            self.assertEqual(sum("form" in line for line in lines), len(told))
            wanted = [None if node in silent else forms.get(node) for node in (0, 1, 2, 67)]
            self.assertEqual([it["form"] for it in nodes_value(nodes)["nodes"]], wanted)

    def test_settings(self):
        self.assertEqual(Settings({"grid": "2x3"}).shape(), Shape(2, 3))
        self.assertIsNone(Settings({}).shape())
        for wrong in ("2", "2 by 2", "0x4", "9x1", "2x2x2", "", "x"):
            with self.assertRaises(BadSettings, msg=wrong):
                Settings({"grid": wrong}).shape()

    def test_version(self):
        with open(os.path.join(HERE, "..", "..", "clients", "python", "pyproject.toml"), "rb") as file:
            self.assertEqual(tomllib.load(file)["project"]["version"], gridfs_client.__version__)


class Answering(unittest.TestCase):
    """Nodes that are played: those that are up tell what the tenant has."""

    def carrier(self, up, told=PLAN):
        return Played(lambda node, body: [(str(node), told)] if body == "plan" and node in up else [])

    def test_silent_nodes(self):
        for up in ({0, 1, 2, 3}, {1, 3}, {2}):
            carrier = self.carrier(up)
            ask_plan(carrier)
            begun = carrier.clock
            self.assertEqual(ask_all(carrier, SILENCE, None).silent, {0, 1, 2, 3} - up)
            self.assertEqual(carrier.clock - begun, 0 if len(up) == 4 else SILENCE)

    def test_lost_lines(self):
        """Nodes whose answer is lost are asked again, those that have answered are not."""
        lost = []

        def play(node, body):
            if node == 3 and lost.count(3) < 2:
                lost.append(node)
                return []
            return [(str(node), PLAN)]

        carrier = Played(play)
        carrier.learn(PlanTold(4, 0, 4, 3000, 16, ()))
        self.assertEqual(ask_all(carrier, SILENCE, None).silent, set())
        self.assertEqual([node for node, _ in carrier.sent], [0, 1, 2, 3, 3, 3])

    def test_new_nodes(self):
        """One node has the plan by which another one stands at place 3: that one is asked too, and the lost one is not missed."""

        def play(node, body):
            return [(str(node), PLAN + " 67" * (node == 1))] if node in (0, 1, 2, 67) else []

        carrier = Played(play)
        ask_plan(carrier)
        nodes = ask_all(carrier, SILENCE, Shape(2, 2))
        self.assertEqual((nodes.silent, nodes.told.new_nodes), (frozenset(), (67,)))

    def test_forms_that_nodes_tell(self):
        """By the word `lines` of what they tell that the tenant has; a node of before tells none."""
        carrier = Played(lambda node, body: [(str(node), PLAN + " lines=1" * (node in (0, 1)))])
        ask_plan(carrier)
        self.assertEqual(ask_all(carrier, SILENCE, None).of_before(), ["nodes 2 and 3 speak form 0 of lines, others form 1: their program is of before"])
        carrier.coming.clear()
        carrier.play = lambda node, body: [(str(node), PLAN + " lines=2" * (node != 3) + " more=x")]
        carrier.clock += 60
        self.assertEqual(ask_all(carrier, SILENCE, None).of_before(), ["node 3 speaks form 0 of lines, others form 2: its program is of before"])

    def test_answers_that_are_not_known(self):
        """A node tells what the tenant has in words that lack what a client wants: it is told, in one line."""
        for told in ("plan 4 0 4 3000", "plan", "plan 4 0 4 3000 16 lines=x"):
            carrier = Played(lambda node, body, told=told: [(str(node), told)] if node == 2 else [])
            with self.assertRaisesRegex(Unanswered, f"^no node answered in 30 s; node 2 tells what the tenant has in words that are not known here: {told}$"):
                ask_plan(carrier)

    def test_only_answers_of_the_time(self):
        carrier = self.carrier({0, 1, 2, 3})
        ask_plan(carrier)
        ask_all(carrier, SILENCE, None)
        carrier.coming.clear()
        carrier.play = lambda node, body: []
        carrier.clock += 60
        self.assertEqual(ask_all(carrier, SILENCE, None).silent, {0, 1, 2, 3})

    def test_why(self):
        carrier = self.carrier({2, 3})
        self.assertEqual(why_unanswered(carrier, None), "")  # (nobody has told which nodes there are)
        ask_plan(carrier)
        begun = carrier.clock
        self.assertEqual(why_unanswered(carrier, Shape(2, 2)), "nodes 0 and 1 are silent: no column is wholly up")
        self.assertEqual(carrier.clock - begun, LAST_CALL)
        self.assertIn("if the grid is 2 by 2", why_unanswered(carrier, Shape(2, 3)))  # (which these four nodes are not)
        self.assertEqual(why_unanswered(self.asked({0, 1, 2, 3}), None), "all 4 nodes answer")
        with mock.patch.object(carrier, "receive", side_effect=CarrierFault("the lines have ended")):
            self.assertEqual(why_unanswered(carrier, None), "")

    def asked(self, up):
        carrier = self.carrier(up)
        ask_plan(carrier)
        return carrier


class Ticks(unittest.TestCase):
    """When the carrier of `./grid` over pipes gives ticks."""

    def test_a_node_that_is_silent(self):
        carrier = grid_carrier.Carrier([mock.Mock(), mock.Mock()], None, None, 0.2)
        carrier.carry_lines_of(2_097_407, 2.2, 0.3)
        carrier.next_tick, carrier.given_tick = 102.2, 100
        with mock.patch("time.monotonic", lambda: 101.0):
            for line in (b"1 0 ann 1 5 1 0 0 copy 7 1 00", b"1 0 speaks 3", b"1 0 joins 0"):
                carrier.note_asked(line)
            self.assertEqual(carrier.tick_due(101.0), 102.2)
            carrier.note_asked(b"1 0 ann 1 5 1 0 0 ask")
            self.assertAlmostEqual(carrier.tick_due(101.0), 101.3)
            carrier.nodes[1].child = None  # (it is known to be down)
            self.assertAlmostEqual(carrier.tick_due(101.0), 100.3)
            carrier.note_asked(b"1 0 ann seeks 1 1 0")
            self.assertEqual(carrier.tick_due(101.0), 102.2)
            self.assertAlmostEqual(carrier.tick_due(112.0), 100.3)
            carrier.asked.clear()  # (as where it tells something)
            self.assertEqual(carrier.tick_due(112.0), 102.2)


class Waiting(unittest.TestCase):
    """How long a command waits, by the clock of nodes that are played."""

    def opened(self, carrier, folder, name="", **more):
        told = ask_plan(carrier)
        return OpenSessions(Settings({"tenant": "ann", "session": "all", "timeout": "30", "helpers": "3", "locks": folder, **more}), told, carrier, name, 0)

    def test_no_home_answers(self):
        """All homes are silent: what is left once none answered soon is divided, and all is over in the time for an answer."""
        for sessions, timeout in ((1, 30), (4, 30), (16, 30), (4, 1)):
            carrier = Played(lambda node, body, plan=f"plan 4 0 {sessions} 3000 16 8.16": [(str(node), plan)] if body == "plan" else [])
            with tempfile.TemporaryDirectory() as folder, self.assertRaisesRegex(Unanswered, f"no session was answered in {timeout} s, of 1"):
                self.opened(carrier, folder, timeout=str(timeout)).first()
            self.assertLessEqual(carrier.clock, timeout * 1.01)
            self.assertGreater(carrier.clock, timeout * 0.95)

    def test_what_comes_after(self):
        """Two homes are silent, and the third one answers until the session has begun: the time that was spent on the others is taken off."""
        home = Home(2)

        def play(node, body):
            if body == "plan":
                return [(str(node), "plan 4 0 4 3000 16 8.16 64.2")]
            return home(node, body) if node == 2 and not body.startswith("write") else []

        carrier = Played(play)
        with tempfile.TemporaryDirectory() as folder:
            sessions = self.opened(carrier, folder, session="1-3")
            sessions.numbers.sort()
            session = sessions.first()
            self.assertEqual((session.number, round(carrier.clock, 1)), (3, 4))
            with self.assertRaisesRegex(Unanswered, r"^session 3: no answer to its write from node 2 in 25.5 s$"):
                session.write(0, 2, b"")
            self.assertLessEqual(carrier.clock, 30.1)
            sessions.close()

    def test_a_home_that_is_down(self):
        """It is passed over once others told that they are up, and it did not; and so it is noted."""
        homes = [Home(node) for node in range(4)]

        def play(node, body):
            return [] if node == 0 else [(str(node), PLAN)] if body == "plan" else homes[node](node, body)

        carrier = Played(play)
        with tempfile.TemporaryDirectory() as folder:
            with contextlib.closing(self.opened(carrier, folder)) as sessions:
                sessions.numbers.sort()
                self.assertEqual(sessions.first().number, 2)
                self.assertLess(carrier.clock, 0.7)
                self.assertTrue(carrier.is_unheard(0))
            self.assertEqual(sessions.settings.lately_silent(), {0})

    def test_a_home_whose_connection_is_refused(self):
        homes, carrier = [Home(node) for node in range(4)], None

        def play(node, body):
            return [] if node == 0 else [(str(node), PLAN)] if body == "plan" else homes[node](node, body)

        carrier = Played(play)
        with tempfile.TemporaryDirectory() as folder, contextlib.closing(self.opened(carrier, folder)) as sessions:
            sessions.numbers.sort()
            carrier.has_broken = lambda node, since: node == 0
            carrier.coming.append(("1", PLAN))
            self.assertEqual(sessions.first().number, 2)
            self.assertLess(carrier.clock, 0.2)

    def test_homes_that_are_well(self):
        """One that is up and late is not passed over, as while it goes round a silent node; nor is one noted that was late, and told something in the end."""
        homes, late, begun = [Home(node) for node in range(4)], 0.0, []

        def play(node, body):
            if body == "plan":
                return [(str(node), PLAN)]
            if node == 0 and body.startswith("read") and carrier.clock < begun[0] + late:
                return []
            return homes[node](node, body)

        for late, number, noted in ((0.6, 1, set()), (60, 2, set())):
            carrier = Played(play)
            begun[:] = [carrier.clock]
            with tempfile.TemporaryDirectory() as folder:
                with contextlib.closing(self.opened(carrier, folder)) as sessions:
                    sessions.numbers.sort()
                    self.assertEqual(sessions.first().number, number)
                    ask_all(carrier, 1, None)
                self.assertEqual(sessions.settings.lately_silent(), noted)

    def test_how_long_a_home_may_take(self):
        """By the plan: its longest letter sets the tick of those that go round a silent node."""
        self.assertEqual([round(soon_of(dataclasses.replace(parse(PLAN), most=most)), 1) for most in (16, 1024, 16_384)], [2, 2.5, 10])

    def test_who_is_silent_is_told_soon(self):
        for up, least, most in (({0, 1, 2, 3}, 0, 0.1), ({0, 1, 2}, 0.5, 1)):
            carrier = Played(lambda node, body, up=up: [(str(node), PLAN)] if node in up else [])
            ask_plan(carrier)
            begun = carrier.clock
            self.assertEqual(ask_soon(carrier, None).silent, {0, 1, 2, 3} - up)
            self.assertTrue(least <= carrier.clock - begun <= most, carrier.clock)

    def test_the_first_command_after_a_death(self):
        """Who has not answered soon after others is asked after them: a session is taken whose home asks none that is silent, and nothing else is waited for."""
        homes = [Home(node) for node in range(4)]
        for dead, first in ((3, 1), (0, 4), (1, 3), (2, 2)):

            def play(node, body, dead=dead):
                return [] if node == dead else [(str(node), PLAN + " lines=3 rows=2 columns=2")] if body == "plan" else homes[node](node, body)

            carrier = Played(play)
            with tempfile.TemporaryDirectory() as folder:
                begun = carrier.clock
                ask_plan(carrier)
                ask_others(carrier, begun)
                self.assertEqual(round(carrier.clock - begun, 2), FEW)
                for name in ("a", "b", "c", "d"):
                    with contextlib.closing(self.opened(carrier, folder, name=name)) as sessions:
                        self.assertEqual((sessions.first().number, sessions.numbers[-1]), (first, dead + 1), (dead, name))
                        self.assertEqual(round(carrier.clock - begun, 2), FEW)
                self.assertEqual(sessions.settings.lately_silent(), set())  # (in so short a time a node may be busy)

    def test_nodes_that_are_not_waited_for(self):
        """Those whose connection is refused, those that were silent lately, and none where all answer."""
        for up, refused, but, seconds in (({0, 1, 2, 3}, set(), set(), 0), ({0, 1, 2}, {3}, set(), 0), ({0, 1, 2}, set(), {3}, 0), ({0, 1}, {2}, {0}, FEW)):
            carrier = self.carrier_of(up)
            carrier.has_broken = lambda node, since, refused=refused: node in refused
            begun = carrier.clock
            ask_plan(carrier)
            ask_others(carrier, begun, but)
            self.assertEqual(round(carrier.clock - begun, 2), seconds, (up, refused, but))
            self.assertEqual({node for node in range(4) if carrier.is_unheard(node)}, {0, 1, 2, 3} - up)

    def test_status_of_a_node_that_refuses(self):
        carrier = self.carrier_of({0, 1, 2})
        carrier.has_broken = lambda node, since: node == 3
        ask_plan(carrier)
        begun = carrier.clock
        self.assertEqual((ask_soon(carrier, None).silent, carrier.clock - begun), ({3}, 0))

    def carrier_of(self, up):
        return Played(lambda node, body: [(str(node), PLAN)] if body == "plan" and node in up else [])

    def test_what_was_silent_lately(self):
        """The next commands go to other homes first, for a minute."""
        homes = [Home(node) for node in range(4)]

        def play(node, body):
            if body == "plan":
                return [(str(node), "plan 4 0 4 3000 16 8.16 64.2")]
            return homes[node](node, body) if node else []

        with tempfile.TemporaryDirectory() as folder:
            for age, seconds in ((0, 2), (0, 0), (50, 0), (61, 2), (-5, 2)):
                carrier = Played(play)
                for note in [note for note in os.listdir(folder) if note.endswith(".silent")]:
                    os.utime(os.path.join(folder, note), (time.time() - age,) * 2)
                with contextlib.closing(self.opened(carrier, folder)) as sessions:
                    sessions.numbers.sort(key=lambda number: (sessions.is_late(number), number))
                    session = sessions.first()
                    self.assertEqual((session.number, round(carrier.clock)), (2, seconds), age)
                    self.assertEqual({each.number for each in sessions.helpers()}, {3, 4})
            with contextlib.closing(self.opened(Played(play), folder, session="1")) as sessions, self.assertRaises(Unanswered):
                sessions.first()

    def test_how_often_a_node_was_given_up(self):
        """A home that is dead is waited for once, whatever is asked then; that is told."""
        homes = [Home(node) for node in range(4)]

        def play(node, body):
            return [(str(node), PLAN)] if body == "plan" else homes[node](node, body) if node else []

        carrier = Played(play)
        with tempfile.TemporaryDirectory() as folder, contextlib.closing(self.opened(carrier, folder)) as sessions:
            sessions.numbers.sort()
            session = sessions.first()
            self.assertEqual(sessions.in_words(), "session 2 of node 1; silent: 0 (given up 1 time)")
            self.assertEqual({each.number for each in sessions.helpers()}, {3, 4})
            self.assertEqual({sessions.another(home, carrier.now() + 10) is None for home in (session.home, 2)}, {False})
            self.assertEqual(carrier.given_up, {0: 1, 1: 1, 2: 1})

    def test_another_session(self):
        """In place of one whose home died of what it was asked: others, each home once, in the time that is left."""
        homes = [Home(node) for node in range(4)]

        def play(node, body):
            return [(str(node), "plan 4 0 4 3000 16 8.16 64.2")] if body == "plan" else homes[node](node, body)

        carrier = Played(play)
        with tempfile.TemporaryDirectory() as folder, contextlib.closing(self.opened(carrier, folder)) as sessions:
            first = sessions.first()
            self.assertTrue(sessions.can_leave(first))
            left = {first.home}
            for _ in range(3):
                session = sessions.another(first.home, carrier.now() + 10)
                self.assertNotIn(session.home, left)
                self.assertEqual(session.pace.timeout, 10)
                left.add(session.home)
                first = session
            self.assertFalse(session.may_leave)
            self.assertIsNone(sessions.another(first.home, carrier.now() + 10))
            self.assertEqual(sessions.settings.lately_silent(), left)

    def test_little_time_is_left(self):
        """A node told late what the tenant has: a session is tried all the same."""
        home = Home(0)
        carrier = Played(lambda node, body: [(str(node), "plan 1 0 1 3000 16 8.16")] if body == "plan" else home(node, body))
        with tempfile.TemporaryDirectory() as folder:
            told = ask_plan(carrier)
            carrier.clock = 31.0
            sessions = OpenSessions(Settings({"tenant": "ann", "session": "all", "timeout": "30", "helpers": "3", "locks": folder}), told, carrier, "", 0)
            self.assertEqual(sessions.first().read(0, 0).content, b"")
            sessions.close()

    def test_sessions_that_are_used(self):
        """The wait for one that others use ends; and it is not taken off the time for an answer."""
        home = Home(0)

        def play(node, body):
            if body == "plan":
                return [(str(node), "plan 1 0 1 3000 16 8.16")]
            return home(node, body)

        for freed in (None, 20):
            carrier, home.last = Played(play), 0
            with tempfile.TemporaryDirectory() as folder:
                sessions = self.opened(carrier, folder)
                lock = sessions.settings.lock(1)

                def sleep(seconds):
                    carrier.clock += seconds
                    if freed and carrier.clock > freed:
                        lock.close()

                with mock.patch("time.sleep", sleep), lock:
                    if not freed:
                        with self.assertRaisesRegex(SessionTaken, "session all is used by other commands"):
                            sessions.first()
                        self.assertEqual(round(carrier.clock), 30)
                        continue
                    session = sessions.first()
                self.assertAlmostEqual(session.pace.timeout, 30 - LAST_CALL, 1)
                sessions.close()


    def test_a_silent_home_and_sessions_that_are_used(self):
        """One home is silent, and the session of the other one comes free: it is waited for, and the silent one is tried once."""
        home = Home(1)

        def play(node, body):
            if body == "plan":
                return [(str(node), "plan 2 0 2 3000 16 8.16")]
            return home(node, body) if node == 1 else []

        for freed in (None, 20):
            carrier, home.last = Played(play), 0
            with tempfile.TemporaryDirectory() as folder:
                sessions = self.opened(carrier, folder)
                lock = sessions.settings.lock(2)

                def sleep(seconds):
                    carrier.clock += seconds
                    if freed and carrier.clock > freed:
                        lock.close()

                with mock.patch("time.sleep", sleep), lock:
                    if not freed:
                        with self.assertRaisesRegex(SessionTaken, "session all is used by other commands"):
                            sessions.first()
                        self.assertLess(carrier.clock, 34)
                        continue
                    session = sessions.first()
                self.assertEqual(session.number, 2)
                self.assertLess(carrier.clock, 21)
                self.assertGreater(session.pace.timeout, 25)
                sessions.close()


class Used(unittest.TestCase):
    def test_usage(self):
        memory = Memory(sessions=2, pages=2, slots=8)
        empty = usage_of(memory.client(1))
        self.assertEqual((empty.names, empty.bytes_used, empty.names_in_slots, empty.bytes_in_slots, empty.pages), (0, 0, 0, 0, 4))
        self.assertNotIn("in slots", "".join(usage_lines(empty, None)))
        old = OldClient(memory.client(1).session, memory.layout)
        old.put("a", b"x" * 300)
        old.put("joined", b"x" * 20, b"y" * 30)
        memory.client(2).put("b", b"x" * 200)
        memory.client(2).put("c", b"in the line")
        used = usage_of(memory.client(1))
        self.assertEqual((used.names, used.bytes_used, used.names_in_slots, used.bytes_in_slots), (4, 561, 2, 350))
        self.assertIn("in slots, from before chunks: 2 names, 350 bytes (docs/SLOTS.md)", usage_lines(used, None))
        self.assertEqual(usage_value(used, None)["in_slots"], {"names": 2, "bytes": 350})
        pages = [memory.layout.page(session, page) for session in (1, 2) for page in (0, 1)]
        longest = max((len(memory.read(place).content.partition(b"\n")[2]), place) for place in pages)
        self.assertEqual((used.fullest.bytes, memory.layout.page(used.fullest.session, used.fullest.page)), longest)
        self.assertEqual(used.fullest.percent, 100 * longest[0] // (memory.layout.page_room * 7 // 8))

    def test_what_is_told(self):
        memory = Memory()
        value = usage_value(usage_of(memory.client(1)), None)
        left_out = usage_value(None, "no row is wholly up")
        self.assertEqual(value.keys(), left_out.keys())
        self.assertEqual((left_out["names"], left_out["left_out"]), (None, "no row is wholly up"))
        self.assertEqual(usage_lines(None, "no row is wholly up"), ["names, pages, bytes: left out: no row is wholly up"])


if __name__ == "__main__":
    unittest.main()
