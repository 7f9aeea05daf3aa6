"""Chunks of one session: contents of at most 1 MiB, each written once at all nodes of a column, and read from any of them (docs/CHUNKS.md).

Numbers of chunks are drawn, and not the clock's alone: a clock that went back could give the number of a chunk that is there. With the
same bytes a node says `kept`. Then two lines would name one chunk, and the first removal would take it from both.
"""

import random
import threading
import time
from collections import deque
from collections.abc import Callable, Collection, Generator, Iterable, Iterator, Sequence
from dataclasses import dataclass
from weakref import WeakKeyDictionary

from . import chunk_lines
from .answers import MOST_PLACES, PlanTold
from .carriers import Carrier
from .chunk_lines import CHUNK_CHARGE, ROOM, ChunkTold
from .errors import Damaged, NoRoom, Unanswered
from .grid import Shape, listed
from .runs import MOST_NUMBER, Place, Run, runs_of
from .sessions import DOUBT, QUIET, SHARE, Pace
from .uplinks import LOOK, Sent, Uplink, uplink_of

MOST_AHEAD = 6 << 20  # bytes of chunks under way over a connection, and the first one of each content besides
MOST_AT_A_TIME = 16  # chunks of a content that are under way at a time, however short they are
MOST_NOTED = 10_000  # runs that nodes have not forgotten yet: what is more is found by a sweep
MOST_QUESTIONS = 64  # short ones that are under way at a time
FIRST_MOMENT, MOMENTS = 1_767_225_600, 100  # the beginning of 2026; moments in a second
IN_A_MOMENT = 1 << 20  # numbers of a moment
SOON = 2.0  # seconds for an answer that nothing rests on
LONG, MOST_SLOW = 1 << 16, 20.0  # bytes of what tells how slow a connection is, and how often as long as reckoned it is thought to take
FULL = 0.05  # seconds until it is looked again whether a line may be sent
LEAST = 0.001  # seconds for which answers are looked for at least
ROOM_LASTS = 5.0  # seconds for which what was told of room is believed
MORE_ROOM = "once all nodes and all clients are of this version, a later plan has to give it some (a wish of tools/plan: more NAME 16G in chunks; docs/SLOTS.md)"


@dataclass(frozen=True)
class Wanted:
    """A chunk to read: where it is and how long, and which bytes of it are wanted."""

    place: Place
    size: int
    first: int
    length: int


@dataclass(frozen=True)
class Room:
    """What a node tells of a tenant's room for chunks there: bytes used and allowed, the losses of its column, and whether it lacks chunks."""

    used: int
    allowed: int
    losses: int
    lacks: bool

    @property
    def free(self) -> int:
        return max(0, self.allowed - self.used)


Rooms = dict[int, Room]


class Ahead:
    """What all sessions of a connection share: the bytes of chunks that are under way, and what nodes told of room last."""

    def __init__(self) -> None:
        self.bytes, self.guard, self.downlink = 0, threading.Lock(), Uplink()
        self.slow: dict[Uplink, float] = {}  # how often as long as reckoned what goes one way takes
        self.rooms: Rooms = {}
        self.without: tuple[int, ...] = ()  # nodes that told that they keep no chunks
        self.asked = self.looked = float("-inf")
        self.turn = 0

    def add(self, count: int) -> None:
        with self.guard:
            self.bytes += count

    def learn(self, way: Uplink, ratio: float) -> None:
        """Something long took so often as long as was reckoned. (Lines that are sent again too soon make a slow connection slower.)"""
        slow = self.slow.get(way, 1.0)
        self.slow[way] = min(ratio, MOST_SLOW) if ratio > slow else max(1.0, 0.9 * slow)

    def look_for_nodes(self, carrier: Carrier) -> None:
        """Asks who stands in the place of a node that does not answer, where nobody did a moment ago."""
        if carrier.now() > self.looked + LOOK:
            self.looked, self.turn = carrier.now(), self.turn + 1
            carrier.ask_nodes(self.turn)

    def has_room(self, count: int) -> bool:
        """Whether one more chunk of a content may be under way beside so many of it."""
        return not count or count < MOST_AT_A_TIME and self.bytes < MOST_AHEAD


class Window:
    """How many chunks of a content may be under way at a time: more with each that is done soon, fewer where one takes long, as over a slow connection."""

    def __init__(self, pace: Pace):
        self.soon, self.count, self.longest = pace.timeout / 8, 1, 0.0

    def done(self, seconds: float) -> None:
        self.longest = max(self.longest, seconds)
        self.count = self.count + 1 if seconds < self.soon else max(1, self.count - 1)


AHEAD: WeakKeyDictionary[Carrier, Ahead] = WeakKeyDictionary()


class Line:
    """A line to the node at a place, which is sent again until it is answered. So many bytes go over the connection for it, one way or the other."""

    def __init__(self, chunks: "Chunks", place: int, body: bytes, size: int, way: Uplink):
        self.chunks, self.place, self.body, self.size, self.way = chunks, place, body, size, way
        self.patience = chunks.pace.again
        self.first: Sent | None = None
        self.sent: Sent | None = None
        self.begun = float("inf")  # when its turn came
        self.sent_at = float("inf")
        self.is_doubted = False  # whether the node was asked for something short besides
        self.length = 0.0  # seconds that it takes
        self.pause = self.held = 0.0  # seconds in which nobody took answers, since it was sent last and in all
        self.has_room = self.is_answered = False

    def left(self) -> float:
        """Seconds until it is to be sent, or again."""
        if not self.sent:
            return 0
        left = self.sent.left()
        if self.sent.again is not None:
            self.begun = min(self.begun, self.chunks.carrier.now())
        return left + self.pause

    def note_held(self, seconds: float) -> None:
        self.pause += seconds
        self.held += seconds

    def waited(self) -> float:
        """Seconds for which it waits, since those before it had left, without those that it takes itself."""
        return max(0.0, self.chunks.carrier.now() - self.begun - self.length - self.held)

    def send(self) -> bool:
        """Sends it; not where others have to be answered before, or to leave."""
        carrier, length = self.chunks.carrier, self.size / self.chunks.pace.rate * self.chunks.ahead.slow.get(self.way, 1.0)
        node = self.chunks.node_at(self.place)
        if carrier.would_lose(node, len(self.body)):
            return False
        self.has_room = self.has_room or uplink_of(carrier).begin_waiting(len(self.body))
        if self.has_room:
            if self.first:
                self.chunks.ahead.look_for_nodes(carrier)
            carrier.send(node, self.body)
            self.sent = Sent(self.way, carrier.now, length, self.patience * self.chunks.draw.uniform(0.8, 1.2) + length)
            self.first, self.pause, self.length, self.sent_at = self.first or self.sent, 0.0, length, carrier.now()
            self.patience = min(2 * self.patience, self.chunks.pace.again_at_most)
        return self.has_room

    def end(self, is_answered: bool = False) -> None:
        if is_answered and self.first:
            self.way.note_left(self.chunks.carrier.now(), self.first.end)
            if not self.is_answered and self.size > LONG:
                self.chunks.ahead.learn(self.way, (self.chunks.carrier.now() - self.begun - self.held) * self.chunks.pace.rate / self.size)
        if self.has_room:
            uplink_of(self.chunks.carrier).end_waiting(len(self.body))
        self.has_room, self.is_answered = False, is_answered


class Keeping:
    """A chunk on its way to all nodes of a column. It is kept once all of them told so with one P, which is how many losses of the column their plan tells:
    an answer of a node that was lost since does not count beside later ones."""

    def __init__(self, chunks: "Chunks", column: int, number: int, content: bytes):
        self.column, self.number, self.content, self.begun = column, number, content, chunks.carrier.now()
        self.told: dict[int, set[int]] = {}  # by P
        body = chunk_lines.keep(chunks.number, number, content)
        self.lines = {place: Line(chunks, place, body, len(body), uplink_of(chunks.carrier)) for place in chunks.shape.column(column)}

    def open_lines(self) -> list[Line]:
        """Those of places that have not told the greatest P."""
        latest = self.told.get(max(self.told, default=0), set())
        return [line for place, line in self.lines.items() if place not in latest]

    def take(self, place: int, losses: int) -> None:
        self.told.setdefault(losses, set()).add(place)
        self.lines[place].end(True)

    def is_kept(self) -> bool:
        return any(len(places) == len(self.lines) for places in self.told.values())

    def end(self) -> None:
        for line in self.lines.values():
            line.end(line.is_answered)


class Getting:
    """A chunk that is asked for, of one node of its column after another."""

    def __init__(self, chunks: "Chunks", wanted: Wanted, window: Window):
        self.window = window  # of the content that it is of
        self.chunks, self.wanted, self.begun = chunks, wanted, chunks.carrier.now()
        column, session, number = wanted.place
        places = list(chunks.shape.column(column))
        turn = chunks.turn = chunks.turn + 1
        order = [places[(turn + at) % len(places)] for at in range(len(places))]
        self.places = deque(sorted(order, key=chunks.is_silent))
        self.body = b"get %d %d %d %d" % (session, number, wanted.first, wanted.length)
        self.told: dict[int, str] = {}  # of places that told something else
        self.rounds = len(places)  # places that were not asked yet
        self.content: bytes | None = None
        self.is_gone = False
        self.first_place = self.places[0]
        self.line = self.next_line()

    def next_line(self) -> Line:
        place = self.places[0]
        self.places.rotate(-1)
        return Line(self.chunks, place, self.body, self.wanted.length, self.chunks.ahead.downlink)

    def ask_next(self, is_silent: bool) -> None:
        """Asks the next one that told nothing yet. Where all were asked once, and one told that there is no such chunk, it is gone. Where none of them has it, it is lost."""
        self.rounds -= 1
        if self.rounds <= 0 and "none" in self.told.values():
            self.is_gone = True
            return
        left = [place for place in self.places if place not in self.told]
        if not left:
            raise Damaged(f"no node has {self.name()}: {'; '.join(f'{word} at {listed(self.nodes(word))}' for word in sorted(set(self.told.values())))}")
        old = self.line
        if is_silent:
            self.chunks.give_up(old.place)
        while self.places[0] not in left:
            self.places.rotate(-1)
        old.end()
        self.line = self.next_line()
        self.line.first, self.line.begun, self.line.held = old.first, old.begun, old.held
        if is_silent:
            self.line.patience = old.patience

    def doubt(self) -> float:
        """Seconds until it is looked whether the node is up, where others have the chunk and nothing came of it since it was asked; 0: it is silent."""
        carrier, node, line = self.chunks.carrier, self.chunks.node_at(self.line.place), self.line
        if not carrier.tells_parts or len(self.places) < 2 or self.chunks.is_silent(line.place) or not line.sent:
            return LOOK
        since = carrier.now() - max(line.sent_at + line.pause, carrier.stirs(node))
        if since >= DOUBT and not line.is_doubted:
            line.is_doubted = True
            carrier.send(node, b"plan")
        return max(0.0, (DOUBT if since < DOUBT else QUIET) - since)

    def name(self) -> str:
        column, session, number = self.wanted.place
        return f"chunk {number} of session {session} at column {column}"

    def nodes(self, word: str) -> list[int]:
        return sorted(self.chunks.node_at(place) for place, told in self.told.items() if told == word)

    def take(self, told: ChunkTold) -> None:
        place, wanted = told.node % MOST_PLACES, self.wanted
        if self.is_told() or place in self.told or place not in self.places or (told.word == "got" and told.numbers != (wanted.size, wanted.first)):
            return
        self.chunks.silent.discard(place)
        if told.word == "got":
            if len(told.content) == min(wanted.length, wanted.size - wanted.first):
                self.content = told.content
                self.window.done(self.chunks.carrier.now() - self.begun - self.line.held)
                self.line.end(place == self.first_place)
        elif told.word in ("none", "lacks", "damaged"):
            self.told[place] = told.word
            if place == self.line.place:
                self.line.end(True)
                self.ask_next(False)

    def is_told(self) -> bool:
        return self.content is not None or self.is_gone


@dataclass(frozen=True)
class Question:
    """What is asked of the node at a place: the line, and the word and the key of its answer."""

    place: int
    body: bytes
    word: str
    key: tuple[int, int]


Told = dict[Question, ChunkTold]
Progress = Callable[[int], None]


class Asking:
    """Questions under way: each is asked until it is answered, as long as somebody has it go on."""

    def __init__(self, chunks: "Chunks", questions: Iterable[Question]):
        self.chunks, self.left, self.asked, self.found = chunks, deque(questions), dict[Question, Line](), dict[Question, ChunkTold]()
        self.refusing = set[int]()  # places of nodes that told `refused bad` meanwhile: it names no line
        self.box, self.begun = chunks.carrier.attach_chunks({ROOM: None, **{question.key: None for question in self.left}}), chunks.carrier.now()

    def go_on(self, seconds: float) -> bool:
        """Asks what is due, and takes an answer that comes in so many seconds; whether it was one of these."""
        chunks, count = self.chunks, len(self.found)
        while self.left and len(self.asked) < MOST_QUESTIONS:
            question = self.left.popleft()
            self.asked[question] = Line(chunks, question.place, question.body, len(question.body), uplink_of(chunks.carrier))
        wait = chunks.send_due(self.asked.values())
        answer = chunks.carrier.receive(self.box, max(0, min(wait, seconds)))
        if isinstance(answer, ChunkTold):
            self.refusing.update([answer.node % MOST_PLACES] * (answer.word == "bad"))
            for question in [each for each in self.asked if chunks.is_answer(each, answer)]:
                self.asked.pop(question).end(True)
                self.found[question] = answer
                chunks.silent.discard(question.place)
        return len(self.found) > count

    @property
    def is_over(self) -> bool:
        return not self.left and not self.asked

    def end(self) -> None:
        self.chunks.carrier.detach(self.box)
        for line in self.asked.values():
            line.end()


class Chunks:
    """The chunks of one session, and what it reads of those of others. One call at a time."""

    new_draw: Callable[[], random.Random] = random.Random  # others in tests

    def __init__(self, carrier: Carrier, told: PlanTold, number: int, shape: Shape, pace: Callable[[], Pace], draw: random.Random | None = None):
        self.carrier, self.told, self.number, self.shape, self.pace_now = carrier, told, number, shape, pace
        self.draw = draw or self.new_draw()
        self.ahead = AHEAD.setdefault(carrier, Ahead())
        self.last = 0  # number that was used
        self.turn = number
        self.silent: set[int] = set()  # places that did not answer soon
        self.refusing: set[int] = set()  # places that told `refused bad` in place of an answer that was waited for last
        self.unneeded: list[Run] = []  # what may be kept somewhere, and nothing is to name
        self.forgetting: tuple[Asking, dict[Question, Run]] | None = None  # what nodes are asked to forget meanwhile

    def another(self) -> "Chunks":
        """For calls beside those of this one."""
        return Chunks(self.carrier, self.told, self.number, self.shape, self.pace_now)

    @property
    def pace(self) -> Pace:
        return self.pace_now()

    def node_at(self, place: int) -> int:
        return (self.carrier.told or self.told).node_at(place)

    def is_silent(self, place: int) -> bool:
        """Whether the node did not answer when it was asked last, whoever asked."""
        return place in self.silent or self.carrier.is_unheard(self.node_at(place))

    def give_up(self, place: int) -> None:
        """Its node did not answer: others are asked."""
        self.silent.add(place)
        self.carrier.given_up[self.node_at(place)] += 1

    def moment(self) -> int:
        """The clock's number."""
        return max(0, int((time.time() - FIRST_MOMENT) * MOMENTS)) * IN_A_MOMENT

    def begin_above(self, number: int) -> None:
        """Numbers from now on are above this one, and above all that were used here. A draw sees to it that nobody else has them, should the clock go back.
        Unanswered where there are no more: a client may have had nodes forget all of them."""
        self.last = max(self.last, number, self.moment()) + self.draw.randrange(IN_A_MOMENT // 2)
        if self.last > MOST_NUMBER - IN_A_MOMENT:
            why = "nodes keep no more chunks of it, since a client had them forget nearly all numbers that there are"
            raise Unanswered(f"session {self.number}: {why}; use other sessions (`session`)")

    # Short questions

    def ask(self, questions: Sequence[Question], seconds: float, is_enough: Callable[[Told, float], bool] = lambda *_: False) -> Told:
        """Asks until all is answered, no answer came for so many seconds, or it is enough, of what was told after so many seconds. What was told."""
        asking = Asking(self, questions)
        until = asking.begun + seconds
        try:
            while not asking.is_over and (now := self.carrier.now()) < until and not is_enough(asking.found, now - asking.begun):
                if asking.go_on(until - now):
                    until = self.carrier.now() + seconds
        finally:
            self.refusing = asking.refusing & {question.place for question in asking.asked}
            asking.end()
        return asking.found

    def is_answer(self, question: Question, answer: ChunkTold) -> bool:
        return answer.node == self.node_at(question.place) and answer.key == question.key and answer.word in (question.word, "bad")

    def send_due(self, lines: Iterable[Line]) -> float:
        """Sends what is due; seconds until something is again."""
        wait = LOOK
        for line in lines:
            if line.left() <= 0 and not line.send():
                wait = min(wait, FULL)
                continue
            wait = min(wait, max(line.left(), LEAST))
        return wait

    # Room

    def rooms(self, lasts: float = ROOM_LASTS) -> Rooms:
        """What the node at each place that answers has room for, as it was told so many seconds ago at most; nothing where the tenant has no room for chunks.
        Unanswered where no node tells it."""
        if self.carrier.now() > self.ahead.asked + lasts and self.ask_rooms(self.pace.timeout) is None:
            raise Unanswered(f"session {self.number}: no node told its room for chunks in {self.pace.timeout:g} s")
        return self.ahead.rooms

    def why_no_room(self) -> str:
        """Why the tenant has no room for chunks, as nodes told it last, and what to do. (One whose plan gives room to nobody answers as one of before chunks.)"""
        without = self.ahead.without
        what = f"node{'s' * (len(without) > 1)} {listed(without)} keep{'s' * (len(without) == 1)} no chunks" if without else "the plan gives the tenant none for chunks"
        return f"{what}; {MORE_ROOM}"

    def allowed(self) -> int | None:
        """The bytes that the columns may have in all, as far as it was told. None where no node told it."""
        if self.ahead.asked < 0:
            return None
        every = ([self.ahead.rooms[place].allowed for place in self.shape.column(column) if place in self.ahead.rooms] for column in range(self.shape.columns))
        return sum(max(allowed, default=0) for allowed in every)

    def room_told(self) -> tuple[int, int]:
        """The bytes that are used in all columns, and those that are left, as it was told last: of each column by its fullest node."""
        columns = ([self.ahead.rooms[place] for place in self.shape.column(column) if place in self.ahead.rooms] for column in range(self.shape.columns))
        found = [(max(room.used for room in here), min(room.free for room in here)) for here in columns if here]
        return sum(used for used, _ in found), sum(free for _, free in found)

    def ask_rooms(self, seconds: float) -> Rooms | None:
        """The same, asked for anew; None where no node answers in so many seconds."""
        places = range(self.told.nodes)
        found = self.ask([Question(place, b"room", "room", ROOM) for place in places], seconds, self.is_enough)
        self.silent |= set(places) - {question.place for question in found}
        if not found:
            return None
        rooms = rooms_in(found)
        self.ahead.rooms = rooms if any(room.allowed for room in rooms.values()) else {}
        self.ahead.without = tuple(sorted(told.node for told in found.values() if told.word == "bad"))
        self.ahead.asked = self.carrier.now()
        return self.ahead.rooms

    def is_enough(self, told: Told, seconds: float) -> bool:
        """Whether others need not be waited for: each had some time, or is silent, and a column is up or nobody gives room."""
        rooms, answered = rooms_in(told), {question.place for question in told}
        is_over = seconds > self.pace.again or all(place in answered or self.is_silent(place) for place in range(self.told.nodes))
        return is_over and bool(told) and (bool(self.usable(rooms)) or not any(room.allowed for room in rooms.values()))

    def usable(self, rooms: Rooms) -> dict[int, int]:
        """The columns all of whose nodes answer and give room, each with the free bytes of the fullest node."""
        found = {}
        for column in range(self.shape.columns):
            here = [rooms.get(place) for place in self.shape.column(column)]
            if all(room and room.allowed for room in here):
                found[column] = min(room.free for room in here if room)
        return found

    def column_for(self, rooms: Rooms, size: int, least: int, but: Collection[int] = ()) -> int | None:
        """A column for so many bytes, but none of these: the session's own, unless others have twice its room or it has too little, else the one with the most.
        None where no other is up and has room for the least of them."""
        usable = {column: free for column, free in self.usable(rooms).items() if column not in but and free >= least}
        own = (self.told.home + self.number - 1) % self.told.nodes % self.shape.columns
        most = max(usable.values(), default=0)
        if usable.get(own, 0) >= max(min(size, most), most // 2, 1):
            return own
        return max(usable, key=lambda column: usable[column]) if usable else None

    # Writing

    def keep(self, pieces: Iterator[bytes], column: int, progress: Progress | None = None) -> tuple[Run, ...]:
        """Keeps these contents, each as a chunk, at all nodes of this column, or of others from where it is silent or full; where they are. Whatever else was
        begun is noted as unneeded. NoRoom, Unanswered: all of it is."""
        return Keeper(self, column, progress or (lambda done: None)).run(pieces)

    def not_needed(self, runs: Iterable[Run]) -> None:
        """No line names these, and none that could still be seen."""
        self.unneeded += runs

    @property
    def has_unneeded(self) -> bool:
        return bool(self.unneeded or self.forgetting)

    def forget_unneeded(self, seconds: float = SOON) -> bool:
        """Has the nodes forget what is noted as unneeded, as far as they answer soon one after another: what is left stays noted. Whether all did."""
        self.end_forgetting()
        runs, self.unneeded = self.unneeded, []
        self.unneeded = self.forget(runs, seconds, waits=False)[:MOST_NOTED]
        return not self.unneeded

    def begin_to_forget(self) -> None:
        """Asks the nodes to forget what is noted, or some of it, and waits for nobody: what they told since is taken by the next call."""
        if self.forgetting is None and self.unneeded:
            runs, self.unneeded = self.unneeded, []
            asked = self.to_forget(runs, 0)
            self.forgetting = Asking(self, asked), asked
        if self.forgetting:
            asking = self.forgetting[0]
            while asking.go_on(0):
                pass
            if asking.is_over or self.carrier.now() > asking.begun + SOON:
                self.end_forgetting()

    def end_forgetting(self) -> None:
        """What was begun by then, and not told, is noted again, behind the rest."""
        if self.forgetting:
            asking, asked = self.forgetting
            self.forgetting = None
            asking.end()
            self.unneeded = [*self.unneeded, *dict.fromkeys(run for question, run in asked.items() if question not in asking.found)][:MOST_NOTED]

    def to_forget(self, runs: Iterable[Run], floor: int) -> dict[Question, Run]:
        """What the nodes of their columns are asked for."""
        return {
            Question(place, b"forget %d %d %d %d" % (run.session, max(floor, run.last), run.first, run.last), "forgot", (run.session, run.first)): run
            for run in runs
            for place in self.shape.column(run.column)
        }

    def forget(self, runs: Iterable[Run], seconds: float, floor: int = 0, waits: bool = True) -> list[Run]:
        """Has the nodes of their columns forget these, for good: no number up to the last of a run, or to the floor, is kept any more. Those of which not all nodes
        told so; those that are silent may be waited for."""
        asked = self.to_forget(runs, floor)
        told = self.ask(list(asked), seconds, lambda told, _: not waits and all(question in told or self.is_silent(question.place) for question in asked))
        return list(dict.fromkeys(run for question, run in asked.items() if question not in told))

    def raise_floors(self, session: int, floor: int, places: Iterable[int], seconds: float) -> set[int]:
        """Has nodes keep nothing of a session up to this number any more; the places of those that told so."""
        questions = [Question(place, b"forget %d %d 1 0" % (session, floor), "forgot", (session, 1)) for place in places]
        return {question.place for question in self.ask(questions, seconds)}

    def numbers_at(self, place: int, session: int) -> Iterator[int]:
        """The numbers of a session at a node, rising. Unanswered."""
        after = 0
        while True:
            question = Question(place, b"chunks %d %d" % (session, after), "chunks", (session, after))
            told = self.ask([question], self.pace.timeout).get(question)
            if told is None or told.word == "bad":
                raise Unanswered(f"session {session}: node {self.node_at(place)} does not tell its chunks")
            yield from (number for number, _ in told.rows)
            if told.is_end or not told.rows:
                return
            after = told.rows[-1][0]

    def greatest(self, number: int) -> int:
        """The greatest number of the session that nodes tell soon, where that is above this one; else this one."""
        while True:
            questions = [Question(place, b"chunks %d %d" % (self.number, number), "chunks", (self.number, number)) for place in range(self.told.nodes)]
            before, number = number, max([number, *(told.rows[-1][0] for told in self.ask(questions, SOON).values() if told.rows)])
            if number == before:
                return number

    # Reading

    def get(self, wanted: Iterable[Wanted]) -> Generator[bytes | None, None, None]:
        """The bytes that are wanted of these chunks, in their order; None for one that was forgotten. Damaged where no node has one sound; Unanswered."""
        left = iter(wanted)
        under_way: deque[Getting] = deque()
        known: dict[tuple[int, int], Getting] = {}
        box, ahead, window = self.carrier.attach_chunks(known), 0, Window(self.pace)
        try:
            coming = next(left, None)
            while True:
                # (A chunk that is wanted twice is asked for anew once the first was told: an answer names the chunk alone.)
                while coming and coming.place[1:] not in known and len(under_way) < window.count and self.ahead.has_room(len(under_way)):
                    under_way.append(Getting(self, coming, window))
                    known[coming.place[1:]] = under_way[-1]
                    ahead += coming.length
                    self.ahead.add(coming.length)
                    coming = next(left, None)
                if not under_way:
                    return
                if under_way[0].is_told():
                    first = under_way.popleft()
                    known.pop(first.wanted.place[1:], None)
                    ahead -= first.wanted.length
                    self.ahead.add(-first.wanted.length)
                    begun = self.carrier.now()
                    yield first.content
                    for getting in under_way:
                        getting.line.note_held(self.carrier.now() - begun)
                    continue
                self.turn_of_gets(box, known, under_way)
        finally:
            self.ahead.add(-ahead)
            self.carrier.detach(box)
            for getting in under_way:
                getting.line.end()

    def turn_of_gets(self, box: int, known: dict[tuple[int, int], Getting], under_way: Iterable[Getting]) -> None:
        """Takes an answer, or asks again what is due."""
        waiting = [getting for getting in under_way if not getting.is_told()]
        wait = self.send_due(getting.line for getting in waiting if not getting.line.sent)
        wait = min([wait, *(min(getting.line.left(), getting.doubt()) for getting in waiting if getting.line.sent)])
        answer = self.carrier.receive(box, max(wait, LEAST))
        if isinstance(answer, ChunkTold) and answer.key in known:
            known[answer.key].take(answer)
        elif answer is None:
            for getting in waiting:
                if (waited := getting.line.waited()) > self.pace.timeout:
                    raise Unanswered(f"session {self.number}: no node told {getting.name()} in {round(waited, 1):g} s")
                if getting.line.sent and (getting.line.left() <= 0 or getting.doubt() <= 0):
                    getting.ask_next(True)


def rooms_in(told: Told) -> Rooms:
    return {
        question.place: Room(answer.numbers[0], answer.numbers[1], answer.numbers[2], bool(answer.numbers[3]))
        for question, answer in told.items()
        if answer.word == "room"
    }


class Keeper:
    """The keeping of one content."""

    def __init__(self, chunks: Chunks, column: int, progress: Progress):
        self.chunks, self.column, self.progress = chunks, column, progress
        self.left: set[int] = set()  # columns that were
        self.places: dict[int, Place] = {}  # of each piece that is kept
        self.under_way: dict[int, Keeping] = {}  # of each that is not yet
        self.by_key: dict[tuple[int, int], int] = {ROOM: -1}  # (by which it is told, too, that a node takes a line for none)
        self.refusing: set[int] = set()  # places that told so
        self.begun: list[Place] = []  # all numbers that may be kept somewhere
        self.ahead, self.window = 0, Window(chunks.pace)

    def run(self, pieces: Iterator[bytes]) -> tuple[Run, ...]:
        chunks, count, ended = self.chunks, 0, False
        chunks.begin_above(0)
        box = chunks.carrier.attach_chunks(self.by_key)
        try:
            while True:
                while not ended and len(self.under_way) < self.window.count and chunks.ahead.has_room(len(self.under_way)):
                    piece = next(pieces, b"")
                    if not piece:
                        ended = True
                        break
                    self.begin(count, piece)
                    count += 1
                    self.ahead += len(piece)
                    chunks.ahead.add(len(piece))
                if not self.under_way:
                    break
                wait = chunks.send_due(line for keeping in self.under_way.values() for line in keeping.open_lines())
                answer = chunks.carrier.receive(box, wait)
                if isinstance(answer, ChunkTold):
                    self.take(answer)
                else:
                    self.look_at_time()
        except BaseException:
            chunks.not_needed(runs_of(self.begun))
            raise
        finally:
            chunks.ahead.add(-self.ahead)
            chunks.carrier.detach(box)
            for keeping in self.under_way.values():
                keeping.end()
        named = set(self.places.values())
        chunks.not_needed(runs_of(place for place in self.begun if place not in named))
        return runs_of(self.places[at] for at in range(count))

    def begin(self, at: int, content: bytes) -> None:
        number = self.chunks.last = self.chunks.last + 1
        self.begun.append((self.column, self.chunks.number, number))
        self.under_way[at] = Keeping(self.chunks, self.column, number, content)
        self.by_key[self.chunks.number, number] = at

    def again(self, at: int) -> None:
        """Has a piece kept under another number, at the column that is chosen now."""
        keeping = self.under_way[at]
        keeping.end()
        self.by_key.pop((self.chunks.number, keeping.number), None)
        self.begin(at, keeping.content)

    def take(self, told: ChunkTold) -> None:
        at = self.by_key.get(told.key, -1)
        if told.word == "bad":
            self.refusing.add(told.node % MOST_PLACES)
        if at < 0:
            return
        keeping, place = self.under_way[at], told.node % MOST_PLACES
        if place not in keeping.lines:
            return
        self.chunks.silent.discard(place)
        if told.word == "kept":
            keeping.take(place, told.numbers[0])
            if keeping.is_kept():
                self.note_kept(at, keeping)
        elif told.word == "refused room":
            self.leave([at], f"node {told.node} has room for {told.numbers[0]} bytes of chunks more", NoRoom)
        elif told.word == "refused full":
            self.leave([at], f"the disk of node {told.node} has no space for chunks", NoRoom)
        elif told.word == "refused below":
            self.chunks.begin_above(told.numbers[0])
            self.again(at)
        elif told.word in ("refused differs", "damaged"):
            # (who has the number is not known: it must not be forgotten)
            self.begun.remove((keeping.column, *told.key))
            self.chunks.begin_above(told.key[1] + IN_A_MOMENT)
            self.again(at)

    def note_kept(self, at: int, keeping: Keeping) -> None:
        keeping.end()
        self.window.done(self.chunks.carrier.now() - keeping.begun)
        self.places[at] = keeping.column, self.chunks.number, keeping.number
        del self.under_way[at], self.by_key[self.chunks.number, keeping.number]
        self.ahead -= len(keeping.content)
        self.chunks.ahead.add(-len(keeping.content))
        self.progress(len(self.places))

    def look_at_time(self) -> None:
        """Leaves the column for another one where a node of it was silent for long; Unanswered where it was for too long."""
        waited, line = max(((line.waited(), line) for keeping in self.under_way.values() for line in keeping.open_lines()), key=lambda each: each[0])
        timeout = self.chunks.pace.timeout
        if waited > max(timeout / SHARE, 2 * self.window.longest) and self.column not in self.left or waited > timeout:
            self.chunks.give_up(line.place)
            told = f"node {self.chunks.node_at(line.place)} of column {self.column} did not keep a chunk in {round(waited, 1):g} s"
            if line.place in self.refusing:
                told += ", and told `refused bad`"
            self.leave(sorted(self.under_way), f"session {self.chunks.number}: {told}", None if waited <= timeout else Unanswered)

    def leave(self, which: Sequence[int], why: str, fault: type[NoRoom] | type[Unanswered] | None) -> None:
        """Goes on at another column, with those of these that are under way at this one; the fault where there is none, without one it goes on waiting."""
        if any(self.under_way[at].column == self.column for at in which):
            self.left.add(self.column)
            sizes = [len(self.under_way[at].content) + CHUNK_CHARGE for at in which]
            column = self.chunks.column_for(self.chunks.ask_rooms(SOON) or {}, sum(sizes), max(sizes), self.left)
            if column is None:
                if fault:
                    raise fault(why)
                return
            self.column = column
        for at in which:
            if self.under_way[at].column != self.column:
                self.again(at)
