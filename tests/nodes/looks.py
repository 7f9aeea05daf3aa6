"""Looks in storms: now and then a tenant asks all nodes what they have of a volume, and counts what whole rows and columns tell. What that settles is a
read in the histories of the files, from when the look began to when it was counted; the content is the one that the tag has wherever else it was told.
It is written from docs/FORMATS.md, and not from the client."""

from processes import Wrong

MOST_TURNS = 60  # that a look goes on
CHANCE = 0.03  # that a turn begins one
PLACES = 64


class Looks:
    """The looks of a tenant, one after another."""

    def __init__(self, storm, name):
        self.storm, self.name = storm, name
        self.rows, self.columns = map(int, storm.plan.split("\n", 1)[0].split(" ")[1:])
        self.numbers = 0
        self.going = None

    def turn(self):
        """Goes on by a turn: a look begins, is asked once more, or has gone on for too long."""
        draw = self.storm.draw
        if self.going:
            if self.storm.turn - self.begun > MOST_TURNS:
                self.going = None
            elif draw.random() < 0.05:
                self.ask()
        elif draw.random() < CHANCE:
            self.volume = draw.randrange(len(self.storm.volumes[self.name]))
            self.numbers += 1
            self.begun, self.going, self.told = self.storm.turn, self.numbers, {}
            self.processes = []
            for file in range(self.files()):
                self.storm.processes += 1
                self.processes.append(self.storm.processes)
                self.note(file, "invoke", "nil")
            self.ask()

    def files(self):
        return self.storm.volumes[self.name][self.volume][0]

    def ask(self):
        for number in self.storm.standing():
            self.storm.send(b"%d %s look %d %d" % (number, self.name.encode(), self.going, self.volume))

    def note(self, file, stage, shown):
        self.storm.events.setdefault((self.name, self.volume, file), []).append((0, stage, self.processes[file], "read", shown))

    def hear(self, number, body):
        words = body.split(b" ")
        if self.going is None or words[:3] != [b"looked", b"%d" % self.going, b"%d" % self.volume]:
            return
        self.told.setdefault(int(words[3]), {})[number % PLACES] = words[4:]
        for answers in self.told.values():
            copies = [self.settled({place: row[file] for place, row in answers.items() if row[file] != b"-"}) for file in range(self.files())]
            if None not in copies:
                return self.end(copies)

    def settled(self, told):
        """The copy that a whole row and a whole column settle, if they do."""
        tag = lambda place: tuple(map(int, told[place].partition(b":")[2].split(b".")))
        for row in range(self.rows):
            places = range(row * self.columns, (row + 1) * self.columns)
            if all(place in told for place in places):
                best = max(places, key=tag)
                for column in range(self.columns):
                    places = range(column, self.rows * self.columns, self.columns)
                    if all(place in told and tag(place) >= tag(best) for place in places):
                        return told[best]
        return None

    def end(self, copies):
        """All files are settled, and each is a read; but for one whose content nothing has told yet, which stays open."""
        self.going = None
        name = self.name.encode()
        for file, copy in enumerate(copies):
            length, _, tag = copy.partition(b":")
            content = self.storm.tags.get((name, b"%d" % self.volume, b"%d" % file, *tag.split(b".")), b"" if tag == b"0.0" else None)
            if content is None:
                continue
            content = content.replace(b"-", b"")
            if len(content) != 2 * int(self.storm.by_name[name][0].length(length)):
                raise Wrong(f"{self.name} looks and is told {copy!r}, whose content is {content[:200]!r}")
            self.note(file, "ok", '"%s"' % content.decode())
            self.storm.looked += 1
