"""What `./grid try` shows: nodes are killed (kill -9) amid writes and start again, one is lost with its journal and replaced, and all that
was acknowledged is there."""

import time

FILES = 16
NAME, SESSIONS = "ann", 4
DEAD = 1  # the node that is killed alone
LOST = 2  # the node whose journal is lost
LONGEST = 30  # seconds that the others have


def text_of(content):
    return "" if content == "-" else bytes.fromhex(content).decode()


class Trial:
    """Writes and reads files, and keeps what was acknowledged of each."""

    def __init__(self, grid):
        self.grid, self.acknowledged, self.gone, self.wrong = grid, {}, 0, 0

    def say(self, text):
        print(f"\n{text}", flush=True)

    def note(self, text):
        print(f"    {text}", flush=True)

    def show(self, asked, answer):
        self.note(f"{asked:40}{answer}")

    def count(self, word):
        """How many files were acknowledged with a text that begins so."""
        return sum(text.startswith(word) for text in self.acknowledged.values())

    def write(self, file, text, is_shown):
        """Has a session write a file: it is acknowledged once that is told to be done."""
        number = file % SESSIONS + 1
        words = f"0 {file} {text.encode().hex()}"

        def told(answer):
            if answer.split()[1] == "done":
                self.acknowledged[file] = text
            else:
                self.gone += 1
            if is_shown or answer.split()[1] != "done":
                self.show(f"{NAME} write {number} {words}", answer)

        self.grid.ask(NAME, "write", number, words, told)

    def read(self, file, number, is_shown):
        """Has a session read a file, which has to be as it was acknowledged. (No other writes it.)"""

        def told(answer):
            words = answer.split()
            text = text_of(words[8]) if words[1] == "done" else None
            if is_shown:
                self.show(f"{NAME} read {number} 0 {file}", f"{answer}    ({text})")
            if text != self.acknowledged[file]:
                self.wrong += 1
                self.show(f"{NAME} read {number} 0 {file}", f"{answer}: not {self.acknowledged[file]}, which was acknowledged")

        self.grid.ask(NAME, "read", number, f"0 {file}", told)

    def write_all(self, word, shown):
        for file in range(FILES):
            self.write(file, f"{word} {file}", file < shown)

    def write_the_rest(self, word):
        """Writes those again that were not acknowledged with this word."""
        for file, text in sorted(self.acknowledged.items()):
            if not text.startswith(word):
                self.write(file, f"{word} {file}", False)
        self.grid.wait()

    def read_all(self):
        """Reads each file, by another session than wrote it."""
        for file in range(FILES):
            self.read(file, (file + 1) % SESSIONS + 1, file in (0, FILES - 1))
        self.grid.wait()

    def wait_for_the_others(self):
        """Waits until the sessions are answered whose home is up."""
        others = [number for number in range(1, SESSIONS + 1) if self.grid.homes[NAME, number] != DEAD]
        until = time.monotonic() + LONGEST
        while any(self.grid.session(NAME, number).unanswered() for number in others) and time.monotonic() < until:
            self.grid.turn(0.1)

    def kill(self, number):
        pid = self.grid.carrier.nodes[number].child.pid
        self.grid.kill(number)
        return f"node {number} (process {pid})"


def show(grid):
    """Shows it, and gives the status: 0 where all that was acknowledged was read."""
    trial = Trial(grid)
    trial.say(f"Each of {len(grid.carrier.nodes)} nodes is a process with a journal in {grid.folder}. {NAME} writes {FILES} files:")
    trial.write_all("first", 3)
    grid.wait()
    trial.note(f"{trial.count('first')} of {FILES} are done")

    trial.say(f"{NAME} writes them again, and node {DEAD} is killed meanwhile:")
    trial.write_all("second", 2)
    while not trial.count("second"):
        grid.turn(0.1)
    before = trial.count("second")
    trial.note(f"kill -9 of {trial.kill(DEAD)}")
    trial.wait_for_the_others()
    trial.note(f"done before that: {before} of {FILES}; since then, by the nodes that are left: {trial.count('second') - before}")
    trial.note(f"the sessions whose home is node {DEAD} wait")

    trial.say(f"Node {DEAD} starts again from its journal:")
    grid.start_node(grid.carrier.nodes[DEAD])
    grid.wait()
    if trial.gone:
        trial.note("(gone: the node does not know how this write ended, so it is asked for once more)")
    trial.write_the_rest("second")
    trial.note(f"{trial.count('second')} of {FILES} are done")

    trial.say("All nodes are killed, and start again:")
    trial.note(f"kill -9 of {', '.join(trial.kill(node.number) for node in grid.carrier.nodes)}")
    for node in grid.carrier.nodes:
        grid.start_node(node)
    trial.say(f"The journal of node {LOST} is lost, and a new node takes its place:")
    grid.lose(LOST)
    number = grid.replace(LOST).number
    grid.wait_for_files(number)
    trial.note(f"node {number} was given all files by the other node of its column")
    trial.say(f"{NAME} reads the files:")
    trial.read_all()
    if trial.wrong:
        trial.say(f"{trial.wrong} of {FILES} files are not as they were acknowledged.")
        return 1
    trial.say(f"All {FILES} files are as they were acknowledged.")
    return 0
